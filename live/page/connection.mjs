// The connection to the server: numbered questions, their answers, and pushed messages.

/** @typedef {import("./types.mjs").Answers} Answers */
/** @typedef {Partial<Record<keyof Answers | "hello" | "seats", object>>} Command */
/** @typedef {import("./types.mjs").Pushed} Pushed */
/** @typedef {{id: number, refused?: string, why?: string}} Answer     with more fields */
/**
 * @typedef {object} Question
 * @property {Command} command
 * @property {(answer: Answer) => void} done
 * @property {(fault: Error) => void} fail
 * @property {Turn} turn
 */
/**
 * When a question is sent: commands that change something come first, questions for what is shown
 * next, and questions that take seconds last.
 * @typedef {"first" | "usual" | "last"} Turn
 */
/**
 * The part of a WebSocket that is used here.
 * @typedef {object} Socket
 * @property {number} readyState
 * @property {(text: string) => void} send
 * @property {() => void} close
 * @property {((event: Event) => void) | null} onopen
 * @property {((event: MessageEvent) => void) | null} onmessage
 * @property {((event: CloseEvent) => void) | null} onclose
 */

const MOST_OPEN = 6;            // open questions: the server refuses a ninth one
const MOST_FIRST = 3;           // of these: while a slow disk holds them up, others are answered
const MOST_LAST = 1;            // of these: each takes seconds, and would hold up all others
const FIRST_WAIT = 200;         // milliseconds before a retry, doubled for each one, up to LAST_WAIT
const LAST_WAIT = 5000;
const OPEN = 1;                 // the state of a socket that can be written to
export const TAKEN_OVER = 4001; // somebody took the seat over
const CLOSED_FOR_GOOD = [1008, 4000, TAKEN_OVER];

/** Call a function after some milliseconds, by the browser's clock.
 * @param {() => void} act
 * @param {number} wait
 */
const soon = (act, wait) => { setTimeout(act, wait); };

/** There is no connection, or it broke before the answer. */
export class Disconnected extends Error {}

/** The connection, and the questions on it. */
export class Connection {
  /**
   * @param {object} calls
   * @param {() => Socket} calls.open      makes a socket
   * @param {() => void} calls.onOpen    is called when the socket is open
   * @param {(value: Pushed) => void} calls.onPush    is called with a message that the server pushes
   * @param {(again: boolean, reason: string, code: number) => void} calls.onLost    is called when
   *   the connection breaks; `again`: it will be tried again
   * @param {(act: () => void, wait: number) => void} [calls.later]    calls a function after some
   *   milliseconds
   */
  constructor({open, onOpen, onPush, onLost, later = soon}) {
    this.openSocket = open;
    this.onOpen = onOpen;
    this.onPush = onPush;
    this.onLost = onLost;
    this.later = later;
    this.number = 0;            // of the last question that was sent
    this.tries = 0;
    this.isAdmitted = false;    // the server has admitted this tab: it may ask everything
    /** @type {Map<number, Question>} */
    this.questions = new Map();      // questions whose answer is awaited, by number
    /** @type {Question[]} */
    this.queue = [];            // questions that are not sent yet
    /** @type {Question[]} */
    this.first = [];            // questions to send before these, in their own order
    /** @type {Question[]} */
    this.last = [];             // questions to send after these, one at a time
    /** @type {Socket | null} */
    this.socket = null;
  }

  /** Open a socket. */
  connect() {
    this.socket = this.openSocket();
    this.socket.onopen = () => this.onOpen();
    this.socket.onmessage = ({data}) => this.receive(JSON.parse(data));
    this.socket.onclose = ({code, reason}) => this.fail(code, reason);
  }

  /** Ask a question. The promise fails with Disconnected if the connection breaks before the answer.
   * @param {Command} command
   * @param {Turn} [turn]
   * @returns {Promise<Answer>}
   */
  ask(command, turn = "usual") {
    return new Promise((done, fail) => {
      if (!this.isAdmitted && !command.hello && !command.seats) {
        fail(new Disconnected("there is no connection"));
        return;
      }
      const question = {command, done, fail, turn};
      ({first: this.first, usual: this.queue, last: this.last})[turn].push(question);
      this.sendNext();
    });
  }

  /** Send the questions that may be sent now. */
  sendNext() {
    while (this.questions.size < MOST_OPEN && this.socket?.readyState === OPEN) {
      const question = (this.countOpen("first") < MOST_FIRST && this.first.shift())
        || this.queue.shift() || (this.countOpen("last") < MOST_LAST && this.last.shift());
      if (!question) return;
      const id = ++this.number;
      this.questions.set(id, question);
      this.socket.send(JSON.stringify({id, ...question.command}));
    }
  }

  /** Return how many questions of a turn have no answer yet.
   * @param {Turn} turn
   */
  countOpen(turn) {
    return [...this.questions.values()].filter((one) => one.turn === turn).length;
  }

  /** Return how many questions are not sent yet. */
  countWaiting() {
    return this.first.length + this.queue.length + this.last.length;
  }

  /** Handle a message of the server.
   * @param {Answer | (Pushed & {id?: undefined})} value
   */
  receive(value) {
    if (value.id === undefined) {
      this.onPush(value);
      return;
    }
    this.questions.get(value.id)?.done(value);
    this.questions.delete(value.id);
    this.sendNext();
  }

  /** Close the socket without a retry: the server soon closes a connection that gives no name. */
  disconnect() {
    if (this.socket) {
      this.socket.onclose = null;
      this.socket.close();
    }
    this.takeQuestions();
  }

  /** Return the questions that have no answer yet, and forget them. */
  takeQuestions() {
    const asked = [...this.questions.values(), ...this.first, ...this.queue, ...this.last];
    this.questions.clear();
    [this.first, this.queue, this.last] = [[], [], []];
    return asked;
  }

  /** Let everything be asked from now on: the server has admitted this tab. */
  admit() {
    [this.isAdmitted, this.tries] = [true, 0];
  }

  /** Fail all questions, and connect again unless the server closed for good.
   * @param {number} code
   * @param {string} reason
   */
  fail(code, reason) {
    this.isAdmitted = false;
    for (const {fail} of this.takeQuestions()) fail(new Disconnected("the connection broke"));
    const again = !CLOSED_FOR_GOOD.includes(code);
    this.onLost(again, reason, code);
    const wait = Math.min(LAST_WAIT, FIRST_WAIT * 2 ** this.tries++);
    if (again) this.later(() => this.connect(), wait);
  }
}
