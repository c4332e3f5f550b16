// Questions to the server.

import {decodeAnswer} from "./decoding.mjs";
import {Disconnected} from "./connection.mjs";
import * as messages from "./messages.mjs";
import {need, tell} from "./store.mjs";

const BUSY = 1000;              // milliseconds until a busy server is asked again

/** @typedef {import("./types.mjs").Answers} Answers */
/** @typedef {import("./types.mjs").Refusal} Refusal */
/** @typedef {import("./types.mjs").WireAnswers} WireAnswers */

/** Ask whether an answer is a refusal.
 * @param {object} said
 * @returns {said is Refusal}
 */
const isRefusal = (said) => "refused" in said;

const always = () => true;

/** Ask a question. Return its answer, or the refusal, which is shown; null if the connection broke.
 * @template {keyof Answers} Verb
 * @param {Partial<Record<Verb, object>>} command
 * @param {object} how
 * @param {import("./connection.mjs").Turn} [how.turn]     when it is sent
 * @param {string[]} [how.quiet]        refusals not to show
 * @param {() => boolean} [how.isWanted]    whether a refusal is still worth showing
 * @param {string} [how.away]           the message if there is no connection
 * @returns {Promise<Answers[Verb] | Refusal | null>}
 */
export async function ask(command, {turn = "usual", quiet = [], isWanted = always, away = ""} = {}) {
  const connection = need("connection");
  const isAway = !connection.isAdmitted;
  const [verb] = /** @type {Verb[]} */ (Object.keys(command));
  try {
    const said = /** @type {WireAnswers[Verb] | Refusal} */ (await connection.ask(command, turn));
    if (!isRefusal(said)) return decodeAnswer(verb, said);
    const isShown = !quiet.includes(said.refused) && isWanted();
    if (isShown) tell(said.why ?? messages.refusedWithoutReason(said.refused), true);
    return said;
  } catch (fault) {
    if (!(fault instanceof Disconnected)) throw fault;
    if (isAway && away) tell(away, true);
    return null;
  }
}

/** Ask as `ask` does, but retry while the server is busy with another question of this page.
 * @template {keyof Answers} Verb
 * @param {Partial<Record<Verb, object>>} command
 */
export async function askUntilFree(command) {
  for (;;) {
    const said = await ask(command, {quiet: ["Busy"]});
    if (!said || !("refused" in said) || said.refused !== "Busy") return said;
    await new Promise((done) => { setTimeout(done, BUSY); });
  }
}
