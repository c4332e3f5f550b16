"use strict";
// Transcripts: the lines of a script and the replies to them, read from files, as runs with
// pictures (rows) and counts. This script does not use the elements of the page.
//
// readLines(file, say, mayContinue)  listExchanges(files, say)  roleOf(lines)
// new Transcript(name, firstStep, say).take(exchange)  findDifferentPart(plan, other)

// 1. Lines. A transcript is a plan line and commands, with a reply to each.

const COMMANDS = ["edit", "withdraw", "import", "send", "heads", "beyond", "take", "advance",
                  "cells", "cars", "count", "diagram", "scenario", "crowd"];
const REPLY_FIELDS = ["open", "refused", "horizon", "stamp", "touched", "cells", "cars", "rows",
                      "edits", "message"];
const MOST_TEXT = 72e6;                  // characters of rows that are kept: eight large diagrams
const LONGEST_LINE = 16 * 1024 * 1024;   // twice the line of the largest diagram
const MOST_LINES = 2_000_002;            // of the longest script with its replies
const MOST_SENTENCES = 12;

const isObject = (value) =>
  typeof value === "object" && value !== null && !Array.isArray(value);

const isStep = (value) => Number.isInteger(value) && value >= 0 && value < 2 ** 32;

function kindOf(value) {
  if (!isObject(value)) return "other";
  if ("length" in value && "zones" in value && "inlets" in value) return "plan";
  const [name, ...more] = Object.keys(value);
  if (more.length === 0 && COMMANDS.includes(name) && isObject(value[name])) return "command";
  return REPLY_FIELDS.some((field) => field in value) ? "reply" : "other";
}

/** Return a line of a file as {number, kind, value}; the value has only what the page shows. */
function parseLine(text, number) {
  try {
    const value = JSON.parse(text);
    const kind = kindOf(value);
    const short = {command: shortCommand, reply: shortReply, plan: (plan) => plan}[kind];
    return {number, kind, value: short?.(value)};
  } catch {
    return {number, kind: "bad"};
  }
}

function shortReply({rows, cells, cars, speeds, refused, touched, stamp}) {
  return {rows: rows ?? (cells && [cells]), cars: Number.isInteger(cars) ? cars : undefined, speeds,
          refused, changed: Boolean(stamp) || Number.isInteger(touched)};
}

function shortCommand(value) {
  const [name] = Object.keys(value);
  const {at, step, from, to, detector, object, message, edits, value: put} = value[name];
  const what = message ?? (Array.isArray(object) ? object.join(" ") : null);
  return {name, at, from: from ?? step, to: to ?? step, detector,
          title: what === null ? name : `${name} ${what}`,
          edit: Array.isArray(object) ? {kind: object[0], index: object[1], step, put} : null,
          edits: name === "import" && Array.isArray(edits) ? edits.map(importedEdit) : null};
}

/** Return an edit of an import, [kind, index, step, count, number, put]. */
function importedEdit([kind, index, step, count, number, put]) {
  return {kind, index, step, put: put ?? undefined, stamp: [count, number]};
}

/** Cuts text that comes in pieces into lines. A line that is too long is left out. */
class LineCutter {
  constructor(take, tooLong) {
    Object.assign(this, {take, tooLong, parts: [], size: 0, number: 1});
  }
  add(text) {
    let start = 0;
    for (let end = text.indexOf("\n"); end >= 0; end = text.indexOf("\n", start)) {
      this.keep(text.slice(start, end));
      this.close();
      start = end + 1;
    }
    this.keep(text.slice(start));
  }
  keep(part) {
    this.size += part.length;
    if (this.size > LONGEST_LINE) this.parts = [];
    else if (part) this.parts.push(part);
  }
  close() {
    if (this.size > LONGEST_LINE) this.tooLong(this.number);
    else this.take(this.parts.join(""), this.number);
    Object.assign(this, {parts: [], size: 0, number: this.number + 1});
  }
  end() {
    if (this.size > 0) this.close();
  }
}

const megabytes = (bytes) => Math.ceil(bytes / 1e6);

/** Return the lines of a file. It is read piece by piece, so that the page stays responsive. Return
 * null if a newer reading has begun. */
async function readLines(file, say, mayContinue) {
  const lines = [];
  let kept = 0;
  const tell = (number, what) => say(`${file.name}, line ${number}: ${what}`);
  const cutter = new LineCutter((text, number) => {
    const line = parseLine(text, number);
    if (line.value?.rows) kept += text.length;
    if (line.value?.rows && kept > MOST_TEXT) {
      tell(number, `rows after the first ${megabytes(MOST_TEXT)} MB are left out.`);
      line.value.rows = undefined;
    }
    if (line.kind === "bad") tell(number, "not JSON.");
    if (line.kind === "other") tell(number, "not a plan, a command or a reply.");
    lines.push(line);
  }, (number) => {
    tell(number, "longer than any reply, so it is left out.");
    lines.push({number, kind: "bad"});
  });
  const reader = file.stream().getReader();
  const decoder = new TextDecoder();
  for (let read = 0, piece = await reader.read(); !piece.done; piece = await reader.read()) {
    read += piece.value.length;
    if (!mayContinue(file.name, read, file.size)) return null;
    cutter.add(decoder.decode(piece.value, {stream: true}));
    if (lines.length > MOST_LINES) {
      tell(MOST_LINES, "more lines than any run has: the rest is not read.");
      break;
    }
  }
  cutter.end();
  return lines;
}

// 2. Exchanges: each command with its reply, from one file or two.

const isReply = (line) => line.kind === "reply";

/** Return what the lines of a file are: "script", "replies" or "both". */
function roleOf(lines) {
  if (!lines.some(isReply)) return "script";
  return lines.some((line) => line.kind === "plan" || line.kind === "command") ? "both" : "replies";
}

const pairLines = (asked, answered) => asked.map((command, index) => [command, answered[index]]);

/** Return the exchanges of a file in which each command is followed by its reply. */
function splitExchanges(lines) {
  const exchanges = [];
  let open = null;
  for (const line of lines) {
    if (isReply(line) || (open && line.kind === "bad")) {
      exchanges.push([open, line]);
      open = null;
    } else {
      if (open) exchanges.push([open, undefined]);
      open = line;
    }
  }
  return open ? [...exchanges, [open, undefined]] : exchanges;
}

/** Return the exchanges of the files of one transcript. Report why and return null if there are
 * none. */
function listExchanges(files, say) {
  const by = (role) => files.filter((file) => file.role === role);
  const [both, script, replies] = ["both", "script", "replies"].map(by);
  const used = both.length ? [both[0]] : [script[0], replies[0]].filter(Boolean);
  for (const {name} of files.filter((file) => !used.includes(file))) {
    say(`${name} is left out: choose a script and its replies, or one file with both.`);
  }
  if (both.length) return splitExchanges(both[0].lines);
  if (!replies.length) {
    say(`${script[0].name} has no replies: choose the file of its replies together with it.`);
    return null;
  }
  if (!script.length) return replies[0].lines.map((line) => [null, line]);
  if (script[0].lines.length !== replies[0].lines.length) {
    say(`${script[0].name} has ${script[0].lines.length} lines and ${replies[0].name} has ` +
        `${replies[0].lines.length}: do they belong together?`);
  }
  return pairLines(script[0].lines, replies[0].lines);
}

// 3. Transcripts. A run is what a replica shows between two changes of its edits. It has pictures
//    (rows of consecutive steps) and the counts of its detectors.

class Transcript {
  constructor(name, firstStep, say) {
    Object.assign(this, {name, firstStep, say, plan: null, length: null, runs: []});
    this.changes = new Map();
  }

  tell(line, what) {
    this.say(`${this.name}, line ${line.number}: ${what}`);
  }

  /** Take an exchange. Return false if nothing after it can be read. */
  take([command, reply]) {
    if (command?.kind === "plan") return this.takePlan(command, reply);
    const told = reply?.value;
    if (!told) return true;
    const asked = command?.value ?? this.guess(told);
    if (told.refused !== undefined) this.tellRefusal(command, told.refused);
    else if (asked.name === "diagram" || asked.name === "cells") this.takeRows(asked, told, reply);
    else if (asked.name === "count") this.takeCount(asked, told, reply);
    else if (told.changed) this.change(asked);
    return true;
  }

  /** Note a change of a replica's edits. For each replica this keeps the number of changes,
   * the title of the last one, and all of them. A change by a message is kept as its title.
   * Imports are kept edit by edit if only imports came before them, because then it is known
   * which edits win. */
  change({at, title, edit, edits}) {
    const {count, made} = this.changesOf(at);
    const isFirst = made.every((one) => one.edits);
    made.push(edit ?? (edits && isFirst ? {edits} : {title}));
    this.changes.set(at, {count: count + 1, last: title, made});
  }

  changesOf(at) {
    return this.changes.get(at) ?? {count: 0, last: null, made: []};
  }

  takePlan(command, reply) {
    const refused = reply?.value?.refused;
    const fault = this.plan ? "a second plan: the rest is not read."
      : refused && `the program refused this plan (${refused}).`;
    if (fault) this.tell(command, fault);
    else Object.assign(this, {plan: command.value, length: command.value.length});
    return !fault;
  }

  /** Return a command for a reply without one. Its rows continue the rows before; counts have no
   * steps. */
  guess(told) {
    if (!told.rows) return {at: "replies"};
    const run = this.runOf("replies");
    const from = run.next ?? this.firstStep;
    run.next = from + told.rows.length;
    return {name: "diagram", at: "replies", from, to: run.next - 1};
  }

  tellRefusal(command, why) {
    if (!["diagram", "cells", "count"].includes(command?.value?.name)) return;
    this.tell(command, `this ${command.value.name} was refused (${why}).`);
  }

  /** Return the run of a replica with its present edits. */
  runOf(at) {
    const {count: changes, last, made} = this.changesOf(at);
    let run = this.runs.find((one) => one.at === at && one.changes === changes);
    if (!run) {
      run = {at, changes, last, made, pictures: [], counts: new Map()};
      this.runs.push(run);
    }
    return run;
  }

  takeRows(asked, told, reply) {
    const fault = this.faultOfRows(told.rows, asked);
    if (fault) this.tell(reply, fault);
    else addRows(this.runOf(asked.at), asked.from, told.rows);
  }

  faultOfRows(rows, {from, to}) {
    if (!Array.isArray(rows) || !rows.length) {
      return "no rows: are these the replies to this script?";
    }
    if (!isStep(from)) return "rows of a step that does not exist.";
    if (rows.length !== to - from + 1) return `${rows.length} rows for the steps ${from} to ${to}.`;
    if (!rows.every((row) => typeof row === "string" && /^[0-9.#]+$/.test(row))) {
      return "a row has a character that is not a digit, a point or #.";
    }
    this.length ??= rows[0].length;
    if (rows.every((row) => row.length === this.length)) return null;
    return `rows whose length differs from the road's ${this.length} cells.`;
  }

  takeCount(asked, told, reply) {
    if (!Number.isInteger(told.cars) || !Number.isInteger(told.speeds)) {
      this.tell(reply, "this is not a count: are these the replies to this script?");
      return;
    }
    const {counts} = this.runOf(asked.at);
    if (!counts.has(asked.detector)) counts.set(asked.detector, []);
    const {from, to} = asked;
    const {cars, speeds} = told;
    if (to > from && isStep(to)) counts.get(asked.detector).push({from, to, cars, speeds});
  }
}

/** Add rows to a run: to a picture that contains or precedes them, or as a new picture. */
function addRows(run, from, rows) {
  const joined = run.pictures.find((one) => one.from <= from && from <= one.from + one.rows.length);
  if (!joined) {
    run.pictures.push({run, from, every: 1, length: rows[0].length, rows: [...rows]});
    return;
  }
  rows.forEach((row, index) => { joined.rows[from - joined.from + index] = row; });
}

/** Return what must be equal in two plans so that their pictures can be compared. It has zones cell
 * by cell, so their bounds may differ. Detectors and replicas may differ, too. */
function roadOf({length, exit, inlets, words, zones, zone}) {
  const ofCells = Array.from({length}, (_, cell) => zones[Math.floor(cell / zone)]);
  return {length, exit, zones: ofCells, inlets, words};
}

/** Return the name of the first part in which the roads of two plans differ; null if they are
 * equal. */
function findDifferentPart(one, other) {
  if (!one || !other) return null;
  const roads = [one, other].map(roadOf);
  return Object.keys(roads[0]).find((part) =>
    JSON.stringify(roads[0][part]) !== JSON.stringify(roads[1][part])) ?? null;
}
