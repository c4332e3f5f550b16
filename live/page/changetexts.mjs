// What the lists of changes say: what a change is, whose, where it is in force, and what covers it.
// `layers` belong to the road that is shown; `seat` reads it.

import {isCovered, lastOf, lostOf, privateOf} from "./layers.mjs";
import {THINGS, placesText, shapeText, thingText} from "./shapetexts.mjs";
import {byStamp, keyOf} from "./stamps.mjs";

/** @typedef {import("./layers.mjs").Layers} Layers */
/** @typedef {import("./types.mjs").Change} Change */
/** @typedef {import("./types.mjs").Effect} Effect */
/** @typedef {import("./types.mjs").Operation} Operation */
/** @typedef {import("./types.mjs").Rectangle} Rectangle */
/** @typedef {import("./types.mjs").Stamp} Stamp */
/**
 * A change with its texts: whether it is shared, what covers it, who won over it, what it is, who
 * made it and when, and which list has it.
 * @typedef {{change: Change, state: "private" | "shared", cover: string, lost: string, text: string,
 *            meta: string, where: "own" | "held"}} Listed
 */

const MOST_PARTS = 4;           // of a change that the list shows
/** @type {Record<Effect, string>} */
const DONE = {put: "put", change: "changed", withdraw: "withdrawn", top: "put on top",
              undo: "undone", redo: "redone", exclude: "excluded", include: "included again"};
/** @type {Record<Effect, string>} */
const DID = {put: "put it", change: "changed it", withdraw: "withdrew it", top: "put it on top",
              undo: "undid a change to it", redo: "redid a change to it", exclude: "excluded it",
              include: "included it again"};

/** Return what a withdrawn change was, as text.
 * @param {Change} change
 */
function goneText(change) {
  const {does, note} = lastOf(change);
  if (does === "withdraw" && note) return note;
  if (change.note) return `Undone: ${change.note}`;
  return `${change.kind && change.kind !== "site" ? THINGS[change.kind] : "Change"} withdrawn`;
}

/** Words for changes, as a seat sees them. */
export class Words {
  /**
   * @param {Layers} layers
   * @param {number | null} seat    null: no seat reads them
   */
  constructor(layers, seat) {
    this.layers = layers;
    this.seat = seat;
  }

  /** Ask whether the seat made a change.
   * @param {Pick<Change, "seat">} change
   */
  isOwn({seat}) {
    return seat === this.seat;
  }

  /** Return who made a change, as text.
   * @param {Pick<Change, "seat" | "who">} change
   */
  name(change) {
    return this.isOwn(change) ? "you" : change.who || "somebody";
  }

  /** Return whose a change is, as text.
   * @param {Change} change
   */
  whose(change) {
    return this.isOwn(change) ? "your" : `${change.who || "somebody"}'s`;
  }

  /** Return what a change is, as text.
   * @param {Change} change
   */
  text(change) {
    const {shape, standing, note, site} = change;
    if (!standing) return goneText(change);
    if (site !== null) return `Site ${site} is excluded`;
    return shape ? shapeText(this.layers, shape) : note || "Change";
  }

  /** Return who made the last operation on a change, as text.
   * @param {Change} change
   */
  by(change) {
    const {seat, who} = lastOf(change);
    return seat === this.seat ? "you" : who || "somebody";
  }

  /** Return who made a change, when its last operation was made, and who made that one if it was
   * somebody else, as text.
   * @param {Change} change
   */
  meta(change) {
    const {seat, who, does, when} = lastOf(change);
    const isSame = seat === change.seat && who === change.who;
    const done = isSame || !does ? "" : `; ${DONE[does] ?? does} by ${this.by(change)}`;
    return [this.name(change) + done, this.layers.day.dateText(when)].filter(Boolean).join(", ");
  }

  /** Return a change in a few words, as text: "Ben's limit of 54 km/h".
   * @param {Change} change
   */
  short(change) {
    const value = change.shape ? thingText(this.layers, change.shape) : "change";
    return `${this.whose(change)} ${value}`;
  }

  /** Return where a change is in force, and what covers it elsewhere, as text; "" if nothing
   * covers it.
   * @param {Change} change
   */
  cover(change) {
    if (!isCovered(change)) return "";
    const over = [...new Set(change.shown.map((part) => this.coverer(part)).filter(Boolean))];
    if (change.shown.every(({by}) => by !== null)) {
      return `Wholly covered by ${over.join(" and ")}.`;
    }
    const isCapacity = change.shape?.kind === "capacity";
    const parts = [...(isCapacity ? change.covered : change.shown)].sort((one, other) =>
      one.from - other.from || one.first - other.first);
    const places = isCapacity || new Set(parts.map(({first, last}) => `${first} ${last}`)).size > 1;
    const texts = parts.slice(0, MOST_PARTS).map((part) => this.part(part, places));
    const rest = parts.length - texts.length;
    const text = `${isCapacity ? "the capacity no longer holds: " : ""}${texts.join("; ")}${rest > 0 ? `; and ${rest} more` : ""}.`;
    return text[0].toUpperCase() + text.slice(1);
  }

  /** Return where a change is in force, or where another change covers it, as text: all parts. Of a
   * capacity that is covered in part, the limit and the chances may be in force at different places.
   * @param {Change} change
   * @param {boolean} inForce
   */
  parts({shape, shown, covered, standing}, inForce) {
    if (!standing) return "";
    const isCapacity = shape?.kind === "capacity";
    const parts = !isCapacity ? shown : inForce && !covered.length ? [{...shape, by: null}] : inForce ? shown : covered;
    return parts.filter(({by}) => (by === null) === inForce).map((part) => {
      const {kind, first, last, from, to} = part;
      const what = isCapacity && kind !== "capacity" ? `${THINGS[kind]} ` : "";
      const where = `${what}${placesText(this.layers.plan, kind, first, last)}, ${this.layers.day.spanText(from, to)}`;
      return inForce ? where : `${where} by ${this.coverer(part)}`;
    }).join("; ");
  }

  /** Return what covers a part of a change, as text; "" if it is in force.
   * @param {Rectangle} part
   */
  coverer({by}) {
    if (by === null) return "";
    const change = this.layers.find(by);
    return change ? this.short(change) : "another change";
  }

  /** Return when a part of a change is in force, or what covers it, as text.
   * @param {Rectangle} part
   * @param {boolean} places  with where it is
   */
  part(part, places) {
    const {kind, first, last, from, to, by} = part;
    const where = places ? ` ${placesText(this.layers.plan, kind, first, last)},` : "";
    const time = this.layers.day.spanText(from, to);
    return by === null ? `in force${where} ${time}`
      : `covered${where} ${time} by ${this.coverer(part)}`;
  }

  /** Return a sentence that says who changed the same at the same time and won; "" if nobody did.
   * @param {Change} change
   */
  lost(change) {
    const found = this.seat === null ? null : lostOf(change, this.seat);
    if (!found) return "";
    const {seat, who, does} = found.theirs;
    const name = seat === this.seat ? "You" : who || "Somebody";
    return `${name} ${DID[does] ?? "changed it"} at the same time, and that takes precedence.`;
  }

  /** Return, as text, what others did to a change that would have no effect when it is taken, and who
   * won; null if there is nothing of the kind.
   * @param {Change} change  as it would be
   * @param {Operation[]} fresh  what would be taken of it
   * @returns {[text: string, hint: string] | null}
   */
  losing(change, fresh) {
    const keys = new Set(fresh.map(({stamp}) => keyOf(stamp)));
    const last = change.operations.findLast(({stamp}) => keys.has(keyOf(stamp)));
    const won = last?.lost;
    if (!last || !won) return null;
    const winner = change.operations.find(({stamp}) => keyOf(stamp) === keyOf(won));
    const name = winner?.seat === this.seat ? "you" : winner?.who || "somebody";
    const text = last.shape ? shapeText(this.layers, last.shape) : last.note || DONE[last.does];
    return [text, `${last.who || "somebody"}: no effect, ${name} `
      + `${DID[winner?.does ?? "change"]} at the same time, and that takes precedence`];
  }

  /** Return what a preview would do to a change, as text: ".. then: ..".
   * @param {Change} change
   */
  effect(change) {
    const then = change.standing ? this.cover(change) || "Fully in force."
      : `Withdrawn by ${this.by(change)}.`;
    return `${this.name(change)}: ${this.text(change).replace(/^Withdrew: /, "")} \u2013 then: `
      + `${then[0].toLowerCase()}${then.slice(1)}`;
  }

  /** Return whether all of a change is shared.
   * @param {Change} change
   * @returns {"private" | "shared"}
   */
  state(change) {
    return privateOf(change).length ? "private" : "shared";
  }
}

/** Ask whether the lists show a change. They do not show the demand of the road's file. They show a
 * withdrawn change if that is not shared yet, or if others withdrew it while the seat changed it.
 * @param {Change} change
 * @param {number} seat
 */
function isListed(change, seat) {
  if (change.planned) return false;
  if (change.standing) return true;
  return privateOf(change).length > 0 || lostOf(change, seat) !== null;
}

const ROAD_FILE = "road file";  // who made the changes that come from the road's file

/** Ask whether a change is the demand or the slow-to-start chance of the road's file, which nobody has
 * changed.
 * @param {Change} change
 */
export const isPlanned = ({planned, shape, who, when, operations}) => planned || (shape?.kind === "start"
  && shape.from === 0 && shape.to === null && who === ROAD_FILE && !when && operations.length === 1);

/** Return changes in the order of the lists: the newest first, which people look for most.
 * @param {Change[]} changes
 */
export const newestFirst = (changes) => [...changes].sort((one, other) =>
  byStamp(lastOf(other).stamp, lastOf(one).stamp));

/** Return the changes of the lists, each with its texts.
 * @param {Layers} layers
 * @param {number} seat
 * @returns {Listed[]}
 */
export function listChanges(layers, seat) {
  const words = new Words(layers, seat);
  const listed = [...layers.changes.values()].filter((change) => isListed(change, seat));
  return newestFirst(listed).map((change) => ({
    change, state: words.state(change), cover: words.cover(change), lost: words.lost(change),
    text: words.text(change), meta: words.meta(change),
    where: privateOf(change).length ? "own" : "held"}));
}

/** Return the demand of the road's file over time: the steps at which it changes, each with the demand
 * of each inlet of the plan from then on, in cars per hour.
 * @param {Layers} layers
 * @returns {{step: number, demands: number[]}[]}
 */
export function demandsOfFile(layers) {
  const planned = [...layers.changes.values()].flatMap(({planned: isPlanned, shape}) =>
    (isPlanned && shape?.kind === "inflow" ? [shape] : []));
  planned.sort((one, other) => one.from - other.from);
  const demands = layers.plan.inlets.map(() => 0);
  /** @type {{step: number, demands: number[]}[]} */
  const found = [];
  for (const {first, from, demand = 0} of planned) {
    if (demands[first] === demand) continue;
    demands[first] = demand;
    if (found.at(-1)?.step === from) found.pop();
    found.push({step: from, demands: [...demands]});
  }
  return found;
}

/** Return all operations, newest first: who did what and when, and what covers it now.
 * @param {Layers} layers
 * @param {number} seat
 */
export function historyOf(layers, seat) {
  const words = new Words(layers, seat);
  const changes = [...layers.changes.values()].filter(({planned}) => !planned);
  return changes.flatMap((change) => change.operations.map((done) => {
    const {stamp, who, note, does, when, shared} = done;
    const name = done.seat === seat ? "you" : who || "somebody";
    const meta = [name, DONE[does] ?? does, layers.day.dateText(when), shared ? "" : "private"]
      .filter(Boolean).join(", ");
    return {stamp, text: note || change.note, meta,
            cover: done === lastOf(change) ? words.cover(change) : ""};
  })).sort((one, other) => byStamp(other.stamp, one.stamp));
}

/** Return the changes whose parts differ in a preview, without new ones.
 * @param {Change[]} changes
 */
export const affectedBy = (changes) => changes.filter(({was, shown, standing}) =>
  was && (!standing || JSON.stringify(was) !== JSON.stringify(shown)));

/** Return, as text, the titles of shares that this tab has not taken; "" if no share has a title.
 * @param {{shares: {who: string, title: string}[], from: string[]}} news
 */
export const titlesOf = ({shares, from}) => [...new Set(shares.filter(({who}) => from.includes(who))
  .map(({title}) => title).filter(Boolean))].map((title) => `\u201c${title}\u201d`).join(", ");
