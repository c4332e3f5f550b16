// The changes of a road, as the server sends them, and where each is in force. A change is named by
// the stamp of the operation that put it.

import {DayClock} from "./dayclock.mjs";
import {fits} from "./geometry.mjs";
import {keyOf} from "./stamps.mjs";

/** @typedef {import("./types.mjs").Change} Change */
/** @typedef {import("./types.mjs").Curve} Curve */
/** @typedef {import("./types.mjs").Frame} Frame */
/** @typedef {import("./types.mjs").Kind} Kind */
/** @typedef {import("./types.mjs").ListNews} ListNews */
/** @typedef {import("./types.mjs").Operation} Operation */
/** @typedef {import("./types.mjs").Plan} Plan */
/** @typedef {import("./types.mjs").Rectangle} Rectangle */
/** @typedef {import("./types.mjs").Stamp} Stamp */

const MOST_SHOWN = 1000;        // rectangles of a change

/** Return the value that the plan gives an object; null if it gives none (slow to start, capacity).
 * @param {Plan} plan
 * @param {Kind} kind
 * @param {number} index
 * @returns {number | null}
 */
export function plannedValue(plan, kind, index) {
  if (kind === "limit") return plan.zones[index][0];
  if (kind === "slow") return plan.zones[index][1];
  if (kind === "inflow") return plan.inlets[index][1];
  if (kind === "start" || kind === "capacity") return null;
  return kind === "watch" ? 1 : 0;
}

/** Return a change without the parts that do not fit this road.
 * @param {Plan} plan
 * @param {Change} sent
 * @returns {Change}
 */
function keepValid(plan, sent) {
  const keep = (/** @type {Rectangle[]} */ parts) => parts.slice(0, MOST_SHOWN).filter((part) => fits(plan, part));
  const shape = sent.shape && fits(plan, sent.shape) ? sent.shape : null;
  return {...sent, shape, shown: keep(sent.shown), covered: keep(sent.covered)};
}

/** Return where changes are in force.
 * @param {Iterable<Change>} changes
 * @returns {Frame[]}
 */
const framesOf = (changes) => [...changes].filter(({standing}) => standing).flatMap((change) =>
  change.shown.filter(({by}) => by === null).map((part) => ({...part, by: change})));

/** Finds the curve of an inlet of a road at a step; null: it is not known yet.
 * @typedef {(road: Layers, inlet: number, step: number) => Curve | null} FindCurve
 */

/** The changes of a road, by name. */
export class Layers {
  /**
   * @param {Plan} plan
   * @param {{day?: DayClock, findCurve?: FindCurve}} how    how times are written; how the curves
   *   of inlets are found
   * @param {Map<string, Change>} [changes]
   */
  constructor(plan, {day = new DayClock(), findCurve = () => null} = {}, changes = new Map()) {
    this.plan = plan;
    this.day = day;
    this.findCurve = findCurve;
    this.changes = changes;
    this.next = 0;              // the version of the list that the page has
    this.restarts = 0;          // how often the whole list was wanted again
    /** @type {Stamp | null} */
    this.undo = null;           // what Undo would undo
    /** @type {Stamp | null} */
    this.redo = null;           // what Redo would redo
    /** @type {{stamp: Stamp, by: string[]}[]} */
    this.blocked = [];          // what Undo passes over, and who has changed it since
    this.frames = framesOf(changes.values());
  }

  /** Apply news of the list: add, replace or remove changes, by their names.
   * @param {Pick<ListNews, "layers" | "next"> & Partial<ListNews>} news
   */
  update({layers, next, undo = null, redo = null, blocked = []}) {
    for (const change of layers) {
      if ("gone" in change) this.changes.delete(keyOf(change.name));
      else this.changes.set(keyOf(change.name), keepValid(this.plan, change));
    }
    [this.next, this.undo, this.redo, this.blocked] = [next, undo, redo, blocked];
    this.frames = framesOf(this.changes.values());
  }

  /** Forget which version the page has, so that the whole list is asked for again. */
  restart() {
    this.next = 0;
    this.restarts += 1;
  }

  /** Return another road: this one, with these changes added or replaced.
   * @param {ListNews["layers"]} changes
   */
  with(changes) {
    const road = new Layers(this.plan, this, new Map(this.changes));
    road.update({layers: changes, next: this.next});
    return road;
  }

  /** Return the change of a name; undefined if no change has it.
   * @param {Stamp} name
   */
  find(name) {
    return this.changes.get(keyOf(name));
  }

  /** Return the change on which an operation was made; undefined if it is not listed.
   * @param {Stamp} stamp
   */
  findByOperation(stamp) {
    const isOn = (/** @type {Change} */ {operations}) =>
      operations.some((one) => keyOf(one.stamp) === keyOf(stamp));
    return [...this.changes.values()].find(isOn);
  }

  /** Return the value of an object at a step; null if neither a change nor the plan gives one.
   * @param {Kind} kind
   * @param {number} index
   * @param {number} step
   * @returns {number | null}
   */
  valueAt(kind, index, step) {
    const there = this.frames.find((one) => one.kind === kind && one.first <= index
      && index <= one.last && one.from <= step && (one.to === null || step < one.to));
    return there ? there.value : plannedValue(this.plan, kind, index);
  }

  /** Return what an inlet admits at each chance at a step; null: it is being measured.
   * @param {number} inlet
   * @param {number} step
   */
  curveAt(inlet, step) {
    return this.findCurve(this, inlet, step);
  }
}

/** Return how many cars of a row are in a part of a closure. If a cell is still closed at the end of
 * the part, its car is counted in the next part instead.
 * @param {Layers} layers
 * @param {Pick<Frame, "first" | "last" | "to">} part
 * @param {string} row
 */
export const countTrapped = (layers, {first, last, to}, row) =>
  [...row.slice(first, last + 1)].filter((character, at) => character !== "#" && character !== "."
    && (to === null || !layers.valueAt("block", first + at, to))).length;

// A change's operations.

/** Return the last operation on a change.
 * @param {Change} change
 * @returns {Pick<Operation, "stamp" | "when" | "note"> & Partial<Operation>}
 */
export const lastOf = ({operations, name: stamp, when, note}) =>
  operations.at(-1) ?? {stamp, when, note};

/** Return the operations on a change that are to be shared, without those that were undone before
 * anybody else had them.
 * @param {Pick<Change, "operations">} change
 */
export const privateOf = ({operations}) => operations.filter(({shared, idle}) => !shared && !idle);

/** Return a seat's last operation on a change, and the one that was made at the same time and won
 * over it; null if none won over it.
 * @param {Pick<Change, "operations">} change
 * @param {number} seat
 */
export function lostOf({operations}, seat) {
  const mine = operations.findLast((one) => one.seat === seat);
  const lost = mine?.lost;
  if (!mine || !lost) return null;
  const theirs = operations.find(({stamp}) => keyOf(stamp) === keyOf(lost));
  return theirs ? {mine, theirs} : null;
}

/** Ask whether a change is in force on an object at a step.
 * @param {Change} change
 * @param {number} index
 * @param {number} step
 */
export const isInForce = ({shown}, index, step) => shown.some(({first, last, from, to, by}) =>
  by === null && first <= index && index <= last && from <= step && (to === null || step < to));

/** Ask whether another change covers a part of a change.
 * @param {Change} change
 */
export const isCovered = ({standing, shown}) =>
  standing && shown.some(({by}) => by !== null);
