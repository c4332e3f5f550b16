// Where things are on a road: objects and their cells, rectangles, edges.

import {LAST_STEP, METRES_A_CELL} from "./units.mjs";

/** @typedef {import("./types.mjs").Box} Box */
/** @typedef {import("./types.mjs").Kind} Kind */
/** @typedef {import("./types.mjs").Place} Place */
/** @typedef {import("./types.mjs").Plan} Plan */
/** @typedef {import("./types.mjs").Shape} Shape */
/** @typedef {import("./types.mjs").Span} Span */
/** @typedef {[first: number, last: number]} Objects     of a kind, both included */
/** @typedef {"left" | "top" | "right" | "bottom"} Edge */

const SNAP_CELLS = 25 / METRES_A_CELL;

export const MOST_OBJECTS = 600; // of a shape
/** The kinds whose objects are zones.
 * @type {unknown[]}
 */
export const OF_ZONES = ["limit", "slow", "start", "capacity"];
/** The kinds whose shapes have one object.
 * @type {unknown[]}
 */
export const OF_ONE = ["inflow", "watch"];

/** Return how many objects of a kind a road has; 0 of an unknown kind.
 * @param {Plan} plan
 * @param {unknown} kind
 */
function countOf({length, zone, inlets, detectors}, kind) {
  if (OF_ZONES.includes(kind)) return Math.ceil(length / zone);
  if (kind === "block") return length;
  if (kind === "inflow") return inlets.length;
  return kind === "watch" ? detectors.length : 0;
}

/** Ask whether a shape, or a part of a change, fits this road: another site may send anything.
 * @param {Plan} plan
 * @param {Omit<Shape, "value">} shape
 */
export function fits(plan, {kind, first, last, from, to}) {
  return first <= last && last < countOf(plan, kind) && (to === null || to > from);
}

/** Ask whether two shapes are the same.
 * @param {Shape | null | undefined} one
 * @param {Shape} other
 */
export const sameShape = (one, other) => one?.kind === other.kind && one.first === other.first
  && one.last === other.last && one.from === other.from && one.to === other.to
  && one.value === other.value && one.limit === other.limit;

/** Return the cells of the objects first to last of a kind, the end excluded.
 * @param {Plan} plan
 * @param {Kind} kind
 * @param {number} first
 * @param {number} last
 * @returns {Span}
 */
export function cellsOf(plan, kind, first, last) {
  if (OF_ZONES.includes(kind)) {
    return [first * plan.zone, Math.min(plan.length, (last + 1) * plan.zone)];
  }
  if (kind === "block") return [first, last + 1];
  const cell = kind === "inflow" ? plan.inlets[first][0] : plan.detectors[first];
  return [cell, cell + 1];
}

/** Return the index of the place that is nearest to a cell.
 * @param {number[]} places
 * @param {number} cell
 */
export function nearest(places, cell) {
  const far = places.map((place) => Math.abs(place - cell));
  return far.indexOf(Math.min(...far));
}

/** Return the first and last object of a kind in a stretch of cells. Of inlets and detectors, return
 * the one that is nearest to a cell.
 * @param {Plan} plan
 * @param {Kind} kind
 * @param {Span} cells
 * @param {number} [near]    the cell
 * @returns {Objects}
 */
export function objectsIn(plan, kind, [from, to], near = from) {
  if (OF_ZONES.includes(kind)) {
    return [Math.floor(from / plan.zone), Math.ceil(Math.max(from + 1, to) / plan.zone) - 1];
  }
  if (kind === "block") return [from, Math.max(from, to - 1)];
  const places = kind === "inflow" ? plan.inlets.map(([cell]) => cell) : plan.detectors;
  const index = nearest(places, near);
  return [index, index];
}

/** Return the first and last zone that a stretch of cells covers at least by half or, with `all`, that
 * it touches; null if it covers no zone.
 * @param {Plan} plan
 * @param {Span} cells
 * @param {boolean} [all]
 * @returns {Objects | null}
 */
export function zonesIn({length, zone}, [from, to], all) {
  const [first, last] = [Math.floor(from / zone), Math.ceil(Math.max(from + 1, to) / zone) - 1];
  if (all) return [first, last];
  const isCovered = (/** @type {number} */ index) => {
    const [start, end] = [index * zone, Math.min(length, (index + 1) * zone)];
    return 2 * (Math.min(to, end) - Math.max(from, start)) >= end - start;
  };
  const [begin, end] = [isCovered(first) ? first : first + 1, isCovered(last) ? last : last - 1];
  return begin <= end ? [begin, end] : null;
}

/** Return the first and last object in a stretch of cells that the user typed. For zones, round its
 * ends to the nearest zone boundaries. If both are rounded to the same one, return the zone of its
 * middle.
 * @param {Plan} plan
 * @param {Kind} kind
 * @param {Span} cells
 * @returns {Objects}
 */
export function objectsNearest(plan, kind, [from, to]) {
  if (!OF_ZONES.includes(kind)) return objectsIn(plan, kind, [from, to]);
  const zones = Math.ceil(plan.length / plan.zone);
  const first = Math.round(from / plan.zone);
  const end = to >= plan.length ? zones : Math.round(to / plan.zone);
  if (first < end) return [first, end - 1];
  const middle = Math.min(zones - 1, Math.floor((from + to) / 2 / plan.zone));
  return [middle, middle];
}
/** Return the number between two bounds that is nearest to a value.
 * @param {number} value
 * @param {number} least
 * @param {number} most
 */
export const clamp = (value, least, most) => Math.max(least, Math.min(most, value));
/** Return two numbers, the smaller first.
 * @type {(one: number, other: number) => [number, number]}
 */
export const inOrder = (one, other) => [Math.min(one, other), Math.max(one, other)];

/** Return the place where a drag begins or ends: rounded to 25 m (at a high zoom to a cell), and to 30,
 * 10 or 1 s, by the zoom; if it is `exact`, to a cell and a step.
 * @param {Place} place
 * @param {{span: number, scale: number, exact: boolean}} seen   visible steps; pixels a cell
 * @returns {Place}
 */
export function snap([cell, step], {span, scale, exact}) {
  if (exact) return [Math.round(cell), Math.round(step)];
  const apart = span > 900 ? 30 : span > 150 ? 10 : 1;
  const across = scale > 8 ? 1 : SNAP_CELLS;
  return [Math.round(Math.round(cell / across) * across), Math.round(step / apart) * apart];
}

/** Return the objects and steps of a rectangle between two places. It takes zones that are at least
 * half covered or, with `all`, that it touches. If no zone is half covered, return those that it
 * touches, with `coversNoZone`. `open`: a click, which has no end.
 * @param {Plan} plan
 * @param {Kind} kind
 * @param {Place} place
 * @param {Place} other
 * @param {{open?: boolean, all?: boolean}} how
 */
export function rectangleBetween(plan, kind, [cell, step], [otherCell, otherStep],
                                 {open = false, all = open} = {}) {
  const [left, right] = inOrder(cell, otherCell).map((one) => clamp(one, 0, plan.length));
  const start = Math.min(left, plan.length - 1);
  /** @type {Span} */
  const cells = [start, Math.max(start + 1, right)];
  const covered = OF_ZONES.includes(kind) ? zonesIn(plan, cells, all) : [];
  const [first, last] = covered?.length ? covered : objectsIn(plan, kind, cells, cell);
  const [from, end] = inOrder(step, otherStep).map((one) => Math.max(0, one));
  return {first, last, from, to: open ? null : Math.max(from + 1, end), coversNoZone: covered === null};
}

/** Return a shape with one edge moved to a place. It takes zones that are at least half covered or,
 * with `all`, that it touches. The chances of a capacity depend on its zones.
 * @param {Plan} plan
 * @param {Shape} shape
 * @param {Edge} edge
 * @param {Place} place
 * @param {boolean} [all]
 * @returns {Shape}
 */
export function shapeWithEdge(plan, shape, edge, [cell, step], all = false) {
  const {kind, first, last, from, to} = shape;
  const [start, end] = cellsOf(plan, kind, first, last);
  if (edge === "bottom") return {...shape, to: Math.max(step, from + 1)};
  if (edge === "top") return {...shape, from: clamp(step, 0, (to ?? Infinity) - 1)};
  if (!OF_ZONES.includes(kind) && kind !== "block") return shape;
  /** @type {Span} */
  const cells = edge === "left" ? [clamp(cell, 0, end - 1), end]
    : [start, clamp(cell, start + 1, plan.length)];
  const [begin, until] = kind === "block" ? objectsIn(plan, kind, cells)
    : zonesIn(plan, cells, all) ?? (edge === "left" ? [last, last] : [first, first]);
  return {...shape, first: begin, last: until, ...(kind === "capacity" ? {chances: undefined} : {})};
}

/** Return the object and the step of a shape that are nearest to a place.
 * @param {Plan} plan
 * @param {Shape} shape
 * @param {Place} place
 * @returns {[index: number, step: number]}
 */
export function nearestIn({zone}, {kind, first, last, from, to}, [cell, step]) {
  const index = OF_ZONES.includes(kind) ? cell / zone : kind === "block" ? cell : first;
  return [clamp(Math.floor(index), first, last),
          clamp(Math.floor(step), from, (to ?? Infinity) - 1)];
}

/** Return an edge of a box that is nearer to a point than `near` pixels; undefined if none is.
 * An open box has no lower edge.
 * @param {Box} box
 * @param {[x: number, y: number]} point
 * @param {number} near
 * @param {boolean} isOpen
 * @returns {Edge | undefined}
 */
export function edgeNear([left, top, right, bottom], [x, y], near, isOpen) {
  const isInside = x > left - near && x < right + near && y > top - near && y < bottom + near;
  if (!isInside) return undefined;
  if (!isOpen && Math.abs(y - bottom) < near) return "bottom";
  if (Math.abs(y - top) < near) return "top";
  if (Math.abs(x - right) < near) return "right";
  return Math.abs(x - left) < near ? "left" : undefined;
}

/** Ask whether a shape begins or ends after the last step that a clock can show.
 * @param {Shape} shape
 */
export const isTooLate = ({from, to}) => Math.max(from, to ?? 0) > LAST_STEP;
