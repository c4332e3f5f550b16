// Where the labels of frames are placed: clear of closures, of each other and of steps that are not
// computed, and entirely within the plot.

import {clamp} from "./geometry.mjs";

/** @typedef {import("./types.mjs").Box} Box */
/** @typedef {[wide: number, high: number]} Size     pixels */
/** @typedef {[x: number, y: number]} Point          pixels */
/**
 * A text for a frame: its box on the canvas, and the change that it belongs to.
 * @typedef {{text: string, box: Box, change: unknown, colour?: string}} Label
 */

const APART = 4;                // pixels between a label and its frame
const FARTHEST = 200;           // pixels above or below its frame, at most
const TOUCH = 2;                // pixels between frames that touch, at most

/** @type {(box: Box, other: Box) => boolean} */
const meet = ([left, top, right, bottom], other) =>
  left < other[2] && other[0] < right && top < other[3] && other[1] < bottom;

/** Return places for a label, the best first: in the frame's upper left corner, at its right and its
 * left, above it, below it; then farther and farther up and down.
 * @param {Box} frame
 * @param {Size} size
 * @param {Box} bounds
 * @returns {Point[]}
 */
function candidates([left, top, right, bottom], [wide, high], [, upper, , lowest]) {
  const begun = clamp(top, upper, lowest - high);
  const across = [left + APART, right + APART, left - APART - wide];
  /** @type {Point[]} */
  const near = [[left + APART, begun + 1], [right + APART, begun],
                [left - APART - wide, begun],
                [left, top - APART - high], [left, bottom + APART]];
  /** @type {Point[]} */
  const far = [];
  for (let away = 0; away <= FARTHEST; away += high) {
    for (const y of [begun + away, begun - away]) {
      for (const x of across) far.push([x, y]);
    }
  }
  return [...near, ...far];
}

/** @param {Label} label */
const sizeOf = ({box: [left, top, right, bottom]}) => (right - left) * (bottom - top);

/** @type {(box: Box, other: Box) => boolean} */
const touch = ([left, top, right, bottom], other) =>
  meet([left - TOUCH, top - TOUCH, right + TOUCH, bottom + TOUCH], other);

/** Return labels without duplicates: of those with the same text for one change, or for frames that
 * touch, keep that of the largest frame.
 * @template {Label} Kept
 * @param {Kept[]} labels
 * @returns {Kept[]}
 */
export function dropDuplicates(labels) {
  /** @type {Map<string, {label: Kept, changes: Set<unknown>, boxes: Box[]}[]>} */
  const groups = new Map();     // by text
  for (const label of [...labels].sort((one, other) => sizeOf(other) - sizeOf(one))) {
    const alike = groups.get(label.text) ?? [];
    const group = alike.find(({changes, boxes}) =>
      changes.has(label.change) || boxes.some((box) => touch(label.box, box)));
    if (group) {
      group.changes.add(label.change);
      group.boxes.push(label.box);
    } else {
      groups.set(label.text, [...alike,
        {label, changes: new Set([label.change]), boxes: [label.box]}]);
    }
  }
  return [...groups.values()].flat().map(({label}) => label);
}

/** Return the place, left and top, of a label of a frame, within bounds and clear of boxes; null
 * if it fits nowhere.
 * @param {Box} frame
 * @param {Size} size
 * @param {Box} bounds
 * @param {Box[]} taken
 * @returns {Point | null}
 */
export function placeOfLabel(frame, size, bounds, taken) {
  const [wide, high] = size;
  const [left, top, right, bottom] = bounds;
  if (bottom - top < high || right - left < wide) return null;
  for (const [x, y] of candidates(frame, size, bounds)) {
    const [at, down] = [clamp(x, left, right - wide), y];
    /** @type {Box} */
    const box = [at, down, at + wide, down + high];
    const isInside = down >= top && down + high <= bottom;
    if (isInside && !taken.some((other) => meet(box, other))) return [at, down];
  }
  return null;
}
