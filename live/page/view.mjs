// What follows from the extent of the diagram: its view, which rows are wanted, which minutes have
// figures. It reads the store.

import {BOX, MARGIN, meansAreSeen} from "../../viewer/drawing.mjs";
import {need, last, store, whoseShown} from "./store.mjs";
import {MINUTE} from "./units.mjs";

/** @typedef {import("../../viewer/drawing.mjs").View} View */
/** @typedef {import("./types.mjs").Span} Span */

const BETWEEN = 16;             // pixels between pictures that are side by side

/** Return the pixels of a picture's width, and those from the beginning of one picture to the next, if
 * several are side by side.
 * @returns {[wide: number, apart: number]}
 */
export function widthNow() {
  const [wide] = store.plot;
  const count = store.whose === "beside" ? whoseShown().length : 1;
  const one = (wide - (count - 1) * BETWEEN) / count;
  return [one, one + BETWEEN];
}

/** Return the cell and the step in a picture's upper left corner, and the pixels of a cell and a step. */
export function viewNow() {
  const {extent, plot: [, high]} = store;
  return {cell: extent.cell, step: extent.step, scale: widthNow()[0] / extent.cells, tall: high / extent.span};
}

/** Return where a pixel of the diagram is in its picture.
 * @param {number} x
 */
export function acrossNow(x) {
  const apart = widthNow()[1];
  const pictures = store.whose === "beside" ? whoseShown().length : 1;
  const place = Math.max(0, Math.min(pictures - 1, Math.floor((x - MARGIN.left) / apart)));
  return x - place * apart;
}

/** Return the part of the road and of time that is shown.
 * @returns {{cells: Span, steps: Span}}
 */
export function partShown() {
  const {cell, cells, step, span} = store.extent;
  return {cells: [cell, cell + cells], steps: [step, step + span]};
}

/** Ask whether mean speeds are painted, and not each car.
 * @param {View} view
 */
export function byMeans(view) {
  return store.paint === "zoom" ? meansAreSeen(view) : store.paint === "means";
}

/** Return the largest power of two up to a number of steps; at least 1.
 * @param {number} steps
 */
const powerOfTwo = (steps) => 2 ** Math.max(0, Math.floor(Math.log2(steps)));

/** Return how many steps apart the page asks for rows: about eight rows for a box of mean speeds (four
 * if they would be too many bytes), otherwise about one for a pixel. */
export function everyShown() {
  const view = viewNow();
  if (!byMeans(view) && store.whose !== "both") return powerOfTwo(1 / view.tall);
  const every = powerOfTwo(BOX / 8 / view.tall);
  return every * (store.extent.span / every * need("plan").length > store.limits.bytes ? 2 : 1);
}

/** Return the steps whose figures are shown: those of the minutes that are visible, at least in part.
 * In a preview these are all minutes from minute 0 on.
 * @returns {Span}
 */
export function periodShown() {
  const {extent, preview} = store;
  const most = Math.floor(last() / MINUTE) * MINUTE;
  const end = preview ? most : Math.ceil((extent.step + extent.span) / MINUTE) * MINUTE;
  const from = preview ? store.day.lead : Math.floor(extent.step / MINUTE) * MINUTE;
  return [from, Math.max(from, Math.min(end, most))];
}

/** Return how far an arrow key moves the cursor, in cells and steps: about 5 pixels, rounded to tens of
 * steps if that is not 0.
 * @returns {[cells: number, steps: number]}
 */
export function strideNow() {
  const {scale, tall} = viewNow();
  return [Math.max(1, Math.round(5 / scale)), Math.max(1, Math.round(5 / tall / 10) * 10)];
}
