// Actions: choose the road and the part of it that the diagram shows; move and zoom; run the clock.

import {ask} from "./questions.mjs";
import {assign} from "./assign.mjs";
import {fetchRows} from "./loader.mjs";
import {cellsOf} from "./geometry.mjs";
import * as messages from "./messages.mjs";
import {notify, need, last, now, store, tell} from "./store.mjs";
import {HOUR, LAST_STEP} from "./units.mjs";

/** @typedef {import("./store.mjs").Extent} Extent */
/** @typedef {import("./store.mjs").Fold} Fold */
/** @typedef {import("./store.mjs").Store} Store */
/** @typedef {import("./types.mjs").Change} Change */
/** @typedef {import("./types.mjs").Rectangle} Rectangle */

export const SPANS = [60, 150, 300, 900, 1800, 3600, 7200, 14400, 36000, 86400];   // steps
const LEAST_CELLS = 20;
const AHEAD = 1800;             // steps of a look ahead

/** Refresh the diagram: follow the clock, ask for rows, draw. */
export function refreshDiagram() {
  if (!store.plan) return;
  if (store.follows) followClock();
  fetchRows();
  notify("extent");
}

/** Note how many pixels the diagram's plot has.
 * @param {number} wide
 * @param {number} high
 */
export function setPlotSize(wide, high) {
  store.plot = [Math.max(50, wide), Math.max(50, high)];
  refreshDiagram();
}

/** Show the own road, the shared one, or both: their difference.
 * @param {Store["whose"]} whose
 */
export function showRoad(whose) {
  store.whose = whose;
  refreshDiagram();
}

/** Paint each car, or mean speeds, or choose by the zoom.
 * @param {Store["paint"]} how
 */
export function paintBy(how) {
  store.paint = how;
  refreshDiagram();
}

/** Follow the clock, or stop following it.
 * @param {boolean} follows
 */
export function setFollowing(follows) {
  store.follows = follows;
  refreshDiagram();
}

/** Keep the extent on the road. */
function keepOnRoad() {
  const {length} = need("plan");
  const part = store.extent;
  part.cells = Math.max(Math.min(LEAST_CELLS, length), Math.min(length, part.cells || length));
  part.cell = Math.max(0, Math.min(part.cell, length - part.cells));
  part.step = Math.max(0, Math.min(part.step, LAST_STEP));
}

/** Show another part.
 * @param {Partial<Extent>} part
 */
function setExtent(part) {
  assign(store.extent, part);
  keepOnRoad();
  refreshDiagram();
}

/** Keep the clock at the lower edge; if motion is to be reduced, by jumps of a quarter. */
function followClock() {
  const part = store.extent;
  const wanted = Math.max(store.day.lead, last() - part.span);
  const isBehind = wanted > part.step || wanted < part.step - part.span / 2;
  if (!matchMedia("(prefers-reduced-motion: reduce)").matches) part.step = wanted;
  else if (isBehind) part.step = wanted > store.day.lead ? wanted + part.span / 4 : wanted;
}

/** Stop following the clock. */
export function stopFollowing() {
  store.follows = false;
}

/** Show the road from a cell and a step on, and stop following the clock.
 * @param {number} cell
 * @param {number} step
 */
export function moveTo(cell, step) {
  stopFollowing();
  setExtent({cell, step});
}

/** Move the diagram by cells and steps.
 * @param {number} cells
 * @param {number} steps
 */
export function moveBy(cells, steps) {
  if (steps) stopFollowing();
  setExtent({cell: store.extent.cell + cells, step: store.extent.step + steps});
}

/** Zoom about a place of the diagram, else about its middle; times, places, or both.
 * @param {boolean} closer
 * @param {{cell?: number, step?: number}} place
 * @param {{places?: boolean, times?: boolean}} what
 */
export function zoomBy(closer, {cell, step} = {}, {places = true, times = true} = {}) {
  const part = store.extent;
  const [middle, moment] = [cell ?? part.cell + part.cells / 2, step ?? part.step + part.span / 2];
  if (times) {
    const next = closer ? SPANS.findLast((one) => one < part.span)
      : SPANS.find((one) => one > part.span);
    const span = next ?? part.span;
    const before = (moment - part.step) * span / part.span;
    assign(part, {step: Math.max(0, moment - before), span});
  }
  if (places) {
    const wanted = part.cells * (closer ? 0.5 : 2);
    const cells = Math.max(LEAST_CELLS, Math.min(need("plan").length, wanted));
    assign(part, {cell: middle - (middle - part.cell) * cells / part.cells, cells});
  }
  setExtent({});
}

/** Show a number of steps, up to the present end.
 * @param {number} span      steps
 */
export function chooseSpan(span) {
  const end = Math.min(store.extent.step + store.extent.span, last());
  setExtent({span, step: Math.max(Math.min(store.extent.step, store.day.lead), end - span)});
}

/** Show all cells of the road from km 0 on. */
export function showWholeRoad() {
  const {length, origin} = need("plan");
  setExtent({cell: origin, cells: length - origin});
}

/** Show all cells of the road and of its approach. */
export function showWithApproach() {
  setExtent({cell: 0, cells: need("plan").length});
}

/** Move the diagram to a change.
 * @param {Change} change
 */
export function showChange({shape, shown}) {
  stopFollowing();
  const {extent: seen} = store;
  const boxes = shape ? [shape] : shown;
  if (!boxes.length) return;
  const [part] = boxes;
  const [from, to] = cellsOf(need("plan"), part.kind, part.first, part.last);
  const step = Math.max(0, Math.min(...boxes.map(({from: start}) => start)) - seen.span / 4);
  const isSeen = from >= seen.cell && to <= seen.cell + seen.cells;
  setExtent({step, cell: isSeen ? seen.cell : (from + to - seen.cells) / 2});
}

/** Note that a part of the page was folded or opened.
 * @param {Fold} fold
 * @param {boolean} isOpen
 */
export function setOpen(fold, isOpen) {
  store.isOpen[fold] = isOpen;
  notify("isOpen");
}

// The clock.

const away = messages.CLOCK_NOT_SET;

/** Let the clock run at a number of steps a second; 0: pause it.
 * @param {number} rate
 */
export const setRate = (rate) => ask({clock: {rate}}, {turn: "first", away});
/** Let the clock run an hour. */
export const runAnHour = () => ask({clock: {to: now() + HOUR}}, {turn: "first", away});

/** Show the own road half an hour further ahead of the clock, up to the limit. */
export function lookAhead() {
  const {ahead} = need("me");
  const most = Math.min(LAST_STEP, now() + ahead);
  if (last() >= most) {
    tell(messages.farthestAhead(ahead / HOUR), true);
    return;
  }
  store.forecastEnd = Math.min(most, last() + AHEAD);
  notify("clock");
  refreshDiagram();
}

/** Show the own road only up to the clock. */
export function backToClock() {
  store.forecastEnd = 0;
  notify("clock");
  refreshDiagram();
}
