// Actions: the tool, the rectangle that is drawn, the cursor, and the form for typed values.

import {put, refreshLists} from "./changeactions.mjs";
import {areaOfShape, isUnmeasured} from "./area.mjs";
import {assign} from "./assign.mjs";
import {measureShape} from "./measurements.mjs";
import {fieldsOf, readForm, takenText} from "./formvalues.mjs";
import {clamp, sameShape} from "./geometry.mjs";
import {moveBy} from "./navigation.mjs";
import * as messages from "./messages.mjs";
import {layersOf, need, notify, store, tell} from "./store.mjs";
import {LAST_STEP} from "./units.mjs";
import {strideNow} from "./view.mjs";

/** @typedef {import("./store.mjs").Drag} Drag */
/** @typedef {import("./store.mjs").Field} Field */
/** @typedef {import("./store.mjs").Store} Store */
/** @typedef {import("./types.mjs").Area} Area */
/** @typedef {import("./types.mjs").Change} Change */
/** @typedef {import("./types.mjs").Place} Place */

const TWICE = 500;              // milliseconds between the clicks of a double click, at most
const AT_ONE_PLACE = 6;         // pixels between them, at most

/** Choose the tool. The form no longer edits a change of another kind, and the tool `look` discards
 * the rectangle.
 * @param {Store["tool"]} kind
 */
export function chooseTool(kind) {
  store.tool = kind;
  if (kind === "look") dropArea();
  if (store.changeInForm && store.changeInForm.shape?.kind !== kind) editInForm(null);
  else notify("tool");
}

/** Write into a field of the form.
 * @param {Field} field
 * @param {string} text
 */
export function writeField(field, text) {
  store.form[field] = text;
  notify("form");
}

/** Edit a change in the form; null: stop editing.
 * @param {Change | null} change
 */
export function editInForm(change) {
  store.changeInForm = change;
  if (change?.shape) {
    store.tool = change.shape.kind;
    store.formOfChange = fieldsOf(change.shape);
    assign(store.form, store.formOfChange);
  }
  notify("tool", "form", "changeInForm");
}

/** Keep the form up to date with the change that it edits: fields that the user has not overwritten
 * get the change's present values. If the change was withdrawn, stop editing.
 */
export function followChangeInForm() {
  const {changeInForm, form, formOfChange} = store;
  const change = changeInForm && layersOf("mine").find(changeInForm.name);
  if (!changeInForm || change === changeInForm) return;
  if (!change?.standing || !change.shape || change.shape.kind !== changeInForm.shape?.kind) {
    editInForm(null);
    return;
  }
  const now = fieldsOf(change.shape);
  const untouched = Object.entries(now).filter(([field]) =>
    form[/** @type {Field} */ (field)] === formOfChange[/** @type {Field} */ (field)]);
  assign(form, Object.fromEntries(untouched));
  assign(store, {changeInForm: change, formOfChange: now});
  notify("form");
}

/** Put what the form says, or say why not. */
export function applyForm() {
  const shape = readForm();
  if (typeof shape === "string") {
    tell(shape, true);
    return;
  }
  const area = {...areaOfShape(shape, store.changeInForm), taken: takenText(shape)};
  if (applyArea(area) && store.changeInForm) editInForm(null);
}

/** Ask whether an area would leave its change as it is, and nothing is pending that may alter it.
 * @param {Area} area
 */
const isAsItWas = ({shape, old}) => old && store.pending.size === 0
  && sameShape(old.shape, shape);

/** Put an area, or say why not. Return whether it had no fault. A demand or a capacity waits until it
 * is measured.
 * @param {Area} area
 */
export function applyArea(area) {
  if (area.fault) {
    tell(area.fault, true);
    return false;
  }
  if (isUnmeasured(area.shape)) putOnceMeasured(area);
  else if (isAsItWas(area)) tell(messages.nothingChanged(area.note));
  else put(area);
  return true;
}

/** Put a demand or a capacity as soon as it is measured, and show in the list that it waits. The same
 * one twice is one.
 * @param {Area} area
 */
async function putOnceMeasured(area) {
  const {shape, old, note, taken} = area;
  const key = JSON.stringify([shape, old?.name]);
  store.waiting.set(key, area);
  refreshLists();
  const measured = await measureShape(shape, note);
  if (!dropWaiting(key)) return;
  if (typeof measured === "string") tell(measured, true);
  else applyArea({...areaOfShape(measured, old), taken});
}

/** Drop a change that waits. Return whether it was still waiting.
 * @param {string} key
 */
export function dropWaiting(key) {
  const waited = store.waiting.delete(key);
  refreshLists();
  return waited;
}

// A drag.

/** Begin a drag.
 * @param {Pick<Drag, "at" | "x" | "y" | "edge">} drag
 */
export function beginDrag(drag) {
  store.drag = {...drag, cell: store.extent.cell, step: store.extent.step, moved: false};
}

/** Ask whether the pointer has moved on from where it was pressed.
 * @param {[x: number, y: number]} point     pixels
 */
export function hasMoved([x, y]) {
  const drag = need("drag");
  drag.moved ||= Math.abs(x - drag.x) > 3 || Math.abs(y - drag.y) > 3;
  return drag.moved;
}

/** Show the rectangle that is drawn, and what it would do.
 * @param {Area} area
 */
export function showArea(area) {
  store.area = area;
  notify("area");
}

/** Show the rectangle that a drag draws, and note it for the end of the drag: the diagram may move
 * before that.
 * @param {Area} area
 */
export function showDrawn(area) {
  need("drag").area = area;
  showArea(area);
}

/** End the drag. Return it, with the area that it drew; null if nothing was being dragged. */
export function endDrag() {
  const {drag} = store;
  assign(store, {drag: null, area: null});
  notify("area");
  return drag;
}

/** Note a click on the diagram. Return whether it is the second click of a double click.
 * @param {{when: number, x: number, y: number}} click
 */
export function noteClick(click) {
  const before = store.lastClick;
  store.lastClick = click;
  return click.when - before.when < TWICE
    && Math.hypot(click.x - before.x, click.y - before.y) < AT_ONE_PLACE;
}

/** Choose the place that the readout describes.
 * @param {Place} place
 * @param {boolean} byKey    keys moved the cursor there: it is announced
 */
export function readPlace(place, byKey) {
  store.reading = {place, byKey};
  notify("reading");
}

/** Let single letters choose tools, or not.
 * @param {boolean} hasLetters
 */
export function useLetters(hasLetters) {
  store.hasLetters = hasLetters;
  notify("hasLetters");
}

// The cursor.

/** @returns {Place} */
const cursorStart = () => [Math.round(store.extent.cell + store.extent.cells / 2),
                           Math.round((store.extent.step + store.extent.span / 2) / 10) * 10];

/** Move the cursor.
 * @param {[across: number, down: number]} direction     of an arrow
 * @param {number} far                                   strides
 */
export function moveCursor([across, down], far) {
  const [cells, steps] = strideNow();
  const [cell, step] = store.cursor ?? cursorStart();
  store.cursor = [clamp(cell + across * cells * far, 0, need("plan").length),
                  clamp(step + down * steps * far, 0, LAST_STEP)];
  followCursor();
  notify("cursor");
}

/** Move the diagram to the cursor if the cursor has left it. */
function followCursor() {
  const [part, [cell, step]] = [store.extent, need("cursor")];
  const [across, down] = [cell - part.cell, step - part.step];
  if (across < 0 || across > part.cells) moveBy(across - part.cells / 2, 0);
  if (down < 0 || down > part.span) moveBy(0, down - part.span / 2);
}

/** Begin a rectangle at the cursor. */
export function beginCorner() {
  store.cursor ??= cursorStart();
  store.corner = [...store.cursor];
  notify("cursor");
}

/** Discard the rectangle that is drawn. */
export function dropArea() {
  assign(store, {area: null, corner: null, drag: null});
  notify("area");
}

/** Call a function while the diagram has no cursor and no rectangle.
 * @param {() => void} does
 */
export function withoutCursor(does) {
  const {cursor, area} = store;
  assign(store, {cursor: null, area: null});
  does();
  assign(store, {cursor, area});
  notify("area");
}
