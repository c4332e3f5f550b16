// View: mouse, touch and keys on the diagram, which make shapes; the readout, a text about the place
// at the pointer or the cursor.

import {cellAt, rowAt, stepAt} from "../../viewer/drawing.mjs";
import {redoNewest, undoNewest} from "./changeactions.mjs";
import {areaOfShape} from "./area.mjs";
import {applyArea, beginCorner, beginDrag, chooseTool, dropArea, endDrag, hasMoved, moveCursor,
        noteClick, readPlace, showArea, showDrawn, useLetters} from "./draft.mjs";
import {$, closest, on} from "./elements.mjs";
import {moreOfTool, valueOfTool} from "./formvalues.mjs";
import {OF_ONE, edgeNear, nearestIn, rectangleBetween, sameShape, shapeWithEdge, snap}
  from "./geometry.mjs";
import {isInForce} from "./layers.mjs";
import {moveBy, moveTo, setFollowing, showRoad, zoomBy} from "./navigation.mjs";
import * as messages from "./messages.mjs";
import {cornersOf} from "./picture.mjs";
import {roadText} from "./roadnames.mjs";
import {isOwn, layersOf, layersShown, need, roadOf, store, tell, watch, whoseShown}
  from "./store.mjs";
import {KMH_A_CELL, durationText, kmOf, limitText, metresText, roundedKm} from "./units.mjs";
import {acrossNow, everyShown, strideNow, viewNow} from "./view.mjs";

/** @typedef {import("./geometry.mjs").Edge} Edge */
/** @typedef {import("./store.mjs").Drag} Drag */
/** @typedef {import("./store.mjs").Store} Store */
/** @typedef {import("./types.mjs").Area} Area */
/** @typedef {import("./types.mjs").Change} Change */
/** @typedef {import("./types.mjs").Kind} Kind */
/** @typedef {import("./types.mjs").Place} Place */
/** @typedef {import("./types.mjs").Shape} Shape */

const AT_EDGE = 6;              // pixels: a press this near to an edge drags the edge

// Drags.

/** @type {(place: Place, exact: boolean) => Place} */
const snapHere = (place, exact) =>
  snap(place, {span: store.extent.span, scale: viewNow().scale, exact});

/** Return what a tool would do with a rectangle between two places.
 * @param {Kind} kind
 * @param {Place} one
 * @param {Place} other
 * @param {{open?: boolean, all?: boolean}} how
 */
function areaBetween(kind, one, other, how) {
  const {first, last, from, to, coversNoZone} = rectangleBetween(need("plan"), kind, one, other, how);
  const value = valueOfTool(kind, first, from);
  return areaOfShape({kind, first, last, from, to, value, ...moreOfTool(kind)}, null, coversNoZone);
}

/** Return the place of a pointer.
 * @param {{offsetX: number, offsetY: number}} event
 * @returns {Place}
 */
const placeOf = ({offsetX, offsetY}) => {
  const view = viewNow();
  return [cellAt(view, acrossNow(offsetX)), Math.max(0, stepAt(view, offsetY))];
};

/** Ask whether a change of the own road is the same on the road that is shown, and in force there, on
 * an object at a step.
 * @param {Change} change
 * @param {[index: number, step: number]} place
 */
function isSeen({name, shape}, place) {
  const there = layersShown().find(name);
  return there !== undefined && shape !== null && sameShape(there.shape, shape)
    && isInForce(there, ...place);
}

/** Ask whether the tool drags edges of a shape. A tool of another kind begins a rectangle instead.
 * @param {Shape} shape
 */
const dragsEdges = ({kind}) => store.tool === "look" || store.tool === kind;

/** Ask whether an edge of a shape can be dragged. A shape of one object has no sides.
 * @param {Shape} shape
 * @param {Edge} edge
 */
const canBeDragged = ({kind}, edge) => !OF_ONE.includes(kind) || ["top", "bottom"].includes(edge);

/** Return the own change whose edge is visible at a pixel, and the edge; null if no edge is
 * there, or another change covers it.
 * @param {number} x
 * @param {number} y
 * @returns {{change: Change, edge: Edge} | null}
 */
function edgeAt(x, y) {
  const view = viewNow();
  for (const change of layersOf("mine").changes.values()) {
    const {shape} = change;
    if (!shape || !change.standing || !isOwn(change) || !dragsEdges(shape)) continue;
    const edge = edgeNear(cornersOf(view, shape), [x, y], AT_EDGE, shape.to === null);
    const inside = nearestIn(need("plan"), shape, [cellAt(view, x), stepAt(view, y)]);
    if (edge && canBeDragged(shape, edge) && isSeen(change, inside)) return {change, edge};
  }
  return null;
}

/** @param {PointerEvent} event */
function onDown(event) {
  if (event.button) return;
  $("diagram").setPointerCapture(event.pointerId);
  const {offsetX: x, offsetY: y} = event;
  beginDrag({at: placeOf(event), x, y, edge: edgeAt(acrossNow(x), y)});
}

/** @param {PointerEvent} event */
function onMove(event) {
  readPlace(placeOf(event), false);
  const {drag} = store;
  if (!drag) {
    showPointer(event);
    return;
  }
  if (!hasMoved([event.offsetX, event.offsetY])) return;
  const area = areaOfDrag(event, drag);
  if (!area) {
    dragDiagram(event, drag);
    return;
  }
  showDrawn(area);
}

/** Return what a drag would do: move an edge of an own frame, or draw a rectangle; null if it moves
 * the diagram.
 * @param {PointerEvent} event
 * @param {Drag} drag
 */
function areaOfDrag(event, drag) {
  const ends = snapHere(placeOf(event), event.altKey);
  const {change, edge} = drag.edge ?? {};
  if (change?.shape && edge) {
    const shape = shapeWithEdge(need("plan"), change.shape, edge, ends, event.shiftKey);
    return areaOfShape(shape, change);
  }
  if (store.tool === "look") return null;
  const begun = snapHere(drag.at, event.altKey);
  return areaBetween(store.tool, begun, ends, {all: event.shiftKey});
}

/** Move the diagram by a drag.
 * @param {PointerEvent} event
 * @param {Drag} drag
 */
function dragDiagram(event, drag) {
  const {scale, tall} = viewNow();
  moveTo(drag.cell - (event.offsetX - drag.x) / scale, drag.step - (event.offsetY - drag.y) / tall);
}

/** Put the tool's value from the place of a click on.
 * @param {Kind} kind
 * @param {Place} place
 */
function putAt(kind, place) {
  applyArea(areaBetween(kind, place, place, {open: true}));
}

/** @param {PointerEvent} event */
function onUp(event) {
  const [drag, kind] = [endDrag(), store.tool];
  if (drag?.area) applyArea(drag.area);
  else if (drag && !drag.moved && kind !== "look" && kind !== "block") {
    const click = {when: event.timeStamp, x: event.offsetX, y: event.offsetY};
    if (!noteClick(click)) putAt(kind, snapHere(drag.at, event.altKey));
  }
  readPlace(placeOf(event), false);
}

/** @type {Record<Edge, string>} */
const RESIZES = {top: "ns-resize", bottom: "ns-resize", left: "ew-resize", right: "ew-resize"};

/** Show, by the shape of the pointer, what a press would do there.
 * @param {PointerEvent} event
 */
function showPointer({offsetX, offsetY}) {
  const edge = edgeAt(acrossNow(offsetX), offsetY)?.edge;
  $("diagram").style.cursor = edge ? RESIZES[edge] : cursorOfTool();
}

const cursorOfTool = () => (store.tool === "look" ? "grab" : "crosshair");

/** @param {WheelEvent} event */
function onWheel(event) {
  event.preventDefault();
  if (event.ctrlKey) {
    const [cell, step] = placeOf(event);
    zoomBy(event.deltaY < 0, {cell, step}, {times: !event.shiftKey});
  } else {
    const {scale, tall} = viewNow();
    moveBy(event.deltaX / scale, event.deltaY * (event.deltaMode ? 40 : 1) / tall);
  }
}

// The readout: a place, or what the rectangle that is drawn would do.

/** Return the text of the readout; null if there is nothing to read, or a road is not loaded.
 * @returns {string | null}
 */
function readoutText() {
  const {area, reading} = store;
  if (area) return [...area.lines, area.fault].filter(Boolean).join(", ");
  const isThere = whoseShown().every((whose) => store.roads[whose]);
  return reading && isThere ? textAt(reading.place) : null;
}

/** Show the readout. Announce it if keys moved the cursor, but not if only the road has changed.
 * @param {boolean} [isAnnounced]
 */
function showReadout(isAnnounced = false) {
  const text = readoutText();
  if (text === null || $("readout").textContent === text) return;
  $("readout").setAttribute("aria-live", isAnnounced ? "polite" : "off");
  $("readout").textContent = text;
}

/** Return the text about a place.
 * @param {Place} place
 */
function textAt([cell, step]) {
  const plan = need("plan");
  const {length, zone} = plan;
  const [at, moment] = [Math.max(0, Math.min(length - 1, Math.floor(cell))), Math.round(step)];
  const roads = whoseShown();
  const texts = roads.map((whose) =>
    characterText(rowAt(roadOf(whose).level(everyShown()), moment)?.[at]));
  const limit = layersShown().valueAt("limit", Math.floor(at / zone), moment);
  const said = texts.length > 1
    ? roads.map((whose, which) => `${roadText(whose)}: ${texts[which]}`).join("; ") : texts[0];
  const place = `${roundedKm(kmOf(plan, at), 2).toFixed(2)} km, ${store.day.timeText(moment)}`;
  return `${place}: ${said}; limit ${limitText(limit ?? 0)}`;
}

/** Return what a character of a row means, as text.
 * @param {string | undefined} character
 */
function characterText(character) {
  if (character === undefined) return "not computed";
  if (character === ".") return "no car";
  return character === "#" ? "closed" : `a car at ${Number(character) * KMH_A_CELL} km/h`;
}

// Keys.

/** @type {Record<string, [across: number, down: number]>} */
const ARROWS = {ArrowLeft: [-1, 0], ArrowRight: [1, 0], ArrowUp: [0, -1], ArrowDown: [0, 1]};
/** @type {Record<string, Store["tool"]>} */
const LETTERS = {v: "look", c: "block", a: "capacity", l: "limit", i: "inflow", p: "slow", s: "start", t: "watch"};

/** Show how far an arrow key moves the cursor at this zoom. */
function showStride() {
  const [cells, steps] = strideNow();
  const text = `by ${metresText(cells)} and ${durationText(steps)} at this zoom`;
  if ($("stride").textContent !== text) $("stride").textContent = text;
}

/** Move the cursor, and the rectangle that it draws.
 * @param {[across: number, down: number]} direction
 * @param {number} far      strides
 */
function onArrow(direction, far) {
  moveCursor(direction, far);
  readPlace(need("cursor"), true);
  if (store.corner) extendRectangle();
}

/** Extend the rectangle from its corner to the cursor. Return what it would do; null with the tool `look`.
 * @param {boolean} [all]   it takes all zones that it touches
 */
function extendRectangle(all = false) {
  if (store.tool === "look") return null;
  const area = areaBetween(store.tool, need("corner"), need("cursor"), {all});
  showArea(area);
  return area;
}

/** Begin a rectangle at the cursor. */
function onSpace() {
  if (store.tool === "look") {
    tell(messages.CHOOSE_TOOL, true);
    return;
  }
  beginCorner();
  readPlace(need("cursor"), true);
  extendRectangle();
}

/** Discard the rectangle. */
function drop() {
  dropArea();
  if (store.cursor) readPlace(store.cursor, true);
}

/** Make the change that the rectangle shows, which was drawn with keys.
 * @param {boolean} all     it takes all zones that it touches
 */
function onEnter(all) {
  const area = store.corner && extendRectangle(all);
  if (area && applyArea(area)) drop();
}

/** @param {KeyboardEvent} event */
function onDiagramKey(event) {
  if (event.ctrlKey || event.metaKey || event.altKey) return;
  const far = event.shiftKey ? 10 : 1;
  const {extent} = store;
  /** @type {Record<string, () => void>} */
  const functions = {
    " ": onSpace, Enter: () => onEnter(event.shiftKey), Escape: drop,
    PageUp: () => moveBy(0, -extent.span / 2), PageDown: () => moveBy(0, extent.span / 2),
    Home: () => moveBy(0, -extent.step || -1), End: () => setFollowing(true),
    "+": () => zoomBy(true, {}, {times: far === 1}), "=": () => zoomBy(true, {}, {places: false}),
    "-": () => zoomBy(false, {}, {places: false}), _: () => zoomBy(false, {}, {times: false}),
  };
  const does = ARROWS[event.key] ? () => onArrow(ARROWS[event.key], far) : functions[event.key];
  if (!does) return;
  event.preventDefault();
  does();
}

/** @param {KeyboardEvent} event */
function onLetter(event) {
  if (!store.hasLetters || event.ctrlKey || event.metaKey || event.altKey || !store.me) return;
  if (closest(event, "input:not([type=radio], [type=checkbox]), select, textarea")) return;
  if (store.hello) return;
  const letter = event.key.toLowerCase();
  if (LETTERS[letter]) chooseTool(LETTERS[letter]);
  else if (letter === "d") showRoad(store.whose === "both" ? "mine" : "both");
  else if (letter === "z" && event.shiftKey) redoNewest();
  else if (letter === "z") undoNewest();
}

/** Listen to the store and to the page. */
export function begin() {
  on("diagram", "pointerdown", onDown);
  on("diagram", "pointermove", onMove);
  on("diagram", "pointerup", onUp);
  on("diagram", "pointercancel", drop);
  on("diagram", "wheel", onWheel, {passive: false});
  on("diagram", "keydown", onDiagramKey);
  document.addEventListener("keydown", onLetter);
  on("letters", "change", () => useLetters($("letters").checked));
  const showCursor = () => { $("diagram").style.cursor = cursorOfTool(); };
  watch(["tool"], showCursor);
  watch(["extent"], showStride);
  const showLetters = () => { $("letters").checked = store.hasLetters; };
  watch(["hasLetters"], showLetters);
  watch(["reading", "area"], () => showReadout(store.reading?.byKey));
  watch(["extent", "changedRows", "changes"], () => showReadout());
  showLetters();
  showCursor();
}
