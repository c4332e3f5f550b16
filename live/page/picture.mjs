// View: the diagram. The functions of drawing.js paint rows on tiles, which are kept until their rows
// change. Above these are the frames of what is in force, the clock, the rectangle that is drawn and
// the cursor. The legend is below the diagram.

import {BLOCKED, EMPTY, FASTER, FASTEST_COLOUR, INK, MARGIN, NO_ROW, OF_PLAN, SLOWER, Tiles, cleared,
        clip, drawAxes, drawDetails, drawFrame, drawPlan, drawWedge, inView, leftOf, paintCells,
        paintClosures, paintDifference, paintMeans, sizeOfCell, speedColour, topOf, unitOf}
  from "../../viewer/drawing.mjs";
import {assign} from "./assign.mjs";
import {waitingShapes, wordsShown} from "./changes.mjs";
import {$, choose, chosen, element, on, oneOf} from "./elements.mjs";
import {finishDrawing, requestDrawing} from "./loader.mjs";
import {cellsOf} from "./geometry.mjs";
import {dropDuplicates, placeOfLabel} from "./labels.mjs";
import {SPANS, chooseSpan, paintBy, setPlotSize, showRoad, showWholeRoad, showWithApproach, zoomBy} from "./navigation.mjs";
import {valueText} from "./shapetexts.mjs";
import {keyOf} from "./stamps.mjs";
import {roadText} from "./roadnames.mjs";
import {isOwn, last, layersOf, layersShown, need, now, roadOf, store, watch, whoseShown} from "./store.mjs";
import {HOUR, KMH_A_CELL, LAST_STEP, METRES_A_CELL, whole} from "./units.mjs";
import {byMeans, everyShown, partShown, viewNow, widthNow} from "./view.mjs";

/** @typedef {import("../../viewer/drawing.mjs").LegendEntry} LegendEntry */
/** @typedef {import("../../viewer/drawing.mjs").View} View */
/** @typedef {import("./labels.mjs").Label} Label */
/** @typedef {import("./types.mjs").Area} Area */
/** @typedef {import("./types.mjs").Box} Box */
/** @typedef {import("./types.mjs").Change} Change */
/** @typedef {import("./types.mjs").Frame} Frame */
/** @typedef {import("./types.mjs").Kind} Kind */
/** @typedef {import("./types.mjs").RoadName} RoadName */
/** @typedef {CanvasRenderingContext2D} Context */
/**
 * A frame that is drawn: where a change is in force, or a shape that is not confirmed yet.
 * @typedef {Pick<Change, "name" | "seat" | "who"> & Partial<Pick<Change, "shape" | "covered">>} Author
 * @typedef {Omit<Frame, "by"> & {by: Author, pending?: boolean}} Drawn
 */

const FASTEST = FASTEST_COLOUR;        // cells a step of the last colour, 135 km/h
/** @type {Record<Kind, string>} */
const FRAME = {block: "#8f3a00", limit: "#004a9f", slow: "#5b2a86", start: "#5b2a86",
               inflow: "#0b5d2a", watch: "#333333", capacity: "#8f3a00"};
const LABEL = "600 13px system-ui, sans-serif";
const LABEL_HIGH = 17;          // pixels
const HALO_FROM = 16;           // pixels: larger frames have a white line around them
const LEAST = 6;                // pixels: a smaller frame is drawn as large as this
const BEFORE = 10;              // pixels before a picture that is beside another one, for the clock
const UNIT_WIDE = 40;           // pixels of the unit above a picture

// A cache of painted tiles. The page stores nothing else in it, so it may be cleared at any time.
const tilesKept = new Tiles();

/** Draw at the next animation frame, once. */
export function draw() {
  if (!store.plan || !requestDrawing()) return;
  requestAnimationFrame(() => {
    drawDiagram();
    finishDrawing();
  });
}

/** Draw the diagram now: one picture, or one of each road that is side by side. */
export function drawDiagram() {
  const {context, height} = cleared($("diagram"));
  const [wide, apart] = widthNow();
  const pictures = store.whose === "beside" ? whoseShown().map((road) => [road]) : [whoseShown()];
  pictures.forEach((roads, place) => {
    context.save();
    context.translate(place * apart, 0);
    drawPicture(context, roads, MARGIN.left + wide + MARGIN.right, height);
    drawAround(context, MARGIN.left + wide + MARGIN.right, height, place > 0);
    if (pictures.length > 1) drawName(context, roads[0], wide);
    context.restore();
  });
}

/** Draw the picture of a road, or of the difference of two.
 * @param {Context} context
 * @param {RoadName[]} roads
 * @param {number} width     with the margins
 * @param {number} height
 */
function drawPicture(context, roads, width, height) {
  const view = viewNow();
  clip(context, MARGIN.top, width, height - MARGIN.top - MARGIN.bottom);
  context.fillStyle = NO_ROW;
  context.fillRect(0, 0, width, height);
  drawRows(context, view, roads, width, height);
  const frames = framesOf(roads[0]);
  fillClosures(context, view, frames);
  drawAhead(context, view, width, height);
  const named = areOfSeveral(frames);
  const labels = frames.map((frame) => drawEdges(context, view, frame, named));
  if (store.area) drawArea(context, view, store.area, width);
  else drawLabels(context, view, frames, dropDuplicates(labels.flatMap((one) => one ?? [])), width);
  if (store.cursor) drawFrame(context, view, store.cursor[1], store.cursor[0]);
  context.restore();
}

/** Draw what is around a picture: axes, plan and clock. A picture beside another one has no axis of
 * time.
 * @param {Context} context
 * @param {number} width     with the margins
 * @param {number} height
 * @param {boolean} isBeside
 */
function drawAround(context, width, height, isBeside) {
  const [view, plan] = [viewNow(), need("plan")];
  context.save();
  if (isBeside) {
    context.beginPath();
    context.rect(MARGIN.left - BEFORE, 0, width, height);
    context.clip();
  }
  drawAxes(context, view, partShown(), unitNow(), plan.length);
  drawPlan(context, view, plan, width);
  drawWedge(context, view, now(), INK, height);
  context.restore();
}

/** Write the name of a road above its picture.
 * @param {Context} context
 * @param {RoadName} road
 * @param {number} wide      pixels of the picture
 */
function drawName(context, road, wide) {
  assign(context, {font: LABEL, textAlign: "right", textBaseline: "top", fillStyle: "#000000"});
  context.fillText(roadText(road), MARGIN.left + wide, 3, wide - UNIT_WIDE);
}

/** Return the units of a cell and a step, with times as the road's clock writes them. */
function unitNow() {
  const {day} = store;
  return {...unitOf(METRES_A_CELL, 1, true, (day.begin ?? 0) - day.lead), origin: need("plan").origin,
          textOf: (/** @type {number} */ step) => day.axisText(step)};
}

/** Draw the visible rows.
 * @param {Context} context
 * @param {View} view
 * @param {RoadName[]} roads
 * @param {number} width
 * @param {number} height
 */
function drawRows(context, view, roads, width, height) {
  const every = everyShown();
  const [picture, other] = roads.map((whose) => roadOf(whose).level(every));
  const name = `${roads.join("-")} ${every}`;
  const part = inView(view, picture, width, height);
  const how = {tiles: tilesKept, name, greatest: FASTEST};
  if (other) {
    paintDifference(context, view, picture, other, part, how);
    return;
  }
  if (byMeans(view)) {
    paintMeans(context, view, picture, part, how);
    return;
  }
  paintCells(context, view, picture, part, how);
  paintClosures(context, view, picture, part, how);
  drawDetails(context, view, picture, null, part, FASTEST);
}

/** Forget the tiles in which rows of a road have changed. */
function repaint() {
  const {whose, every, steps: [from, to]} = need("changedRows");
  for (const shown of [whose, "mine-shared", "after-before"]) {
    tilesKept.forget(`${shown} ${every}`, from, to);
  }
  draw();
}

/** Draw a line at the clock. If the road is shown ahead of it, write below that this is a forecast.
 * @param {Context} context
 * @param {View} view
 * @param {number} width
 * @param {number} height
 */
function drawAhead(context, view, width, height) {
  const top = topOf(view, now());
  if (top > height) return;
  context.setLineDash([2, 3]);
  assign(context, {strokeStyle: "#000000", lineWidth: 1});
  context.beginPath();
  context.moveTo(MARGIN.left, top);
  context.lineTo(width, top);
  context.stroke();
  context.setLineDash([]);
  if (store.forecastEnd > now()) {
    write(context, "forecast, visible only to you", width - 12, top + 2, "right");
  }
}

/** Write a text on a white background.
 * @param {Context} context
 * @param {string} text
 * @param {number} left
 * @param {number} top
 * @param {"left" | "right"} [align]
 * @param {string} [colour]
 */
export function write(context, text, left, top, align = "left", colour = "#000000") {
  assign(context, {font: LABEL, textAlign: "left", textBaseline: "top"});
  const wide = context.measureText(text).width;
  const from = align === "right" ? left - wide : left;
  context.fillStyle = "rgba(255, 255, 255, 0.92)";
  context.fillRect(from - 3, top, wide + 6, LABEL_HIGH);
  context.fillStyle = colour;
  context.fillText(text, from, top + 2);
}

/** Return the frames of the road that is shown, of several those of the first. */
export const framesShown = () => framesOf(whoseShown()[0]);

/** Return the frames of a road that is shown, without the demand of its file, and the frames of shapes
 * that are not confirmed yet.
 * @param {RoadName} road
 * @returns {Drawn[]}
 */
function framesOf(road) {
  const {seat, name} = need("me");
  /** @type {Drawn["by"]} */
  const own = {name: {count: 0, hash: ""}, seat, who: name};
  const shapes = road === "mine" ? waitingShapes() : [];
  const waiting = shapes.map((shape) => ({...shape, by: own, pending: true}));
  return [...layersOf(road).frames.filter(({by}) => !by.planned), ...waiting];
}

/** Return the box of a frame on the canvas.
 * @param {View} view
 * @param {Omit<Frame, "by" | "value">} frame
 * @returns {Box}
 */
export function cornersOf(view, {kind, first, last, from, to}) {
  const [start, end] = cellsOf(need("plan"), kind, first, last);
  const [left, right] = [leftOf(view, start), leftOf(view, end)];
  const [top, bottom] = [topOf(view, from), topOf(view, to ?? LAST_STEP + 1)];
  const thin = Math.max(0, LEAST - (right - left)) / 2;
  const low = Math.max(0, LEAST - (bottom - top)) / 2;
  return [left - thin, top - low, right + thin, bottom + low];
}

/** Paint closures as boxes if rows are left out or cells share a pixel: otherwise a short closure
 * would not be visible, and a long one would be striped.
 * @param {Context} context
 * @param {View} view
 * @param {Drawn[]} frames
 */
function fillClosures(context, view, frames) {
  if (sizeOfCell(view) >= 1 && everyShown() === 1) return;
  context.fillStyle = BLOCKED;
  for (const frame of frames.filter(({kind, pending}) => kind === "block" && !pending)) {
    const [left, top, right, bottom] = cornersOf(view, frame);
    const end = Math.min(bottom, topOf(view, last() + 1));
    if (end > top) context.fillRect(left, top, right - left, end - top);
  }
}

/** Ask whether frames are of several people.
 * @param {Drawn[]} frames
 */
export const areOfSeveral = (frames) => new Set(frames.map(({by}) => by.seat ?? by.who)).size > 1;

/** Return the shape that a frame stands for: a capacity if the frame is a part of one that holds
 * everywhere, otherwise the frame's own.
 * @param {Drawn} frame
 * @returns {Omit<Drawn, "by">}
 */
const shapeOfFrame = (frame) => (frame.by.shape?.kind === "capacity" && !frame.by.covered?.length ? frame.by.shape : frame);

/** Return what is written at a frame.
 * @param {Drawn} frame
 * @param {boolean} named    with whose change it is
 */
export function labelOf(frame, named) {
  const {pending, by} = frame;
  const shape = shapeOfFrame(frame);
  const text = shape.kind === "capacity" ? `${whole(shape.value)} cars/h`
    : valueText(layersShown(), shape).toLowerCase();
  return text + (pending ? " (pending)" : "") + (named ? `, ${wordsShown().name(by)}` : "");
}

/** Draw the edges of a frame. Return its label; null if it is not visible.
 * @param {Context} context
 * @param {View} view
 * @param {Drawn} frame
 * @param {boolean} named
 * @returns {(Label & {colour: string}) | null}
 */
function drawEdges(context, view, frame, named) {
  const [left, top, right, bottom] = cornersOf(view, frame);
  const height = $("diagram").clientHeight;
  if (bottom < MARGIN.top || top > height) return null;
  const own = isOwn(frame.by);
  const [upper, lower] = [Math.max(-10, top), Math.min(height + 10, bottom)];
  /** @type {Box} */
  const rectangle = [left, upper, right - left, lower - upper];
  if (Math.min(right - left, bottom - top) > HALO_FROM) {
    assign(context, {strokeStyle: "rgba(255, 255, 255, 0.85)", lineWidth: 4});
    context.strokeRect(...rectangle);
  }
  const colour = FRAME[shapeOfFrame(frame).kind];
  context.setLineDash(frame.pending ? [2, 2] : own ? [] : [7, 4]);
  assign(context, {strokeStyle: colour, lineWidth: 2});
  context.strokeRect(...rectangle);
  context.setLineDash([]);
  return {text: labelOf(frame, named), box: [left, top, right, bottom],
          colour, change: frame.pending ? frame : keyOf(frame.by.name)};
}

/** Write the labels of frames, clear of closures and of each other, on computed rows.
 * @param {Context} context
 * @param {View} view
 * @param {Drawn[]} frames
 * @param {(Label & {colour: string})[]} labels
 * @param {number} width
 */
function drawLabels(context, view, frames, labels, width) {
  const {clientHeight} = $("diagram");
  const lowest = Math.min(clientHeight - MARGIN.bottom, topOf(view, last()));
  /** @type {Box} */
  const bounds = [MARGIN.left, MARGIN.top, width - MARGIN.right, lowest];
  const taken = frames.filter(({kind}) => kind === "block").map((one) => cornersOf(view, one));
  context.font = LABEL;
  for (const {text, box, colour} of labels) {
    const wide = context.measureText(text).width + 6;
    const place = placeOfLabel(box, [wide, LABEL_HIGH], bounds, taken);
    if (!place) continue;
    const [left, top] = place;
    taken.push([left, top, left + wide, top + LABEL_HIGH]);
    write(context, text, left + 3, top, "left", colour);
  }
}

/** Draw the rectangle of a drag or of keys, and what it would do; in red if it cannot be put.
 * @param {Context} context
 * @param {View} view
 * @param {Area} area
 * @param {number} width
 */
function drawArea(context, view, area, width) {
  const {shape, lines, fault} = area;
  const [left, top, right, bottom] = cornersOf(view, shape);
  context.fillStyle = fault ? "rgba(160, 0, 0, 0.35)" : "rgba(255, 255, 255, 0.45)";
  context.fillRect(left, top, right - left, bottom - top);
  /** @type {[colour: string, size: number][]} */
  const strokes = [["#ffffff", 5], [fault ? "#a00000" : "#000000", 2]];
  for (const [strokeStyle, lineWidth] of strokes) {
    assign(context, {strokeStyle, lineWidth});
    context.strokeRect(left, top, right - left, bottom - top);
  }
  const said = fault ? [...lines, fault] : lines;
  context.font = LABEL;
  const wide = Math.max(...said.map((text) => context.measureText(text).width)) + 14;
  const side = right + 10 + wide < width - MARGIN.right ? right + 10
    : Math.max(MARGIN.left + 4, left - 10 - wide);
  const lowest = $("diagram").clientHeight - 24 - LABEL_HIGH * said.length;
  const upper = Math.max(MARGIN.top + 4, Math.min(top, lowest));
  said.forEach((text, line) => write(context, text, side, upper + LABEL_HIGH * line, "left",
    fault && line === said.length - 1 ? "#a00000" : "#000000"));
}

// What the colours mean, as a list below the diagram.

/** Return the entries of the legend. */
export function legendEntries() {
  return [...colourEntries(), {text: "inlet", colour: OF_PLAN.inlet},
          {text: "detector", colour: OF_PLAN.detector},
          {text: "zones (alternating shades)", colour: OF_PLAN.zone}];
}

/** @returns {(string | LegendEntry)[]} */
function colourEntries() {
  const closed = {text: "closed", colour: BLOCKED};
  const unknown = {text: "not computed", colour: NO_ROW};
  if (store.whose === "both") {
    const [slower, faster] = whoseShown()[0] === "after" ? ["slower after", "faster after"]
      : ["mine slower", "mine faster"];
    return [{text: slower, colour: SLOWER}, {text: "as fast", colour: EMPTY},
            {text: faster, colour: FASTER}, closed, unknown];
  }
  const speeds = Array.from({length: FASTEST + 1}, (_, speed) =>
    ({text: String(speed * KMH_A_CELL), colour: speedColour(speed, FASTEST)}));
  return ["km/h:", ...speeds, {text: "no car", colour: EMPTY}, closed, unknown];
}

/** Show the legend. */
function showLegend() {
  const of = String(whoseShown());
  if ($("legend").dataset.of === of) return;
  $("legend").dataset.of = of;
  $("legend").replaceChildren(...legendEntries().map((entry) => {
    if (typeof entry === "string") return element("li", entry);
    const box = element("span", "", {className: "swatch"});
    box.style.background = entry.colour;
    return element("li", "", {}, box, entry.text);
  }));
}

/** Show, in the choices above the diagram, which road and how long a time it shows. */
function showChoices() {
  choose("whose", store.whose);
  $("span").value = String(store.extent.span);
}

/** @type {import("./store.mjs").Store["whose"][]} */
const ROADS = ["mine", "shared", "both", "beside"];
/** @type {import("./store.mjs").Store["paint"][]} */
const PAINTS = ["zoom", "cars", "means"];

/** Listen to the store and to the page. */
export function begin() {
  for (const span of SPANS) {
    const text = span < HOUR ? `${span / 60} min` : `${span / HOUR} h`;
    $("span").append(new Option(text, String(span), span === HOUR, span === HOUR));
  }
  on("whose", "change", () => showRoad(oneOf(ROADS, chosen("whose")) ?? "mine"));
  on("paint", "change", () => paintBy(oneOf(PAINTS, $("paint").value) ?? "zoom"));
  on("span", "change", () => chooseSpan(Number($("span").value)));
  on("closer", "click", () => zoomBy(true));
  on("farther", "click", () => zoomBy(false));
  on("wholeRoad", "click", showWholeRoad);
  on("withApproach", "click", showWithApproach);
  watch(["changedRows"], repaint);
  watch(["preview", "outcome", "variants"], () => {
    tilesKept.clear();          // each preview has new roads, and a variant may be named again
    draw();
  });
  watch(["me", "extent", "timings", "changes", "area", "cursor", "curves"], draw);
  watch(["plan"], () => { $("withApproach").hidden = !need("plan").origin; });
  watch(["extent"], showLegend);
  watch(["extent"], showChoices);
  const measure = () => setPlotSize($("diagram").clientWidth - MARGIN.left - MARGIN.right,
    $("diagram").clientHeight - MARGIN.top - MARGIN.bottom);
  measure();
  new ResizeObserver(measure).observe($("diagram"));
}
