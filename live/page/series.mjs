// View: flow and speed by time at a detector, and travel times by the minute of entry, of the roads that
// are compared. The pointer or an arrow key selects a point.

import {assign} from "./assign.mjs";
import {$, element, on} from "./elements.mjs";
import {askSeries, chooseEnd, chooseSite, exactOf, readPoint} from "./loader.mjs";
import {setOpen} from "./navigation.mjs";
import {roadText} from "./roadnames.mjs";
import {figureRoads, need, store, watch} from "./store.mjs";
import {MINUTE, PER_LANE, kmText, whole} from "./units.mjs";

/** @typedef {import("./types.mjs").DetectorFigures} DetectorFigures */
/** @typedef {import("./types.mjs").Figures} Figures */
/** @typedef {"flowChart" | "speedChart" | "travelChart"} ChartId */
/** @typedef {[x: number, y: number]} Point          pixels */
/**
 * A chart: its canvas, unit, smallest top of its axis, first and last step, and steps per point.
 * `sides` has the values of each road, one for each point; null if a point has no value.
 * @typedef {{id: ChartId, unit: string, smallestTop: number, from: number, to: number, each: number,
 *            sides: (number | null)[][]}} Chart
 */

const COLOURS = ["#0072b2", "#c24e00", "#009e73", "#cc79a7"];        // as in the report, in the order of roads
const LEFT = 44, RIGHT = 6, TOP = 8, BOTTOM = 16;       // pixels around a plot: labels are not clipped
const TALL_ENOUGH = 880;        // pixels: the height of a window from which it starts open
const MOST_POINTS = 720;        // minutes of entry that are drawn

/** Return the names of the roads whose travel times are shown. */
const namesNow = () => (store.outcome?.layers ? ["before", "after"] : figureRoads().map(roadText));

/** Return the places of roads in the order of texts: the later one of two comes first.
 * @param {string[]} names
 */
const orderOf = (names) => (names.length === 2 ? [1, 0] : names.map((_, side) => side));

/** Return the charts of flow and speed at the detector that is chosen; none if they are not known.
 * @returns {Chart[]}
 */
function detectorCharts() {
  const {series: {flows, from, to, each, site}} = store;
  if (!flows) return [];
  const sidesOf = (/** @type {(one: DetectorFigures) => number | null} */ of) =>
    flows.map((spans) => spans.map((span) => of(span[site])));
  return [
    {id: "flowChart", unit: `cars/h ${PER_LANE}`, smallestTop: 500, from, to, each, sides: sidesOf(({flow}) => flow)},
    {id: "speedChart", unit: "km/h", smallestTop: 135, from, to, each, sides: sidesOf(({speed}) => speed)}];
}

/** Return the figures that are counted car by car of the two roads; null if they are not known.
 * @returns {Figures | null}
 */
function figuresNow() {
  if (!store.preview) return store.plan ? exactOf(store.figures.wanted) : null;
  const figures = store.outcome?.figures;
  return figures && !("why" in figures) ? figures : null;
}

/** Return the chart of travel times by the minute of entry; null if they are not known, or if there
 * are too many minutes.
 * @returns {Chart | null}
 */
function travelChart() {
  const figures = figuresNow();
  if (!figures) return null;
  const {from, to, entries} = figures;
  const minutes = Math.ceil((to - from) / MINUTE);
  if (minutes > MOST_POINTS) return null;
  const place = store.series.end ?? need("plan").detectors.length;
  const sides = entries.map((each) => {
    const byMinute = new Map(each.map(({step, trips}) => [(step - from) / MINUTE, trips[place].seconds]));
    return Array.from({length: minutes}, (_, minute) => byMinute.get(minute) ?? null);
  });
  return {id: "travelChart", unit: "s", smallestTop: 60, from, to, each: MINUTE, sides};
}

/** Return the chart of a canvas; null if it is not known.
 * @param {ChartId} id
 */
const chartOf = (id) =>
  (id === "travelChart" ? travelChart() : detectorCharts().find((chart) => chart.id === id) ?? null);

/** Return the next larger round number.
 * @param {number} value     above 0
 */
function niceAbove(value) {
  const power = 10 ** Math.floor(Math.log10(value));
  return power * ([1, 1.5, 2, 3, 4, 5].find((factor) => factor * power >= value) ?? 10);
}

/** Match a canvas to its displayed size, and clear it. Return its context, width and height.
 * @param {HTMLCanvasElement} canvas
 * @returns {[CanvasRenderingContext2D, number, number]}
 */
function clearedCanvas(canvas) {
  const {clientWidth: width, clientHeight: height} = canvas;
  const fine = window.devicePixelRatio;
  assign(canvas, {width: Math.round(width * fine), height: Math.round(height * fine)});
  const context = canvas.getContext("2d");
  if (!context) throw new Error("This browser has no canvas to draw on.");
  context.setTransform(fine, 0, 0, fine, 0, 0);
  return [context, width, height];
}

/** Draw a chart, with a mark at the selected point.
 * @param {Chart} chart
 * @param {number | null} selected
 */
function drawChart({id, unit, smallestTop, from, to, each, sides}, selected) {
  const [context, width, height] = clearedCanvas($(id));
  const top = niceAbove(Math.max(smallestTop, ...sides.flat().map((value) => value ?? 0)));
  const [wide, high] = [width - LEFT - RIGHT, height - TOP - BOTTOM];
  const across = (/** @type {number} */ step) => LEFT + wide * (step - from) / (to - from);
  const up = (/** @type {number} */ value) => TOP + high * (1 - value / top);
  assign(context, {font: "11px system-ui, sans-serif", textBaseline: "middle",
                   lineWidth: 1, strokeStyle: "#d5dbe1", fillStyle: "#1a1a1a"});
  for (const part of [0, 0.5, 1]) {
    const y = Math.round(up(part * top)) + 0.5;
    context.strokeRect(LEFT, y, wide, 0);
    context.textAlign = "right";
    context.fillText(whole(part * top), LEFT - 4, y);
  }
  context.textAlign = "left";
  context.fillText(unit, LEFT + 4, TOP + 7);
  /** @type {[step: number, align: CanvasTextAlign][]} */
  const times = [[from, "left"], [(from + to) / 2, "center"], [to, "right"]];
  for (const [step, align] of times) {
    context.textAlign = align;
    context.fillText(store.day.timeText(step), across(step), height - 7);
  }
  sides.forEach((values, side) => drawLine(context, values.map((value, index) =>
    value === null ? null : [across(from + (index + 0.5) * each), up(value)]), side));
  if (selected === null) return;
  assign(context, {strokeStyle: "#1a1a1a", lineWidth: 1});
  context.strokeRect(across(from + (selected + 0.5) * each), TOP, 0, high);
}

/** Draw a line through points, with a gap where there is none.
 * @param {CanvasRenderingContext2D} context
 * @param {(Point | null)[]} points
 * @param {number} side
 */
function drawLine(context, points, side) {
  assign(context, {strokeStyle: COLOURS[side], lineWidth: side ? 1.5 : 2.5});
  context.beginPath();
  points.forEach((point, index) => {
    if (!point) return;
    if (points[index - 1]) context.lineTo(...point);
    else context.moveTo(...point);
    if (!points[index - 1] && !points[index + 1]) context.lineTo(point[0] + 2, point[1]);
  });
  context.stroke();
}

/** Return the text of what a detector counted in a span.
 * @param {number | null} flow       cars per hour; null: it was off
 * @param {number | null} speed      km/h; null: no car passed
 */
function detectorText(flow, speed) {
  if (flow === null) return "detector off";
  return `${whole(flow)} cars/h${speed === null ? "" : `, ${Math.round(speed)} km/h`}`;
}

/** Return the text of the span of a point.
 * @param {Chart} chart
 * @param {number} point
 */
const spanOf = ({from, to, each}, point) =>
  store.day.spanText(from + point * each, Math.min(to, from + (point + 1) * each));

/** Return the text of flow and speed at the selected point.
 * @param {Chart[]} charts   of flow and speed
 */
function readingText([flows, speeds]) {
  const {point, names} = store.series;
  if (point === null) return "Point at a chart, or use its arrow keys, to read values.";
  return `${spanOf(flows, point)}: ` + orderOf(names).map((side) =>
    `${names[side]} ${detectorText(flows.sides[side][point], speeds.sides[side][point])}`).join("; ");
}

/** Return the text of the travel times at the selected minute.
 * @param {Chart} chart
 */
function travelText(chart) {
  const {minute} = store.series;
  if (minute === null || minute >= chart.sides[0].length) {
    return "Mean travel time of the cars that entered in each minute.";
  }
  const names = namesNow();
  const text = (/** @type {number | null} */ value) => (value === null ? "no car" : `${whole(value)} s`);
  return `Entered ${spanOf(chart, minute)}: `
    + orderOf(names).map((side) => `${names[side]} ${text(chart.sides[side][minute])}`).join("; ");
}

/** Show the charts, if they are open. */
function show() {
  const {isOpen, series: {point, minute, site, end}} = store;
  const charts = detectorCharts();
  $("series").hidden = !charts.length;
  if (!charts.length || !isOpen.series) return;
  $("seriesSite").value = String(site);
  $("seriesEnd").value = end === null ? "" : String(end);
  showRoadColours();
  for (const chart of charts) drawChart(chart, point);
  $("seriesRead").textContent = readingText(charts);
  const travel = travelChart();
  $("travelPart").hidden = !travel;
  if (!travel) return;
  drawChart(travel, minute);
  $("travelRead").textContent = travelText(travel);
}

/** Show which colour is which road. */
function showRoadColours() {
  const {names} = store.series;
  $("seriesLegend").replaceChildren(...orderOf(names).map((side) => {
    const line = element("span", "", {className: "swatch"});
    line.style.background = COLOURS[side];
    return element("li", "", {}, line, names[side]);
  }));
}

/** Select the point of a chart at which the pointer is.
 * @param {ChartId} id
 * @param {PointerEvent} event
 */
function onPoint(id, {offsetX}) {
  const chart = chartOf(id);
  if (!chart) return;
  const part = (offsetX - LEFT) / ($(id).clientWidth - LEFT - RIGHT);
  readAt(id, chart, Math.floor(part * (chart.to - chart.from) / chart.each));
}

/** Select the next point of a chart, or the one before.
 * @param {ChartId} id
 * @param {KeyboardEvent} event
 */
function onKey(id, event) {
  const way = event.key === "ArrowLeft" ? -1 : event.key === "ArrowRight" ? 1 : 0;
  const chart = chartOf(id);
  if (!way || !chart) return;
  event.preventDefault();
  const read = id === "travelChart" ? store.series.minute : store.series.point;
  readAt(id, chart, (read ?? (way > 0 ? -1 : chart.sides[0].length)) + way);
}

/** Select a point of a chart, or the nearest that it has.
 * @param {ChartId} id
 * @param {Chart} chart
 * @param {number} point
 */
const readAt = (id, {sides: [one]}, point) =>
  readPoint(id === "travelChart" ? "minute" : "point", Math.max(0, Math.min(one.length - 1, point)));

/** Fill the choices of places from the plan. */
function showPlaces() {
  const plan = need("plan");
  const options = () => plan.detectors.map((cell, index) =>
    new Option(`${kmText(plan, cell)} km`, String(index)));
  $("seriesSite").replaceChildren(...options());
  $("seriesEnd").replaceChildren(...options(), new Option("the road's end", ""));
}

/** Listen to the store and to the page. */
export function begin() {
  $("series").open = window.innerHeight >= TALL_ENOUGH;
  setOpen("series", $("series").open);
  /** @type {ChartId[]} */
  const ids = ["flowChart", "speedChart", "travelChart"];
  for (const id of ids) {
    on(id, "pointermove", (event) => onPoint(id, event));
    on(id, "pointerleave", () => readPoint(id === "travelChart" ? "minute" : "point", null));
    on(id, "keydown", (event) => onKey(id, event));
  }
  on("seriesSite", "change", () => chooseSite(Number($("seriesSite").value)));
  on("seriesEnd", "change", () =>
    chooseEnd($("seriesEnd").value === "" ? null : Number($("seriesEnd").value)));
  on("series", "toggle", () => {
    setOpen("series", $("series").open);
    if (store.plan) askSeries();
  });
  new ResizeObserver(show).observe($("flowChart"));
  watch(["plan"], showPlaces);
  watch(["series", "isOpen", "figures", "outcome"], show);
  show();
}
