// View: figures of the minutes that are shown, of the roads that are compared; warnings; the diagram as a
// table.
// The figures are computed from all rows of these minutes, so they are the same at each zoom.

import {boxSums} from "../../viewer/drawing.mjs";
import {$, element, headCell, on, row, showList} from "./elements.mjs";
import {countsOf, exactOf, refreshFigures} from "./loader.mjs";
import {figureTable, wordsOf} from "./figuretable.mjs";
import {countTrapped, privateOf} from "./layers.mjs";
import {setOpen} from "./navigation.mjs";
import * as messages from "./messages.mjs";
import {placesText} from "./shapetexts.mjs";
import {roadText, variantOf} from "./roadnames.mjs";
import {figureRoads, isBeside, need, layersOf, roadOf, store, watch, whoseShown} from "./store.mjs";
import {HOUR, KMH_A_CELL, kmText, rangeText, signedText, sum} from "./units.mjs";
import {everyShown} from "./view.mjs";

/** @typedef {import("./types.mjs").RoadName} RoadName */
/** @typedef {import("./types.mjs").FigureHead} FigureHead */
/** @typedef {import("./types.mjs").FigureRow} FigureRow */
/** @typedef {import("./types.mjs").Figures} Figures */
/** @typedef {import("./types.mjs").Frame} Frame */
/** @typedef {import("./types.mjs").Span} Span */
/** @typedef {ReturnType<typeof boxSums>} BoxSums */

const AWAITED = "\u2026";
const TRAPPED = 120;            // steps of a closure after which, at most, the cars in it are counted

// The table.

/** Return the vehicle hours of the minutes of a period, by the keys of their figures; null if one is
 * missing.
 * @param {RoadName} whose
 * @param {Span} period
 * @returns {Record<string, number> | null}
 */
function hoursOf(whose, period) {
  const {minutes, approach} = roadOf(whose);
  const [all, before] = [minutes.find(period), need("plan").origin ? approach.find(period) : []].map((found) =>
    found && sum(found) / HOUR);
  return all === null || before === null ? null
    : {hours: all - before, "approach hours": before, "all hours": all};
}

/** Return the figures of a period as far as they are known before all are: the vehicle hours, and what
 * the detectors count.
 * @param {Span} period
 * @returns {FigureRow[]}
 */
function countedRows(period) {
  const [counts, roads] = [countsOf(period), figureRoads()];
  const hours = roads.map((whose) => hoursOf(whose, period));
  const valuesOf = (/** @type {FigureHead} */ {key, of: [inlet, detector]}) => {
    if (key.endsWith("hours")) return hours.map((of) => of?.[key] ?? null);
    if (detector === null || inlet !== null) return roads.map(() => null);
    return roads.map((_, road) => {
      /** @type {Record<string, number | null>} */
      const count = {...counts?.[road][detector]};
      return count[key] ?? null;
    });
  };
  const mean = (/** @type {number | null} */ value) => ({mean: value, half: null});
  return (need("me").figures ?? []).map((figure) => {
    const values = valuesOf(figure);
    const [first, ...later] = values;
    const changes = later.map((one) => (one === null || first === null ? null : one - first));
    return {figure, values: values.map(mean), differences: changes.map(mean), bounds: later.map(() => ""), words: ""};
  });
}

/** Show the known figures of the wanted period; while the clock runs, only once its vehicle hours are
 * known. */
function showFigures() {
  const period = store.figures.wanted;
  if (store.clock.rate && figureRoads().some((whose) => hoursOf(whose, period) === null)) return;
  const exact = exactOf(period);
  const rows = exact ? exact.figures : countedRows(period);
  const [from, to] = period.map((step) => store.day.timeText(step));
  $("period").textContent = period[1] > period[0] ? `${from} to ${to}` : "";
  const unknown = exact ? undefined : store.clock.rate ? "" : AWAITED;
  const table = figureTable("day", figureRoads(), rows, "", unknown);
  $("figures").className = table.className;
  $("figures").replaceChildren(...table.children);
  $("figuresNote").textContent = !exact && store.clock.rate ? messages.PAUSE_FOR_FIGURES
    : wordsOf(rows) || `${messages.READ_FIGURES} ${messages.ALL_LANES}`;
  showWarnings(exact);
  if (store.isOpen.asTable) showSpeeds(period);
}

// Warnings.

/** Return warnings of inlets that lose more cars than on the shared road, if mine is compared with it
 * alone.
 * @param {Figures} exact
 */
function lostWarnings({figures}) {
  if (isBeside()) return [];
  const plan = need("plan");
  const {inlets} = plan;
  const rowsOf = (/** @type {string} */ key) =>
    figures.filter(({figure}) => figure.key === (inlets.length > 1 ? `${key} at` : key));
  const admitted = rowsOf("admitted");
  return rowsOf("lost").flatMap(({figure, values: [shared, mine]}, place) => {
    const [lost, entered] = [mine.mean ?? 0, admitted[place].values[1].mean ?? 0];
    return lost > (shared.mean ?? 0)
      ? [messages.demandLost(kmText(plan, inlets[figure.of[0] ?? 0][0]), entered + lost, lost)] : [];
  });
}

/** Return how many cars are trapped in a closure, as far as it is computed.
 * @param {Frame} frame
 */
function countTrappedIn(frame) {
  const {from, to} = frame;
  const mine = roadOf("mine");
  const level = mine.level(everyShown());
  const end = Math.min(to ?? Infinity, mine.horizon, from + TRAPPED);
  const at = Math.floor((end - 1) / level.every);
  const text = at * level.every > from && level.fresh[at] ? level.rows[at] : undefined;
  return countTrapped(layersOf("mine"), frame, text ?? "");
}

/** Return warnings of cars that are trapped in closures. */
function closureWarnings() {
  return layersOf("mine").frames.flatMap((frame) => {
    const cars = frame.kind === "block" && frame.value ? countTrappedIn(frame) : 0;
    if (!cars) return [];
    return [messages.carsTrapped(cars, placesText(need("plan"), "block", frame.first, frame.last),
      frame.to === null ? null : store.day.timeText(frame.to))];
  });
}

/** Return a warning if the period ends after the demand of the road's file. */
function demandWarnings() {
  const end = store.me?.demand_end ?? Infinity;
  return store.figures.wanted[1] > end ? [messages.demandEnded(store.day.timeText(end))] : [];
}

/** Return a warning for each compared road of this seat whose changes that are not shared lie outside the
 * period.
 */
function periodWarnings() {
  const [from, to] = store.figures.wanted;
  if (to <= from) return [];
  const times = /** @type {const} */ ([store.day.timeText(from), store.day.timeText(to)]);
  return figureRoads().filter((road) => road === "mine" || variantOf(road) !== null).flatMap((road) => {
    const {length} = [...layersOf(road).changes.values()].filter((change) =>
      change.standing && change.shape && privateOf(change).length
      && (change.shape.from >= to || (change.shape.to !== null && change.shape.to <= from)));
    if (!length) return [];
    return [road === "mine" ? messages.changesOutside(length, ...times)
      : messages.changesOfVariantOutside(length, roadText(road), ...times)];
  });
}

/** Show the warnings.
 * @param {Figures | null} exact
 */
function showWarnings(exact) {
  const texts = [...periodWarnings(), ...(exact ? lostWarnings(exact) : []), ...closureWarnings(),
    ...demandWarnings()];
  showList($("warnings"), texts.map((text) =>
    ({key: text, version: text, make: () => element("li", text)})));
}

// The diagram as a table: mean speeds of stretches of road and time.

const TABLE_ROWS = 12;
const TABLE_COLUMNS = 10;

/** Return the mean speed of a box, or its difference from another road's, as text.
 * @param {BoxSums} sums
 * @param {BoxSums | null} other
 * @param {number} box
 */
function speedText(sums, other, box) {
  const mean = (/** @type {BoxSums} */ {cars, speeds}) =>
    (cars[box] ? speeds[box] / cars[box] * KMH_A_CELL : null);
  if (!sums.rows || (other && !other.rows)) return "not computed";
  const [one, second] = [mean(sums), other ? mean(other) : null];
  const closed = sums.closed[box] ? " (closed in part)" : "";
  if (!other) return (one === null ? "no car" : String(Math.round(one))) + closed;
  if (one === null && second === null) return "no car";
  if (one === null || second === null) return `no car (${whoseShown()[one === null ? 0 : 1]})`;
  return signedText(one - second) + closed;
}

/** Show the diagram as a table of mean speeds.
 * @param {Span} period
 */
function showSpeeds([from, to]) {
  const names = whoseShown().slice(0, store.whose === "both" ? 2 : 1);
  const [picture, other] = names.map((whose) => roadOf(whose).level(everyShown()));
  const plan = need("plan");
  const first = store.extent.cell < plan.origin ? 0 : plan.origin;
  const length = plan.length - first;
  const wide = Math.ceil(length / TABLE_COLUMNS);
  const high = Math.max(picture.every, Math.ceil((to - from) / TABLE_ROWS / 60) * 60);
  const heads = Array.from({length: Math.ceil(length / wide)}, (_, index) => {
    const [begin, end] = [index * wide, Math.min(length, (index + 1) * wide)].map((cell) => kmText(plan, first + cell));
    return headCell(`${rangeText(begin, end)} km`);
  });
  const body = [];
  for (let start = Math.floor(from / high) * high; start < to; start += high) {
    const sums = boxSums(picture, start, start + high, wide, first);
    const others = other ? boxSums(other, start, start + high, wide, first) : null;
    body.push(row(headCell(`from ${store.day.timeText(start)}`, "row"),
      ...heads.map((_, box) => element("td", speedText(sums, others, box)))));
  }
  const caption = other || store.whose === "beside" ? `Mean speeds in km/h, ${names.map(roadText).join(" minus ")}`
    : "Mean speeds in km/h";
  $("speeds").replaceChildren(element("caption", caption),
    element("thead", "", {}, row(element("td"), ...heads)), element("tbody", "", {}, ...body));
}

/** Listen to the store and to the page. */
export function begin() {
  on("asTable", "toggle", () => {
    setOpen("asTable", $("asTable").open);
    if (store.plan) refreshFigures();
  });
  watch(["plan", "figures"], showFigures);
  watch(["variants"], () => { if (store.layers.mine) showFigures(); });
  watch(["preview"], () => {
    $("figuresPart").hidden = $("warnings").hidden = Boolean(store.preview);
  });
}
