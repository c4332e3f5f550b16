// Actions: ask for the rows, counts and sums that are missing.

import {ask} from "./questions.mjs";
import {assign} from "./assign.mjs";
import {keyOf} from "./stamps.mjs";
import {roadText} from "./roadnames.mjs";
import {figureRoads, notify, need, last, roadOf, store, whoseShown} from "./store.mjs";
import {everyShown, periodShown} from "./view.mjs";

/** @typedef {import("./rows.mjs").Road} Road */
/** @typedef {import("./types.mjs").RoadName} RoadName */
/** @typedef {import("./types.mjs").DetectorFigures} DetectorFigures */
/** @typedef {import("./types.mjs").Span} Span */

const ASKING = 2;               // questions for rows at a time
const IDLE = 120;               // milliseconds without news before figures are computed again
const QUIET = 400;              // milliseconds without news before cars are counted one by one
const BUSY = 1000;              // milliseconds until a busy server is asked again
const MINUTES_AT_ONCE = 60;     // of a question for sums

/** Ask for the visible rows that are not fresh, from the top on. With `all`, then ask for those of the
 * other roads, whose figures are shown too.
 * @param {boolean} [all]
 */
export function fetchRows(all = !store.clock.rate) {
  if (!store.me || !store.connection?.isAdmitted) return;
  const seen = whoseShown();
  if (!fetchOf(seen)) return;
  noteRowsComplete();
  if (all) fetchOf(figureRoads().filter((whose) => !seen.includes(whose)));
}

/** Ask for rows of these roads. Return whether none is missing.
 * @param {RoadName[]} names
 */
function fetchOf(names) {
  const {extent} = store;
  const every = everyShown();
  const to = Math.min(last(), Math.floor(extent.step + extent.span));
  for (const whose of names) {
    const road = roadOf(whose);
    if (road.horizon < to) {
      advance(road, to);
      return false;
    }
    const level = road.load(every);
    while (store.openRowQuestions < ASKING) {
      const piece = level.findMissing(extent.step, to, mostRows());
      if (!piece) break;
      askRows(whose, level, piece);
    }
    if (store.openRowQuestions >= ASKING) return false;
  }
  return store.openRowQuestions === 0;
}

/** Return how many rows an answer may have. */
function mostRows() {
  const {rows, bytes} = store.limits;
  return Math.max(1, Math.min(rows, Math.floor(bytes / (need("plan").length + 3))));
}

/** Ask whether the page still has a road: those of a preview are dropped when it closes.
 * @param {Road} road
 */
const isKept = (road) => Object.values(store.roads).includes(road);

/** Ask the server to compute a road up to a step.
 * @param {Road} road
 * @param {number} to
 */
async function advance(road, to) {
  if (road.isAdvancing) return;
  road.isAdvancing = true;
  const said = await ask({advance: {at: road.at, to}}, {isWanted: () => isKept(road)});
  road.isAdvancing = false;
  if (!said || "refused" in said) return;
  road.horizon = Math.max(road.horizon, said.horizon);
  fetchRows();
}

/** Ask for rows of a road.
 * @param {RoadName} whose
 * @param {ReturnType<Road["load"]>} level
 * @param {{from: number, to: number, count: number}} piece  steps, and how many rows
 */
async function askRows(whose, level, {from, to, count}) {
  const [road, {every}] = [roadOf(whose), level];
  store.openRowQuestions++;
  level.mark(from, count, 1);
  const said = await ask({diagram: {at: road.at, from, to, ...(every > 1 ? {every} : {})}},
    {isWanted: () => isKept(road)});
  store.openRowQuestions = Math.max(0, store.openRowQuestions - 1);
  if (!said || "refused" in said) {
    level.mark(from, count, 0);
    return;
  }
  const steps = level.put(from, said.rows);
  if (steps) {
    store.changedRows = {whose, every, steps};
    notify("changedRows");
  }
  fetchRows();
}

/** Note that all visible rows have arrived, for the timings of gestures: the next drawing shows
 * them. */
function noteRowsComplete() {
  const waiting = store.timings.filter((timing) => !timing.settled);
  for (const timing of waiting) timing.settled = performance.now();
  if (waiting.length) notify("timings");
}

/** Note that the picture is to be drawn at the next animation frame. Return whether that is new. */
export function requestDrawing() {
  const draws = !store.isDrawing;
  store.isDrawing = true;
  return draws;
}

/** Note the time after a drawing. Refresh the figures once nothing is drawn for a moment, or each
 * second while the clock runs. */
export function finishDrawing() {
  store.isDrawing = false;
  for (const timing of store.timings) {
    if (timing.settled && !timing.painted) timing.painted = performance.now();
  }
  if (store.idleTimer && store.clock.rate) return;
  clearTimeout(store.idleTimer ?? undefined);
  store.idleTimer = setTimeout(whenQuiet, store.clock.rate ? 1000 : IDLE);
}

/** Ask for the rows of the other road, and for figures. While the clock is paused, first wait until no
 * row is awaited. */
function whenQuiet() {
  const waits = store.openRowQuestions && !store.clock.rate;
  store.idleTimer = waits ? setTimeout(whenQuiet, IDLE) : null;
  if (waits) return;
  fetchRows(true);
  refreshFigures();
}

// Figures.

/** Show the figures of a period that are known, and ask for those that are missing.
 * @param {Span} [period]    steps
 */
export function refreshFigures(period = periodShown()) {
  store.figures.wanted = period;
  askFigures(period);
  notify("figures");
}

/** Ask for the missing figures of a period. While the clock is paused, ask a moment later for those
 * that are counted car by car, too.
 * @param {Span} period
 */
async function askFigures(period) {
  const {figures} = store;
  if (figures.asking || !store.connection?.isAdmitted || period[1] <= period[0]) return;
  figures.asking = true;
  const [of, roads] = [subjectOf(period), figureRoads().map(roadOf)];    // others may be chosen while answers are awaited
  let came = false;
  try {
    came = await askCounts(period, of, roads);
    for (const road of roads) came = await askSums(road, period) || came;
  } finally {
    figures.asking = false;
  }
  if (!store.clock.rate) askSeries(period);
  if (came) refreshFigures();
  else if (!store.clock.rate && subjectOf(periodShown()) !== of) refreshFigures();
  else if (!store.clock.rate) askExactSoon(period);
}

/** Ask whether a count is that of all detectors in a span.
 * @param {DetectorFigures | DetectorFigures[]} count
 * @returns {count is DetectorFigures[]}
 */
const isOfSpan = (count) => Array.isArray(count);

/** Ask whether a count is that of a detector in the whole period.
 * @param {DetectorFigures | DetectorFigures[]} count
 * @returns {count is DetectorFigures}
 */
const isOfPeriod = (count) => !Array.isArray(count);

/** Return the steps per point of the series, for some 150 points at most.
 * @param {number} steps     of the period
 */
const stepsPerPoint = (steps) => [60, 300, 900, 3600].find((each) => steps / each <= 150) ?? 10_800;

/** Return a key of the series of roads, which differs whenever they do.
 * @param {RoadName[]} sides
 * @param {Span} period
 */
const keyOfSeries = (sides, period) => [
  ...sides, ...figureRoads().map((whose) => roadOf(whose).version), ...period,
  ...(store.outcome && store.preview ? store.preview.stamps.map(keyOf) : [])].join();

/** Ask for flow and speed by time of the roads that are compared, unless those that are shown are up to
 * date.
 * @param {Span} [period]
 */
export async function askSeries(period = periodShown()) {
  const {series, connection, outcome} = store;
  const [from, to] = period;
  if (series.asking || to <= from || !need("plan").detectors.length || !connection?.isAdmitted) return;
  /** @type {RoadName[]} */
  const sides = outcome?.layers ? ["before", "after"] : figureRoads();
  const key = keyOfSeries(sides, period);
  if (key === series.key) return;
  const roads = sides.map(roadOf);      // a preview may close while answers are awaited
  series.asking = true;
  try {
    for (const road of roads) if (!await computeTo(road, to)) return;
    const each = stepsPerPoint(to - from);
    const said = await Promise.all(roads.map(({at}) =>
      ask({counts: {at, from, to, each}}, {quiet: ["Busy", "NoPreview"]})));
    const flows = said.flatMap((one) => (one && "flows" in one ? [one.flows.filter(isOfSpan)] : []));
    if (flows.length < said.length) return;
    const isThere = series.point !== null && series.point < flows[0].length;
    assign(series, {key, names: sides.map(roadText), from, to, each, flows, point: isThere ? series.point : null});
    notify("series");
  } finally {
    series.asking = false;
  }
}

/** Show the series of another detector.
 * @param {number} site
 */
export function chooseSite(site) {
  store.series.site = site;
  notify("series");
}

/** Show travel times to another detector; null: to the road's end.
 * @param {number | null} end
 */
export function chooseEnd(end) {
  store.series.end = end;
  notify("series");
}

/** Select a point of the series, or a minute of entry; null: none.
 * @param {"point" | "minute"} what
 * @param {number | null} index
 */
export function readPoint(what, index) {
  store.series[what] = index;
  notify("series");
}

/** A moment later, once no change waits for its picture, ask for what is counted car by car.
 * @param {Span} period
 */
function askExactSoon(period) {
  const {figures} = store;
  clearTimeout(figures.soon);
  figures.soon = setTimeout(() => {
    if (store.openRowQuestions || store.pending.size) askExactSoon(period);
    else askExact(period);
  }, QUIET);
}

/** Return a key of a period's figures, which differs whenever a road has changed.
 * @param {Span} period
 */
const keyOfPeriod = (period) =>
  [...period, ...figureRoads().map((whose) => `${whose} ${roadOf(whose).version}`)].join();

/** Return a key of the roads whose figures are shown and of a period.
 * @param {Span} period
 */
const subjectOf = (period) => [...period, ...figureRoads()].join();

/** Return what the detectors of the roads whose figures are shown counted in a period, perhaps before their
 * latest changes; null if it is not known.
 * @param {Span} period
 */
export const countsOf = (period) => (store.figures.of === subjectOf(period) ? store.figures.counts : null);

/** Ask for the counts of roads, if they may differ from those that are shown. Return whether new ones
 * arrived.
 * @param {Span} period
 * @param {string} of        the key of the roads and the period
 * @param {Road[]} roads
 */
async function askCounts(period, of, roads) {
  const [from, to] = period;
  const {figures} = store;
  const key = keyOfPeriod(period);
  if (key === figures.key) return false;
  for (const road of roads) if (!await computeTo(road, to)) return false;
  const said = await Promise.all(roads.map(({at}) => ask({counts: {at, from, to}}, {quiet: ["Busy"]})));
  const counts = said.flatMap((one) => (one && "flows" in one ? [one.flows.filter(isOfPeriod)] : []));
  if (counts.length < said.length) return false;
  assign(figures, {key, of, counts});
  return true;
}

/** Ask for the vehicle hours of the first missing minutes of a period. Return whether they arrived.
 * @param {Road} road
 * @param {Span} period
 */
async function askSums(road, period) {
  const wanted = road.minutes.findMissing(period, MINUTES_AT_ONCE);
  if (!wanted || !await computeTo(road, wanted[1])) return false;
  const {version, at} = road;
  const said = await ask({sums: {at, from: wanted[0], to: wanted[1]}}, {quiet: ["Busy"]});
  if (!said || "refused" in said) return false;
  if (road.version === version) {
    road.minutes.put(wanted[0], said.sums);
    road.approach.put(wanted[0], said.approach ?? []);
  }
  return true;
}

/** Ask for what is counted car by car: lost demand, travel times, and the delay.
 * @param {Span} period
 */
async function askExact(period) {
  const {figures} = store;
  const key = keyOfPeriod(period);
  if (key === figures.exactKey || figures.counting || store.preview) return;
  const [from, to] = period;
  figures.counting = true;
  const said = await ask({figures: {at: need("me").at, of: figureRoads().map((whose) => roadOf(whose).at), from, to}},
    {quiet: ["Busy"], isWanted: () => keyOfPeriod(period) === key});
  figures.counting = false;
  if (said && "refused" in said && said.refused === "Busy") setTimeout(refreshFigures, BUSY);
  if (!said || "refused" in said) return;
  if (keyOfPeriod(period) === key) assign(figures, {exactKey: key, exact: said});
  refreshFigures();
}

/** Return what is counted car by car in a period; null if it is not known for the present edits.
 * @param {Span} period
 */
export const exactOf = (period) =>
  (store.figures.exactKey === keyOfPeriod(period) ? store.figures.exact : null);

/** Compute a road up to a step. Return whether that succeeded; if not, refresh the figures later.
 * @param {Road} road
 * @param {number} to
 */
async function computeTo(road, to) {
  if (road.horizon < to) await advance(road, to);
  if (road.horizon < to) setTimeout(refreshFigures, IDLE);
  return road.horizon >= to;
}
