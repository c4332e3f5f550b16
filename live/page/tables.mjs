// Tables as they are saved: a title in the first line, names and units in the second, then the rows.

import {Words} from "./changetexts.mjs";
import {changeTexts, orderOf, roadText} from "./roadnames.mjs";
import {byStamp} from "./stamps.mjs";
import {MINUTE, kmOf, plural, roundedKm} from "./units.mjs";

/** @typedef {import("./dayclock.mjs").DayClock} DayClock */
/** @typedef {import("./types.mjs").FigureRow} FigureRow */
/** @typedef {import("./types.mjs").Figures} Figures */
/** @typedef {import("./types.mjs").Plan} Plan */
/** @typedef {import("./layers.mjs").Layers} Layers */
/** @typedef {string | number} Cell */
/** @typedef {import("./types.mjs").RoadName} RoadName */
/** @typedef {number | null | undefined} Figure     null: it is not known */

/** Return the place of a cell's beginning in km, with four decimals as in all tables, as text.
 * @param {Plan} plan
 * @param {number} cell
 */
const kmText = (plan, cell) => String(roundedKm(kmOf(plan, cell), 4));

/** @param {Figure} value */
const figureText = (value) => (typeof value === "number" ? String(Number(value.toFixed(4))) : "");
/** @type {(one: Figure, other: Figure) => Figure} */
const difference = (one, other) =>
  (typeof one === "number" && typeof other === "number" ? one - other : null);

/** Return the text of a cell such that no spreadsheet runs it as a formula. Numbers may begin with a
 * sign.
 * @param {string} text
 */
const withoutFormula = (text) => (/^\s*[=+@-]/.test(text) && !/^-?[\d.]+$/.test(text) ? `'${text}` : text);

/** @param {Cell} value */
function cellOf(value) {
  const text = withoutFormula(String(value));
  return /[",\r\n]/.test(text) ? `"${text.replaceAll('"', '""')}"` : text;
}

/** Return the text of a table; its first line is the title.
 * @param {string} title
 * @param {Cell[][]} lines
 */
export const csvOf = (title, lines) => [`# ${title.replace(/[\r\n]+/g, " ")}`,
  ...lines.map((line) => line.map(cellOf).join(","))].map((line) => line + "\n").join("");

const NOBODY = -1;              // no seat has this number, so everybody is called by name

/** Return the table of figures: of a day, or means of many days, each with half the width of its
 * interval.
 * @param {RoadName[]} roads
 * @param {{figures: FigureRow[], days?: number}} said
 * @returns {Cell[][]}
 */
export function tableOfFigures(roads, {figures, days}) {
  const order = orderOf(roads);
  const withHalves = (/** @type {Cell[]} */ heads) => heads.flatMap((head) => (days ? [head, "\u00b1"] : [head]));
  const bounded = roads.slice(1).flatMap((road, place) => (figures.some(({bounds}) => bounds[place]) ? [{road, place}] : []));
  return [[days ? `mean of ${plural(days, "day")}` : "figure", "unit",
           ...withHalves([...order.map((place) => roadText(roads[place])), ...changeTexts(roads)]),
           ...bounded.map(({road}) => (roads.length > 2 ? `bound ${roadText(road)}` : "bound"))],
          ...figures.map(({figure: {label, unit}, bounds, values, differences}) => [label, unit,
            ...[...order.map((place) => values[place]), ...differences].flatMap(({mean, half}) =>
              [mean, half].slice(0, days ? 2 : 1).map(figureText)), ...bounded.map(({place}) => bounds[place])])];
}

/** Return the table of travel times by the minute of entry: a line for each minute and place.
 * @param {Plan} plan
 * @param {RoadName[]} roads
 * @param {Figures} said
 * @param {DayClock} day
 */
export function tableOfTravel(plan, roads, said, day) {
  const order = orderOf(roads);
  /** @type {(road: number, step: number, place: number) => [cars: number, seconds: Figure]} */
  const tripOf = (road, step, place) => {
    const trip = said.entries[road].find((entry) => entry.step === step)?.trips[place];
    return [trip?.cars ?? 0, trip?.seconds];
  };
  const places = [...plan.detectors.map((cell) => `${kmText(plan, cell)} km`), "the road's end"];
  const steps = Array.from({length: Math.ceil((said.to - said.from) / MINUTE)}, (_, minute) =>
    said.from + minute * MINUTE);
  const heads = order.map((road) => roadText(roads[road])).flatMap((road) => [`cars, ${road}`, `travel time (s), ${road}`]);
  return [["minute of entry", "travel time to", ...heads, ...changeTexts(roads).map((text) => `${text} (s)`)],
          ...steps.flatMap((step) => places.map((place, index) => {
            const trips = roads.map((_, road) => tripOf(road, step, index));
            const [[, first], ...later] = trips;
            return [day.timeText(step), place, ...[...order.flatMap((road) => trips[road]),
              ...later.map(([, seconds]) => difference(seconds, first))].map(figureText)];
          }))];
}

/** Return the table of the history of roads: who did what and when, where it is in force, and what covers
 * it. The demand of the road's file is left out. If there are several roads, each line names its road.
 * @param {RoadName[]} roads
 * @param {Layers[]} lists      of these roads
 * @returns {Cell[][]}
 */
export function tableOfChanges(roads, lists) {
  const tables = lists.map(linesOfChanges);
  const heads = ["change", "who", "what", "when", "does", "shared", "in force", "covered"];
  if (roads.length === 1) return [heads, ...tables[0]];
  return [["road", ...heads], ...tables.flatMap((lines, place) => lines.map((line) => [roadText(roads[place]), ...line]))];
}

/** Return the lines of the history of a road.
 * @param {Layers} layers
 * @returns {Cell[][]}
 */
function linesOfChanges(layers) {
  const words = new Words(layers, NOBODY);
  const changes = [...layers.changes.values()].filter(({planned}) => !planned)
    .sort((one, other) => byStamp(one.name, other.name));
  return changes.flatMap((change, index) => change.operations.map((done) =>
    [index + 1, done.who, done.note || words.text(change), layers.day.instantText(done.when), done.does,
     done.shared ? "yes" : "no", words.parts(change, true), words.parts(change, false)]));
}
