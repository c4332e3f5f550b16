// Tables of figures: of one day, or means of many days. The server names the figures and sends their
// units, order and decimals.

import {element, headCell, row} from "./elements.mjs";
import {changeText, halfText, meanText, sureText} from "./estimates.mjs";
import {changeTexts, orderOf, roadText} from "./roadnames.mjs";
import {PER_LANE} from "./units.mjs";

/** @typedef {import("./types.mjs").FigureRow} FigureRow */
/** @typedef {import("./types.mjs").RoadName} RoadName */
/** @typedef {[value: string, interval: string]} Texts */

const NO_VALUE = "\u2013";

/** @typedef {"day" | "preview" | "days"} View      of a day beside the picture, of a preview, of many days */

/** The keys of the figures that a view leaves out; saved tables have all.
 * @type {Record<View, string[]>}
 */
const LEFT_OUT = {
  day: ["delay at", "demand", "demand at", "admitted", "admitted at", "lost at", "on"],
  preview: ["demand", "demand at", "admitted at", "on"],
  days: ["delay at", "demand", "demand at", "admitted", "admitted at", "lost at", "flow", "speed", "on"]};

/** Return the rows that a view shows, in groups: but for a preview, those of a detector are in one, and
 * travel times are those of the first inlet.
 * @param {View} view
 * @param {FigureRow[]} rows
 */
function groupRows(view, rows) {
  const shown = rows.filter(({figure}) => !LEFT_OUT[view].includes(figure.key));
  if (view === "preview") return shown.map((one) => [one]);
  const inlet = shown.find(({figure}) => figure.key === "travel")?.figure.of[0];
  /** @type {FigureRow[][]} */
  const groups = [];
  for (const one of shown) {
    const group = groups.at(-1);
    const [from, detector] = one.figure.of;
    if (from !== null && from !== inlet) continue;
    if (group && detector !== null && group[0].figure.of[1] === detector) group.push(one);
    else groups.push([one]);
  }
  return groups;
}

/** Make a cell of a group: the first figure and its interval; beside it the travel times from the
 * inlets, which are below it if they have intervals; and below it the other figures, with their units.
 * @param {FigureRow[]} group
 * @param {(one: FigureRow) => Texts} textsOf
 * @param {string} [bound]   how the true figure relates to the first one
 */
function groupCell([first, ...others], textsOf, bound = "") {
  const [value, interval] = textsOf(first);
  const join = (/** @type {FigureRow[]} */ rows) => rows.map((one) => {
    const [text, half] = textsOf(one);
    const unit = ` ${one.figure.unit}`.replace(` ${first.figure.unit}/`, "/");      // "cars/h" beside cars
    return text && `${text}${unit} ${half}`.trim();
  }).filter(Boolean).join(", ");
  const isTravel = (/** @type {FigureRow} */ {figure: {of: [inlet]}}) => inlet !== null;
  const travel = join(others.filter(isTravel));
  const below = join(others.filter((one) => !isTravel(one)));
  const small = (/** @type {string} */ text, className = "") => (text ? [element("small", text, {className})] : []);
  return element("td", value, {}, ...(interval || !travel ? [] : [element("span", ` ${travel}`, {className: "trip"})]),
    ...small(interval), ...small(below), ...small(interval && travel, "seconds"), ...small(bound));
}

/** Make the table of some figures of roads, under its caption if there is one. A change has no text
 * below it.
 * @param {View} view
 * @param {RoadName[]} roads
 * @param {FigureRow[]} rows
 * @param {string} [caption]
 * @param {string} [unknown]     the text of a value that is not known
 */
export function figureTable(view, roads, rows, caption = "", unknown = NO_VALUE) {
  /** @type {(road: number) => (one: FigureRow) => Texts} */
  const valueOf = (road) => ({figure: {digits}, values, differences}) => {
    const isOfChange = values.every(({mean}) => mean === null) && differences.some(({mean}) => mean !== null);
    return [meanText(values[road], digits) || (isOfChange ? "" : unknown), halfText(values[road], digits)];
  };
  /** @type {(place: number) => (one: FigureRow) => Texts} */
  const changeOf = (place) => ({figure: {digits}, differences}) =>
    [changeText(differences[place], digits) || unknown, sureText(differences[place], digits)];
  const order = orderOf(roads);
  const changes = roads[1] === "after" ? ["change"] : changeTexts(roads, "\u2212").map((text) => text.replace("\u2212 ", "\u2212\u00a0"));
  const heads = [...order.map((road) => roadText(roads[road])), ...changes];
  const isBeside = (/** @type {FigureRow} */ one, /** @type {number} */ place) => !place || one.figure.of[0] !== null;
  return element("table", "", {className: roads.length > 2 ? "figures several" : "figures"}, ...(caption ? [element("caption", caption)] : []),
    element("thead", "", {}, row(element("td", PER_LANE), ...heads.map((head) => headCell(head)))),
    element("tbody", "", {}, ...groupRows(view, rows).map((group) => row(headCell(group[0].figure.title, "row"),
      ...order.map((road) => groupCell(group, valueOf(road))),
      ...changes.map((_, place) => groupCell(group.filter(isBeside), changeOf(place), group[0].bounds[place]))))));
}

/** Return the sentences that some figures need, each once.
 * @param {FigureRow[]} rows
 */
export const wordsOf = (rows) => [...new Set(rows.map(({words}) => words))].filter(Boolean).join(" ");
