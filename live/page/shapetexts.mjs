// Sentences about changes. A road here is {plan, day, curveAt(inlet, step)}: `day` writes times. A
// demand is what was asked for. If nobody asked for one, it is what the chance admits, by the curve
// of its inlet, once that is measured.

import {OF_ZONES, cellsOf} from "./geometry.mjs";
import {ALWAYS, chanceText, demandOfChance, kmText, limitText, metresText, plural, rangeText, whole} from "./units.mjs";

/** @typedef {import("./types.mjs").Kind} Kind */
/** @typedef {import("./types.mjs").Plan} Plan */
/** @typedef {import("./types.mjs").Shape} Shape */
/** @typedef {import("./types.mjs").MeasuredRoad} MeasuredRoad */

/** Return where objects are, in km, as text.
 * @param {Plan} plan
 * @param {Kind} kind
 * @param {number} first
 * @param {number} last
 */
export function placesText(plan, kind, first, last) {
  const [from, to] = cellsOf(plan, kind, first, last);
  if (kind === "inflow" || kind === "watch") return `at ${kmText(plan, from)} km`;
  return `${rangeText(kmText(plan, from), kmText(plan, to))} km`;
}

/** Return the value of a shape in a few words, as text.
 * @param {MeasuredRoad} road
 * @param {Omit<Shape, "last" | "to">} shape
 */
export function valueText(road, {kind, first, from, value, demand, limit = 0, chances}) {
  if (kind === "block") return value ? "Closed" : "Open";
  if (kind === "limit") return limitText(value);
  if (kind === "watch") return value ? "Detector on" : "Detector off";
  if (kind === "slow") return `Slowing ${chanceText(value)}`;
  if (kind === "start") return `Slow to start ${chanceText(value)}`;
  if (kind === "capacity") {
    const slowing = chances ? `, slowing ${(chances[0] / ALWAYS).toFixed(2)}` : "";
    return `Capacity ${whole(value)} cars/h: limit ${limitText(limit)}${slowing}`;
  }
  const curve = demand === undefined ? road.curveAt(first, from) : null;
  const cars = curve ? demandOfChance(value, curve) : demand;
  return cars === undefined ? "Demand that is being measured" : `Demand ${whole(cars)} cars/h`;
}

/** Return a shape in a sentence, which becomes the note of the change, as text.
 * @param {MeasuredRoad} road
 * @param {Shape} shape
 */
export function shapeText(road, shape) {
  const {kind, first, last, from, to} = shape;
  const what = valueText(road, shape);
  const where = placesText(road.plan, kind, first, last);
  return `${what}${kind === "block" ? "" : ","} ${where}, ${road.day.spanText(from, to)}`;
}

/** @type {Record<Kind, string>} */
export const THINGS = {limit: "Limit", block: "Closure", inflow: "Demand", watch: "Detector",
                slow: "Slowing", start: "Slow to start", capacity: "Capacity"};

/** Return a shape's kind and value in a few words, as text: "limit of 54 km/h".
 * @param {MeasuredRoad} road
 * @param {Shape} shape
 */
export function thingText(road, shape) {
  const {kind, value} = shape;
  if (kind === "block") return value ? "closure" : "opening";
  if (kind === "watch") return value ? "detector switched on" : "detector switched off";
  if (kind === "capacity") return `capacity of ${whole(value)} cars/h`;
  const text = valueText(road, shape);
  return kind === "limit" ? `limit of ${text}` : text[0].toLowerCase() + text.slice(1);
}

/** Return a hint that a tool sets whole zones; "" for kinds whose objects are not zones.
 * @param {Plan} plan
 * @param {unknown} kind
 */
export const zonesText = (plan, kind) => (OF_ZONES.includes(kind)
  ? `sets whole zones of ${metresText(plan.zone)}; with Shift, also zones less than half covered`
  : "");

/** Return how many whole zones are taken, as text; "" for other kinds.
 * @param {Plan} plan
 * @param {Kind} kind
 * @param {number} first
 * @param {number} last
 */
export const takenZonesText = (plan, kind, first, last) => (OF_ZONES.includes(kind)
  ? `${plural(last - first + 1, "whole zone")} of ${metresText(plan.zone)}` : "");
