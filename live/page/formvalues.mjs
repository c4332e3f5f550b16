// What is typed in the form, as shapes and values of the program, and shapes as the texts of its
// fields. It reads the store.

import {faultOfValue} from "./area.mjs";
import {OF_ONE, OF_ZONES, cellsOf, objectsNearest} from "./geometry.mjs";
import * as messages from "./messages.mjs";
import {layersOf, need, now, store} from "./store.mjs";
import {ALWAYS, LAST_STEP, PER_LANE, cellOfKm, chanceOfDemand, demandOfChance, kmOf, kmText, rangeText,
        roundedKm, whole} from "./units.mjs";

/** @typedef {import("./store.mjs").FormValues} FormValues */
/** @typedef {import("./types.mjs").Kind} Kind */
/** @typedef {import("./types.mjs").Shape} Shape */

/** Return a typed number; NaN if the text is not a number.
 * @param {string} text
 */
const numberOf = (text) => (text.trim() === "" ? NaN : Number(text));

/** Return the value that a tool puts, in the program's units; NaN if what is typed is invalid.
 * @param {Kind} kind
 * @param {number} first     the object
 * @param {number} from      the step
 */
export function valueOfTool(kind, first, from) {
  const {form} = store;
  if (kind === "block") return 1;
  if (kind === "limit" || kind === "watch") return numberOf(form[kind]);
  if (kind === "inflow") {
    const curve = layersOf("mine").curveAt(first, from);
    return curve ? chanceOfDemand(numberOf(form.demand), curve) : NaN;
  }
  if (kind === "capacity") return numberOf(form.capacity) > 0 ? Math.round(numberOf(form.capacity)) : NaN;
  const percent = numberOf(form[kind]);
  return percent >= 0 && percent <= 100 ? Math.round(percent / 100 * ALWAYS) : NaN;
}

/** Return what is typed for a shape besides its value: the demand of an inlet, the limit of works with a
 * capacity.
 * @param {Kind} kind
 * @returns {{demand?: number, limit?: number}}
 */
export function moreOfTool(kind) {
  if (kind === "capacity") return {limit: numberOf(store.form.worksLimit)};
  return kind === "inflow" ? {demand: numberOf(store.form.demand)} : {};
}

/** Return the chosen inlet and the typed beginning, a step; NaN if it is not a time. */
export const demandInForm = () =>
  ({inlet: Number(store.form.inlet), from: store.day.readStep(store.form.timeFrom)});

/** Return which inflow chance admits the typed demand, or why the demand is invalid. */
export function demandText() {
  if (!store.layers.mine || !need("plan").inlets.length) return "";
  const {inlet, from: typed} = demandInForm();
  const from = Math.min(LAST_STEP, Number.isNaN(typed) ? now() : typed);
  const value = valueOfTool("inflow", inlet, from);
  if (Number.isNaN(value)) return faultOfValue("inflow", inlet, from);
  const most = layersOf("mine").curveAt(inlet, from)?.capacity ?? NaN;
  return `inflow chance ${(value / ALWAYS).toFixed(3)}; this inlet then admits up to `
    + `${whole(most)} cars/h ${PER_LANE}`;
}

/** Return what is wrong with a typed time.
 * @param {string} text
 */
const faultOfTime = (text) => (store.day.isSkipped(text) ? messages.skippedTime(text.trim())
  : messages.notATime(text.trim(), store.day.begin === null ? null : store.day.timeText(store.day.lead)));

/** Return the shape that is typed in the form, or a sentence that says what is wrong.
 * @returns {Shape | string}
 */
export function readForm() {
  const {form, day} = store;
  const kind = store.tool === "look" ? "block" : store.tool;
  const from = day.readStep(form.timeFrom);
  const to = form.timeTo.trim() === "" ? null : day.readStep(form.timeTo);
  if (Number.isNaN(from)) return faultOfTime(form.timeFrom);
  if (to !== null && Number.isNaN(to)) return faultOfTime(form.timeTo);
  if (to !== null && to <= from) return messages.END_BEFORE_BEGIN;
  const range = readRange(kind);
  if (typeof range === "string") return range;
  const [first, last] = range;
  return {kind, first, last, from, to, value: valueOfTool(kind, first, from), ...moreOfTool(kind)};
}

/** Return the first and the last object that are typed, or a sentence that says what is wrong.
 * @param {Kind} kind
 * @returns {[first: number, last: number] | string}
 */
function readRange(kind) {
  const {form} = store;
  if (kind === "inflow") return [Number(form.inlet), Number(form.inlet)];
  if (kind === "watch") return [Number(form.site), Number(form.site)];
  const plan = need("plan");
  const [from, to] = readPlaces().map((km) => cellOfKm(plan, km));
  if (!(from >= 0 && from < plan.length && to <= plan.length && from <= to)) {
    return messages.placesOutOfRange(kmText(plan, 0), kmText(plan, plan.length));
  }
  return objectsNearest(plan, kind, [from, to]);
}

/** Return the two typed places, in km; NaN for one that is not a number. */
const readPlaces = () =>
  [store.form.kmFrom, store.form.kmTo].map((text) => numberOf(text.replace(",", ".").replace("\u2212", "-")));

/** Return a sentence on the stretch that is taken, if it is not the typed one; otherwise "".
 * @param {Shape} shape
 */
export function takenText({kind, first, last}) {
  if (OF_ONE.includes(kind)) return "";
  const plan = need("plan");
  const cells = cellsOf(plan, kind, first, last);
  const [begin, end] = cells.map((cell) => kmText(plan, cell));
  const typed = readPlaces().map((km) => String(roundedKm(km)));
  if ([begin, end].join() === typed.join()) return "";
  const isRounded = [begin, end].some((text, index) => Math.abs(kmOf(plan, cells[index]) - Number(text)) > 1e-9);
  return ` Rounded to whole ${OF_ZONES.includes(kind) ? "zones" : "cells of 7.5 m"}: `
    + `${isRounded ? "about " : ""}${rangeText(begin, end)} km.`;
}

/** Return the texts of the form's fields for a shape.
 * @param {Shape} shape
 * @returns {Partial<FormValues>}
 */
export function fieldsOf(shape) {
  const {kind, first, last, from, to} = shape;
  const [start, end] = cellsOf(need("plan"), kind, first, last).map((cell) => kmText(need("plan"), cell));
  return {kmFrom: start, kmTo: end, timeFrom: store.day.timeText(from),
          timeTo: to === null ? "" : store.day.timeText(to), ...valuesOf(shape)};
}

/** Return the texts of the form's fields for the value of a shape.
 * @param {Shape} shape
 * @returns {Partial<FormValues>}
 */
function valuesOf({kind, first, from, value, demand, limit}) {
  if (kind === "capacity") return {capacity: String(value), worksLimit: String(limit)};
  if (kind === "limit") return {limit: String(value)};
  if (kind === "watch") return {watch: String(value), site: String(first)};
  if (kind === "slow" || kind === "start") {
    return {[kind]: String(Number((100 * value / ALWAYS).toFixed(2)))};
  }
  if (kind !== "inflow") return {};
  if (demand !== undefined) return {inlet: String(first), demand: String(demand)};
  const curve = layersOf("mine").curveAt(first, from);
  return {inlet: String(first), demand: curve ? String(Math.round(demandOfChance(value, curve))) : ""};
}
