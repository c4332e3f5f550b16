// What a rectangle would do, in words, or why it cannot be put. It reads the store.

import {MOST_OBJECTS, isTooLate} from "./geometry.mjs";
import * as messages from "./messages.mjs";
import {placesText, shapeText, takenZonesText, valueText} from "./shapetexts.mjs";
import {need, layersOf, store} from "./store.mjs";
import {LAST_STEP, chanceText, lengthText, limitText} from "./units.mjs";

/** @typedef {import("./types.mjs").Area} Area */
/** @typedef {import("./types.mjs").Change} Change */
/** @typedef {import("./types.mjs").Kind} Kind */
/** @typedef {import("./types.mjs").Shape} Shape */

/** Return how many curves of inlets have been measured, and how many were asked for.
 * @returns {[done: number, all: number]}
 */
export const countCurves = () =>
  [[...store.curves.values()].filter((one) => "points" in one).length, store.curves.size];

/** Ask whether a shape waits until the server has measured what its inlet admits, or which chances
 * leave its capacity.
 * @param {Shape} shape
 */
export const isUnmeasured = ({kind, first, from, value, chances}) =>
  (kind === "capacity" ? !Number.isNaN(value) && !chances
    : kind === "inflow" && Number.isNaN(value) && layersOf("mine").curveAt(first, from) === null);

/** Say in a sentence why a value is invalid.
 * @param {Kind} kind
 * @param {number} first     the object
 * @param {number} from      the step
 */
export function faultOfValue(kind, first, from) {
  if (kind === "capacity") return messages.CAPACITY_OUT_OF_RANGE;
  if (kind !== "inflow") return messages.CHANCE_OUT_OF_RANGE;
  const [plan, mine] = [need("plan"), layersOf("mine")];
  const curve = mine.curveAt(first, from);
  if (!curve) return messages.measuringInlet(...countCurves());
  const [limit, slowing] = plan.zones[Math.floor(plan.inlets[first][0] / plan.zone)];
  const isPassed = plan.inlets.some(([cell]) => cell < plan.inlets[first][0]);
  return messages.demandOutOfRange(curve.capacity, limitText(limit), chanceText(slowing), isPassed);
}

/** Return the area of a shape: its texts, and a fault if it cannot be put.
 * @param {Shape} shape
 * @param {Change | null} [old]  the change that it alters
 * @param {boolean} [coversNoZone]        it covers less than half of each zone that it touches
 * @returns {Area}
 */
export function areaOfShape(shape, old = null, coversNoZone = false) {
  const {kind, first, last, from, to, value} = shape;
  const [plan, mine] = [need("plan"), layersOf("mine")];
  const waits = isUnmeasured(shape);
  const isValid = waits || !Number.isNaN(value);
  const note = isValid ? shapeText(mine, shape) : "";
  const what = isValid ? valueText(mine, shape) : "";
  const lines = [what, placesText(plan, kind, first, last),
                 takenZonesText(plan, kind, first, last), mine.day.spanText(from, to),
                 !waits ? "" : kind === "capacity" ? messages.MEASURED_WHEN_PUT
                   : messages.measuringInlet(...countCurves())].filter(Boolean);
  const fault = coversNoZone ? messages.TOO_FEW_ZONES : faultOf(shape);
  return {shape, note, lines, fault, old};
}

/** Say in a sentence why a shape cannot be put; "" if it can.
 * @param {Shape} shape
 */
function faultOf(shape) {
  const {kind, first, last, from, value} = shape;
  if (isTooLate(shape)) return messages.tooLate(store.day.timeText(LAST_STEP));
  if (last - first >= MOST_OBJECTS) return messages.tooLong(lengthText(MOST_OBJECTS));
  return Number.isNaN(value) && !isUnmeasured(shape) ? faultOfValue(kind, first, from) : "";
}
