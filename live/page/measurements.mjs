// Actions: ask what inlets admit, once for each state of the road upstream of them, and which chances
// leave a capacity. Demands and capacities are in cars per hour; the road has chances.

import * as messages from "./messages.mjs";
import {ask} from "./questions.mjs";
import {layersOf, need, notify, store} from "./store.mjs";
import {chanceOfDemand} from "./units.mjs";

/** @typedef {import("./layers.mjs").Layers} Layers */
/** @typedef {import("./types.mjs").Curve} Curve */
/** @typedef {import("./types.mjs").Shape} Shape */
/** @typedef {ReturnType<typeof stateOf>} State */

/** Return what the curve of an inlet depends on at a step: the slow-to-start chance that its zone
 * has at step 0, and the inflow chances of the inlets upstream of it.
 * @param {Layers} road
 * @param {number} inlet
 * @param {number} step
 */
function stateOf(road, inlet, step) {
  const {plan} = road;
  const [cell] = plan.inlets[inlet];
  const before = plan.inlets.flatMap(([at], index) => {
    const chance = at < cell ? road.valueAt("inflow", index, step) : 0;
    return chance ? [[index, chance]] : [];
  });
  return {inlet, start: road.valueAt("start", Math.floor(cell / plan.zone), 0), before};
}

/** Ask for a curve. Return it, or null if the server gives none.
 * @param {string} key
 * @param {State} state
 * @returns {Promise<Curve | null>}
 */
async function fetchCurve(key, state) {
  const said = await ask({admission: state}, {turn: "last", quiet: ["Failed"]});
  if (!said || "refused" in said) {
    store.curves.delete(key);
    return null;
  }
  store.curves.set(key, said);
  notify("curves");
  return said;
}

/** Return the curve of an inlet, a promise of it, or null if the server cannot be asked.
 * @param {Layers} road
 * @param {number} inlet
 * @param {number} step
 */
function entryOf(road, inlet, step) {
  const state = stateOf(road, inlet, step);
  const key = JSON.stringify(state);
  if (!store.curves.has(key) && store.connection?.isAdmitted) store.curves.set(key, fetchCurve(key, state));
  return store.curves.get(key) ?? null;
}

/** Return what an inlet admits at a step, with the plan's drivers and the traffic that passes it;
 * null while it is measured.
 * @param {Layers} road
 * @param {number} inlet
 * @param {number} step
 */
export function curveAt(road, inlet, step) {
  const entry = entryOf(road, inlet, step);
  return entry && "points" in entry ? entry : null;
}

/** Wait until the server has measured what inlets admit, for all inflow chances of a road that were
 * put without a demand.
 * @param {Layers} road
 * @param {(done: number, all: number) => void} progress     is called before each measurement
 */
export async function measureDemands(road, progress) {
  const unknown = [...road.changes.values()].filter(({standing}) => standing)
    .flatMap(({shape}) => (shape?.kind === "inflow" && shape.demand === undefined ? [shape] : []));
  for (const [done, {first, from}] of unknown.entries()) {
    if (curveAt(road, first, from)) continue;
    progress(done, unknown.length);
    await curveSoon(road, first, from);
  }
}

/** Return what an inlet admits at a step, once it is measured; null if the server gives no curve.
 * @param {Layers} road
 * @param {number} inlet
 * @param {number} step
 */
export const curveSoon = async (road, inlet, step) => entryOf(road, inlet, step);

/** Measure a demand or a capacity. Return its shape with the chances that stand for it (NaN if the
 * inlet does not admit the demand), or a sentence with the reason.
 * @param {Shape} shape
 * @param {string} note      of the change
 * @returns {Promise<Shape | string>}
 */
export async function measureShape(shape, note) {
  const {kind, first, last, from, value, limit, demand = NaN} = shape;
  if (kind === "inflow") {
    const curve = await curveSoon(layersOf("mine"), first, from);
    return curve ? {...shape, value: chanceOfDemand(demand, curve)} : messages.notMeasured(note);
  }
  const said = await ask({capacity: {at: need("me").at, first, last, cars: value, limit}},
    {turn: "last", quiet: ["Failed", "Range"]});
  if (said && "value" in said) return {...shape, chances: said.value.slice(2)};
  return said?.refused === "Range" && said.why ? said.why : messages.notMeasured(note);
}
