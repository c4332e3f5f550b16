// Actions: ask for a comparison of roads over many days, and stop it.

import {ask} from "./questions.mjs";
import * as messages from "./messages.mjs";
import {figureRoads, notify, need, layersOf, roadOf, store, tell} from "./store.mjs";
import {periodShown} from "./view.mjs";

/** Return how many days the server simulates. */
export const daysAsked = () => store.limits.days;

/** @typedef {import("./types.mjs").RoadName} RoadName */

/** Return a key that changes whenever one of these roads does. Variants do not change.
 * @param {RoadName[]} roads
 */
const keyOfRoads = (roads) => [roads.includes("mine") || store.preview ? layersOf("mine").next : "",
  roads.includes("shared") || store.preview ? layersOf("shared").next : ""].join();

/** Return which roads are compared: those of the preview if there is one, otherwise those whose figures
 * are shown.
 * @returns {RoadName[]}
 */
export const comparedNow = () => (store.preview ? ["before", "after"] : figureRoads());

/** Return the names of the roads that are compared, as the server knows them. */
export const comparedAt = () => (store.preview ? ["before", "after"] : figureRoads().map((whose) => roadOf(whose).at));

/** Return the comparison over many days of the roads that are compared now; null before it was made. */
export const daysShown = () => (store.days?.of.join() === comparedNow().join() ? store.days : null);

/** Ask for a comparison over many days. */
export async function askDays() {
  const [from, to] = periodShown();
  if (to <= from) {
    tell(messages.NOTHING_COMPUTED, true);
    return;
  }
  /** @type {import("./types.mjs").Days} */
  const days = {of: comparedNow(), key: keyOfRoads(comparedNow()), done: 0, said: null};
  store.days = days;
  notify("days");
  const said = await ask({days: {at: need("me").at, of: comparedAt(), from, to}},
    {quiet: ["Stopped"], isWanted: () => store.days === days});
  if (store.days !== days) return;
  if (said && !("refused" in said)) days.said = said;
  else store.days = null;
  notify("days");
}

/** Note how many days are done.
 * @param {{done: number}} message
 */
export function hearDays({done}) {
  if (!store.days) return;
  store.days.done = done;
  notify("days");
}

/** Stop the comparison. The server then answers with the days that are done. */
export const stopDays = () => ask({days: {at: need("me").at, of: null}});

/** Forget the comparison, and stop it if it is under way. */
export function dropDays() {
  if (!store.days) return;
  const {said} = store.days;
  store.days = null;
  if (!said) stopDays();
  notify("days");
}

/** Forget the comparison if one of its roads has changed since. */
export function dropOldDays() {
  if (!store.days || store.days.key === keyOfRoads(store.days.of)) return;
  const {said} = store.days;
  dropDays();
  if (!said) tell(messages.daysStopped(daysAsked()));
}
