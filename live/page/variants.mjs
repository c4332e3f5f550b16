// Actions: keep the own road under a name, and choose the roads that are compared and shown side by side.

import {ask} from "./questions.mjs";
import {assign} from "./assign.mjs";
import {refreshChanges} from "./changeactions.mjs";
import {dropDays} from "./comparison.mjs";
import {Layers} from "./layers.mjs";
import {refreshFigures} from "./loader.mjs";
import {curveAt} from "./measurements.mjs";
import {refreshDiagram, setOpen} from "./navigation.mjs";
import * as messages from "./messages.mjs";
import {roadOfVariant, variantOf} from "./roadnames.mjs";
import {Road} from "./rows.mjs";
import {storeSeat} from "./storage.mjs";
import {layersOf, need, notify, roadOf, store, tell} from "./store.mjs";

/** @typedef {import("./types.mjs").RoadName} RoadName */

const MOST_BESIDE = 4;

/** Ask whether a road never changes: that of a variant or of the file.
 * @param {RoadName} road
 */
const isFixed = (road) => road === "file" || variantOf(road) !== null;

/** Return the roads that never change and that the page has. */
const fixedRoads = () => /** @type {RoadName[]} */ (Object.keys(store.roads)).filter(isFixed);

/** Keep the present own road under a name. If the name was that of another road, forget its rows.
 * @param {string} wanted
 */
export async function nameVariant(wanted) {
  const said = await ask({variant: {at: need("me").at, name: wanted}}, {away: messages.NOT_NAMED});
  if (!said || "refused" in said) return;
  const {name, variants} = said;
  const isNew = !store.variants.includes(name);
  store.variants = variants;
  tell(messages.named(name, store.pending.size + store.waiting.size, isNew));
  const road = roadOfVariant(name);
  if (store.roads[road]) await renew(road);
  if (store.chosen.includes(road)) dropDays();
  keepRoads();
  notify("variants");
  refreshFigures();
  refreshDiagram();
}

/** Remove a variant.
 * @param {string} name
 */
export async function removeVariant(name) {
  const said = await ask({variant: {at: need("me").at, name, drop: true}}, {away: messages.NOT_NAMED});
  if (!said || "refused" in said) return;
  takeVariants(said.variants);
  tell(messages.variantRemoved(name));
}

/** Note which variants the seat has. Of the chosen roads, those of other variants are no longer chosen.
 * @param {string[]} variants
 * @param {RoadName[]} [chosen]
 */
export function takeVariants(variants, chosen = store.chosen) {
  store.variants = variants;
  const left = chosen.filter((road) => {
    const name = variantOf(road);
    return name === null || variants.includes(name);
  });
  if (left.length !== store.chosen.length) chooseRoads(left);
  else {
    keepRoads();
    notify("variants");
  }
}

/** Show the roads that can be compared, with the changes of the variants; or hide them.
 * @param {boolean} isOpen
 */
export function showRoads(isOpen) {
  setOpen("roadsPart", isOpen);
  if (store.plan) keepRoads();
}

/** Note whether the changes of a variant are listed.
 * @param {RoadName} road
 * @param {boolean} isOpen
 */
export function openList(road, isOpen) {
  const others = store.openLists.filter((one) => one !== road);
  store.openLists = isOpen ? [...others, road] : others;
}

/** Ask for the rows and the list of a chosen road again. Answers to former questions come to a road that
 * nobody shows.
 * @param {RoadName} road
 */
function renew(road) {
  const {version, length} = roadOf(road);
  store.roads[road] = assign(new Road(road, length), {version: version + 1});
  layersOf(road).restart();
  return refreshChanges(road);
}

/** Ask for the roads that never change again, after the connection was lost: a variant may have been named
 * again.
 */
export const renewFixed = () => Promise.all(fixedRoads().map(renew)).then(() => notify("variants"));

/** Ask for the lists of the roads that never change again: others may have shared what they list. */
export const refreshFixed = () => Promise.all(fixedRoads().map((road) => {
  layersOf(road).restart();
  return refreshChanges(road);
}));

/** Choose a road, behind those that are chosen; or do not choose it any more.
 * @param {RoadName} road
 * @param {boolean} isChosen
 */
export function chooseRoad(road, isChosen) {
  const others = store.chosen.filter((one) => one !== road);
  if (isChosen && others.length >= MOST_BESIDE) {
    tell(messages.mostRoads(MOST_BESIDE), true);
    notify("variants");
    return;
  }
  chooseRoads(isChosen ? [...others, road] : others);
}

/** Compare these roads, and show them side by side, if they are two or more.
 * @param {RoadName[]} chosen
 */
function chooseRoads(chosen) {
  const were = store.chosen.length > 1;
  dropDays();
  assign(store, {chosen});
  storeSeat(need("me"), chosen);
  keepRoads();
  if (chosen.length < 2 && store.whose === "beside") store.whose = "mine";
  if (chosen.length > 1 && !were) store.whose = "beside";
  notify("variants");
  refreshFigures();
  refreshDiagram();
}

/** Make the roads that are chosen, and the variants if their changes are shown. Forget the others. */
function keepRoads() {
  const {chosen, day, roads, variants, isOpen} = store;
  const plan = need("plan");
  const kept = [...new Set([...chosen, ...(isOpen.roadsPart ? variants.map(roadOfVariant) : [])])];
  for (const road of fixedRoads()) {
    if (kept.includes(road)) continue;
    delete store.roads[road];
    delete store.layers[road];
  }
  for (const road of kept.filter((one) => !roads[one])) {
    store.roads[road] = new Road(road, plan.length);
    store.layers[road] = new Layers(plan, {day, findCurve: curveAt});
    refreshChanges(road).then(() => notify("variants"));
  }
}
