// The figures of compared roads, if other roads are chosen while answers are awaited.

import assert from "node:assert/strict";
import {test} from "node:test";

import {countsOf, refreshFigures} from "../page/loader.mjs";
import {Road} from "../page/rows.mjs";
import {store} from "../page/store.mjs";

/** @type {[number, number]} */
const PERIOD = [0, 120];
const CARS = {seat1: 1, shared: 2, file: 3};

/** Choose roads that are computed. Return the commands that the server gets. `meanwhile` is called with each, and
 * may return a refusal.
 * @param {import("../page/types.mjs").RoadName[]} chosen
 * @param {(command: object) => object | void} meanwhile
 */
function compare(chosen, meanwhile) {
  const asked = [];
  const roads = {};
  for (const [name, at] of [["mine", "seat1"], ["shared", "shared"], ["file", "file"]]) {
    roads[name] = Object.assign(new Road(at, 20), {horizon: PERIOD[1]});
  }
  Object.assign(store, {
    plan: {length: 20, origin: 0, detectors: [10], inlets: [[0, 1]]}, me: {at: "seat1"}, roads, chosen,
    preview: null, outcome: null, extent: {cell: 0, cells: 20, step: 0, span: PERIOD[1]},
    clock: {now: PERIOD[1], rate: 0, stop: null},
    connection: {isAdmitted: true, ask: async (command) => {
      asked.push(command);
      const refusal = meanwhile(command);
      const [[verb, {at}]] = Object.entries(command);
      if (refusal) return refusal;
      return verb === "sums" ? {sums: [60, 60]} : {flows: [{cars: CARS[at], speeds: 9, flow: 180, speed: 81, on: 60}]};
    }}});
  Object.assign(store.series, {asking: true});
  Object.assign(store.figures, {key: "", of: "", counts: null, asking: false, counting: true});
  return asked;
}

/** Wait until no figures are asked for. */
async function settled() {
  for (let turn = 0; turn < 100; turn++) await null;
  assert.equal(store.figures.asking, false);
  clearTimeout(store.figures.soon);
}

const carsShown = () => countsOf(PERIOD)?.map(([{cars}]) => cars) ?? null;

test("counts are those of the roads that are compared", async () => {
  compare(["shared", "file"], () => {});
  refreshFigures(PERIOD);
  await settled();
  assert.deepEqual(carsShown(), [2, 3]);
  store.chosen = [];
  assert.equal(carsShown(), null);
  refreshFigures(PERIOD);
  await settled();
  assert.deepEqual(carsShown(), [2, 1]);
});

test("a road that is no longer compared, or known, ends no question about the others", async () => {
  const asked = compare(["shared", "mine", "file"], ({sums}) => {
    if (sums?.at !== "shared" || !store.roads.file) return;
    store.chosen = ["shared", "mine"];
    delete store.roads.file;
    refreshFigures(PERIOD);
  });
  refreshFigures(PERIOD);
  await settled();
  assert.deepEqual(carsShown(), [2, 1]);
  assert.equal(asked.findLast(({counts}) => counts)?.counts.at, "seat1");
});

test("roads that are chosen while the server is busy with others get their figures", async () => {
  let isBusy = false;
  const asked = compare(["shared", "file"], () => {
    if (!isBusy) return undefined;
    isBusy = false;
    store.chosen = ["shared", "mine"];
    refreshFigures(PERIOD);
    return {refused: "Busy", why: ""};
  });
  refreshFigures(PERIOD);
  await settled();
  isBusy = true;
  store.roads.shared.minutes.invalidate(0);
  refreshFigures(PERIOD);
  await settled();
  assert.deepEqual(carsShown(), [2, 1]);
  assert.equal(asked.findLast(({sums}) => sums)?.sums.at, "seat1");
});
