// Flow and speed by time: a question is about the roads that were compared when it began.

import assert from "node:assert/strict";
import {test} from "node:test";

import {askSeries} from "../page/loader.mjs";
import {Road} from "../page/rows.mjs";
import {store} from "../page/store.mjs";

const [FROM, TO] = [0, 120];
const SPAN = [[{cars: 3, speeds: 9, flow: 180, speed: 81, on: 60}]];
const NO_PREVIEW = {refused: "NoPreview", why: "the two roads of the preview are no longer kept"};

/** Open a preview whose roads are computed. Return the list of the commands that the server gets.
 * @param {(command: object) => object} answer
 */
function inPreview(answer) {
  const asked = [];
  const roads = {};
  for (const [name, at] of [["mine", "seat1"], ["shared", "shared"], ["before", "before"], ["after", "after"]]) {
    roads[name] = Object.assign(new Road(at, 20), {horizon: TO});
  }
  Object.assign(store, {
    plan: {length: 20, origin: 0, detectors: [10], inlets: [[0, 1]]}, me: {at: "seat1"}, roads, message: ["", false],
    preview: {takes: false, stamps: [], changes: [], whose: "mine"}, outcome: {layers: {}},
    connection: {isAdmitted: true, ask: async (command) => {
      asked.push(command);
      return answer(command);
    }}});
  Object.assign(store.series, {key: "", flows: null, names: []});
  return asked;
}

/** Drop the roads of the preview, as the page does when the preview closes. */
function closePreview() {
  Object.assign(store, {preview: null, outcome: null});
  delete store.roads.before;
  delete store.roads.after;
}

const placesOf = (asked) => asked.flatMap(({counts}) => counts?.at ?? []);

test("the series of a preview is that of its two roads", async () => {
  const asked = inPreview(() => ({flows: SPAN}));
  await askSeries([FROM, TO]);
  assert.deepEqual(placesOf(asked), ["before", "after"]);
  assert.deepEqual([store.series.flows, store.series.asking], [[SPAN, SPAN], false]);
});

test("if the preview closes meanwhile, the question fails quietly", async () => {
  const asked = inPreview(() => NO_PREVIEW);
  const question = askSeries([FROM, TO]);
  closePreview();
  await question;
  assert.deepEqual(placesOf(asked), ["before", "after"]);
  assert.deepEqual([store.series.flows, store.series.asking, store.message], [null, false, ["", false]]);
});
