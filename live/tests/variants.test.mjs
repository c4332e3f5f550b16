// The lists of roads that never change: of a variant that is named again while its list loads.

import assert from "node:assert/strict";
import {readFileSync} from "node:fs";
import {beforeEach, test} from "node:test";

import {refreshChanges} from "../page/changeactions.mjs";
import {Layers} from "../page/layers.mjs";
import {roadOfVariant} from "../page/roadnames.mjs";
import {Road} from "../page/rows.mjs";
import {store} from "../page/store.mjs";
import {refreshFixed, renewFixed} from "../page/variants.mjs";

const PLAN = {...JSON.parse(readFileSync(new URL("../plan.json", import.meta.url), "utf8")), origin: 0};
const NIGHT = roadOfVariant("night");
const settled = () => new Promise((done) => { setTimeout(done, 5); });

let questions;

/** Return the answer that lists changes of these names; there may be more of them. */
const listed = (since, next, names, more = false) => ({since, next, more, undo: null, redo: null, blocked: [], layers: names.map((name) => ({
  name: [1, name], kind: "limit", shape: ["limit", 1, 1, 60, null, 2], who: "Ada", note: "", when: 0, height: [1, name], standing: true, shared: false, site: null,
  shown: [], operations: []}))});

/** Answer the question that has waited longest by the next change of a list of names, if there is one. */
async function answerBy(list) {
  const {command: {layers: {from}}, done} = questions.shift();
  done(listed(from, Math.min(list.length, from + 1), list.slice(from, from + 1), from + 1 < list.length));
  await settled();
}

/** Return the names of the listed changes. */
const names = () => [...store.layers[NIGHT].changes.values()].map(({name}) => name.hash).sort();

beforeEach(() => {
  questions = [];
  Object.assign(store, {plan: PLAN, me: {at: "seat1", seat: 1}, variants: ["night"], chosen: [], openLists: [], refreshes: new Map(),
                        layers: {[NIGHT]: new Layers(PLAN, {day: store.day})}, roads: {[NIGHT]: new Road(NIGHT, PLAN.length)}});
  store.connection = {isAdmitted: true, ask: (command) => new Promise((done) => { questions.push({command, done}); })};
});

for (const again of [renewFixed, refreshFixed]) {
  for (const before of [0, 1, 2, 3]) {
    test(`${again.name} lists the new road, although ${before} pieces of the old one have come`, async () => {
      refreshChanges(NIGHT);
      for (let piece = 0; piece < before; piece++) await answerBy(["old", "both", "older"]);
      const done = again();
      if (before < 3) await answerBy(["old", "both", "older"]);        // it was asked for before
      while (questions.length) await answerBy(["both", "new"]);
      await done;
      assert.deepEqual(names(), ["both", "new"]);
    });
  }
}
