// Demands and capacities that wait until the server has measured them.

import assert from "node:assert/strict";
import {webcrypto} from "node:crypto";
import {readFileSync} from "node:fs";
import {beforeEach, test} from "node:test";

import {areaOfShape} from "../page/area.mjs";
import {curveAt} from "../page/measurements.mjs";
import {applyArea, dropWaiting} from "../page/draft.mjs";
import {shapeWithEdge} from "../page/geometry.mjs";
import {Layers} from "../page/layers.mjs";
import {Road} from "../page/rows.mjs";
import {store} from "../page/store.mjs";

const PLAN = {...JSON.parse(readFileSync(new URL("../plan.json", import.meta.url), "utf8")), origin: 0};
// An inlet that admits as many cars per hour as its chance is in 1/65,536.
const CURVE = {points: [[0, 0], [2000, 2000]], capacity: 2000};
const settled = () => new Promise((done) => { setTimeout(done, 5); });
globalThis.sessionStorage = {setItem() {}};
globalThis.crypto ??= webcrypto; // Debian's Node has it in this module alone

let gestures, curves, questions;

/** Answer the question for a curve that has waited longest. */
async function measured(answer) {
  curves.shift()(answer);
  await settled();
}

beforeEach(() => {
  [gestures, curves, questions] = [[], [], []];
  const layers = new Layers(PLAN, {day: store.day, findCurve: curveAt});
  Object.assign(store, {plan: PLAN, me: {at: "seat1", seat: 1}, layers: {mine: layers}, roads: {mine: new Road("seat1", PLAN.length)}, follows: false,
                        curves: new Map(), pending: new Map(), waiting: new Map(), message: ["", false]});
  store.connection = {isAdmitted: true, ask: (command) => new Promise((done) => {
    if (command.admission) curves.push(done);
    if (command.capacity) {
      questions.push(command.capacity);
      curves.push(done);
    }
    if (command.gesture) {
      gestures.push(command.gesture);
      done({stamp: [gestures.length, "h65"], touched: null, layers: [], since: 0, next: 0, undo: null, redo: null});
    }
  })};
});

/** Put a demand, as a form or a click does. */
const put = (demand, from = 60) =>
  applyArea(areaOfShape({kind: "inflow", first: 0, last: 0, from, to: null, value: curveAt(store.layers.mine, 0, from) ? demand : NaN, demand}));

test("a demand waits until its inlet is measured, and is then put with its chance", async () => {
  assert.equal(put(700), true);
  assert.deepEqual([...store.waiting.values()].map(({note}) => note), ["Demand 700 cars/h, at 0 km, from 0:01:00 on"]);
  assert.equal(gestures.length, 0);
  await measured(CURVE);
  assert.deepEqual([store.waiting.size, gestures.map(({shape, demand}) => [shape, demand])],
                   [0, [[["inflow", 0, 0, 60, null, 700], 700]]]);
  assert.deepEqual(store.message, ["Demand 700 cars/h, at 0 km, from 0:01:00 on: done.", false]);
});

test("the same demand twice is one", async () => {
  for (let turn = 0; turn < 6; turn++) put(700);
  assert.equal(store.waiting.size, 1);
  await measured(CURVE);
  assert.equal(gestures.length, 1);
});

test("nothing is said to be done while something waits", async () => {
  put(700);
  applyArea(areaOfShape({kind: "block", first: 3, last: 5, from: 60, to: 90, value: 1}));
  await settled();
  assert.equal(gestures.length, 1);
  assert.match(store.message[0], /^Closed .*; 1 change is waiting\.$/);
});

test("a demand that is cancelled is not put", async () => {
  put(700);
  assert.equal(dropWaiting([...store.waiting.keys()][0]), true);
  await measured(CURVE);
  assert.deepEqual([gestures.length, store.message], [0, ["", false]]);
});

test("a demand that the inlet cannot admit, or that is not measured, is refused by its name", async () => {
  put(2500);
  await measured(CURVE);
  assert.match(store.message[0], /^The demand is out of range: this inlet admits 0 to 2,000 cars per hour per lane/);
  store.curves.clear();
  put(900);
  await measured({refused: "Failed", why: "no"});
  assert.match(store.message[0], /^Demand 900 cars\/h, at 0 km, .*: not put, because the server could not measure this/);
  assert.deepEqual([gestures.length, store.waiting.size, store.message[1]], [0, 0, true]);
});

const WORKS = {kind: "capacity", first: 4, last: 5, from: 60, to: null, value: 900, limit: 2};

test("a capacity waits until its chances are measured, and is put once with them", async () => {
  for (let turn = 0; turn < 3; turn++) applyArea(areaOfShape(WORKS));
  assert.deepEqual([...store.waiting.values()].map(({note}) => note), ["Capacity 900 cars/h: limit 54 km/h, 1.5\u20132.25 km, from 0:01:00 on"]);
  assert.deepEqual(questions[0], {at: "seat1", first: 4, last: 5, cars: 900, limit: 2});
  assert.equal(gestures.length, 0);
  await measured({value: [900, 2, 20316, 20317]});
  assert.deepEqual([store.waiting.size, gestures.map(({shape}) => shape)],
                   [0, [["capacity", 4, 5, 60, null, [900, 2, 20316, 20317]]]]);
  assert.deepEqual(store.message, ["Capacity 900 cars/h: limit 54 km/h, slowing 0.31, 1.5\u20132.25 km, from 0:01:00 on: done.", false]);
});

test("a capacity that cannot be, or that is not measured, is refused", async () => {
  applyArea(areaOfShape({...WORKS, value: NaN}));
  assert.match(store.message[0], /^The capacity must be a number of cars per hour per lane above 0/);
  applyArea(areaOfShape(WORKS));
  await measured({refused: "Range", why: "works of 0.75 km leave at most 850 cars per hour"});
  assert.deepEqual(store.message, ["works of 0.75 km leave at most 850 cars per hour", true]);
  applyArea(areaOfShape(WORKS));
  await measured({refused: "Failed", why: "no"});
  assert.match(store.message[0], /^Capacity 900 cars\/h.*: not put, because the server could not measure this/);
  assert.deepEqual([gestures.length, store.waiting.size], [0, 0]);
});

test("an edge of a capacity is moved in time at once, and in space once it is measured again", async () => {
  const shape = {...WORKS, chances: [20316, 20317]};
  const old = {name: {count: 1, hash: "h"}, shape};
  const move = (edge, place) => applyArea(areaOfShape(shapeWithEdge(PLAN, shape, edge, place), old));
  move("bottom", [0, 300]);
  await settled();
  assert.deepEqual(gestures.at(-1).shape, ["capacity", 4, 5, 60, 300, [900, 2, 20316, 20317]]);
  move("right", [350, 100]);
  assert.deepEqual([questions.length, gestures.length], [1, 1]);
  await measured({value: [900, 2, 19000, 19001]});
  assert.deepEqual(gestures.at(-1).shape, ["capacity", 4, 6, 60, null, [900, 2, 19000, 19001]]);
});

test("a capacity with another limit is changed, and one with the same values is not", async () => {
  const old = {name: {count: 1, hash: "h"}, shape: {...WORKS, chances: [20316, 20317]}};
  applyArea(areaOfShape(WORKS, old));
  await measured({value: [900, 2, 20316, 20317]});
  assert.deepEqual([gestures.length, /it is so already/.test(store.message[0])], [0, true]);
  applyArea(areaOfShape({...WORKS, limit: 3}, old));
  await measured({value: [900, 3, 30000, 30001]});
  assert.deepEqual(gestures.at(-1).shape, ["capacity", 4, 5, 60, null, [900, 3, 30000, 30001]]);
});

test("the same command twice is one while it is pending", async () => {
  store.connection.ask = (command) => { gestures.push(command); return new Promise(() => {}); };
  for (let turn = 0; turn < 3; turn++) applyArea(areaOfShape({kind: "block", first: 3, last: 5, from: 60, to: 90, value: 1}));
  assert.equal(store.pending.size, 1);
  applyArea(areaOfShape({kind: "block", first: 3, last: 6, from: 60, to: 90, value: 1}));
  assert.equal(store.pending.size, 2);
});
