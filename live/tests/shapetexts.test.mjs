// The words for changes and their values.

import assert from "node:assert/strict";
import {readFileSync} from "node:fs";
import {test} from "node:test";

import {DayClock} from "../page/dayclock.mjs";
import {decodeChange, decodeShape} from "../page/decoding.mjs";
import {placesText, shapeText, takenZonesText, thingText, valueText} from "../page/shapetexts.mjs";

const PLAN = {...JSON.parse(readFileSync(new URL("../plan.json", import.meta.url), "utf8")), origin: 0};
// With a chance of 0.588, inlet 0 admits 1,500 cars per hour, and 1,250 from step 600 on. Inlet 1 is being measured.
const ROAD = {plan: PLAN, day: new DayClock(), curveAt: (inlet, step) => (inlet ? null
  : {points: [[0, 0], [38535, step < 600 ? 1500 : 1250], [65536, 1800]], capacity: 1800})};

test("places are written in km, and zones are counted", () => {
  assert.equal(placesText(PLAN, "limit", 7, 8), "2.625\u20133.375 km");
  assert.equal(placesText(PLAN, "inflow", 1, 1), "at 1.5 km");
  assert.equal(takenZonesText(PLAN, "start", 7, 7), "1 whole zone of 375 m");
  assert.equal(takenZonesText(PLAN, "limit", 7, 8), "2 whole zones of 375 m");
  assert.equal(takenZonesText(PLAN, "block", 7, 8), "");
});

test("values are written with their units", () => {
  const text = (kind, value, more = {}) => valueText(ROAD, {kind, value, first: 0, from: 0, ...more});
  assert.equal(text("block", 1), "Closed");
  assert.equal(text("block", 0), "Open");
  assert.equal(text("limit", 2), "54 km/h");
  assert.equal(text("watch", 0), "Detector off");
  assert.equal(text("slow", 16384), "Slowing 25 %");
  assert.equal(text("start", 32768), "Slow to start 50 %");
  assert.equal(text("capacity", 1900, {limit: 2}), "Capacity 1,900 cars/h: limit 54 km/h");
  assert.equal(text("capacity", 900, {limit: 2, chances: [20316, 9000]}), "Capacity 900 cars/h: limit 54 km/h, slowing 0.31");
});

test("a demand is in cars per hour: what was asked for, otherwise what the inlet admits then", () => {
  assert.equal(shapeText(ROAD, decodeShape(["inflow", 0, 0, 600, 1200, 38535])),
               "Demand 1,250 cars/h, at 0 km, 0:10:00\u20130:20:00");
  assert.equal(shapeText(ROAD, decodeShape(["inflow", 0, 0, 599, 1200, 38535])),
               "Demand 1,500 cars/h, at 0 km, 0:09:59\u20130:20:00");
  assert.equal(shapeText(ROAD, decodeShape(["inflow", 1, 1, 599, 1200, 32768])),
               "Demand that is being measured, at 1.5 km, 0:09:59\u20130:20:00");
  const change = decodeChange({name: [1, "h"], kind: "inflow", shape: ["inflow", 1, 1, 600, 900, 14000],
    demand: 447.69, shown: [["inflow", 1, 1, 600, 900, 14000, null]], operations: []});
  for (const shape of [change.shape, ...change.shown]) {
    assert.equal(shapeText(ROAD, shape), "Demand 448 cars/h, at 1.5 km, 0:10:00\u20130:15:00");
    assert.equal(thingText(ROAD, shape), "demand 448 cars/h");
  }
  assert.equal(decodeChange({...change, name: [1, "h"], shape: ["inflow", 1, 1, 600, 900, 14000],
    demand: "many"}).shape.demand, undefined);
});

test("a shape is described in a few words", () => {
  const text = (...shape) => thingText(ROAD, decodeShape(shape));
  assert.equal(text("limit", 0, 0, 0, null, 2), "limit of 54 km/h");
  assert.equal(text("block", 0, 0, 0, null, 1), "closure");
  assert.equal(text("slow", 0, 0, 0, null, 16384), "slowing 25 %");
  assert.equal(text("inflow", 0, 0, 0, null, Math.round(0.588 * 65536)), "demand 1,500 cars/h");
  assert.equal(text("watch", 0, 0, 0, null, 0), "detector switched off");
  assert.equal(text("capacity", 0, 0, 0, null, [900, 2, 20316, 20316]), "capacity of 900 cars/h");
});
