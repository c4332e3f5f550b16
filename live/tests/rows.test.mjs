// Which rows of a road the page has, and which are missing.

import assert from "node:assert/strict";
import {test} from "node:test";

import {Road} from "../page/rows.mjs";

test("rows are asked for once, in pieces, from the top on", () => {
  const level = new Road("seat1", 10).load(4);
  assert.deepEqual(level.findMissing(0, 100, 20), {from: 0, to: 76, count: 20});
  level.mark(0, 20, 1);
  assert.deepEqual(level.findMissing(0, 100, 20), {from: 80, to: 100, count: 6});
  level.mark(80, 6, 1);
  assert.equal(level.findMissing(0, 100, 20), null);
  assert.deepEqual(level.findMissing(0, 104, 20), {from: 104, to: 104, count: 1});
});

test("rows from the first changed step on are missing, and the old ones are shown until new ones arrive", () => {
  const road = new Road("seat1", 2);
  const level = road.load(1);
  level.mark(0, 4, 1);
  assert.deepEqual(level.put(0, ["..", "0.", ".1", ".."]), [0, 4]);
  road.invalidate(2);
  assert.deepEqual(level.findMissing(0, 3, 20), {from: 2, to: 3, count: 2});
  assert.equal(level.rows[2], ".1");
  level.mark(2, 2, 1);
  // Row 2 is unchanged: only step 3 is painted again.
  assert.deepEqual(level.put(2, [".1", "#."]), [3, 4]);
  assert.equal(level.put(2, [".1", "#."]), null);
});

test("the three levels that were loaded last are kept", () => {
  const road = new Road("seat1", 2);
  const first = road.load(1);
  for (const every of [2, 4]) road.load(every);
  assert.equal(road.load(1), first);
  road.load(8);
  assert.deepEqual([...road.levels.keys()], [4, 1, 8]);
});

test("looking at a level neither loads nor keeps it", () => {
  const road = new Road("seat1", 2);
  assert.deepEqual(road.level(16).rows, []);
  assert.deepEqual([...road.levels.keys()], []);
  for (const every of [1, 2, 4]) road.load(every);
  road.level(1);
  road.load(8);
  assert.deepEqual([...road.levels.keys()], [2, 4, 8]);
});

test("the sums of minutes from the first changed step on are missing", () => {
  const {minutes} = new Road("seat1", 2);
  assert.deepEqual(minutes.findMissing([0, 300], 3), [0, 180]);
  minutes.put(0, ["a", "b", "c"]);
  assert.equal(minutes.find([0, 300]), null);
  minutes.put(180, ["d", "e"]);
  assert.deepEqual(minutes.find([60, 240]), ["b", "c", "d"]);
  minutes.invalidate(130);                   // the third minute begins at step 120
  assert.equal(minutes.find([60, 240]), null);
  assert.deepEqual(minutes.find([0, 120]), ["a", "b"]);
  assert.deepEqual(minutes.findMissing([0, 300], 60), [120, 300]);
});
