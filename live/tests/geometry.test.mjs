// Where things are on the road of live/plan.json: 800 cells in zones of 50, inlets at 0 and 200.

import assert from "node:assert/strict";
import {readFileSync} from "node:fs";
import {test} from "node:test";

import {decodeShape} from "../page/decoding.mjs";
import {cellsOf, edgeNear, isTooLate, nearestIn, objectsIn, objectsNearest, rectangleBetween,
        shapeWithEdge, snap, zonesIn} from "../page/geometry.mjs";

const shapeOf = (...told) => decodeShape(told);
const PLAN = {...JSON.parse(readFileSync(new URL("../plan.json", import.meta.url), "utf8")), origin: 0};

test("each object has its cells", () => {
  assert.deepEqual([PLAN.length, PLAN.zone], [800, 50]);
  assert.deepEqual(PLAN.inlets.map(([cell]) => cell), [0, 200]);
  assert.deepEqual(cellsOf(PLAN, "limit", 7, 8), [350, 450]);
  assert.deepEqual(cellsOf({...PLAN, length: 790}, "slow", 15, 15), [750, 790]);
  assert.deepEqual(cellsOf(PLAN, "block", 24, 24), [24, 25]);
  assert.deepEqual(cellsOf(PLAN, "inflow", 1, 1), [200, 201]);
  assert.deepEqual(cellsOf(PLAN, "watch", 0, 0), [PLAN.detectors[0], PLAN.detectors[0] + 1]);
});

test("a stretch of cells has the objects that it touches, or the nearest inlet", () => {
  assert.deepEqual(objectsIn(PLAN, "limit", [360, 430]), [7, 8]);
  assert.deepEqual(objectsIn(PLAN, "limit", [350, 450]), [7, 8]);
  assert.deepEqual(objectsIn(PLAN, "limit", [350, 351]), [7, 7]);
  assert.deepEqual(objectsIn(PLAN, "block", [8, 24]), [8, 23]);
  assert.deepEqual(objectsIn(PLAN, "inflow", [190, 500]), [1, 1]);
  assert.deepEqual(objectsIn(PLAN, "inflow", [90, 500]), [0, 0]);
});

test("a typed stretch is rounded to the nearest zone boundaries", () => {
  // 3.375 km is cell 450, nearer to 3.5 km (466.7) than 3.75 (500) is; 3.4 to 3.5 is within one zone.
  for (const [cells, objects] of [[[400, 467], [8, 8]], [[453, 467], [9, 9]], [[448, 455], [9, 9]],
                                  [[773, 800], [15, 15]], [[0, 800], [0, 15]],
                                  [[400, 450], [8, 8]]]) {
    assert.deepEqual(objectsNearest(PLAN, "limit", cells), objects, `${cells}`);
  }
  assert.deepEqual(objectsNearest(PLAN, "block", [440, 440]), [440, 440]);
});

test("a rectangle between two places has the objects and the time between them", () => {
  const between = (kind, one, other, how) =>
    Object.values(rectangleBetween(PLAN, kind, one, other, how)).slice(0, 4);
  assert.deepEqual(between("block", [25, 24], [24, 12]), [24, 24, 12, 24]);
  assert.deepEqual(between("block", [-3, -5], [2, 1]), [0, 1, 0, 1]);
  assert.deepEqual(between("block", [900, 7], [810, 7]), [799, 799, 7, 8]);
  assert.deepEqual(between("limit", [430, 1800], [430, 1800], {open: true}), [8, 8, 1800, null]);
  assert.deepEqual(between("inflow", [190, 0], [20, 9]), [1, 1, 0, 9]);
});

test("a drag takes zones that it covers at least by half; with Shift, all that it touches", () => {
  // Zones have 50 cells, 375 m: half a kilometre is 66 cells.
  for (const [cells, half, all] of [
    [[360, 426], [7, 8], [7, 8]],         // 40 of zone 7, 26 of zone 8
    [[376, 442], [8, 8], [7, 8]],         // 24 of zone 7, 42 of zone 8
    [[375, 425], [7, 8], [7, 8]],         // 25 of each
    [[340, 424], [7, 7], [6, 8]],         // 10, 50, 24
    [[400, 424], null, [8, 8]],
    [[440, 460], null, [8, 9]],           // 10 of each
    [[0, 800], [0, 15], [0, 15]]]) {
    assert.deepEqual(zonesIn(PLAN, cells, false), half, `${cells}`);
    assert.deepEqual(zonesIn(PLAN, cells, true), all, `${cells}`);
  }
  // The last zone may be shorter: here it has 40 cells.
  assert.deepEqual(zonesIn({...PLAN, length: 790}, [769, 790], false), [15, 15]);
  const few = (how) => rectangleBetween(PLAN, "limit", [400, 0], [424, 60], how).coversNoZone;
  assert.ok(few());
  assert.ok(!few({all: true}));
  assert.ok(!rectangleBetween(PLAN, "block", [400, 0], [401, 60]).few);
});

test("places snap to 25 m and to round seconds, unless exact ones are wanted", () => {
  const place = [401.4, 1213];
  assert.deepEqual(snap(place, {span: 3600, scale: 1, exact: false}), [400, 1200]);
  assert.deepEqual(snap(place, {span: 900, scale: 1, exact: false}), [400, 1210]);
  assert.deepEqual(snap(place, {span: 150, scale: 9, exact: false}), [401, 1213]);
  assert.deepEqual(snap([401.6, 1213.4], {span: 3600, scale: 1, exact: true}), [402, 1213]);
});

test("an edge is moved to a place, at least one cell and one step from the opposite edge", () => {
  const shape = shapeOf("block", 24, 30, 12, 24, 1);
  const drawn = (edge, place) => shapeWithEdge(PLAN, shape, edge, place);
  assert.deepEqual(drawn("bottom", [0, 30]), shapeOf("block", 24, 30, 12, 30, 1));
  assert.deepEqual(drawn("bottom", [0, 5]), shapeOf("block", 24, 30, 12, 13, 1));
  assert.deepEqual(drawn("top", [0, 30]), shapeOf("block", 24, 30, 23, 24, 1));
  assert.deepEqual(drawn("left", [40, 0]), shapeOf("block", 30, 30, 12, 24, 1));
  assert.deepEqual(drawn("right", [2000, 0]), shapeOf("block", 24, 799, 12, 24, 1));
  const limit = (edge, cell, all) => {
    const zones = shapeOf("limit", 7, 8, 0, null, 2);
    const {first, last} = shapeWithEdge(PLAN, zones, edge, [cell, 0], all);
    return [first, last];
  };
  assert.deepEqual(limit("right", 475), [7, 9]);
  assert.deepEqual(limit("right", 474), [7, 8]);
  assert.deepEqual(limit("right", 460, true), [7, 9]);
  assert.deepEqual(limit("right", 10), [7, 7]);
  assert.deepEqual(limit("left", 325), [6, 8]);
  assert.deepEqual(limit("left", 449), [8, 8]);
  const demand = shapeOf("inflow", 0, 0, 0, 60, 9);
  assert.deepEqual(shapeWithEdge(PLAN, demand, "right", [90, 0]), demand);
});

test("an edge is found within a few pixels", () => {
  const corners = [100, 200, 300, 400];
  assert.equal(edgeNear(corners, [200, 403], 6, false), "bottom");
  assert.equal(edgeNear(corners, [200, 403], 6, true), undefined);
  assert.equal(edgeNear(corners, [97, 300], 6, false), "left");
  assert.equal(edgeNear(corners, [200, 300], 6, false), undefined);
  assert.equal(edgeNear(corners, [200, 407], 6, false), undefined);
});

test("a shape after step 1,048,575, at which the clock ends, is too late", () => {
  assert.ok(!isTooLate(shapeOf("block", 0, 0, 0, 1048575, 1)));
  assert.ok(isTooLate(shapeOf("block", 0, 0, 0, 1048576, 1)));
  assert.ok(isTooLate(shapeOf("block", 0, 0, 1048576, null, 1)));
});

test("the nearest object and step of a shape are found for each place", () => {
  const limit = shapeOf("limit", 4, 5, 1200, 2400, 2);
  assert.deepEqual(nearestIn(PLAN, limit, [199, 1190.4]), [4, 1200]);
  assert.deepEqual(nearestIn(PLAN, limit, [260.5, 1300.7]), [5, 1300]);
  assert.deepEqual(nearestIn(PLAN, limit, [303, 2404]), [5, 2399]);
  assert.deepEqual(nearestIn(PLAN, shapeOf("block", 10, 20, 0, null, 1), [9.8, 5000]), [10, 5000]);
  assert.deepEqual(nearestIn(PLAN, shapeOf("inflow", 1, 1, 60, 90, 9), [190, 70]), [1, 70]);
});
