// Cells and steps in an engineer's units.

import assert from "node:assert/strict";
import {test} from "node:test";

import {cellOfKm, chanceOfDemand, demandOfChance, durationText, kmText, lengthText, limitText, plural, rangeText, roundedKm,
        signedText} from "../page/units.mjs";

const ROAD = {origin: 0};

test("a cell is 7.5 m, and a cell a step is 27 km/h", () => {
  assert.equal(kmText(ROAD, 400), "3");
  assert.equal(cellOfKm(ROAD, 3), 400);
  assert.equal(cellOfKm(ROAD, 0.18), 24);
  assert.deepEqual([0, 2, 5].map(limitText), ["0 km/h", "54 km/h", "135 km/h"]);
});

test("a half of the last digit of km is rounded up", () => {
  for (const [cell, text] of [[467, "3.503"], [1, "0.008"], [3, "0.023"], [400, "3"], [466, "3.495"],
                              [468, "3.51"], [8191, "61.433"]]) {
    assert.equal(kmText(ROAD, cell), text);   // 7.5 m each
  }
  for (const [km, digits, wanted] of [[1.0005, 3, 1.001], [3.5025, 3, 3.503], [3.5024, 3, 3.502],
                                      [0.015, 2, 0.02], [1.005, 2, 1.01], [61.4325, 2, 61.43]]) {
    assert.equal(roundedKm(km, digits), wanted);
  }
});

test("places before km 0 are negative, and lengths are not", () => {
  const road = {origin: 400};
  assert.deepEqual([0, 399, 400, 867].map((cell) => kmText(road, cell)), ["-3", "-0.007", "0", "3.503"]);
  assert.deepEqual([-3, -0.3, 0, 0.18].map((km) => cellOfKm(road, km)), [0, 360, 400, 424]);
  assert.equal(lengthText(600), "4.5");
  assert.equal(rangeText("-3", "-1.5"), "-3 to -1.5");
  assert.equal(rangeText("0", "1.5"), "0\u20131.5");
});

test("durations are in minutes if they are whole minutes", () => {
  assert.deepEqual([30, 60, 90, 600].map(durationText), ["30 s", "1 min", "90 s", "10 min"]);
});

test("differences have a sign, unless they are rounded to 0", () => {
  assert.equal(signedText(1234.56, 1), "+1,234.6");
  assert.equal(signedText(-0.5, 1), "\u22120.5");
  assert.equal(signedText(-0.04, 1), "0");
  assert.equal(plural(1, "change"), "1 change");
  assert.equal(plural(1200, "change"), "1,200 changes");
});

// Without slowing, a single inlet with chance q admits q / (1 + q q) cars a step.
const CURVE = {points: Array.from({length: 129}, (_, place) =>
  [512 * place, 3600 * (place / 128) / (1 + (place / 128) ** 2)]), capacity: 1800};

test("chances are converted to cars per hour by the curve of an inlet, and back", () => {
  for (const [chance, cars] of [[0, 0], [0.142, 500], [0.302, 1000], [0.536, 1500], [1, 1800]]) {
    assert.ok(Math.abs(demandOfChance(65536 * chance, CURVE) - cars) < 4, `${chance}`);
    const found = chanceOfDemand(cars, CURVE) / 65536;
    assert.ok(Math.abs(found / (1 + found ** 2) - cars / 3600) < 1e-4, `${cars}`);
  }
  for (const cars of [-1, 1801, NaN]) assert.ok(Number.isNaN(chanceOfDemand(cars, CURVE)));
});

test("if several chances admit the same demand, the smallest one is taken", () => {
  const full = {points: [[0, 0], [512, 600], [1024, 600]], capacity: 600};
  assert.equal(chanceOfDemand(600, full), 512);
  assert.equal(demandOfChance(800, full), 600);
});
