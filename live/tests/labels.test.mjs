// Where the labels of frames are placed, in pixels.

import assert from "node:assert/strict";
import {test} from "node:test";

import {dropDuplicates, placeOfLabel} from "../page/labels.mjs";

const BOUNDS = [60, 50, 960, 550];
const SIZE = [180, 17];
const meets = ([x, y], [left, top, right, bottom]) =>
  x < right && left < x + SIZE[0] && y < bottom && top < y + SIZE[1];
const isWithin = ([x, y]) => x >= 60 && x + SIZE[0] <= 960 && y >= 50 && y + SIZE[1] <= 550;

test("a label is in its frame if nothing is in the way", () => {
  const [left, top] = placeOfLabel([100, 100, 400, 300], SIZE, BOUNDS, []);
  assert.ok(left >= 100 && left < 110 && top >= 100 && top < 110);
});

test("a label never covers a closure, neither its own nor another one", () => {
  for (const closure of [[500, 200, 520, 400], [500, 200, 900, 400], [70, 60, 950, 540],
                         [880, 60, 955, 80], [60, 50, 80, 550]]) {
    const others = [[520, 190, 800, 260], [300, 150, 499, 230]];
    const place = placeOfLabel(closure, SIZE, BOUNDS, [closure, ...others]);
    if (place === null) continue;
    assert.ok(isWithin(place), `${place}`);
    for (const box of [closure, ...others]) assert.ok(!meets(place, box), `${place} ${box}`);
  }
  assert.notEqual(placeOfLabel([500, 200, 520, 400], SIZE, BOUNDS, [[500, 200, 520, 400]]), null);
});

test("a label at the right edge is not cut off", () => {
  const closure = [940, 100, 960, 300];
  const place = placeOfLabel(closure, SIZE, BOUNDS, [closure]);
  assert.ok(isWithin(place) && !meets(place, closure));
});

test("a label is drawn on computed rows only, and not at all if no row is computed", () => {
  const computed = [60, 50, 960, 250];
  const [, top] = placeOfLabel([100, 240, 300, 500], SIZE, computed, []);
  assert.ok(top + 17 <= 250);
  assert.equal(placeOfLabel([100, 60, 300, 500], SIZE, [60, 50, 960, 50], []), null);
});

test("labels of frames at one place are below or next to each other", () => {
  const taken = [];
  for (let number = 0; number < 6; number++) {
    const place = placeOfLabel([100, 100, 400, 120], SIZE, BOUNDS, taken);
    assert.ok(taken.every((box) => !meets(place, box)));
    taken.push([...place, place[0] + SIZE[0], place[1] + SIZE[1]]);
  }
});

test("three pieces of one change have one label, at the largest piece", () => {
  const piece = (top, bottom) => ({text: "54 km/h", box: [100, top, 300, bottom], change: "7,65"});
  const other = {text: "27 km/h", box: [100, 140, 300, 160], change: "8,65"};
  const labels = [piece(100, 140), piece(160, 220), piece(260, 280)];
  assert.deepEqual(dropDuplicates([labels[0], other, labels[1], labels[2]]).map(({box}) => box),
                   [labels[1].box, other.box]);
});

test("adjacent changes with the same text have one label, and others their own", () => {
  const zone = (number, text = "54 km/h") =>
    ({text, box: [100 + 50 * number, 100, 150 + 50 * number, 200], change: String(number)});
  assert.equal(dropDuplicates([zone(0), zone(1), zone(2)]).length, 1);
  assert.equal(dropDuplicates([zone(0), zone(2)]).length, 2);
  assert.equal(dropDuplicates([zone(0), zone(1, "27 km/h"), zone(2)]).length, 3);
});
