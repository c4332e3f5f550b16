// Means over days with their intervals, as text.

import assert from "node:assert/strict";
import {test} from "node:test";

import {changeText, halfText, meanText, sureText} from "../page/estimates.mjs";

test("a mean is written with half the width of its interval", () => {
  assert.equal(meanText({mean: 1246.45, half: 10.26}, 1), "1,246.5");
  assert.equal(halfText({mean: 1246.45, half: 10.26}, 1), "± 10.3");
  assert.equal(changeText({mean: -27.85, half: 4.4}, 1), "−27.9");
  assert.deepEqual([meanText({mean: 2.6, half: null}, 0), changeText({mean: 2.345, half: 1}, 2)], ["3", "+2.35"]);
});

test("a difference may be chance if its interval contains 0, and only then", () => {
  assert.equal(sureText({mean: 42.92, half: 0.98}, 1), "± 1.0");
  assert.equal(sureText({mean: -42.92, half: 0.98}, 1), "± 1.0");
  assert.equal(sureText({mean: 3, half: 4.2}, 1), "± 4.2, may be chance");
  assert.equal(sureText({mean: -3, half: 4.2}, 1), "± 4.2, may be chance");
  assert.equal(sureText({mean: -3, half: 3}, 1), "± 3.0, may be chance");
});

test("a figure that is the same each day is not called chance", () => {
  assert.equal(sureText({mean: 0, half: 0}, 1), "the same each day");
});

test("one day has no interval", () => {
  const [five, less, none] = [5, -2, 0].map((mean) => ({mean, half: null}));
  assert.deepEqual([meanText(five, 1), halfText(five, 1), changeText(less, 1), sureText(less, 1), sureText(none, 1)],
                   ["5.0", "", "\u22122.0", "", ""]);
});

test("a mean that is not known has no text", () => {
  const mean = {mean: null, half: null};
  assert.deepEqual([meanText, halfText, changeText, sureText].map((textOf) => textOf(mean, 1)), ["", "", "", ""]);
});
