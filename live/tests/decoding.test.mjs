// What the server sends becomes objects with named fields, and shapes and stamps are sent back unchanged.

import assert from "node:assert/strict";
import {test} from "node:test";

import {decodeAnswer, decodeChange, decodeParts, decodeShape, decodeStamp, encodeShape, encodeStamp}
  from "../page/decoding.mjs";

const SENT = ["limit", 4, 5, 1200, null, 2];
const SHAPE = {kind: "limit", first: 4, last: 5, from: 1200, to: null, value: 2};

test("a shape and a stamp have named fields, and are encoded as they were sent", () => {
  assert.deepEqual(decodeShape(SENT), SHAPE);
  assert.deepEqual(encodeShape(SHAPE), SENT);
  assert.deepEqual(decodeStamp([7, "h65"]), {count: 7, hash: "h65"});
  assert.deepEqual(encodeStamp({count: 7, hash: "h65"}), [7, "h65"]);
});

test("a capacity has the values of its zones beside its own", () => {
  const sent = ["capacity", 4, 5, 1200, null, [900, 2, 9000, 20000]];
  const shape = {...SHAPE, kind: "capacity", value: 900, limit: 2, chances: [9000, 20000]};
  assert.deepEqual(decodeShape(sent), shape);
  assert.deepEqual(encodeShape(shape), sent);
  for (const wrong of [900, [], ["x", 2, 0, 0], [900, 2, 0.5, 0], null]) {
    assert.equal(decodeShape([...sent.slice(0, 5), wrong]), null);
  }
});

test("a malformed shape is refused, whichever field is wrong", () => {
  for (const [place, wrong] of [[0, "speed"], [0, null], [1, -1], [2, "5"], [3, 0.5], [4, "x"],
                                [4, undefined], [5, null], [5, NaN]]) {
    assert.equal(decodeShape(SENT.map((field, at) => (at === place ? wrong : field))), null, `${place}`);
  }
  for (const wrong of [null, undefined, "limit", {}, [], SENT.slice(0, 5)]) {
    assert.equal(decodeShape(wrong), null);
  }
});

test("a part says what covers it; malformed parts are left out", () => {
  assert.deepEqual(decodeParts([[...SENT, null], [...SENT, [7, "h65"]]]),
                   [{...SHAPE, by: null}, {...SHAPE, by: {count: 7, hash: "h65"}}]);
  assert.deepEqual(decodeParts([SENT, [...SENT, [7]], [...SENT, [7, 65]], [...SENT, "7.h65"], null, 3]), []);
  assert.deepEqual(decodeParts("all"), []);
});

test("a change has named fields throughout, and the site that it excludes", () => {
  const told = {name: [7, "h65"], kind: "limit", shape: SENT, shown: [[...SENT, [8, "h66"]]], note: "a",
                was: [[...SENT, null]],
                operations: [{stamp: [7, "h65"], lost: [8, "h66"], undoes: [6, "h65"]}]};
  const change = decodeChange(told);
  assert.deepEqual([change.name, change.shape, change.note], [{count: 7, hash: "h65"}, SHAPE, "a"]);
  assert.deepEqual(change.shown, [{...SHAPE, by: {count: 8, hash: "h66"}}]);
  assert.deepEqual(change.was, [{...SHAPE, by: null}]);
  assert.deepEqual(change.operations, [{stamp: {count: 7, hash: "h65"}, lost: {count: 8, hash: "h66"},
                                        undoes: {count: 6, hash: "h65"}}]);
  assert.equal(change.site, null);
  assert.equal(decodeChange({...told, was: null}).was, null);
  assert.ok(!("was" in decodeChange({name: [7, "h65"], shown: [], operations: []})));
  const site = {...told, kind: "site", shape: null, site: "south-00000000"};
  assert.deepEqual([decodeChange(site).site, decodeChange(site).shape], ["south-00000000", null]);
  assert.deepEqual(decodeChange({name: [7, "h65"], gone: true}), {name: {count: 7, hash: "h65"}, gone: true});
});

test("an answer is decoded as its command requires", () => {
  assert.deepEqual(decodeAnswer("send", {touched: 3}), {touched: 3});
  assert.deepEqual(decodeAnswer("preview", {}), {layers: []});
  const list = {layers: [{name: [7, "h65"], gone: true}], next: 4, since: 2, undo: [7, "h65"], redo: null,
                blocked: [{stamp: [5, "h65"], by: ["Ben"]}]};
  const done = decodeAnswer("gesture", {...list, stamp: [9, "h65"], touched: 60, us: {}});
  assert.deepEqual([done.stamp, done.undo, done.redo], [{count: 9, hash: "h65"}, {count: 7, hash: "h65"}, null]);
  assert.deepEqual([done.since, done.next, done.more, done.touched], [2, 4, false, 60]);
  assert.deepEqual(done.blocked, [{stamp: {count: 5, hash: "h65"}, by: ["Ben"]}]);
  const figure = {key: "lost", of: [null, null], label: "lost demand", unit: "cars", title: "lost demand, cars", digits: 0};
  const days = decodeAnswer("days", {days: 2, figures: [{figure, values: [[1, 2], [3, null]], differences: [[null, null]], bounds: [""], words: ""}],
                                     warnings: ["2 days are few"]});
  assert.deepEqual(days.warnings, ["2 days are few"]);
  assert.deepEqual(days.figures, [{figure, values: [{mean: 1, half: 2}, {mean: 3, half: null}],
                                   differences: [{mean: null, half: null}], bounds: [""], words: ""}]);
});
