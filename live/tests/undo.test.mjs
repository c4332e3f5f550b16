// What Undo undoes and Redo redoes while something is pending.

import assert from "node:assert/strict";
import {test} from "node:test";

import {findUndone, nextOf} from "../page/undo.mjs";
import {loadChosen, loadPending, loadSeats, storePending, storeSeat} from "../page/storage.mjs";

const NONE = {undo: null, redo: null};
const gestures = (...list) => list.map(([key, does]) => ({key, does}));

test("if nothing is pending, Undo and Redo do what the server says", () => {
  assert.deepEqual(nextOf({undo: [3, "h65"], redo: [2, "h65"]}, []), {undo: [3, "h65"], redo: [2, "h65"]});
  assert.deepEqual(nextOf(NONE, []), NONE);
});

test("pending gestures are undone first, one with each press", () => {
  const put = gestures(["a", "apply"], ["b", "apply"]);
  assert.deepEqual(nextOf({undo: [3, "h65"], redo: [2, "h65"]}, put), {undo: "b", redo: null});
  const once = [...put, ...gestures(["c", "undo"])];
  assert.deepEqual(nextOf(NONE, once), {undo: "a", redo: "c"});
  const twice = [...once, ...gestures(["d", "undo"])];
  assert.deepEqual(nextOf(NONE, twice), {undo: null, redo: "d"});
  assert.deepEqual(nextOf({undo: [3, "h65"], redo: null}, twice), {undo: [3, "h65"], redo: "d"});
  const again = [...twice, ...gestures(["e", "redo"])];
  assert.deepEqual(nextOf(NONE, again), {undo: "e", redo: "c"});
});

test("if only the server knows what comes next, the page waits for its answer", () => {
  assert.equal(nextOf({undo: [3, "h65"], redo: null}, gestures(["a", "undo"])).undo, undefined);
  assert.equal(nextOf({undo: [3, "h65"], redo: null}, gestures(["a", "undo"])).redo, "a");
  assert.equal(nextOf({undo: null, redo: [2, "h65"]}, gestures(["a", "redo"])).redo, undefined);
});

test("a pending gesture that is undone is found, and one that is redone is not", () => {
  const undo = (key, undoes) => ({key, does: "undo", undoes});
  const pending = [...gestures(["a", "apply"], ["b", "apply"]), undo("c", "b"), undo("d", "a")];
  const gone = (list) => ["a", "b", "c", "d", "e"].filter((key) => findUndone(list).has(key));
  assert.deepEqual(gone(pending.slice(0, 2)), []);
  assert.deepEqual(gone(pending), ["a", "b"]);
  assert.deepEqual(gone([...pending, {key: "e", does: "redo", undoes: "d"}]), ["b", "d"]);
});

/** Return a tab's storage; a full one stores nothing. */
function storage(isFull = false) {
  const items = new Map();
  const setItem = (name, text) => {
    if (isFull) throw new Error("full");
    items.set(name, text);
  };
  return {getItem: (name) => items.get(name) ?? null, setItem};
}

test("pending gestures are stored in their order until none is pending", () => {
  const there = storage();
  const pending = new Map([["k2", {note: "two", does: "apply"}], ["k1", {note: "one", does: "undo"}]]);
  assert.ok(storePending(there, "seat1", pending));
  assert.deepEqual(loadPending(there), {at: "seat1", gestures: [...pending]});
  storePending(there, "seat1", new Map());
  assert.deepEqual(loadPending(there), {at: "seat1", gestures: []});
});

test("what an older page stored is read: its shape is not drawn, and its gestures have their present names", () => {
  const there = storage();
  const shape = {kind: "block", first: 1, last: 1, from: 0, to: null, value: 1};
  storePending(there, "seat1", new Map([["k1", {shape: ["block", 1, 1, 0, null, 1], does: "lay"}], ["k2", {shape, does: "redo"}]]));
  assert.deepEqual(loadPending(there).gestures, [["k1", {shape: null, does: "apply"}], ["k2", {shape, does: "redo"}]]);
});

test("a tab knows when storing failed or nothing can be read", () => {
  assert.ok(!storePending(storage(true), "seat1", new Map([["k", {}]])));
  assert.ok(!storePending(storage(true), "seat1", new Map()));
  const broken = storage();
  broken.setItem("pending", "{");
  assert.deepEqual(loadPending(broken), {at: "", gestures: []});
});

test("rubbish in the browser's storage is ignored", () => {
  const kept = new Map();
  globalThis.localStorage = {getItem: (name) => kept.get(name) ?? null, setItem: (name, text) => kept.set(name, text)};
  for (const text of ["[null]", "null", "7", "{", "[[]]", '[{"seat":"1","key":"k"}]', '[{"seat":1}]', '[{"seat":1,"key":"k","chosen":7}]',
                      '[{"seat":1,"key":"k","chosen":[null]}]', '{"0":{"seat":1,"key":"k"}}']) {
    kept.set("seats", text);
    assert.deepEqual([loadSeats(), loadChosen({seat: 1, key: "k"})], [[], []], text);
  }
  kept.set("seats", '[null,{"seat":2,"key":"l","chosen":["own"]},[]]');
  storeSeat({seat: 1, key: "k"}, ["own", "shared"]);
  assert.deepEqual(loadSeats(), [{seat: 2, key: "l", chosen: ["own"]}, {seat: 1, key: "k", chosen: ["own", "shared"]}]);
  assert.deepEqual(loadChosen({seat: 1, key: "k"}), ["own", "shared"]);
  delete globalThis.localStorage;
  for (const text of ["null", "[null]", '{"at":7,"acts":7}', '{"acts":[null,7,["k"],["k",null],[7,{}]]}', "{"]) {
    assert.deepEqual(loadPending({getItem: () => text}), {at: "", gestures: []}, text);
  }
});
