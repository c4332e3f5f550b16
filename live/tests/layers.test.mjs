// Changes, which of their parts are in force, and what the lists say about them. The lines are written as the server would send
// them.

import assert from "node:assert/strict";
import {readFileSync} from "node:fs";
import {test} from "node:test";

import {untaken, unshared} from "../page/changes.mjs";
import {decodeChange, decodeList} from "../page/decoding.mjs";
import {Layers, countTrapped, isInForce, lostOf, privateOf} from "../page/layers.mjs";
import {Words, affectedBy, historyOf, isPlanned, listChanges} from "../page/changetexts.mjs";
import {byStamp} from "../page/stamps.mjs";
import {store} from "../page/store.mjs";

const PLAN = {...JSON.parse(readFileSync(new URL("../plan.json", import.meta.url), "utf8")), origin: 0};
const [ADA, BEN] = [1, 2];    // seats

/** Return the stamp of an operation of a seat; here the hash says which one. */
const stamp = (count, seat) => [count, `of ${seat}`];

/** Return a line with one put, which is shared unless `more` says otherwise; `parts` are [from, to, by]. */
function line(name, who, shape, parts, more = {}) {
  const [kind, first, last, , , value] = shape;
  const put = {stamp: name, who, note: "put", when: 0, does: "put", shared: true, lost: null};
  return {name, shape, kind, who, note: "put", when: 0, standing: true, shared: true,
          shown: parts.map(([from, to, by]) => [kind, first, last, from, to, value, by]),
          operations: [put], ...more};
}

const AS = ["limit", 4, 5, 1200, 2400, 2];
const BS = ["limit", 4, 5, 1500, 1800, 3];
const ada = (parts, more) => line(stamp(1, ADA), "Ada", AS, parts, more);
const ben = (parts, more) => line(stamp(2, BEN), "Ben", BS, parts, more);

const nameOf = (count, seat) => ({count, hash: `of ${seat}`});

const seatOf = ([, hash]) => Number(hash.slice(3));

/** Return a line that says which seats made it and its operations. */
const withSeats = (one) => ({...one, seat: seatOf(one.name),
  operations: one.operations.map((done) => ({...done, seat: seatOf(done.stamp)}))});

function road(...lines) {
  const layers = new Layers(PLAN);
  layers.update(decodeList({layers: lines.map(withSeats), next: 7, undo: stamp(2, BEN), redo: null}));
  return layers;
}

const COVERED = [[1200, 1500, null], [1500, 1800, stamp(2, BEN)], [1800, 2400, null]];

test("what is in force has frames and values; what is covered has none", () => {
  const layers = road(ada(COVERED), ben([[1500, 1800, null]]));
  assert.deepEqual(layers.frames.map(({from, to, value, by}) => [from, to, value, by.who]),
                   [[1200, 1500, 2, "Ada"], [1800, 2400, 2, "Ada"], [1500, 1800, 3, "Ben"]]);
  assert.deepEqual([1199, 1200, 1499, 1500, 1799, 1800, 2399, 2400].map((step) =>
    layers.valueAt("limit", 4, step)), [5, 2, 2, 3, 3, 2, 2, 5]);
  assert.equal(layers.valueAt("limit", 6, 1300), 5);
  assert.equal(layers.valueAt("block", 4, 1300), 0);
  assert.equal(layers.valueAt("start", 4, 1300), null);
});

test("a line is in force where nothing covers it", () => {
  const found = road(ada(COVERED)).find(nameOf(1, ADA));
  assert.deepEqual([1199, 1200, 1499, 1500, 1799, 1800, 2399, 2400].map((step) =>
    isInForce(found, 5, step)), [false, true, true, false, false, true, true, false]);
  assert.deepEqual([3, 4, 5, 6].map((zone) => isInForce(found, zone, 1300)),
                   [false, true, true, false]);
  assert.ok(isInForce(road(ada([[1200, null, null]])).find(nameOf(1, ADA)), 4, 99999));
});

test("a line replaces the one with its name, and a line that is gone leaves the list", () => {
  const layers = road(ada([[1200, 2400, null]]));
  layers.update(decodeList({layers: [ada(COVERED), ben([[1500, 1800, null]])], next: 9, undo: null,
                          redo: null}));
  assert.deepEqual([layers.next, layers.undo, layers.changes.size], [9, null, 2]);
  layers.update(decodeList({layers: [{name: stamp(2, BEN), gone: true}], next: 10}));
  assert.deepEqual([...layers.changes.keys()], ["1.of 1"]);
  const other = layers.with([decodeChange(ben([[1500, 1800, null]]))]);
  assert.equal(other.changes.size, 2);
  assert.equal(layers.changes.size, 1);
});

test("parts that do not fit this road are left out, whatever they are", () => {
  const parts = [["limit", 4, 5, 0, 60, 2, null], ["limit", 4, 99, 0, 60, 2, null],
                 ["speed", 0, 0, 0, 60, 2, null], ["limit", -1, 2, 0, 60, 2, null],
                 ["limit", 5, 4, 0, 60, 2, null], ["limit", 4, 5, 60, 60, 2, null],
                 ["limit", 4, 5, 0, 60, "2", null], ["inflow", 2, 2, 0, null, 9, null], "limit", null];
  const layers = road({...ada([]), shape: ["watch", 9, 9, 0, null, 1], shown: parts});
  const found = layers.find(nameOf(1, ADA));
  const limit = {kind: "limit", first: 4, last: 5, from: 0, to: 60, value: 2, by: null};
  assert.deepEqual(found.shown, [limit]);
  assert.equal(found.shape, null);
  assert.equal(layers.frames.length, 1);
  assert.deepEqual(road({...ada([]), shown: "all"}).frames, []);
});

test("an excluded site has a line, and nothing is drawn for it", () => {
  const layers = road({...ada([]), kind: "site", shape: null, site: "south-00000000", shown: []});
  assert.deepEqual([layers.frames, layers.find(nameOf(1, ADA)).site], [[], "south-00000000"]);
  assert.equal(new Words(layers, ADA).text(layers.find(nameOf(1, ADA))), "Site south-00000000 is excluded");
});

test("a capacity sets a limit and two chances, and a change may cover each of them", () => {
  const capacity = line(stamp(1, ADA), "Ada", ["capacity", 4, 5, 0, null, [900, 2, 9000, 20000]], []);
  capacity.shown = [["limit", 4, 5, 0, null, 2, stamp(2, BEN)], ["slow", 4, 5, 0, null, 9000, null],
                    ["start", 4, 5, 0, null, 20000, null]];
  const covered = (last) => ["capacity", 4, last, 0, null, [900, 2, 9000, 20000], stamp(2, BEN)];
  capacity.covered = [covered(5), covered(99)];  // another site may send what does not fit the road
  const layers = road(capacity, line(stamp(2, BEN), "Ben", ["limit", 4, 5, 0, null, 3], [[0, null, null]]));
  assert.deepEqual(["limit", "slow", "start"].map((kind) => layers.valueAt(kind, 4, 60)), [3, 9000, 20000]);
  const found = layers.find(nameOf(1, ADA));
  assert.deepEqual([found.shape.value, found.shape.limit, found.shape.chances], [900, 2, [9000, 20000]]);
  const words = new Words(layers, ADA);
  assert.equal(words.text(found), "Capacity 900 cars/h: limit 54 km/h, slowing 0.14, 1.5\u20132.25 km, from 0:00:00 on");
  assert.equal(words.cover(found), "The capacity no longer holds: covered 1.5\u20132.25 km, from 0:00:00 on by Ben's limit of 81 km/h.");
  assert.equal(words.parts(found, false), "1.5\u20132.25 km, from 0:00:00 on by Ben's limit of 81 km/h");
  assert.equal(words.parts(found, true), "Slowing 1.5\u20132.25 km, from 0:00:00 on; Slow to start 1.5\u20132.25 km, from 0:00:00 on");
  const whole = {...found, covered: [], shown: found.shown.map((part) => ({...part, by: null}))};
  assert.deepEqual([words.cover(whole), words.parts(whole, true), words.parts(whole, false)],
                   ["", "1.5\u20132.25 km, from 0:00:00 on", ""]);
});

test("a line says where it is in force, and what covers it", () => {
  const layers = road(ada(COVERED), ben([[1500, 1800, null]]));
  const said = (number, name) => new Words(layers, number).cover(layers.find(name));
  assert.equal(said(ADA, nameOf(1, ADA)), "In force 0:20:00\u20130:25:00; covered 0:25:00\u20130:30:00 by "
    + "Ben's limit of 81 km/h; in force 0:30:00\u20130:40:00.");
  assert.match(said(BEN, nameOf(1, ADA)), /by your limit of 81 km\/h/);
  assert.equal(said(ADA, nameOf(2, BEN)), "");
});

test("a line that is wholly covered says so", () => {
  const over = line(stamp(3, BEN), "Ben", ["limit", 0, 15, 0, null, 1], [[0, null, null]]);
  const layers = road(ada([[1200, 2400, stamp(3, BEN)]]), over);
  assert.equal(new Words(layers, ADA).cover(layers.find(nameOf(1, ADA))),
               "Wholly covered by Ben's limit of 27 km/h.");
});

test("places are named if the parts of a line are at different places", () => {
  const shown = [["limit", 4, 4, 1200, 2400, 2, null], ["limit", 5, 5, 1200, 2400, 2, stamp(2, BEN)]];
  const layers = road({...ada([]), shown}, ben([[1500, 1800, null]]));
  assert.equal(new Words(layers, ADA).cover(layers.find(nameOf(1, ADA))),
    "In force 1.5\u20131.875 km, 0:20:00\u20130:40:00; covered 1.875\u20132.25 km, "
    + "0:20:00\u20130:40:00 by Ben's limit of 81 km/h.");
});

test("of many parts only four are listed", () => {
  const parts = Array.from({length: 9}, (_, turn) =>
    [1200 + 60 * turn, 1260 + 60 * turn, turn % 2 ? stamp(2, BEN) : null]);
  const layers = road(ada(parts), ben([[1500, 1800, null]]));
  assert.match(new Words(layers, ADA).cover(layers.find(nameOf(1, ADA))), /; and 5 more\.$/);
});

test("the lists have changes in force and unshared withdrawals, newest first", () => {
  const change = {stamp: stamp(5, ADA), who: "Ada", note: "changed", when: 0, does: "change",
                  shared: false, lost: null};
  const mine = ada([[1200, 2400, null]]);
  mine.operations.push(change);
  const withdrawn = {...ben([]), standing: false, shape: null};
  const lines = listChanges(road(mine, ben([[1500, 1800, null]])), ADA);
  assert.deepEqual(lines.map(({text, state, where}) => [text, state, where]),
    [["54 km/h, 1.5\u20132.25 km, 0:20:00\u20130:40:00", "private", "own"],
     ["81 km/h, 1.5\u20132.25 km, 0:25:00\u20130:30:00", "shared", "held"]]);
  assert.deepEqual(privateOf(mine), [change]);
  assert.deepEqual(listChanges(road(withdrawn), ADA), []);
  withdrawn.operations.push({stamp: stamp(6, ADA), who: "Ada", note: "Withdrew: it", when: 0,
                             does: "withdraw", shared: false, lost: null});
  assert.deepEqual(listChanges(road(withdrawn), ADA).map(({text, where}) => [text, where]),
                   [["Withdrew: it", "own"]]);
});

test("a car in two closures is reported once, with the time when the road opens", () => {
  const lower = line(stamp(1, ADA), "Ada", ["block", 10, 19, 1200, 2400, 1], []);
  const upper = line(stamp(2, BEN), "Ben", ["block", 15, 24, 1800, null, 1], [[1800, null, null]]);
  lower.shown = [["block", 10, 14, 1200, 2400, 1, null], ["block", 15, 19, 1200, 1800, 1, null],
                 ["block", 15, 19, 1800, 2400, 1, stamp(2, BEN)]];
  const layers = road(lower, upper);
  const row = `${".".repeat(8)}0###0#####0####`.padEnd(PLAN.length, ".");    // 8, 12 and 18
  assert.deepEqual(layers.frames.map((frame) => [frame.first, frame.to,
                                                 countTrapped(layers, frame, row)]),
                   [[10, 2400, 1], [15, 1800, 0], [15, null, 1]]);
});

test("a line says who made it, and who else has changed it since", () => {
  const raised = {stamp: stamp(5, BEN), who: "Ben", note: "", when: 0, does: "top", shared: true,
                  lost: null};
  const mine = ada([[1200, 2400, null]]);
  const metas = () => [ADA, BEN].map((number) => listChanges(road(mine), number)[0].meta);
  assert.deepEqual(metas(), ["you", "Ada"]);
  mine.operations.push(raised);
  assert.deepEqual(metas(), ["you; put on top by Ben", "Ada; put on top by you"]);
  mine.operations.push({...raised, stamp: stamp(6, ADA), who: "Ada", does: "change"});
  assert.deepEqual(metas(), ["you", "Ada"]);
});

test("the list names who undid or redid a change, each with its own word", () => {
  const done = {stamp: stamp(5, BEN), who: "Ben", note: "", when: 0, shared: true, lost: null,
                undoes: stamp(1, ADA)};
  const metas = (does) => [ADA, BEN].map((number) => listChanges(road(ada(
    [[1200, 2400, null]], {operations: [ada([]).operations[0], {...done, does}]})), number)[0].meta);
  assert.deepEqual(metas("undo"), ["you; undone by Ben", "Ada; undone by you"]);
  assert.deepEqual(metas("redo"), ["you; redone by Ben", "Ada; redone by you"]);
});

test("an operation has the same time at all seats", () => {
  const when = 1_767_225_600;
  const late = ada([[1200, 2400, null]], {operations: [{...ada([]).operations[0], when}]});
  const [own, others] = [ADA, BEN].map((number) => listChanges(road(late), number)[0].meta);
  assert.equal(own.replace(/^you, /, ""), others.replace(/^Ada, /, ""));
  assert.match(own, /\d:\d\d/);
});

test("the history lists all operations, withdrawals too", () => {
  const withdrawn = {...ben([]), standing: false, shape: null, note: "81 km/h"};
  withdrawn.operations = [...withdrawn.operations,
    {stamp: stamp(6, ADA), who: "Ada", note: "Withdrew: 81 km/h", when: 0, does: "withdraw",
     shared: true, lost: null}];
  const layers = road(ada(COVERED), withdrawn);
  assert.deepEqual(historyOf(layers, ADA).map(({text, meta}) => [text, meta]),
    [["Withdrew: 81 km/h", "you, withdrawn"], ["put", "Ben, put"], ["put", "you, put"]]);
  assert.match(historyOf(layers, ADA)[2].cover, /^In force 0:20:00\u20130:25:00; covered/);
});

test("the list names who won at the same time, until the change is put again", () => {
  const mine = ben([]);
  mine.operations = [...mine.operations,
    {stamp: stamp(5, BEN), who: "Ben", note: "", when: 0, does: "change", shared: true, lost: stamp(5, 3)},
    {stamp: stamp(5, 3), who: "Cleo", note: "", when: 0, does: "withdraw", shared: true, lost: null}];
  Object.assign(mine, {standing: false, shape: null});
  const [one] = listChanges(road(mine), BEN);
  assert.equal(one.lost, "Cleo withdrew it at the same time, and that takes precedence.");
  assert.deepEqual(lostOf(decodeChange(withSeats(mine)), BEN).mine.stamp, nameOf(5, BEN));
  assert.equal(lostOf(decodeChange(withSeats(mine)), ADA), null);
  mine.operations.push({stamp: stamp(6, BEN), who: "Ben", note: "", when: 0, does: "put", shared: true,
                        lost: null});
  assert.equal(lostOf(decodeChange(withSeats(mine)), BEN), null);
});

test("a preview says what would be covered, and what would be in force again", () => {
  const was = [["limit", 4, 5, 1200, 2400, 2, null]];
  const layers = road().with([{...ada(COVERED), was}, {...ben([[1500, 1800, null]]), was: null}]
    .map(withSeats).map(decodeChange));
  const [after, said] = [[...layers.changes.values()], new Words(layers, ADA)];
  assert.deepEqual(affectedBy(after).map((one) => said.effect(one)),
    ["you: 54 km/h, 1.5\u20132.25 km, 0:20:00\u20130:40:00 \u2013 then: in force "
     + "0:20:00\u20130:25:00; covered 0:25:00\u20130:30:00 by Ben's limit of 81 km/h; in force "
     + "0:30:00\u20130:40:00."]);
  const effect = (line) => said.effect(road(line).find(nameOf(line.name[0], seatOf(line.name))));
  assert.match(effect(ada([[1200, 2400, null]])), /then: fully in force\.$/);
  assert.match(effect({...ada([]), standing: false}), /then: withdrawn by you\.$/);
  assert.deepEqual(affectedBy([{...ada([]), shown: was, was}]), []);
});

test("changes to share and changes to take are listed newest first", () => {
  const made = [3, 1, 2].map((count) => line(stamp(count, BEN), "Ben", BS, [[1500, 1800, null]]));
  const own = made.map((one) => ({...one, operations: [{...one.operations[0], shared: false}]}));
  const [mine, shared] = [road(...own), road(...made)];
  const counts = (lines) => lines.map(({name}) => name.count);
  Object.assign(store, {layers: {mine, shared}, changes: listChanges(mine, BEN)});
  assert.deepEqual([counts(unshared()), counts(untaken())], [[3, 2, 1], []]);
  Object.assign(store.layers, {mine: road()});
  assert.deepEqual(counts(untaken()), [3, 2, 1]);
});

test("a change that would have no effect when taken is described as it was, with who won", () => {
  const [put] = ada([]).operations;
  const theirs = {...put, stamp: stamp(5, BEN), who: "Ben", does: "change", lost: stamp(6, ADA), shape: BS};
  const mine = {...put, stamp: stamp(6, ADA), does: "change", shared: false};
  const layers = road(ada(COVERED, {operations: [put, theirs, mine]}));
  const then = layers.find(nameOf(1, ADA));
  const [, ben, own] = then.operations;
  const said = (number, ...fresh) => new Words(layers, number).losing(then, fresh);
  assert.deepEqual(said(ADA, ben), ["81 km/h, 1.5\u20132.25 km, 0:25:00\u20130:30:00",
    "Ben: no effect, you changed it at the same time, and that takes precedence"]);
  assert.match(said(67, ben)[1], /no effect, Ada changed it/);
  assert.deepEqual([said(ADA, own), said(ADA)], [null, null]);
});

test("the demand and the slow-to-start chance of the road's file are planned until somebody changes them", () => {
  const start = {planned: false, shape: {kind: "start", first: 1, last: 15, from: 0, to: null, value: 9000}, who: "road file", when: 0, operations: [{}]};
  assert.ok(isPlanned(start) && isPlanned({...start, shape: null, planned: true}));
  for (const other of [{who: "Ada"}, {when: 1.8e9}, {operations: [{}, {}]}, {shape: null}, {shape: {...start.shape, kind: "slow"}},
                       {shape: {...start.shape, from: 60}}, {shape: {...start.shape, to: 600}}]) {
    assert.ok(!isPlanned({...start, ...other}), JSON.stringify(other));
  }
});

test("what was undone before anybody else had it is not shared", () => {
  const change = decodeChange(withSeats(ada([], {operations: [
    {stamp: stamp(1, ADA), does: "put", shared: true}, {stamp: stamp(2, ADA), does: "change", shared: false, idle: true},
    {stamp: stamp(3, ADA), does: "undo", shared: false, idle: true}, {stamp: stamp(4, ADA), does: "change", shared: false}]})));
  assert.deepEqual(privateOf(change).map(({stamp: {count}}) => count), [4]);
});

test("of two stamps with the same count, the one with the greater hash is the later", () => {
  const stamps = [{count: 2, hash: "b"}, {count: 10, hash: "a"}, {count: 2, hash: "a"}, {count: 2, hash: "Z"}];
  assert.deepEqual(stamps.sort(byStamp).map(({count, hash}) => `${count}${hash}`), ["2Z", "2a", "2b", "10a"]);
  assert.equal(byStamp({count: 2, hash: "a"}, {count: 2, hash: "a"}), 0);
});

test("a list says what Undo passes over, until it says otherwise", () => {
  const layers = road(ada([[1200, 2400, null]]));
  assert.deepEqual(layers.blocked, []);
  layers.update(decodeList({layers: [], next: 8, undo: null, redo: null, blocked: [{stamp: stamp(1, ADA), by: ["Ben"]}]}));
  assert.deepEqual(layers.blocked, [{stamp: nameOf(1, ADA), by: ["Ben"]}]);
  layers.update(decodeList({layers: [], next: 9, undo: null, redo: null}));
  assert.deepEqual(layers.blocked, []);
});
