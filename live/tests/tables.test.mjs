// Tables of figures as they are saved.

import assert from "node:assert/strict";
import {test} from "node:test";

import {DayClock} from "../page/dayclock.mjs";
import {decodeDays, decodeFigures, decodeList} from "../page/decoding.mjs";
import {Layers} from "../page/layers.mjs";
import {csvOf, tableOfChanges, tableOfFigures, tableOfTravel} from "../page/tables.mjs";

const PLAN = {length: 400, origin: 0, zone: 50, zones: Array(8).fill([5, 0]), inlets: [[0, 1], [200, 1]], detectors: [50]};
const figure = (key, of, label, unit) => ({key, of, label, unit, title: `${label}, ${unit}`, digits: 1});
const row = (head, before, after, difference, bound = "") => ({figure: head, values: [before, after], differences: [difference], bounds: [bound], words: ""});
const [MINE, PREVIEW] = [["shared", "mine"], ["before", "after"]];
const FIGURES = [row(figure("delay", [null, null], "delay", "vehicle hours"), [null, null], [null, null], [41.50254, null]),
  row(figure("lost at", [1, null], "lost demand of the ramp", "cars"), [29.5, null], [58.5, null], [29, null]),
  row(figure("flow", [null, 0], "km 0.375: cars/h", "cars/h"), [1219, null], [null, null], [null, null])];
const SAID = decodeFigures({from: 0, to: 60, figures: FIGURES, entries: [{}, {}]});

test("a saved table has a title and units, with mine next to the shared road", () => {
  assert.deepEqual(csvOf("the road of Ada, 06:30 to 07:30", tableOfFigures(MINE, SAID)).split("\n"), [
    "# the road of Ada, 06:30 to 07:30", "figure,unit,mine,shared,mine minus shared", "delay,vehicle hours,,,41.5025",
    "lost demand of the ramp,cars,58.5,29.5,29", "km 0.375: cars/h,cars/h,,1219,", ""]);
});

test("a table of a preview has the road before, and the road after", () => {
  const [head, , lost] = tableOfFigures(PREVIEW, SAID);
  assert.deepEqual(head, ["figure", "unit", "before", "after", "after minus before"]);
  assert.deepEqual(lost, ["lost demand of the ramp", "cars", "29.5", "58.5", "29"]);
});

test("figures over many days are saved with their intervals", () => {
  const figures = [row(figure("lost", [null, null], "lost demand", "cars"), [29.75, 2.1], [84.8, 5.9], [55.05, 4.5]),
                   row(figure("travel", [0, null], "travel time from km 0 to the end", "s"), [200, 1], [201, 1], [1, 0.5])];
  assert.deepEqual(tableOfFigures(MINE, decodeDays({days: 20, figures})), [
    ["mean of 20 days", "unit", "mine", "±", "shared", "±", "mine minus shared", "±"],
    ["lost demand", "cars", "84.8", "5.9", "29.75", "2.1", "55.05", "4.5"],
    ["travel time from km 0 to the end", "s", "201", "1", "200", "1", "1", "0.5"]]);
  assert.equal(tableOfFigures(PREVIEW, decodeDays({days: 20, figures}))[1][2], "29.75");
});

test("a comparison that was stopped after one day has no intervals", () => {
  const lost = row(figure("lost", [null, null], "lost demand", "cars"), [30, null], [91, null], [61, null]);
  assert.deepEqual(tableOfFigures(MINE, decodeDays({days: 1, figures: [lost]}))[1],
                   ["lost demand", "cars", "91", "", "30", "", "61", ""]);
});

test("a saved table says how the true figures relate to its own, if they may differ", () => {
  const figures = [row(figure("hours", [null, null], "vehicle hours on the road", "vehicle hours"), [1, null], [2, null], [1, null], "at least"),
                   row(figure("cars", [null, 0], "cars at km 1", "cars"), [3, null], [3, null], [0, null])];
  assert.deepEqual(tableOfFigures(PREVIEW, decodeFigures({from: 0, to: 60, figures, entries: [{}, {}]})), [
    ["figure", "unit", "before", "after", "after minus before", "bound"], ["vehicle hours on the road", "vehicle hours", "1", "2", "1", "at least"],
    ["cars at km 1", "cars", "3", "3", "0", ""]]);
});

test("changes are described as on the page, with the names of people and what covers them", () => {
  const stamp = [5, "h65"];
  const line = (name, who, begin, shown) => ({name, kind: "limit", shape: ["limit", 2, 3, begin, 1800, 2], who, note: "", when: 0,
    height: name, standing: true, shared: true, shown,
    operations: [{stamp: name, who, note: "", when: 0, does: "put", shared: true, undoes: null, lost: null}]});
  const layers = new Layers(PLAN);
  layers.update(decodeList({next: 1, layers: [line([6, "h66"], "=Ben", 900, [["limit", 2, 3, 900, 1800, 2, null]]),
    line(stamp, "Ada", 600, [["limit", 2, 3, 600, 900, 2, null], ["limit", 2, 3, 900, 1800, 2, [6, "h66"]]])]}));
  assert.deepEqual(csvOf("x", tableOfChanges(["mine"], [layers])).split("\n").slice(1), [
    "change,who,what,when,does,shared,in force,covered",
    '1,Ada,"54 km/h, 0.75–1.5 km, 0:10:00–0:30:00",,put,yes,"0.75–1.5 km, 0:10:00–0:15:00",'
      + '"0.75–1.5 km, 0:15:00–0:30:00 by =Ben\'s limit of 54 km/h"',
    '2,\'=Ben,"54 km/h, 0.75–1.5 km, 0:15:00–0:30:00",,put,yes,"0.75–1.5 km, 0:15:00–0:30:00",', ""]);
  const lines = csvOf("x", tableOfChanges(["variant:night", "shared"], [layers, new Layers(PLAN)])).split("\n");
  assert.equal(lines[1], "road,change,who,what,when,does,shared,in force,covered");
  assert.deepEqual(lines.slice(2).map((line) => line.split(",").slice(0, 3).join()), ["“night”,1,Ada", "“night”,2,'=Ben", ""]);
});

test("no cell of a saved table is run as a formula, and numbers stay numbers", () => {
  for (const text of ["=a", "+a", "-a", "@a", " =a", "\t=a"]) assert.ok(csvOf("", [[text]]).includes("'"), text);
  assert.equal(csvOf("", [["-12.5", "a=", '"']]), '# \n-12.5,a=,""""\n');
});

test("travel times are saved by the minute of entry and the place, with the number of cars", () => {
  const said = decodeFigures({from: 120, to: 240, figures: [], entries: [
    {180: [[20, 14.5], [18, 210]], 120: [[10, 15], [0, null]]}, {120: [[9, 17.25], [9, 230]]}]});
  assert.deepEqual(said.entries[0].map(({step}) => step), [120, 180]);
  const day = new DayClock({begin: 6.5 * 3600});
  assert.deepEqual(tableOfTravel(PLAN, MINE, said, day), [
    ["minute of entry", "travel time to", "cars, mine", "travel time (s), mine", "cars, shared", "travel time (s), shared",
     "mine minus shared (s)"],
    ["06:32", "0.375 km", "9", "17.25", "10", "15", "2.25"], ["06:32", "the road's end", "9", "230", "0", "", ""],
    ["06:33", "0.375 km", "0", "", "20", "14.5", ""], ["06:33", "the road's end", "0", "", "18", "210", ""]]);
  assert.equal(tableOfTravel({...PLAN, detectors: [187]}, MINE, said, day)[1][1], "1.4025 km");     // exactly, in all tables
  assert.deepEqual(tableOfTravel(PLAN, PREVIEW, said, day)[1], ["06:32", "0.375 km", "10", "15", "9", "17.25", "2.25"]);
});

test("a table of several roads has a column for each, and each later one minus the first", () => {
  const roads = ["variant:night", "shared", "variant:mine", "file"];
  const hours = {figure: figure("hours", [null, null], "vehicle hours on the road", "vehicle hours"), values: [[10, 1], [12.5, 2], [9, 1], [11, 1]],
                 differences: [[2.5, 0.5], [-1, 2], [1, 1]], bounds: ["", "at least", ""], words: ""};
  assert.deepEqual(tableOfFigures(roads, decodeFigures({from: 0, to: 60, figures: [hours], entries: [{}, {}, {}, {}]})), [
    ["figure", "unit", "“night”", "shared", "“mine”", "file", "shared minus “night”", "“mine” minus “night”", "file minus “night”", "bound “mine”"],
    ["vehicle hours on the road", "vehicle hours", "10", "12.5", "9", "11", "2.5", "-1", "1", "at least"]]);
  assert.deepEqual(tableOfFigures(roads, decodeDays({days: 3, figures: [hours]}))[1].slice(2),
                   ["10", "1", "12.5", "2", "9", "1", "11", "1", "2.5", "0.5", "-1", "2", "1", "1", "at least"]);
  const said = decodeFigures({from: 0, to: 60, figures: [], entries: [{0: [[1, 5], [0, null]]}, {}, {0: [[2, 7.5], [1, 9]]}, {}]});
  const [heads, first] = tableOfTravel(PLAN, roads, said, new DayClock({}));
  assert.deepEqual(heads.slice(-3), ["shared minus “night” (s)", "“mine” minus “night” (s)", "file minus “night” (s)"]);
  assert.deepEqual(first, ["0:00:00", "0.375 km", "1", "5", "0", "", "2", "7.5", "0", "", "", "2.5", ""]);
});
