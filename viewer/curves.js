"use strict";
// The curves below the pictures, their table and their CSV: flow and mean speed from the counts of
// a detector, and density from the rows; or all three for a stretch, from the rows alone.

/** Return the counts of the chosen detector, or in a different plan those of the detector at the
 * same place. */
const allCounts = (which) =>
  shown.runs[which]?.counts.get(detectorOf(which, Number(page.detector.value))) ?? [];
const countsShown = (which) => equalSpans(allCounts(which));
const byRows = () => page.detector.value === "stretch";

/** Return the cells of the stretch, the end excluded, and the steps per point, from the fields. By
 * default these are the road before its deleted zone, and a round number of steps. */
function stretchOf(picture, plan) {
  const field = (name, factor) =>
    (page[name].value === "" ? null : Math.round(Number(page[name].value) / factor));
  const round = Math.ceil(niceAbove(picture.rows.length / 40));
  const end = picture.length - (plan?.exit ?? 0);
  const within = (cell) => Math.max(0, Math.min(cell, end));
  const from = within(field("stretchFrom", unit.place) ?? 0);
  return {cells: [from, Math.max(from, within(field("stretchTo", unit.place) ?? end))],
          span: Math.max(1, field("span", unit.time) ?? round)};
}

/** Return the points of a picture's curves, each with its steps, flow, speed and density. */
function measurePoints(which) {
  const picture = shown.pictures[which];
  if (byRows()) return (picture ? edieSpans(picture, stretchOf(picture, shown.plans[which])) : []);
  return countsShown(which).map(({from, to, cars, speeds}) =>
    ({from, to, flow: cars / (to - from), speed: cars ? speeds / cars : null,
      density: meanDensity(picture, from, to)}));
}

function drawCharts() {
  const lists = [0, 1].map(measurePoints);
  const points = (list, name) => list.filter((one) => one[name] !== null)
    .map((one) => [(one.from + one.to) / 2, one[name] * unit[name]]);
  const rows = shown.pictures.map((picture) => (picture?.cars ?? []).map((cars, index) =>
    [picture.from + index, cars / picture.length * unit.density]));
  const seen = shown.pictures.some(Boolean) ? stepsShown() : [];
  const ends = [...lists.flat().flatMap(({from, to}) => [from, to]), ...seen];
  const range = ends.length ? [Math.min(...ends), Math.max(...ends)] : [0, 1];
  const titles = {flow: "flow", ...measuredWhere()};
  ["flow", "speed", "density"].forEach((name, index) => {
    const both = name === "density" && !byRows() ? rows : lists.map((list) => points(list, name));
    const title = `${titles[name]}, ${unit.names[name]}`;
    const series = both.map((list, which) => ({points: list, ...SERIES[which]}));
    drawChart(charts[index], {title, series, range, unit});
  });
  writeTable(lists);
  showCountNote(lists);
}

function showCountNote(lists) {
  page.stretch.hidden = !byRows();
  page.placeUnit.textContent = unit.given ? "km" : "cells";
  page.timeUnit.textContent = unit.given ? "min" : "steps";
  const picture = shown.pictures.find(Boolean);
  if (byRows()) {
    const {cells, span} = stretchOf(picture, shown.plans[shown.pictures.indexOf(picture)]);
    page.stretchFrom.placeholder = long(cells[0] * unit.place);
    page.stretchTo.placeholder = long(cells[1] * unit.place);
    page.span.placeholder = long(span * unit.time);
  }
  const leftOut = [0, 1].flatMap(allCounts).length - lists.flat().length;
  page.countNote.textContent = !lists.flat().length
    ? "There are no counts and no complete rows here."
    : "First picture: dots with solid lines. Second: squares with dashed lines." +
      (!byRows() && leftOut
        ? ` Counts over intervals of a different length are left out: ${leftOut}.` : "") +
      (byRows() ? " The speed is the space-mean speed." : "");
}

/** Return the place where the curves are measured and the kinds of their speed and density, as
 * texts. The cells of a stretch are those of the first picture. */
function measuredWhere() {
  if (!byRows()) {
    const name = siteName(Number(page.detector.value), shown.plans.find(Boolean));
    return {at: `detector ${name}`, speed: "time-mean speed", density: "density of the whole road"};
  }
  const which = shown.pictures[0] ? 0 : 1;
  const [from, to] = stretchOf(shown.pictures[which], shown.plans[which]).cells;
  const at = unit.given ? `${placeText(from, unit)} to ${placeText(to, unit)} km`
    : `cells ${from} to ${to - 1}`;
  return {at: `stretch, ${at}`, speed: "space-mean speed", density: "density"};
}

/** Return the heads of the table, and for each picture a line of figures per point; an unknown
 * figure is null. */
function tableLines(lists) {
  const {at, speed, density} = measuredWhere();
  const heads = ["picture", `from, ${unit.names.time}`, `to, ${unit.names.time}`,
                 `flow (${at}), ${unit.names.flow}`, `${speed} (${at}), ${unit.names.speed}`,
                 `${density}, ${unit.names.density}`];
  const lines = lists.map((list, which) => list.map((one) =>
    [which ? "second" : "first", long(one.from * unit.time), long(one.to * unit.time),
     ...["flow", "speed", "density"].map((name) =>
       (one[name] === null ? null : one[name] * unit[name]))]));
  return {heads, lines};
}

function writeTable(lists) {
  const {heads, lines} = tableLines(lists);
  const figure = (value) => (typeof value === "number" ? short(value) : value ?? "\u2013");
  const texts = lines.flatMap((list) => list.slice(0, 500).map((line) => line.map(figure)));
  page.table.replaceChildren(newTable(heads, texts));
}

function newTable(heads, lines) {
  const table = document.createElement("table");
  const addRow = (name, texts) =>
    table.insertRow().append(...texts.map((text) => withText(name, text)));
  addRow("th", heads);
  for (const line of lines) addRow("td", line);
  return table;
}

function saveCsv() {
  const {heads, lines} = tableLines([0, 1].map(measurePoints));
  saveAsCsv(heads, lines.flat(), `${measuredWhere().at.replace(/[ ,]+/g, "-")}.csv`);
}

function saveAsCsv(heads, lines, name) {
  const texts = lines.map((line) =>
    line.map((value) => (typeof value === "number" ? long(value) : value ?? "")).join(","));
  const head = heads.map((text) => `"${text}"`).join(",");
  download(new Blob([[head, ...texts, ""].join("\n")], {type: "text/csv"}), name);
}

function download(blob, name) {
  const link = document.createElement("a");
  link.href = URL.createObjectURL(blob);
  link.download = name;
  link.click();
}

function newChart(name) {
  const figure = document.createElement("figure");
  page.charts.append(figure);
  return newCanvas("chart", `${name} by steps; the table below has the figures`, figure);
}

const charts = ["Flow", "Mean speed", "Density"].map(newChart);
