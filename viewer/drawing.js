"use strict";
// Drawing of a road: colours, units, tiles, pictures, axes, plan, legend, charts. This is a classic
// script, because browsers do not load modules from files, and the viewer is opened as a file.
// Modules import the same names from drawing.mjs. It uses no element and no state of a page.
//
// Arguments:
//   picture  {from, every, length, rows}: rows[i] is the row of step from + i * every, undefined
//            if it is missing; length in cells
//   view     {cell, step, scale, tall}: the cell and the step in the upper left corner of the plot;
//            the width of a cell and the height of a step in pixels
//   part     {cells: [a, b], steps: [a, b]}, ends excluded
//   unit     of unitOf: the lengths of a cell and a step
//   plan     the plan line of a script
//   greatest the speed at which the colour scale ends; speeds are in cells a step
//
// Colours    speedColour(speed, greatest)  cellColour(sign, greatest)  inkOn(colour)
//            pixelOf(colour, alpha)  pixelTable(greatest)  meanPixel(part)  signedPixel(part)
// Units      unitOf(metres, seconds, clock)  long(value)  short(value)  momentText(step, unit)
//            placeText(cell, unit)  niceAbove(value)  ticks(from, to, least, unit)
// Picture    lastStep(picture)  rowAt(picture, step)  partOf(picture)
// View       leftOf(view, cell)  topOf(view, step)  cellAt(view, x)  stepAt(view, y)
//            sizeOfCell(view)  inView(view, picture, width, height)  meansAreSeen(view)
//            boxOf(view, pixels, least, every)
// Canvas     cleared(canvas)  clip(context, top, width, height)  pen(context, align, baseline)
// Painting   tiles = new Tiles(); tiles.forget(name, from, to) if rows have changed
//            paintCells(context, view, picture, part, {tiles, name, greatest})
//            paintMarks(context, view, picture, other, part, {tiles, name})
//            paintMeans(context, view, picture, part, {tiles, name, greatest})
//            paintDifference(context, view, picture, other, part, {tiles, name, greatest, plan})
//            paintClosures(context, view, picture, part, {tiles, name})
//            drawDetails(context, view, picture, other, part, greatest)
// Around it  drawAxes(context, view, part, unit)  drawPlan(context, view, plan, width)
//            drawWedge(context, view, step, colour, height)  drawFrame(context, view, step, cell)
//            drawStrip(context, view, row, part, {greatest, figures})
//            drawLegend(context, left, entries)  speedEntries(greatest, unit)  PLAN_ENTRIES
//            DIFFERENCE_ENTRIES
// Charts     drawChart(canvas, {title, series, range, unit}), a series {points, ...SERIES[i]}

// 1. Colours. Speeds go from dark (standing) to light along viridis, which colour-blind readers
// can tell apart; blocked cells are orange with a cross, cells that differ have a magenta frame.

const VIRIDIS = ["440154", "482475", "414487", "355f8d", "2a788e", "21918c", "22a884", "44bf70",
                 "7ad151", "a5db36"];
const EMPTY = "#ffffff";
const BLOCKED = "#e66100";
const DIFFERS = "#d6006c";
const SLOWER = "#d6006c";
const FASTER = "#005ab2";
const NO_ROW = "#dddddd";
const INK = "#1a1a1a";
const OF_PLAN = {detector: "#0072b2", inlet: "#117733", zone: "#999999", "odd zone": "#dddddd",
                 "deleted zone": "#882255"};
const FONT = "13px system-ui, sans-serif";

const bytesOf = (colour) => [1, 3, 5].map((at) => parseInt(colour.slice(at, at + 2), 16));

/** Return the end of the colour scale in cells per step, from the highest speed in the pictures. If
 * a cell per step is 27 km/h, the scale always ends at 135 km/h, as on live's page. */
const FASTEST_COLOUR = 5;
const scaleEnd = (seen, unit) =>
  (unit.given && Math.abs(unit.speed - 27) < 0.01 ? FASTEST_COLOUR : Math.max(1, seen));

/** Return vehicle hours as text, with one decimal, as on live's page. */
const hoursText = (hours) =>
  hours.toLocaleString("en", {minimumFractionDigits: 1, maximumFractionDigits: 1});

/** Return the colour of a speed on a scale that ends at the speed `greatest`. */
const speedColour = (speed, greatest) =>
  "#" + VIRIDIS[Math.round(9 * Math.min(1, speed / greatest))];

/** Return the colour of a character of a row: a digit, a point or #. */
function cellColour(sign, greatest) {
  if (sign === "#") return BLOCKED;
  return sign === "." ? EMPTY : speedColour(Number(sign), greatest);
}

/** Return black or white, whichever is easier to read on a colour. */
function inkOn(colour) {
  const [red, green, blue] = bytesOf(colour);
  return 0.3 * red + 0.59 * green + 0.11 * blue > 140 ? "#000000" : "#ffffff";
}

const pixelOfBytes = ([red, green, blue], alpha = 255) =>
  ((alpha << 24) | (blue << 16) | (green << 8) | red) >>> 0;

/** Return a colour as a pixel of an image's 32 bits. */
const pixelOf = (colour, alpha = 255) => pixelOfBytes(bytesOf(colour), alpha);

/** Return a table of pixels, by the code of a row's character. */
function pixelTable(greatest) {
  const table = new Uint32Array(128);
  for (const sign of "0123456789.#") {
    table[sign.charCodeAt(0)] = pixelOf(cellColour(sign, greatest));
  }
  return table;
}

/** Return a colour between two colours, as bytes. */
const between = (one, other, part) =>
  one.map((byte, index) => Math.round(byte + (other[index] - byte) * part));

const hundredths = (pixelAt) =>
  Uint32Array.from({length: 101}, (_, index) => pixelAt(index / 100));
const rounded = (part) => Math.round(100 * Math.max(0, Math.min(1, part)));

const MEANS = hundredths((part) => {
  const low = Math.min(8, Math.floor(9 * part));
  const [one, other] = [low, low + 1].map((index) => bytesOf("#" + VIRIDIS[index]));
  return pixelOfBytes(between(one, other, 9 * part - low));
});
const SIGNED = [SLOWER, FASTER].map((colour) =>
  hundredths((part) => pixelOfBytes(between(bytesOf(EMPTY), bytesOf(colour), part))));

/** Return the pixel of a mean speed, given as a part of the highest speed, on a smooth viridis
 * scale. */
const meanPixel = (part) => MEANS[rounded(part)];

/** Return the pixel of a difference from -1 (magenta: slower) to 1 (blue: faster); small
 * differences are pale. */
const signedPixel = (part) => SIGNED[part < 0 ? 0 : 1][rounded(Math.abs(part))];

// 2. Units: cells and steps, or km and minutes if the lengths of a cell and a step are given.

const PLAIN = {given: false, clock: false, place: 1, time: 1, flow: 1, speed: 1, density: 1,
               names: {place: "cell", time: "step", flow: "cars a step", speed: "cells a step",
                       density: "cars a cell"}};

/** Return the units of km, minutes, cars an hour, km/h and cars a km, from the metres of a cell and
 * the seconds of a step. With `clock`, times are written as h:mm:ss, or as times of day if `begin`
 * (the time of step 0 in seconds after midnight) is known. Without metres and seconds, the units
 * are cells and steps. A page may add a function `textOf`, which returns the text of the time of a
 * step, and `origin`, the cell at km 0. */
function unitOf(metres, seconds, clock = false, begin = null) {
  if (!(metres > 0 && seconds > 0)) return PLAIN;
  return {given: true, clock, begin, place: metres / 1000, time: seconds / 60, flow: 3600 / seconds,
          speed: 3.6 * metres / seconds, density: 1000 / metres, names: {
            place: "km", time: clock ? "time" : "min", flow: "cars an hour", speed: "km/h",
            density: "cars a km"}};
}

const long = (value) => String(Number(value.toPrecision(6)));
const short = (value) => String(Number(value.toPrecision(3)));

function clockText(minutes, begin) {
  const seconds = Math.round(60 * minutes) + (begin ?? 0);
  const two = (value) => String(value % 60).padStart(2, "0");
  if (begin !== null) {
    const hour = String(Math.floor(seconds / 3600) % 24).padStart(2, "0");
    return `${hour}:${two(Math.floor(seconds / 60))}${seconds % 60 ? `:${two(seconds)}` : ""}`;
  }
  return `${Math.floor(seconds / 3600)}:${two(Math.floor(seconds / 60))}:${two(seconds)}`;
}

/** Return the text of a step and of a cell in a unit, without the name of the unit. */
const momentText = (step, unit) => {
  if (unit.textOf) return unit.textOf(step);
  return unit.clock ? clockText(step * unit.time, unit.begin) : long(step * unit.time);
};
const placeText = (cell, unit) => long(cell * unit.place);

/** Return the next larger round number. */
function niceAbove(value) {
  const power = 10 ** Math.floor(Math.log10(value || 1));
  return power * [1, 2, 3, 4, 6, 8, 10].find((factor) => factor * power >= value * 0.9999);
}

/** Return multiples of a round number that is at least `least`, so that their texts have room.
 * Without units they are whole numbers. */
function ticks(from, to, least, unit) {
  let apart = unit.given ? 0.001 : 1;
  for (let turn = 0; apart < least; turn++) apart *= [2, 2.5, 2][turn % 3];
  return multiples(from, to, apart);
}

function multiples(from, to, apart) {
  const found = [];
  for (let at = Math.ceil(from / apart - 1e-9); at * apart < to; at++) found.push(at * apart);
  return found;
}

const ON_CLOCK = [1, 2, 5, 10, 15, 30, 60, 120, 300, 600, 900, 1800, 3600, 7200, 14400, 36000];

/** Return round times in minutes or, without units, in steps. */
function timeTicks(from, to, least, unit) {
  if (!unit.clock) return ticks(from, to, least, unit);
  const apart = ON_CLOCK.find((seconds) => seconds >= 60 * least) ?? ON_CLOCK.at(-1);
  const begin = (unit.begin ?? 0) / 60;
  return multiples(from + begin, to + begin, apart / 60).map((at) => at - begin);
}

// 3. Pictures and the view.

const MARGIN = {left: 62, top: 48, right: 8, bottom: 6};   // pixels around the plot
const PLAN_HIGH = 8;      // pixels of the strip of detectors, inlets and zones above a picture
const FRAMES_FROM = 5;    // pixels per cell from which on frames and crosses are drawn
const DIGITS_FROM = 12;   // and from which on speeds are written
const BOX = 6;            // pixels of a box whose mean speed is painted
const CLOSURE = 3;        // pixels of a box that is marked if one of its cells is closed

const endOf = (picture) => picture.from + picture.rows.length * picture.every;
const lastStep = (picture) => endOf(picture) - picture.every;

/** Return the row of a step, or of the last recorded step before it. */
const rowAt = (picture, step) =>
  picture?.rows[Math.floor((step - picture.from) / picture.every)];

/** Return all cells and steps of a picture. */
const partOf = (picture) => ({cells: [0, picture.length], steps: [picture.from, endOf(picture)]});

const leftOf = (view, cell) => MARGIN.left + (cell - view.cell) * view.scale;
const topOf = (view, step) => MARGIN.top + (step - view.step) * view.tall;
const cellAt = (view, x) => view.cell + (x - MARGIN.left) / view.scale;
const stepAt = (view, y) => view.step + (y - MARGIN.top) / view.tall;
const sizeOfCell = (view) => Math.min(view.scale, view.tall);

/** Return the part of a picture that a canvas of this size shows. */
function inView(view, picture, width, height) {
  const all = partOf(picture);
  const ends = [cellAt(view, width - MARGIN.right), stepAt(view, height - MARGIN.bottom)];
  return {
    cells: [Math.max(0, Math.floor(view.cell)), Math.min(all.cells[1], Math.ceil(ends[0]))],
    steps: [Math.max(all.steps[0], Math.floor(view.step)),
            Math.min(all.steps[1], Math.ceil(ends[1]))],
  };
}

/** Return whether mean speeds are shown because single cars would be noise: cells share a pixel, or
 * a row is less than 2 pixels high. */
const meansAreSeen = (view) => view.scale < 1 || view.tall < 2;

/** Return a box of about N pixels: `wide` cells and `high` steps, at least `least` of each. */
function boxOf(view, pixels, least = 1, every = 1) {
  const rows = Math.max(least / every, pixels / view.tall / every);
  return {wide: Math.max(least, Math.round(pixels / view.scale)),
          high: every * Math.max(1, Math.round(rows))};
}

// 4. The canvas.

/** Set ink, font and the anchor of texts. */
function pen(context, textAlign, textBaseline = "middle") {
  const ink = {fillStyle: INK, strokeStyle: INK, lineWidth: 1};
  Object.assign(context, {...ink, font: FONT, textAlign, textBaseline});
}

/** Clear a canvas, and give it the screen's resolution. Return {context, width, height}. */
function cleared(canvas) {
  const fine = window.devicePixelRatio;
  const [width, height] = [canvas.clientWidth, canvas.clientHeight];
  const [wide, high] = [Math.round(width * fine), Math.round(height * fine)];
  if (canvas.width !== wide) canvas.width = wide;
  if (canvas.height !== high) canvas.height = high;
  const context = canvas.getContext("2d");
  context.setTransform(fine, 0, 0, fine, 0, 0);
  context.fillStyle = EMPTY;
  context.fillRect(0, 0, width, height);
  return {context, width, height};
}

/** Draw only within the plot, until the context is restored. */
function clip(context, top, width, height) {
  context.save();
  context.beginPath();
  context.rect(MARGIN.left, top, width - MARGIN.left - MARGIN.right, height);
  context.clip();
}

// 5. Tiles. Cells and boxes are painted only once, on tiles with a pixel per cell or box. The
//    visible part is cut out of these tiles and enlarged.

const TILE_ROWS = 256;    // rows of a tile of cells
const TILE_BOXES = 16;    // and rows of boxes of a tile of boxes
const MOST_PIXELS = 1e8;

/** A cache of canvases by the name of what they show and their steps. It has at most `most` pixels;
 * the canvases that were used longest ago make room for new ones. */
class Tiles {
  constructor(most = MOST_PIXELS) {
    Object.assign(this, {most, pixels: 0, kept: new Map()});
  }

  /** Return the tile of a name and kind with the steps `from` to `to - 1`, painted if it is not
   * kept. */
  get(name, kind, from, to, paint) {
    const key = `${name} ${kind} ${from}`;
    const tile = this.kept.get(key) ?? {name, from, to, canvas: paint()};
    this.drop(key);
    this.kept.set(key, tile);
    this.pixels += tile.canvas.width * tile.canvas.height;
    while (this.pixels > this.most && this.kept.size > 1) this.drop(this.kept.keys().next().value);
    return tile.canvas;
  }

  drop(key) {
    const tile = this.kept.get(key);
    if (tile && this.kept.delete(key)) this.pixels -= tile.canvas.width * tile.canvas.height;
  }

  /** Forget the tiles of a name that have one of the steps `from` to `to - 1`. */
  forget(name, from = -Infinity, to = Infinity) {
    for (const [key, tile] of [...this.kept]) {
      if (tile.name === name && tile.from < to && from < tile.to) this.drop(key);
    }
  }

  clear() {
    [...this.kept.keys()].forEach((key) => this.drop(key));
  }
}

/** Return a canvas of pixels; `paint` gets the pixels of each line and its number. */
function newTile(width, height, paint) {
  const canvas = document.createElement("canvas");
  Object.assign(canvas, {width, height});
  const context = canvas.getContext("2d");
  const image = context.createImageData(width, height);
  const pixels = new Uint32Array(image.data.buffer);
  for (let line = 0; line < height; line++) {
    paint(pixels.subarray(line * width, (line + 1) * width), line);
  }
  context.putImageData(image, 0, 0);
  return canvas;
}

/** Draw a part of a picture from tiles of `lines` lines, each for `high` steps of boxes `wide`
 * cells wide. Tiles begin at multiples of their height, so that they do not move as a picture
 * grows. `paintLine` gets the pixels of a line and its first step. */
function drawTiles(context, view, picture, part, {tiles, name, kind}, {wide, high, lines},
                   paintLine) {
  const {cells, steps} = part;
  if (cells[1] <= cells[0] || steps[1] <= steps[0]) return;
  const across = Math.ceil(picture.length / wide);
  const apart = high * lines;
  context.save();
  context.beginPath();
  context.rect(leftOf(view, cells[0]), topOf(view, steps[0]), (cells[1] - cells[0]) * view.scale,
               (steps[1] - steps[0]) * view.tall);
  context.clip();
  for (let from = Math.floor(steps[0] / apart) * apart; from < steps[1]; from += apart) {
    const canvas = tiles.get(name, kind, from, from + apart, () =>
      newTile(across, lines, (pixels, line) => paintLine(pixels, from + line * high)));
    const first = Math.floor(cells[0] / wide);
    const count = Math.ceil(cells[1] / wide) - first;
    const above = Math.max(0, Math.floor((steps[0] - from) / high));
    const below = Math.min(lines, Math.ceil((steps[1] - from) / high));
    context.drawImage(canvas, first, above, count, below - above,
                      leftOf(view, first * wide), topOf(view, from + above * high),
                      count * wide * view.scale, (below - above) * high * view.tall);
  }
  context.restore();
}

/** Paint each cell; if cells share a pixel, their colours mix. */
function paintCells(context, view, picture, part, {tiles, name, greatest}) {
  const table = pixelTable(greatest);
  const every = picture.every;
  context.imageSmoothingEnabled = sizeOfCell(view) < 1;
  const paintRow = (pixels, step) => {
    const row = rowAt(picture, step);
    if (!row) return;
    for (let cell = 0; cell < row.length; cell++) pixels[cell] = table[row.charCodeAt(cell)];
  };
  drawTiles(context, view, picture, part, {tiles, name, kind: "cells"},
            {wide: 1, high: every, lines: TILE_ROWS}, paintRow);
}

/** Paint marks on the cells that differ from another picture. */
function paintMarks(context, view, picture, other, part, {tiles, name}) {
  const mark = pixelOf(DIFFERS, 150);
  context.imageSmoothingEnabled = sizeOfCell(view) < 1;
  const paintRow = (pixels, step) => {
    const row = rowAt(picture, step);
    const otherRow = rowAt(other, step);
    if (!row || !otherRow || row === otherRow) return;
    for (let cell = 0; cell < row.length; cell++) {
      if (row.charCodeAt(cell) !== otherRow.charCodeAt(cell)) pixels[cell] = mark;
    }
  };
  drawTiles(context, view, picture, part, {tiles, name, kind: "marks"},
            {wide: 1, high: picture.every, lines: TILE_ROWS}, paintRow);
}

// 6. Boxes: sums over some cells of some rows.

/** Return the cars, the sums of their speeds and the closed cells of the boxes `wide` cells wide,
 * from the cell `first` on, in the steps `from` to `to - 1`; and the number of rows in these
 * steps. */
function boxSums(picture, from, to, wide, first = 0) {
  const across = Math.ceil((picture.length - first) / wide);
  const [cars, speeds, closed] = [0, 0, 0].map(() => new Uint32Array(across));
  const every = picture.every;
  const end = Math.min(to, endOf(picture));
  let rows = 0;
  for (let step = Math.max(from, picture.from); step < end; step += every) {
    const row = rowAt(picture, step);
    if (!row) continue;
    rows++;
    for (let box = 0, cell = first; box < across; box++) {
      const last = Math.min(picture.length, first + (box + 1) * wide);
      let [carsHere, speedsHere] = [0, 0];
      for (; cell < last; cell++) {
        const code = row.charCodeAt(cell);
        if (code > 46) {
          carsHere++;
          speedsHere += code - 48;
        } else if (code === 35) closed[box]++;
      }
      cars[box] += carsHere;
      speeds[box] += speedsHere;
    }
  }
  return {cars, speeds, closed, rows};
}

/** Paint boxes; `pixelAt` returns a box's pixel from its number and the sums of its line. */
function paintBoxes(context, view, picture, part, {tiles, name, kind}, box, sumsOf, pixelAt) {
  context.imageSmoothingEnabled = false;
  const paintLine = (pixels, step) => {
    const sums = sumsOf(step, step + box.high);
    if (!sums) return;
    for (let index = 0; index < pixels.length; index++) pixels[index] = pixelAt(sums, index);
  };
  drawTiles(context, view, picture, part, {tiles, name, kind: `${kind} ${box.wide} ${box.high}`},
            {...box, lines: TILE_BOXES}, paintLine);
}

/** Paint the mean speeds of boxes of about 6 by 6 pixels. A box without a car is white, and a box
 * with a closed cell orange. */
function paintMeans(context, view, picture, part, {tiles, name, greatest}) {
  const box = boxOf(view, BOX, 1, picture.every);
  const [closed, empty] = [BLOCKED, EMPTY].map((colour) => pixelOf(colour));
  const sumsOf = (from, to) => {
    const sums = boxSums(picture, from, to, box.wide);
    return sums.rows ? sums : null;
  };
  const pixelAt = (sums, index) => {
    if (sums.closed[index]) return closed;
    const cars = sums.cars[index];
    return cars ? meanPixel(sums.speeds[index] / cars / greatest) : empty;
  };
  paintBoxes(context, view, picture, part, {tiles, name, kind: "means"}, box, sumsOf, pixelAt);
}

const LEAST_BOX = 5;      // cells and steps of a box of the difference: one car alone says little
const FULL_AT = 0.8;      // the difference, as a part of the highest speed, with the full colour

/** Return the speed of a free car on a cell: its zone's limit, if the plan is known. */
function freeSpeed(cell, plan, greatest) {
  const limit = plan?.zones[Math.floor(cell / plan.zone)][0] ?? greatest;
  return Math.max(1, Math.min(limit, greatest));
}

/** Paint how much slower (magenta) or faster (blue) cars are than in another picture of the road,
 * over small boxes. A box without a car counts as free traffic, so free cars in different places
 * remain pale. A box with a closed cell in either picture is orange. The plan is optional. */
function paintDifference(context, view, picture, other, part, {tiles, name, greatest, plan}) {
  const box = boxOf(view, BOX, LEAST_BOX, picture.every);
  const closed = pixelOf(BLOCKED);
  const sumsOf = (from, to) => {
    const both = [picture, other].map((one) => boxSums(one, from, to, box.wide));
    return both[0].rows && both[1].rows ? both : null;
  };
  const mean = (sums, index) => (sums.cars[index] ? sums.speeds[index] / sums.cars[index]
    : freeSpeed(index * box.wide, plan, greatest));
  const pixelAt = ([one, two], index) => (one.closed[index] || two.closed[index] ? closed
    : signedPixel((mean(one, index) - mean(two, index)) / greatest / FULL_AT));
  paintBoxes(context, view, picture, part, {tiles, name, kind: "difference"}, box, sumsOf, pixelAt);
}

/** Return which boxes `wide` cells wide have a closed cell in the steps `from` to `to - 1`. */
function closedBoxes(picture, from, to, wide) {
  const closed = new Uint8Array(Math.ceil(picture.length / wide));
  const end = Math.min(to, endOf(picture));
  for (let step = Math.max(from, picture.from); step < end; step += picture.every) {
    const row = rowAt(picture, step);
    let cell = row ? row.indexOf("#") : -1;
    while (cell >= 0) {
      const box = Math.floor(cell / wide);
      closed[box] = 1;
      cell = row.indexOf("#", (box + 1) * wide);
    }
  }
  return closed;
}

/** Mark closed cells with 3 by 3 pixels if cells share a pixel. */
function paintClosures(context, view, picture, part, {tiles, name}) {
  if (sizeOfCell(view) >= 1) return;
  const box = boxOf(view, CLOSURE, 1, picture.every);
  const closed = pixelOf(BLOCKED);
  paintBoxes(context, view, picture, part, {tiles, name, kind: "closures"}, box,
             (from, to) => closedBoxes(picture, from, to, box.wide),
             (boxes, index) => (boxes[index] ? closed : 0));
}

// 7. Details that are drawn only if cells are large: crosses, speeds as digits, frames.

function drawCross(context, left, top, size) {
  context.strokeStyle = "#000000";
  context.lineWidth = Math.max(1, size / 12);
  context.beginPath();
  for (const [from, to] of [[0.3, 0.7], [0.7, 0.3]]) {
    context.moveTo(left + size * from, top + size * 0.3);
    context.lineTo(left + size * to, top + size * 0.7);
  }
  context.stroke();
}

function eachCell(picture, {cells, steps}, take) {
  for (let step = steps[0]; step < steps[1]; step += picture.every) {
    const row = rowAt(picture, step);
    for (let cell = cells[0]; row && cell < cells[1]; cell++) take(row[cell], step, cell);
  }
}

/** Draw crosses in closed cells, speeds if they have room, and frames around the cells that
 * differ from another picture, if there is one. */
function drawDetails(context, view, picture, other, part, greatest) {
  const {scale, tall} = view;
  const size = sizeOfCell(view);
  if (size < FRAMES_FROM) return;
  pen(context, "center");
  context.font = FONT.replace("13", Math.min(24, Math.round(size * 0.75)));
  eachCell(picture, part, (sign, step, cell) => {
    const [left, top] = [leftOf(view, cell), topOf(view, step)];
    if (sign === "#") drawCross(context, left + (scale - size) / 2, top + (tall - size) / 2, size);
    else if (sign !== "." && size >= DIGITS_FROM) {
      context.fillStyle = inkOn(cellColour(sign, greatest));
      context.fillText(sign, left + scale / 2, top + tall / 2 + 1);
    }
    const otherSign = rowAt(other, step)?.[cell];
    if (otherSign === undefined || otherSign === sign) return;
    context.strokeStyle = DIFFERS;
    context.lineWidth = size < 14 ? 1 : 2;
    context.strokeRect(left + 1, top + 1, scale - 2, tall - 2);
  });
}

// 8. Around the plot.

/** Draw the axes: places above the plot, and times at its left. */
function drawAxes(context, view, {cells, steps}, unit, end = Infinity) {
  const inside = unit.given ? 0 : 0.5;   // a number names a cell (its middle) or a place
  const origin = unit.origin ?? 0;
  const top = MARGIN.top - PLAN_HIGH;
  pen(context, "center", "bottom");
  const [left, right] = cells.map((cell) => (cell - origin) * unit.place);
  const least = 60 / view.scale * unit.place;
  const last = (end - origin) * unit.place;
  const isEnd = last <= right * 1.000001;
  const places = ticks(left, right, least, unit).filter((at) => !isEnd || last - at > 0.7 * least);
  for (const at of isEnd ? [...places, last] : places) {
    const middle = leftOf(view, at / unit.place + origin + inside);
    pen(context, at === last ? "right" : "center", "bottom");
    context.fillText(long(at), middle, top - 6);
    context.fillRect(Math.round(middle), top - 5, 1, 5);
  }
  pen(context, "right");
  const [first, until] = steps.map((step) => step * unit.time);
  for (const at of timeTicks(first, until, 26 / view.tall * unit.time, unit)) {
    const middle = topOf(view, at / unit.time + inside);
    context.fillText(momentText(at / unit.time, unit), MARGIN.left - 11, middle + 1);
    context.fillRect(MARGIN.left - 5, Math.round(middle), 5, 1);
  }
  pen(context, "left", "top");
  context.fillText(unit.names.place + " \u2192", MARGIN.left, 3);
  context.fillText(unit.names.time + " \u2193", 4, 3);
}

/** Draw the plan above the plot: zones (alternating shades), the deleted zone, inlets, detectors
 * before their cells. */
function drawPlan(context, view, plan, width) {
  if (!plan) return;
  const top = MARGIN.top - PLAN_HIGH;
  const bar = (colour, from, to) => {
    context.fillStyle = colour;
    context.fillRect(leftOf(view, from), top + 4, leftOf(view, to) - leftOf(view, from), 4);
  };
  clip(context, top, width, PLAN_HIGH);
  for (let zone = 0; zone * plan.zone < plan.length; zone++) {
    bar(OF_PLAN[zone % 2 ? "odd zone" : "zone"], zone * plan.zone,
        Math.min(plan.length, (zone + 1) * plan.zone));
  }
  bar(OF_PLAN["deleted zone"], plan.length - plan.exit, plan.length);
  for (const [cell] of plan.inlets) drawInlet(context, leftOf(view, cell + 0.5), top);
  context.fillStyle = OF_PLAN.detector;
  for (const site of plan.detectors) {
    context.fillRect(Math.round(leftOf(view, site)) - 1, top, 3, PLAN_HIGH);
  }
  context.restore();
}

function drawInlet(context, middle, top) {
  context.fillStyle = OF_PLAN.inlet;
  context.beginPath();
  context.moveTo(middle - 5, top);
  context.lineTo(middle + 5, top);
  context.lineTo(middle, top + PLAN_HIGH);
  context.fill();
}

/** Draw a small wedge at the left of the row of a step, if the row is in the plot. */
function drawWedge(context, view, step, colour, height) {
  const middle = topOf(view, step) + view.tall / 2;
  if (middle < MARGIN.top || middle > height - MARGIN.bottom) return;
  context.fillStyle = colour;
  context.beginPath();
  context.moveTo(MARGIN.left, middle);
  context.lineTo(MARGIN.left - 9, middle - 6);
  context.lineTo(MARGIN.left - 9, middle + 6);
  context.fill();
}

/** Draw a frame around a cell, at least 5 pixels wide and high. */
function drawFrame(context, view, step, cell) {
  const [wide, high] = [Math.max(5, view.scale), Math.max(5, view.tall)];
  Object.assign(context, {strokeStyle: "#000000", lineWidth: 2});
  context.strokeRect(leftOf(view, cell) + (view.scale - wide) / 2,
                     topOf(view, step) + (view.tall - high) / 2, wide, high);
}

const STRIP_HIGH = 34;

/** Draw a row as a road, and with `figures` its speeds as digits, if they have room. */
function drawStrip(context, view, row, {cells}, width, {greatest, figures}) {
  clip(context, 0, width, STRIP_HIGH);
  const [left, right] = cells.map((cell) => leftOf(view, cell));
  context.fillStyle = row ? "#555555" : NO_ROW;
  context.fillRect(left, 2, right - left, 2);
  context.fillRect(left, 30, right - left, 2);
  for (let cell = cells[0]; row && cell < cells[1]; cell++) {
    drawRoadCell(context, view, row[cell], cell, {greatest, figures});
  }
  context.restore();
}

function drawRoadCell(context, view, sign, cell, {greatest, figures}) {
  if (sign === ".") return;
  context.fillStyle = cellColour(sign, greatest);
  context.fillRect(leftOf(view, cell), 6, Math.max(1, view.scale - 1), 22);
  if (view.scale < 10 || !figures) return;
  context.fillStyle = inkOn(context.fillStyle);
  context.textAlign = "center";
  context.fillText(sign, leftOf(view, cell) + view.scale / 2, 18);
}

/** Entries of a legend: texts, and boxes with a text: {text, colour, cross, frame}. */
const PLAN_ENTRIES = Object.entries(OF_PLAN).filter(([text]) => text !== "odd zone")
  .map(([text, colour]) => ({text, colour}));
const DIFFERENCE_ENTRIES = [{text: "slower", colour: SLOWER}, {text: "as fast", colour: EMPTY},
                            {text: "faster", colour: FASTER}];

function speedEntries(greatest, unit) {
  const boxes = Array.from({length: greatest + 1}, (_, speed) =>
    ({text: long(speed * unit.speed), colour: speedColour(speed, greatest)}));
  return [`speed in ${unit.names.speed}:`, ...boxes];
}

/** Draw a legend's entries in a line from `left` on. */
function drawLegend(context, left, entries) {
  let at = left;
  const write = (text) => {
    pen(context, "left");
    context.fillText(text, at, 13);
    at += context.measureText(text).width + 8;
  };
  for (const entry of entries) {
    if (typeof entry === "string") {
      write(entry);
      continue;
    }
    drawLegendBox(context, at, entry);
    at += 22;
    write(entry.text);
  }
}

function drawLegendBox(context, left, {colour, cross, frame}) {
  context.fillStyle = colour;
  context.fillRect(left, 5, 16, 16);
  if (cross) drawCross(context, left, 5, 16);
  Object.assign(context, {strokeStyle: frame ? DIFFERS : "#767676", lineWidth: frame ? 2 : 1});
  context.strokeRect(left + 0.5, 5.5, 15, 15);
}

// 9. Charts.

const SERIES = [{colour: "#0072b2", width: 2, dash: [], square: false},
                {colour: "#b34700", width: 2, dash: [7, 4], square: true}];
const MOST_DOTS = 60;

/** Draw a chart with axes: series of points [step, value], each with a colour, the width and
 * pattern of its line, and squares or dots; the range of steps; a title with the values' unit.
 * If a value is below 0, 0 is halfway up. */
function drawChart(canvas, {title, series, range: [from, to], unit}) {
  const {context, width, height} = cleared(canvas);
  const plot = {left: 56, right: width - 12, top: 24, bottom: height - 40};
  const values = series.flatMap(({points}) => points.map(([, value]) => value));
  const below = values.some((value) => value < 0);
  const most = niceAbove(values.reduce((one, other) => Math.max(one, Math.abs(other)), 0));
  const least = below ? -most : 0;
  const ofStep = (plot.right - plot.left) / Math.max(1, to - from);
  const across = (step) => plot.left + (step - from) * ofStep;
  const down = (value) =>
    plot.bottom - (value - least) / (most - least) * (plot.bottom - plot.top);
  drawValues(context, plot, [least, most], down);
  context.textAlign = "center";
  const [first, last] = [from * unit.time, (to + 1) * unit.time];
  for (const at of timeTicks(first, last, 60 / ofStep * unit.time, unit)) {
    const step = at / unit.time;
    context.fillRect(Math.round(across(step)), plot.bottom, 1, 5);
    context.fillText(momentText(step, unit), across(step), plot.bottom + 14);
  }
  context.fillText(unit.names.time, (plot.left + plot.right) / 2, height - 8);
  context.textAlign = "left";
  context.fillText(title, 4, 9);
  for (const one of series) drawCurve(context, one, across, down);
}

function drawValues(context, plot, [least, most], down) {
  pen(context, "right");
  for (const part of [0, 0.25, 0.5, 0.75, 1]) {
    const value = least + (most - least) * part;
    context.fillText(short(value), plot.left - 6, down(value));
    context.fillStyle = "#cccccc";
    context.fillRect(plot.left, Math.round(down(value)), plot.right - plot.left, 1);
    context.fillStyle = INK;
  }
}

function drawCurve(context, {points, colour, width, dash, square}, across, down) {
  Object.assign(context, {strokeStyle: colour, fillStyle: colour, lineWidth: width});
  context.setLineDash(dash);
  context.beginPath();
  for (const [step, value] of points) context.lineTo(across(step), down(value));
  context.stroke();
  context.setLineDash([]);
  if (points.length > MOST_DOTS) return;
  for (const [step, value] of points) {
    context.beginPath();
    if (square) context.rect(across(step) - 3.5, down(value) - 3.5, 7, 7);
    else context.arc(across(step), down(value), 4, 0, 7);
    context.fill();
  }
}

// 10. For modules: drawing.mjs exports these names.

globalThis.drawing = {
  MARGIN, BOX, FASTEST_COLOUR, EMPTY, BLOCKED, SLOWER, FASTER, NO_ROW, INK, OF_PLAN, speedColour,
  unitOf, rowAt, leftOf, topOf, cellAt, stepAt, sizeOfCell, inView, meansAreSeen, pen, cleared,
  clip, Tiles, boxSums, paintCells, paintMeans, paintClosures, paintDifference, drawDetails,
  drawAxes, drawPlan, drawWedge, drawFrame, drawLegend,
};
