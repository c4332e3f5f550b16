"use strict";
// The two pictures of the page: what is shown, where the view is, and how it moves.

/** The elements of this page, by their ids. */
const page = Object.fromEntries([...document.querySelectorAll("[id]")].map((one) => [one.id, one]));
const on = (target, name, act, options) => target.addEventListener(name, act, options);

const SCALES = [1 / 32, 1 / 16, 1 / 8, 1 / 4, 1 / 2, 1, 2, 3, 4, 6, 8, 10, 12, 14, 16, 20, 24, 32];

/** What is shown of the first and of the second picture, and of both. `comparison` is null if they
 * are not compared, and `whyNot` says why. `fit` is the function that chose the view, or null after
 * a zoom. */
const shown = {pictures: [null, null], plans: [null, null], runs: [null, null], greatest: 1,
               comparison: null, whyNot: "", many: false, marksHid: false, fit: null, step: 0,
               pointed: null, saved: false};
const view = {cell: 0, step: 0, scale: 8, tall: 8};
const tiles = new Tiles();
let unit = PLAIN;

const picturesShown = () => shown.pictures.filter(Boolean);
const marksShown = () => Boolean(shown.comparison) && page.marks.checked;
const panesShown = () => [0, 1, 2].filter((which) => !panes[which].figure.hidden);

/** Return the picture and the plan of a pane; the third pane has the difference of the second
 * from the first. */
const pictureOf = (which) => shown.pictures[Math.min(which, 1)];
const planOf = (which) => (which < 2 ? shown.plans[which] : shown.plans.find(Boolean));

/** Return the first and last step that are shown. */
function stepsShown() {
  const both = picturesShown();
  if (!both.length) return [0, 0];
  return [Math.min(...both.map((one) => one.from)), Math.max(...both.map(lastStep))];
}

const cellsShown = () => Math.max(1, ...picturesShown().map((one) => one.length));

function withText(name, text) {
  const made = document.createElement(name);
  made.textContent = text;
  return made;
}

// 1. Drawing.

/** Return whether mean speeds are painted. They have no marks, since each car in a slightly
 * different place would be marked. */
const byMeans = () => (page.paint.value === "zoom" ? meansAreSeen(view)
  : page.paint.value === "means");

function paintPane(context, which, part) {
  if (which < 2) paintPicture(context, which, part);
  else {
    paintDifference(context, view, shown.pictures[1], shown.pictures[0], part,
                    {tiles, name: which, greatest: shown.greatest, plan: planOf(which)});
  }
}

function paintPicture(context, which, part) {
  const [picture, other] = which ? [...shown.pictures].reverse() : shown.pictures;
  const kept = {tiles, name: which, greatest: shown.greatest};
  if (byMeans()) {
    paintMeans(context, view, picture, part, kept);
    return;
  }
  paintCells(context, view, picture, part, kept);
  if (marksShown() && sizeOfCell(view) < FRAMES_FROM) {
    paintMarks(context, view, picture, other, part, kept);
  }
  paintClosures(context, view, picture, part, kept);
  drawDetails(context, view, picture, marksShown() ? other : null, part, shown.greatest);
}

function drawDiagram(which, {context, width, height}) {
  const part = inView(view, pictureOf(which), width, height);
  clip(context, MARGIN.top, width, height - MARGIN.top - MARGIN.bottom);
  context.fillStyle = shown.saved ? EMPTY : NO_ROW;
  context.fillRect(0, 0, width, height);
  paintPane(context, which, part);
  if (shown.pointed) drawFrame(context, view, shown.pointed.step, shown.pointed.cell);
  context.restore();
  drawAxes(context, view, part, unit);
  drawPlan(context, view, planOf(which), width);
  drawWedge(context, view, shown.step, INK, height);
  const first = shown.comparison?.step ?? null;
  if (first !== null) drawWedge(context, view, first, DIFFERS, height);
}

/** Draw the road at the step of the slider, below the cells of the diagram. */
function drawRoad(which, {context, width}) {
  const picture = shown.pictures[which];
  pen(context, "right");
  context.fillText(momentText(shown.step, unit), MARGIN.left - 11, 17);
  drawStrip(context, view, rowAt(picture, shown.step), inView(view, picture, width, 100), width,
            {greatest: shown.greatest, figures: !unit.given});
}

function legendEntries() {
  const blocked = {text: "blocked", colour: BLOCKED, cross: true};
  const noRow = shown.saved ? [] : [{text: "no row", colour: NO_ROW}];
  const ofPlan = shown.plans.some(Boolean) ? PLAN_ENTRIES : [];
  if (panesShown().includes(2)) {
    return ["the second picture is:", ...DIFFERENCE_ENTRIES, blocked, ...noRow, ...ofPlan];
  }
  const [title, ...speeds] = speedEntries(shown.greatest, unit);
  return [byMeans() ? `mean ${title}` : title, ...speeds, blocked,
          {text: "empty", colour: EMPTY}, ...noRow, {text: "differs", colour: EMPTY, frame: true},
          ...ofPlan];
}

function drawAll() {
  for (const which of panesShown()) {
    drawDiagram(which, cleared(panes[which].diagram));
    if (which < 2) drawRoad(which, cleared(panes[which].strip));
  }
  drawLegend(cleared(page.legend).context, MARGIN.left, legendEntries());
}

let drawingAsked = false;
function askDrawing() {
  if (drawingAsked) return;
  drawingAsked = true;
  requestAnimationFrame(() => {
    drawingAsked = false;
    drawAll();
  });
}

// 2. The view.

function plotSize() {
  const {diagram} = panes[panesShown()[0] ?? 0];
  return [diagram.clientWidth - MARGIN.left - MARGIN.right,
          diagram.clientHeight - MARGIN.top - MARGIN.bottom];
}

/** Return how many cells and steps the plot has room for. */
function roomOfPlot() {
  const [width, height] = plotSize();
  return [width / view.scale, height / view.tall];
}

/** Keep the view on the picture, and on whole pixels. */
function settle() {
  const [width, height] = roomOfPlot();
  const [from, to] = stepsShown();
  const within = (at, low, high) => Math.max(low, Math.min(at, Math.max(low, high)));
  const onPixel = (at, scale) => Math.round(at * scale) / scale;
  view.cell = onPixel(within(view.cell, 0, cellsShown() - width), view.scale);
  view.step = onPixel(within(view.step, from, to + 1 - height), view.tall);
  askDrawing();
}

/** Return the scales that make the whole picture fill its box: of a cell's width, of a row's
 * height. */
function fillingScales() {
  const [width, height] = plotSize();
  const [from, to] = stepsShown();
  return [width / cellsShown(), height / (to - from + 1)];
}

/** Show the whole picture: with square cells of 1 to 20 pixels, or filling its box if it is too
 * long for these. */
function showSquare() {
  const filling = fillingScales();
  const most = Math.min(...filling, 20);
  const square = SCALES.findLast((one) => one <= most);
  const [scale, tall] = most < 1 ? filling : [square, square];
  Object.assign(view, {cell: 0, step: stepsShown()[0], scale, tall});
  shown.fit = showSquare;
  settle();
}

/** Show the whole picture, so that it fills its box. */
function showWhole() {
  const [scale, tall] = fillingScales();
  Object.assign(view, {cell: 0, step: stepsShown()[0], scale, tall});
  shown.fit = showWhole;
  settle();
}

/** Show the same part in a box of a different size. */
const fitAgain = () => (shown.fit ?? settle)();

/** Return the next larger or smaller scale. */
const nextScale = (scale, greater) => (greater ? SCALES.find((one) => one > scale * 1.001)
  : SCALES.findLast((one) => one < scale * 0.999)) ?? scale;

/** Zoom in or out about a place of the plot: the width of cells, the height of rows, or both. */
function zoom(closer, x, y, side = "both") {
  const [width, height] = plotSize();
  const [right, down] = [x ?? width / 2, y ?? height / 2];
  const scale = side === "height" ? view.scale : nextScale(view.scale, closer);
  const tall = side === "width" ? view.tall : nextScale(view.tall, closer);
  view.cell += right / view.scale - right / scale;
  view.step += down / view.tall - down / tall;
  Object.assign(view, {scale, tall});
  shown.fit = null;
  settle();
}

function move(cells, steps) {
  if (shown.fit === showSquare) shown.fit = null;
  view.cell += cells;
  view.step += steps;
  settle();
}

// 3. What is pointed at, and the slider's step.

function setSlider() {
  const [from, to] = stepsShown();
  Object.assign(page.step, {min: from, max: to});
  setStep(Math.min(to, Math.max(from, shown.step)));
}

function setStep(step) {
  shown.step = step;
  page.step.value = step;
  page.stepNumber.textContent = momentText(step, unit) + (unit.given ? " min" : "");
  askDrawing();
}

function describeCell(picture, {step, cell}) {
  const sign = rowAt(picture, step)?.[cell];
  if (sign === undefined) return "no row";
  if (sign === "#") return "blocked";
  if (sign === ".") return "empty";
  return unit.given ? `car at ${long(sign * unit.speed)} km/h` : `car at speed ${sign}`;
}

function point(step, cell, byKey) {
  const [from, to] = stepsShown();
  shown.pointed = {step: Math.max(from, Math.min(to, step)),
                   cell: Math.max(0, Math.min(cellsShown() - 1, cell))};
  const texts = picturesShown().map((picture) => describeCell(picture, shown.pointed));
  page.readout.setAttribute("aria-live", byKey ? "polite" : "off");
  const said = texts.length === 2 ? `first ${texts[0]}, second ${texts[1]}` : texts[0] ?? "no row";
  const {step: at, cell: place} = shown.pointed;
  const where = `Step ${stepText(at)}, cell ${cellText(place)}`;
  page.readout.textContent = `${where}: ${said}`;
  askDrawing();
}

function movePointed(cells, steps) {
  const at = shown.pointed ?? {step: Math.ceil(view.step), cell: Math.ceil(view.cell)};
  point(at.step + steps, at.cell + cells, true);
  const [width, height] = roomOfPlot();
  const {step, cell} = shown.pointed;
  if (cell < view.cell || cell >= view.cell + width) view.cell = cell - width / 2;
  if (step < view.step || step >= view.step + height) view.step = step - height / 2;
  settle();
}

// 4. Keys and mouse.

const ARROWS = {ArrowLeft: [-1, 0], ArrowRight: [1, 0], ArrowUp: [0, -1], ArrowDown: [0, 1]};

function onKey(event) {
  if (event.ctrlKey || event.altKey || event.metaKey) return;
  const [width, height] = roomOfPlot();
  const [from, to] = stepsShown();
  const arrow = ARROWS[event.key];
  const acts = {
    "+": () => zoom(true), "=": () => zoom(true), "-": () => zoom(false), f: showWhole,
    PageUp: () => move(0, -height), PageDown: () => move(0, height),
    Home: () => move(0, from - view.step), End: () => move(0, to - view.step),
    d: () => page.marks.click(),
  };
  if (arrow) {
    acts[event.key] = event.shiftKey ? () => movePointed(...arrow)
      : () => move(arrow[0] * width / 10, arrow[1] * height / 10);
  }
  const act = acts[event.key.length === 1 ? event.key.toLowerCase() : event.key];
  if (!act) return;
  event.preventDefault();
  act();
}

function listenTo(diagram) {
  let dragged = null;
  let turned = 0;
  on(diagram, "pointerdown", (event) => {
    dragged = [event.clientX, event.clientY];
    diagram.setPointerCapture(event.pointerId);
  });
  on(diagram, "pointerup", () => { dragged = null; });
  on(diagram, "pointercancel", () => { dragged = null; });
  on(diagram, "pointermove", (event) => {
    if (dragged) {
      move((dragged[0] - event.clientX) / view.scale, (dragged[1] - event.clientY) / view.tall);
      dragged = [event.clientX, event.clientY];
    }
    point(Math.floor(stepAt(view, event.offsetY)), Math.floor(cellAt(view, event.offsetX)), false);
  });
  on(diagram, "wheel", (event) => {
    event.preventDefault();
    turned += (event.deltaY || event.deltaX) * (event.deltaMode ? 40 : 1);
    if (Math.abs(turned) < 50) return;
    const side = event.shiftKey ? "width" : event.altKey ? "height" : "both";
    zoom(turned < 0, event.offsetX - MARGIN.left, event.offsetY - MARGIN.top, side);
    turned = 0;
  }, {passive: false});
  on(diagram, "keydown", onKey);
}

function newCanvas(className, label, figure) {
  const canvas = document.createElement("canvas");
  Object.assign(canvas, {className, role: "img", ariaLabel: label});
  figure.append(canvas);
  return canvas;
}

function newPane() {
  const figure = document.createElement("figure");
  const caption = withText("figcaption", "");
  const edits = document.createElement("ul");
  edits.className = "edits";
  figure.append(caption, edits);
  page.panes.append(figure);
  const diagram = newCanvas("diagram", "Space-time diagram", figure);
  diagram.tabIndex = 0;
  listenTo(diagram);
  const strip = newCanvas("strip", "The road at the slider's step", figure);
  return {figure, caption, edits, diagram, strip};
}

const panes = [newPane(), newPane(), newPane()];
panes[2].strip.hidden = true;

// 5. Playing at a multiple of real time. Without units a step is a second.

let playing = 0;
let playedFrom = {step: 0, at: 0};

/** Return the step that is shown some milliseconds after a given step. After the last step playing
 * begins again. */
function stepAfter(step, milliseconds, rate, [from, to]) {
  const steps = Math.floor(milliseconds / 1000 * rate / (unit.given ? 60 * unit.time : 1));
  return from + (step - from + steps) % (to - from + 1);
}

function playFromHere() {
  playedFrom = {step: shown.step, at: performance.now()};
}

function play() {
  page.play.textContent = playing ? "Play" : "Stop";
  clearInterval(playing);
  if (playing) {
    playing = 0;
    return;
  }
  playFromHere();
  playing = setInterval(() => {
    const passed = performance.now() - playedFrom.at;
    setStep(stepAfter(playedFrom.step, passed, Number(page.rate.value), stepsShown()));
  }, 40);
}
