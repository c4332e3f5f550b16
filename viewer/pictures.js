"use strict";
// Which pictures are shown, their names, and where two of them differ.

const transcripts = [null, null];

/** Return everything that can be shown: the pictures of each run, and runs that have only
 * counts. */
function offers() {
  return transcripts.flatMap((transcript, slot) => (transcript?.runs ?? []).flatMap((run) => {
    const pictures = run.pictures.length ? run.pictures : run.counts.size ? [null] : [];
    return pictures.map((picture) => ({slot, transcript, run, picture}));
  }));
}

/** Return texts in steps or cells, with minutes or km added if there are units. */
const minutes = (step) => String(Number((step * unit.time).toFixed(2)));
const withUnit = (plain, figure, name) => (unit.given ? `${plain} (${figure} ${name})` : plain);
const stepsText = (from, to) =>
  withUnit(`steps ${from} to ${to}`, `${minutes(from)} to ${minutes(to)}`, "min");
const stepText = (step) => withUnit(step, minutes(step), "min");
const cellText = (cell) => withUnit(cell, placeText(cell, unit), "km");
const whereText = (cell) => (unit.given ? `km ${placeText(cell, unit)}` : `cell ${cell}`);

/** Return the name of a picture: its replica, after how many changes, and its steps. */
function labelOf({slot, run, picture}) {
  const steps = picture ? stepsText(picture.from, lastStep(picture)) : "only counts";
  const after = run.changes === 0 ? "before any edit"
    : `after ${run.changes} change${run.changes > 1 ? "s" : ""} (last: ${run.last})`;
  const whose = transcripts[1] ? `${slot ? "second" : "first"} transcript, ` : "";
  return `${whose}${run.at} ${after}: ${steps}`;
}

const rowsOf = (offer) => offer.picture?.rows.length ?? 0;
const rowsShared = (one, other) => !one.picture || !other.picture ? 0
  : Math.min(lastStep(one.picture), lastStep(other.picture))
    - Math.max(one.picture.from, other.picture.from) + 1;

/** Return the last element of a list that `better` prefers to those before it; null if the list
 * is empty. */
const bestOf = (list, better) =>
  list.reduce((best, one) => (best && !better(one, best) ? best : one), null);

/** Choose two pictures. With two transcripts these are the longest picture of the first, and of the
 * second transcript the last picture that shares most steps with it. With one transcript they are
 * the first and the last picture of a replica, before and after a change, if they share at least
 * half of the steps of the longest picture; otherwise the longest picture and the last picture. */
function choosePictures(all) {
  const longest = bestOf(all.filter(({slot}) => slot === all[0].slot),
                         (one, best) => rowsOf(one) > rowsOf(best));
  const second = all.filter(({slot}) => slot > longest.slot);
  if (second.length) return [longest, nearest(longest, second)];
  const halves = ([one, other]) => rowsShared(one, other) >= rowsOf(longest) / 2;
  return beforeAndAfter(all.filter((one) => halves([one, longest])), halves)
    ?? [longest, nearest(longest, all.filter((one) => one !== longest && halves([one, longest])))];
}

const nearest = (offer, others) =>
  bestOf(others, (one, best) => rowsShared(offer, one) >= rowsShared(offer, best));

/** Return the first picture of a replica and the last one that shares most steps with it; null
 * if no two pictures share a step. */
function beforeAndAfter(all, halves) {
  const first = new Map();
  const pairs = all.flatMap((after) => {
    const before = first.get(after.run.at);
    if (!before) first.set(after.run.at, after);
    return before && halves([before, after]) ? [[before, after]] : [];
  });
  return bestOf(pairs, (one, best) => rowsShared(...one) >= rowsShared(...best));
}

function offerPictures() {
  const all = offers();
  choosePictures(all).forEach((offer, which) => {
    const select = page["picture" + which];
    offerIn(select, optionsOf(which));
    select.value = all.indexOf(offer);
  });
  for (const name of SITES) page[name].replaceChildren();   // (they may be of a different road)
  showPictures();
}

function optionsOf(which) {
  const options = offers().map((offer, index) => new Option(labelOf(offer), index));
  return which ? [new Option("none", -1), ...options] : options;
}

/** Offer choices in a select element, which keeps its choice if it can. If the values are the same,
 * only the names are replaced, because the element may be open. */
function offerIn(select, options, wanted) {
  const values = (list) => [...list].map(({value}) => value).join("\n");
  if (values(select.options) === values(options)) {
    options.forEach(({text}, index) => { select.options[index].text = text; });
    return;
  }
  const before = select.value;
  select.replaceChildren(...options);
  const has = (value) => options.some((option) => option.value === value);
  if (has(before)) select.value = before;
  else if (has(wanted)) select.value = wanted;
}

const pickedOffers = () => {
  const all = offers();
  return [0, 1].map((which) => all[Number(page["picture" + which].value)] ?? null);
};

/** Return the end of the colour scale of speeds. */
function setScale() {
  shown.greatest = scaleEnd(Math.max(0, ...picturesShown().map(({greatest}) => greatest)), unit);
  tiles.clear();
}

function showPictures() {
  const offered = pickedOffers();
  shown.pictures = offered.map((offer) => offer?.picture ?? null);
  shown.runs = offered.map((offer) => offer?.run ?? null);
  picturesShown().filter((picture) => !picture.cars).forEach(survey);
  setScale();
  shown.pointed = null;
  shown.plans = offered.map((offer) => offer?.transcript.plan ?? null);
  shown.whyNot = whyNotCompared();
  shown.comparison = shown.whyNot === null ? comparePictures(...shown.pictures) : null;
  tiles.clear();
  layPanes();
  setSlider();
  if (shown.fit === showWhole) showWhole();
  else showSquare();
  markWhereSeen();
  refreshTexts();
}

/** Rewrite everything that shows figures in units. */
function refreshTexts() {
  for (const which of [0, 1]) offerIn(page["picture" + which], optionsOf(which));
  namePanes();
  page.difference.textContent = comparisonSentence();
  offerDetectors();
  offerSites();
  drawCharts();
  drawSpent();
  askDrawing();
}

/** Return why two pictures are not compared: a sentence, or "" if there are not two. Return null if
 * they are compared. */
function whyNotCompared() {
  const [one, other] = shown.pictures;
  if (!one || !other) return "";
  const part = findDifferentPart(...shown.plans);
  if (part) return `Not compared: the ${part} of the two plans differ.`;
  return one.length === other.length ? null
    : "Not compared: the roads have different lengths.";
}

/** Switch marks off if many cells differ and cells are small: marks would cover the picture. */
function markWhereSeen() {
  const {cells, from, to} = shown.comparison ?? {cells: 0, from: 0, to: 0};
  const hide = cells > (to - from + 1) * cellsShown() / 10 && sizeOfCell(view) < FRAMES_FROM;
  if (hide && page.marks.checked) [shown.marksHid, page.marks.checked] = [true, false];
  else if (!hide && shown.marksHid) [shown.marksHid, page.marks.checked] = [false, true];
  shown.many = hide;
}

function comparisonSentence() {
  if (!shown.comparison) return shown.whyNot;
  const {from, to, step, cell, cells} = shown.comparison;
  if (to < from) return "The pictures have no step in common.";
  const all = `in the ${stepsText(from, to)}.`;
  if (step === null) return `No cell differs ${all}`;
  const unmarked = shown.many ? " They are not marked because there are too many:"
    : byMeans() ? " Mean speeds are not marked:" : "";
  const hint = unmarked && `${unmarked} choose "only their difference".`;
  return `First differing step: ${stepText(step)}, there first at cell ${cellText(cell)}. ` +
    `${cells} of ${(to - from + 1) * shown.pictures[0].length} cells differ ${all}${hint}`;
}

/** Lay out the panes: both pictures, or only their difference. */
function layPanes() {
  const alone = page.layout.value === "difference" && shown.comparison;
  const seen = alone ? [2] : [0, 1].filter((which) => shown.pictures[which]);
  panes.forEach(({figure}, which) => { figure.hidden = !seen.includes(which); });
  page.panes.className = `${page.layout.value} ${seen.length === 2 ? "two" : "one"}`;
}

function namePanes() {
  const names = pickedOffers().map((offer) =>
    offer && `${offer.transcript.name}: ${labelOf(offer)}`);
  names.push("The second picture compared with the first: where its cars are slower or faster");
  names.forEach((text, which) => {
    const {caption, diagram} = panes[which];
    caption.textContent = caption.title = text ?? "";
    diagram.ariaLabel = `Space-time diagram. ${text ?? ""}`;
    panes[which].edits.replaceChildren(...editLines(which).map((line) => withText("li", line)));
  });
}

// The edits of a picture, in a short list below its name.

const MOST_EDITS = 6;
const OF_ZONES = {limit: "limit", slow: "slowing", start: "slowing of standing cars"};

/** Return how many changes of a picture the first picture also has: the changes of the same replica
 * before it. */
function changesShared(which) {
  const [one, other] = pickedOffers();
  const same = which === 1 && one && other && one.transcript === other.transcript
    && one.run.at === other.run.at && one.run.changes <= other.run.changes;
  return same ? one.run.changes : 0;
}

/** Return the changes edit by edit. Of imports, which come first, these are the winning edits that
 * are not withdrawals. */
function listOneByOne(made) {
  const winners = new Map();
  for (const edit of made.flatMap(({edits}) => edits ?? [])) {
    const key = `${edit.kind} ${edit.index} ${edit.step}`;
    const [count, number] = winners.get(key)?.stamp ?? [0, 0];
    if ((edit.stamp[0] - count || edit.stamp[1] - number) > 0) winners.set(key, edit);
  }
  return [...[...winners.values()].filter(({put}) => put !== undefined),
          ...made.filter(({edits}) => !edits)];
}

/** Return the last edit of each object and step. An edit and its withdrawal are both left out. */
function dropWithdrawn(edits) {
  const kept = new Map();
  edits.forEach((edit, turn) => {
    const {title, kind, index, step, put} = edit;
    const key = title ? turn : `${kind} ${index} ${step}`;
    if (!kept.delete(key) || put !== undefined) kept.set(key, edit);
  });
  return [...kept.values()];
}

/** Merge edits of neighbouring zones or cells that set the same value from the same step on into
 * one edit, with the index `last`. */
function mergeNeighbours(edits) {
  const found = [];
  const newest = new Map();
  for (const edit of edits) {
    const {kind, index, step, put} = edit;
    const key = `${kind} ${step} ${put}`;
    const before = newest.get(key);
    if (before?.last === index - 1 && (kind in OF_ZONES || kind === "block")) before.last = index;
    else {
      newest.set(key, {...edit, last: index});
      found.push(newest.get(key));
    }
  }
  return found;
}

function putText(kind, put) {
  if (kind === "block") return put ? "closed" : "open";
  if (kind === "watch") return put ? "on" : "off";
  if (kind !== "limit") return String(Number((put / 65536).toPrecision(3)));
  return unit.given ? `${long(put * unit.speed)} km/h` : String(put);
}

/** Return the text of an edit, in km and minutes, or in cells and steps. */
function editText({title, kind, index, last, step, put}, plan) {
  if (title) return title;
  const since = unit.given ? `from ${minutes(step)} min` : `from step ${step}`;
  const what = put === undefined ? "withdrawn" : putText(kind, put);
  const cells = (from, to) => (unit.given ? `km ${placeText(from, unit)} to ${placeText(to, unit)}`
    : `cells ${from} to ${to - 1}`);
  if (kind in OF_ZONES) {
    const where = plan ? cells(index * plan.zone, Math.min((last + 1) * plan.zone, plan.length))
      : `zones ${index} to ${last}`;
    return `${where}: ${OF_ZONES[kind]} ${what} ${since}`;
  }
  if (kind === "block") {
    return `${last > index ? cells(index, last + 1) : whereText(index)}: ${what} ${since}`;
  }
  const [cell] = (kind === "inflow" && plan?.inlets[index]) || [plan?.detectors[index] ?? index];
  return `${whereText(cell)}: ${kind === "inflow" ? "inflow chance" : "detector"} ${what} ${since}`;
}

/** Return what was changed on a picture's road: all changes, or those that the first picture
 * does not have. */
function editLines(which) {
  const offer = pickedOffers()[which];
  if (!offer) return [];
  const shared = changesShared(which);
  const changes = listOneByOne(offer.run.made.slice(shared, offer.run.changes));
  const texts = mergeNeighbours(dropWithdrawn(changes))
    .map((edit) => editText(edit, offer.transcript.plan));
  const more = texts.length - MOST_EDITS;
  const same = `The edits of the first picture${texts.length ? ", and:" : "."}`;
  const head = shared ? [same] : [];
  const none = !shared && !texts.length ? ["No edits: the road is that of the plan."] : [];
  const rest = more > 0 ? [`and ${more} more`] : [];
  return [...head, ...none, ...texts.slice(0, MOST_EDITS), ...rest];
}

/** Return a detector's name: its index, and where it is. */
function siteName(index, plan) {
  const site = plan?.detectors[index];
  if (site === undefined) return String(index);
  return unit.given ? `${index}, at ${placeText(site, unit)} km` : `${index}, before cell ${site}`;
}

/** Return the index, in a picture's plan, of the detector at the place of a detector of the
 * first plan. */
function detectorOf(which, index) {
  const [plan, first] = [shown.plans[which], shown.plans.find(Boolean)];
  const at = (one) => one?.detectors[index];
  return at(plan) === at(first) ? index : plan?.detectors.indexOf(at(first));
}

/** Offer the detectors of the first plan that have counts in a picture. */
function offerDetectors() {
  const plan = shown.plans.find(Boolean);
  const counted = (index) => shown.runs.some((run, which) =>
    run?.counts.has(detectorOf(which, index)));
  const every = plan ? plan.detectors.keys()
    : new Set(shown.runs.flatMap((run) => [...(run?.counts.keys() ?? [])]));
  const options = [...every].sort((one, other) => one - other).filter(counted)
    .map((index) => new Option(siteName(index, plan), index));
  if (picturesShown().length) options.push(new Option("none: a stretch, from its rows", "stretch"));
  offerIn(page.detector, options);
}
