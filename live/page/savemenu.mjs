// View: the Save menu: the diagram as a picture, a report, what the viewer opens and road_lab runs
// again, and tables for a spreadsheet.

import {EMPTY, drawLegend, pen} from "../../viewer/drawing.mjs";
import {ask, askUntilFree} from "./questions.mjs";
import {comparedAt, comparedNow, daysAsked, daysShown} from "./comparison.mjs";
import {capital, listText, roadText, roadsText} from "./roadnames.mjs";
import {measureDemands} from "./measurements.mjs";
import {withoutCursor} from "./draft.mjs";
import {$, activeIn, closest, download, on} from "./elements.mjs";
import {Words, isPlanned, newestFirst} from "./changetexts.mjs";
import * as messages from "./messages.mjs";
import {drawDiagram, legendEntries} from "./picture.mjs";
import {claimFileName} from "./filenames.mjs";
import {BOTH, isBeside, need, layersOf, now, roadOf, store, tell} from "./store.mjs";
import {csvOf, tableOfChanges, tableOfFigures, tableOfTravel} from "./tables.mjs";
import {METRES_A_CELL, PER_LANE, kmText, plural, rangeText} from "./units.mjs";
import {refreshFixed} from "./variants.mjs";
import {partShown, periodShown} from "./view.mjs";

/** @typedef {import("./layers.mjs").Layers} Layers */
/** @typedef {import("./types.mjs").Refusal} Refusal */
/** @typedef {import("./types.mjs").Span} Span */

const SPAN_OF_COUNTS = 300;     // steps
export const CAPTION_HIGH = 24;        // pixels of a picture that is saved, above the diagram
const LEGEND_HIGH = 28;
const LEGEND_WIDE = 900;

/** Return the road that is shown; if it is a difference, the own road. */
const roadShown = () => (store.whose === "shared" ? "shared" : need("me").at);

/** Return what a road is called in the name of a file. */
const fileRoad = (at = roadShown()) => (at === need("me").at ? need("me").name : at.replace("variant:", ""));

/** Return a name that no other saved file has: of what it is, the road's file, whose road it is, and
 * from when to when.
 * @param {string} what      with an ending
 * @param {string} whose
 * @param {Span} period      steps
 */
function nameFile(what, whose, period) {
  const dot = what.lastIndexOf(".");
  const [stem, ending] = [what.slice(0, dot), what.slice(dot)];
  const times = period.map((step) => store.day.fileText(Math.round(step)));
  const road = need("me").road?.replace(/\.[^.]*$/, "") ?? "";
  const parts = [stem, road, whose, ...times].filter(Boolean).map((part) => part.replace(/[^\p{L}\p{M}\p{N}_]+/gu, "-"));
  return claimFileName(parts.join("-"), ending);
}

/** Save a file under a name that no other saved file has. Return that name.
 * @param {string} what      with an ending
 * @param {BlobPart[]} lines
 * @param {string} type
 * @param {string} [whose]
 * @param {Span} [period]    steps
 */
function saveAs(what, lines, type, whose = fileRoad(), period = periodShown()) {
  const own = nameFile(what, whose, period);
  download(lines, own, type);
  return own;
}

/** Return a caption that says what the diagram shows, for a reader who has only the picture. */
export function captionText() {
  const {name} = need("me");
  const whose = {mine: `The road of ${name}`, shared: "The shared road",
                 both: `The road of ${name} minus the shared one`,
                 beside: `${capital(comparedRoads())}, side by side`}[store.whose];
  const {cells, steps} = partShown();
  const [from, to] = cells.map((cell) => kmText(need("plan"), Math.round(cell)));
  const [begin, end] = steps.map((step) => store.day.timeText(step));
  return `${whose}, ${rangeText(from, to)} km, ${rangeText(begin, end)}`
    + (now() < steps[1] ? `; the clock is at ${store.day.timeText(now())}` : "");
}

/** Return the diagram as shown, without the cursor, between its caption and its legend. */
function diagramWithLegend() {
  withoutCursor(drawDiagram);
  const diagram = $("diagram");
  const fine = window.devicePixelRatio;
  const canvas = document.createElement("canvas");
  canvas.width = Math.max(diagram.width, LEGEND_WIDE * fine);
  canvas.height = diagram.height + (CAPTION_HIGH + LEGEND_HIGH) * fine;
  const context = canvas.getContext("2d");
  if (!context) throw new Error("This browser has no canvas to draw on.");
  context.fillStyle = EMPTY;
  context.fillRect(0, 0, canvas.width, canvas.height);
  context.drawImage(diagram, 0, CAPTION_HIGH * fine);
  context.setTransform(fine, 0, 0, fine, 0, 0);
  pen(context, "left");
  context.fillText(captionText(), 4, CAPTION_HIGH / 2, canvas.width / fine - 8);
  context.translate(0, canvas.height / fine - LEGEND_HIGH);
  drawLegend(context, 4, legendEntries());
  return canvas;
}

/** Save the diagram as shown. */
function savePicture() {
  diagramWithLegend().toBlob((blob) => {
    if (!blob) {
      tell(messages.NO_PICTURE, true);
      return;
    }
    const whose = store.whose === "both" ? `${need("me").name}-minus-shared`
      : store.whose === "beside" ? comparedFile() : fileRoad();
    const name = saveAs("diagram.png", [blob], "image/png", whose);
    tell(messages.savedPicture(name));
  });
}

/** Return the lines that show the road of the period that is shown, each command before its reply;
 * null if something was refused.
 */
async function transcriptLines() {
  tell(messages.SAVING);
  const [at, [from, to]] = [roadShown(), periodShown()];
  /** @type {string[]} */
  const pieces = [];
  /** @type {number | null} */
  let next = 0;
  do {
    /** @type {import("./types.mjs").Answers["transcript"] | Refusal | null} */
    const said = await askUntilFree({transcript: {at, from, to, ...(next ? {next} : {})}});
    if (!said || "refused" in said) return null;
    pieces.push(said.lines);
    next = said.next;
  } while (next !== null);
  return pieces.join("").split("\n").filter(Boolean).map((line) => line + "\n");
}

/** Save commands and replies in turn, as the viewer opens them. */
async function saveTranscript() {
  const lines = await transcriptLines();
  if (!lines) return;
  const name = saveAs("transcript.jsonl", lines, "application/jsonl");
  tell(messages.savedTranscript(name, METRES_A_CELL, need("plan").origin));
}

/** Save the commands of both roads, up to the clock, in a file each; if roads are side by side, of these. */
async function saveScripts() {
  const saved = [];
  for (const {at} of (isBeside() ? store.chosen : BOTH).map(roadOf)) {
    const said = await askUntilFree({script: {at}});
    if (!said || "refused" in said) return;
    saved.push(saveAs("script.jsonl", [said.lines], "application/jsonl", fileRoad(at), [0, said.to]));
  }
  tell(messages.savedScripts(saved, METRES_A_CELL, need("plan").origin, store.day.lead));
}

/** Return the name of the road's file and its date, if they are known, as the end of a title. */
const fileAndDate = () => [need("me").road, need("me").day?.date].filter(Boolean)
  .map((one) => `, ${one}`).join("");

/** Return what the roads that are compared are called in a sentence. */
function comparedRoads() {
  if (store.preview) return "the road before and after";
  const {name} = need("me");
  return isBeside() ? roadsText(store.chosen, name) : `the road of ${name} and the shared one`;
}

/** Return what the roads that are compared are called in the name of a file. */
function comparedFile() {
  if (store.preview) return "before-after";
  return isBeside() ? store.chosen.map((road) => fileRoad(roadOf(road).at)).join("-") : `${need("me").name}-shared`;
}

/** Return the title of a table of the roads that are compared.
 * @param {number} from      step
 * @param {number} to
 */
function comparedText(from, to) {
  return `${comparedRoads()}${fileAndDate()}, ${store.day.timeText(from)} to ${store.day.timeText(to)}`;
}

/** Save the figures of the roads that are compared: those of many days if these are shown. */
async function saveFigures() {
  const {at} = need("me");
  const [roads, of, whose] = [comparedNow(), comparedAt(), comparedFile()];
  const days = daysShown()?.said;
  const [from, to] = days ? [days.from, days.to] : periodShown();
  if (to <= from) {
    tell(messages.NOTHING_COMPUTED, true);
    return;
  }
  if (days) {
    saveLines(`${comparedText(from, to)}, ${PER_LANE}, ${plural(days.days, "day")}`, tableOfFigures(roads, days),
      `figures-${days.days}-days.csv`, whose, [from, to]);
    return;
  }
  const said = await askUntilFree({figures: {at, of, from, to}});
  if (said && !("refused" in said)) {
    saveLines(`${comparedText(from, to)}, ${PER_LANE}`, tableOfFigures(roads, said), "figures.csv", whose, [from, to]);
  }
}

/** Save travel times by the minute of entry, of the roads that are compared. */
async function saveTravel() {
  const {at} = need("me");
  const [roads, of, [from, to]] = [comparedNow(), comparedAt(), periodShown()];
  if (to <= from) {
    tell(messages.NOTHING_COMPUTED, true);
    return;
  }
  const said = await askUntilFree({figures: {at, of, from, to}});
  if (!said || "refused" in said) return;
  saveLines(`travel times of ${comparedText(from, to)}, ${PER_LANE}`, tableOfTravel(need("plan"), roads, said, store.day),
    "travel-times.csv", comparedFile(), [from, to]);
}

/** Save a table.
 * @param {string} title
 * @param {(string | number)[][]} lines
 * @param {string} what      the file's name, with an ending
 * @param {string} whose
 * @param {Span} period      steps
 */
function saveLines(title, lines, what, whose, period) {
  tell(messages.savedFile(saveAs(what, [csvOf(title, lines)], "text/csv", whose, period)));
}

const DAYS_OF_REPORT = 5;           // that the server gives a report if no table of days is shown
const MOST_SENTENCES = 200;         // lines of a report
const MOST_CHARACTERS = 200;    // of a line

/** Return the changes of a road that are not withdrawn, in sentences, the oldest first, without the demand
 * and the drivers of the road's file.
 * @param {Layers} layers
 */
const textsOf = (layers) => newestFirst([...layers.changes.values()]
  .filter((change) => change.standing && change.site === null && !isPlanned(change))).reverse()
  .map((change) => new Words(layers, -1).text(change));

/** Return the lists of changes of the roads that are compared. */
function comparedLayers() {
  if (!store.preview) return comparedNow().map(layersOf);
  return [layersOf(need("preview").takes ? "mine" : "shared"), layersOf("after")];
}

/** Return the changes of the roads that are compared, in sentences: of two roads those of the later one,
 * then those that only the other one has; of several, those of all roads, each with the roads that have
 * it.
 */
async function worksText() {
  const lists = comparedLayers();
  for (const one of lists) {
    await measureDemands(one, (done, all) => tell(messages.measuringDemands(done, all)));
  }
  const texts = lists.map(textsOf);
  const said = isBeside() && !store.preview ? worksOfSeveral(texts) : worksOfTwo(texts);
  return said.slice(0, MOST_SENTENCES).map((text) => text.slice(0, MOST_CHARACTERS));
}

/** @param {string[][]} texts      of the earlier road and of the later one */
function worksOfTwo([before, after]) {
  const gone = before.filter((text) => !after.includes(text));
  const fresh = after.map((text) => (before.includes(text) ? text : `${text} (new)`));
  return [...fresh, ...gone.map((text) => `${text} (only before)`)];
}

/** @param {string[][]} texts      of each road */
function worksOfSeveral(texts) {
  const names = comparedNow().map((road) => (road === "mine" ? need("me").name : roadText(road)));
  return [...new Set(texts.flat())].map((text) => {
    const those = names.filter((_, place) => texts[place].includes(text));
    return those.length < names.length ? `${text} (${listText(those)})` : text;
  });
}

/** Save the report of the roads that are compared: a page that prints. It has the period and the days of
 * the table of days, if that is shown.
 */
async function saveReport() {
  const {at, name, day} = need("me");
  const [of, whose, table] = [comparedAt(), comparedFile(), daysShown()?.said];
  const [from, to] = table ? [table.from, table.to] : periodShown();
  if (to <= from || (store.preview && !store.layers.after)) {
    tell(messages.NOTHING_COMPUTED, true);
    return;
  }
  const date = day?.date ? `, ${day.date}` : "";
  const roads = store.preview ? "A road before and after"
    : isBeside() ? capital(comparedRoads()) : `The road of ${name}, and the shared one`;
  const title = `${roads}: `
    + `${store.day.timeText(from)} to ${store.day.timeText(to)}${date}`;
  const works = await worksText();
  tell(messages.makingReport(table?.days ?? DAYS_OF_REPORT));
  const approach = store.extent.cell < need("plan").origin;
  const said = await askUntilFree({report: {at, of, from, to, title, works, ...(approach ? {approach} : {}),
                                             ...(table ? {days: table.days} : {})}});
  if (!said || "refused" in said) return;
  const saved = saveAs("report.html", [said.html], "text/html", whose, [from, to]);
  const isFewer = !table && said.days > 1;
  tell(messages.savedReport(saved) + (isFewer ? ` ${messages.daysOfReport(said.days, daysAsked())}` : ""));
}

/** Save the history of the road that is shown, or of the roads that are side by side: who did what and when,
 * where it is in force, and what covers it.
 */
async function saveChanges() {
  const roads = isBeside() ? store.chosen : [roadShown() === "shared" ? BOTH[1] : BOTH[0]];
  await refreshFixed();
  const title = `changes of ${roadsText(roads, need("me").name)}${fileAndDate()}, up to ${store.day.timeText(now())}, ${PER_LANE}`;
  saveLines(title, tableOfChanges(roads, roads.map(layersOf)), "changes.csv", roads.map((road) => fileRoad(roadOf(road).at)).join("-"),
    [0, now()]);
}

/** Save the counts of the road that is shown, in the period that is shown: a line for five minutes. */
async function saveCounts() {
  const [from, to] = periodShown();
  if (to <= from) {
    tell(messages.NOTHING_COMPUTED, true);
    return;
  }
  const said = await ask({csv: {at: roadShown(), what: "counts", from, to, each: SPAN_OF_COUNTS}});
  if (said && !("refused" in said)) tell(messages.savedFile(saveAs("counts.csv", [said.csv], "text/csv")));
}

/** Close the menu, which would cover the message. If it has the focus, focus its title. */
function closeMenu() {
  const was = activeIn($("save"));
  $("save").open = false;
  if (was) $("save").querySelector("summary")?.focus();
}

/** Listen to the page. */
export function begin() {
  on("savePicture", "click", savePicture);
  on("saveTranscript", "click", saveTranscript);
  on("saveScript", "click", saveScripts);
  on("saveReport", "click", saveReport);
  on("saveFigures", "click", saveFigures);
  on("saveTravel", "click", saveTravel);
  on("saveCounts", "click", saveCounts);
  on("saveChanges", "click", saveChanges);
  on("save", "click", (event) => { if (closest(event, "button")) closeMenu(); });
  on("save", "keydown", ({key}) => { if (key === "Escape") closeMenu(); });
  addEventListener("pointerdown", (event) => {
    if ($("save").open && !closest(event, "#save")) closeMenu();
  });
}
