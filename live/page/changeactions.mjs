// Actions: put, change and undo shapes; share, take and preview changes.

import {ask} from "./questions.mjs";
import {assign} from "./assign.mjs";
import {makers, next, unshared, untaken, words} from "./changes.mjs";
import {daysShown, dropDays} from "./comparison.mjs";
import {encodeShape, encodeStamp} from "./decoding.mjs";
import {loadPending, storePending} from "./storage.mjs";
import {isCovered, privateOf} from "./layers.mjs";
import {askSeries} from "./loader.mjs";
import {listChanges} from "./changetexts.mjs";
import {refreshDiagram} from "./navigation.mjs";
import * as messages from "./messages.mjs";
import {Road} from "./rows.mjs";
import {keyOf} from "./stamps.mjs";
import {isOwn, layersOf, need, notify, roadOf, store, tell} from "./store.mjs";
import {periodShown} from "./view.mjs";

/** @typedef {import("./types.mjs").Area} Area */
/** @typedef {import("./types.mjs").Change} Change */
/** @typedef {import("./types.mjs").ListNews} ListNews */
/** @typedef {import("./types.mjs").Operation} Operation */
/** @typedef {import("./types.mjs").Pending} Pending */
/** @typedef {import("./types.mjs").RoadName} RoadName */
/** @typedef {import("./types.mjs").Stamp} Stamp */
/** @typedef {import("./store.mjs").Press} Press */

/** @type {import("./types.mjs").Outcome} */
export const EMPTY_OUTCOME = {why: "", layers: null, names: [], figures: null};
/** The roads of a preview.
 * @type {("before" | "after")[]}
 */
const PREVIEWED = ["before", "after"];
const TIMINGS = 50;             // timings of gestures that are kept
const FIGURES_AFTER = 500;      // milliseconds: who confirms a preview sooner does not wait for its figures
const LONGEST_NOTE = 200;

/** Put a shape, or change an existing change to it.
 * @param {Area} area
 */
export function put({shape, note, taken = "", old}) {
  const first = Math.min(shape.from, old?.shape?.from ?? shape.from);
  const layer = old ? {layer: encodeStamp(old.name)} : {};
  const demand = shape.demand === undefined ? {} : {demand: shape.demand};
  makeGesture({gesture: {note, shape: encodeShape(shape), ...demand, ...layer}}, {note, shape, taken, first});
}

/** @type {(what: string, change: Change) => string} */
const noted = (what, change) => `${what}: ${words().text(change)}`.slice(0, LONGEST_NOTE);

/** Withdraw a change. If it excludes a site, include the site again instead.
 * @param {Change} change
 */
export function withdraw(change) {
  if (change.site !== null) {
    excludeSite(change.site, false);
    return;
  }
  const note = noted("Withdrew", change);
  const gesture = {note, layer: encodeStamp(change.name), shape: null};
  makeGesture({gesture}, {note, first: change.shape?.from});
}

/** Put a change on top of all others.
 * @param {Change} change
 */
export function putOnTop(change) {
  const note = noted("On top", change);
  const gesture = {note, layer: encodeStamp(change.name), top: true};
  makeGesture({gesture}, {note, first: change.shape?.from});
}

/** Repeat an own operation that lost to another one.
 * @param {Change} change
 * @param {Operation} operation
 */
export function putAgain(change, {stamp}) {
  makeGesture({again: {stamp: encodeStamp(stamp)}}, {note: noted("Put again", change)});
}

/** Exclude a site, or include it again. Others exclude it, too, once that is shared.
 * @param {string} site
 * @param {boolean} [isExcluded]
 */
export function excludeSite(site, isExcluded = true) {
  const note = `Site ${site} is ${isExcluded ? "excluded" : "included again"}`;
  makeGesture({site: {site, out: isExcluded, note}}, {note});
}

/** Undo the last own operation, pending or not. */
export const undoNewest = () => queuePress("undo");

/** Redo the last own operation that was undone, pending or not. */
export const redoNewest = () => queuePress("redo");

const NOTHING = {undo: messages.NOTHING_TO_UNDO, redo: messages.NOTHING_TO_REDO};
const UNDO_NOTES = {undo: "Undone", redo: "Redone"};

/** Return the original note of an operation; "" if it is no longer known.
 * @param {Stamp | string} target    its stamp, or its key while it is pending
 */
function noteOf(target) {
  const note = typeof target === "string" ? store.pending.get(target)?.note ?? ""
    : findNote(target);
  return note.replace(/^(Undone|Redone)(: |$)/, "")
    .replace(/^On top: /, "the place on top of ");
}

/** Return the note of an operation, or that of its change if no other is known.
 * @param {Stamp} stamp
 */
function findNote(stamp) {
  const change = layersOf("mine").findByOperation(stamp);
  const operation = change?.operations.find((one) => keyOf(one.stamp) === keyOf(stamp));
  return operation?.note || store.notes.get(keyOf(stamp)) || change?.note || "";
}

/** Queue a press of Undo or Redo.
 * @param {Press} does
 */
function queuePress(does) {
  store.undoPresses.push(does);
  runPresses();
}

/** Run queued presses, in their order, as long as it is known what they undo or redo. */
function runPresses() {
  while (store.undoPresses.length) {
    const [does] = store.undoPresses;
    const {[does]: stamp} = next();
    if (stamp === undefined) return;
    store.undoPresses.shift();
    if (does === "undo" && warnOfBlocked(stamp)) continue;
    if (stamp === null) tell(NOTHING[does], true);
    else {
      const note = [UNDO_NOTES[does], noteOf(stamp)].filter(Boolean).join(": ");
      const target = typeof stamp === "string" ? stamp : encodeStamp(stamp);
      makeGesture({undo: {stamp: target}}, {note, does, undoes: stamp});
    }
  }
}

/** If others have changed the latest own change since, say so once, so that Undo does not silently
 * undo the change before it. Return whether it was said now.
 * @param {Stamp | string | null} stamp      what Undo would undo
 */
function warnOfBlocked(stamp) {
  const [blocked] = store.pending.size ? [] : layersOf("mine").blocked;
  if (!blocked || keyOf(blocked.stamp) === store.passedOver) return false;
  store.passedOver = keyOf(blocked.stamp);
  tell(messages.undoBlocked(blocked.by, noteOf(blocked.stamp), stamp === null), true);
  return true;
}

/** Send a command that changes something, and note it as pending until it is confirmed. If the first
 * step that it changes is known, ask for rows at once. The same command twice, while the first one is
 * the newest that is pending, is one.
 * @param {Pending["command"]} command
 * @param {{note: string} & Partial<Pending>} about
 */
function makeGesture(command, {note, shape, first, does = "apply", undoes, taken = ""}) {
  const newest = [...store.pending.values()].at(-1);
  if (JSON.stringify(newest?.command) === JSON.stringify(command)) return;
  const key = crypto.randomUUID();
  store.pending.set(key, {command, note, shape, first, does, undoes, taken});
  persistPending();
  store.timings.push({key, began: performance.now()});
  if (store.timings.length > TIMINGS) store.timings.shift();
  send(key);
  if (first !== undefined) roadOf("mine").invalidate(first);
  refreshLists();
  refreshDiagram();
}

/** Store what is pending in the tab's storage. If that fails without a connection, say so. */
export function persistPending() {
  store.isPersisted = storePending(sessionStorage, need("me").at, store.pending);
  if (!store.isPersisted && store.isAway && store.pending.size) {
    tell(messages.NOT_PERSISTED, true);
  }
}

/** Restore what was pending when this tab was reloaded, if it has the same seat again. */
export function restorePending() {
  const {at, gestures} = loadPending(sessionStorage);
  if (gestures.length && at === need("me").at) {
    store.pending = new Map([...gestures, ...store.pending]);
  } else if (gestures.length) {
    tell(messages.pendingOfOtherSeat(gestures.length), true);
    persistPending();
  }
}

/** Send a pending command, or send it again after the connection broke.
 * @param {string} key
 */
export async function send(key) {
  const pending = store.pending.get(key);
  if (!pending) return;
  const {command, note, first = Infinity, taken, does} = pending;
  const said = await ask(withFields(command, {at: need("me").at, key}), {turn: "first"});
  if (!said) return;
  store.pending.delete(key);
  persistPending();
  const isDone = !("refused" in said);
  const timing = store.timings.find((one) => one.key === key);
  if (timing) assign(timing, {confirmed: performance.now(), us: isDone ? said.us : undefined});
  if (isDone) {
    store.notes.set(keyOf(said.stamp), note);
    const waiting = store.pending.size + store.waiting.size;
    tell(messages.done(note, does !== "apply", store.whose === "shared", waiting) + taken);
    if (said.touched !== null && said.touched < first) roadOf("mine").invalidate(said.touched);
    await takeLayers("mine", said);
  }
  runPresses();
  refreshLists();
  refreshDiagram();
  askPreview();
}

/** Return a command with more fields.
 * @param {Pending["command"]} command
 * @param {object} more
 * @returns {Pending["command"]}
 */
const withFields = (command, more) => Object.fromEntries(
  Object.entries(command).map(([verb, fields]) => [verb, {...more, ...fields}]));

/** Apply the news of the list that came with an answer. If the page lacks changes before or after
 * them, ask for these.
 * @param {"mine" | "shared"} whose
 * @param {ListNews} said
 */
async function takeLayers(whose, said) {
  const layers = layersOf(whose);
  const isNext = said.since === layers.next;
  if (isNext) layers.update(said);
  if (!isNext || said.more) await refreshChanges(whose);
}

/** Ask for the changes of a road that are new to the page. Calls at the same time share a request.
 * Return a promise that is resolved when the list is up to date.
 * @param {RoadName} whose
 */
export function refreshChanges(whose) {
  const there = store.refreshes.get(whose);
  if (there) {
    there.again = true;
    return there.done;
  }
  const refresh = {again: true, done: Promise.resolve()};
  store.refreshes.set(whose, refresh);
  refresh.done = refreshUntilDone(whose, refresh);
  return refresh.done;
}

/** Ask for the new changes of a road, and again as long as another call has asked for them meanwhile.
 * @param {RoadName} whose
 * @param {{again: boolean}} refresh
 */
async function refreshUntilDone(whose, refresh) {
  let isThere = true;
  try {
    while (isThere && refresh.again) {
      refresh.again = false;
      isThere = await askLayers(whose);
    }
    if (isThere) refreshLists();
  } finally {
    store.refreshes.delete(whose);
  }
}

/** Ask for the new changes of a road, piece by piece, or for all if the server has restarted its
 * list. Ignore a piece if another answer has brought a newer version, or if the whole list is
 * wanted again meanwhile. Return whether all arrived.
 * @param {RoadName} whose
 */
async function askLayers(whose) {
  const [layers, {at}] = [layersOf(whose), roadOf(whose)];
  for (let more = true; more;) {
    const {next: from, restarts} = layers;
    const said = await ask({layers: {at, from}});
    if (!said || "refused" in said) return false;
    if (layers.next !== from || layers.restarts !== restarts) continue;
    if (said.since === 0) {
      layers.changes.clear();
      if (from !== 0) roadOf(whose).invalidate(0);
    }
    layers.update(said);
    more = said.more;
  }
  return true;
}

/** Refresh the lists, if the page has joined. */
export function refreshLists() {
  if (!store.me || !store.layers.mine) return;
  store.changes = listChanges(layersOf("mine"), store.me.seat);
  notify("changes");
}

/** Share operations of changes.
 * @param {Change[]} changes
 * @param {Stamp[]} stamps
 */
async function share(changes, stamps) {
  const fields = {at: need("me").at, name: "shared", stamps: stamps.map(encodeStamp)};
  const said = await ask({send: fields}, {turn: "first", away: messages.NOT_SHARED});
  if (!said || "refused" in said) return;
  tell(messages.shared(changes.length));
  if (said.touched !== null) roadOf("shared").invalidate(said.touched);
  await Promise.all([refreshChanges("mine"), refreshChanges("shared")]);
  refreshDiagram();
}

/** Take what others shared. */
export async function take() {
  closePreview();
  const covered = coveredOwn();
  const fresh = untaken();
  const from = makers(fresh);
  const said = await ask({take: {at: need("me").at, message: "shared"}},
    {turn: "first", away: messages.NOT_TAKEN});
  if (!said || "refused" in said) return;
  if (said.touched !== null) roadOf("mine").invalidate(said.touched);
  await takeLayers("mine", said);
  refreshLists();
  tellTaken(fresh.length, from, covered);
  refreshDiagram();
}

/** Return, for each own change that is covered, by its name, the text of what covers it.
 * @returns {Map<string, string>}
 */
const coveredOwn = () => new Map([...layersOf("mine").changes.values()].filter(isOwn)
  .filter(isCovered).map((change) => [keyOf(change.name), words().cover(change)]));

/** Say what was taken, and how many own changes it covers.
 * @param {number} count
 * @param {string[]} from
 * @param {Map<string, string>} before       what covered own changes before
 */
function tellTaken(count, from, before) {
  const lost = [...coveredOwn()].filter(([name, cover]) => before.get(name) !== cover);
  tell(messages.taken(count, from, lost.length), lost.length > 0);
}

// The preview of sharing or taking.

/** Open a preview of sharing these changes, or all, or of taking what others shared.
 * @param {"share" | "take"} what
 * @param {Change[] | null} [changes]
 */
export function openPreview(what, changes = null) {
  const names = changes?.map(({name}) => keyOf(name));
  const preview = {whose: store.preview?.whose ?? store.whose, takes: what === "take", names,
                   ...sharedBy(names)};
  if (!preview.takes && !preview.changes.length) return;
  clearTimeout(store.preview?.soon);
  assign(store, {preview, outcome: null});
  notify("preview");
  askPreview();
}

/** Open a preview of sharing all. */
export const shareAll = () => openPreview("share");

/** Return the changes of these names, or all, that are not shared, and the stamps of their operations.
 * @param {string[] | undefined} names
 */
function sharedBy(names) {
  const changes = unshared().filter(({name}) => !names || names.includes(keyOf(name)));
  return {changes, stamps: changes.flatMap(privateOf).map(({stamp}) => stamp)};
}

/** Ask what the preview would change: the list at once, the rows of both roads as they are shown,
 * and the figures a moment later. If nothing is left to share, close it.
 */
export async function askPreview() {
  const {preview} = store;
  if (!preview) return;
  clearTimeout(preview.soon);
  assign(preview, sharedBy(preview.names));
  const {takes, changes, stamps} = preview;
  if (!takes && !changes.length) {
    closePreview();
    return;
  }
  notify("outcome");
  const what = takes ? {what: "take"} : {what: "share", stamps: stamps.map(encodeStamp)};
  const said = await ask({preview: {at: need("me").at, ...what}});
  if (!said || store.preview !== preview) return;
  if ("refused" in said) {
    const {layers, names} = store.outcome ?? EMPTY_OUTCOME;
    store.outcome = {why: said.why ?? "", layers, names, figures: null};
  } else {
    if (!store.outcome?.layers) store.whose = "both";
    const layers = layersOf(takes ? "mine" : "shared").with(said.layers);
    store.layers.after = layers;
    for (const name of PREVIEWED) store.roads[name] = new Road(name, need("plan").length);
    store.outcome = {why: "", layers, names: said.layers.map(({name}) => name), figures: null};
    clearTimeout(preview.soon);
    preview.soon = setTimeout(askPreviewFigures, FIGURES_AFTER);
  }
  notify("outcome");
  refreshDiagram();
}

/** Ask for the figures of both roads, counted car by car. */
async function askPreviewFigures() {
  const {preview, outcome} = store;
  const [from, to] = periodShown();
  if (!preview || !outcome || to <= from) return;
  const isWanted = () => store.outcome === outcome;
  const said = await ask({figures: {at: need("me").at, of: PREVIEWED, from, to}},
    {quiet: ["Busy"], isWanted});
  if (!said || !isWanted()) return;
  if ("refused" in said && said.refused === "Busy") {
    preview.soon = setTimeout(askPreviewFigures, FIGURES_AFTER);
    return;
  }
  outcome.figures = "refused" in said ? {why: said.why ?? ""} : said;
  notify("outcome");
  askSeries();
}

/** Share or take what the preview shows. */
export function confirmPreview() {
  const {takes, changes, stamps} = need("preview");
  closePreview();
  if (takes) take(); else share(changes, stamps);
}

/** Close the preview. */
export function closePreview() {
  if (!store.preview) return;
  const {soon, whose} = store.preview;
  clearTimeout(soon);
  if (daysShown()) dropDays();
  assign(store, {whose, preview: null, outcome: null});
  for (const name of PREVIEWED) delete store.roads[name];
  delete store.layers.after;
  ask({preview: {at: need("me").at, what: null}});
  notify("preview");
  refreshDiagram();
}
