// View: the lists of changes (not shared yet, shared), and the news of what others shared.

import {openPreview, putAgain, putOnTop, redoNewest, refreshLists, shareAll, take, undoNewest, withdraw}
  from "./changeactions.mjs";
import {countCurves} from "./area.mjs";
import {next} from "./changes.mjs";
import {dropWaiting, editInForm} from "./draft.mjs";
import {$, activeIn, button, element, headCell, on, row, showList} from "./elements.mjs";
import {isCovered, lostOf, privateOf} from "./layers.mjs";
import {demandsOfFile, historyOf} from "./changetexts.mjs";
import {setOpen, showChange} from "./navigation.mjs";
import * as messages from "./messages.mjs";
import {keyOf} from "./stamps.mjs";
import {need, layersOf, now, store, watch} from "./store.mjs";
import {PER_LANE, kmText, plural, whole} from "./units.mjs";

/** @typedef {import("./elements.mjs").Item} Item */
/** @typedef {import("./changetexts.mjs").Listed} Listed */
/** @typedef {import("./types.mjs").Pending} Pending */

const MOST_PAST = 100;          // operations that the page lists

/** Make the buttons of a change.
 * @param {Listed} listed
 */
function changeButtons({change, text}) {
  const lost = lostOf(change, need("me").seat);
  /** @type {[offered: boolean, name: string, does: () => void][]} */
  const buttons = [
    [true, "Show", () => showChange(change)],
    [change.standing && change.shape !== null, "Change", () => editInForm(change)],
    [change.standing, "Withdraw", () => withdraw(change)],
    [isCovered(change), "Put on top", () => putOnTop(change)],
    [privateOf(change).length > 0, "Share…", () => openPreview("share", [change])]];
  if (lost && !lost.mine.undoes) {
    buttons.splice(4, 0, [true, "Put mine again", () => putAgain(change, lost.mine)]);
  }
  return buttons.filter(([offered]) => offered).map(([, name, does]) => button(name, does, text));
}

/** Make the element of a change.
 * @param {Listed} shown
 */
function changeElement(shown) {
  const {text, state, cover, lost, meta} = shown;
  const tag = element("span", state, {className: `state ${state}`});
  const notes = [cover, lost].filter(Boolean)
    .map((said) => element("p", said, {className: "loss"}));
  return element("li", "", {}, element("p", text + " ", {className: "note"}, tag),
    element("p", meta, {className: "hint"}), ...notes,
    element("p", "", {className: "buttons"}, ...changeButtons(shown)));
}

/** Return a text that differs whenever the element of a change does, or its operations.
 * @param {Listed} listed
 */
const versionOf = ({change, text, state, cover, lost, meta}) =>
  JSON.stringify([text, state, cover, lost, meta, change.operations.map(({stamp}) => stamp)]);

/** @type {(shown: Listed) => Item} */
const listedItem = (shown) => ({key: keyOf(shown.change.name), version: versionOf(shown),
                            make: () => changeElement(shown)});

/** @type {(pending: [key: string, gesture: Pending]) => Item} */
const pendingItem = ([key, {note}]) => ({key, version: note, make: () => element("li", "", {},
  element("p", note + " ", {className: "note"},
    element("span", "pending", {className: "state pending"})))});

/** @type {(waiting: [key: string, area: import("./types.mjs").Area]) => Item} */
const waitingItem = ([key, {note, shape}]) => {
  const why = shape.kind === "capacity" ? messages.WAITS_FOR_CAPACITY
    : messages.waitsForInlet(...countCurves());
  return {key, version: note + why, make: () => element("li", "", {},
    element("p", note + " ", {className: "note"},
      element("span", "waiting", {className: "state pending"})),
    element("p", why, {className: "hint"}),
    element("p", "", {className: "buttons"}, button("Cancel", () => dropWaiting(key), note)))};
};

/** Focus the first list that is not empty, otherwise the diagram. */
export const focusOnLists = () =>
  ([$("own"), $("held")].find((list) => list.children.length) ?? $("diagram")).focus();

/** Show the lists of changes. */
function showLists() {
  /** @type {(where: Listed["where"]) => Item[]} */
  const of = (where) => store.changes.filter((one) => one.where === where).map(listedItem);
  showList($("own"), [...[...store.waiting].reverse().map(waitingItem),
                      ...[...store.pending].reverse().map(pendingItem), ...of("own")]);
  showList($("held"), of("held"));
  const hadLast = [$("own"), $("held")].some((list) =>
    list === document.activeElement && !list.children.length);
  for (const list of [$("own"), $("held")]) {
    const section = list.closest("section");
    if (section) section.hidden = !list.children.length;
  }
  if (hadLast) focusOnLists();
  const {undo, redo} = next();
  $("undo").disabled = undo === null && !store.layers.mine?.blocked.length;
  $("redo").disabled = redo === null;
}

/** @type {(past: ReturnType<typeof historyOf>[0]) => Item} */
const pastItem = ({stamp, text, meta, cover}) => ({key: keyOf(stamp),
  version: JSON.stringify([text, meta, cover]), make: () => element("li", "", {}, element("p", text),
    element("p", meta, {className: "hint"}), element("p", cover, {hidden: !cover}))});

/** Show the history, if it is open. */
function showHistory() {
  $("past").hidden = !store.changes.length && !store.layers.mine?.changes.size;
  if (!store.isOpen.past || !store.me) return;
  const all = historyOf(layersOf("mine"), store.me.seat);
  showList($("history"), all.slice(0, MOST_PAST).map(pastItem));
  const rest = all.length - MOST_PAST;
  $("pastRest").textContent = rest > 0 ? `And ${plural(rest, "earlier one")}: \u201cChanges as CSV\u201d in the Save menu has all.` : "";
}

/** Show the demand of the road's file, in cars per hour over time. */
function showFileDemand() {
  const lines = store.layers.mine ? demandsOfFile(store.layers.mine) : [];
  $("fileDemand").hidden = !lines.length;
  const version = JSON.stringify(lines);
  if (!lines.length || $("fileDemandTable").dataset.version === version) return;
  $("fileDemandTable").dataset.version = version;
  const plan = need("plan");
  const heads = plan.inlets.map(([cell]) => headCell(`at ${kmText(plan, cell)} km`));
  $("fileDemandTable").replaceChildren(
    element("caption", `Cars per hour ${PER_LANE} that want to enter`),
    element("thead", "", {}, row(headCell("from"), ...heads)),
    element("tbody", "", {}, ...lines.map(({step, demands}) =>
      row(headCell(store.day.timeText(step), "row"),
        ...demands.map((cars) => element("td", whole(cars)))))));
}

/** Show how to begin, until there are changes, and that the road is empty, while it is. */
function showFirstSteps() {
  $("emptyHint").hidden = now() > store.day.lead;
  $("hint").hidden = store.changes.length > 0 || store.pending.size > 0;
}

/** Show what others shared and this tab has not taken. */
function showNews() {
  const {size, text} = store.news;
  const section = $("news");
  const had = activeIn(section);
  section.hidden = !size || Boolean(store.preview?.takes);
  if (!size) {
    section.replaceChildren();
    if (had) $("held").focus();
    return;
  }
  const [said] = section.children;
  if (said) said.textContent = text;
  else {
    section.append(element("p", text), element("p", "", {className: "buttons"},
      button("Take", take), button("Look first", () => openPreview("take"))));
  }
}

/** Listen to the store and to the page. */
export function begin() {
  on("undo", "click", undoNewest);
  on("redo", "click", redoNewest);
  on("shareAll", "click", shareAll);
  on("past", "toggle", () => setOpen("past", $("past").open));
  watch(["changes"], showLists);
  watch(["changes"], showFileDemand);
  watch(["changes", "isOpen"], showHistory);
  watch(["curves"], refreshLists);
  watch(["changes", "clock"], showFirstSteps);
  watch(["news", "preview"], showNews);
}
