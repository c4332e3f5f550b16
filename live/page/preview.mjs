// View: what sharing or taking would change, before it is done. Picture, sentences and table describe
// the same two roads: before, and after.

import {EMPTY_OUTCOME, closePreview, confirmPreview} from "./changeactions.mjs";
import {freshOf, untaken, words} from "./changes.mjs";
import {$, activeIn, button, element, findElement} from "./elements.mjs";
import {figureTable, wordsOf} from "./figuretable.mjs";
import {affectedBy, newestFirst, titlesOf} from "./changetexts.mjs";
import {focusOnLists} from "./changelists.mjs";
import * as messages from "./messages.mjs";
import {layersOf, store, watch} from "./store.mjs";
import {plural} from "./units.mjs";

/** @typedef {import("./changetexts.mjs").Words} Words */
/** @typedef {import("./types.mjs").Change} Change */
/** @typedef {import("./types.mjs").Figures} Figures */
/** @typedef {import("./types.mjs").Preview} Preview */

/** @param {[text: string, hint: string]} item */
const changeItem = ([text, hint]) => element("li", text, {},
  element("span", ` ${hint}`, {className: "hint"}));

/** Return what would be shared or taken: what each change is, and who made it when; or, if it would
 * have no effect when it is taken, what it was, and who won.
 * @param {Preview} preview
 * @param {import("./layers.mjs").Layers | null} layers  of the road after sharing or taking
 * @returns {[text: string, hint: string][]}
 */
function changesOf({takes, changes}, layers) {
  const said = words(layersOf(takes ? "shared" : "mine"));
  return (takes ? untaken() : changes).map((change) => {
    const then = takes && layers ? layers.find(change.name) : undefined;
    const lost = layers && then ? words(layers).losing(then, freshOf(change)) : null;
    return lost ?? [said.text(change), said.meta(change)];
  });
}

/** Show the preview, or hide it. */
function showPreview() {
  const {preview} = store;
  if (!preview) {
    const had = activeIn($("preview"));
    $("preview").hidden = true;
    if (had) focusOnLists();
    return;
  }
  const {takes} = preview;
  $("previewBody").replaceChildren(element("p", "", {id: "previewTitles"}),
    element("ul", "", {id: "previewList"}), element("p", "", {className: "buttons"},
      button(takes ? "Take now" : "Share now", confirmPreview), button("Not now", closePreview),
      element("span", "", {id: "previewDays", className: "days"})),
    element("div", "", {id: "previewCovers"}),
    element("h3", takes ? "What this would change on your road"
      : "What this would change on the shared road"),
    element("div", "", {id: "previewOver"}), element("div", "", {id: "previewFigures"}));
  $("preview").hidden = false;
  $("preview").focus();
  showOutcome();
}

/** Show what would be shared or taken now, and what that would change. */
function showOutcome() {
  const {preview} = store;
  if (!preview || !findElement("previewFigures")) return;
  const {takes} = preview;
  const {why, names, layers, figures} = store.outcome ?? EMPTY_OUTCOME;
  const changes = changesOf(preview, layers);
  $("previewTitle").textContent = `${takes ? "Take" : "Share"} ${plural(changes.length, "change")}?`;
  $("previewTitles").textContent = takes ? titlesOf(store.news) : "";
  $("previewTitles").hidden = !$("previewTitles").textContent;
  $("previewList").replaceChildren(...changes.map(changeItem));
  if (layers) {
    const affected = newestFirst(names.flatMap((name) => layers.find(name) ?? []));
    $("previewCovers").replaceChildren(...coversOf(affected, words(layers)));
  }
  const place = $("previewFigures");
  if (figures && !("why" in figures)) place.replaceChildren(figuresTable(figures));
  else place.replaceChildren(element("p", (figures?.why || why) || messages.COMPUTING));
}

/** Make elements that say what would be covered, or in force again.
 * @param {Change[]} changes
 * @param {Words} said
 */
function coversOf(changes, said) {
  const affected = affectedBy(changes).map((change) => said.effect(change));
  const below = changes.filter((change) => !change.was && said.cover(change))
    .map((change) => said.effect(change));
  const all = [...affected, ...below];
  if (!all.length) return [element("p", messages.NOTHING_COVERED)];
  return [element("h3", "What would be covered or uncovered"),
          element("ul", "", {}, ...all.map((text) => element("li", text)))];
}

/** Return the table of figures.
 * @param {Figures} said
 */
function figuresTable({figures, from, to}) {
  const caption = `${store.day.timeText(from)} to ${store.day.timeText(to)}`;
  return element("div", "", {}, element("div", "", {className: "scrolled"}, figureTable("preview", ["before", "after"], figures, caption)),
    element("p", [messages.READ_FIGURES, messages.ALL_LANES, wordsOf(figures)].join(" ").trim(), {className: "hint"}));
}

/** Listen to the store. */
export function begin() {
  watch(["preview"], showPreview);
  watch(["outcome", "curves"], showOutcome);
}
