// View: is a difference due to the change, or to chance? The roads are compared over many days:
// first their progress, then means with intervals, in the place of the figures of one day.

import {assign} from "./assign.mjs";
import {askDays, comparedNow, daysAsked, daysShown, dropDays, dropOldDays, stopDays} from "./comparison.mjs";
import {$, button, childrenOf, element, findElement} from "./elements.mjs";
import {figureTable, wordsOf} from "./figuretable.mjs";
import {ALL_LANES} from "./messages.mjs";
import {store, watch} from "./store.mjs";

/** @typedef {import("./types.mjs").DaysFigures} DaysFigures */

const overText = () => `Over ${daysAsked()} days`;
/** @param {DaysFigures} said */
const daysText = ({days, stopped}) =>
  (stopped ? `Over ${days} of ${daysAsked()} days, stopped` : overText());
const READ_MEANS = "each day has its own drivers, the same on all roads. \u00b1 is half the width "
  + "of the 95 % interval. If the interval of a difference contains 0, the difference may be chance.";
/** @param {DaysFigures} said */
const readText = ({days, figures, warnings}) => [
  days > 1 ? `Means of ${days} days: ${READ_MEANS}` : "One day alone cannot show what is due to chance.",
  ...warnings.map((text) => `${text}.`), ALL_LANES, wordsOf(figures)].join(" ").trim();
/** @param {DaysFigures} said */
const captionText = (said) =>
  `${daysText(said)}, ${store.day.timeText(said.from)} to ${store.day.timeText(said.to)}`;

/** Start the comparison, stop it, or go back to the figures of one day. */
function doNext() {
  const days = daysShown();
  if (!days) askDays();
  else if (days.said) dropDays();
  else stopDays();
}

/** Show the button that does this, and next to it the progress.
 * @param {HTMLElement} place
 */
function showAsking(place) {
  const days = daysShown();
  if (!place.children.length) {
    place.append(element("progress", "", {ariaLabel: "Days done"}), element("span"),
      button("", doNext));
  }
  const [progress, said, does] = childrenOf(place);
  const isRunning = Boolean(days && !days.said);
  progress.hidden = said.hidden = !isRunning;
  if (progress instanceof HTMLProgressElement) {
    assign(progress, {max: daysAsked(), value: days?.done ?? 0});
  }
  said.textContent = isRunning ? `${days?.done ?? 0} of ${daysAsked()} days` : "";
  does.textContent = isRunning ? "Stop" : days ? "One day" : overText();
}

/** @typedef {[asking: keyof PageElements, table: keyof PageElements, one: keyof PageElements]} Ids */
/** @typedef {import("./elements.mjs").PageElements} PageElements */
/** @type {Ids} */
const OF_PREVIEW = ["previewDays", "previewOver", "previewFigures"];
/** @type {Ids} */
const OF_BOTH = ["days", "over", "oneDay"];

/** Show the comparison over many days. */
function showDays() {
  const isPreview = Boolean(store.preview);
  const [asking, table, one] = isPreview ? OF_PREVIEW : OF_BOTH;
  if (!findElement(asking)) return;
  showAsking($(asking));
  const said = daysShown()?.said;
  $(one).hidden = Boolean(said);
  $(table).replaceChildren(...(said ? [
    element("div", "", {className: "scrolled"},
      figureTable("days", comparedNow(), said.figures, captionText(said))),
    element("p", readText(said), {className: "hint"})] : []));
}

/** Listen to the store. */
export function begin() {
  watch(["days", "preview", "me"], showDays);
  watch(["changes"], dropOldDays);
  showDays();
}
