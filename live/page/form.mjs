// View: the tool with its values, and the form for typed values, which can do all that a drag does.

import {words} from "./changes.mjs";
import {applyForm, chooseTool, editInForm, followChangeInForm, writeField} from "./draft.mjs";
import {$, childrenOf, choose, chosen, on, oneOf} from "./elements.mjs";
import {demandText} from "./formvalues.mjs";
import {OF_ONE} from "./geometry.mjs";
import {zonesText} from "./shapetexts.mjs";
import {need, store, watch} from "./store.mjs";
import {kmText, limitText} from "./units.mjs";

/** @typedef {import("./store.mjs").Field} Field */
/** @typedef {import("./store.mjs").Store} Store */

const FASTEST = 9;              // the highest limit, in cells a step
/** @type {Field[]} */
const FIELDS = ["limit", "watch", "demand", "inlet", "site", "slow", "start", "capacity", "worksLimit",
                "kmFrom", "kmTo", "timeFrom", "timeTo"];
/** @type {Store["tool"][]} */
const TOOLS = ["look", "block", "capacity", "limit", "inflow", "slow", "start", "watch"];
/** @type {Record<Store["tool"], string>} */
const VERBS = {look: "Close cells", block: "Close", limit: "Limit", inflow: "Set demand",
               slow: "Set slowing", start: "Set slow to start", watch: "Switch detector",
               capacity: "Set capacity"};
/** @type {Partial<Record<Store["tool"], string>>} */
const HINTS = {look: "moves the diagram; edges of your frames can be dragged",
               block: "closes the lane; cars inside it stop until it opens"};

/** Fill the form's choices from the plan. */
function showPlan() {
  const plan = need("plan");
  const limits = Array.from({length: FASTEST + 1}, (_, limit) => limit);
  $("limit").append(...limits.map((limit) => new Option(limitText(limit), String(limit))));
  $("worksLimit").append(...limits.slice(1).map((limit) => new Option(limitText(limit), String(limit))));
  /** @type {(what: string, cell: number, index: number) => HTMLOptionElement} */
  const option = (what, cell, index) =>
    new Option(`the ${what} at ${kmText(plan, cell)} km`, String(index));
  $("inlet").append(...plan.inlets.map(([cell], index) => option("inlet", cell, index)));
  $("site").append(...plan.detectors.map((cell, index) => option("detector", cell, index)));
  document.querySelector("[value=watch]")?.toggleAttribute("disabled", !plan.detectors.length);
  showForm();
}

/** Show the tool, and the fields that it needs. */
function showTool() {
  const kind = store.tool;
  choose("tool", kind);
  for (const part of childrenOf($("values"))) {
    part.hidden = !part.dataset.of?.split(" ").includes(kind);
  }
  $("kmFromLabel").hidden = $("kmToLabel").hidden = OF_ONE.includes(kind);
  $("apply").textContent = store.changeInForm ? "Change" : VERBS[kind];
  showToolHint();
}

/** Show what is typed. Do not touch a field that shows it already, so that its caret stays. */
function showForm() {
  for (const id of FIELDS) if ($(id).value !== store.form[id]) $(id).value = store.form[id];
  showToolHint();
}

/** Say which change is edited, or what the tool does. */
function showToolHint() {
  const kind = store.tool;
  const zones = store.plan && zonesText(store.plan, kind);
  $("toolHint").textContent = store.changeInForm ? `changing: ${words().text(store.changeInForm)}`
    : kind === "inflow" ? demandText() : HINTS[kind] ?? zones ?? "";
}

/** Show that the form edits a change, and focus its first field. */
function showChangeInForm() {
  const {changeInForm} = store;
  $("dropChange").hidden = !changeInForm;
  $("exactTitle").textContent = changeInForm ? "new values:" : "or type values:";
  if (!changeInForm?.shape) return;
  $(OF_ONE.includes(changeInForm.shape.kind) ? "timeFrom" : "kmFrom").focus();
}

/** Note what is typed in a field.
 * @param {Event} event
 */
function onInput({target}) {
  if (!(target instanceof HTMLInputElement || target instanceof HTMLSelectElement)) return;
  const field = oneOf(FIELDS, target.id);
  if (field) writeField(field, target.value);
}

/** Listen to the store and to the page. */
export function begin() {
  on("tools", "change", () => chooseTool(oneOf(TOOLS, chosen("tool")) ?? "look"));
  on("values", "input", onInput);
  on("exact", "input", onInput);
  on("exact", "submit", (event) => {
    event.preventDefault();
    applyForm();
  });
  on("dropChange", "click", () => editInForm(null));
  watch(["plan"], showPlan);
  watch(["tool"], showTool);
  watch(["form"], showForm);
  watch(["changeInForm"], showChangeInForm);
  watch(["changes"], followChangeInForm);
  watch(["changes", "curves"], showToolHint);
  showTool();
}
