// Elements of the page. Texts from outside (names, notes) become text nodes, and never markup.

import {assign} from "./assign.mjs";

/**
 * The elements by their ids. Those of a preview, apart from its title and body, are made by preview.mjs.
 * @typedef {Record<"me" | "clock" | "figuresPart" | "news" | "preview" | "hint", HTMLElement>
 *   & Record<"line" | "said" | "who" | "helloSaid" | "readout" | "days" | "figuresNote" | "emptyHint"
 *            | "pastRest" | "seriesRead" | "travelRead" | "previewTitles", HTMLParagraphElement>
 *   & Record<"others" | "rates" | "stop" | "values" | "exactTitle" | "toolHint" | "stride" | "period"
 *            | "previewDays", HTMLSpanElement>
 *   & Record<"hour" | "ahead" | "back" | "savePicture" | "saveTranscript" | "saveScript"
 *            | "saveFigures" | "saveTravel" | "saveReport" | "saveCounts" | "saveChanges" | "undo" | "redo" | "apply"
 *            | "changeSeat" | "dropChange" | "closer" | "farther" | "wholeRoad" | "withApproach" | "shareAll", HTMLButtonElement>
 *   & Record<"follow" | "name" | "variantName" | "demand" | "slow" | "start" | "capacity" | "kmFrom" | "kmTo" | "timeFrom"
 *            | "timeTo" | "letters", HTMLInputElement>
 *   & Record<"save" | "asTable" | "roadsPart" | "sites" | "past" | "series" | "fileDemand", HTMLDetailsElement>
 *   & Record<"hello", HTMLDialogElement>
 *   & Record<"helloForm" | "exact" | "variantForm", HTMLFormElement>
 *   & Record<"previewTitle", HTMLHeadingElement>
 *   & Record<"seats" | "over" | "oneDay" | "travelPart" | "previewBody" | "previewCovers" | "previewOver"
 *            | "previewFigures", HTMLDivElement>
 *   & Record<"seatList" | "stays" | "legend" | "warnings" | "previewList" | "seriesLegend" | "roadList", HTMLUListElement>
 *   & Record<"tools" | "whose", HTMLFieldSetElement>
 *   & Record<"limit" | "worksLimit" | "inlet" | "site" | "watch" | "span" | "paint" | "seriesSite" | "seriesEnd",
            HTMLSelectElement>
 *   & Record<"kmFromLabel" | "kmToLabel" | "besideChoice", HTMLLabelElement>
 *   & Record<"diagram" | "flowChart" | "speedChart" | "travelChart", HTMLCanvasElement>
 *   & Record<"speeds" | "figures" | "fileDemandTable", HTMLTableElement>
 *   & Record<"own" | "held" | "siteList" | "history", HTMLOListElement>} PageElements
 */

/** Return an element by its id; null if it is not there.
 * @template {keyof PageElements} Id
 * @param {Id} id
 */
export const findElement = (id) =>
  /** @type {PageElements[Id] | null} */ (document.getElementById(id));

/** Return an element by its id. Throw if it is not there.
 * @template {keyof PageElements} Id
 * @param {Id} id
 * @returns {PageElements[Id]}
 */
export function $(id) {
  const found = findElement(id);
  if (!found) throw new Error(`The page has no element ${id}.`);
  return found;
}

/** Listen to an element, by its id.
 * @template {keyof HTMLElementEventMap} Type
 * @param {keyof PageElements} id
 * @param {Type} type
 * @param {(event: HTMLElementEventMap[Type]) => void} act
 * @param {AddEventListenerOptions} [how]
 */
export function on(id, type, act, how) {
  /** @type {HTMLElement} */
  const one = $(id);
  one.addEventListener(type, act, how);
}

/** Return the innermost element that matches a selector and contains the target of an event; null
 * if no element does.
 * @param {Event} event
 * @param {string} selector
 */
export const closest = ({target}, selector) =>
  (target instanceof Element ? target.closest(selector) : null);

/** Return a value, typed as one of a list; undefined if the list does not have it.
 * @template {string} Value
 * @param {readonly Value[]} values
 * @param {string} value
 */
export const oneOf = (values, value) => values.find((one) => one === value);

/** Return the value of the chosen radio button of a group; "" if none is chosen.
 * @param {string} name
 */
export const chosen = (name) =>
  radios(name).find(({checked}) => checked)?.value ?? "";

/** Choose a radio button of a group.
 * @param {string} name
 * @param {string} value
 */
export function choose(name, value) {
  for (const one of radios(name)) one.checked = one.value === value;
}

/** Return the radio buttons of a group.
 * @param {string} name
 */
const radios = (name) => [...document.querySelectorAll(`input[name=${name}]`)].flatMap((one) =>
  (one instanceof HTMLInputElement ? [one] : []));

/** Make an element with a text, properties and children.
 * @template {keyof HTMLElementTagNameMap} Tag
 * @param {Tag} tag
 * @param {string} [text]
 * @param {Partial<HTMLElementTagNameMap[Tag]>} [properties]
 * @param {(Node | string)[]} children
 * @returns {HTMLElementTagNameMap[Tag]}
 */
export function element(tag, text, properties = {}, ...children) {
  const one = assign(document.createElement(tag), properties);
  if (text) one.append(text);
  one.append(...children);
  return one;
}

/** Make a button. Its accessible name says, too, what it is `about`.
 * @param {string} text
 * @param {() => void} act
 * @param {string} [about]
 */
export function button(text, act, about = "") {
  const one = element("button", text, {type: "button", onclick: act});
  if (about) one.setAttribute("aria-label", `${text}: ${about}`);
  return one;
}

/** Make a header cell of a column, or of a row.
 * @param {string} text
 * @param {string} [scope]
 */
export const headCell = (text, scope = "col") => element("th", text, {scope});

/** Make a row of a table.
 * @param {Node[]} cells
 */
export function row(...cells) {
  return element("tr", "", {}, ...cells);
}

/**
 * An entry of a list: its key, a text that differs whenever what it shows does, and a function that
 * makes its element.
 * @typedef {{key: string, version: string, make: () => HTMLElement}} Item
 */

/** Return the elements in an element.
 * @param {Element} list
 */
export const childrenOf = (list) => [...list.children].flatMap((one) =>
  (one instanceof HTMLElement ? [one] : []));

/** Return the element that has the focus, if it is in an element; else null.
 * @param {Element} place
 */
export function activeIn(place) {
  const active = document.activeElement;
  return active instanceof HTMLElement && place.contains(active) ? active : null;
}

/** Show items in a list. Elements that have not changed stay, and so does the focus.
 * @param {HTMLElement} list
 * @param {Item[]} items
 */
export function showList(list, items) {
  const active = activeIn(list);
  const at = active?.closest("li");
  const lines = childrenOf(list);
  const place = at ? lines.indexOf(at) : 0;
  const before = new Map(lines.map((one) => [one.dataset.key, one]));
  const now = items.map(({key, version, make}) => {
    const there = before.get(key);
    if (there && there.dataset.version === version) return there;
    const made = make();
    assign(made.dataset, {key, version});
    return made;
  });
  arrange(list, now);
  if (active && !active.isConnected) refocus(list, at?.dataset.key, place, active.textContent);
  else if (active && document.activeElement !== active) active.focus();
}

/** Give a list these children. Do not touch those that stay where they are.
 * @param {HTMLElement} list
 * @param {HTMLElement[]} children
 */
function arrange(list, children) {
  /** @type {Set<Element>} */
  const stay = new Set(children);
  for (const one of [...list.children]) if (!stay.has(one)) one.remove();
  let there = list.firstElementChild;
  for (const one of children) {
    if (one === there) there = one.nextElementSibling;
    else list.insertBefore(one, there);
  }
}

/** Focus the same button of the same line. If it is gone, focus the line, the line now in its place,
 * or the list: pressing the key again does nothing there.
 * @param {HTMLElement} list
 * @param {string | undefined} key      of the line
 * @param {number} place                of the line
 * @param {string | null} text          of the button
 */
function refocus(list, key, place, text) {
  const lines = childrenOf(list);
  const same = lines.find((one) => one.dataset.key === key);
  const again = [...(same?.querySelectorAll("button") ?? [])]
    .find((one) => one.textContent === text);
  const line = same ?? lines[Math.min(place, lines.length - 1)] ?? list;
  line.tabIndex = -1;
  (again ?? line).focus();
}

/** Let the browser save a file.
 * @param {BlobPart[]} parts
 * @param {string} name
 * @param {string} type
 */
export function download(parts, name, type) {
  const href = URL.createObjectURL(new Blob(parts, {type}));
  const link = element("a", "", {href, download: name});
  link.click();
  setTimeout(() => URL.revokeObjectURL(link.href), 60000);
}
