// View: the roads that can be compared and shown side by side, with the changes of the variants, and the
// field that names the present road.

import {listChanges} from "./changetexts.mjs";
import {$, button, element, on, showList} from "./elements.mjs";
import * as messages from "./messages.mjs";
import {roadOfVariant, roadText, variantOf} from "./roadnames.mjs";
import {need, store, watch} from "./store.mjs";
import {plural} from "./units.mjs";
import {chooseRoad, nameVariant, openList, removeVariant, showRoads} from "./variants.mjs";

/** @typedef {import("./types.mjs").RoadName} RoadName */

/** @type {RoadName[]} */
const ALWAYS = ["shared", "mine", "file"];

/** Return the texts of the changes of a variant; null until they are known.
 * @param {RoadName} road
 */
function textsOf(road) {
  const layers = store.layers[road];
  if (!layers || store.refreshes.has(road)) return null;
  return listChanges(layers, need("me").seat).map(({text, meta, cover}) => ({text, meta, cover}));
}

/** Make the list of the changes of a variant, to be unfolded.
 * @param {RoadName} road
 * @param {NonNullable<ReturnType<typeof textsOf>>} texts
 */
function changesElement(road, texts) {
  const isOpen = store.openLists.includes(road);
  const list = element("details", "", {open: isOpen, ariaLabel: `Changes of ${roadText(road)}`},
    element("summary", plural(texts.length, "change")),
    element("ol", "", {}, ...texts.map(({text, meta, cover}) => element("li", "", {},
      element("p", text, {className: "note"}), element("p", meta, {className: "hint"}),
      ...(cover ? [element("p", cover, {className: "loss"})] : [])))));
  list.addEventListener("toggle", () => openList(road, list.open));
  return list;
}

/** Make the line of a road: whether it is chosen, and for a variant the button that removes it, and its
 * changes.
 * @param {RoadName} road
 * @returns {import("./elements.mjs").Item}
 */
function itemOf(road) {
  const name = variantOf(road);
  const place = store.chosen.indexOf(road);
  const isFirst = place === 0 && store.chosen.length > 1;
  const texts = name === null ? null : textsOf(road);
  const make = () => {
    const box = element("input", "", {type: "checkbox", checked: place >= 0});
    box.addEventListener("change", () => {
      chooseRoad(road, box.checked);
      box.checked = store.chosen.includes(road);
    });
    return element("li", "", {}, element("label", "", {}, box, ` ${road === "file" ? messages.OF_FILE : roadText(road)}`),
      ...(isFirst ? [element("span", messages.COMPARED_WITH, {className: "hint"})] : []),
      ...(name === null ? [] : [button("Remove", () => removeVariant(name), roadText(road))]),
      ...(texts ? [changesElement(road, texts)] : []));
  };
  return {key: road, version: JSON.stringify([place >= 0, isFirst, texts]), make};
}

/** Show the roads, and whether the diagram can show several. */
function show() {
  if (!store.me) return;
  showList($("roadList"), [...ALWAYS, ...store.variants.map(roadOfVariant)].map(itemOf));
  $("besideChoice").hidden = store.chosen.length < 2;
  $("roadsPart").hidden = Boolean(store.preview);
}

/** Listen to the store and to the page. */
export function begin() {
  on("variantForm", "submit", (event) => {
    event.preventDefault();
    nameVariant($("variantName").value);
    $("variantName").value = "";
  });
  on("roadsPart", "toggle", () => showRoads($("roadsPart").open));
  watch(["me", "variants", "preview", "curves"], show);
}
