// What roads are called, and in which order tables show them. Of roads that are compared, the first one is
// the one that the others are compared with.

/** @typedef {import("./types.mjs").RoadName} RoadName */

const VARIANT = "variant:";

/** Return the name of the road of a variant.
 * @param {string} name
 * @returns {RoadName}
 */
export const roadOfVariant = (name) => `variant:${name}`;

/** Return the name of a variant; null of another road.
 * @param {RoadName} road
 */
export const variantOf = (road) => (road.startsWith(VARIANT) ? road.slice(VARIANT.length) : null);

/** Return what a road is called.
 * @param {RoadName} road
 */
export function roadText(road) {
  const name = variantOf(road);
  return name === null ? road : `“${name}”`;
}

/** Return the places of roads in the order in which tables show them: mine goes before the shared road
 * if these two are compared.
 * @param {RoadName[]} roads
 */
export const orderOf = (roads) => (roads.join() === "shared,mine" ? [1, 0] : roads.map((_, place) => place));

/** Return what each later road is called in comparison with the first.
 * @param {RoadName[]} roads
 * @param {string} [minus]
 */
export const changeTexts = ([first, ...others], minus = "minus") =>
  others.map((road) => `${roadText(road)} ${minus} ${roadText(first)}`);

/** Return texts as a list in a sentence.
 * @param {string[]} texts
 */
export const listText = (texts) => [texts.slice(0, -1).join(", "), ...texts.slice(-1)].filter(Boolean).join(" and ");

/** Return what roads are called in a sentence.
 * @param {RoadName[]} roads
 * @param {string} own       whose road `mine` is
 */
export const roadsText = (roads, own) => listText(roads.map((road) => {
  if (road === "mine") return `the road of ${own}`;
  if (road === "shared") return "the shared road";
  return road === "file" ? "the file's road" : roadText(road);
}));

/** Return a sentence's text with a capital first letter.
 * @param {string} text
 */
export const capital = (text) => text.slice(0, 1).toUpperCase() + text.slice(1);
