// Means of days, or values of one day, as text. `half` is half the width of the 95 % interval; it is
// null if there was only one day. A `mean` that is null is not known.

import {signedText} from "./units.mjs";

/** @typedef {import("./types.mjs").Mean} Mean */

/** Return a number with some decimals, as text.
 * @param {number} value
 * @param {number} digits
 */
const text = (value, digits) => value.toLocaleString("en",
  {minimumFractionDigits: digits, maximumFractionDigits: digits});

/** Return a mean, as text; "" if it is not known.
 * @param {Mean} mean
 * @param {number} digits    decimals
 */
export const meanText = ({mean}, digits) => (mean === null ? "" : text(mean, digits));
/** Return half the width of the interval, as text; "" after one day.
 * @param {Mean} mean
 * @param {number} digits    decimals
 */
export const halfText = ({half}, digits) => (half === null ? "" : `\u00b1 ${text(half, digits)}`);
/** Return a difference with its sign, as text; "" if it is not known.
 * @param {Mean} mean
 * @param {number} digits    decimals
 */
export const changeText = ({mean}, digits) => (mean === null ? "" : signedText(mean, digits));

/** Return the interval of a difference, as text: if it contains 0, the difference may be chance.
 * @param {Mean} mean
 * @param {number} digits    decimals
 */
export function sureText({mean, half}, digits) {
  if (mean === null || half === null) return "";
  if (mean === 0 && half === 0) return "the same each day";
  return halfText({mean, half}, digits) + (Math.abs(mean) <= half ? ", may be chance" : "");
}
