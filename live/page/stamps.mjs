// Stamps, the names of operations. Of two stamps the greater one is the later.

/** @typedef {import("./types.mjs").Stamp} Stamp */

/** Compare two stamps: negative if the first is smaller, 0 if they are equal.
 * @param {Stamp} one
 * @param {Stamp} other
 */
export const byStamp = (one, other) =>
  one.count - other.count || Number(one.hash > other.hash) - Number(one.hash < other.hash);

/** Return a stamp as the key of a map.
 * @param {Stamp} stamp
 */
export const keyOf = ({count, hash}) => `${count}.${hash}`;
