// Actions: the names of the files that are saved.

import {store} from "./store.mjs";

/** Return a name that no other saved file has: this one, or the same with a number.
 * @param {string} stem
 * @param {string} ending    with its dot
 */
export function claimFileName(stem, ending) {
  let name = stem + ending;
  for (let count = 2; store.savedFiles.has(name); count++) name = `${stem}-${count}${ending}`;
  store.savedFiles.add(name);
  return name;
}
