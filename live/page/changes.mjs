// Which changes are own, which are not shared, which are not taken. It reads the store.

import {findUndone, nextOf} from "./undo.mjs";
import {privateOf} from "./layers.mjs";
import {Words, newestFirst} from "./changetexts.mjs";
import {keyOf} from "./stamps.mjs";
import {need, layersOf, layersShown, store} from "./store.mjs";

/** @typedef {import("./undo.mjs").PendingGesture} PendingGesture */
/** @typedef {import("./types.mjs").Change} Change */
/** @typedef {import("./types.mjs").Shape} Shape */

/** Return words for the changes of the own road, or of another road. */
export const words = (layers = layersOf("mine")) => new Words(layers, need("me").seat);

/** Return words for the changes of the road that is shown. */
export const wordsShown = () => words(layersShown());

/** Return the changes that have something that is not shared. */
export const unshared = () => store.changes.map(({change}) => change)
  .filter((change) => privateOf(change).length);

/** Return the operations on a shared change that the own road does not hold.
 * @param {Change} change
 */
export function freshOf({name, operations}) {
  const there = layersOf("mine").find(name)?.operations ?? [];
  const held = new Set(there.map(({stamp}) => keyOf(stamp)));
  return operations.filter(({stamp}) => !held.has(keyOf(stamp)));
}

/** Return the changes of the shared road that the own one lacks, whole or in part. */
export const untaken = () => newestFirst([...layersOf("shared").changes.values()]
  .filter((change) => freshOf(change).length));

/** Return the names of those who made the operations of these changes that are not taken.
 * @param {Change[]} changes
 */
export const makers = (changes) => [...new Set(changes.flatMap(freshOf)
  .map(({who}) => who || "somebody"))];

/** @returns {PendingGesture[]} */
const pendingGestures = () => [...store.pending].map(([key, {does, undoes}]) => ({key, does, undoes}));

/** Return what Undo would undo and Redo would redo: a stamp, a key, null or undefined. */
export const next = () => nextOf(store.layers.mine ?? {undo: null, redo: null}, pendingGestures());

/** Return the shapes of pending gestures that no pending gesture undoes, and of demands that wait.
 * @returns {Shape[]}
 */
export function waitingShapes() {
  const gone = findUndone(pendingGestures());
  const pending = [...store.pending].flatMap(([key, {shape}]) => (shape && !gone.has(key) ? [shape] : []));
  return [...pending, ...[...store.waiting.values()].map(({shape}) => shape)];
}
