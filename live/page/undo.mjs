// What Undo undoes and Redo redoes: with each press the last operation, confirmed or pending. The
// server says which confirmed operation that is; pending ones come after it, in their order.

/** @typedef {import("./types.mjs").Stamp} Stamp */
/**
 * A pending gesture, by its key; `undoes` is the key or the stamp of what it undoes or redoes.
 * @typedef {{key: string, does: "apply" | "undo" | "redo", undoes?: string | Stamp}} PendingGesture
 *
 * What to undo or redo: a stamp, or the key of a pending gesture; null: nothing; undefined: not known
 * until the pending gestures are confirmed.
 * @typedef {Stamp | string | null | undefined} Target
 */

/** Return what Undo would undo and Redo would redo.
 * @param {{undo: Stamp | null, redo: Stamp | null}} confirmed
 * @param {PendingGesture[]} pending     the oldest first
 * @returns {{undo: Target, redo: Target}}
 */
export function nextOf({undo, redo}, pending) {
  /** @type {(Stamp | string | null)[]} */
  const undos = [undo];
  /** @type {(Stamp | string | null)[]} */
  const redos = [redo];
  for (const {key, does} of pending) {
    if (does === "undo") undos.pop();
    if (does === "redo") redos.pop();
    if (does === "undo") redos.push(key);
    else undos.push(key);
    if (does === "apply") redos.splice(0, redos.length, null);
  }
  return {undo: undos.at(-1), redo: redos.at(-1)};
}

/** Return the keys and stamps of what pending gestures undo, unless these are undone themselves.
 * @param {PendingGesture[]} pending
 */
export function findUndone(pending) {
  const gone = new Set();
  for (const {key, undoes} of [...pending].reverse()) if (!gone.has(key)) gone.add(undoes);
  return gone;
}
