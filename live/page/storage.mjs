// What is kept over a reload: pending changes in the tab's storage, until they are confirmed; and in
// that of the browser its seats, so that it has them again after it was closed, and the roads that are
// chosen in them.

/** @typedef {import("./types.mjs").Pending} Pending */

const NAME = "pending";

/** Store the pending gestures of a seat. Return whether that succeeded.
 * @param {Storage} storage
 * @param {string} at        the seat
 * @param {Map<string, Pending>} pending     by key
 */
export function storePending(storage, at, pending) {
  try {
    storage.setItem(NAME, JSON.stringify({at, acts: [...pending]}));
    return true;
  } catch {
    return false;
  }
}

/** Return a gesture that an older page may have stored, as this page has it: its shape was an array, and
 * `does` had another word for "apply".
 * @param {Pending} gesture
 * @returns {Pending}
 */
const modernize = (gesture) => ({...gesture, ...(Array.isArray(gesture.shape) ? {shape: null} : {}),
                             does: gesture.does === "undo" || gesture.does === "redo" ? gesture.does : "apply"});

/** Return whether a stored value is an object.
 * @param {unknown} value
 * @returns {value is Record<string, unknown>}
 */
const isObject = (value) => typeof value === "object" && value !== null && !Array.isArray(value);

/** Return whether a stored value is a gesture with its key. Others, which no page wrote, are ignored.
 * @param {unknown} value
 * @returns {value is [string, Pending]}
 */
const isGesture = (value) => Array.isArray(value) && typeof value[0] === "string" && isObject(value[1]);

/** Return the stored gestures, and their seat; "" if nothing is stored.
 * @param {Storage} storage
 * @returns {{at: string, gestures: [string, Pending][]}}
 */
export function loadPending(storage) {
  try {
    /** @type {{at?: unknown, acts?: unknown}} */
    const found = JSON.parse(storage.getItem(NAME) ?? "{}");
    const acts = Array.isArray(found.acts) ? found.acts : [];
    return {at: typeof found.at === "string" ? found.at : "",
            gestures: acts.filter(isGesture).map(([key, gesture]) => [key, modernize(gesture)])};
  } catch {
    return {at: "", gestures: []};
  }
}

/** Return a text that this browser keeps for this address; "" if it keeps none.
 * @param {string} name
 */
export function remembered(name) {
  try {
    return localStorage.getItem(name) ?? "";
  } catch {
    return "";
  }
}

/** Keep a text in this browser. A browser that keeps nothing forgets it with the tab.
 * @param {string} name
 * @param {string} text
 */
export function remember(name, text) {
  try {
    localStorage.setItem(name, text);
  } catch {
    // It asks for a name again, or shows a note again.
  }
}

const MOST_SEATS = 8;           // seats that a browser keeps
/** @typedef {import("./types.mjs").RoadName} RoadName */
/**
 * A seat, and the roads that are chosen in it, which an older page did not keep.
 * @typedef {{seat: number, key: string, chosen?: RoadName[]}} KeptSeat
 */

/** Return whether a stored value is a seat. Others, which no page wrote, are ignored.
 * @param {unknown} value
 * @returns {value is KeptSeat}
 */
const isSeat = (value) => isObject(value) && Number.isInteger(value.seat) && typeof value.key === "string"
  && (value.chosen === undefined || Array.isArray(value.chosen) && value.chosen.every((one) => typeof one === "string"));

/** Return the seats that this browser had, the latest last.
 * @returns {KeptSeat[]}
 */
export function loadSeats() {
  try {
    /** @type {unknown} */
    const found = JSON.parse(remembered("seats") || "[]");
    return Array.isArray(found) ? found.filter(isSeat) : [];
  } catch {
    return [];
  }
}

/** Return the roads that were chosen in a seat.
 * @param {{seat: number, key: string}} of
 * @returns {RoadName[]}
 */
export const loadChosen = ({seat, key}) =>
  loadSeats().find((one) => one.seat === seat && one.key === key)?.chosen ?? [];

/** Keep a seat as the latest, with the roads that are chosen in it.
 * @param {{seat: number, key: string}} of
 * @param {RoadName[]} chosen
 */
export function storeSeat({seat, key}, chosen) {
  const seats = [...loadSeats().filter((one) => one.seat !== seat), {seat, key, chosen}];
  remember("seats", JSON.stringify(seats.slice(-MOST_SEATS)));
}
