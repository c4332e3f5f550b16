// What the server sends, as objects with named fields, and back: stamps, shapes and parts of changes,
// figures. Another site may have sent anything: malformed parts are left out.

/** @typedef {import("./types.mjs").Answers} Answers */
/** @typedef {import("./types.mjs").Change} Change */
/** @typedef {import("./types.mjs").FigureRow} FigureRow */
/** @typedef {import("./types.mjs").Figures} Figures */
/** @typedef {import("./types.mjs").Gone} Gone */
/** @typedef {import("./types.mjs").Kind} Kind */
/** @typedef {import("./types.mjs").ListNews} ListNews */
/** @typedef {import("./types.mjs").Mean} Mean */
/** @typedef {import("./types.mjs").Rectangle} Rectangle */
/** @typedef {import("./types.mjs").Shape} Shape */
/** @typedef {import("./types.mjs").Stamp} Stamp */
/** @typedef {import("./types.mjs").WireAnswers} WireAnswers */
/** @typedef {import("./types.mjs").WireChange} WireChange */
/** @typedef {import("./types.mjs").WireFigures} WireFigures */
/** @typedef {import("./types.mjs").WireGone} WireGone */
/** @typedef {import("./types.mjs").WireLayers} WireLayers */
/** @typedef {import("./types.mjs").WireMean} WireMean */
/** @typedef {import("./types.mjs").WireOperation} WireOperation */
/** @typedef {import("./types.mjs").WireEntries} WireEntries */
/** @typedef {import("./types.mjs").WireFigureRow} WireFigureRow */
/** @typedef {import("./types.mjs").WireShape} WireShape */
/** @typedef {import("./types.mjs").WireStamp} WireStamp */
/** @typedef {import("./types.mjs").WireTrip} WireTrip */
/** @typedef {import("./types.mjs").Trip} Trip */

/** @type {readonly Kind[]} */
const KINDS = ["block", "limit", "slow", "start", "inflow", "watch", "capacity"];

/** Ask whether a value is the name of a kind.
 * @param {unknown} value
 * @returns {value is Kind}
 */
const isKind = (value) => KINDS.some((kind) => kind === value);

/** Ask whether a value is a whole number that is not negative.
 * @param {unknown} value
 * @returns {value is number}
 */
const isCount = (value) => Number.isInteger(value) && Number(value) >= 0;

/** Ask whether a value is a whole number.
 * @param {unknown} value
 * @returns {value is number}
 */
const isWhole = (value) => Number.isInteger(value);

/** Return a value as a list; an empty one if it is not a list.
 * @param {unknown} value
 * @returns {unknown[]}
 */
const listOf = (value) => (Array.isArray(value) ? value : []);

/** Return the stamp of [count, hash].
 * @param {WireStamp} wire
 * @returns {Stamp}
 */
export const decodeStamp = ([count, hash]) => ({count, hash});

/** Return [count, hash] of a stamp.
 * @param {Stamp} stamp
 * @returns {WireStamp}
 */
export const encodeStamp = ({count, hash}) => [count, hash];

/** Return the stamp of [count, hash]; null of null.
 * @param {WireStamp | null | undefined} wire
 */
const decodeIfAny = (wire) => (wire ? decodeStamp(wire) : null);

/** Return the shape of [kind, first, last, from, until, value]; null if it is malformed.
 * @param {unknown} wire
 * @returns {Shape | null}
 */
export function decodeShape(wire) {
  const [kind, first, last, from, to, value] = listOf(wire);
  if (!isKind(kind) || !isCount(first) || !isCount(last) || !isCount(from)) return null;
  if (to !== null && !isCount(to)) return null;
  const [cars, limit, ...chances] = kind === "capacity" ? listOf(value) : [value, 0];
  if (!isWhole(cars) || !isWhole(limit) || !chances.every(isWhole)) return null;
  return {kind, first, last, from, to, value: cars, ...(kind === "capacity" ? {limit, chances} : {})};
}

/** Return an inflow with the demand that it is for, if that is known; another shape as it is.
 * @template {Shape | null} Some
 * @param {Some} shape
 * @param {unknown} demand     cars per hour
 * @returns {Some}
 */
const withDemand = (shape, demand) =>
  (shape?.kind === "inflow" && typeof demand === "number" ? {...shape, demand} : shape);

/** Return [kind, first, last, from, until, value] of a shape.
 * @param {Shape} shape
 * @returns {WireShape}
 */
export const encodeShape = ({kind, first, last, from, to, value, limit, chances}) =>
  [kind, first, last, from, to, limit !== undefined && chances ? [value, limit, ...chances] : value];

/** Return the parts of a change of [kind, first, last, from, until, value, by].
 * @param {unknown} wire
 * @returns {Rectangle[]}
 */
export const decodeParts = (wire) => listOf(wire).flatMap((part) => {
  const [shape, by] = [decodeShape(part), listOf(part)[6]];
  const [count, hash] = listOf(by);
  const over = isCount(count) && typeof hash === "string" ? {count, hash} : null;
  return shape && (by === null || over) ? [{...shape, by: over}] : [];
});

/** Return an operation on a change.
 * @param {WireOperation} wire
 */
const decodeOperation = ({stamp, undoes, lost, shape, demand, ...wire}) =>
  ({...wire, stamp: decodeStamp(stamp), undoes: decodeIfAny(undoes), lost: decodeIfAny(lost),
    ...(shape ? {shape: withDemand(decodeShape(shape), demand)} : {})});

/** Return a change, or the entry that says that one is gone.
 * @param {WireChange | WireGone} wire
 * @returns {Change | Gone}
 */
export function decodeChange(wire) {
  const name = decodeStamp(wire.name);
  if ("gone" in wire) return {name, gone: true};
  const {shape, shown, covered, operations, was, demand, site = null, ...rest} = wire;
  const decode = (/** @type {unknown} */ parts) =>
    decodeParts(parts).map((part) => withDemand(part, demand));
  return {...rest, name, site, shape: withDemand(decodeShape(shape), demand), shown: decode(shown), covered: decode(covered),
          operations: operations.map(decodeOperation), ...(was === undefined ? {} : {was: was && decode(was)})};
}

/** Return the changes that differ from an earlier version of the list, and what Undo and Redo would
 * do.
 * @param {WireLayers} wire
 * @returns {ListNews}
 */
export const decodeList = ({layers, next, since, more = false, undo, redo, blocked = []}) =>
  ({layers: layers.map(decodeChange), next, since, more, undo: decodeIfAny(undo),
    redo: decodeIfAny(redo),
    blocked: blocked.map(({stamp, by}) => ({stamp: decodeStamp(stamp), by}))});

/** Return how many cars arrived at a place, and their mean travel time in seconds.
 * @param {WireTrip} wire
 * @returns {Trip}
 */
const decodeTrip = ([cars, seconds]) => ({cars, seconds});

/** Return travel times by the minute of entry, in the order of minutes.
 * @param {WireEntries} wire
 */
const decodeEntries = (wire) => Object.entries(wire)
  .map(([step, trips]) => ({step: Number(step), trips: trips.map(decodeTrip)}))
  .sort((one, other) => one.step - other.step);

/** Return the mean of [mean, half-width of its interval].
 * @param {WireMean} wire
 * @returns {Mean}
 */
const decodeMean = ([mean, half]) => ({mean, half});

/** Return a figure of roads.
 * @param {WireFigureRow} wire
 * @returns {FigureRow}
 */
const decodeRow = ({values, differences, ...wire}) => ({...wire, values: values.map(decodeMean),
  differences: differences.map(decodeMean)});

/** Return the figures of roads.
 * @param {WireFigures} wire
 * @returns {Figures}
 */
export const decodeFigures = ({figures, entries, ...wire}) => ({...wire,
  figures: figures.map(decodeRow), entries: entries.map(decodeEntries)});

/** Return the figures of many days.
 * @param {WireAnswers["days"]} wire
 * @returns {Answers["days"]}
 */
export const decodeDays = ({figures = [], ...wire}) => ({...wire, figures: figures.map(decodeRow)});

/** Return the answer to a gesture.
 * @param {WireAnswers["gesture"]} wire
 * @returns {Answers["gesture"]}
 */
const decodeDone = (wire) => ({...decodeList(wire), stamp: decodeStamp(wire.stamp),
                               touched: wire.touched, us: wire.us});

/** Return an answer as it was sent: it needs no decoding.
 * @template Answer
 * @param {Answer} wire
 */
const asSent = (wire) => wire;

/** @type {{[Verb in keyof Answers]: (wire: WireAnswers[Verb]) => Answers[Verb]}} */
const DECODERS = {
  gesture: decodeDone, again: decodeDone, site: decodeDone, undo: decodeDone,
  take: (wire) => ({...decodeList(wire), touched: wire.touched}), layers: decodeList,
  preview: ({layers = []}) => ({layers: layers.map(decodeChange)}), figures: decodeFigures,
  days: decodeDays, send: asSent, advance: asSent, diagram: asSent, counts: asSent, sums: asSent,
  admission: asSent, capacity: asSent, script: asSent, report: asSent, transcript: asSent, csv: asSent,
  clock: asSent, variant: asSent,
};

/** Return the answer to a command, with named fields.
 * @template {keyof Answers} Verb
 * @param {Verb} verb
 * @param {WireAnswers[Verb]} wire
 * @returns {Answers[Verb]}
 */
export const decodeAnswer = (verb, wire) => DECODERS[verb](wire);
