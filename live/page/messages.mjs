// All sentences in which the page says that something is wrong, refused, done or under way: what it
// is, where, and what to do. What changes are called is in shapetexts.mjs.

import {listText} from "./roadnames.mjs";
import {PER_LANE, plural, whole} from "./units.mjs";

/** Return one of two words: the first if a count is 1.
 * @param {number} count
 * @param {string} one
 * @param {string} more
 */
const byCount = (count, one, more) => (count === 1 ? one : more);

/** Return a reason as the end of a sentence, with one full stop.
 * @param {string} why
 */
const ended = (why) => `${why.replace(/\.$/, "")}.`;

// The connection, seats and sites.

export const CONNECTING = "connecting";
export const CONNECTED = "connected";
export const RECONNECTING = "no connection, retrying";
export const CONNECTION_CLOSED = "connection closed";
export const CONNECTION_BACK = "The connection is back.";
export const NOT_PERSISTED = "Pending changes are not stored in this tab. Closing it loses them.";

/** @param {boolean} isPersisted */
export const connectionLost = (isPersisted) => "There is no connection; the page is retrying. "
  + (isPersisted ? "Changes that you make now are stored in this tab, and sent once the connection is back."
    : "Changes that you make now are sent once the connection is back, unless you close or reload "
      + "this tab.");

/**
 * @param {string} reason    of the server
 * @param {boolean} isTakenOver      somebody has taken over the seat
 */
export const connectionClosed = (reason, isTakenOver) =>
  `The server closed the connection: ${ended(reason)}`
  + (isTakenOver ? " Reload the page to join in another seat." : "");

/** @param {number} count */
export const otherSites = (count, isSealed = true) =>
  `, with ${plural(count, "other site")}${isSealed ? "" : " (messages are not authenticated)"}`;

/** @param {number} behind */
export const receiving = (behind) => `; receiving, ${plural(behind, "message")} behind`;

/** @param {number} unsent */
export const brokerAway = (unsent) =>
  `${CONNECTED}; the broker is unreachable, ${plural(unsent, "change")} not sent yet`;

/** @type {(seats: number) => string} */
export const pendingOfOtherSeat = (count) => `${plural(count, "unsent change")} `
  + `${byCount(count, "was", "were")} lost, because this tab joined in another seat.`;

/** @param {string} owner */
export const takeOver = (owner) =>
  `Whoever is using the seat of ${owner}, a person or a script, will lose it. `;

/** @param {string} why       why the program is not the proved one of this version */
export const standing = (why) => (why.includes("earlier source text")
  ? "The road is computed by an earlier version of the program."
  : "The program that computes the road is tested; its proof has not been run on this computer.");

export const TROUBLE_OVER = "The server is working again.";

/** @param {string} why */
export const programReplaced = (why) => `The program was restarted: ${why}`;

/** @param {string} refused   the refusal's name */
export const refusedWithoutReason = (refused) =>
  `The server refused this (${refused}), and gave no reason.`;

// The clock.

export const CLOCK_NOT_SET = "The clock was not set: there is no connection. Try again once it is back.";
export const CLOCK_STOPPED = "The clock stopped: above 60\u00d7 it runs for one hour at most.";

/** @param {number} hours */
export const farthestAhead = (hours) =>
  `Your road is already ${hours} hours ahead of the clock, which is the limit.`;

/** @param {string} text */
export const skippedTime = (text) =>
  `${text} does not exist: a clock change skips it. Type another time.`;

/**
 * @param {string} text      what was typed
 * @param {string | null} begin     the time of day of step 0
 */
export const notATime = (text, begin) =>
  `${text ? `\u201c${text}\u201d is not a time` : "The beginning is missing"}. Type ${begin === null
    ? "0:20, 0:20:30 or, in minutes, 20." : `7:00, 07:00:30 or, in minutes after ${begin}, 20.`}`;

// Drawing changes.

export const CHOOSE_TOOL = "Choose a tool first, for example C to close or L to limit the speed.";
export const TOO_FEW_ZONES =
  "This covers less than half of a zone. Hold Shift to take every zone that it touches.";
export const END_BEFORE_BEGIN = "The end must be later than the beginning.";
export const CHANCE_OUT_OF_RANGE = "The chance is out of range: 0 to 100 %.";
export const CAPACITY_OUT_OF_RANGE =
  "The capacity must be a number of cars per hour per lane above 0. A total closure is a change of its own: Close.";
export const MEASURED_WHEN_PUT = "Once you put it, the server measures which slowing leaves it.";
export const WAITS_FOR_CAPACITY = "Waits until the server has measured which slowing leaves this capacity.";

/** @type {(done: number, all: number) => string} */
export const measuringInlet = (done, all) => "The server is measuring what this inlet admits"
  + `${all > 1 ? `, ${done + 1} of ${all}` : ""}. A demand that you put waits for it.`;

/** @type {(done: number, all: number) => string} */
export const waitsForInlet = (done, all) =>
  `Waits until the server has measured what this inlet admits${all > 1 ? `, ${done + 1} of ${all}` : ""}.`;

/** @param {string} note     of the change */
export const notMeasured = (note) =>
  `${note}: not put, because the server could not measure this. Put it again.`;

/** @type {(done: number, all: number) => string} */
export const measuringDemands = (done, all) =>
  `The server is measuring what inlets admit, ${done + 1} of ${all}.`;

/**
 * @param {string} begin     of the road, in km
 * @param {string} end
 */
export const placesOutOfRange = (begin, end) =>
  `Type two places from ${begin} to ${end} km, the smaller first.`;

/** @param {string} end      of the clock */
export const tooLate = (end) => `This is too late: the road's clock ends at ${end}.`;

/** @param {string} most     km */
export const tooLong = (most) => `This is too long: one closure is at most ${most} km.`;

/**
 * @param {number} capacity  cars per hour
 * @param {string} limit
 * @param {string} slowing
 * @param {boolean} isPassed
 */
export const demandOutOfRange = (capacity, limit, slowing, isPassed) =>
  `The demand is out of range: this inlet admits 0 to ${whole(capacity)} cars per hour per lane (limit `
  + `${limit}, slowing ${slowing})${isPassed ? ", on top of the cars that already pass it" : ""}.`;

/** @param {string} note     of the change */
export const nothingChanged = (note) => `${note}: it is so already, nothing was changed.`;

/**
 * @param {string} note      of the change, or "Undone: .."
 * @param {boolean} isUndo   or a redo
 * @param {boolean} isUnseen     the page shows the shared road, which it does not change
 * @param {number} waiting   changes that are not put yet
 */
export const done = (note, isUndo, isUnseen, waiting) =>
  `${note}${isUndo || waiting ? "" : ": done"}${isUnseen ? ", on your own road" : ""}`
  + `${waiting ? `; ${plural(waiting, "change is", "changes are")} waiting` : ""}.`;

// Undo and redo.

export const NOTHING_TO_UNDO = "There is nothing of yours to undo.";
export const NOTHING_TO_REDO = "There is nothing of yours to redo.";

/**
 * @param {string[]} others  who
 * @param {string} note      of the change
 * @param {boolean} isLast   there is nothing to undo before it
 */
export const undoBlocked = (others, note, isLast) =>
  `Your last change cannot be undone${note ? ` (${note})` : ""}: `
  + `${others.join(" and ") || "somebody"} ${others.length > 1 ? "have" : "has"} changed it since. ${isLast
    ? "There is nothing else of yours to undo." : "Press Undo again to undo the one before it."}`;

// Variants.

export const NOT_NAMED = "The variant was not changed: there is no connection. Try again once it is back.";
export const OF_FILE = "the file's road";
export const COMPARED_WITH = " the others are compared with it";

/**
 * @param {string} name
 * @param {number} waiting   changes that are not confirmed yet
 * @param {boolean} isNew    no other road had this name
 */
export const named = (name, waiting, isNew) => `Your road is kept as “${name}”${waiting
  ? `, without ${plural(waiting, "change")} that ${byCount(waiting, "is", "are")} waiting` : ""}.${isNew
  ? "" : " The road that had this name is no longer kept."}`;
/** @param {string} name */
export const variantRemoved = (name) => `“${name}” is no longer kept.`;
/** @param {number} most */
export const mostRoads = (most) => `At most ${most} roads are shown side by side. Choose one less first.`;

// Sharing and taking.

export const NOT_SHARED = "Nothing was shared: there is no connection. Share again once it is back.";
export const NOT_TAKEN = "Nothing was taken: there is no connection. Take again once it is back.";
export const COMPUTING = "Computing: both roads are being simulated again.";
export const NOTHING_COVERED = "Nothing would be covered or uncovered.";

/** @param {number} count */
export const shared = (count) => `Shared ${plural(count, "change")}.`;

/**
 * @param {number} count
 * @param {string[]} makers
 * @param {number} covered   own changes
 */
export const taken = (count, makers, covered) =>
  `Took ${plural(count, "change")}${makers.length ? ` from ${makers.join(", ")}` : ""}. ${covered
    ? `They cover ${covered} of your changes, wholly or in part.`
    : "They cover none of your changes."}`;

/**
 * @param {string[]} from    who
 * @param {number} count
 * @param {string} titles
 */
export const newlyShared = (from, count, titles) => `${from.join(", ") || "Somebody"} shared `
  + `${plural(count, "change")}${titles && ": " + titles}.`;

// Figures, reports and files.

export const NOTHING_COMPUTED =
  "There are no figures yet: run the clock for at least a minute, or show an earlier time.";
export const NO_PICTURE =
  "The browser could not make a picture of the diagram. Make the window smaller, and try again.";
export const SAVING = "Saving \u2026";
/** @param {number} days */
export const makingReport = (days) => `Making the report: all roads are simulated over ${plural(days, "day")} \u2026`;
export const READ_FIGURES = "Delay: of cars that both roads have.";
export const ALL_LANES =
  `All figures are ${PER_LANE}: for the whole road multiply cars, flows and vehicle hours by the number of lanes.`;
export const PAUSE_FOR_FIGURES =
  "Lost demand, delay and travel times are counted car by car: pause the clock to see them.";

/** @param {number} days */
export const daysStopped = (days) =>
  `A road has changed, so the comparison over ${days} days was stopped. Start it again to compare the roads as they are now.`;

/** @param {string} name */
export const savedFile = (name) => `Saved ${name}.`;
/** @param {string} name */
export const savedPicture = (name) => `Saved ${name}: the diagram as shown.`;
/** @param {string} name */
export const savedReport = (name) => `Saved ${name}: any browser shows it, and prints it on A4.`;
/**
 * @param {number} days      of a report
 * @param {number} most      days that the page simulates
 */
export const daysOfReport = (days, most) => `It has ${days} days; for ${most}, press \u201cOver ${most} days\u201d first.`;
/**
 * @param {string} name
 * @param {number} metres    of a cell
 * @param {number} origin    the cell at km 0
 */
export const savedTranscript = (name, metres, origin) =>
  `Saved ${name}: open it in the viewer, with ${metres} metres a cell and 1 second a step.`
  + (origin ? " The viewer counts km from the head of the approach." : "");
/**
 * @param {string[]} names
 * @param {number} metres    of a cell
 * @param {number} origin    the cell at km 0
 * @param {number} begin     the step at minute 0
 */
export const savedScripts = (names, metres, origin, begin) =>
  `Saved ${listText(names)}: road_lab runs each, and recipes/delay compares ${names.length > 2 ? "two of them" : "them"}.`
  + (origin ? ` It counts from km 0 and minute 0 if a file units.json beside them has ${JSON.stringify({metres, seconds: 1, origin, begin})}.` : "");

// Warnings.

/**
 * @param {string} place     of the inlet, in km
 * @param {number} asked     cars
 * @param {number} lost
 */
export const demandLost = (place, asked, lost) =>
  `The inlet at ${place} km admits ${whole(asked - lost)} of ${plural(asked, "car")}. The other `
  + `${whole(lost)} never enter, so counts and vehicle hours do not include them.`;

/** @param {string} time     of the file's end */
export const demandEnded = (time) =>
  `The demand in the road's file ends at ${time}. From then on, its last values apply.`;

/**
 * @param {number} count
 * @param {string} from
 * @param {string} to
 */
export const changesOutside = (count, from, to) =>
  `${plural(count, "of your private changes lies", "of your private changes lie")} outside ${from} to `
  + `${to}, the period of these figures. Choose Show in the list of changes.`;

/**
 * @param {number} count
 * @param {string} road
 * @param {string} from
 * @param {string} to
 */
export const changesOfVariantOutside = (count, road, from, to) =>
  `${plural(count, "change")} of ${road} ${byCount(count, "lies", "lie")} outside ${from} to ${to}, the period of these figures.`;

/**
 * @param {number} cars
 * @param {string} places
 * @param {string | null} end     when it opens; null: never
 */
export const carsTrapped = (cars, places, end) =>
  `${plural(cars, "car is", "cars are")} stuck in the closure at ${places}`
  + `${end === null ? ", which never opens" : ` until it opens at ${end}`}.`;
