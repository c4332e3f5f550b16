// What the page knows. Every view reads it. Only actions change it, and call `notify` with the parts
// that they changed. Nothing here touches the page's elements.

import {DayClock} from "./dayclock.mjs";
import {HOUR} from "./units.mjs";

/** @typedef {import("./geometry.mjs").Edge} Edge */
/** @typedef {import("./layers.mjs").Layers} Layers */
/** @typedef {import("./connection.mjs").Connection} Connection */
/** @typedef {import("./changetexts.mjs").Listed} Listed */
/** @typedef {import("./rows.mjs").Road} Road */
/** @typedef {import("./types.mjs").Area} Area */
/** @typedef {import("./types.mjs").Change} Change */
/** @typedef {import("./types.mjs").Curve} Curve */
/** @typedef {import("./types.mjs").Days} Days */
/** @typedef {import("./types.mjs").DetectorFigures} DetectorFigures */
/** @typedef {import("./types.mjs").Figures} Figures */
/** @typedef {import("./types.mjs").Kind} Kind */
/** @typedef {import("./types.mjs").News} News */
/** @typedef {import("./types.mjs").Pending} Pending */
/** @typedef {import("./types.mjs").Place} Place */
/** @typedef {import("./types.mjs").Plan} Plan */
/** @typedef {import("./types.mjs").Preview} Preview */
/** @typedef {import("./types.mjs").Outcome} Outcome */
/** @typedef {import("./types.mjs").Seat} Seat */
/** @typedef {import("./types.mjs").Span} Span */
/** @typedef {import("./types.mjs").Stamp} Stamp */
/** @typedef {import("./types.mjs").Timing} Timing */
/** @typedef {import("./types.mjs").Welcome} Welcome */
/** @typedef {import("./types.mjs").Wishes} Wishes */
/** @typedef {import("./types.mjs").RoadName} RoadName */
/** @typedef {import("./types.mjs").Whose} Whose */
/** @typedef {ReturnType<typeof setTimeout>} Timer */
/** @typedef {"undo" | "redo"} Press */
/** @typedef {"asTable" | "past" | "roadsPart" | "series"} Fold     a part of the page that can be folded, by its id */
/** @typedef {"limit" | "watch" | "demand" | "inlet" | "site" | "slow" | "start" | "capacity"
 *           | "worksLimit" | "kmFrom" | "kmTo" | "timeFrom" | "timeTo"} Field     of the form, by its id */
/** @typedef {Record<Field, string>} FormValues   as they are typed */
/**
 * The question for a name, before joining: why the page asks, the seats that are not open in any tab,
 * the name that was used last, whether the question is shown, and the seat that is to be taken over.
 * @typedef {{why: string, free: Seat[], name?: string, asks?: boolean, takes?: number}} Hello
 *
 * A drag: the place and the pixel where it began, the edge of a change that it moves, the cell and
 * step in the plot's corner, whether the pointer has moved, and the rectangle that it draws.
 * @typedef {{at: Place, x: number, y: number, edge: {change: Change, edge: Edge} | null,
 *            cell: number, step: number, moved: boolean, area?: Area}} Drag
 *
 * The part of the road and of time that the diagram shows, in cells and steps.
 * @typedef {{cell: number, cells: number, step: number, span: number}} Extent
 *
 * A question for the changes of a road: whether to ask again, and a promise of its end.
 * @typedef {{again: boolean, done: Promise<void>}} Refresh
 */
/**
 * @typedef {object} Store
 *
 * The connection, and who is here.
 * @property {Connection | null} connection
 * @property {[text: string, isAway: boolean]} connectionText
 * @property {boolean} isAway          the connection is lost
 * @property {Welcome | null} me       this tab's seat
 * @property {{rows: number, bytes: number, days: number}} limits      of an answer
 * @property {string[]} others         names of who else is here
 * @property {Wishes | null} wishes    as whom to join
 * @property {Hello | null} hello
 * @property {string} brokerText       the last sentence of the broker
 * @property {{site: string, when: number}[]} sites     other sites, and when each was heard last
 * @property {string[]} siteFaults     what is wrong with sites
 * @property {string} programNote      a note that the program is not proved; "": it is
 * @property {string} closedNote       the note that this browser has closed
 * @property {string} trouble          what is wrong with the disk
 * @property {{why: string, timer: Timer | undefined}} replaced     why the program was replaced; ""
 *   after a while
 * @property {[text: string, isBad: boolean]} message   the sentence of the page's live region
 *
 * The road.
 * @property {Plan | null} plan
 * @property {DayClock} day            how its times are written
 * @property {{now: number, rate: number, stop: number | null}} clock   step, steps a second, and
 *   the step at which a fast clock stops
 * @property {number} forecastEnd      the step up to which the own road is shown ahead of the clock
 * @property {Partial<Record<RoadName, Road>>} roads     rows and sums
 * @property {Partial<Record<RoadName, Layers>>} layers  changes; a preview has those of `after`
 * @property {Map<RoadName, Refresh>} refreshes    questions for changes that are under way
 * @property {Map<string, Curve | Promise<Curve | null>>} curves     what inlets admit, by what it
 *   depends on; a promise until it is known
 *
 * Changes.
 * @property {Listed[]} changes        what the lists show
 * @property {News & {text: string}} news    what others shared and is not taken
 * @property {Map<string, Pending>} pending  by key: sent again after a break
 * @property {Map<string, Area>} waiting     demands and capacities that wait until they are measured
 * @property {boolean} isPersisted     the tab's storage has what is pending
 * @property {Press[]} undoPresses     of Undo and Redo, until it is known what they undo or redo
 * @property {Map<string, string>} notes     of this tab's operations, by stamps
 * @property {string} passedOver       the latest own operation that Undo has refused to undo
 * @property {Preview | null} preview
 * @property {Outcome | null} outcome    what the preview would change
 * @property {Days | null} days
 * @property {Timing[]} timings        of the latest gestures
 *
 * The tool and the form.
 * @property {Kind | "look"} tool
 * @property {FormValues} form
 * @property {Change | null} changeInForm     the change that the form edits
 * @property {Partial<FormValues>} formOfChange   the texts that it put into the form
 * @property {boolean} hasLetters      single letters choose tools
 *
 * What is shown of the road.
 * @property {Extent} extent
 * @property {[wide: number, high: number]} plot     pixels of the diagram's plot
 * @property {Whose} whose
 * @property {RoadName[]} chosen       to be compared and shown side by side, if they are two or more
 * @property {string[]} variants       names of the seat's variants
 * @property {RoadName[]} openLists     variants whose changes are listed
 * @property {"zoom" | "cars" | "means"} paint
 * @property {boolean} follows         the diagram follows the clock
 * @property {Record<Fold, boolean>} isOpen
 * @property {Area | null} area        the rectangle that is drawn
 * @property {Place | null} corner     the place where keys began the rectangle
 * @property {Place | null} cursor
 * @property {Drag | null} drag
 * @property {{when: number, x: number, y: number}} lastClick    on the diagram: milliseconds, pixels
 * @property {{place: Place, byKey: boolean} | null} reading     the place that is read out
 * @property {FiguresKnown} figures
 * @property {Series} series
 * @property {Set<string>} savedFiles     names of the files that were saved
 *
 * What is under way.
 * @property {number} openRowQuestions    questions for rows that have no answer yet
 * @property {Timer | null} idleTimer     until missing rows and figures are asked for
 * @property {boolean} isDrawing       the picture will be drawn at the next animation frame
 * @property {{whose: RoadName, every: number, steps: Span} | null} changedRows     the latest ones
 * @property {Set<keyof Store> | null} held     while a button is held down, the changed parts whose
 *   views would move it
 */
/**
 * Flow and speed by time of roads: their names, the period, the steps per point, and for each road
 * what its detectors counted in each span; the detector that is shown, and the one to which travel
 * times are shown (null: the road's end); the point and the minute of entry that are selected.
 * @typedef {{key: string, names: string[], from: number, to: number, each: number,
 *            flows: DetectorFigures[][][] | null, asking: boolean, site: number, end: number | null,
 *            point: number | null, minute: number | null}} Series
 */
/**
 * The figures of a period, in the order of the roads.
 * @typedef {object} FiguresKnown
 * @property {DetectorFigures[][] | null} counts     what the detectors of each road counted
 * @property {string} of               the roads and the period of the counts
 * @property {Span} wanted             the period to show
 * @property {string} key              of the roads with their versions, and the period of the counts
 * @property {Figures | null} exact    what is counted car by car
 * @property {string} exactKey         of the roads and the period of `exact`
 * @property {boolean} asking
 * @property {boolean} counting
 * @property {Timer | undefined} soon
 */

/** @type {Store} */
export const store = {
  connection: null, connectionText: ["connecting", false], isAway: false, me: null,
  limits: {rows: 1024, bytes: 1e6, days: 20}, others: [], wishes: null, hello: null,
  brokerText: "", sites: [], siteFaults: [], programNote: "", closedNote: "", trouble: "",
  replaced: {why: "", timer: undefined}, message: ["", false],

  plan: null, day: new DayClock(), clock: {now: 0, rate: 0, stop: null}, forecastEnd: 0, roads: {},
  layers: {}, refreshes: new Map(), curves: new Map(),

  changes: [], news: {size: 0, shares: [], from: [], text: ""}, pending: new Map(),
  waiting: new Map(), isPersisted: true, undoPresses: [], notes: new Map(), passedOver: "", preview: null,
  outcome: null, days: null, timings: [],

  tool: "look", changeInForm: null, formOfChange: {}, hasLetters: true,
  form: {limit: "2", watch: "0", demand: "1000", inlet: "0", site: "0", slow: "25", start: "50",
         capacity: "900", worksLimit: "2", kmFrom: "", kmTo: "", timeFrom: "", timeTo: ""},

  extent: {cell: 0, cells: 0, step: 0, span: HOUR}, plot: [800, 400], whose: "mine", chosen: [], variants: [],
  openLists: [],
  paint: "zoom",
  follows: true, isOpen: {asTable: false, past: false, roadsPart: false, series: false}, area: null, corner: null,
  cursor: null, drag: null, lastClick: {when: -Infinity, x: 0, y: 0}, reading: null,
  figures: {counts: null, of: "", wanted: [0, 0], key: "", exact: null, exactKey: "",
            asking: false, counting: false, soon: undefined},
  series: {key: "", names: [], from: 0, to: 0, each: 60, flows: null, asking: false, site: 0,
           end: null, point: null, minute: null},
  savedFiles: new Set(),

  openRowQuestions: 0, idleTimer: null, isDrawing: false, changedRows: null, held: null,
};

/** The roads that are always there.
 * @type {("mine" | "shared")[]}
 */
export const BOTH = ["mine", "shared"];

/** Return a part of the store that is there once the page has joined. Throw if it is not.
 * @template {keyof Store} Part
 * @param {Part} part
 * @returns {NonNullable<Store[Part]>}
 */
export function need(part) {
  const value = store[part];
  if (value === null || value === undefined) {
    throw new Error(`The page does not know its ${part} yet.`);
  }
  return value;
}

/** Return what the page has of a road. Throw before it has joined, or without a preview.
 * @param {RoadName} whose
 */
export function roadOf(whose) {
  const road = store.roads[whose];
  if (!road) throw new Error(`The page has no road ${whose}.`);
  return road;
}

/** Return the changes of a road. Throw before the page has joined, or without a preview.
 * @param {RoadName} whose
 */
export function layersOf(whose) {
  const layers = store.layers[whose];
  if (!layers) throw new Error(`The page has no changes of the road ${whose}.`);
  return layers;
}

/** @type {Map<keyof Store, (() => void)[]>} */
const watchers = new Map();

/** Call a view whenever one of these parts has changed.
 * @param {(keyof Store)[]} parts
 * @param {() => void} show
 */
export function watch(parts, show) {
  for (const part of parts) watchers.set(part, [...(watchers.get(part) ?? []), show]);
}

/** The parts whose views move buttons, or replace them.
 * @type {(keyof Store)[]}
 */
const MOVES = ["clock", "days", "figures", "connectionText", "changes", "news", "others", "outcome",
               "message", "sites", "siteFaults", "variants"];

/** Show parts that have changed in the views. Parts whose views move buttons wait until no button is
 * held down, so that a pressed button stays where it is.
 * @param {(keyof Store)[]} parts
 */
export function notify(...parts) {
  const {held} = store;
  const waits = held ? parts.filter((part) => MOVES.includes(part)) : [];
  for (const part of waits) held?.add(part);
  const shown = parts.filter((part) => !waits.includes(part));
  for (const show of new Set(shown.flatMap((part) => watchers.get(part) ?? []))) show();
}

/** Note that a button is held down. */
export function holdButton() {
  store.held ??= new Set();
}

/** Note that the button was released, and show the parts that have waited. */
export function releaseButton() {
  const parts = store.held ?? [];
  store.held = null;
  notify(...parts);
}

/** Say something in the page's one live region.
 * @param {string} text
 * @param {boolean} [bad]
 */
export function tell(text, bad = false) {
  store.message = [text, bad];
  notify("message");
}

/** Return the step of the clock. */
export const now = () => store.clock.now;

/** Return the last step that the own road shows. */
export const last = () => Math.max(store.clock.now, store.forecastEnd);

/** Ask whether this tab's seat made a change.
 * @param {Pick<Change, "seat">} change
 */
export const isOwn = ({seat}) => seat === need("me").seat;

/** Return the roads whose figures are shown; the others are compared with the first.
 * @returns {RoadName[]}
 */
export const figureRoads = () => (isBeside() ? store.chosen : ["shared", "mine"]);

/** Ask whether roads are chosen that are compared and shown side by side. */
export const isBeside = () => store.chosen.length > 1;

/** Return the roads that are shown: one, or those that are side by side, or two whose difference is
 * drawn, the first minus the second.
 * @returns {RoadName[]}
 */
export function whoseShown() {
  if (store.whose === "beside") return figureRoads();
  if (store.whose !== "both") return [store.whose];
  return store.outcome?.layers ? ["after", "before"] : ["mine", "shared"];
}

/** Return the changes of the road that is shown, of several those of the first. */
export const layersShown = () => layersOf(whoseShown()[0]);
