// Actions: the connection to the server, who this tab is, and the server's messages.

import {assign} from "./assign.mjs";
import {refreshDiagram} from "./navigation.mjs";
import {askPreview, restorePending, persistPending, refreshChanges, send} from "./changeactions.mjs";
import {untaken} from "./changes.mjs";
import {hearDays} from "./comparison.mjs";
import {curveAt} from "./measurements.mjs";
import {Connection, TAKEN_OVER} from "./connection.mjs";
import {DayClock} from "./dayclock.mjs";
import {loadChosen, loadSeats, remember, remembered, storeSeat} from "./storage.mjs";
import {Layers} from "./layers.mjs";
import * as messages from "./messages.mjs";
import {Road} from "./rows.mjs";
import {BOTH, notify, need, layersOf, roadOf, store, tell} from "./store.mjs";
import {titlesOf} from "./changetexts.mjs";
import {renewFixed, takeVariants} from "./variants.mjs";

/** @typedef {import("./types.mjs").Broker} Broker */
/** @typedef {import("./types.mjs").News} News */
/** @typedef {import("./types.mjs").Plan} Plan */
/** @typedef {import("./types.mjs").Refusal} Refusal */
/** @typedef {import("./types.mjs").Seat} Seat */
/** @typedef {import("./types.mjs").Welcome} Welcome */
/** @typedef {import("./types.mjs").Wishes} Wishes */
/** @typedef {import("./types.mjs").Pushed} Pushed */
/** @typedef {{welcome: Welcome} | (Refusal & {seats?: Seat[]})} HelloAnswer */

const TAB_FORM = 8;             // version of the protocol with the server
const REPLACED_SHOWN = 60_000;  // milliseconds for which the page shows that the program was restarted
/** @type {(name: string) => string} */
const stored = (name) => sessionStorage.getItem(name) ?? "";

/** Take the token from the address, and out of the address bar. */
export function takeToken() {
  if (!location.hash) return;
  sessionStorage.setItem("token", location.hash.slice(1));
  history.replaceState(null, "", location.pathname);
}

/** Connect to the server. */
export function connect() {
  const open = () => new WebSocket(`${location.origin.replace(/^http/, "ws")}/live?${stored("token")}`);
  store.connection = new Connection({open, onOpen: greet, onPush: hear, onLost: noteLost});
  store.connection.connect();
}

/** Join as the user wished, or in the seat that this tab or this browser had; otherwise ask for a
 * name. */
function greet() {
  if (store.wishes) hello(store.wishes);
  else if (stored("key")) hello({key: stored("key")});
  else if (stored("asks")) askName();
  else rejoin();
}

/** Join in the latest seat of this browser that is not open in any tab; without one, ask for a
 * name. */
async function rejoin() {
  const seats = await askSeats();
  const free = new Set(seats.filter(({here}) => !here).map(({seat}) => seat));
  const own = loadSeats().filter(({seat}) => free.has(seat)).at(-1);
  if (own) hello({key: own.key}, true);
  else askName(store.hello?.why, seats);
}

/** Ask who has a seat. */
async function askSeats() {
  const said = /** @type {{seats?: Seat[]}} */ (
    await need("connection").ask({seats: {}}).catch(() => ({})));
  return said.seats ?? [];
}

/** Leave the seat as it is, and ask for a name. */
export function changeSeat() {
  sessionStorage.removeItem("key");
  sessionStorage.setItem("asks", "yes");
  location.reload();
}

/** Join. If that is refused, ask for a name. The key is dropped only if the seat is gone: a page that is
 * open over an upgrade returns to its seat, and sends what is pending, once it is reloaded.
 * @param {Wishes} fields
 * @param {boolean} [isTried]     the page tries a key, which may be that of a former server
 */
async function hello(fields, isTried = false) {
  const asked = {hello: {form: TAB_FORM, ...fields}};
  const said = /** @type {HelloAnswer | null} */ (await need("connection").ask(asked).catch(() => null));
  if (!said) return;
  store.wishes = null;
  if ("welcome" in said) welcome(said.welcome);
  else {
    const isGone = said.refused === "UnknownKey";
    if (isGone) sessionStorage.removeItem("key");
    askName(isGone && isTried ? "" : said.why ?? said.refused, said.seats);
  }
}

/** Join with a name, or in a seat that is not open in any tab.
 * @param {Wishes} fields
 */
export function join(fields) {
  store.wishes = fields;
  need("connection").connect();
}

/** Ask for a new name, or for a seat that is not open in any tab.
 * @param {string} [why]     why the page asks
 * @param {Seat[]} [seats]
 */
async function askName(why = "", seats) {
  const question = {why, free: []};
  store.hello = question;
  notify("hello");
  const asked = seats ?? await askSeats();
  need("connection").disconnect();
  const free = asked.filter(({here, name}) => !here && name);
  assign(store.hello ?? question, {free, name: stored("name"), asks: true});
  notify("hello");
}

/** Choose a seat to take over. It is taken over once the user confirms that.
 * @param {number} seat
 */
export function chooseSeat(seat) {
  need("hello").takes = seat;
  notify("hello");
}

/** Take a seat: ask for everything again, and send pending commands again.
 * @param {Welcome} said
 */
async function welcome(said) {
  store.hello = null;
  notify("hello");
  sessionStorage.setItem("key", said.key);
  sessionStorage.setItem("name", said.name);
  sessionStorage.removeItem("asks");
  const chosen = store.plan ? store.chosen : loadChosen(said);
  storeSeat(said, chosen);
  assign(store, {me: said, limits: said.most ?? store.limits, programNote: said.standing ?? "",
                 closedNote: remembered("closed"), day: new DayClock(said.day ?? {}, said.lead)});
  assign(store.clock, {now: said.now, rate: said.rate});
  if (!store.plan) makeRoads({...said.plan, origin: said.origin ?? 0});
  for (const whose of BOTH) layersOf(whose).day = store.day;
  assign(roadOf("mine"), {at: said.at, horizon: 0});
  roadOf("shared").horizon = 0;
  need("connection").admit();
  setConnectionText(messages.CONNECTED, false);
  if (store.isAway) tell(messages.CONNECTION_BACK);
  HANDLERS.broker(said.broker);
  store.isAway = false;
  notify("me");
  for (const whose of BOTH) {
    roadOf(whose).invalidate(0);
    layersOf(whose).restart();
  }
  restorePending();
  const sent = [...store.pending.keys()].map(send);
  takeVariants(said.variants ?? [], chosen);
  await Promise.all([...sent, refreshChanges("mine"), refreshChanges("shared"), renewFixed(), askPreview()]);
  HANDLERS.clock(store.clock);
}

/** Make the roads of a plan, once.
 * @param {Plan} plan
 */
function makeRoads(plan) {
  const {length, origin} = plan;
  const how = {day: store.day, findCurve: curveAt};
  assign(store, {plan, roads: {mine: new Road("", length), shared: new Road("shared", length)},
                 layers: {mine: new Layers(plan, how), shared: new Layers(plan, how)}});
  assign(store.extent, {cell: origin, cells: length - origin, step: store.day.lead});
  notify("plan");
}

/** Set the text about the connection.
 * @param {string} text
 * @param {boolean} isAway
 */
function setConnectionText(text, isAway) {
  store.connectionText = [text, isAway];
  notify("connectionText");
}

/** Note that the connection broke.
 * @param {boolean} again     the page tries again
 * @param {string} reason     of the server
 * @param {number} code       of the WebSocket
 */
function noteLost(again, reason, code) {
  store.openRowQuestions = 0;
  if (code === TAKEN_OVER) sessionStorage.removeItem("key");
  for (const road of Object.values(store.roads)) if (road) road.isAdvancing = false;
  setConnectionText(again ? messages.RECONNECTING : reason || messages.CONNECTION_CLOSED, true);
  if (store.me) persistPending();
  const text = again ? messages.connectionLost(store.isPersisted)
    : messages.connectionClosed(reason, code === TAKEN_OVER);
  if (!store.me) {
    store.hello = {free: [], ...store.hello, why: text};
    notify("hello");
  }
  if (!again || !store.isAway) tell(text, true);
  store.isAway = true;
}

/** Handlers of the server's messages, by their kinds. */
const HANDLERS = {
  /** @param {{now: number, rate: number, stop?: number | null}} message */
  clock({now, rate, stop = null}) {
    const {rate: ran, stop: wanted} = store.clock;
    assign(store.clock, {now, rate, stop});
    const hasStopped = ran && !rate && wanted && now >= wanted;
    if (hasStopped) tell(messages.CLOCK_STOPPED);
    notify("clock");
    if (ran && !rate) roadOf("shared").version++;
    refreshDiagram();
  },
  /** @param {News} news */
  async news(news) {
    if (typeof news.touched === "number") roadOf("shared").invalidate(news.touched);
    else if (news.touched === undefined) roadOf("shared").invalidate(0);
    await refreshChanges("shared");
    hearNews(news);
    refreshDiagram();
    askPreview();
  },
  /** @param {Seat[]} seats */
  seats(seats) {
    store.others = seats.filter(({here, seat}) => here && seat !== store.me?.seat)
      .map(({name}) => name);
    notify("others");
  },
  /** @param {Broker | null} said */
  broker(said) {
    if (!said) return;
    const {state, unsent, behind, sites, told, stays = [], sealed} = said;
    const others = (sites?.length ? messages.otherSites(sites.length, sealed !== false) : "")
      + (behind ? messages.receiving(behind) : "");
    const text = state === "away" ? messages.brokerAway(unsent ?? 0) : messages.CONNECTED + others;
    setConnectionText(text, state === "away");
    const newest = told?.at(-1) ?? "";
    if (newest && newest !== store.brokerText) tell(newest, true);
    assign(store, {brokerText: newest, siteFaults: stays, sites: sites ?? []});
    notify("siteFaults", "sites");
  },
  days: hearDays,
  /** @param {string | null} text */
  trouble(text) {
    if (text) tell(text, true);
    else if (store.trouble) tell(messages.TROUBLE_OVER);
    store.trouble = text ?? "";
    notify("siteFaults");
  },
  /** @param {{why?: string}} message */
  async program({why}) {
    if (why) tellReplaced(messages.programReplaced(why));
    await refreshChanges("mine");  // the list may have had pending changes that could not be stored
    refreshDiagram();
  },
};

/** Say for a while that the program was replaced.
 * @param {string} why
 */
function tellReplaced(why) {
  tell(why, true);
  clearTimeout(store.replaced.timer);
  const clear = () => {
    store.replaced = {why: "", timer: undefined};
    notify("siteFaults");
  };
  store.replaced = {why, timer: setTimeout(clear, REPLACED_SHOWN)};
  notify("siteFaults");
}

/** Close the note on the program, in this browser. */
export function closeNote() {
  remember("closed", store.programNote);
  store.closedNote = store.programNote;
  notify("siteFaults");
}

/** Note what others shared and this tab has not taken, and say it once.
 * @param {News} news
 */
function hearNews(news) {
  const {size, from} = news;
  const text = size ? messages.newlyShared(from, untaken().length || size, titlesOf(news)) : "";
  const isNew = text && text !== store.news.text;
  store.news = {...news, text};
  if (isNew) tell(text);
  notify("news");
}

/** Handle a message of the server. Ignore kinds that this page does not know.
 * @param {Pushed} value
 */
function hear(value) {
  if (!store.plan) return;
  if (value.clock !== undefined) HANDLERS.clock(value.clock);
  if (value.news !== undefined) HANDLERS.news(value.news);
  if (value.seats !== undefined) HANDLERS.seats(value.seats);
  if (value.broker !== undefined) HANDLERS.broker(value.broker);
  if (value.days !== undefined) HANDLERS.days(value.days);
  if (value.trouble !== undefined) HANDLERS.trouble(value.trouble);
  if (value.program !== undefined) HANDLERS.program(value.program);
}
