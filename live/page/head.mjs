// View: who is here, the connection, the clock, messages and faults; and the question for a name.

import {$, button, childrenOf, closest, element, on, showList} from "./elements.mjs";
import {excludeSite} from "./changeactions.mjs";
import {changeSeat, chooseSeat, closeNote, join} from "./session.mjs";
import {backToClock, setFollowing, lookAhead, runAnHour, setRate} from "./navigation.mjs";
import * as messages from "./messages.mjs";
import {holdButton, need, now, releaseButton, store, watch} from "./store.mjs";
import {plural} from "./units.mjs";

const RATES = [0, 1, 10, 60, 600];

/** Show the latest message. */
function showMessage() {
  const [text, bad] = store.message;
  $("said").textContent = text;
  $("said").className = bad ? "bad" : "";
}

/** Show the state of the connection. */
function showConnection() {
  const [text, isAway] = store.connectionText;
  $("line").textContent = text;
  $("line").className = isAway ? "away" : "";
  $("line").title = text;
}

/** Make the note about the program: a calm line, which can be closed for this browser. What to do
 * about it is its title.
 * @param {string} text
 * @returns {import("./elements.mjs").Item}
 */
function calmItem(text) {
  return {key: text, version: text, make: () => element("li", "", {className: "calm", title: text},
    element("span", messages.standing(text)), button("Close", closeNote, "this note"))};
}

/** Show faults, until they are over or for a while. */
function showFaults() {
  const {trouble, replaced, siteFaults, programNote, closedNote} = store;
  const texts = [trouble, replaced.why, ...siteFaults].filter(Boolean);
  const isClosed = !programNote || closedNote === programNote;
  showList($("stays"), [...(isClosed ? [] : [calmItem(programNote)]), ...texts.map((text) =>
    ({key: text, version: text, make: () => element("li", text)}))]);
}

/** Show other sites, each with a button that excludes it. */
function showSites() {
  $("sites").hidden = !store.sites.length;
  showList($("siteList"), store.sites.map(({site, when: at}) => ({key: site,
    version: String(at), make: () => element("li", `Site ${site}, last heard ${store.day.dateText(at)} `, {},
      button("Exclude", () => excludeSite(site), `site ${site}`))})));
}

/** Show who this is. */
function showMe() {
  const {name, seat} = need("me");
  $("me").replaceChildren(name, element("span", ` (seat ${seat})`, {className: "seat"}));
  $("changeSeat").hidden = false;
  document.title = `${name}: a road, live`;
}

/** Show who else is here. */
function showOthers() {
  const names = store.others.join(", ");
  $("others").textContent = names ? `, with ${names}` : "";
  $("who").title = $("who").textContent ?? "";
}

/** Show the clock. */
function showClock() {
  $("clock").textContent = store.day.runningText(now());
  for (const one of childrenOf($("rates"))) {
    one.setAttribute("aria-pressed", String(Number(one.dataset.rate) === store.clock.rate));
  }
  const {stop} = store.clock;
  $("stop").textContent = stop ? `stops at ${store.day.timeText(stop)}` : "";
  $("back").hidden = store.forecastEnd <= now();
}

/** Show whether the diagram follows the clock. */
function showFollow() {
  $("follow").checked = store.follows;
}

/** Show the question for a name, or close it. */
function showHello() {
  if (!store.hello) {
    if ($("hello").open) $("hello").close();
    return;
  }
  const {why, free, name, asks} = store.hello;
  $("helloSaid").textContent = why;
  if (!asks) return;
  $("seats").hidden = !free.length;
  $("seatList").replaceChildren(...free.map(({seat, name: of, private: own}) => {
    const unshared = own ? `, ${plural(own, "change")} not shared` : "";
    const label = `${of}, seat ${seat}${unshared}`;
    const ask = () => chooseSeat(seat);
    return store.hello?.takes !== seat ? element("li", "", {}, button(label, ask))
      : element("li", messages.takeOver(of), {},
                button(`Take over ${label}`, () => join({take: seat})));
  }));
  if (!$("name").value) $("name").value = name ?? "";
  if ($("hello").open) return;
  $("hello").showModal();
  $("name").focus();
}

/** Keep a pressed button where and as it is until it is released. */
function holdPressed() {
  addEventListener("pointerdown", (event) => {
    if (event.button === 0 && closest(event, "button, summary")) holdButton();
  });
  for (const kind of ["pointerup", "pointercancel", "blur"]) {
    addEventListener(kind, () => setTimeout(releaseButton));    // after the click
  }
}

/** Let the second click of a double click press what the first one did, or nothing: never an element
 * that has moved there. */
function pressOnce() {
  /** @type {Element | null} */
  let pressed = null;
  addEventListener("click", (event) => {
    const one = closest(event, "button, summary, label, select");
    if (event.detail > 1 && one !== pressed) {
      event.preventDefault();
      event.stopPropagation();
    } else pressed = one;
  }, true);
}

/** Listen to the store and to the page. */
export function begin() {
  holdPressed();
  pressOnce();
  for (const rate of RATES) {
    const one = button(rate ? `${rate}×` : "Pause", () => setRate(rate));
    one.dataset.rate = String(rate);
    $("rates").append(one);
  }
  on("follow", "change", () => setFollowing($("follow").checked));
  on("ahead", "click", lookAhead);
  on("back", "click", () => { backToClock(); $("ahead").focus(); });
  on("hour", "click", runAnHour);
  on("changeSeat", "click", changeSeat);
  on("hello", "cancel", (event) => event.preventDefault());
  on("helloForm", "submit", (event) => {
    event.preventDefault();
    join({name: $("name").value.trim()});
  });
  watch(["message"], showMessage);
  watch(["connectionText"], showConnection);
  watch(["me", "siteFaults"], showFaults);
  watch(["sites"], showSites);
  watch(["me"], showMe);
  watch(["others"], showOthers);
  watch(["clock", "me"], showClock);
  watch(["extent"], showFollow);
  watch(["hello"], showHello);
}
