// The road's clock: steps as times, and back. If the road's file says when it begins, these are
// times of the day; with a date and a time zone the clock changes of summer time are known, too.

import {HOUR, LAST_STEP, MINUTE, rangeText} from "./units.mjs";

/** @typedef {import("./types.mjs").WireDay} WireDay */
/**
 * A period between two clock changes: its first step, how many seconds the clock has been put
 * forward since minute 0, and the offset from UTC in seconds, if it is known.
 * @typedef {{from: number, forward: number, offset: number | null}} Period
 */

const DAY = 86_400;             // steps
const TIME = /^(-)?(\d+):([0-5]\d)(?::([0-5]\d))?([+-]\d\d:\d\d)?(?: \(day (\d+)\))?$/;

/** @param {number} value */
const two = (value) => String(value).padStart(2, "0");

/** Return an offset from UTC, as text: +02:00.
 * @param {number} seconds
 */
const offsetText = (seconds) => `${seconds < 0 ? "-" : "+"}${two(Math.floor(Math.abs(seconds) / HOUR))}:`
  + two(Math.floor(Math.abs(seconds) / MINUTE) % 60);

/** Return a function from an instant, in seconds since 1970, to the offset of a time zone from UTC.
 * @param {string} timeZone
 */
function makeOffsetAt(timeZone) {
  const format = new Intl.DateTimeFormat("en", {timeZone, hourCycle: "h23", year: "numeric",
    month: "numeric", day: "numeric", hour: "numeric", minute: "numeric", second: "numeric"});
  return (/** @type {number} */ instant) => {
    const parts = format.formatToParts(instant * 1000);
    const of = (/** @type {string} */ name) => Number(parts.find(({type}) => type === name)?.value);
    const local = Date.UTC(of("year"), of("month") - 1, of("day"), of("hour"), of("minute"), of("second"));
    return local / 1000 - instant;
  };
}

/** Return the instant of a local time, in seconds since 1970; the first one if the time occurs twice.
 * @param {number} local     seconds since 1970 by the local clock
 * @param {(instant: number) => number} offsetAt
 */
function instantOf(local, offsetAt) {
  const found = [-DAY, DAY].map((away) => local - offsetAt(local + away))
    .filter((instant) => instant + offsetAt(instant) === local);
  return found.length ? Math.min(...found) : local - offsetAt(local);
}

/** Return the periods between the clock changes of a run.
 * @param {number} start     the instant of step 0
 * @param {number} lead      the step at minute 0
 * @param {(instant: number) => number} offsetAt
 * @returns {Period[]}
 */
function findPeriods(start, lead, offsetAt) {
  const first = offsetAt(start + lead);
  const periods = [{from: 0, forward: offsetAt(start) - first, offset: offsetAt(start)}];
  for (let step = HOUR; step <= LAST_STEP; step += HOUR) {
    const offset = offsetAt(start + step);
    if (offset === periods[periods.length - 1].offset) continue;
    let [before, from] = [step - HOUR, step];
    while (from - before > 1) {
      const middle = Math.floor((before + from) / 2);
      if (offsetAt(start + middle) === offset) from = middle;
      else before = middle;
    }
    periods.push({from, forward: offset - first, offset});
  }
  return periods;
}

/** The clock of a road. */
export class DayClock {
  /**
   * @param {Partial<WireDay>} wire     if it has no `begin`, the clock counts from 0:00:00
   * @param {number} lead     the step at minute 0 of the road's file, which is at `begin`
   */
  constructor({begin = null, date = null, zone = null} = {}, lead = 0) {
    this.begin = begin;         // seconds after midnight
    this.lead = lead;
    /** @type {Period[]} */
    this.periods = [{from: 0, forward: 0, offset: null}];
    if (begin !== null && date && zone) {
      const offsetAt = makeOffsetAt(zone);
      const start = instantOf(Date.parse(`${date}T00:00Z`) / 1000 + begin, offsetAt) - lead;
      this.periods = findPeriods(start, lead, offsetAt);
    }
    const timeZone = zone ?? undefined;
    // Formats are kept, since making one takes long.
    this.formats = {
      time: new Intl.DateTimeFormat([], {hour: "2-digit", minute: "2-digit", hourCycle: "h23", timeZone}),
      whole: new Intl.DateTimeFormat("en", {year: "numeric", month: "2-digit", day: "2-digit", hour: "2-digit",
        minute: "2-digit", second: "2-digit", hourCycle: "h23", timeZone}),
      date: new Intl.DateTimeFormat([], {day: "numeric", month: "short", timeZone}),
      day: new Intl.DateTimeFormat("en", {dateStyle: "short", timeZone})};
  }

  /** Return the steps at which the clock shows a number of seconds after the midnight before minute 0,
   * each with its period: none if a clock change skips that time, two if it occurs twice.
   * @param {number} seconds
   */
  findSteps(seconds) {
    return this.periods.flatMap((period, index) => {
      const step = seconds - (this.begin ?? 0) + this.lead - period.forward;
      const end = this.periods[index + 1]?.from ?? Infinity;
      return step >= period.from && step < end ? [{step, period}] : [];
    });
  }

  /** Return the seconds of the clock after the midnight before minute 0, and the period.
   * @param {number} step
   */
  secondsAt(step) {
    const whole = Math.round(step);
    const period = this.periods.findLast(({from}) => from <= whole) ?? this.periods[0];
    return {seconds: whole - this.lead + (this.begin ?? 0) + period.forward, period};
  }

  /** Return the days from the day of minute 0 to the first one on which the run has a time of day.
   * @param {number} seconds   after midnight
   */
  daysUntil(seconds) {
    return Math.ceil((this.secondsAt(0).seconds - seconds) / DAY) || 0;
  }

  /** Return a step as a time: h:mm:ss from the beginning, or the time of the day, as 07:00 or
   * 07:00:30. A time that occurs twice has its offset from UTC, a time of another day the day's number.
   * @param {number} step
   */
  timeText(step) {
    const {seconds, period} = this.secondsAt(step);
    if (this.begin === null) return this.axisText(step);
    const isTwice = this.findSteps(seconds).length > 1 && period.offset !== null;
    const days = Math.floor(seconds / DAY);
    const isPlain = days === 0 && this.daysUntil(seconds) === 0;
    return this.axisText(step) + (isTwice ? offsetText(period.offset ?? 0) : "") + (isPlain ? "" : ` (day ${days + 1})`);
  }

  /** Return a step as a time, without the number of the day and the offset.
   * @param {number} step
   */
  axisText(step) {
    const {seconds: after} = this.secondsAt(step);
    const seconds = this.begin === null ? Math.abs(after) : after - Math.floor(after / DAY) * DAY;
    const [minute, rest] = [two(Math.floor(seconds / 60) % 60), two(seconds % 60)];
    if (this.begin === null) return `${after < 0 ? "-" : ""}${Math.floor(seconds / HOUR)}:${minute}:${rest}`;
    return `${two(Math.floor(seconds / HOUR))}:${minute}${seconds % 60 ? `:${rest}` : ""}`;
  }

  /** Return a step as `timeText` does, but always with seconds: for a clock that runs.
   * @param {number} step
   */
  runningText(step) {
    const text = this.timeText(step);
    return this.begin === null || this.secondsAt(step).seconds % 60 ? text
      : text.replace(/^\d+:\d+/, "$&:00");
  }

  /** Return when something is in force, as text.
   * @param {number} from      step
   * @param {number | null} to
   */
  spanText(from, to) {
    return to === null ? `from ${this.timeText(from)} on` : rangeText(this.timeText(from), this.timeText(to));
  }

  /** Return a step as a time in the name of a file: 0700.
   * @param {number} step
   */
  fileText(step) {
    const written = this.timeText(step).replace(/ .*/, "").replaceAll(":", "");
    const text = written.replace(/^-/, "");
    return (text === written ? "" : "minus")
      + (this.begin === null && text.endsWith("00") ? text.slice(0, -2).padStart(4, "0") : text);
  }

  /** Return the step of a written time: h:mm or h:mm:ss of this clock, or minutes from minute 0 on;
   * NaN if it is not a time of the run. A time of day before the run belongs to the next day.
   * If a time occurs twice, return the first step, unless the offset from UTC says otherwise.
   * @param {string} text
   */
  readStep(text) {
    const trimmed = text.trim().replace("\u2212", "-");
    const fromStart = (/** @type {number} */ step) => (step >= 0 ? step : NaN);
    if (/^-?\d+([.,]\d+)?$/.test(trimmed)) return fromStart(Math.round(Number(trimmed.replace(",", ".")) * 60) + this.lead);
    const parts = TIME.exec(trimmed);
    if (!parts) return NaN;
    const [, sign, hour, minute, second = 0, offset, day] = parts;
    const seconds = Number(hour) * HOUR + Number(minute) * 60 + Number(second);
    if (this.begin === null) return offset || day ? NaN : fromStart((sign ? -seconds : seconds) + this.lead);
    if (sign || seconds >= DAY) return NaN;
    const days = day ? Number(day) - 1 : this.daysUntil(seconds);
    const found = this.findSteps(seconds + days * DAY);
    const wanted = offset ? found.find(({period}) => period.offset !== null && offsetText(period.offset) === offset)
      : found[0];
    return wanted?.step ?? NaN;
  }

  /** Ask whether a written time is one that a clock change skips.
   * @param {string} text
   */
  isSkipped(text) {
    const alone = new DayClock({begin: this.begin}, this.lead);
    return Number.isNaN(this.readStep(text)) && !Number.isNaN(alone.readStep(text.replace(/[+-]\d\d:\d\d/, "")));
  }

  /** Return when a change was made, as tables have it: 2026-03-02 14:05:00; "" if it is not known.
   * @param {number} seconds   since 1970; 0: not known
   */
  instantText(seconds) {
    if (!seconds) return "";
    const parts = Object.fromEntries(this.formats.whole.formatToParts(new Date(seconds * 1000))
      .map(({type, value}) => [type, value]));
    return `${parts.year}-${parts.month}-${parts.day} ${parts.hour}:${parts.minute}:${parts.second}`;
  }

  /** Return when a change was made, as text: the time of day, and the date unless it is today.
   * @param {number} seconds   since 1970; 0: not known
   */
  dateText(seconds) {
    if (!seconds) return "";
    const {time, date, day} = this.formats;
    const at = new Date(seconds * 1000);
    const isToday = day.format(at) === day.format(new Date());
    return isToday ? time.format(at) : `${date.format(at)} ${time.format(at)}`;
  }
}
