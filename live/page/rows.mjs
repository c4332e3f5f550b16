// The rows of a road that the page has, of every n-th step, and which of them are missing.

import {MINUTE} from "./units.mjs";

/** @typedef {import("./types.mjs").Span} Span */

const MOST_LEVELS = 3;

/** The rows of every n-th step: a picture, and which of them are fresh. */
class Level {
  /**
   * @param {number} every    steps between rows
   * @param {number} length   cells
   */
  constructor(every, length) {
    this.from = 0;
    this.every = every;
    this.length = length;
    /** @type {(string | undefined)[]} */
    this.rows = [];
    this.fresh = new Uint8Array(64);  // 1: computed with the present edits, or asked for
  }

  /** Make room for a number of rows.
   * @param {number} size
   */
  grow(size) {
    if (size <= this.fresh.length) return;
    const more = new Uint8Array(Math.max(size, 2 * this.fresh.length));
    more.set(this.fresh);
    this.fresh = more;
  }

  /** Mark the rows from a step on as not fresh. They stay in the picture until new ones arrive.
   * @param {number} step
   */
  invalidate(step) {
    this.fresh.fill(0, Math.ceil(step / this.every));
  }

  /** Mark rows from a step on.
   * @param {number} from
   * @param {number} count    rows
   * @param {0 | 1} value     1: fresh
   */
  mark(from, count, value) {
    const first = from / this.every;
    this.grow(first + count);
    this.fresh.fill(value, first, first + count);
  }

  /** Return the first rows in steps `from` to `to` that are not fresh, at most `most`; null if all are.
   * @param {number} from
   * @param {number} to
   * @param {number} most     rows
   */
  findMissing(from, to, most) {
    const end = Math.floor(to / this.every) + 1;
    this.grow(end);
    let first = Math.max(0, Math.floor(from / this.every));
    while (first < end && this.fresh[first]) first++;
    if (first >= end) return null;
    let last = first;
    while (last + 1 < end && last + 1 - first < most && !this.fresh[last + 1]) last++;
    return {from: first * this.every, to: last * this.every, count: last + 1 - first};
  }

  /** Put rows from a step on. Return the steps from the first to the last row that changed, or null.
   * @param {number} from
   * @param {string[]} rows
   * @returns {Span | null}
   */
  put(from, rows) {
    const first = from / this.every;
    let [least, most] = [Infinity, -1];
    rows.forEach((row, index) => {
      if (this.rows[first + index] === row) return;
      this.rows[first + index] = row;
      least = Math.min(least, first + index);
      most = first + index;
    });
    return most < 0 ? null : [least * this.every, (most + 1) * this.every];
  }
}

/** The car seconds of each minute, if they are known. */
class Minutes {
  constructor() {
    /** @type {(number | undefined)[]} */
    this.sums = [];
  }

  /** Forget the minutes from a step on.
   * @param {number} step
   */
  invalidate(step) {
    this.sums.length = Math.min(this.sums.length, Math.floor(step / MINUTE));
  }

  /** Return the sums of the minutes of a period; null if one is missing.
   * @param {Span} period     steps
   */
  find([from, to]) {
    const found = this.sums.slice(from / MINUTE, to / MINUTE).flatMap((one) => one ?? []);
    return found.length === (to - from) / MINUTE ? found : null;
  }

  /** Return the first missing part of a period, at most `most` minutes; null if none is missing.
   * @param {Span} period     steps
   * @param {number} most     minutes
   * @returns {Span | null}
   */
  findMissing([from, to], most) {
    let first = from / MINUTE;
    while (first < to / MINUTE && this.sums[first]) first++;
    const end = Math.min(to / MINUTE, first + most);
    return first < end ? [first * MINUTE, end * MINUTE] : null;
  }

  /** Put the sums of minutes from a step on.
   * @param {number} from
   * @param {number[]} sums
   */
  put(from, sums) {
    const first = from / MINUTE;
    while (this.sums.length < first) this.sums.push(undefined);
    sums.forEach((one, index) => { this.sums[first + index] = one; });
  }
}

/** What the page has of a road: a seat's, the shared one, or one of a preview. */
export class Road {
  /**
   * @param {string} at       how the server names it
   * @param {number} length   cells
   */
  constructor(at, length) {
    this.at = at;
    this.length = length;
    this.horizon = 0;               // the last step that is computed
    this.isAdvancing = false;       // the server is computing more
    /** @type {Map<number, Level>} */
    this.levels = new Map();        // by the steps between rows
    this.version = 0;               // differs whenever the edits do
    this.minutes = new Minutes();
    this.approach = new Minutes();  // those of the approach, if the road has one
  }

  /** Return the level of every n-th step; an empty one if it is not loaded.
   * @param {number} every    steps between rows
   * @returns {Level}
   */
  level(every) {
    return this.levels.get(every) ?? new Level(every, this.length);
  }

  /** Load the level of every n-th step, so that its rows can be asked for, and return it. If there are
   * too many levels, drop the one that was loaded longest ago. Only loader.mjs does this.
   * @param {number} every    steps between rows
   */
  load(every) {
    const level = this.level(every);
    this.levels.delete(every);
    this.levels.set(every, level);
    const [oldest] = this.levels.keys();
    if (this.levels.size > MOST_LEVELS) this.levels.delete(oldest);
    return level;
  }

  /** Mark all that the page has from a step on as not fresh.
   * @param {number} step
   */
  invalidate(step) {
    this.version++;
    this.minutes.invalidate(step);
    this.approach.invalidate(step);
    for (const level of this.levels.values()) level.invalidate(step);
  }
}
