// Cells and steps in an engineer's units: a cell is 7.5 m and a step 1 s.

/** @typedef {import("./types.mjs").Curve} Curve */
/** @typedef {Pick<import("./types.mjs").Plan, "origin">} Road */
/** @typedef {[at: number, value: number]} Point */

export const METRES_A_CELL = 7.5;
export const KMH_A_CELL = 27;          // km/h of one cell a step
export const HOUR = 3600;              // steps
export const MINUTE = 60;
export const ALWAYS = 65536;           // a chance of 1, in the plan's units
export const LAST_STEP = 1048575;
/** What cars, flows and vehicle hours are: the model has one lane. The head of each table says so. */
export const PER_LANE = "per lane";

/** Return the place of a cell's beginning in km.
 * @param {Road} road
 * @param {number} cell
 */
export const kmOf = ({origin}, cell) => (cell - origin) * METRES_A_CELL / 1000;

/** Round a length in km to a number of decimals, a half up: 3.5025 gives 3.503, although its binary
 * fraction is a little less.
 * @param {number} km
 * @param {number} [digits]
 */
export function roundedKm(km, digits = 3) {
  const power = 10 ** digits;
  return Math.round(Number((km * power).toPrecision(12))) / power;
}

/** Return the place of a cell's beginning in km, as text.
 * @param {Road} road
 * @param {number} cell
 */
export const kmText = (road, cell) => String(roundedKm(kmOf(road, cell)));
/** Return the cell that begins nearest to a place in km.
 * @param {Road} road
 * @param {number} km
 */
export const cellOfKm = ({origin}, km) => Math.round(km * 1000 / METRES_A_CELL) + origin;
/** Return a length of cells in km, as text.
 * @param {number} cells
 */
export const lengthText = (cells) => kmText({origin: 0}, cells);
/** Return two places or times as a range, as text. A dash would look like a sign if one is negative.
 * @param {string} one
 * @param {string} other
 */
export const rangeText = (one, other) =>
  [one, other].join(one.startsWith("-") || other.startsWith("-") ? " to " : "\u2013");
/** Return a length of cells in metres, as text.
 * @param {number} cells
 */
export const metresText = (cells) => `${cells * METRES_A_CELL} m`;
/** Return a number without decimals, as text.
 * @param {number} value
 */
export const whole = (value) => Math.round(value).toLocaleString("en");
/** Return the sum of numbers.
 * @param {number[]} numbers
 */
export const sum = (numbers) => numbers.reduce((one, other) => one + other, 0);

/** Return a count with its noun, as text.
 * @param {number} count
 * @param {string} one       the noun of one thing
 * @param {string} [more]    the noun of several
 */
export const plural = (count, one, more = one + "s") =>
  `${whole(count)} ${count === 1 ? one : more}`;

/** Return a difference with its sign, as text; what rounds to 0 has none.
 * @param {number} value
 * @param {number} [digits]  decimals
 */
export function signedText(value, digits = 0) {
  const text = Math.abs(value).toLocaleString("en",
    {minimumFractionDigits: digits, maximumFractionDigits: digits});
  if (Number(text.replaceAll(",", "")) === 0) return "0";
  return (value < 0 ? "\u2212" : "+") + text;
}

/** Return how long some steps are, in seconds or minutes, as text.
 * @param {number} steps
 */
export const durationText = (steps) => (steps % MINUTE ? `${steps} s` : `${steps / MINUTE} min`);

/** Return a speed limit in km/h, as text.
 * @param {number} limit     cells a step
 */
export const limitText = (limit) => `${limit * KMH_A_CELL} km/h`;
/** Return a chance in percent, as text.
 * @param {number} chance    in 1/65,536
 */
export const chanceText = (chance) => `${Number((100 * chance / ALWAYS).toFixed(1))} %`;

// What an inlet admits: a curve is {points, capacity}, `points` as [chance, cars per hour] with rising
// chances. The server measures it.

/** Return the value at a place, interpolated between points in the order of their places.
 * @param {[place: number, value: number][]} points
 * @param {number} place
 */
function interpolate(points, place) {
  const next = Math.max(1, points.findIndex(([at]) => at >= place));
  const [[from, low], [to, high]] = [points[next - 1], points[next]];
  return to > from ? low + (high - low) * (place - from) / (to - from) : low;
}

/** Return the inflow chance (1/65,536) that admits a demand in cars per hour; NaN if none does.
 * @param {number} cars
 * @param {Curve} curve
 */
export function chanceOfDemand(cars, {points, capacity}) {
  if (!(cars >= 0 && cars <= capacity)) return NaN;
  /** @type {Point[]} */
  const inverse = points.map(([chance, flow]) => [flow, chance]);
  return Math.round(interpolate(inverse, cars));
}

/** Return the cars per hour that an inflow chance (1/65,536) admits.
 * @param {number} chance
 * @param {Curve} curve
 */
export const demandOfChance = (chance, {points}) => interpolate(points, chance);
