"use strict";
// Measures of pictures: where two pictures differ, how many cars they show and how fast these are,
// and which cars enter, pass and leave. This script does not use the elements of the page. Steps
// are `from` to `to - 1`, unless noted.
//
// comparePictures(one, other)  survey(picture)  meanDensity(picture, from, to)
// carsInRows(picture, from, to)
// edieSums(picture, from, span, cells)  edieSpans(picture, {cells, span})  equalSpans(counts)
// countPassings(picture, site, plan, from, to)  countEntries(picture, inlet, plan, from, to)
// carsBetween(picture, step, cells)

/** Compare two pictures in the steps that both show. Return {from, to, cells, step, cell}: the
 * first and the last common step, the number of cells that differ, and the step and the cell of the
 * first difference, null if all rows agree. */
function comparePictures(one, other) {
  const from = Math.max(one.from, other.from);
  const to = Math.min(lastStep(one), lastStep(other));
  const found = {from, to, cells: 0, step: null, cell: null};
  for (let step = from; step <= to; step++) {
    const [row, otherRow] = [rowAt(one, step), rowAt(other, step)];
    if (row === otherRow) continue;
    for (let cell = 0; cell < row.length; cell++) {
      if (row[cell] === otherRow[cell]) continue;
      if (found.step === null) Object.assign(found, {step, cell});
      found.cells++;
    }
  }
  return found;
}

/** Note in a picture the cars of each row and the highest speed. */
function survey(picture) {
  let most = 49;   // the code of speed 1
  picture.cars = picture.rows.map((row) => {
    let cars = 0;
    for (let cell = 0; cell < row.length; cell++) {
      const code = row.charCodeAt(cell);
      if (code > 46) cars++;   // a digit: its code is above those of "#" and "."
      if (code > most) most = code;
    }
    return cars;
  });
  picture.greatest = most - 48;
}

/** Return the mean density in cars per cell; null if the picture does not have all of the steps. */
function meanDensity(picture, from, to) {
  if (!picture || from < picture.from || to - 1 > lastStep(picture)) return null;
  const part = picture.cars.slice(from - picture.from, to - picture.from);
  return part.reduce((sum, cars) => sum + cars, 0) / part.length / picture.length;
}

/** Return the sum of the cars in the rows `from` to `to`, both included. */
const carsInRows = (picture, from, to) =>
  picture.cars.slice(from - picture.from, to - picture.from + 1)
    .reduce((sum, cars) => sum + cars, 0);

/** Return the cars and their speeds on some cells in some rows: [cars, speeds]. */
function edieSums(picture, from, span, cells) {
  let [cars, speeds] = [0, 0];
  for (let step = from; step < from + span; step++) {
    const row = rowAt(picture, step);
    for (let cell = cells[0]; cell < cells[1]; cell++) {
      const speed = row.charCodeAt(cell) - 48;   // negative for "#" and "."
      if (speed < 0) continue;
      cars++;
      speeds += speed;
    }
  }
  return [cars, speeds];
}

/** Return flow, space-mean speed and density of a stretch by Edie's sums, for each whole span of
 * steps. */
function edieSpans(picture, {cells, span}) {
  const found = [];
  for (let from = Math.ceil(picture.from / span) * span; from + span - 1 <= lastStep(picture);
       from += span) {
    const [cars, speeds] = edieSums(picture, from, span, cells);
    const area = Math.max(1, span * (cells[1] - cells[0]));
    found.push({from, to: from + span, flow: speeds / area, speed: cars ? speeds / cars : null,
                density: cars / area});
  }
  return found;
}

/** Return the counts over intervals of the most frequent length, in order of time. */
function equalSpans(counts) {
  const sizes = new Map();
  for (const {from, to} of counts) sizes.set(to - from, (sizes.get(to - from) ?? 0) + 1);
  const [span] = [...sizes].sort((one, other) => other[1] - one[1])[0] ?? [];
  return counts.filter(({from, to}) => to - from === span)
    .sort((one, other) => one.from - other.from);
}

// Cars that pass and enter, from two consecutive rows. A car with speed v at cell c was at cell
// c - v before it moved, and no car overtakes another. A car that is not found in the next row has
// left the road.

const FASTEST = 9;

const isCar = (row, cell) => row.charCodeAt(cell) > 46;   // a digit
const speedAt = (row, cell) => (isCar(row, cell) ? row.charCodeAt(cell) - 48 : null);
const endOfRoad = (plan) => plan.length - plan.exit;

/** Return whether the car of a cell is on the road in the next row. */
function stays(next, cell, end) {
  for (let speed = 0; speed <= FASTEST && cell + speed < end; speed++) {
    if (speedAt(next, cell + speed) === speed) return true;
  }
  return false;
}

/** Return how many cars move, in each of the steps, from a cell before the site to the site or past
 * it, including cars that leave the road in the step. At the end of the road these are all cars
 * that leave. */
function countPassings(picture, site, plan, from, to) {
  const end = endOfRoad(plan);
  const found = [];
  for (let step = from; step < to; step++) {
    const [row, next] = [rowAt(picture, step), rowAt(picture, step + 1)];
    let cars = 0;
    for (let cell = site; cell < Math.min(end, site + FASTEST); cell++) {
      if (isCar(next, cell) && cell - speedAt(next, cell) < site) cars++;
    }
    for (let cell = Math.max(0, end - FASTEST); cell < site; cell++) {
      if (isCar(row, cell) && !stays(next, cell, end)) cars++;
    }
    found.push(cars);
  }
  return found;
}

/** Return how many cars enter at the cell of an inlet in the steps: after the step such a car is
 * there, or has moved by one cell. Return null if it may be beyond the end of the road by then, so
 * that no row shows it. */
function countEntries(picture, inlet, plan, from, to) {
  if (inlet + 1 >= endOfRoad(plan)) return null;
  let cars = 0;
  for (let step = from; step < to; step++) {
    const [row, next] = [rowAt(picture, step), rowAt(picture, step + 1)];
    if (isCar(row, inlet)) continue;
    if (speedAt(next, inlet) === 0 || speedAt(next, inlet + 1) === 1) cars++;
  }
  return cars;
}

/** Return the number of cars on some cells at a step. */
function carsBetween(picture, step, cells) {
  const row = rowAt(picture, step);
  let cars = 0;
  for (let cell = cells[0]; cell < cells[1]; cell++) cars += isCar(row, cell);
  return cars;
}
