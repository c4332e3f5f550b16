"use strict";
// The time that cars spend on the road, and cumulative curves: how many cars have passed two sites.
// If two pictures are compared, both are over the steps that both pictures have.

const SITES = ["siteUp", "siteDown"];
const OF_SITE = [{width: 1.5}, {width: 3.5}];

const endSite = (plan) => plan.length - plan.exit;

/** Return the inlets at which cars enter between two sites. */
const inletsBetween = (plan, [up, down]) =>
  plan.inlets.map(([cell]) => cell).filter((cell) => up <= cell && cell < down);

/** Offer the detectors and the end of the road. At first the two detectors are chosen that are
 * farthest apart and have no inlet between them. */
function offerSites() {
  const plan = shown.plans.find(Boolean);
  if (!plan) return;
  const end = endSite(plan);
  const options = () => [...plan.detectors.map((site, index) =>
    new Option(siteName(index, plan), site)), new Option(`road's end, ${cellOrKm(end)}`, end)];
  const sites = plan.detectors.length > 1 ? plan.detectors : [...plan.detectors, end];
  const pairs = sites.flatMap((up) => sites.filter((down) => down > up).map((down) => [up, down]));
  const cost = (pair) => inletsBetween(plan, pair).length * plan.length - (pair[1] - pair[0]);
  const [up, down] = bestOf(pairs, (one, best) => cost(one) < cost(best)) ?? [end, end];
  offerIn(page.siteUp, options(), String(up));
  offerIn(page.siteDown, options(), String(down));
}

const sitesChosen = () =>
  SITES.map((name) => Number(page[name].value)).sort((one, other) => one - other);

const cellOrKm = (cell) => (unit.given ? `${placeText(cell, unit)} km` : `cell ${cell}`);

/** Return the first and last step of a picture that are counted. */
function stepsCounted(picture) {
  const {from, to} = shown.comparison ?? {from: picture.from, to: lastStep(picture)};
  return [from, to];
}

/** Return the curves of a picture: for each site, the upstream one first, how many cars have passed
 * it before each step. The first curve begins with the number of cars between the sites. */
function cumulativeCurves(which) {
  const [picture, plan] = [shown.pictures[which], shown.plans[which]];
  if (!picture || !plan || (which && shown.whyNot)) return [];
  const [from, to] = stepsCounted(picture);
  if (to < from) return [];
  const sites = sitesChosen();
  return sites.map((site, index) => {
    let cars = index ? 0 : carsBetween(picture, from, sites);
    const points = [[from, cars]];
    countPassings(picture, site, plan, from, to).forEach((passed, step) => {
      cars += passed;
      points.push([from + step + 1, cars]);
    });
    return points;
  });
}

function drawSpent() {
  const curves = [0, 1].map(cumulativeCurves);
  const series = curves.flatMap((both, which) =>
    both.map((points, site) => ({points, ...SERIES[which], ...OF_SITE[site]})));
  page.cumulativePart.hidden = !series.length;
  page.spent.textContent = spentSentence();
  if (!series.length) return;
  const ends = series.flatMap(({points}) => [points[0][0], points.at(-1)[0]]);
  drawChart(cumulativeChart, {title: "cars that have passed", series, unit,
                              range: [Math.min(...ends), Math.max(...ends)]});
  drawSlanted(series, [Math.min(...ends), Math.max(...ends)]);
  writeCumulative(curves);
  const inlets = inletsBetween(shown.plans.find(Boolean), sitesChosen()).map(cellOrKm).join(", ");
  page.inletsNote.textContent = inlets
    && `Cars enter between them (inlet at ${inlets}); only the thick curve includes these.`;
}

/** Draw the curves minus the mean flow of the first one: over hours they would otherwise seem to
 * coincide. */
function drawSlanted(series, range) {
  const [[begin, before], [end, after]] = [series[0].points[0], series[0].points.at(-1)];
  const flow = (after - before) / Math.max(1, end - begin);
  const slanted = series.map((one) => ({...one, points: one.points.map(([step, cars]) =>
    [step, cars - flow * (step - range[0])])}));
  const title = `cars that have passed, minus ${short(flow * unit.flow)} ${unit.names.flow}`;
  drawChart(slantedChart, {title, series: slanted, range, unit});
}

// The time spent.

/** Return a sentence on the time that the cars of both pictures spend on the road, and on the cars
 * that entered. Cars that could not enter spend no time on the road. */
function spentSentence() {
  if (!shown.comparison) return "";
  const {from, to} = shown.comparison;
  if (to < from) return "";
  // Row s + 1 is the row after step s, so the rows of the steps begin after row `from`.
  const spent = shown.pictures.map((picture) => carsInRows(picture, from + 1, to));
  const name = unit.given ? "veh\u00b7h" : "car steps";
  const hours = (steps) =>
    (unit.given ? hoursText(steps * unit.time / 60) : String(steps));
  const [one, other] = spent.map(hours);
  const change = spent[1] - spent[0];
  const apart = change ? `${hours(Math.abs(change))} ${change > 0 ? "more" : "less"}` : "the same";
  const both = `first ${one} ${name}, second ${other} ${name}, ${apart}.`;
  const shared = changesShared(1);
  const planned = shared
    ? ` The first road has edits, too: the first ${shared} of the second road.` : "";
  return `Time on the road in the ${stepsText(from, to)}: ${both} ${enteredSentence(from, to)} ` +
    leftSentence(to) + planned;
}

function enteredSentence(from, to) {
  const [plan] = shown.plans;
  if (!plan) return "The number of cars that entered is unknown without the script.";
  const counts = plan.inlets.map(([cell]) => ({cell, cars: shown.pictures.map((picture) =>
    countEntries(picture, cell, plan, from, to))}));
  const seen = counts.filter(({cars}) => cars[0] !== null);
  const sums = [0, 1].map((which) => seen.reduce((sum, {cars}) => sum + cars[which], 0));
  const apart = seen.map(({cell, cars}) => ({cell, change: cars[1] - cars[0]}))
    .filter(({change}) => change).map(({cell, change}) =>
      `${Math.abs(change)} ${change > 0 ? "more" : "fewer"} at ${cellOrKm(cell)}`);
  const unseen = counts.filter((one) => !seen.includes(one)).map(({cell}) => cellOrKm(cell));
  return `Entered: first ${sums[0]} cars, second ${sums[1]}` +
    (apart.length ? `, ${apart.join(", ")}. Lost demand at an inlet costs no time here.`
      : ", the same number at each inlet.") +
    (unseen.length ? ` Not counted: the inlet at ${unseen.join(", ")}, next to the end.` : "");
}

function leftSentence(to) {
  const [one, other] = shown.pictures.map((picture) => carsInRows(picture, to, to));
  return `On the road at the end: first ${one} cars, second ${other}.`;
}

// The curves as a table and as CSV.

function cumulativeLines(curves) {
  const sites = sitesChosen();
  const heads = curves.flatMap((both, which) => both.map((_, index) =>
    `${which ? "second" : "first"}, ${cellOrKm(sites[index])}`));
  const lines = new Map();
  curves.flat().forEach((points, column) => {
    for (const [step, cars] of points) {
      if (!lines.has(step)) lines.set(step, Array(heads.length).fill(null));
      lines.get(step)[column] = cars;
    }
  });
  return {heads: [unit.names.time, ...heads],
          lines: [...lines].sort((one, other) => one[0] - other[0])
            .map(([step, cars]) => [momentText(step, unit), ...cars])};
}

function writeCumulative(curves) {
  const {heads, lines} = cumulativeLines(curves);
  const apart = Math.ceil(niceAbove(lines.length / 40));
  const some = lines.filter((_, index) => index % apart === 0 || index === lines.length - 1);
  page.cumulativeTable.replaceChildren(newTable(heads, some.map((line) =>
    line.map((value) => String(value ?? "\u2013")))));
}

function saveCumulative() {
  const {heads, lines} = cumulativeLines([0, 1].map(cumulativeCurves));
  saveAsCsv(heads, lines, "cumulative.csv");
}

const cumulativeChart = newCanvas("chart", "Cars that have passed two sites, by step; the table " +
  "below has the figures", page.cumulativeFigure);
const slantedChart = newCanvas("chart", "The same minus a mean flow", page.slantedFigure);
