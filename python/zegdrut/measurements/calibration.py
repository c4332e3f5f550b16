"""Fit the limit, the slowing chance, the slow-to-start chance and a demand factor to measured counts and speeds.

    found = calibrate("I-10", [(figures, measured)], Bounds(), Search())
    found.limit, found.best.slowing, found.best.start, found.best.factor

The limits of the model are multiples of 27 km/h. Those just below (by 10 km/h at most) and above the measured free speed and the one of
the road are each searched, and the one with the smallest error is taken. With several measured days the error of a point is the mean over the days.

The total number of cars is proportional to the demand factor. After each round the factor is corrected by the ratio of measured to
simulated totals of the best points. The two chances are found by the cross-entropy method (Rubinstein, Methodol. Comput. Appl. Probab. 1
(1999) 127). Each round tries a set of points. The points with the smallest errors (the elite) give a mean and a spread, and the next
round is drawn from a normal distribution with these. The first round fills the bounds evenly (Halton's sequence). Each round has new
seeds, so that no point wins by a lucky seed. The result is the minimum of a quadratic, fitted by least squares to all points of the later
rounds. If it has no minimum within the bounds, the result is the mean of the elites of the last two rounds.

The error of a point is a sum of squares. Each is the deviation of a quantity that one of the three parameters determines, in units
of its uncertainty:

- totals, for the demand factor: the cars of each station in the whole window, to 0.5 %, averaged over the stations;
- free speed, for the slowing chance: the median difference of speeds in the intervals that are free by the measured speed (at most
  10 km/h below the station's highest one), to 0.3 km/h;
- delay, for slow-to-start: cars times seconds per km above the free travel time, summed over stations and intervals. It grows fast with
  slow-to-start and varies widely from day to day, so its logarithm is compared, to 0.5;
- half the mean of (simulated - measured)^2 over stations and intervals: for flows divided by the measured cars, for speeds divided
  by (1 + 0.5 d)^2 in km/h, where d is how far the lower of the two is below the free speed.

Simulated values are means over the days of a point. The flows of a day are multiplied by demand / admitted cars of that day (at most
5 %), so that random arrivals are not mistaken for a demand factor.

A point fits as well as the best within chance if its error is above the smallest by no more than the errors of single days differ: the
standard deviation of the errors that the simulated days of a point have alone, the median of the ten best points. (The measured day is a
single day, too.) `find_alternatives` returns those two of these points whose drivers cause the least and the most delay. The delay of a
few days varies by chance, so the points are compared by a plane that is fitted to the logarithms of their delays over both chances.
These points may lie on one side of the result. So after the search a last round tries the points opposite them. It also tries the result
and the drivers of the file, all on the same new days. Since all errors of a round depend on its days, the points of the last round are
compared with the smallest error of that round.
"""
from __future__ import annotations

import contextlib
import dataclasses
import functools
import math
import random
import statistics
from concurrent.futures import Executor
from dataclasses import dataclass
from typing import Callable, NamedTuple, Sequence, cast

from ..base.errors import Fault
from ..base.units import HOUR, KMH, to_limit
from ..figures.simulation import attempt
from ..roads import demand
from ..roads.demand import QUICK, BeyondCapacity, count_demand
from ..roads.road_in_cells import ENTRY, Figures
from ..sweeps.engine import run_jobs
from .congestion import find_free_speed
from .counts_on_road import Measured
from .goodness_of_fit import Day, Model, make_model, simulate_day, with_measured_demand, with_stations

NAMES = ("slowing", "start", "factor")
MeasuredDay = tuple[Figures, Measured]
"""The figures of the road on a measured day, and its counts."""


class Point(NamedTuple):
    """A slowing chance and a slow-to-start chance from 0 to 1, and a factor for all demands."""

    slowing: float
    start: float
    factor: float


class Bounds(NamedTuple):
    """The smallest and the largest value of each parameter, and of the limit in km/h (None: the limits around the free speed)."""

    slowing: tuple[float, float] = (0.0, 0.4)
    start: tuple[float, float] = (0.0, 0.7)
    factor: tuple[float, float] = (0.9, 1.1)
    limit: tuple[float, float] | None = None

    @classmethod
    def read(cls, given: object, where: str) -> Bounds:
        """Read bounds from a JSON object such as {"slowing": [0, 0.4]}. Fault: one of them is invalid."""
        if not isinstance(given, dict) or set(given) - {*NAMES, "limit"}:
            raise Fault(f"{where}: bounds must be an object of {', '.join(NAMES)} and limit, each [smallest, largest]")
        for name, pair in given.items():
            numbers = isinstance(pair, list) and len(pair) == 2 and all(isinstance(one, (int, float)) for one in pair)
            is_chance = name in ("slowing", "start")
            if not numbers or not 0 <= pair[0] <= pair[1] or is_chance and pair[1] > 1:
                raise Fault(f"{where}: bounds: {name}: {pair} must be [smallest, largest]" + " from 0 to 1" * is_chance)
            if name == "limit" and not list_multiples(*pair):
                raise Fault(f"{where}: bounds: limit: no multiple of {KMH:g} km/h from {KMH:g} to {MOST_LIMIT * KMH:g} km/h is within {pair}")
        return cls(**{name: (float(low), float(high)) for name, (low, high) in given.items()})


@dataclass(frozen=True)
class Search:
    """The size of a search: points per round and days per point, in the first round and in each later round, the number of rounds, and
    the size of the elite."""

    first_points: int = 32
    first_days: int = 2
    points: int = 24
    days: int = 4
    rounds: int = 5
    elite: int = 6
    seed: int = 1

    @property
    def total(self) -> int:
        """Return the number of points that are tried."""
        return self.first_points + (self.rounds - 1) * self.points


class Misfit(NamedTuple):
    """The error of a point on a measured day, its five terms, and what they are about: the ratio of measured to simulated cars in total,
    simulated minus measured free speed in km/h, and the logarithm of simulated by measured delay. `by_seed` has the error of each simulated
    day alone."""

    error: float
    ratio: float = 1.0
    terms: tuple[float, ...] = ()
    free_speed: float = 0.0
    delay: float = 0.0
    by_seed: tuple[float, ...] = ()


TERMS = ("total of cars", "free speed", "delay", "flows of intervals", "speeds of intervals")


class Trial(NamedTuple):
    """A point, its error, its round, the ratio of measured to simulated cars in total, and its misfit on each measured day.

    The error is infinite if the demand exceeds the capacity."""

    point: Point
    error: float
    round: int
    ratio: float = 1.0
    by_day: tuple[Misfit, ...] = ()


@dataclass(frozen=True)
class Calibration:
    """The result of a calibration: the best point, the spread of the elite around it, and all trials."""

    best: Point
    spread: Point
    tried: list[Trial]
    limit: float
    """The limit in km/h."""
    is_fitted: bool = True
    """Whether the best point is the minimum of a quadratic. Otherwise it is the mean of the elites, which is less accurate."""
    of_days: tuple[Point, ...] = ()
    """The result of each measured day alone, from the same trials."""
    last: tuple[Trial, ...] = ()
    """The trials of the last round: of the best point, and of the points opposite those that fit as well."""
    own: Trial | None = None
    """The trial of the drivers and the limit of the file in the last round."""

    @property
    def least_error(self) -> float:
        """Return the smallest error after the first round."""
        return min((one.error for one in self.tried if one.round), default=math.inf)

    def best_ten(self) -> list[Trial]:
        """Return the ten trials with the smallest errors after the first round."""
        return sorted((one for one in self.tried if one.round), key=lambda one: one.error)[:10]


# The error

def apply_point(figures: Figures, point: Point) -> Figures:
    """Return the figures of a road with the drivers of a point. The entry of the road is the same for all points."""
    return dataclasses.replace(figures, slowing=point.slowing, start=point.start, entry=ENTRY if figures.entry is None else figures.entry)


def make_calibrated(figures: Figures, measured: Measured, point: Point) -> Figures:
    """Return the figures of the road of a point: its drivers, and the measured demand times its factor."""
    found, _ = with_measured_demand(with_stations(apply_point(figures, point), measured), measured, point.factor)
    return found


TOTAL_UNCERTAINTY, SPEED_UNCERTAINTY, DELAY_UNCERTAINTY = 0.005, 0.3, 0.5
"""The uncertainties of totals (a share), free speeds (km/h) and delays (a logarithm)."""
FREE = 10.0
"""Traffic is free down to this many km/h below the highest measured speed of a station."""
LEAST_DELAY = 1_000.0
"""Seconds per km, summed over all cars, that do not count as a delay."""
MOST_LIMIT = 5
"""The highest limit that is searched, in cells per step."""


def list_multiples(low: float, high: float) -> list[float]:
    """Return the limits of the model from one speed to another, in km/h."""
    return [cells * KMH for cells in range(1, MOST_LIMIT + 1) if low <= cells * KMH <= high]


def list_limits(figures: Figures, measured: Sequence[Measured], bounds: Bounds) -> list[float]:
    """Return the limits to search in km/h: those within the bounds, or by default the one just above the measured free speed, the one just below it
    if free traffic can be so slow, and the one of the road."""
    if bounds.limit is not None:
        return list_multiples(*bounds.limit)
    free = max((find_free_speed(one) or 0.0 for day in measured for one in day.main[1:]), default=0.0)
    if not free:
        return [figures.limit]
    below, above = max(math.floor(free / KMH), 1), min(math.ceil(free / KMH), MOST_LIMIT)
    around = {above, to_limit(figures.limit)} | ({below} if free - below * KMH <= FREE else set())
    return [cells * KMH for cells in sorted(around) if cells <= MOST_LIMIT]


def compute_misfit(model: Model, days: Sequence[Day], scales: Sequence[float]) -> Misfit:
    """Return the misfit of a model's days to its measured day. `scales` are demand / admitted cars of each simulated day."""
    flows, speeds, totals, free_speeds = list[float](), list[float](), list[float](), list[float]()
    delays, ratios = [0.0, 0.0], list[float]()
    for index, series in enumerate(model.measured.main[1:]):
        free = max((speed for speed in series.speeds if speed is not None), default=0.0)
        total = [0.0, 0.0]
        for place, cars in enumerate(series.cars):
            passed = [day[index][place] for day in days]
            mean_cars = math.fsum(one.cars * scale for one, scale in zip(passed, scales)) / len(days)
            if cars is not None:
                flows.append((mean_cars - cars) ** 2 / max(cars, 1.0))
                total = [total[0] + mean_cars, total[1] + cars]
            measured, known = series.speeds[place], [(one.cars, one.speed) for one in passed if one.speed is not None]
            if measured is None or cars is None or not known:
                continue
            mean = math.fsum(speed for _, speed in known) / len(known)
            speeds.append((mean - measured) ** 2 / (1 + 0.5 * max(free - measured, free - mean, 0.0)) ** 2)
            if measured > free - FREE:
                free_speeds.append(mean - measured)
            delays[0] += math.fsum(number * excess_seconds_per_km(speed, free) for number, speed in known) / len(days)
            delays[1] += cars * excess_seconds_per_km(measured, free)
        if total[1]:
            totals.append(((total[0] / total[1] - 1) / TOTAL_UNCERTAINTY) ** 2)
            ratios.append(total[1] / max(total[0], 1.0))
    delay = math.log((delays[0] + LEAST_DELAY) / (delays[1] + LEAST_DELAY)) / DELAY_UNCERTAINTY
    off = statistics.median(free_speeds) if free_speeds else 0.0
    terms = (mean_or_zero(totals), (off / SPEED_UNCERTAINTY) ** 2, delay ** 2, mean_or_zero(flows) / 2, mean_or_zero(speeds) / 2)
    return Misfit(math.fsum(terms), mean_or_zero(ratios) or 1.0, terms, off, delay * DELAY_UNCERTAINTY)


def is_congested(measured: Measured) -> bool:
    """Return whether a compared station has an interval whose speed is not free. Only congestion determines the slow-to-start chance."""
    for series in measured.main[1:]:
        speeds = [speed for speed in series.speeds if speed is not None]
        if speeds and min(speeds) < max(speeds) - FREE:
            return True
    return False


def excess_seconds_per_km(kmh: float, free: float) -> float:
    """Return the additional seconds per km at a speed, compared with 10 km/h below the free speed."""
    return max(HOUR / max(kmh, 1.0) - HOUR / max(free - FREE, 1.0), 0.0)


def mean_or_zero(values: Sequence[float]) -> float:
    """Return the mean of values, or 0 without values."""
    return math.fsum(values) / len(values) if values else 0.0


def evaluate(name: str, days: Sequence[MeasuredDay], point: Point, seeds: Sequence[int]) -> list[Misfit]:
    """Simulate a point on the days of some seeds, with the demand of each measured day. Return its misfit to each measured day."""
    return [evaluate_day(name, figures, measured, point, seeds) for figures, measured in days]


def evaluate_day(name: str, figures: Figures, measured: Measured, point: Point, seeds: Sequence[int]) -> Misfit:
    """Simulate a point on the days of some seeds. Return its misfit to a measured day.

    The error is infinite if a demand exceeds the capacity of its inlet."""
    try:
        model = make_model(name, apply_point(figures, point), measured, point.factor, QUICK)
    except BeyondCapacity:
        return Misfit(math.inf)
    asked = math.fsum(count_demand(rates, 0, model.road.steps) for _, rates in model.road.inlets)
    days, scales = [], []
    for seed in seeds:
        run = simulate_day(model, seed, with_entries=True)
        days.append(run.day)
        scales.append(min(max(asked / max(sum(run.admitted), 1), 0.95), 1.05))
    alone = [compute_misfit(model, [day], [scale]).error for day, scale in zip(days, scales)]
    return compute_misfit(model, days, scales)._replace(by_seed=tuple(alone))


# The search

def halton_number(index: int, base: int) -> float:
    """Return a number of Halton's sequence, from 0 to 1."""
    found, part = 0.0, 1.0
    while index:
        part /= base
        found += part * (index % base)
        index //= base
    return found


def draw_first_points(bounds: Bounds, factor: float, number: int) -> list[Point]:
    """Return points that fill the bounds of both chances evenly."""
    def value(index: int, base: int, low: float, high: float) -> float:
        return low + (high - low) * halton_number(index, base)
    return [Point(value(index, 2, *bounds.slowing), value(index, 3, *bounds.start), factor) for index in range(1, number + 1)]


def draw_next_points(bounds: Bounds, factor: float, elite: Sequence[Trial], number: int, rng: random.Random) -> list[Point]:
    """Draw points from a normal distribution with the mean and 1.2 times the spread of the elite, within the bounds."""
    means, spreads = find_centre([one.point for one in elite])
    points = []
    for _ in range(number):
        values = []
        for (low, high), mean, spread in zip(bounds[:2], means, spreads):
            value = rng.gauss(mean, 1.2 * spread + 0.005 * (high - low))
            values.append(min(max(value, low), high))
        points.append(Point(values[0], values[1], factor))
    return points


def correct_factor(bounds: Bounds, elite: Sequence[Trial]) -> float:
    """Return the demand factor for which the totals of the elite equal the measured totals."""
    factor = math.fsum(one.point.factor * one.ratio for one in elite) / len(elite)
    return min(max(factor, bounds.factor[0]), bounds.factor[1])


def find_centre(points: Sequence[Point]) -> tuple[Point, Point]:
    """Return the mean of points and their spread (the standard deviation) in each direction."""
    means = [math.fsum(values) / len(points) for values in zip(*points)]
    spreads = [math.sqrt(math.fsum((value - mean) ** 2 for value in values) / max(len(points) - 1, 1))
               for values, mean in zip(zip(*points), means)]
    return Point(*means), Point(*spreads)


def fit_minimum(bounds: Bounds, tried: Sequence[Trial]) -> tuple[float, float] | None:
    """Return both chances at the minimum of a quadratic that is fitted to the points of the later rounds by least squares.

    Points with large errors get less weight. Return None if the quadratic has no minimum within the bounds."""
    used = [one for one in tried if one.round and math.isfinite(one.error)]
    if len(used) < 20:
        return None
    mean_point, spread_point = find_centre([one.point for one in used])
    spreads = [max(one, 1e-6) for one in spread_point]
    smallest = min(one.error for one in used)
    rows, weights = [], []
    for one in used:
        x, y = ((value - mean) / spread for value, mean, spread in zip(one.point[:2], mean_point, spreads))
        rows.append([1.0, x, y, x * x, y * y, x * y])
        weights.append((smallest / one.error) ** 2 if one.error > 0 else 1.0)
    normal = [[math.fsum(weight * row[i] * row[j] for row, weight in zip(rows, weights)) for j in range(6)] for i in range(6)]
    rhs = [math.fsum(weight * row[i] * one.error for row, one, weight in zip(rows, used, weights)) for i in range(6)]
    fitted = solve(normal, rhs)
    if fitted is None:
        return None
    _, first, second, xx, yy, xy = fitted
    if not (xx > 0 and 4 * xx * yy > xy * xy):
        return None
    place = solve([[2 * xx, xy], [xy, 2 * yy]], [-first, -second])
    if place is None or max(abs(one) for one in place) > 2:  # no further than two spreads from the mean
        return None
    x, y = (mean + spread * value for value, mean, spread in zip(place, mean_point, spreads))
    return (x, y) if all(low <= value <= high for value, (low, high) in zip((x, y), bounds[:2])) else None


def solve(matrix: Sequence[Sequence[float]], rhs: Sequence[float]) -> list[float] | None:
    """Solve linear equations by elimination with pivots. Return None if there is no solution."""
    rows = [[*row, value] for row, value in zip(matrix, rhs)]
    size = len(rows)
    for place in range(size):
        pivot = max(range(place, size), key=lambda row: abs(rows[row][place]))
        if abs(rows[pivot][place]) < 1e-12:
            return None
        rows[place], rows[pivot] = rows[pivot], rows[place]
        for row in range(size):
            if row != place:
                factor = rows[row][place] / rows[place][place]
                rows[row] = [one - factor * other for one, other in zip(rows[row], rows[place])]
    return [row[-1] / row[place] for place, row in enumerate(rows)]


def evaluate_alone(name: str, days: Sequence[MeasuredDay], job: tuple[Point, Sequence[int]]) -> list[Misfit]:
    """Simulate a point on the days of some seeds, on one thread: the other processors have points of their own."""
    demand.MOST_THREADS = 1
    return evaluate(name, days, *job)


def calibrate(name: str, days: Sequence[MeasuredDay], bounds: Bounds = Bounds(), search: Search = Search(),
              progress: Callable[[int, int, Trial], None] = lambda done, total, best: None, jobs: int | None = None,
              executor: Executor | None = None, ship: bool = False) -> Calibration:
    """Fit the parameters to the counts and speeds of a road: search each limit, and return the calibration with the smallest error.

    days: the figures of the road and the counts of each measured day. jobs: processes; None: one for each processor.
    progress: gets the number of points tried, the number of all points, and the best trial of the round. The last round adds its points to both.
    executor: simulates the points, in the form of `concurrent.futures`. ship: send this package and the program to its workers.

    Fault: no point within the bounds admits the demand at any limit, or the road cannot be made. NoWorker: a worker of the executor
    cannot run the points."""
    limits = list_limits(days[0][0], [measured for _, measured in days], bounds)
    total, found = search.total * len(limits), list[Calibration]()
    faults = list[Fault]()
    for place, limit in enumerate(limits):
        limited = [(dataclasses.replace(figures, limit=limit), measured) for figures, measured in days]

        def tell(done: int, best: Trial, before: int = place * search.total) -> None:
            progress(before + done, total, best)
        try:
            found.append(calibrate_limit(limited, bounds, search, tell, functools.partial(evaluate_alone, name, limited), jobs, executor, ship))
        except BeyondBounds as fault:
            faults.append(fault)
    if not found:
        raise faults[0]
    return check_result(name, days, min(found, key=lambda one: one.least_error), bounds, search, total, progress, jobs, executor, ship)


# How sure the result is

def check_result(name: str, days: Sequence[MeasuredDay], found: Calibration, bounds: Bounds, search: Search, done: int,
                 progress: Callable[[int, int, Trial], None], jobs: int | None, executor: Executor | None, ship: bool) -> Calibration:
    """Make the last round: try the result, the points opposite those that fit as well, and the drivers of the file, on the same new days. `done` points
    were tried before."""
    figures, points = days[0][0], [found.best, *list_opposite(found, bounds)]

    def try_new(days: Sequence[MeasuredDay], new: Sequence[Point], before: int) -> list[Trial]:
        def tell(trials: list[Trial]) -> None:
            progress(done + before + len(trials), done + len(points) + 1, min(trials, key=lambda one: one.error))
        return try_points(functools.partial(evaluate_alone, name, days), new, search.rounds, search.days, tell, jobs, executor, ship)
    last = tuple(try_new([(dataclasses.replace(one, limit=found.limit), measured) for one, measured in days], points, 0))
    own, = try_new(days, [Point(figures.slowing, figures.start or 0.0, 1.0)], len(points))
    return dataclasses.replace(found, last=last, own=own)


def list_opposite(found: Calibration, bounds: Bounds) -> list[Point]:
    """Return the points opposite those that fit as well as the best, as seen from the result, if they are within the bounds."""
    chance = find_chance(found)
    opposite = [Point(2 * found.best.slowing - one.point.slowing, 2 * found.best.start - one.point.start, found.best.factor)
                for one in ([] if chance is None else list_equal(found, chance))]
    return [point for point in opposite if all(low <= value <= high for value, (low, high) in zip(point[:2], bounds[:2]))]


def find_chance(found: Calibration) -> float | None:
    """Return the difference of errors that chance makes: the median of the standard deviations between the days of the best points. None: they
    have a single day."""
    best = [one for one in found.best_ten() if math.isfinite(one.error)]
    alone = [[math.fsum(errors) / len(errors) for errors in zip(*(day.by_seed for day in one.by_day))] for one in best]
    return statistics.median(statistics.stdev(errors) for errors in alone) if len(alone[0]) > 1 else None


def list_equal(found: Calibration, chance: float) -> list[Trial]:
    """Return the trials after the first round that fit as well as the best of the search or of the last round."""
    least = min((one.error for one in found.last), default=0.0)
    return [one for one in found.tried if one.round and one.error <= found.least_error + chance] + [
        one for one in found.last if one.error <= least + chance]


class Alternatives(NamedTuple):
    """The drivers of the points that fit as well as the best within chance: the number of these points, how far their errors may be above
    the smallest, and the two of them whose drivers cause the least and the most delay."""

    points: int
    chance: float
    less: Point
    more: Point


FLAT = 1e-9
"""What is added to the sums of squares of a fit, so that a chance that is the same at all points has no slope."""


LEAST_EQUAL = 3
"""Fewer points that fit as well as the best say nothing about a range."""


def find_alternatives(found: Calibration) -> Alternatives | None:
    """Return the drivers that fit as well as the best within chance, or None if a point has a single simulated day or too few points fit as
    well."""
    chance = find_chance(found)
    if chance is None or len(equal := list_equal(found, chance)) < LEAST_EQUAL:
        return None
    delays = [math.fsum(day.delay for day in one.by_day) / len(one.by_day) for one in equal]
    of_slowing, of_start = fit_slopes([one.point[:2] for one in equal], delays)
    # Without any delay both slopes are 0. Then the slow-to-start chance decides, which will matter in a jam.
    ranked = sorted((one.point for one in equal), key=lambda point: of_slowing * point.slowing + (of_start + FLAT) * point.start)
    return Alternatives(len(equal), chance, ranked[0], ranked[-1])


def fit_slopes(places: Sequence[tuple[float, float]], values: Sequence[float]) -> Sequence[float]:
    """Return both slopes of the plane that is fitted to values at some places by least squares."""
    means = [math.fsum(axis) / len(places) for axis in zip(*places)]
    offs = [[value - mean for value, mean in zip(place, means)] for place in places]
    squares = [[math.fsum(one[i] * one[j] for one in offs) + FLAT * (i == j) for j in (0, 1)] for i in (0, 1)]
    return solve(squares, [math.fsum(one[i] * value for one, value in zip(offs, values)) for i in (0, 1)]) or (0.0, 0.0)


class BeyondBounds(Fault):
    """No point within the bounds admits the demand."""


def calibrate_limit(measured_days: Sequence[MeasuredDay], bounds: Bounds, search: Search, progress: Callable[[int, Trial], None],
                    work: Callable[[tuple[Point, Sequence[int]]], list[Misfit]], jobs: int | None, executor: Executor | None, ship: bool) -> Calibration:
    """Fit the two chances and the demand factor at one limit. BeyondBounds: no point within the bounds admits the demand.

    work: simulates a point on the days of some seeds. jobs, executor, ship: how the points are simulated side by side."""
    rng = random.Random(search.seed)
    tried: list[Trial] = []
    elites: list[list[Trial]] = []
    factor = min(max(1.0, bounds.factor[0]), bounds.factor[1])
    for number in range(search.rounds):
        points = (draw_next_points(bounds, factor, elites[-1], search.points, rng) if number
                  else draw_first_points(bounds, factor, search.first_points))
        days = search.days if number else search.first_days

        def tell(trials: list[Trial], before: int = len(tried)) -> None:
            progress(before + len(trials), min(trials, key=lambda one: one.error))
        found = try_points(work, points, number, days, tell, jobs, executor, ship)
        tried += found
        elite = sorted((one for one in found if math.isfinite(one.error)), key=lambda one: one.error)[:search.elite]
        if not elite:
            raise BeyondBounds("no point within the bounds admits the demand: it exceeds the capacity of an inlet. Widen the bounds of slowing or "
                               "factor")
        elites.append(elite)
        factor = correct_factor(bounds, elite)
    last = [one for elite in elites[-2:] for one in elite]
    mean, spread = find_centre([one.point for one in last])
    fitted = fit_minimum(bounds, tried)
    slowing, start = fitted or mean[:2]
    _, of_ratios = find_centre([Point(0, 0, one.point.factor * one.ratio) for one in last])
    return Calibration(Point(slowing, start, correct_factor(bounds, last)), spread._replace(factor=of_ratios.factor), tried,
                       measured_days[0][0].limit, fitted is not None, tuple(fit_day(bounds, tried, last, day) for day in range(len(measured_days))))


def try_points(work: Callable[[tuple[Point, Sequence[int]]], list[Misfit]], points: Sequence[Point], number: int, days: int,
               progress: Callable[[list[Trial]], None], jobs: int | None, executor: Executor | None, ship: bool) -> list[Trial]:
    """Try the points of a round side by side, in their order, each on the same days. Each round has days of its own."""
    seeds = range(10_000 * (number + 1), 10_000 * (number + 1) + days)
    found = dict[int, Trial]()
    with contextlib.closing(run_jobs(functools.partial(attempt, work), [(point, seeds) for point in points], jobs, executor, ship)) as running:
        for done in running:
            if done.error is not None or isinstance(done.value, Fault):
                raise Fault(str(done.error or done.value))
            found[done.job] = make_trial(points[done.job], number, cast(Sequence[Misfit], done.value))
            progress(list(found.values()))
    return [found[place] for place in range(len(points))]


def make_trial(point: Point, number: int, by_day: Sequence[Misfit]) -> Trial:
    """Return a trial of a round, whose error and ratio are means over the measured days."""
    return Trial(point, math.fsum(one.error for one in by_day) / len(by_day), number, math.fsum(one.ratio for one in by_day) / len(by_day),
                 tuple(by_day))


def fit_day(bounds: Bounds, tried: Sequence[Trial], last: Sequence[Trial], day: int) -> Point:
    """Return the result of one measured day alone, from the trials of all days: the minimum of a quadratic, or the mean of its best
    trials."""
    alone = [one._replace(error=one.by_day[day].error) for one in tried]
    best = sorted((one for one in alone if one.round), key=lambda one: one.error)[:len(last)]
    slowing, start = fit_minimum(bounds, alone) or find_centre([one.point for one in best])[0][:2]
    return Point(slowing, start, correct_factor(bounds, [one._replace(ratio=one.by_day[day].ratio) for one in last]))
