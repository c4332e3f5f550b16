"""Compare simulated days with measured counts: GEH of each station and hour, and RMSE of speeds.

    days = simulate_days(model, days=5)
    hours = compare_hours(model.measured, days)          # a list of Hour; compute_share_below([hour.geh for hour in hours])
    speeds = compare_speeds(model.measured, days)

GEH = sqrt(2 (M - C)^2 / (M + C)) for M simulated and C measured cars of an *hour*. Five-minute rows are summed first. If at least five
sixths of the rows of an hour are there, both sums are over these rows, and are scaled to the hour; otherwise it has no GEH. GEH grows with
the number of lanes, so each table has it per lane, like all other figures, and for all lanes. Both speeds are means of the same kind:
time-mean speeds at a detector, or, if the counts have them, space-mean speeds near the station.
"""
from __future__ import annotations

import dataclasses
import math
from dataclasses import dataclass
from typing import Callable, NamedTuple, Sequence

from ..base.errors import Fault
from ..base.intervals import Estimate, average_known, estimate_mean
from ..base.units import HOUR, KMH, count_things
from ..base.wire import Record
from ..figures.simulation import read_counts, simulate_days as run_days, split_window
from ..figures.trips import Window
from ..program.lab import RoadLab
from ..program.road_rows import Sums, add_up
from ..roads.demand import Effort, Rates
from ..roads.road_in_cells import (
    Figures, Road, convert_road_demands, make_road, to_rates, warm_up_minutes, widen_inlet, with_warm_up)
from ..roads.road_scripts import Chances, make_commands, make_plan, make_base_edits
from .counts_on_road import SPACE_MEAN, Measured, Series

MOST_AT_INLET = 1_780.0
"""The largest demand of an inlet in cars per hour and lane. The cars above it enter in the following minutes."""
NOT_WHOLE, NO_COUNT = "no whole hour", "no count"
"""Reasons for which a station hour is left out."""
ENOUGH = 5 / 6
"""The share of the intervals of an hour that must be counted: then flows are scaled to the hour."""
GOOD = 5.0
"""Guidelines require a GEH below this in 85 % of the cases."""
SAME_PLACE = 0.1
"""The distance in km within which a ramp of the road's file and a ramp station are the same ramp."""


NEAR = 20
"""The cells before and after a station whose cars are near it."""


class Passed(NamedTuple):
    """The cars that passed a station in an interval, and the mean speed in km/h there, of the kind of the measured speeds (None without a car)."""

    cars: int
    speed: float | None


Day = list[list[Passed]]
"""What passed each compared station in each interval."""


class Run(NamedTuple):
    """A simulated day, what passed the station that gives the demand, the rows of the window, and the cars that each inlet admitted in the whole
    run."""

    day: Day
    first: list[Passed]
    rows: Sequence[str]
    admitted: Sequence[int]


@dataclass(frozen=True)
class Model:
    """A road with measured demand. Its run begins some minutes before the measured window, so that the road is not empty when the window
    begins."""

    name: str
    measured: Measured
    figures: Figures
    """The road of the window, without the minutes before it."""
    road: Road
    chances: Chances
    seed: int
    warm: int
    """The steps before the window."""

    @property
    def detectors(self) -> list[int]:
        """Return the indexes of the compared stations' detectors, in the order of `measured.main[1:]`."""
        return list(range(len(self.measured.main) - 1))

    @property
    def gates(self) -> list[list[tuple[int, int]]]:
        """Return for each inlet the sign and the index of the detectors after (1) and at it (-1). The sum of their signed counts is the
        number of cars that entered."""
        first = len(self.detectors)
        return [[(1, first)], *([(-1, first + 2 * ramp - 1), (1, first + 2 * ramp)] for ramp in range(1, len(self.road.inlets)))]

    @property
    def window_steps(self) -> int:
        """Return the number of steps of the window, without those before it."""
        return self.measured.intervals * self.measured.interval


def with_stations(figures: Figures, measured: Measured) -> Figures:
    """Return the figures of a road with a detector at each compared station. Fault: there are too few stations, or one is not on the road."""
    if len(measured.main) < 2:
        last = measured.main[0].station
        raise Fault(f"only the main-line station {last.name} (km {last.km:g}) is left: it gives the demand, and none is left to compare: "
                    + (f"{measured.cut}. Check the counts of both stations, or give more stations" if measured.cut else
                       "the counts have no other main-line station. Give more stations"))
    places = [min(max(one.station.km, 0.0075), figures.length - 0.015) for one in measured.main[1:]]
    for one, place in zip(measured.main[1:], places):
        if abs(one.station.km - place) > 0.02:
            raise Fault(f"station {one.station.name} is at km {one.station.km:g}, outside the road of {figures.length:g} km: correct length or --origin")
    return dataclasses.replace(figures, detectors=places)


def with_measured_demand(figures: Figures, measured: Measured, factor: float = 1.0) -> tuple[Figures, list[str]]:
    """Return the figures of a road with the measured demand times a factor, and notes on it.

    Ramps without a station keep the demand of the file, times the factor. Main demand above MOST_AT_INLET enters later."""
    ramps = [(km, to_minutes(demand, factor)) for km, demand in measured.ramp_demands()]
    for km, cars in figures.ramps:
        if all(abs(km - one) > SAME_PLACE for one, _ in ramps):
            ramps.append((km, to_minutes(to_rates(cars), factor)))
    end = measured.intervals * measured.interval
    main, number = spread_excess([(step, cars * factor) for step, cars in measured.demand()], MOST_AT_INLET, end)
    notes = [f"the main demand is above {MOST_AT_INLET:,.0f} cars per hour and lane in {count_things(number, 'interval')}: the excess "
             "enters in the following minutes"] if number else []
    return dataclasses.replace(figures, main=to_minutes(main), ramps=sorted(ramps)), notes


def to_minutes(rates: Rates, factor: float = 1.0) -> list[tuple[float, float]]:
    """Convert a demand to minutes, times a factor."""
    return [(step / 60, cars * factor) for step, cars in rates]


def spread_excess(rates: Rates, most: float, end: int) -> tuple[Rates, int]:
    """Limit a demand to a flow in cars per hour, and move the excess to the following intervals.

    Return the new demand, and the number of intervals with an excess."""
    found: Rates = []
    excess, number = 0.0, 0
    ends = [step for step, _ in rates[1:]] + [end]
    for (step, cars), after in zip(rates, ends):
        wanted = cars + excess * HOUR / (after - step)
        found.append((step, min(wanted, most)))
        number += wanted > most
        excess = max(wanted - most, 0.0) * (after - step) / HOUR
    return found, number


def make_model(name: str, figures: Figures, measured: Measured, factor: float | None = 1.0, effort: Effort = Effort(),
             progress: Callable[[int], None] = lambda inlet: None) -> Model:
    """Make the model of a road with the measured demand times a factor, or with its own demand if `factor` is None.

    BeyondCapacity: a demand exceeds the capacity of its inlet."""
    given, notes = with_stations(figures, measured), list[str]()
    if factor is not None:
        given, notes = with_measured_demand(given, measured, factor)
    given = widen_inlet(given, effort)
    warm = warm_up_minutes(given)
    road = make_road(with_warm_up(given, warm))
    road.notes += notes
    # Detectors after the first inlet, and at and after each ramp, count the cars that enter.
    road.detectors += [1, *(gate for place, _ in road.inlets[1:] for gate in (place, place + 1))]
    # The last detector is at the station that gives the demand.
    road.detectors.append(min(max(road.to_cell(measured.main[0].station.km), road.approach, 1), road.length - 2))
    return Model(name, measured, given, road, convert_road_demands(road, effort, progress), figures.seed, warm * 60)


# Days

def simulate_day(model: Model, seed: int, with_rows: bool = False, with_entries: bool = False) -> Run:
    """Simulate one day. The run has rows only with `with_rows`, and admitted cars only with `with_entries`."""
    edits = make_commands([*make_base_edits(model.road, model.chances), *model.road.edits])
    with RoadLab(make_plan(model.road, model.chances, seed)) as lab:
        for line in edits:
            lab.ask(line)
        lab.command("advance", "A", to=model.warm + model.window_steps)
        window = Window(model.warm, model.warm + model.window_steps)
        are_space_means = model.measured.mean == SPACE_MEAN
        *day, first = [[Passed(one.cars, one.time_mean_speed) for one in counts] for counts in
                       read_counts(lab, "A", [*model.detectors, len(model.road.detectors) - 1], split_window(window, model.measured.interval))]
        rows = lab.diagram("A", window.first, window.last - 1) if with_rows or are_space_means else []
        admitted = [sum(sign * lab.count("A", detector, 0, model.road.steps).cars for sign, detector in gates)
                    for gates in (model.gates if with_entries else ())]
    if are_space_means:
        *day, first = [[one._replace(speed=compute_space_mean(near)) for one, near in zip(passed, sum_near(model, rows, cell))]
                       for passed, cell in zip([*day, first], [*model.road.detectors[:len(day)], model.road.detectors[-1]])]
    return Run(day, first, rows if with_rows else [], admitted)


def sum_near(model: Model, rows: Sequence[str], cell: int) -> list[Sums]:
    """Return the sums over the cars near a cell in each interval."""
    return sum_intervals(model, rows, max(cell - NEAR, 0), cell + NEAR)


def sum_intervals(model: Model, rows: Sequence[str], first: int, last: int) -> list[Sums]:
    """Return the sums over the cells `first` to `last - 1` in each interval."""
    interval = model.measured.interval
    return [add_up(rows[begin:begin + interval], first, last) for begin in range(0, model.window_steps, interval)]


def compute_space_mean(sums: Sums) -> float | None:
    """Return the space-mean speed in km/h, or None without a car."""
    return sums.speeds / sums.cars * KMH if sums.cars else None


def simulate_days(model: Model, days: int, progress: Callable[[int, int], None] | None = None) -> list[Day]:
    """Simulate days in parallel: the seed of the road, and the ones after it."""
    return run_days(lambda seed: simulate_day(model, seed).day, range(model.seed, model.seed + days), progress)


# Hours

class Hour(NamedTuple):
    """A station and an hour: measured and simulated flow in cars per hour and lane (mean over the days, half its 95 % interval), GEH, and
    the number of intervals that the station counted. Both flows are of these intervals."""

    station: str
    km: float
    first: int
    measured: float
    simulated: float
    half: float | None
    geh: float
    geh_all_lanes: float
    intervals: int


def find_counted(series: Series, begin: int, an_hour: int) -> list[int]:
    """Return the intervals of an hour that a station counted."""
    return [place for place in range(begin, min(begin + an_hour, len(series.cars))) if series.cars[place] is not None]


def compute_geh(simulated: float, measured: float) -> float:
    """Return the GEH of two hourly flows."""
    return math.sqrt(2 * (simulated - measured) ** 2 / (simulated + measured)) if simulated + measured > 0 else 0.0


def compare_hours(measured: Measured, days: Sequence[Day]) -> list[Hour]:
    """Compare each station and hour of the window in which enough intervals were counted."""
    found = []
    an_hour = HOUR // measured.interval
    for index, series in enumerate(measured.main[1:]):
        for begin in range(0, measured.intervals, an_hour):
            places = find_counted(series, begin, an_hour)
            if len(places) < ENOUGH * an_hour:
                continue
            scale = an_hour / len(places)
            wanted = scale * math.fsum(series.cars[place] or 0.0 for place in places)
            flows = [scale * sum(day[index][place].cars for place in places) for day in days]
            mean = estimate_days(flows)
            lanes = series.station.lanes
            found.append(Hour(series.station.name, series.station.km, begin * measured.interval, wanted, mean[0], mean[1],
                              compute_geh(mean[0], wanted), compute_geh(mean[0] * lanes, wanted * lanes), len(places)))
    return found


class LeftOut(NamedTuple):
    """A station hour that is not compared: the station, the first step of the hour, and the reason."""

    station: str
    first: int
    reason: str


def list_left_out(measured: Measured) -> list[LeftOut]:
    """Return the station hours of the window that `compare_hours` leaves out. The last one of a window may be a part of an hour."""
    found = []
    an_hour = HOUR // measured.interval
    for series in measured.main[1:]:
        for begin in range(0, measured.intervals, an_hour):
            number = len(find_counted(series, begin, an_hour))
            if number < ENOUGH * an_hour:
                reason = (NOT_WHOLE if begin + an_hour > measured.intervals else NO_COUNT if not number
                          else f"{an_hour - number} of {count_things(an_hour, 'row')} missing")
                found.append(LeftOut(series.station.name, begin * measured.interval, reason))
    return found


def estimate_days(values: Sequence[float]) -> tuple[float, float | None]:
    """Return the mean over days, and half its 95 % interval (None for one day)."""
    if len(values) < 2:
        return values[0], None
    found: Estimate = estimate_mean(values)
    return found.mean, found.half


def compute_share_below(values: Sequence[float], bound: float = GOOD) -> float:
    """Return the share of values below a bound, from 0 to 1."""
    return sum(value < bound for value in values) / len(values) if values else 0.0


# Speeds

class SpeedError(NamedTuple):
    """The speed error of a station: the number of intervals with both speeds, the RMSE in km/h, and the mean of simulated minus measured
    speed in km/h. Both are means of the same kind."""

    station: str
    km: float
    intervals: int
    rmse: float | None
    bias: float | None


def compute_speed(days: Sequence[Day], index: int, place: int) -> float | None:
    """Return the mean of the days' speeds of an interval in km/h, over the days with a car then, or None without a car."""
    return average_known([day[index][place].speed for day in days])


def compare_speeds(measured: Measured, days: Sequence[Day]) -> list[SpeedError]:
    """Compare simulated and measured speeds at each compared station."""
    found = []
    for index, series in enumerate(measured.main[1:]):
        off = []
        for place, speed in enumerate(series.speeds):
            other = compute_speed(days, index, place)
            if speed is not None and other is not None:
                off.append(other - speed)
        found.append(SpeedError(series.station.name, series.station.km, len(off), math.sqrt(math.fsum(one * one for one in off) / len(off))
                                if off else None, math.fsum(off) / len(off) if off else None))
    return found


def compute_total_rmse(errors: Sequence[SpeedError]) -> float | None:
    """Return the RMSE of speeds over all intervals of all stations in km/h, or None without intervals."""
    pairs = [(one.intervals, one.rmse) for one in errors if one.rmse is not None]
    total = sum(number for number, _ in pairs)
    return math.sqrt(sum(number * rmse * rmse for number, rmse in pairs) / total) if total else None


# Records

def make_interval_records(model: Model, days: Sequence[Day]) -> list[Record]:
    """Return a record for each station and interval, for `pandas.DataFrame`: flows per lane, and speeds of the measured kind."""
    found: list[Record] = []
    measured = model.measured
    for index, series in enumerate(measured.main[1:]):
        for place, cars in enumerate(series.cars):
            flows = [day[index][place].cars * HOUR / measured.interval for day in days]
            mean, half = estimate_days(flows)
            found.append({"station": series.station.name, "km": round(model.road.to_km(model.road.detectors[index]), 4),
                          "time": measured.clock.to_text(place * measured.interval),
                          "measured cars/h/lane": None if cars is None else round(cars * HOUR / measured.interval, 1),
                          "simulated cars/h/lane": round(mean, 1), "± cars/h/lane": None if half is None else round(half, 1),
                          f"measured {measured.mean} km/h": None if series.speeds[place] is None else round(series.speeds[place] or 0.0, 1),
                          f"simulated {measured.mean} km/h": round_optional(compute_speed(days, index, place))})
    return found


def round_optional(value: float | None) -> float | None:
    """Round a value to one decimal; None stays None."""
    return None if value is None else round(value, 1)
