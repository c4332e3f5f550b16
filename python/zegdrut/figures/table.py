"""List the figures of a road, measure them, and compare them over days. This is the only place with their names, units and order.

    figures = choose(list_figures(lab.plan), "delay", "hours")
    days = [measure_day(figures, before, after) for before, after in runs]
    for row in compare(figures, days):
        print(row.figure.title, row.difference.mean, "±", row.difference.half)

A figure has a value for each road, or for the change between two roads. Of several roads, `measure_roads` and `compare_roads` compare each
later one with the first. `of` says which inlet, detector or route it belongs to. The
modules `trips`, `delay` and `lost` define what the figures mean.
"""
from __future__ import annotations

from dataclasses import dataclass, replace
from typing import Callable, Literal, NamedTuple, Sequence, TypeVar

from ..base.intervals import Estimate, count_opposite, estimate_mean, estimate_unpaired, may_be_chance
from ..base.units import METRES, Units
from ..base.wire import PlanLine
from ..roads.demand import count_demand
from .delay_by_car import compare_delays
from .lost_demand import LEAST_AT_RAMP, Queue, measure_queue
from .simulation import RoadRun
from .trips import compute_delay, compute_delay_at, compute_travel_time, count_admitted_cars, count_approach_steps, count_vehicle_steps

R = TypeVar("R")
FREEWAY = Units(METRES, 1.0)
"""The usual units: a cell is 7.5 m, and a step 1 s."""
PER_LANE = "per lane"
"""What the cars, flows and vehicle hours of the model are, which has one lane. The heading of each table and the first row of each CSV file say so."""


class Of(NamedTuple):
    """An inlet, a detector, or a route from an inlet to a detector, by their indexes, to which a figure belongs.

    Without a detector, a route ends at the road's end. Without both, the figure belongs to the whole road."""

    inlet: int | None = None
    detector: int | None = None


class Value(NamedTuple):
    """A figure of a day: its value on the road before and on the road after, and the difference. None is unknown.

    A road without another one is the road after."""

    before: float | None
    after: float | None
    difference: float | None


@dataclass(frozen=True)
class Figure:
    """A figure: how it is shown, and how it is measured, either of each road by `of_road`, or of both together by `of_change`."""

    key: str
    """With `of`, what names the figure in programs."""
    label: str
    unit: str
    digits: int
    """The number of decimals on a page."""
    of_road: Callable[[RoadRun], float | None] | None = None
    of_change: Callable[[RoadRun, RoadRun], Value] | None = None
    of: Of = Of()

    @property
    def title(self) -> str:
        """Return the label with the unit, which follows it unless the label contains it."""
        return self.label if f" {self.unit} " in f" {self.label} " else f"{self.label}, {self.unit}"

    def measure(self, before: RoadRun | None, after: RoadRun) -> Value:
        """Return the value of a day."""
        if self.of_road is None:
            return Value(None, None, None) if before is None or self.of_change is None else self.of_change(before, after)
        early, late = None if before is None else self.of_road(before), self.of_road(after)
        return Value(early, late, subtract(late, early))


# The table

SHOWN = {
    "delay": ("hours", "approach hours", "wait", "wait queue", "wait end", "all hours", "through", "entered", "cars"),
    "report": ("delay", "delay at", "hours", "approach hours", "wait", "wait queue", "wait end", "all hours", "demand", "admitted", "lost", "travel",
               "flow", "speed"),
    "live": ("delay", "delay at", "hours", "approach hours", "wait", "wait queue", "wait end", "all hours", "demand", "demand at", "admitted", "admitted at", "lost", "lost at",
             "travel", "cars", "flow", "speed", "on")}
"""The keys of the figures that a page can show."""


def list_shown(page: Literal["delay", "report", "live"], plan: PlanLine, units: Units = FREEWAY) -> list[Figure]:
    """Return the figures of a road that a page can show, in the order of the table."""
    return [figure for figure in list_figures(plan, units) if figure.key in SHOWN[page]]


def list_figures(plan: PlanLine, units: Units = FREEWAY) -> list[Figure]:
    """Return all figures of a road, in the order in which they are shown."""
    places = [units.place(cell) for cell in plan["detectors"]]
    inlets = sort_inlets(plan)
    starts = {inlet: units.place(plan["inlets"][inlet][0]) for inlet in inlets}
    ramps = {inlet: "the ramp" if len(inlets) == 2 else f"the ramp at {starts[inlet]}" for inlet in inlets[1:]}
    several = {inlet: ramps.get(inlet, "the main road") for inlet in inlets if ramps}
    hours = "vehicle hours"
    return [
        Figure("delay", "delay", hours, 2, of_change=lambda before, after: Value(None, None, before.hours(compute_delay(
            before.by_arrival, after.by_arrival, after.window).seconds))),
        *(make_delay_figure(site, place) for site, place in [*enumerate(places), (None, "the end")]),
        Figure("hours", f"{hours} from km 0 on" if units.origin else f"{hours} on the road", hours, 2, count_hours),
        *([Figure("approach hours", f"{hours} before km 0", hours, 2, lambda run: run.hours(count_approach_steps(run.trips, run.window)))]
          if units.origin else []),
        *(figure for inlet, start in starts.items() for figure in list_wait_figures(inlet, start)),
        Figure("all hours", f"{hours} on the road and before it", hours, 2, lambda run: run.hours(
            count_vehicle_steps(run.trips, run.window) + sum(sum(run.list_waiting(inlet)) for inlet in inlets))),
        Figure("through", f"{hours} of cars through in both", hours, 2, of_change=compare_through),
        *(figure for inlet, ramp in ramps.items() for figure in list_queue_figures(inlet, ramp, [one for one in inlets if one != inlet])),
        Figure("left", "cars that left the road", "cars", 0, lambda run: float(sum(
            step is not None and run.window.first <= step < run.window.last for step in run.trips.left.values()))),
        Figure("entered", "cars that entered", "cars", 0, sum_admitted),
        Figure("demand", "demand", "cars", 0, sum_demand),
        *(make_demand_figure(inlet, f"demand of {name}") for inlet, name in several.items()),
        Figure("admitted", "admitted cars", "cars", 0, sum_admitted),
        *(make_admitted_figure(inlet, f"admitted cars of {name}") for inlet, name in several.items()),
        Figure("lost", "lost demand", "cars", 0, sum_lost),
        *(make_lost_figure(inlet, f"lost demand of {name}" if inlet in ramps else "lost main demand") for inlet, name in several.items()),
        *(make_travel_figure(inlet, None, f"travel time from {start} to the end") for inlet, start in starts.items()),
        *(figure for detector, place in enumerate(places) for figure in (
            *list_count_figures(detector, place),
            *(make_travel_figure(inlet, detector, f"{place}: travel time from {start}") for inlet, start in starts.items()
              if plan["inlets"][inlet][0] < plan["detectors"][detector])))]


def sort_inlets(plan: PlanLine) -> list[int]:
    """Return the indexes of the inlets from upstream to downstream. The first one is the main road's, the others are ramps."""
    return sorted(range(len(plan["inlets"])), key=lambda inlet: int(plan["inlets"][inlet][0]))


def choose(figures: Sequence[Figure], *keys: str, inlet: int | None = None) -> list[Figure]:
    """Return the figures with these keys, in the order of the table. Of those that belong to an inlet, return only the ones of `inlet`."""
    return [figure for figure in figures if figure.key in keys and figure.of.inlet in (None, inlet)]


def subtract(late: float | None, early: float | None) -> float | None:
    """Return a difference, or None if one of its terms is unknown."""
    return None if late is None or early is None else late - early


def count_hours(run: RoadRun) -> float:
    """Return the vehicle hours on the road in the window, from km 0 on."""
    return run.hours(count_vehicle_steps(run.trips, run.window) - count_approach_steps(run.trips, run.window))


def sum_admitted(run: RoadRun) -> float:
    """Return the cars that all inlets admit in the window."""
    return float(sum(count_admitted_cars(run.trips, run.window)))


def count_demand_of(run: RoadRun, inlet: int) -> float:
    """Return the demand of an inlet in the window in cars."""
    return count_demand(run.demands[inlet], *run.window)


def sum_demand(run: RoadRun) -> float:
    """Return the demand of all inlets in the window in cars."""
    return sum(count_demand_of(run, inlet) for inlet in range(len(run.trips.plan["inlets"])))


def count_lost(run: RoadRun, inlet: int) -> float:
    """Return the lost demand of an inlet in the window: arrivals minus admitted cars, or demand minus admitted cars if no arrivals are known.

    It is 0 if cars that cannot enter wait."""
    if run.waiting:
        return 0.0
    admitted = count_admitted_cars(run.trips, run.window)[inlet]
    if not run.arrivals:
        return count_demand_of(run, inlet) - admitted
    missing = sum(run.window.first <= step < run.window.last for step in run.arrivals.get(inlet, ())) - admitted
    return float(missing if missing >= (1 if inlet == sort_inlets(run.trips.plan)[0] else LEAST_AT_RAMP) else 0)


def sum_lost(run: RoadRun) -> float:
    """Return the lost demand of all inlets in the window."""
    if run.arrivals or run.waiting:
        return sum(count_lost(run, inlet) for inlet in range(len(run.trips.plan["inlets"])))
    return sum_demand(run) - sum(count_admitted_cars(run.trips, run.window))


def compare_through(before: RoadRun, after: RoadRun) -> Value:
    """Return the vehicle hours of the cars that left the road in both runs."""
    through = compare_delays(before.by_arrival, after.by_arrival).through
    return Value(before.hours(through.before), after.hours(through.after), before.hours(through.after) - before.hours(through.before))


def make_delay_figure(site: int | None, place: str) -> Figure:
    """Return the mean delay at a detector, or at the road's end."""
    return Figure("delay at", f"mean delay to {place}", "s", 1, of=Of(None, site), of_change=lambda before, after: Value(
        None, None, compute_delay_at(before.by_arrival, after.by_arrival, after.window, site).mean))


def make_demand_figure(inlet: int, label: str) -> Figure:
    """Return the demand of an inlet."""
    return Figure("demand at", label, "cars", 0, lambda run: count_demand_of(run, inlet), of=Of(inlet))


def make_admitted_figure(inlet: int, label: str) -> Figure:
    """Return the cars that an inlet admits."""
    return Figure("admitted at", label, "cars", 0, lambda run: float(count_admitted_cars(run.trips, run.window)[inlet]), of=Of(inlet))


def make_lost_figure(inlet: int, label: str) -> Figure:
    """Return the lost demand of an inlet."""
    return Figure("lost at", label, "cars", 0, lambda run: count_lost(run, inlet), of=Of(inlet))


def make_travel_figure(inlet: int, detector: int | None, label: str) -> Figure:
    """Return the mean travel time from an inlet to a detector, or to the road's end."""
    return Figure("travel", label, "s", 1, lambda run: compute_travel_time(run.trips, run.window, detector, inlet).mean, of=Of(inlet, detector))


def list_wait_figures(inlet: int, start: str) -> list[Figure]:
    """Return the figures of the cars that wait before an inlet because they cannot enter."""
    def find_end(run: RoadRun) -> float | None:
        end = max((step + 1 for step, cars in enumerate(run.list_waiting(inlet)) if cars), default=None)
        return None if end is None else end * run.seconds / 60
    return [Figure("wait", f"vehicle hours waiting before {start}", "vehicle hours", 2, lambda run: run.hours(sum(run.list_waiting(inlet))), of=Of(inlet)),
            Figure("wait queue", f"longest queue before {start}", "cars", 0, lambda run: float(max(run.list_waiting(inlet), default=0)), of=Of(inlet)),
            Figure("wait end", f"end of the queue before {start}", "min after the begin", 0, find_end, of=Of(inlet))]


def list_queue_figures(inlet: int, ramp: str, others: Sequence[int]) -> list[Figure]:
    """Return the figures of the queue before a ramp. Cars may wait before other inlets, too."""
    def queue(run: RoadRun) -> Queue:
        return measure_queue(run.trips, inlet, run.demands[inlet], run.window)

    def sum_hours(run: RoadRun) -> float:
        return run.hours(count_vehicle_steps(run.trips, run.window)) + queue(run).vehicle_hours + run.hours(sum(sum(run.list_waiting(other)) for other in others))
    return [Figure("waiting", f"vehicle hours waiting at {ramp}", "vehicle hours", 2, lambda run: queue(run).vehicle_hours, of=Of(inlet)),
            Figure("together", "vehicle hours together", "vehicle hours", 2, sum_hours, of=Of(inlet)),
            Figure("queue", f"longest queue at {ramp}", "cars", 0, lambda run: queue(run).longest, of=Of(inlet))]


def list_count_figures(detector: int, place: str) -> list[Figure]:
    """Return the figures of a detector."""
    of = Of(None, detector)
    return [Figure("cars", f"cars at {place}", "cars", 0, lambda run: float(run.count(detector).cars), of=of),
            Figure("flow", f"{place}: cars/h", "cars/h", 0, lambda run: run.count(detector).flow, of=of),
            Figure("speed", f"{place}: time-mean km/h", "km/h", 1, lambda run: run.count(detector).time_mean_speed, of=of),
            Figure("on", f"{place}: time on", "s", 0, lambda run: float(run.count(detector).seconds_on), of=of)]


def list_known(tables: Sequence[Sequence[FigureRow]]) -> list[list[FigureRow]]:
    """Return tables of the same figures without the ends of queues that are unknown on all roads, since on some day no car waits there."""
    known = [place for place, rows in enumerate(zip(*tables)) if rows[0].figure.key != "wait end"
             or any(mean.mean is not None for row in rows for mean in (row.before, row.after))]
    return [[rows[place] for place in known] for rows in tables]


# Days

def measure_day(figures: Sequence[Figure], *runs: RoadRun) -> list[Value]:
    """Return the figures of a day: of one road, or of the road before and the road after."""
    *before, after = runs
    return [figure.measure(before[0] if before else None, after) for figure in figures]


def pair_roads(roads: Sequence[R]) -> list[list[R]]:
    """Return what is compared: the first road with each later one; or a road alone."""
    first, *others = roads
    return [[first, other] for other in others] or [[first]]


def measure_roads(figures: Sequence[Figure], runs: Sequence[RoadRun]) -> list[list[Value]]:
    """Return the figures of a day of several roads, for each pair of `pair_roads`."""
    return [measure_day(figures, *pair) for pair in pair_roads(runs)]


class Mean(NamedTuple):
    """A mean over days, and half the width of its 95 % interval. None is unknown; the mean of one day has no interval."""

    mean: float | None = None
    half: float | None = None


Bound = Literal["", "at least", "at most", "unknown"]


@dataclass(frozen=True)
class FigureRow:
    """A figure over some days."""

    figure: Figure
    before: Mean
    after: Mean
    difference: Mean
    """After minus before, paired day by day."""
    unpaired: float | None = None
    """Half the interval of the difference if the days of both roads were independent."""
    others: int = 0
    """The number of days whose difference has the opposite sign."""
    bound: Bound = ""
    """How the true figure relates to this one, if it is not equal."""
    words: tuple[str, ...] = ()
    """Sentences that the figure needs."""

    @property
    def of(self) -> Of:
        """Return what the figure belongs to."""
        return self.figure.of

    @property
    def may_be_chance(self) -> bool | None:
        """Return whether the interval of the difference contains 0, or None if it is unknown, or if the figure does not differ on any day."""
        mean, half = self.difference
        return None if mean is None or half is None or self.is_same else may_be_chance(Estimate(mean, half))

    @property
    def is_same(self) -> bool:
        """Return whether the figure does not differ on any day."""
        mean, half = self.difference
        return mean == 0 and not half


def average_days(values: Sequence[float | None]) -> Mean:
    """Return the mean of days with its interval. It is unknown if it is so on one of the days."""
    known = [value for value in values if value is not None]
    if not known or len(known) < len(values):
        return Mean()
    return Mean(known[0]) if len(known) == 1 else Mean(*estimate_mean(known))


def compare(figures: Sequence[Figure], days: Sequence[Sequence[Value]]) -> list[FigureRow]:
    """Return each figure over all days, as `measure_day` returns them."""
    rows = []
    for figure, values in zip(figures, zip(*days)):
        before, after, differences = ([getattr(value, name) for value in values] for name in Value._fields)
        row = FigureRow(figure, average_days(before), average_days(after), average_days(differences))
        if row.before.half is not None and row.after.half is not None:
            row = replace(row, unpaired=estimate_unpaired(before, after).half, others=count_opposite(differences))
        rows.append(row)
    return rows


def compare_roads(figures: Sequence[Figure], days: Sequence[Sequence[Sequence[Value]]]) -> list[list[FigureRow]]:
    """Return a table for each road after the first one, compared with the first, or the table of a road alone. `days` are those that
    `measure_roads` returns."""
    return [compare(figures, values) for values in zip(*days)]


def list_means(tables: Sequence[Sequence[FigureRow]], place: int, roads: int) -> list[Mean]:
    """Return the means of a figure, by its place in the tables of `compare_roads`, on each of some roads."""
    return [*([tables[0][place].before] if roads > 1 else []), *(rows[place].after for rows in tables)]
