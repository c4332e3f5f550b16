"""Measure the figures of a report: a road before and after, or several roads, over some days, with intervals.

    sides = [Side("without works", script), Side("with works", other)]
    days = run_sides(sides, seeds=range(1, 6), window=Window(0, 3_600))
    rows = make_table(sides, days, window)
"""
from __future__ import annotations

import functools
from concurrent.futures import Executor
from dataclasses import dataclass
from typing import Callable, NamedTuple, Sequence

from ..base.intervals import average_known
from ..base.units import Units
from ..base.wire import Record
from ..figures.queues import (
    Ends, Waits, average_ends, average_lost, compare_ends, explain_cause, find_inlets, is_shown, run_day, with_bounds,
    with_lost)
from ..figures.simulation import RoadRun, simulate_days, split_window
from ..figures.table import (FREEWAY, Bound, Figure, FigureRow, average_days, compare_roads, list_known, list_means, list_shown, measure_roads,
                             pair_roads)
from ..figures.trips import Window
from ..program.scripts import Script
from ..roads.demand import Rates

MOST_SIDES = 4
"""The most roads of a report."""
PERIOD = 300
"""The seconds of a point of the charts."""


@dataclass(frozen=True)
class Side:
    """A road of a report: its name, its script, and the demand of each inlet."""

    name: str
    script: Script
    demands: list[Rates]
    free: Script | None = None
    """The script without works, if cars that cannot enter wait before the road; otherwise they are lost."""
    units: Units = FREEWAY
    """The units of places and times, with the cell at km 0."""


def run_side(side: Side, seed: int | str, window: Window, with_rows: bool) -> RoadRun:
    """Run a day of a road, and count in a window."""
    return run_day(side.script.with_seed(seed), None if side.free is None else side.free.with_seed(seed), window, side.demands, period=PERIOD,
                   with_rows=with_rows, origin=side.units.origin)


def run_side_of(window: Window, job: tuple[Side, int | str, bool]) -> RoadRun:
    """Run a side on a day, and keep its rows if the job says so."""
    side, seed, with_rows = job
    return run_side(side, seed, window, with_rows)


def run_sides(sides: Sequence[Side], seeds: Sequence[int | str], window: Window, progress: Callable[[int, int], None] | None = None,
              executor: Executor | None = None, ship: bool = False) -> list[list[RoadRun]]:
    """Run each side on each day, side by side, as `simulate_days` does; the first day keeps its rows."""
    jobs = [(side, seed, place == 0) for place, seed in enumerate(seeds) for side in sides]
    found = simulate_days(functools.partial(run_side_of, window), jobs, progress, lambda job: job[1], executor, ship)
    return [found[place:place + len(sides)] for place in range(0, len(found), len(sides))]


# The table

class Range(NamedTuple):
    """The least and the greatest value of a figure with different drivers. None is unknown."""

    low: float | None = None
    high: float | None = None


@dataclass(frozen=True)
class RangeRow:
    """The ranges of a figure with drivers that fit measured counts as well: on each road, and of its difference from the first road on each
    later one."""

    figure: Figure
    roads: list[Range]
    differences: list[Range]
    bound: Bound = ""
    """How the true differences relate to these, if they are not equal with some drivers."""


def make_ranges(sides: Sequence[Side], each: Sequence[Sequence[Sequence[RoadRun]]], window: Window) -> list[RangeRow]:
    """Return how far each figure moves with different drivers. `each` has for each kind of drivers the runs of all sides on each day."""
    inlets = find_inlets([list(map(Waits.of, runs)) for days in each for runs in days])
    found = []
    for same in zip(*(list(zip(*make_whole_tables(sides, days, window, inlets))) for days in each)):
        # `same` has for each kind of drivers the rows of one figure in all tables.
        places = range(len(same[0]))
        roads = [[rows[0].before.mean for rows in same]] * (len(sides) > 1) + [[rows[place].after.mean for rows in same] for place in places]
        differences = [[rows[place].difference.mean for rows in same] for place in places] if len(sides) > 1 else []
        found.append(RangeRow(same[0][0].figure, list(map(find_range, roads)), list(map(find_range, differences)),
                              next((row.bound for rows in same for row in rows if row.bound), "")))
    return [row for row in found if row.figure.key != "wait end" or any(one.low is not None for one in row.roads)]


def find_range(values: Sequence[float | None]) -> Range:
    """Return the least and the greatest of some values, or an unknown range if one is unknown."""
    known = [value for value in values if value is not None]
    return Range(min(known), max(known)) if len(known) == len(values) else Range()


def make_table(sides: Sequence[Side], days: Sequence[Sequence[RoadRun]], window: Window) -> list[FigureRow]:
    """Return the figures of one road or two over all days. Those of cars that wait before the road are left out if nobody waits."""
    return make_tables(sides, days, window)[0]


def make_tables(sides: Sequence[Side], days: Sequence[Sequence[RoadRun]], window: Window) -> list[list[FigureRow]]:
    """Return a table for each road after the first one, compared with the first, or the table of a road alone. All have the same figures."""
    return list_known(make_whole_tables(sides, days, window, find_inlets([list(map(Waits.of, runs)) for runs in days])))


def make_whole_tables(sides: Sequence[Side], days: Sequence[Sequence[RoadRun]], window: Window, inlets: frozenset[int]) -> list[list[FigureRow]]:
    """Return the tables of `make_tables` with the queues before some inlets, and also with figures that are not known."""
    waits = [list(map(Waits.of, runs)) for runs in days]
    units = sides[0].units
    figures = [figure for figure in list_shown("report", sides[0].script.plan, units) if is_shown(figure, inlets, units)
               and (figure.of_change is None or len(sides) > 1)]
    names = [side.name for side in sides]
    ends = [average_ends([compare_ends(*pair) for pair in pairs]) if len(sides) > 1 else Ends() for pairs in zip(*(pair_roads(runs) for runs in days))]
    tables = [with_bounds(rows, pair, growing, end) for rows, pair, end, *growing in zip(
        compare_roads(figures, [measure_roads(figures, runs) for runs in days]), pair_roads(names), ends, *(pair_roads(day) for day in waits))]
    return with_lost(tables, names, [average_lost(runs, units) for runs in zip(*days)], explain_cause([side.script for side in sides]))


def make_records(sides: Sequence[Side], tables: Sequence[Sequence[FigureRow]]) -> list[Record]:
    """Return tables as records for `pandas.DataFrame`."""
    found = []
    for place, row in enumerate(tables[0]):
        record: Record = {"figure": row.figure.title}
        for side, (mean, half) in zip(sides, list_means(tables, place, len(sides))):
            record.update({side.name: mean, f"± {side.name}": half})
        for side, rows in zip(sides[1:], tables):
            of, one = f" {side.name}" if len(sides) > 2 else "", rows[place]
            record.update({f"difference{of}": one.difference.mean, f"± difference{of}": one.difference.half,
                           f"may be chance{of}": None if one.may_be_chance is None else "yes" if one.may_be_chance else "no"})
        for side, rows in zip(sides[-len(tables):], tables):
            if any(one.bound for one in rows):
                record[f"bound {side.name}" if len(sides) > 2 else "bound"] = rows[place].bound
        found.append(record)
    return found


def make_range_records(sides: Sequence[Side], ranges: Sequence[RangeRow]) -> list[Record]:
    """Return ranges as records for `pandas.DataFrame`."""
    names = [*(side.name for side in sides), *(f"difference {side.name}" if len(sides) > 2 else "difference" for side in sides[1:])]
    return [{"figure": row.figure.title, **{f"{name}, {end}": value for name, found in zip(names, (*row.roads, *row.differences))
                                            for end, value in zip(("from", "to"), found)}, "bound": row.bound} for row in ranges]


# Series

def make_flow_series(days: Sequence[RoadRun], detector: int, window: Window) -> list[tuple[float, float | None, float | None]]:
    """Return for each period its middle, the mean flow in cars per hour (None if the detector is off), and half its interval."""
    return [(part.first + part.steps / 2, *average_days([day.counts[detector][place].flow for day in days]))
            for place, part in enumerate(split_window(window, PERIOD))]


def make_speed_series(days: Sequence[RoadRun], detector: int, window: Window) -> list[tuple[float, float | None]]:
    """Return for each period its middle and the mean of the days' time-mean speeds in km/h, over the days with a car then.

    The table has means of days, too: a day with many cars counts no more than another."""
    return [(part.first + part.steps / 2, average_known([day.counts[detector][place].time_mean_speed for day in days]))
            for place, part in enumerate(split_window(window, PERIOD))]
