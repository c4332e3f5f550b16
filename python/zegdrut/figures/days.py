"""Measure what a change costs over many days. Days differ by chance; both roads of a day have the same drivers.

    from zegdrut.figures import run_over_days
    from zegdrut.program import read_script

    before, after = read_script("before.jsonl"), read_script("after.jsonl")
    for row in run_over_days(before, after, days=20).rows():
        print(row.figure.title, row.difference.mean, "+-", row.difference.half)

A day is a seed: the seed of the plan, and the ones after it.
"""
from __future__ import annotations

import functools
from concurrent.futures import Executor
from itertools import compress
from typing import Callable, Mapping, NamedTuple, Sequence

from ..base.errors import Fault
from ..base.progress_bars import Bar
from ..base.units import Units
from ..base.wire import PlanLine
from ..program.scripts import Script, check_same_road
from ..roads.demand import Drivers
from .queues import (
    EditedRoad, Ends, Waits, average_ends, average_lost, compare_ends, explain_cause, explain_end, explain_lost,
    explain_outflow, find_inlets, is_shown, read_roads, run_day as run_with_queue, with_bounds, with_lost)
from .simulation import RoadRun, simulate_days
from .table import Figure, FigureRow, Value, compare, list_known, list_shown, measure_day
from .trips import Window

SEEDS = 1 << 64
DAYS = range(2, 1_001)
NAMES = ("run before", "run after")
ROADS = ("before", "after")


class Days(NamedTuple):
    """The figures of both runs on each day, their queues, the cars that they lose, and those at their end."""

    figures: list[Figure]
    seeds: list[int]
    values: list[list[Value]]
    waits: list[list[Waits]]
    drivers: Drivers
    """The drivers at the main inlet."""
    lost: Sequence[Mapping[str, float]]
    """For each run the mean number of cars that each inlet loses on a day, by its place."""
    ends: Ends
    cause: str = ""
    """Why these cars are lost."""

    @property
    def notes(self) -> list[str]:
        """Return the sentences that the figures of queues need."""
        return [note for note in (explain_end(ROADS, self.waits, self.ends), *explain_outflow(self.drivers, self.waits),
                                  explain_lost(ROADS, self.lost, self.cause)) if note]

    def rows(self) -> list[FigureRow]:
        """Return each figure over all days, with its 95 % intervals."""
        return list_known(with_lost([with_bounds(compare(self.figures, self.values), ROADS, self.waits, self.ends)], ROADS, self.lost, self.cause))[0]


def run_over_days(before: Script, after: Script, days: int, at: str | None = None, units: Units = Units(),
                  names: Sequence[str] = NAMES, progress: Callable[[int, int], None] | None = None, executor: Executor | None = None,
                  ship: bool = False) -> Days:
    """Run both scripts with `days` seeds, on all processors. Return the figures of the days in the order of their seeds.

    at: the replica; by default the first one of each plan.
    units: the lengths of a cell and of a step, the cell at km 0, and the step at which the figures begin.
    names: the names of the two scripts in messages.
    progress: called after each day with the number of days done and of all days. By default a bar is drawn if standard error is
    a terminal.
    executor: runs the days, in the form of `concurrent.futures`. ship: send this package and the program to its workers.

    Cars that cannot enter wait before the road, or are lost if they cannot wait. Figures of queues are there only if cars wait.

    Fault: the number of days is out of range, the plan has no seed, the scripts have different plans, or a line is refused.
    Refused: there is no such replica.
    """
    if days not in DAYS:
        raise Fault(f"the number of days must be {DAYS[0]} to {DAYS[-1]:,}, not {days:,}")
    roads = read_roads(names, (before, after), at)
    check_same_road(before.plan, after.plan)
    first, bar = before.plan["words"], Bar("days")
    if not isinstance(first, int):
        raise Fault("the plan has steady words and so no seed: all days would be the same. Give it a number in `words`")
    shared = [cell for cell in before.plan["detectors"] if cell in after.plan["detectors"]]
    plan = before.plan.copy()
    plan["detectors"] = shared
    seeds = [(first + one) % SEEDS for one in range(days)]
    try:
        found = simulate_days(functools.partial(make_day, plan, units, roads), seeds, progress or bar.show, executor=executor, ship=ship)
    finally:
        bar.end()
    waits, figures = [one for _, one, _, _ in found], list_shown("delay", plan, units)
    shown = [is_shown(figure, find_inlets(waits), units) for figure in figures]
    lost = [{place: sum(day[place] for day in road) / days for place in road[0]} for road in zip(*(one for _, _, one, _ in found))]
    return Days(list(compress(figures, shown)), seeds, [list(compress(values, shown)) for values, *_ in found], waits, roads[0].drivers, lost,
                average_ends([one for *_, one in found]), explain_cause([road.script for road in roads]))


def make_day(plan: PlanLine, units: Units, roads: Sequence[EditedRoad], seed: int) -> tuple[
        list[Value], list[Waits], list[Mapping[str, float]], Ends]:
    """Return the figures of a day of both roads, at the detectors of the plan, their queues, the cars that they lose, and those at their end."""
    def run_road(road: EditedRoad) -> RoadRun:
        detectors = [road.script.plan["detectors"].index(cell) for cell in plan["detectors"]]
        return run_with_queue(road.script.with_seed(seed), road.free.with_seed(seed), Window(units.begin, road.last), (), detectors,
                              with_passings=False, seconds=units.seconds or 1.0, origin=units.origin)
    runs = before, after = [run_road(road) for road in roads]
    return (measure_day(list_shown("delay", plan, units), *runs), list(map(Waits.of, runs)), [average_lost([run], units) for run in runs],
            compare_ends(before, after))
