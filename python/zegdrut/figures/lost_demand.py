"""Compute the demand that a script stands for, and the lost demand.

    edits = lab.scenario("A")
    rates = compute_demands(lab.plan, edits, last=3_600)
    [supply.lost for supply in compute_supplies(rates, count_admitted_cars(trips, window), window)]

A script has inflow chances, not cars per hour. The demand of an inlet is what its chance admits with the limit and the drivers of the
plan, with the flow of the inlets before it, on a road that is free downstream. Edits of inflows change the demand. Edits of limits and
drivers and closures do not: the cars that they hold back are lost demand. If the demand that a chance stands for is known, it is given as
`asked`, and nothing is simulated.
"""
from __future__ import annotations

from itertools import accumulate
from typing import NamedTuple, Sequence, TypeVar

from ..base.units import HOUR
from ..base.wire import PlanLine
from ..program.records import Edit
from ..roads.demand import Drivers, Effort, Inlet, Rates, Supply, count_demand, simulate_admitted
from .trips import Trips, Window, entry_inlet, entry_step

AskedRates = Sequence[tuple[int, "float | None"]]
"""The demand of an inlet over time, as (step, cars per hour), each until the next. None: it is unknown, and follows from the chance."""
V = TypeVar("V")
LEAST_AT_RAMP = 3
"""With fewer missing cars at a ramp nobody waits, and none is lost: the gaps between cars of the main road differ by chance."""


def list_chances(plan: PlanLine, edits: Sequence[Edit], inlet: int, last: int) -> list[tuple[int, int]]:
    """Return the inflow chances of an inlet up to step `last`, as (step, 1/65,536), under a plan and the winning edits."""
    puts = sorted((edit.step, edit.value) for edit in edits
                  if tuple(edit.object) == ("inflow", inlet) and edit.value is not None and edit.step < last)
    changes: dict[int, int] = {0: plan["inlets"][inlet][1]}
    changes.update((step, value) for step, value in puts if value is not None)
    return sorted(changes.items())


def find_drivers(plan: PlanLine, edits: Sequence[Edit], cell: int) -> Drivers:
    """Return the drivers of the zone of a cell in the plan. Slow-to-start is not in plans: it comes from an edit of step 0.

    Zones without slowing at the beginning of the road are the entry of the drivers after them."""
    zone = cell // plan["zone"]
    limit, slowing = plan["zones"][zone]
    start = next((edit.value for edit in edits if tuple(edit.object) == ("start", zone) and edit.step == 0), None)
    return Drivers(limit, slowing, start, find_entry(plan, cell))


def find_entry(plan: PlanLine, cell: int) -> int:
    """Return how many cells at the beginning of the road have no slowing, if they end at or before `cell`, that of an inlet; else 0."""
    entry = next(index for index, (_, chance) in enumerate([*plan["zones"], (0, 1)]) if chance) * plan["zone"]
    return entry if entry <= cell else 0


def compute_demands(plan: PlanLine, edits: Sequence[Edit], last: int, effort: Effort = Effort(),
                    asked: Sequence[AskedRates] = ()) -> list[Rates]:
    """Return the demand of each inlet over time in cars per hour, up to step `last`, in the order of the plan.

    `asked` has the demands that are known, for each inlet. If a demand is unknown, the inlet is simulated, which takes some seconds."""
    order = sorted(range(len(plan["inlets"])), key=lambda inlet: int(plan["inlets"][inlet][0]))
    chances = [list_chances(plan, edits, inlet, last) for inlet in range(len(plan["inlets"]))]
    found: list[Rates] = [[] for _ in order]
    for place, inlet in enumerate(order):
        cell: int = plan["inlets"][inlet][0]
        drivers = find_drivers(plan, edits, cell)
        known = [one for one in asked[inlet] if one[0] < last] if asked else []
        for step in sorted({date for one in order[:place + 1] for date, _ in chances[one]} | {date for date, _ in known}):
            rate = find_value(known, step) if known and known[0][0] <= step else None
            if rate is not None:
                found[inlet].append((step, rate))
                continue
            before = [Inlet(plan["inlets"][one][0], find_value(chances[one], step)) for one in order[:place]]
            flow = simulate_admitted(find_value(chances[inlet], step), drivers, cell, [one for one in before if one.chance], effort)
            found[inlet].append((step, flow))
    return found


def find_value(changes: Sequence[tuple[int, V]], step: int) -> V:
    """Return the value that applies at a step."""
    return next(value for date, value in reversed(changes) if date <= step)


def compute_supplies(demands: Sequence[Rates], entered: Sequence[int], window: Window) -> list[Supply]:
    """Return the demand of each inlet in a window in cars, with the cars that it admitted."""
    return [Supply(count_demand(rates, *window), cars) for rates, cars in zip(demands, entered)]


class Queue(NamedTuple):
    """The vertical queue before an inlet in a window: its sum over all seconds in vehicle hours, and the longest one in cars."""

    vehicle_hours: float
    longest: float


def measure_queue(trips: Trips, inlet: int, arrivals: Rates, window: Window) -> Queue:
    """Measure the queue before an inlet: in each second of the window all arrivals up to then, minus the cars admitted up to then.

    Arrivals are a steady flow and cars enter at random, so the queue of a free inlet varies around 0 and is negative at times."""
    admitted = [0] * window.last
    for number in trips.left:
        if entry_inlet(number) == inlet and entry_step(number) < window.last:
            admitted[entry_step(number)] += 1
    queue = [count_demand(arrivals, 0, step + 1) - cars for step, cars in enumerate(accumulate(admitted))][window.first:]
    return Queue(sum(queue) / HOUR, max(queue, default=0.0))
