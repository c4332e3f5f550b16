"""Measure the flow out of a queue, and find the drivers of works that leave a number of cars per hour.

    found = find_capacity(900, 54, Drivers(limit=5, slowing=6_554))
    found.limit, found.slowing, found.start           # cells per step, 1/65,536
    describe_capacity(found)                          # "900 cars/h: limit 54 km/h, slowing 0.31"

Works with a capacity have a limit, and drivers whose slowing lets just that flow out of a queue before the works. Standing cars in the works
start as moving ones do, so that the flow does not depend on how long the works are. The flow is measured by the program itself: on a road
with a queue that never ends, followed by the works and by a free road, cars are counted after the works.
"""
from __future__ import annotations

import dataclasses
import functools
from concurrent.futures import ThreadPoolExecutor
from typing import NamedTuple, Sequence

from ..base.errors import Fault
from ..base.intervals import Estimate, estimate_mean
from ..base.units import ALWAYS, HOUR, KMH, format_km, to_limit
from ..program.lab import RoadLab
from ..program.plan import Plan
from ..program.records import Kind
from .demand import Drivers, Monotone, thread_count

LIMIT = 54.0
"""The limit of works in km/h if none is given."""
SEEDS = range(2_000, 2_008)
LENGTHS = range(2, 401)
"""The lengths of works in cells that are measured. Longer works leave as many cars as the longest of these."""
APART = 30
"""The cells, at least, of the road without slowing at its inlet, of the queue before the works, and of the road after them."""
WARM_UP, SHORT_RUN, LONG_RUN = 1_500, 5_000, 40_000
"""The steps before cars are counted, and those in which they are counted, roughly and exactly."""
ROUGH = (0.0, 0.15, 0.3, 0.45, 0.6, 0.7, 0.8, 0.9, 0.95)
"""The slowing chances that are tried first."""
NEAR = 0.02
"""How far from the rough slowing chance the flow is measured exactly."""
MOST_MOVES = 6
"""How often the rough slowing chance is moved by twice as much, at most, until the exact flows include the wanted one."""
STEEPEST = 300
"""If exact flows differ by more cars per hour, one of them is that of a jam, and no slowing chance leaves what is between them."""

JAM, OPENED, SETTLED, LEAVING = 800, 2_400, 300, 900
"""The standing cars of a jam, the step in which its head is opened, the steps until its outflow is measured, and the steps of that."""
NEAR_OUTFLOW = 300
"""Where the demand is closer than this many cars per hour to the flow out of a queue, a queue lasts long, and its length is uncertain."""


class Capacity(NamedTuple):
    """Works that leave `cars` per hour: their limit in cells per step, and their slowing and slow-to-start chances in 1/65,536."""

    cars: float
    limit: int
    slowing: int
    start: int


def find_capacity(cars: float, limit: float, drivers: Drivers, cells: int = 100) -> Capacity:
    """Return works that leave some cars per hour, with a limit in km/h, on a road with some drivers. It takes two seconds, and is cached.

    cells: the length of the works. Short works hinder cars less than long ones do. Fault: the limit is below a cell per step, or works with
    this limit leave fewer cars, or more, whatever their slowing chance is. With drivers who start slowly, works may leave either many cars
    or, once cars stand before them, far fewer."""
    if to_limit(limit) < 1:
        raise Fault(f"a capacity needs a limit above 0 km/h, not {limit:g}: works that leave no car are a closure")
    return _find(cars, to_limit(limit), drivers._replace(entry=0), min(max(cells, LENGTHS[0]), LENGTHS[-1]))


@functools.lru_cache(maxsize=1_000)
def _find(cars: float, limit: int, drivers: Drivers, cells: int) -> Capacity:
    rough = [(measure_works(drivers, limit, slowing, SHORT_RUN, cells).mean, slowing) for slowing in ROUGH]
    most, least = rough[0][0], rough[-1][0]
    if not least < cars < most:
        raise Fault(f"a capacity of {cars:,.0f} cars per hour is out of range: works of {format_km(cells)} km with a limit of {limit * KMH:g} km/h leave "
                    f"{least:,.0f} to {most:,.0f} cars per hour on this road")
    flows = sorted(dict(reversed(rough)).items())
    middle = Monotone([flow for flow, _ in flows], [slowing for _, slowing in flows])(cars)
    for _ in range(MOST_MOVES):
        middle = min(max(middle, NEAR), 1 - NEAR)
        low, high = (measure_works(drivers, limit, slowing, LONG_RUN, cells).mean for slowing in (middle + NEAR, middle - NEAR))
        if low < cars <= high:
            break
        middle += 2 * NEAR if cars <= low else -2 * NEAR
    if not low < cars <= high or high - low > STEEPEST:
        raise Fault(f"a capacity of {cars:,.0f} cars per hour is out of range: works of {format_km(cells)} km with a limit of {limit * KMH:g} km/h leave "
                    f"{high:,.0f} cars per hour on this road or, once cars stand before them, at most {low:,.0f}")
    slowing = round(ALWAYS * (middle + NEAR - 2 * NEAR * (cars - low) / (high - low)))
    return Capacity(cars, limit, slowing, slowing)


def describe_capacity(found: Capacity) -> str:
    """Return the capacity with the limit and the slowing chance that stand for it."""
    return f"{found.cars:,.0f} cars/h: limit {found.limit * KMH:g} km/h, slowing {found.slowing / ALWAYS:.2f}"


def measure_works(drivers: Drivers, limit: int, slowing: float, steps: int, cells: int) -> Estimate:
    """Return the cars per hour that works leave of a queue that never ends, with the interval over some seeds.

    limit: of the works in cells per step. slowing: the slowing chance of the works, from 0 to 1. cells: the length of the works."""
    parts = max(round(cells / APART), 1)
    zone = round(cells / parts)
    apart = -(-APART // zone)
    zones = [Drivers(drivers.limit, 0)] * apart + [drivers] * apart + [Drivers(limit, round(slowing * ALWAYS))] * parts + [drivers] * apart
    plan = Plan(length=len(zones) * zone, zone=zone, inlets=[(0, ALWAYS)], zones=[(one.limit, one.slowing) for one in zones],
                detectors=[(2 * apart + parts) * zone + APART // 2])
    starts: list[tuple[Kind, int, int, int]] = [("start", zone, 0, one.start) for zone, one in enumerate(zones) if one.start is not None]
    return _count(plan, starts, WARM_UP, WARM_UP + steps)


def _count(plan: Plan, edits: Sequence[tuple[Kind, int, int, int]], first: int, last: int) -> Estimate:
    """Return the cars per hour that pass the detector of a plan in some steps, with the interval over some seeds."""
    def of_seed(seed: int) -> float:
        with RoadLab(dataclasses.replace(plan, words=seed)) as lab:
            for kind, index, step, value in edits:
                lab.edit("A", (kind, index), step, value)
            lab.command("advance", "A", to=last)
            return lab.count("A", 0, first, last).flow(last - first) * HOUR
    with ThreadPoolExecutor(thread_count()) as pool:
        return estimate_mean(list(pool.map(of_seed, SEEDS)))


@functools.lru_cache(maxsize=100)
def measure_outflow(drivers: Drivers) -> Estimate:
    """Return the cars per hour that a queue of standing cars with some drivers lets out, with the interval over some seeds."""
    zones = -(-(JAM + 200) // 50)
    plan = Plan(length=JAM + 200, zone=50, inlets=[(0, ALWAYS)], zones=[(drivers.limit, 0)] * zones, detectors=[JAM + 100])
    start = drivers.slowing if drivers.start is None else drivers.start
    opened: list[tuple[Kind, int, int, int]] = [("block", JAM, 0, 1), ("block", JAM, OPENED, 0)]
    for zone in range(zones):
        opened += [("slow", zone, OPENED, drivers.slowing), ("start", zone, OPENED, start)]
    return _count(plan, opened, OPENED + SETTLED, OPENED + SETTLED + LEAVING)
