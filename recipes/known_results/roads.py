"""Run the roads of known_results. Each model returns a count for a seed. Chances are in 1/65,536."""
from __future__ import annotations

import bisect
import csv
import functools
from pathlib import Path

from zegdrut import Fault, Plan, RoadLab
from zegdrut.program import count_cars

ALWAYS = 65_536
AT_ONCE = 1 << 20
"""The number of steps that `advance` simulates at a time: more than any of these roads runs for."""
LENGTH, WARM_UP = 512, 20_000
"""For roads whose flow is known: their length in cells, and the steps before cars are counted."""
JAM, FRONT_STEPS = 2_400, 2_000
"""The cells of a jam, and the steps in which its front moves back."""
CARS = 400
"""The number of cars that leave a jam at limit 1."""
OUTFLOW, DOWNSTREAM = 1_500, 200
"""The steps in which the flow out of a jam is counted, and the cells to the detector after the jam."""
WIDE_STEPS, QUEUE = 2_000, 500
"""The steps in which a wide jam is observed, and about the number of cars that it has at first."""

OPEN, MIDDLE, DIAGRAM_STEPS = 1_000, (400, 600), 6_000
"""For the fundamental diagram: the cells of the road and of its middle; the steps before it is measured, and those in which it is."""
RING = Path(__file__).resolve().parent / "ring.csv"

Counted = dict[str, float]


def flow(limit: int, slowing: int, steps: int, seed: int) -> Counted:
    """Return the cars that pass the middle of a road in `steps` steps."""
    plan = Plan(length=LENGTH, inlets=[(0, ALWAYS)], zones=[(limit, slowing)], detectors=[LENGTH // 2], words=seed)
    with RoadLab(plan) as lab:
        lab.advance("A", WARM_UP + steps, AT_ONCE)
        return {"counted": lab.count("A", 0, WARM_UP, WARM_UP + steps).cars}


def open_jam(limit: int, slowing: int, start: int, cells: int, after: int, seed: int) -> tuple[RoadLab, int]:
    """Return a lab with a jam upstream of a closed cell that opens at some step, and this step.

    Nobody is slowed until then, so a car enters in every other step, and they stop without gaps. Fault: the jam has gaps.
    """
    opening = 2 * cells + cells // limit + 100
    width = -(-(cells + after + 2) // 64)
    zones = -(-(cells + after + 2) // width)
    plan = Plan(length=cells + after + 2, inlets=[(0, ALWAYS)], zones=[(limit, 0)] * zones, zone=width, detectors=[cells, cells + after],
                words=seed)
    lab = RoadLab(plan)
    lab.edit("A", ("block", cells), 0, 1)
    lab.edit("A", ("block", cells), opening, 0)
    for zone in range(zones):
        lab.edit("A", ("slow", zone), opening, slowing)
        lab.edit("A", ("start", zone), opening, start)
    lab.advance("A", opening, AT_ONCE)
    if lab.cells("A", opening)[:cells].strip("0"):
        lab.close()
        raise Fault("the jam has gaps")
    return lab, opening


def front(limit: int, slowing: int, start: int, seed: int) -> Counted:
    """Return the number of cells that the front of a jam has moved back, which is the number of its cars that have started."""
    lab, opening = open_jam(limit, slowing, start, JAM, 10, seed)
    with lab:
        lab.advance("A", opening + FRONT_STEPS, AT_ONCE)
        before = {car.number: car.cell for car in lab.cars("A", opening)}
        standing = sum(before.get(car.number) == car.cell for car in lab.cars("A", opening + FRONT_STEPS))
    return {"counted": JAM - standing}


def time(slowing: int, seed: int) -> Counted:
    """Return the number of steps in which CARS cars leave a jam, at limit 1."""
    lab, opening = open_jam(1, slowing, slowing, CARS + 100, 100, seed)
    with lab:
        first, last = 0, 20 * CARS
        lab.advance("A", opening + last, AT_ONCE)
        while last - first > 1:
            middle = (first + last) // 2
            is_done = lab.count("A", 0, opening, opening + middle).cars >= CARS
            first, last = (first, middle) if is_done else (middle, last)
    return {"counted": last}


def outflow(limit: int, start: int, seed: int) -> Counted:
    """Return the cars that leave a jam whose cars are slow to start but are not slowed otherwise."""
    lab, opening = open_jam(limit, 0, start, JAM, DOWNSTREAM, seed)
    with lab:
        begin = opening + 2 * DOWNSTREAM
        lab.advance("A", begin + OUTFLOW, AT_ONCE)
        if count_cars(lab.cells("A", begin + OUTFLOW)[:100]) < 90:
            raise Fault("the jam has gone")
        return {"counted": lab.count("A", 1, begin, begin + OUTFLOW).cars}


def wide_jam(start: int, seed: int) -> Counted:
    """Return the number of cars that a wide jam has gained, while a car enters in every other step, at limit 5 and density 1/10.

    Fault: at the end it is not a single jam of standing cars.
    """
    cell, closed = 3_000, 1_000
    opening = closed + round(QUEUE * 9 / 5)
    plan = Plan(length=3_600, inlets=[(0, ALWAYS)], zones=[(5, 0)] * 36, words=seed)
    with RoadLab(plan) as lab:
        lab.edit("A", ("block", cell), closed, 1)
        lab.edit("A", ("block", cell), opening, 0)
        for zone in range(1, 36):
            lab.edit("A", ("start", zone), opening, start)
        lab.advance("A", opening + WIDE_STEPS, AT_ONCE)
        rows = [lab.cells("A", step)[100:] for step in (opening, opening + WIDE_STEPS)]
    for row in rows:
        if row.strip(".123456789").strip("0#"):
            raise Fault("it is not a single jam of standing cars")
    return {"counted": rows[1].count("0") - rows[0].count("0")}


@functools.cache
def read_ring() -> list[tuple[float, float, float]]:
    """Return the densities of ring.csv with their flows, and half the intervals of these."""
    with open(RING, encoding="utf-8", newline="") as file:
        return [(float(density), float(flow), float(half)) for density, flow, half in list(csv.reader(file))[1:]]


def find_on_ring(density: float) -> tuple[float, float]:
    """Return the flow on a ring at a density, and half its interval. Between two densities of ring.csv it is interpolated."""
    ring = read_ring()
    place = min(max(bisect.bisect(ring, (density,)), 1), len(ring) - 1)
    (first, flow, half), (last, other, half_of_other) = ring[place - 1], ring[place]
    return flow + (other - flow) * (density - first) / (last - first), max(half, half_of_other)


def diagram(inflow: int, ramp: int, slowing: int, seed: int) -> Counted:
    """Return the flow on the middle of an open road, its density, and the flow on a ring at this density.

    Flows are in cars per 10,000 steps, the density in cars per 1,000 cells. The limit is 5 and the slowing chance 1/4, apart from the last
    100 cells, whose slowing chance is `slowing`. A second inlet at cell 50 has the inflow chance `ramp`.
    """
    inlets = [(0, inflow), (50, ramp)] if ramp else [(0, inflow)]
    with RoadLab(Plan(length=OPEN, inlets=inlets, zones=[(5, 16_384)] * 9 + [(5, slowing)], words=seed)) as lab:
        lab.advance("A", 2 * DIAGRAM_STEPS, AT_ONCE)
        there = lab.traffic("A", DIAGRAM_STEPS, 2 * DIAGRAM_STEPS, MIDDLE)
    return {"counted": there.flow * 10_000, "density": there.density * 1_000, "known": find_on_ring(there.density)[0] * 10_000}
