"""Define three models for sweeps: a road before a zone of more slowing, a work zone downstream of a wide jam, and the capacity drop.

    python3 -m zegdrut sweep recipes/sweep/models.py:before_a_zone --grid slowing=16384,32768 --grid inflow=12288,65536

Each takes its parameters and a seed, and returns figures by name: flows in cars per step, speeds in cells per step, densities in
cars per cell. Chances are in 1/65,536.
"""
from __future__ import annotations

from zegdrut import Fault, Plan, RoadLab, measure_traffic
from zegdrut.program import count_cars

ALWAYS = 65_536
QUARTER = ALWAYS // 4
JAM, SOON = 200, 10_000


def before_a_zone(slowing: int, inflow: int, seed: int) -> dict[str, float | None]:
    """Return the traffic on 400 cells with limit 5 and slowing chance 1/4, before a last zone of 100 cells with a different chance.

    Flow and time-mean speed come from a detector at cell 250, density and space-mean speed from the cells 200 to 299 in all rows. The
    first 6,000 steps are left out, and 6,000 are measured.
    """
    plan = Plan(length=400, inlets=[(0, inflow)], zones=[(5, QUARTER)] * 3 + [(5, slowing)], detectors=[250], words=seed)
    with RoadLab(plan) as lab:
        lab.advance("A", 12_000, SOON)
        count = lab.count("A", 0, 6_000, 12_000)
        there = lab.traffic("A", 6_000, 12_000, (200, 300))
    return {"flow": count.flow(6_000), "time-mean speed": count.mean_speed(), "density": there.density,
            "space-mean speed": there.speed}


def works(length: int, limit: int, slowing: int, seed: int) -> dict[str, float | None]:
    """Return the flow through a work zone of `length` cells, and the space-mean speed in it.

    The traffic comes out of a wide jam. On 2,500 cells with limit 5 and slowing chance 1/4 it stands before cell 2,000, which is closed
    until step 8,000. The works begin at cell 2,150. A detector at cell 2,350 counts the steps 8,600 to 9,499, while the jam lasts.
    Fault: the jam has gone by then.
    """
    first = 2_150
    zones = [(limit, slowing) if first <= cell < first + length else (5, QUARTER) for cell in range(0, 2_500, 50)]
    with RoadLab(Plan(length=2_500, inlets=[(0, ALWAYS)], zones=zones, detectors=[2_350], words=seed)) as lab:
        lab.edit("A", ("block", 2_000), 0, 1)
        lab.edit("A", ("block", 2_000), 8_000, 0)
        lab.advance("A", 9_500, SOON)
        if count_cars(lab.cells("A", 9_500)[1:1_000]) < 300:
            raise Fault("the jam has gone")
        flow = lab.count("A", 0, 8_600, 9_500).flow(900)
        speed = lab.traffic("A", 8_600, 9_500, (first, first + length)).speed
    return {"flow": flow, "cars an hour": flow * 3_600, "space-mean speed": speed}


def drop(slowing: int, start: int, seed: int) -> dict[str, float]:
    """Return the flow before and after a breakdown, and the relative drop.

    On 1,700 cells with limit 5, cars have the slowing chance `slowing`; from cell 1,250 on, standing cars have the chance `start`. The
    traffic comes out of a wide jam before cell 1,200, which is closed until step 5,000, because an inlet admits less. A detector at
    cell 1,690 counts the steps 5,200 to 5,499, while traffic is free. Then cell 1,650 is closed for 100 steps, and the detector counts
    the flow out of that jam in the steps 5,650 to 5,949. Fault: the first jam has gaps, or has gone.
    """
    plan = Plan(length=1_700, inlets=[(0, ALWAYS)], zones=[(5, slowing)] * 34, detectors=[1_690], words=seed)
    with RoadLab(plan) as lab:
        for zone in range(25, 34):
            lab.edit("A", ("start", zone), 0, start)
        for cell, step, value in ((1_200, 0, 1), (1_200, 5_000, 0), (1_650, 5_500, 1), (1_650, 5_600, 0)):
            lab.edit("A", ("block", cell), step, value)
        lab.advance("A", 5_950, SOON)
        if lab.cells("A", 5_000)[1:1_200].strip("0"):
            raise Fault("the jam has gaps")
        if measure_traffic([lab.cells("A", 5_950)], 1, JAM).density < 0.75:
            raise Fault("the jam has gone")
        before, after = (lab.count("A", 0, first, first + 300).flow(300) for first in (5_200, 5_650))
    return {"before": before, "out of the jam": after, "drop": 1 - after / before}
