"""Measure the capacity of an inlet and the outflow from a wide jam, at speed limit 5, for four slowing chances.

    python3 -m zegdrut inflow [STEPS]     each over STEPS steps (default: 200,000)

For each slowing chance it prints the inflow chances for several demands, the capacity of an inlet (inflow chance 1), and the cars per
hour that leave a wide jam: 15 km of standing cars upstream of a closed cell, which is then opened. ± is half the 95 % interval. Without
slowing the flow is exactly q / (1 + q q) cars per step for the chance q.
"""
from __future__ import annotations

import argparse
import sys
from typing import Sequence, cast

from ..base.errors import LabError
from ..base.intervals import Estimate, estimate_mean
from ..base.units import ALWAYS, HOUR, to_chance
from ..base.wire import CellsReply, CountReply, Fields
from ..roads.inflow_chances import LIMIT, run_script, find_chance, to_hourly, measure_inflow

SLOWINGS = (0, 0.1, 0.25, 0.5)
WANTED = (250, 500, 750, 1_000, 1_250, 1_500, 1_700)
JAM, OPENED = 2_000, 7_000
MEASURED = range(OPENED + 300, OPENED + 1_501, 120)


def measure_jam_outflow(slow: int) -> Estimate:
    """Return the cars per hour that leave a wide jam after its head is opened, measured some way downstream."""
    script: list[Fields] = [
        {"length": JAM + 500, "exit": 1, "zone": JAM + 500, "zones": [[LIMIT, slow]], "inlets": [[0, ALWAYS]],
         "detectors": [JAM + 400], "words": 1, "replicas": ["A"]},
        {"edit": {"at": "A", "object": ["block", JAM], "step": 0, "value": 1}},
        {"edit": {"at": "A", "object": ["block", JAM], "step": OPENED, "value": 0}},
        {"advance": {"at": "A", "to": OPENED + 2_000}},
        {"cells": {"at": "A", "step": OPENED}},
        *({"count": {"at": "A", "detector": 0, "from": first, "to": to}} for first, to in zip(MEASURED, MEASURED[1:]))]
    jam, *counted = run_script(script)[4:]
    assert cast(CellsReply, jam)["cells"][1:JAM].strip("0") == "", "the jam has gaps"
    return estimate_mean([one for one, in to_hourly([[cast(CountReply, reply)["cars"]] for reply in counted], list(MEASURED))])


def print_table(seconds: int) -> None:
    """Print the table, measured over `seconds` steps."""
    print("cars an hour  " + "".join(f"{cars:>7,}" for cars in WANTED) + "  at most    ±  out of a jam    ±")
    for slow in SLOWINGS:
        found = [find_chance(cars, to_chance(slow), seconds) for cars in WANTED]
        (most,), left = measure_inflow([(0, ALWAYS)], to_chance(slow), seconds), measure_jam_outflow(to_chance(slow))
        print(f"slowing {slow:<6}" + "".join("      -" if q is None else f"{q / ALWAYS:7.3f}" for q in found)
              + f"{most.mean:9,.0f}{most.half:5.0f}{left.mean:14,.0f}{left.half:5.0f}")
    exact = [(1 - (1 - 4 * (cars / HOUR) ** 2) ** 0.5) / (2 * cars / HOUR) for cars in WANTED]
    print("0, exactly    " + "".join(f"{q:7.3f}" for q in exact) + f"{HOUR / 2:9,.0f}")


def main(words: Sequence[str] | None = None) -> int:
    parser = argparse.ArgumentParser("zegdrut inflow", description=__doc__, formatter_class=argparse.RawDescriptionHelpFormatter)
    parser.add_argument("steps", type=int, nargs="?", default=200_000, metavar="STEPS")
    given = parser.parse_args(words)
    try:
        print_table(given.steps)
    except LabError as fault:
        print(fault, file=sys.stderr)
        return 1
    return 0
