"""Measure the flow that an inlet admits, and the inflow chance for a demand. A cell is 7.5 m, a step 1 s."""
from __future__ import annotations

import json
import subprocess
from typing import Iterable, Sequence

from ..base.errors import Fault
from ..base.intervals import Estimate, estimate_mean
from ..base.units import HOUR
from ..base.wire import Fields, Reply
from ..program.programs import NoProgram, program_path
from ..program.refusal_reasons import Reasons
from .demand import BeyondCapacity, Drivers, Effort, Inlet, count_admitted, measure_admission

LIMIT = 5
WARM = 1_000
"""The steps before a flow is measured."""
PIECES = 25
"""The number of periods of a long run whose flows give the interval of the mean."""

Inlets = list[tuple[int, int]]
"""Cells with inflow chances in 1/65,536, as in a plan."""


def run_script(script: Iterable[Fields]) -> list[Reply]:
    """Run a script. Return the program's replies. Fault: a line is refused, or the program ended. NoProgram: there is none."""
    lines = [json.dumps(line, separators=(",", ":")).encode() for line in script]
    try:
        ran = subprocess.run([program_path()], input=b"".join(line + b"\n" for line in lines), stdout=subprocess.PIPE,
                             check=False)
    except (FileNotFoundError, PermissionError):
        raise NoProgram(program_path()) from None
    replies, reasons = list(map(json.loads, ran.stdout.splitlines())), Reasons()
    for line, reply in zip(lines, replies):
        why = reasons.hear(line, reply)
        if why is not None:
            raise Fault(f"{reply['refused']}: {why}: {line.decode()}")
    if ran.returncode or len(replies) != len(lines):
        raise Fault(f"the program ended with status {ran.returncode}")
    return replies


def count_entries(inlets: Sequence[tuple[int, int]], slow: int, bounds: list[int], most: int) -> list[list[int]]:
    """Return the cars that each inlet admits between the steps `bounds`, on a road with one limit and one slowing chance."""
    return count_admitted([Inlet(*inlet) for inlet in inlets], Drivers(most, slow), bounds, seed=1)


def measure_inflow(inlets: Sequence[tuple[int, int]], slow: int, seconds: int, most: int = LIMIT) -> list[Estimate]:
    """Return the cars per hour that each inlet admits in the long run, with intervals.

    The intervals come from the flows of long periods, which are nearly independent."""
    bounds = [WARM + seconds * piece // PIECES for piece in range(PIECES + 1)]
    return list(map(estimate_mean, zip(*to_hourly(count_entries(inlets, slow, bounds, most), bounds))))


def to_hourly(pieces: list[list[int]], bounds: list[int]) -> list[list[float]]:
    """Convert the cars of each period to cars per hour."""
    return [[one * HOUR / (to - first) for one in cars] for cars, first, to in zip(pieces, bounds, bounds[1:])]


def find_chance(cars: float, slow: int, seconds: int = 100_000) -> int | None:
    """Return the inflow chance for a demand of `cars` per hour at a single inlet with limit 5; None if no chance admits it."""
    try:
        return measure_admission(Drivers(LIMIT, slow), effort=Effort(steps=seconds), demands=[cars]).chance(cars)
    except BeyondCapacity:
        return None
