"""Measure how many cars per hour an inlet admits with each inflow chance, and which slowing leaves a capacity, by the package zegdrut.

As a child, this module answers an `Inflow` with its `Curve`, and `Works` with their `Values`.
"""
from __future__ import annotations

import asyncio
import collections
import contextlib
import json
from pathlib import Path
from typing import Iterator, Mapping, Sequence, TypedDict, cast

from zegdrut import Fault
from zegdrut.base import KMH
from zegdrut.base.units import ALWAYS
from zegdrut.roads import Drivers, Inlet, find_capacity, measure_admission
from zegdrut.roads.demand import Effort

from ..base.json_values import to_json
from ..model.operations import Capacity
from . import child

NICE = 8
POINTS = 128  # intervals of a curve; interpolation between two points is off by less than 0.1 cars per hour
MOST_KEPT = 2_000  # results
CURVES_FILE = "admissions.jsonl"  # the file of a folder with what was measured, one result per line
MEASURE = 1  # the version of the measurements: increase it if something is measured in a different way
Inflow = TypedDict("Inflow", {
    "limit": int, "slowing": int, "start": "int | None", "entry": int, "cell": int, "before": Sequence["tuple[int, int]"]})
"""An inlet: its zone's limit and chances, its cell, and the cells and chances of the inlets upstream."""
Curve = TypedDict("Curve", {"points": Sequence["tuple[int, float]"], "capacity": float})
"""What an inlet admits: `points` are (chance in 1/65,536, cars per hour) in rising chances; `capacity` is the maximum."""
Works = TypedDict("Works", {"cars": int, "limit": int, "drivers": "tuple[int, int, int | None]", "cells": int})
"""Works that leave some cars per hour: their limit and length, and the limit and the chances of the drivers around them."""
Values = TypedDict("Values", {"value": Capacity, "why": str}, total=False)
"""The value of a shape of kind `capacity`, or a sentence that says why works cannot leave this capacity."""


class Curves:
    """Measures one thing at a time, for each seat in turn, and each thing only once: a file of the folder keeps the results over restarts."""

    def __init__(self, folder: Path) -> None:
        self.child: child.Child[Mapping[str, object], Mapping[str, object]] = child.Child(__name__, NICE)
        self._file = folder / CURVES_FILE
        self._kept = read_kept(self._file)
        self._lock = asyncio.Lock()
        self._turns: collections.defaultdict[int, asyncio.Lock] = collections.defaultdict(asyncio.Lock)  # of each seat one question waits

    async def find_curve(self, index: int, asked: Inflow, path: str) -> Curve:
        """Return the curve of an inlet, for a seat. A curve that is not known yet takes some seconds. `path` is that of road_lab."""
        return cast(Curve, await self._find(index, asked, path))

    async def find_works(self, index: int, asked: Works, path: str) -> Values:
        """Return the values of the zones of works, or a sentence that says why works cannot leave this capacity."""
        return cast(Values, await self._find(index, asked, path))

    async def _find(self, index: int, asked: Mapping[str, object], path: str) -> Mapping[str, object]:
        key = to_json([MEASURE, asked])
        if key not in self._kept:
            async with self._turns[index], self._lock:
                if key not in self._kept:
                    self._keep(key, await self.child.ask(asked, path))
        return self._kept[key]

    def _keep(self, key: str, found: Mapping[str, object]) -> None:
        """Keep a result. If the disk does not accept it, it is kept in memory only."""
        mode = "a"
        if len(self._kept) >= MOST_KEPT:
            self._kept.clear()
            mode = "w"
        self._kept[key] = found
        with contextlib.suppress(OSError), open(self._file, mode, encoding="ascii") as file:
            file.write(json.dumps([key, found]) + "\n")


def read_kept(path: Path) -> dict[str, Mapping[str, object]]:
    """Return the results in a file. Skip incomplete lines."""
    found: dict[str, Mapping[str, object]] = {}
    for line in path.read_bytes().splitlines() if path.exists() else ():
        with contextlib.suppress(ValueError):
            key, result = json.loads(line)
            found[key] = result
    return found


# In the child

def measure(asked: Mapping[str, object]) -> Iterator[Curve | Values]:
    yield measure_works(cast(Works, asked)) if "cars" in asked else measure_curve(cast(Inflow, asked))


def measure_works(asked: Works) -> Values:
    """Return the value of a shape of kind `capacity`, or a sentence that says why works cannot leave this capacity."""
    try:
        found = find_capacity(asked["cars"], asked["limit"] * KMH, Drivers(*asked["drivers"]), asked["cells"])
    except Fault as fault:
        return {"why": str(fault)}
    return {"value": (asked["cars"], found.limit, found.slowing, found.start)}


def measure_curve(asked: Inflow) -> Curve:
    """Return the curve of an inlet. If there are inlets upstream, measure at fewer chances, since each takes longer."""
    drivers = Drivers(asked["limit"], asked["slowing"], asked["start"], asked["entry"])
    before = [Inlet(*inlet) for inlet in asked["before"]]
    effort = Effort(may_refine=False, is_fine=True) if before else Effort()
    found = measure_admission(drivers, asked["cell"], before, effort)
    chances = [round(ALWAYS * place / POINTS) for place in range(POINTS + 1)]
    flows = [found.admitted(chance) for chance in chances]
    points = [(chance, max(flows[:place + 1])) for place, chance in enumerate(chances)]  # flows never fall: the rest is noise
    return {"points": points, "capacity": max(flows)}


if __name__ == "__main__":
    child.serve(measure)
