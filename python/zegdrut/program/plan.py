"""Plans of roads."""
from __future__ import annotations

from dataclasses import dataclass
from typing import Sequence

from ..base.argument_checks import check_list, check_pair, check_text, check_whole
from ..base.wire import PlanLine

ALWAYS = 65_536
"""The chance of an event that always happens. Chances are whole numbers of 1/65,536."""


@dataclass(frozen=True)
class Plan:
    """A road of `length` cells. Plans can be compared, and be keys of a dictionary.

    length: 8 to 8,192 cells.
    inlets: a (cell, inflow chance) for each inlet, with chances in 1/65,536.
    zones: a (speed limit in cells per step, slowing chance in 1/65,536) for each zone, from cell 0 on.
    zone: the width of a zone in cells; by default all zones have the same width.
    exit: the number of cells at the end of the road where cars are deleted.
    detectors: the cells of the detectors.
    words: the seed of the random numbers, or "steady".
    replicas: the names of the copies of the road.

    TypeError, ValueError: a field has a wrong type, is NaN or negative, or there are no zones. The message names the field.
    `RoadLab` raises `Refused` for numbers that are out of range.
    """

    length: int
    inlets: Sequence[tuple[int, int]]
    zones: Sequence[tuple[int, int]]
    zone: int | None = None
    exit: int = 1
    detectors: Sequence[int] = ()
    words: int | str = 7
    replicas: Sequence[str] = ("A",)

    def __post_init__(self) -> None:
        for name, value in self._checked().items():
            object.__setattr__(self, name, tuple(value) if isinstance(value, list) else value)

    def _checked(self) -> dict[str, object]:
        zones = [check_pair(f"zones[{index}]", one, "limit", "slow") for index, one in enumerate(check_list("zones", self.zones, "zones"))]
        if not zones:
            raise ValueError("zones: a road has 1 to 64 zones, not 0: give at least one (limit, slowing chance)")
        return {
            "length": check_whole("length", self.length), "exit": check_whole("exit", self.exit),
            "zone": None if self.zone is None else check_whole("zone", self.zone), "zones": zones,
            "inlets": [check_pair(f"inlets[{index}]", one, "cell", "inflow")
                       for index, one in enumerate(check_list("inlets", self.inlets, "inlets"))],
            "detectors": [check_whole(f"detectors[{index}]", one)
                          for index, one in enumerate(check_list("detectors", self.detectors, "cells"))],
            "words": "steady" if isinstance(self.words, str) and self.words == "steady" else check_whole("words", self.words),
            "replicas": [check_text(f"replicas[{index}]", one)
                         for index, one in enumerate(check_list("replicas", self.replicas, "names"))]}

    def to_line(self) -> PlanLine:
        """Return the plan as the first line of a script."""
        zone = -(-self.length // len(self.zones)) if self.zone is None else self.zone
        return {"length": self.length, "inlets": list(self.inlets), "zones": list(self.zones), "zone": zone, "exit": self.exit,
                "detectors": list(self.detectors), "words": self.words, "replicas": list(self.replicas)}
