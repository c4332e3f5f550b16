"""Read scripts, carry them out, and compare their plans."""
from __future__ import annotations

import json
from pathlib import Path
from typing import NamedTuple

from ..base.errors import Fault as Fault, Refused
from ..base.wire import Fields, PlanLine
from .lab import RoadLab

QUERIES = {"cells", "cars", "count", "diagram", "scenario"}


class Script(NamedTuple):
    """A plan, and the commands that follow it."""

    plan: PlanLine
    commands: list[Fields]

    @property
    def lines(self) -> list[Fields]:
        """Return all lines, the plan first."""
        return [{**self.plan}, *self.commands]

    def with_seed(self, seed: int | str) -> Script:
        """Return the script with another seed of the random numbers, or "steady"."""
        plan = self.plan.copy()
        plan["words"] = seed
        return Script(plan, self.commands)


def read_script(path: Path | str) -> Script:
    """Read a script. Fault: it is empty, or a line is not a JSON object."""
    try:
        lines = [json.loads(line) for line in Path(path).read_text(encoding="utf-8").splitlines()]
    except ValueError:
        lines = [None]
    if not lines or not all(isinstance(line, dict) for line in lines):
        raise Fault(f"{path} is not a script: `recipes/explain {path}` says what is wrong with it")
    return Script(lines[0], lines[1:])


NAMES_OF_FIELDS = {"words": "seed (`words`)", "exit": "deleted zone (`exit`)"}


def check_same_road(before: PlanLine, after: PlanLine) -> None:
    """Check that two plans describe the same road. Detectors, replicas and the bounds of equal zones may differ.

    Fault: they describe different roads. The message names the fields."""
    first, second = map(list_road_fields, (before, after))
    others = [NAMES_OF_FIELDS.get(field, field) for field, value in first.items() if value != second[field]]
    if others:
        raise Fault(f"the two scripts describe different roads: the {' and the '.join(others)} must be the same in both")


def list_road_fields(plan: PlanLine) -> dict[str, object]:
    """Return what determines the road of a plan: its cells with their zones, its inlets and its seed."""
    of_cells = [plan["zones"][cell // plan["zone"]] for cell in range(plan["length"])]
    return {"length": plan["length"], "exit": plan["exit"], "inlets": plan["inlets"], "words": plan["words"], "zones": of_cells}


def open_edited(name: Path | str, script: Script) -> RoadLab:
    """Return a lab that has carried out all commands of a script except queries. Fault: a line is refused."""
    number = 1
    try:
        lab = RoadLab(script.plan)
        for number, line in enumerate(script.commands, 2):
            if not QUERIES.intersection(line):
                lab.ask(line)
    except Refused as fault:
        raise Fault(f"{name}, line {number}: {fault}") from None
    return lab


def choose_replica(lab: RoadLab, at: str | None) -> str:
    """Return the replica `at`, or by default the first one of the plan. (Two scripts may name theirs differently.)"""
    return at or lab.plan["replicas"][0]
