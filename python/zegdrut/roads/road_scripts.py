"""Make the script of a freeway: its plan, its edits, and its advance."""
from __future__ import annotations

from typing import Iterable

from ..base.wire import Fields, PlanLine
from ..program.scripts import Script
from .road_in_cells import Chances as Chances, Change, Road


def make_plan(road: Road, chances: Chances, seed: int) -> PlanLine:
    """Make the plan of a road."""
    inlets = [[cell, changes[0][1]] for (cell, _), changes in zip(road.inlets, chances)]
    zones = [[road.limit, road.find_slowing(zone)] for zone in range(road.zones)]
    return {"length": road.length, "exit": 1, "zone": road.zone, "zones": zones,
            "inlets": inlets, "detectors": road.detectors, "words": seed, "replicas": ["A"]}


def make_base_edits(road: Road, chances: Chances) -> list[Change]:
    """Make the edits that the road also has without works: slow-to-start, and the demand over time."""
    demand = [("inflow", inlet, step, chance) for inlet, changes in enumerate(chances) for step, chance in changes[1:]]
    return [*road.base_edits, *demand]


def make_script(road: Road, chances: Chances, seed: int, with_works: bool = True) -> Script:
    """Make the script: the plan, the edits, and the advance to the end of the run."""
    edits = make_commands([*make_base_edits(road, chances), *(road.edits if with_works else [])])
    return Script(make_plan(road, chances, seed), [*edits, {"advance": {"at": "A", "to": road.steps}}])


def make_commands(changed: Iterable[Change]) -> list[Fields]:
    """Convert changes to commands."""
    return [{"withdraw": {"at": "A", "object": [kind, index], "step": step}} if value is None else
            {"edit": {"at": "A", "object": [kind, index], "step": step, "value": value}}
            for kind, index, step, value in changed]
