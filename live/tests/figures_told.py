"""Ask for figures of roads, and find them in a reply to `figures` or `days`."""
from __future__ import annotations

from typing import Any, Sequence, cast

from zegdrut.base.wire import Fields, PlanLine
from zegdrut.figures import RoadRun, Window
from zegdrut.figures.queues import run_day
from zegdrut.program import Script

SIDES = ("before", "after", "difference")
"""The first road, the second one, and the second minus the first."""


def mine(seat: int) -> list[str]:
    """Return the names of the shared road and the road of a seat, which is compared with it."""
    return ["shared", f"seat{seat}"]


def of_side(row: Any, side: str) -> list[Any]:
    """Return the mean of a row, and half the width of its interval."""
    return list(row["differences"][0] if side == "difference" else row["values"][SIDES.index(side)])


def means(said: Any, side: str, key: str, inlet: int | None = None, detector: int | None = None) -> list[float | None]:
    """Return a figure of a side: its mean, and half the width of its interval."""
    found, = (of_side(row, side) for row in said["figures"] if (row["figure"]["key"], list(row["figure"]["of"])) == (key, [inlet, detector]))
    return found


def value(said: Any, side: str, key: str, inlet: int | None = None, detector: int | None = None) -> Any:
    """Return the value of a figure of a side."""
    return means(said, side, key, inlet, detector)[0]


def at_inlets(said: Any, side: str, key: str) -> list[Any]:
    """Return "demand", "admitted" or "lost" at each inlet."""
    found = {row["figure"]["of"][0]: of_side(row, side)[0] for row in said["figures"] if row["figure"]["key"] == f"{key} at"}
    return [found[inlet] for inlet in sorted(found)] or [value(said, side, key)]


def run_with_queue(plan: Any, edits: Sequence[Any], first: int, last: int) -> RoadRun:
    """Run a day of a road, by the raw edits in force, on which cars that cannot enter wait before it."""
    rows = [(kind, index, step, value) for kind, index, step, *_, value in edits if value is not None]

    def make_script(has_works: bool) -> Script:
        lines = [{"edit": {"at": "A", "object": [kind, index], "step": step, "value": value}} for kind, index, step, value in rows
                 if has_works or kind == "inflow" or kind == "start" and step == 0]
        return Script(cast(PlanLine, {**plan, "replicas": ["A"]}), cast("list[Fields]", lines))
    return run_day(make_script(True), make_script(False), Window(first, last))
