"""Give tests of delay what several of them use: roads of twelve cells with few cars."""
from __future__ import annotations

from zegdrut import Plan

ALWAYS = 65_536
PLAN = Plan(length=12, inlets=[(0, ALWAYS), (6, 0)], zones=[(1, 0)], replicas=["before", "after"])
Edits = list[tuple[str, int, int, int]]


def close_cell(cell: int, first: int, to: int) -> Edits:
    return [("block", cell, first, 1), ("block", cell, to, 0)]
