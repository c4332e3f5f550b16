"""The types of the frames that a tab gets; live/PROTOCOL.md describes them. A JSON list whose items have different types is a tuple."""
from __future__ import annotations

from typing import Mapping, Sequence, TypedDict

from zegdrut.base.wire import PlanLine, WrittenEdit

from ..base.json_values import Json
from ..figures.figures import DetectorFigures, Head, MeanTimes, Row
from ..lab.change_list import ListedOperation, Line
from ..lab.seating import ListedSeat
from ..model.operations import Capacity, Shape, Stamp
from ..sites.peers import BrokerState

Day = TypedDict("Day", {"begin": "int | None", "date": "str | None", "zone": "str | None"})
"""The time of day at minute 0 of the road's file in seconds after midnight, the date and the time zone; null if the file has none."""
Welcome = TypedDict("Welcome", {
    "at": str, "seat": int, "name": str, "key": str, "form": int, "site": str, "plan": PlanLine, "horizon": int,
    "rate": float, "now": int, "stop": int, "ahead": int, "time": float, "most": Mapping[str, int], "broker": "BrokerState | None",
    "trouble": "str | None", "standing": "str | None", "day": Day, "origin": int, "lead": int, "demand_end": "int | None", "road": str,
    "figures": Sequence[Head], "variants": Sequence[str]}, total=False)
SkippedOperation = TypedDict("SkippedOperation", {"stamp": Stamp, "by": Sequence[str]})
"""An operation of the seat that undo skips, and the names of those who changed its line since."""
NewsFrame = TypedDict("NewsFrame", {
    "size": int, "from": Sequence[str], "shares": Sequence[Mapping[str, Json]], "changes": Sequence[ListedOperation], "touched": "int | None"})
"""What others shared and the seat has not taken, and the first step that changes."""
Frame = TypedDict("Frame", {
    "id": int, "us": Mapping[str, int], "refused": str, "why": str, "seats": Sequence[ListedSeat], "welcome": Welcome,
    "stamp": Stamp, "touched": "int | None", "again": bool, "layers": Sequence[Line], "since": int, "next": int, "more": bool,
    "undo": "Stamp | None", "redo": "Stamp | None", "blocked": Sequence[SkippedOperation], "size": int, "stamps": Sequence[Stamp],
    "changes": Sequence[ListedOperation], "operations": Sequence[Mapping[str, Json]], "shared": Sequence[bool],
    "makers": Sequence["int | None"], "horizon": int, "cells": str, "rows": Sequence[str], "cars": Json, "speeds": int, "edits": Sequence[WrittenEdit], "sums": Sequence[int], "approach": Sequence[int], "flows": Sequence[DetectorFigures],
    "counts": Json, "from": int, "to": int, "figures": Sequence[Row], "entries": Sequence[MeanTimes], "variants": Sequence[str], "days": int, "stopped": bool,
    "warnings": Sequence[str], "lines": str, "html": str, "csv": str, "points": Sequence["tuple[int, float]"], "capacity": float, "value": Capacity, "now": int,
    "news": NewsFrame, "pong": Json, "broker": BrokerState, "trouble": "str | None", "program": Mapping[str, int]}, total=False)
"""The fields of all replies and news. Each frame has some of them."""
