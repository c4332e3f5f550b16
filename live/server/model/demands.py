"""Find the demands that were asked for, in cars per hour, on a road that has inflow chances.

A shape of kind inflow has a chance. The operation that gave the line its shape may have the demand that the chance stands for, in
`demand`, one of the fields that other versions keep without reading them. A value there that is not a demand is ignored.
"""
from __future__ import annotations

import math
from typing import Mapping, Sequence

from ..base.json_values import Json
from .layers import split_by_topmost
from .operations import END, NO_MORE, Operation, Shape, Stamp
from .road import Road

DEMAND, PLANNED = "demand", "planned"
"""The names of the fields of an operation: its demand in cars per hour; and whether that is the demand of the road's file."""
MOST_DEMAND = 10_000.0  # cars per hour
INFLOW = "inflow"
DemandOverTime = Sequence[tuple[int, "float | None"]]
"""The demand of an inlet over time, as (step, cars per hour), each in force until the next; None if nobody has asked for one."""


def written_demand(demand: float | None, is_planned: bool = False) -> Mapping[str, Json]:
    """Return the fields of an operation for the demand that its chance stands for, rounded to whole cars per hour as the page shows it;
    none if there is no demand."""
    if demand is None:
        return NO_MORE
    whole = math.floor(demand + 0.5)
    return {DEMAND: whole, PLANNED: True} if is_planned else {DEMAND: whole}


def stated_demand(operation: Operation) -> float | None:
    """Return the demand that an inflow chance stands for, according to the operation that set it, in cars per hour; None if the operation
    does not say."""
    value, shape = operation.about.more.get(DEMAND), operation.shape
    if shape is None or shape.kind != INFLOW or isinstance(value, bool) or not isinstance(value, (int, float)):
        return None
    return float(value) if math.isfinite(value) and 0 <= value <= MOST_DEMAND else None


def demand_of(road: Road, line: Stamp) -> float | None:
    """Return the present demand of a line, in cars per hour; None if nobody has asked for one."""
    setter = road.setter(line)
    return None if setter is None else stated_demand(setter)


def kept_demand(road: Road, line: Stamp, shape: Shape) -> float | None:
    """Return the demand of a line that is about to get another shape: the same as before if inlet and chance stay the same, else None."""
    layer = road.layers.get(line)
    is_same = layer is not None and (layer.kind, layer.first, layer.last, layer.value) == (
        shape.kind, shape.first, shape.last, shape.value)
    return demand_of(road, line) if is_same else None


def is_planned(done: Sequence[Operation]) -> bool:
    """Return whether a line, given all operations on it, is a demand of the road's file that nobody has changed."""
    return len(done) == 1 and done[0].about.more.get(PLANNED) is True


def asked_demands(road: Road, inlets: int) -> list[DemandOverTime]:
    """Return the demand of each inlet over time, as far as it was asked for."""
    return [asked_demand(road, inlet) for inlet in range(inlets)]


def asked_demand(road: Road, inlet: int) -> DemandOverTime:
    """Return the demand of an inlet over time, which is the demand of the topmost layer at each step."""
    found: list[tuple[int, float | None]] = []
    for begin, _, layer in split_by_topmost(road.on_object(INFLOW, inlet), 0, END):
        demand = None if layer is None else demand_of(road, layer.name)
        if not found or found[-1][1] != demand:
            found.append((begin, demand))
    return found
