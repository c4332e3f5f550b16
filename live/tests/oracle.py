"""Compute what operations mean, object by object and step by step: from their definition alone, without the model.

    oracle = Oracle({"limit": 3, ..}, plan, last)     how many objects there are, their values by the plan, how many steps
    oracle.painted(operations)                        the value of each object at each step
    oracle.by_the_program(edits)                      the same values, by the program's rule for edits
"""
from __future__ import annotations

from typing import Any, Callable, Iterable, Mapping

from server.model.operations import Operation, Shape, Stamp
from server.model.projection import Edits, difference
from server.model.road import Road
from server.journal.entries import read_plan_line
from server.journal.state import plan_value

Values = dict[tuple[str, int], list[Any]]
COUNTED = {"block": "length", "limit": "zones", "slow": "zones", "start": "zones", "inflow": "inlets", "watch": "detectors"}


OF_CAPACITY = "limit", "slow", "start"


def counting_operations(held: Iterable[Operation]) -> list[Operation]:
    """Return the active operations, the latest first: those of included sites that no active operation undoes. An
    exclusion is undone by its own site alone, excluded or not."""
    down = sorted(held, key=lambda one: one.stamp, reverse=True)
    no_layers = {one.stamp for one in down if one.line is None}
    down = [one for one in down if one.line not in no_layers]
    of_exclusions = {one.stamp for one in down if one.excludes is not None}
    size = -1
    while size != len(of_exclusions):
        size = len(of_exclusions)
        of_exclusions |= {one.stamp for one in down if one.undoes in of_exclusions}

    def alive(excluded: Iterable[str]) -> list[Operation]:
        undone: dict[Stamp, set[str]] = {}
        found = []
        for one in down:
            by = undone.get(one.stamp, set())
            if (one.site not in by) if one.stamp in of_exclusions else (one.site not in excluded and not by):
                found.append(one)
                if one.undoes is not None:
                    undone.setdefault(one.undoes, set()).add(one.site)
        return found
    says: dict[str, bool] = {}
    for one in alive(()):  # the newest says first; it says nothing if a newer one has excluded its own site
        if one.excludes is not None and not says.get(one.site, False):
            site, is_out = one.excludes
            says[site] = says.get(site, is_out)
    return alive({site for site, is_out in says.items() if is_out})


def with_starts(values: Values) -> Values:
    """Let slow-to-start chances default to the slowing chance of their zone."""
    for (kind, index), line in values.items():
        if kind == "start":
            slow = values["slow", index]
            line[:] = [slow[step] if value is None else value for step, value in enumerate(line)]
    return values


class Oracle:
    """Computes what is in force on one road."""

    def __init__(self, there: Mapping[str, int], plan: Callable[[str, int], int | None], last: int) -> None:
        self.there, self.plan, self.last = there, plan, last

    def tops(self, held: Iterable[Operation]) -> dict[tuple[str, int], list[tuple[Any, Any]]]:
        """Return, for each object and step, the value and the line of the topmost layer; (None, None) if the plan's value
        applies."""
        shapes: dict[Stamp, Shape | None] = {}
        heights: dict[Stamp, Stamp] = {}
        for one in counting_operations(held):
            if one.line is None:
                continue
            if one.shape is not None or not one.top:
                shapes.setdefault(one.line, one.shape)
            if one.top:
                heights.setdefault(one.line, one.stamp)
        found: dict[tuple[str, int], list[tuple[Any, Any]]] = {
            (kind, index): [(None, None)] * self.last for kind, many in self.there.items() for index in range(many)}
        for line in sorted(shapes, key=lambda line: (heights.get(line, line), line)):
            shape = shapes[line]
            if shape is None:
                continue
            end = self.last if shape.end is None else min(self.last, shape.end)
            parts = zip(OF_CAPACITY, shape.value[1:]) if isinstance(shape.value, tuple) else [(shape.kind, shape.value)]
            for kind, value in parts:
                for index in range(shape.first, shape.last + 1):
                    if shape.begin < end:
                        found[kind, index][shape.begin:end] = [(value, line)] * (end - shape.begin)
        return found

    def painted(self, held: Iterable[Operation]) -> Values:
        return with_starts({thing: [self.plan(*thing) if value is None else value for value, _ in line]
                            for thing, line in self.tops(held).items()})

    def by_the_program(self, edits: dict[tuple[str, int], dict[int, tuple[int, Any]]]) -> Values:
        """Return the values by the program's rule: at each step that of the latest edit that is not withdrawn."""
        found: Values = {}
        for kind, many in self.there.items():
            for index in range(many):
                value, line = self.plan(kind, index), []
                there = edits.get((kind, index), {})
                for step in range(self.last):
                    _, put_there = there.get(step, (0, None))
                    value = value if put_there is None else put_there
                    line.append(value)
                found[kind, index] = line
        return with_starts(found)


def oracle_of(plan: dict[str, Any], last: int) -> Oracle:
    """Return the oracle of a plan line, for the steps before `last`."""
    line = read_plan_line(plan)
    there = {kind: plan[name] if kind == "block" else len(plan[name]) for kind, name in COUNTED.items()}
    return Oracle(there, lambda kind, index: plan_value(line, kind, index), last)


def all_edits(road: Road) -> Edits:
    """Return all edits of a road, which turn the road of the plan into it."""
    return difference(Road(road.plan), road)


def by_rows(edits: Iterable[Any]) -> dict[tuple[str, int], dict[int, tuple[int, Any]]]:
    """Return edits as an `import` has them, by object and step."""
    found: dict[tuple[str, int], dict[int, tuple[int, Any]]] = {}
    for kind, index, step, count, _, value in edits:
        found.setdefault((kind, index), {})[step] = count, value
    return found
