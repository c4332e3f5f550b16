"""List the changes that a replica holds, for the page. A line says where its change is in force, which lines cover it elsewhere, and
which operations changed it."""
from __future__ import annotations

import time
from typing import AbstractSet, Sequence, TypedDict

from ..journal.state import Replica, SeatReplica, State
from ..model.active_operations import NO_OPERATIONS
from ..model.demands import demand_of, is_planned, stated_demand
from ..model.lines import operations_on
from ..model.operations import Operation, Shape, Stamp, describe_act
from ..model.road import Road
from ..model.visibility import Rectangle, covered_rectangles, find_overruled, visible_rectangles

SITE_KIND = "site"  # the kind of a line that excludes a site

ListedOperation = TypedDict("ListedOperation", {
    "stamp": Stamp, "who": str, "note": str, "when": float, "does": str, "shared": bool, "undoes": "Stamp | None", "lost": "Stamp | None",
    "idle": bool, "void": bool, "shape": "Shape | None", "demand": "float | None", "seat": int}, total=False)
"""What an operation did to a line, in the form of a reply. `lost` is the operation that won over this one; `seat` is the seat of this
server that made it, if one did."""
Line = TypedDict("Line", {
    "name": Stamp, "gone": bool, "kind": "str | None", "shape": "Shape | None", "site": str, "who": str, "note": str, "when": float,
    "height": Stamp, "standing": bool, "shared": bool, "shown": Sequence[Rectangle], "covered": Sequence[Rectangle],
    "operations": Sequence[ListedOperation], "was": "Sequence[Rectangle] | None", "demand": float, "planned": bool, "seat": int}, total=False)
"""A line of a list, in the form of a reply. A line that is `gone` has only its name. `site` is the site that the line excludes or
includes. `was` is what the line shows without the previewed change. `covered` says where a capacity no longer holds. `demand` is the
demand that an inflow stands for, in cars per hour, if its author gave one; `planned` is true if that is the demand of the road's file."""


class Lister:
    """Makes the lines of a replica's list, for the road of the replica or for another road."""

    def __init__(self, state: State, replica: Replica, road: Road | None = None) -> None:
        self._places, self._makers, self._road = state.shared.places, state.makers, road or replica.road
        self._idle: AbstractSet[Operation] = replica.idle if isinstance(replica, SeatReplica) else NO_OPERATIONS

    def line(self, line: Stamp) -> Line:
        """Return a line of the list. A line that was put and withdrawn again before it was shared is gone."""
        road = self._road
        done = operations_on(road, line)
        is_private = not any(one in self._places for one in done)
        if not done or is_private and not self._is_standing(line, done):
            return {"name": line, "gone": True}
        first = next((one for one in done if one.stamp == line), done[0])
        losses, site = find_overruled(road, line), self._excluded_by(done)
        said: Line = {
            "name": line, "kind": self.kind(line, done), "shape": self.shape(line), "who": first.about.who,
            "note": first.about.note, "when": first.about.when, "height": road.height_of(line),
            "standing": self._is_standing(line, done), "shared": done[-1] in self._places, "shown": visible_rectangles(road, line),
            "operations": [self.operation(one, losses.get(one)) for one in done]}
        if first in self._makers:
            said["seat"] = self._makers[first]
        if site is not None:
            said["site"] = site
        covered = covered_rectangles(road, line)
        if covered:
            said["covered"] = covered
        demand = demand_of(road, line)
        if demand is not None:
            said["demand"] = demand
        if is_planned(done):
            said["planned"] = True
        return said

    def _is_standing(self, line: Stamp, done: list[Operation]) -> bool:
        site = self._excluded_by(done)
        return line in self._road.layers if site is None else site in self._road.operations.excluded

    def _excluded_by(self, done: list[Operation]) -> str | None:
        """Return the site that a line excludes; None if it excludes none."""
        return next((one.excludes[0] for one in done if one.excludes is not None), None)

    def kind(self, line: Stamp, done: list[Operation]) -> str | None:
        """Return the kind of a line; None if it has had several kinds, or if the kind is not known."""
        if self._excluded_by(done) is not None:
            return SITE_KIND
        kinds = {one.shape.kind for one in done if one.shape is not None}
        return kinds.pop() if len(kinds) == 1 else None

    def shape(self, line: Stamp) -> Shape | None:
        """Return the shape of a line; None if it is withdrawn or has none."""
        setter = self._road.setter(line)
        return None if setter is None else setter.shape

    def operation(self, operation: Operation, won: Operation | None = None) -> ListedOperation:
        """Return what an operation did, and who made it. `won` is the operation that won over it."""
        about, does = operation.about, describe_act(operation, self._road.operations.held)
        said: ListedOperation = {
            "stamp": operation.stamp, "who": about.who, "note": about.note, "when": about.when, "does": does,
            "shared": operation in self._places, "undoes": operation.undoes, "lost": None if won is None else won.stamp}
        if operation in self._makers:
            said["seat"] = self._makers[operation]
        if operation in self._idle:
            said["idle"] = True
        if not self._road.operations.counts(operation):
            said["void"] = True
        if won is not None:
            said["shape"] = operation.shape
            said["demand"] = stated_demand(operation)
        return said

    def lines_since(self, marks: dict[Stamp, int], version: int, seconds: float) -> tuple[list[Line], int | None]:
        """Return the lines that have changed since a version of the list, in the order of their changes, as many as can be made in about
        `seconds`; and the version of the last one if there are more, else None."""
        found: list[Line] = []
        after = version
        until = time.perf_counter() + seconds
        for mark, line in sorted((mark, line) for line, mark in marks.items() if mark > version):
            if found and time.perf_counter() > until:
                return found, after
            found.append(self.line(line))
            after = mark
        return found, None
