"""Compute the road of a set of operations: its layers.

    road = Road(plan)                      the road of the plan alone; the function `plan` returns an object's value
    road = road.adding([put(count, s)])    a new road; the old one does not change, and they share memory

The order in which operations are added does not matter, and neither does adding one twice.
"""
from __future__ import annotations

import weakref
from typing import AbstractSet, Callable, Iterable

from .active_operations import NO_OPERATIONS, OperationSet, insert_in_order
from .layers import Layer, Stretch, parts_of, sort_from_top, touches
from .operations import END, NOTHING, About, Operation, Shape, Stamp, lift, named

Plan = Callable[[str, int], "int | None"]
"""Returns the plan's value of an object, given its kind and index; None for the kind `start`, for which the plan has no value."""


class RoadChange:
    """The difference to the road that this one was made from: the new operations, those that now count or no longer count, and the layers that may differ."""

    def __init__(self, before: Road, fresh: set[Operation], flipped: set[Operation], names: set[Stamp]) -> None:
        self.before = weakref.ref(before)
        self.fresh, self.flipped, self.names = fresh, flipped, names


class Road:
    """A set of operations, and its layers."""

    def __init__(self, plan: Plan) -> None:
        self.plan = plan
        self.operations = OperationSet()
        self.layers: dict[Stamp, Layer] = {}
        self.shapes: dict[str, dict[Stamp, Layer]] = {}  # the parts of layers, by kind and name
        self.step: RoadChange | None = None  # how this road was made
        self._changes: dict[Stamp, tuple[Operation, ...]] = {}  # by line, the oldest first; lines that were only put are missing

    def __contains__(self, operation: Operation) -> bool:
        return operation in self.operations

    def changes_of(self, line: Stamp) -> tuple[Operation, ...]:
        """Return the operations that put or change a line, or put it on top, the oldest first, whether they count or not."""
        if line in self._changes:
            return self._changes[line]
        put = self.operations.held.get(line)
        return (put,) if put is not None and put.puts else ()

    def setters_of(self, line: Stamp) -> list[Operation]:
        """Return the operations that give a line a shape or withdraw it, the oldest first, whether they count or not."""
        return [one for one in self.changes_of(line) if one.sets]

    def copy(self) -> Road:
        road = Road(self.plan)
        road.operations, road.layers = self.operations.copy(), dict(self.layers)
        road.shapes, road._changes = {kind: dict(some) for kind, some in self.shapes.items()}, dict(self._changes)
        return road

    def adding(self, operations: Iterable[Operation]) -> Road:
        """Return the road with these operations added; this road itself if it holds them all."""
        some = [one for one in operations if one not in self.operations]
        if not some:
            return self
        road = self.copy()
        fresh, flipped = road.operations.add(some)
        for operation in fresh:
            if operation.line is not None:
                others = road.changes_of(operation.line)
                if not (operation.puts and operation in others):
                    road._changes[operation.line] = insert_in_order(others, operation)
        names = {one.line for one in flipped if one.line is not None}
        for name in names:
            road._lay(name)
        road.step = RoadChange(self, fresh, flipped, names)
        return road

    # Layers

    def setter(self, line: Stamp, flipped: AbstractSet[Operation] = NO_OPERATIONS) -> Operation | None:
        """Return the operation that gives a line its shape; None if no operation does."""
        return next((one for one in reversed(self.changes_of(line)) if one.sets and self.operations.counts(one, flipped)), None)

    def lifter(self, line: Stamp, flipped: AbstractSet[Operation] = NO_OPERATIONS) -> Operation | None:
        """Return the operation that gives a line its height; None if it was never put on top."""
        return next((one for one in reversed(self.changes_of(line)) if one.top and self.operations.counts(one, flipped)), None)

    def height_of(self, line: Stamp, flipped: AbstractSet[Operation] = NO_OPERATIONS) -> Stamp:
        """Return the height of a line: the stamp of its last lifter, or else its own name."""
        lifter = self.lifter(line, flipped)
        return line if lifter is None else lifter.stamp

    def layer(self, line: Stamp, flipped: AbstractSet[Operation] = NO_OPERATIONS) -> Layer | None:
        """Return the layer of a line; None if there is no such layer. Of the operations in `flipped`, those that count are ignored, and
        the others count."""
        setter = self.setter(line, flipped)
        if setter is None or setter.shape is None:
            return None
        kind, first, last, begin, end, value = setter.shape
        return Layer(self.height_of(line, flipped), line, kind, first, last, begin, END if end is None else end, value)

    def is_changed_by(self, flipped: set[Operation]) -> bool:
        """Return whether a layer or an exclusion would change if, of these operations, those that count were ignored and the others
        counted."""
        names = {one.line for one in flipped if one.line is not None}
        return (any(self.layer(name, flipped) != self.layers.get(name) for name in names)
                or self.operations.excluded_if(flipped) != self.operations.excluded)

    def _lay(self, line: Stamp) -> None:
        """Update a layer according to the operations that count."""
        old, new = self.layers.pop(line, None), self.layer(line)
        for part in [] if old is None else parts_of(old):
            del self.shapes[part.kind][line]
        if new is not None:
            self.layers[line] = new
            for part in parts_of(new):
                self.shapes.setdefault(part.kind, {})[line] = part

    # Where layers are

    def touching(self, stretch: Stretch) -> list[Layer]:
        """Return the layers that touch a stretch."""
        return [one for one in self.shapes.get(stretch[0], {}).values() if touches(one, stretch)]

    def on_object(self, kind: str, index: int) -> list[Layer]:
        """Return all layers on an object, from the top down."""
        return sort_from_top(self.touching((kind, index, index, 0, END)))


# Operations on the lines of a road

def last_change(road: Road, line: Stamp) -> Stamp | None:
    """Return the stamp of the operation that gave a line its present shape, or of the latest undo if that left the line without one; None
    if the line has no operation. A new change of the line has it as `seen`."""
    setter = road.setter(line)
    if setter is not None:
        return setter.stamp
    undos = [each.stamp for one in road.setters_of(line) for each in road.operations.undos_of(one) if road.operations.counts(each)]
    return max(undos, default=line if line in road.operations.held else None)


def change(road: Road, count: int, line: Stamp, shape: Shape | None, on_top: bool = False, about: About = NOTHING) -> Operation:
    """Change the shape of a line; None withdraws the line. It keeps its height, unless `on_top` is true or the line has no layer in
    force."""
    is_lifted = shape is not None and (on_top or line not in road.layers)
    return named(Operation((count, ""), line, shape, is_lifted, seen=last_change(road, line), about=about))


def repeat(road: Road, count: int, old: Operation, about: About = NOTHING) -> Operation | None:
    """Repeat what an operation did to its line, on top of all; None if it changed no line."""
    if old.line is None:
        return None
    return change(road, count, old.line, old.shape, True, about) if old.sets else lift(count, old.line, about)
