"""Work out what people see of a line: where it is in force, which lines cover it elsewhere, and which operations on it have lost."""
from __future__ import annotations

import itertools
from bisect import bisect
from typing import Iterable, NamedTuple, TypeVar

from .layers import Layer, columns, kinds_of, parts_of, rank, sort_from_top, split_by_topmost
from .operations import CAPACITY, END, Capacity, Operation, Stamp
from .road import Road

T = TypeVar("T")


class Rectangle(NamedTuple):
    """A part of a line: objects `first` to `last`, steps `begin` to before `end`. `by` is the line that covers it there; None if it is in
    force there."""

    kind: str
    first: int
    last: int
    begin: int
    end: int | None
    value: int | Capacity
    by: Stamp | None


def shown_layer(road: Road, own: Layer) -> list[Rectangle]:
    """Return the rectangles of a layer, or of a part of one. A layer with several parts is covered where any of them is."""
    over = sort_from_top(one for kind in kinds_of(own.kind) for one in road.touching((kind, own.first, own.last, own.begin, own.end))
                         if rank(one) > rank(own))
    found = [(low, high, join_spans((since, until, None if one is None else one.name) for since, until, one in split_by_topmost(
        (over[place] for place in places), own.begin, own.end))) for low, high, places in columns(over, own.first, own.last, ())]
    return [Rectangle(own.kind, low, high, since, None if until == END else until, own.value, by)
            for low, high, spans in join_spans(found) for since, until, by in spans]


def join_spans(spans: Iterable[tuple[int, int, T]]) -> list[tuple[int, int, T]]:
    """Return spans, each with what is there; join neighbours that have the same."""
    runs = ([*run] for _, run in itertools.groupby(spans, key=lambda span: span[2]))
    return [(run[0][0], run[-1][1], run[0][2]) for run in runs]


def visible_rectangles(road: Road, line: Stamp) -> list[Rectangle]:
    """Return the rectangles of a line, of each of its parts; none if the line has no layer."""
    return [one for part in (parts_of(road.layers[line]) if line in road.layers else ()) for one in shown_layer(road, part)]


def covered_rectangles(road: Road, line: Stamp) -> list[Rectangle]:
    """Return where a capacity no longer holds, since another line covers a part of it."""
    own = road.layers.get(line)
    return [one for one in shown_layer(road, own) if one.by is not None] if own is not None and own.kind == CAPACITY else []


def find_overruled(road: Road, line: Stamp) -> dict[Operation, Operation]:
    """Return the operations on a line that have lost to another one, each with the operation that won: the first one that counts and was
    made without knowledge of it. Those that lost count, but a later change gives the line its shape. An undo has lost if a change that was
    based on the undone operation is in force. If a redo made such an operation count again, the redo has lost."""
    counts = road.operations.counts
    setters = road.setters_of(line)
    by_stamp = {one.stamp: one for one in setters}
    known: dict[Operation, None] = {}  # the latest first
    at, gap = road.setter(line), None
    while at is not None:
        known[at] = None
        gap = at.seen  # in the end a stamp that is missing here; all older operations count as known
        at = by_stamp.get(gap) if gap is not None else None
    winners = [one for one in reversed(known) if counts(one)]
    found = {one: winners[bisect(winners, one)] for one in setters if counts(one) and one not in known and (gap is None or one.stamp > gap)}
    won = road.setter(line)
    for operation in known:
        won = operation if counts(operation) else won
        assert won is not None  # the first one of `known` counts
        below = by_stamp.get(operation.seen) if operation.seen is not None else None
        found.update((each, won) for each in (road.operations.undos_of(below) if below else ()) if counts(each))
    return {last_redo(road, one): won for one, won in found.items()}


def last_redo(road: Road, operation: Operation) -> Operation:
    """Return the last redo that restored an operation, or the operation itself if nobody restored it."""
    operations = road.operations
    redos = [redo for undo in operations.undos_of(operation) for redo in operations.undos_of(undo) if operations.counts(redo)]
    return last_redo(road, max(redos)) if redos else operation
