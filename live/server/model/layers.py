"""Resolve layers: at each step an object has the value of the topmost layer that covers it."""
from __future__ import annotations

from bisect import bisect_left, insort
from typing import Iterable, Iterator, NamedTuple, Sequence

from .operations import CAPACITY, Capacity, Stamp

Stretch = tuple[str, int, int, int, int]
"""A part of a road: kind, first and last object, first and last step."""


class Layer(NamedTuple):
    """A layer of a road, or a part of one. The layer with the greatest height lies on top; of equal heights, the one with the greatest
    name. (Heights are equal if somebody changes a layer that is named by an operation that puts none.)"""

    height: Stamp
    name: Stamp
    kind: str
    first: int
    last: int
    begin: int
    end: int
    value: int | Capacity


Piece = tuple[int, int, "Layer | None"]
"""A span of steps, from one to before another, and the topmost layer there; None if no layer is there."""
OF_CAPACITY = "limit", "slow", "start"
"""The kinds of the parts of a capacity, in the order of its value behind the cars per hour."""


def values_of(kind: str, value: int | Capacity) -> list[tuple[str, int]]:
    """Return the kinds and values that a program knows: of a capacity its limit, slowing chance and slow-to-start chance."""
    return [*zip(OF_CAPACITY, value[1:])] if isinstance(value, tuple) else [(kind, value)]


def parts_of(layer: Layer) -> list[Layer]:
    """Return the parts of a layer, one for each kind."""
    return [layer._replace(kind=kind, value=value) for kind, value in values_of(layer.kind, layer.value)]


def kinds_of(kind: str) -> tuple[str, ...]:
    """Return the kinds of the parts of a layer of a kind."""
    return OF_CAPACITY if kind == CAPACITY else (kind,)


def rank(layer: Layer) -> tuple[Stamp, Stamp]:
    """Return the rank of a layer: the layer with the greatest rank lies on top."""
    return layer.height, layer.name


def sort_from_top(layers: Iterable[Layer]) -> list[Layer]:
    return sorted(layers, key=rank, reverse=True)


def touches(layer: Layer, stretch: Stretch) -> bool:
    """Return whether a layer has an object in a stretch, and a step in it or next to it."""
    kind, first, last, begin, end = stretch
    return (layer.kind == kind and layer.first <= last and layer.last >= first
            and layer.begin <= end and layer.end >= begin)


def split_by_topmost(layers: Iterable[Layer], begin: int, end: int) -> list[Piece]:
    """Return the steps from `begin` to before `end` as spans with their topmost layers. `layers` are given from the top down."""
    found: list[Piece] = []
    free = [(begin, end)]
    for layer in layers:
        if not free:
            break
        if layer.begin >= end or layer.end <= begin:
            continue
        left = []
        for low, high in free:
            since, until = max(low, layer.begin), min(high, layer.end)
            if since < until:
                found.append((since, until, layer))
                left += [part for part in ((low, since), (until, high)) if part[0] < part[1]]
            else:
                left.append((low, high))
        free = left
    return sorted([*found, *((low, high, None) for low, high in free)], key=lambda piece: piece[0])


def columns(layers: Sequence[Layer], first: int, last: int, cuts: Iterable[int]) -> Iterator[tuple[int, int, list[int]]]:
    """Yield the objects from `first` to `last` as groups of neighbours with the same layers: the first object, the last one, and the
    places of their layers in `layers`. A group also ends before each object in `cuts`."""
    comes: dict[int, list[int]] = {cut: [] for cut in (first, *cuts)}
    goes: dict[int, list[int]] = {}
    for place, layer in enumerate(layers):
        comes.setdefault(max(first, layer.first), []).append(place)
        goes.setdefault(layer.last + 1, []).append(place)
    lows = sorted(low for low in comes.keys() | goes.keys() if low <= last)
    here: list[int] = []
    for low, high in zip(lows, [low - 1 for low in lows[1:]] + [last]):
        for place in goes.get(low, ()):
            del here[bisect_left(here, place)]
        for place in comes.get(low, ()):
            insort(here, place)
        yield low, high, here
