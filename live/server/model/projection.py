"""Compute the edits that turn one road of a program into another.

A program has an edit at each step at which the value of an object changes, and no others. At a step from which on no layer covers the
object, the edit has the plan's value.
"""
from __future__ import annotations

from typing import AbstractSet, Iterable, Iterator

from .layers import Layer, Stretch, columns, kinds_of, sort_from_top, split_by_topmost
from .operations import END, Stamp
from .road import Road

Edits = dict[tuple[str, int, int], "int | None"]
"""Edits by kind, object and step: the value, or None, which withdraws the edit."""

MOST_STRETCHES = 64  # stretches from which on whole kinds are compared


def difference(before: Road, after: Road, within: set[Stretch] | None = None) -> Edits:
    """Return the edits that turn `before` into `after`; only those in the stretches `within` if these are given."""
    if before is after:
        return {}
    edits: Edits = {}
    names = changed_layers(before, after)
    where = changed_stretches(before, after, names)
    for stretch in sorted(merge_stretches(where if within is None else intersect(where, within))):
        kind, first, last, _, _ = stretch
        lines: Iterable[tuple[int, int, dict[int, int], dict[int, int]]]
        if kind == "start":
            lines = ((index, index, start_changes(before, index), start_changes(after, index)) for index in range(first, last + 1))
        else:
            lines = compare_objects(before, after, stretch)
        for low, high, old, new in lines:
            steps = sorted(step for step in old.keys() | new.keys() if old.get(step) != new.get(step))
            edits.update(((kind, index, step), new.get(step)) for index in range(low, high + 1) for step in steps)
    return edits


def first_change(before: Road, after: Road, edits: Edits) -> int | None:
    """Return the first step at which a value in force differs between two roads; None if they are equal. `edits` turn one into the other.
    (An edit of a slow-to-start chance may put what the slowing chance of its zone gives already.)"""
    first = min((step for kind, _, step in edits if kind != "start"), default=END)
    for zone in {index for kind, index, step in edits if kind == "start" and step < first}:
        old, new = starts_in_force(before, zone), starts_in_force(after, zone)
        values: list[int | None] = [None, None]
        for step in sorted(old.keys() | new.keys()):
            values = [old.get(step, values[0]), new.get(step, values[1])]
            if values[0] != values[1]:
                first = min(first, step)
                break
    return None if first == END else first


def starts_in_force(road: Road, zone: int) -> dict[int, int]:
    """Return the slow-to-start chances in force at a zone, by the first step of each; without a layer that is the slowing chance."""
    plan = road.plan("slow", zone)
    assert plan is not None
    slow = {0: plan, **value_changes(road, "slow", zone, 0, END, road.on_object("slow", zone))}
    found: dict[int, int] = {}
    for since, until, layer in split_by_topmost(road.on_object("start", zone), 0, END):
        found[since] = max((step, value) for step, value in slow.items() if step <= since)[1] if layer is None else value_of(layer)
        found.update({step: value for step, value in slow.items() if since < step < until} if layer is None else {})
    return found


def difference_like(known: tuple[Road, Road, Edits], before: Road, after: Road) -> Edits:
    """Return the edits that turn `before` into `after`, given two other roads and their edits in `known`. Only stretches where these roads
    differ from the other two are computed, so seats that take the same operations share most of the work."""
    own = (changed_stretches(known[0], before, changed_layers(known[0], before))
           | changed_stretches(known[1], after, changed_layers(known[1], after)))
    if len(own) >= MOST_STRETCHES:
        return difference(before, after)
    by_kind: dict[str, list[Stretch]] = {}
    for stretch in own:
        by_kind.setdefault(stretch[0], []).append(stretch)
    edits = {(kind, index, step): value for (kind, index, step), value in known[2].items() if not any(
        first <= index <= last and begin <= step <= end for _, first, last, begin, end in by_kind.get(kind, ()))}
    return {**edits, **difference(before, after, own)}


def changed_layers(before: Road, after: Road) -> set[Stamp]:
    """Return the layers that differ between two roads."""
    old, new = before.layers, after.layers
    step = after.step
    names: Iterable[Stamp] = (step.names if step is not None and step.before() is before else old.keys() | new.keys())
    return {name for name in names if old.get(name) is not new.get(name) and old.get(name) != new.get(name)}


def changed_stretches(before: Road, after: Road, names: Iterable[Stamp]) -> set[Stretch]:
    """Return the stretches of these layers on two roads. The roads do not differ elsewhere if these are all changed layers. A change of a
    slowing chance can change the slow-to-start chance of its zone at any step."""
    found = {(kind, layer.first, layer.last, layer.begin, layer.end) for name in names for road in (before, after)
             for layer in [road.layers.get(name)] if layer is not None for kind in kinds_of(layer.kind)}
    return {one for one in found if one[0] != "start"} | {
        ("start", first, last, 0, END) for kind, first, last, *_ in found if kind in ("slow", "start")}


def intersect(ones: Iterable[Stretch], others: Iterable[Stretch]) -> set[Stretch]:
    """Return the intersections of the stretches of two sets."""
    parts = ((kind, max(first, low), min(last, high), max(begin, since), min(end, until))
             for kind, first, last, begin, end in ones for other, low, high, since, until in others if kind == other)
    return {part for part in parts if part[1] <= part[2] and part[3] <= part[4]}


def merge_stretches(some: set[Stretch]) -> set[Stretch]:
    """Return the stretches unchanged if there are few. Otherwise return one for each kind that covers all of them, at all steps."""
    if len(some) < MOST_STRETCHES:
        return some
    kinds: dict[str, list[Stretch]] = {}
    for stretch in some:
        kinds.setdefault(stretch[0], []).append(stretch)
    return {(kind, min(one[1] for one in ones), max(one[2] for one in ones), 0, END) for kind, ones in kinds.items()}


def compare_objects(before: Road, after: Road, stretch: Stretch) -> Iterator[tuple[int, int, dict[int, int], dict[int, int]]]:
    """Yield groups of neighbouring objects that may differ between two roads in a stretch: the first object, the last one, and the value
    changes of each before and after."""
    kind, first, last, begin, end = stretch
    wide = kind, first, last, begin - 1, end
    olds, news = before.touching(wide), after.touching(wide)
    gone, come = set(olds).difference(news), set(news).difference(olds)
    layers = sort_from_top([*news, *gone])
    not_old, not_new = ({place for place, one in enumerate(layers) if one in some} for some in (come, gone))
    cuts = range(first, last + 1) if kind != "block" else ()  # objects may differ from their neighbours by the plan
    for low, high, here in columns(layers, first, last, cuts):
        top = next((at for at, place in enumerate(here) if place in not_old or place in not_new), None)
        if top is None or all(one is not None for _, _, one in split_by_topmost(
                (layers[place] for place in here[:top]), begin - 1, min(END, end + 1))):
            continue  # the layers are the same, or those that differ are completely covered
        yield (low, high, value_changes(before, kind, low, begin, end, (layers[place] for place in here if place not in not_old)),
               value_changes(after, kind, low, begin, end, (layers[place] for place in here if place not in not_new)))


def value_changes(road: Road, kind: str, index: int, begin: int, end: int, layers: Iterable[Layer]) -> dict[int, int]:
    """Return the steps from `begin` to `end` at which an object's value changes, with the new values. `layers` are all layers on the
    object at these steps, from the top down."""
    found: dict[int, int] = {}
    plan = last = road.plan(kind, index)
    assert plan is not None
    for since, _, layer in split_by_topmost(layers, begin - 1, min(END, end + 1)):
        value = plan if layer is None else value_of(layer)
        if value != last:
            found[since] = last = value
    found.pop(begin - 1, None)
    return found


def value_of(layer: Layer) -> int:
    """Return the value of a part of a layer."""
    assert isinstance(layer.value, int)
    return layer.value


def start_changes(road: Road, index: int) -> dict[int, int]:
    """Return the steps at which the slow-to-start chance of a zone changes, with the new values. The plan has no such chance. After the
    first layer of this kind has ended, the chance equals the slowing chance of the zone wherever no layer covers it."""
    slow = value_changes(road, "slow", index, 0, END, road.on_object("slow", index))
    found: dict[int, int] = {}
    plan, last = road.plan("slow", index), None
    for since, until, layer in split_by_topmost(road.on_object("start", index), 0, END):
        if layer is not None:
            values: dict[int, int | None] = {since: value_of(layer)}
        elif found:
            values = {since: next((value for step, value in reversed(slow.items()) if step <= since), plan),
                      **{step: value for step, value in slow.items() if since < step < until}}
        else:
            values = {}
        for step, value in values.items():
            if value is not None and value != last:
                found[step] = last = value
    return found
