"""Find the lines of the list of changes: one for each layer that somebody put, and one for each site that somebody excluded.

A line, with the operations that belong to it, depends on the set of operations alone. `find_altered_lines` returns the lines that may
differ between two roads, so that a list can be updated without listing all lines again.
"""
from __future__ import annotations

from typing import Iterable

from .layers import Stretch, kinds_of, rank
from .operations import Operation, Stamp, sort_by_stamp
from .projection import MOST_STRETCHES, changed_layers, changed_stretches, merge_stretches
from .road import Road


def line_of(road: Road, operation: Operation) -> Stamp:
    """Return the line that an operation belongs to. An undo belongs to the line of the operation that it undoes; one whose target is
    missing is a line of its own."""
    root = road.operations.root_of(operation)
    if root.excludes is not None:
        return line_of_site(road, root.excludes[0]) or root.stamp
    return root.line or root.stamp


def line_of_site(road: Road, site: str) -> Stamp | None:
    """Return the line of all exclusions of a site, which has the stamp of the oldest one; None if the site was never excluded."""
    return next((one.stamp for one in road.operations.exclusions if one.excludes is not None and one.excludes[0] == site), None)


def all_lines(road: Road) -> set[Stamp]:
    return {line_of(road, one) for one in road.operations}


def operations_on(road: Road, line: Stamp) -> list[Operation]:
    """Return the operations on a line, the oldest first."""
    operations = road.operations
    roots = {*road.changes_of(line)}
    named = operations.held.get(line)
    if named is not None:
        roots.update(operations.exclusions if named.excludes is not None else [named])
    found = [one for one in roots if line_of(road, one) == line]
    for operation in found:
        found += operations.undos_of(operation)
    return sort_by_stamp(found)


def find_altered_lines(before: Road, after: Road) -> set[Stamp]:
    """Return the lines that may look different on `after`, a road that was made from `before` by adding operations."""
    step = after.step
    if before is after:
        return set()
    if step is None or step.before() is not before or before.operations.excluded != after.operations.excluded:
        return all_lines(before) | all_lines(after)
    lines = {line_of(after, one) for one in step.fresh | step.flipped}
    for operation in step.fresh:  # an undo that waited for it had a line of its own; an older exclusion may have named the line
        lines |= {each.stamp for each in after.operations.undos_of(operation)}
        named = None if operation.excludes is None else line_of_site(before, operation.excludes[0])
        lines |= set() if named is None else {named}
    names = changed_layers(before, after)
    return lines | names | find_lines_beneath(before, after, names)


def find_lines_beneath(before: Road, after: Road, names: set[Stamp]) -> set[Stamp]:
    """Return the lines beneath these layers on either road. Which lines cover them may have changed."""
    if len(names) > MOST_STRETCHES:
        return {line for stretch in merge_stretches(changed_stretches(before, after, names))
                for line in touched_lines((before, after), stretch, None)}
    lines = set[Stamp]()
    for name in names:
        there = [road.layers[name] for road in (before, after) if name in road.layers]
        top = max(map(rank, there))
        kinds = {kind for one in there for kind in kinds_of(one.kind)}
        for stretch in changed_stretches(before, after, [name]):
            lines |= touched_lines((before, after), stretch, top) if stretch[0] in kinds else set()
    return lines


def touched_lines(roads: Iterable[Road], stretch: Stretch, top: tuple[Stamp, Stamp] | None) -> set[Stamp]:
    """Return the lines that touch a stretch, only those beneath the rank `top` if that is given."""
    return {one.name for road in roads for one in road.touching(stretch) if top is None or rank(one) < top}
