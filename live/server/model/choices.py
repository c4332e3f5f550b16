"""Choose what a seat can undo, redo, share and forget. `own` are the operations that were made at the seat."""
from __future__ import annotations

from typing import AbstractSet, Collection, NamedTuple

from .operations import Operation, Stamp, sort_by_stamp
from .projection import changed_layers
from .road import Road


class UndoChoice(NamedTuple):
    """The operation that the key for undo undoes next, and the undo that the key for redo undoes. `blocked` are newer operations of the
    seat that undo skips, because somebody else has changed their lines since."""

    undo: Operation | None
    redo: Operation | None
    blocked: list[Operation]


def own_operations(road: Road, own: Collection[Operation]) -> list[Operation]:
    """Return the own operations on a road, the oldest first."""
    return sort_by_stamp(one for one in own if one in road)


def would_change(road: Road, operation: Operation) -> bool:
    """Return whether the undo of an operation would change anything."""
    return operation not in road.operations.void and road.is_changed_by(road.operations.flipped_by_undo(operation))


def find_undoable(road: Road, own: Collection[Operation]) -> UndoChoice:
    """Return what undo and redo of a seat do next. Both skip operations whose undo would change nothing."""
    done: dict[Stamp, Operation] = {}
    undone: dict[Stamp, tuple[Operation, Operation]] = {}  # by the stamp of an undo: the undo, and what it undid
    redone: dict[Stamp | None, Stamp] = {}  # by the stamp of a redo: the stamp of what it brought back
    for operation in own_operations(road, own):
        undoes = redone.get(operation.undoes, operation.undoes)
        if undoes in done:
            undone[operation.stamp] = operation, done.pop(undoes)
        elif undoes in undone:
            again = undone.pop(undoes)[1]
            done[again.stamp] = again
            redone[operation.stamp] = again.stamp
        else:
            done[operation.stamp] = operation
            undone.clear()
    blocked = []
    undo = None
    for operation in reversed(done.values()):
        if would_change(road, operation):
            undo = operation
            break
        if any(other not in own for other in find_overruling(road, operation)):
            blocked.append(operation)
    redo = next((one for one, _ in reversed(undone.values()) if would_change(road, one)), None)
    return UndoChoice(undo, redo, blocked)


def find_overruling(road: Road, operation: Operation) -> list[Operation]:
    """Return the operations that overrule this one, so that its undo would change nothing; the newest first."""
    operations = road.operations
    root = operations.root_of(operation)
    found = {other for other in operations.undos_of(operation) if operations.counts(other)}
    if root.line is not None:
        found |= {other for other in (road.setter(root.line) if root.sets else None, road.lifter(root.line) if root.top else None)
                  if other is not None}
    if root.excludes is not None:
        found |= {other for other in operations.exclusions if other.excludes is not None and operations.counts(other)
                  and other.excludes[0] == root.excludes[0]}
    return sorted(found - {root}, reverse=True)


def private(road: Road, shared: Road, own: Collection[Operation]) -> list[Operation]:
    """Return the seat's own operations that are not shared, the oldest first."""
    return [one for one in own_operations(road, own) if one not in shared]


def shareable(road: Road, shared: Road, own: Collection[Operation], then: Road | None = None) -> list[Operation]:
    """Return the private operations that count and would change the shared road, perhaps only together with an exclusion among them, and
    those of an excluded site: what they would change is known only when it is included again. Leave out undos of private operations.
    `then` is the shared road with all private operations, if that is known."""
    some, out = sendable(road, shared, own), shared.operations.excluded
    then = then or shared.adding(some)
    lines, excluded = changed_layers(shared, then), then.operations.excluded ^ out
    roots = [(one, road.operations.root_of(one)) for one in some]
    excluding = [one for one, root in roots if root.excludes is not None and root.excludes[0] in excluded]
    if excluding:
        lines |= changed_layers(shared.adding(excluding), then)
    return [one for one, root in roots if one.site in out or root.line in lines or one in excluding]


def sendable(road: Road, shared: Road, own: Collection[Operation], stamps: AbstractSet[Stamp] | None = None) -> list[Operation]:
    """Return the private operations that count, all of them or those with these stamps. Leave out undos of private operations."""
    return [one for one in private(road, shared, own) if road.operations.counts(one)
            and (one.undoes is None or one.undoes in shared.operations.held) and (stamps is None or one.stamp in stamps)]


def find_forgettable(road: Road, shared: Road, own: Collection[Operation], kept: int,
                     spared: AbstractSet[Stamp] = frozenset()) -> set[Operation]:
    """Return the private operations of a seat that can be forgotten without any effect on the road: those that are undone, with their
    undos, and those on private layers that are withdrawn. Leave out the newest `kept`, which undo and redo may need, and those with the
    stamps `spared`."""
    some = private(road, shared, own)
    gone = {one for one in some[:max(0, len(some) - kept)] if one.stamp not in spared}
    while needed := {one for one in gone if is_needed(road, one, gone)}:
        gone -= needed
    return gone


def is_needed(road: Road, operation: Operation, gone: set[Operation]) -> bool:
    """Return whether an operation still has an effect if all operations in `gone` are forgotten together."""
    operations = road.operations
    if operation.site in operations.excluded or operation.excludes is not None:
        return True
    if operation.line is None and not gone.issuperset(road.changes_of(operation.stamp)):
        return True  # without it they would set a layer of its name
    if operation in operations.void:
        return not gone.issuperset(operations.undos_of(operation))
    if operation.undoes is not None:
        return operations.undone_by(operation) not in gone
    return operation.line in road.layers or operation.line is not None and not gone.issuperset(road.changes_of(operation.line))
