"""Decide which operations of a set count.

An operation counts unless an operation that counts undoes it, its site is excluded, or the layer that it sets is named by an undo or an
exclusion, which puts none. This is decided from the greatest stamp down.
After new operations, only those decisions are made again that may change. Exclusions are decided first: only their own site can undo
them, whether it is excluded or not. So no two decisions depend on each other.

Several functions take `flipped`, a set of operations. In their answer, operations in it that count are ignored, and the others in it
count.
"""
from __future__ import annotations

from bisect import bisect
from typing import AbstractSet, Iterable, Iterator

from .operations import Operation, Stamp, sort_by_stamp, undo_chain

NO_OPERATIONS: frozenset[Operation] = frozenset()


class OperationSet:
    """A set of operations, and which of them count."""

    def __init__(self) -> None:
        self.held: dict[Stamp, Operation] = {}
        self.void: set[Operation] = set()  # operations that are held but do not count
        self.excluded: frozenset[str] = frozenset()  # sites
        self.exclusions: tuple[Operation, ...] = ()  # operations that exclude sites or include them again, the oldest first
        self._early: dict[Stamp, tuple[Operation, ...]] = {}  # operations that came before the one that names their layer, by its stamp
        self._undos: dict[Stamp, tuple[Operation, ...]] = {}  # undos by the stamp of the operation that they undo
        self._of_exclusions: frozenset[Stamp] = frozenset()  # exclusions, their undos, the undos of these undos, and so on

    def copy(self) -> OperationSet:
        """Return a copy that can be changed without changing this one."""
        other = OperationSet()
        other.held, other.void, other.excluded = dict(self.held), set(self.void), self.excluded
        other.exclusions, other._undos, other._of_exclusions = self.exclusions, dict(self._undos), self._of_exclusions
        other._early = dict(self._early)
        return other

    def __contains__(self, operation: Operation) -> bool:
        return operation.stamp in self.held

    def __iter__(self) -> Iterator[Operation]:
        return iter(self.held.values())

    def undos_of(self, operation: Operation) -> tuple[Operation, ...]:
        """Return the operations that undo this one, whether they count or not."""
        return self._undos.get(operation.stamp, ())

    def undone_by(self, operation: Operation) -> Operation | None:
        """Return the operation that this one undoes; None if it undoes none that is held."""
        return None if operation.undoes is None else self.held.get(operation.undoes)

    def undo_chain(self, operation: Operation) -> list[Operation]:
        """Return an operation, the operation that it undoes, the one that this undoes, and so on. An undo whose target is missing is the
        last one."""
        return undo_chain(operation, self.held)

    def root_of(self, operation: Operation) -> Operation:
        """Follow undos down to the operation that was undone first."""
        return self.undo_chain(operation)[-1]

    def counts(self, operation: Operation, flipped: AbstractSet[Operation] = NO_OPERATIONS) -> bool:
        """Return whether an operation counts."""
        return (operation in self.void) == (operation in flipped)

    def add(self, operations: Iterable[Operation]) -> tuple[set[Operation], set[Operation]]:
        """Add operations. Return those that are new, and those that now count but did not before, or the reverse."""
        before = self._of_exclusions
        fresh = {one for one in operations if self._hold(one)}
        waiting = fresh.union(self.held[stamp] for stamp in self._of_exclusions - before)
        for operation in fresh:
            early = self._early.pop(operation.stamp, ())
            waiting |= {*early} if operation.line is None else set()
        flipped = self._settle(sort_by_stamp(waiting))
        if len(fresh) > len(self.void):
            self.void = set(self.void)  # a smaller copy: the set had grown to hold all new operations
        excluded = self.excluded_if()
        if excluded != self.excluded:
            changed, self.excluded = excluded ^ self.excluded, excluded
            flipped ^= self._settle(sort_by_stamp(one for one in self if one.site in changed))
        return fresh, flipped

    def _hold(self, operation: Operation) -> bool:
        """Hold an operation, for now as one that does not count. Return whether it is new."""
        if operation in self:
            return False
        self.held[operation.stamp] = operation
        self.void.add(operation)
        if operation.line is not None and operation.line not in self.held:
            self._early[operation.line] = *self._early.get(operation.line, ()), operation
        if operation.undoes is not None:
            self._undos[operation.undoes] = *self._undos.get(operation.undoes, ()), operation
        if operation.excludes is not None:
            self.exclusions = insert_in_order(self.exclusions, operation)
        if operation.excludes is not None or operation.undoes in self._of_exclusions:
            chain = [operation]
            for each in chain:
                chain += self.undos_of(each)
            self._of_exclusions |= {each.stamp for each in chain}
        return True

    def _settle(self, waiting: list[Operation]) -> set[Operation]:
        """Decide whether these operations count, and all that they undo. `waiting` is sorted, and the greatest is decided first. Return
        the operations whose decision has changed."""
        flipped: set[Operation] = set()
        while waiting:
            operation = waiting.pop()
            if self._is_void(operation, NO_OPERATIONS) != (operation in self.void):
                self.void ^= {operation}
                flipped ^= {operation}
                undone = self.undone_by(operation)
                waiting += [] if undone is None else [undone]
        return flipped

    def _is_void(self, operation: Operation, flipped: AbstractSet[Operation]) -> bool:
        named = None if operation.line is None else self.held.get(operation.line)
        if named is not None and named.line is None:
            return True
        if operation.stamp in self._of_exclusions:
            return any(other.site == operation.site and self.counts(other, flipped) for other in self.undos_of(operation))
        return operation.site in self.excluded or any(self.counts(other, flipped) for other in self.undos_of(operation))

    def excluded_if(self, flipped: AbstractSet[Operation] = NO_OPERATIONS) -> frozenset[str]:
        """Return the excluded sites. Of a site the newest exclusion holds; one is ignored if its own site is excluded by a newer one."""
        says: dict[str, bool] = {}
        for exclusion in reversed(self.exclusions):
            if exclusion.excludes is not None and self.counts(exclusion, flipped) and not says.get(exclusion.site):
                says.setdefault(*exclusion.excludes)
        return frozenset(site for site, is_out in says.items() if is_out)

    def flipped_by_undo(self, operation: Operation) -> set[Operation]:
        """Return the operations whose decision would change if an operation that counts were undone."""
        if operation in self.void:
            return set()
        flipped = {operation}
        for other in self.undo_chain(operation)[1:]:
            if self._is_void(other, flipped) != self.counts(other, flipped):
                break
            flipped.add(other)
        return flipped


def insert_in_order(some: tuple[Operation, ...], operation: Operation) -> tuple[Operation, ...]:
    """Return sorted operations with one more in its place."""
    place = bisect(some, operation)
    return *some[:place], operation, *some[place:]
