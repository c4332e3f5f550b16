"""Hash the operations that a site holds, by ranges of stamps, so that a site that was away gets what it lacks and not everything.

    sums.add(operations)
    sums.ranges()                 [(first stamp, hash), ..], the oldest first; a range ends where the next one begins
    sums.lacking(ranges)          the operations in those ranges of another site in which this one holds others
"""
from __future__ import annotations

import base64
import hashlib
import itertools
from bisect import bisect_left
from typing import Iterable, Sequence

from ..base.json_values import to_json
from ..model.operations import Operation, Stamp, sort_by_stamp
from ..model.projection import Edits

MOST_IN_RANGE, MOST_RANGES = 1_024, 257  # operations of a range; ranges: the newest 256, and one for all older operations
MODULUS = 1 << 64
Bound = Stamp | None
"""The first stamp of a range; None for the first range, which has no lower bound."""


class Sums:
    """The operations of a site in the order of their stamps, and the hashes in their names added up."""

    def __init__(self) -> None:
        self._operations: list[Operation] = []
        self._stamps: list[Stamp] = []
        self._upto = [0]  # by number of operations: the sum of the hashes of the oldest ones

    def add(self, operations: Iterable[Operation]) -> None:
        """Add operations. What is newer than the oldest of them is added up again."""
        fresh = sort_by_stamp(operations)
        place = bisect_left(self._stamps, fresh[0].stamp) if fresh else len(self._stamps)
        newer = self._operations[place:]
        del self._operations[place:], self._stamps[place:], self._upto[place + 1:]
        for operation in sort_by_stamp([*newer, *fresh]) if newer else fresh:
            self._operations.append(operation)
            self._stamps.append(operation.stamp)
            self._upto.append(self._upto[-1] + first_bits(operation.stamp))

    def _places(self, begin: Bound, end: Bound) -> tuple[int, int]:
        """Return the places of the operations from a stamp to before another one."""
        first = 0 if begin is None else bisect_left(self._stamps, begin)
        return first, len(self._stamps) if end is None else max(first, bisect_left(self._stamps, end))

    def hash_between(self, begin: Bound, end: Bound) -> str:
        """Return the hash of the operations from a stamp to before another one."""
        first, last = self._places(begin, end)
        return f"{(self._upto[last] - self._upto[first]) % MODULUS:x}"

    @property
    def total(self) -> str:
        """Return the hash of all operations."""
        return self.hash_between(None, None)

    def ranges(self, most: int | None = None) -> list[tuple[Bound, str]]:
        """Return at most `MOST_RANGES` ranges with their hashes, or at most `most`."""
        cuts: list[Bound] = [*self._stamps[MOST_IN_RANGE::MOST_IN_RANGE]]
        begins = cuts[max(0, len(cuts) + 1 - (most or MOST_RANGES)):]
        return [(begin, self.hash_between(begin, end)) for begin, end in bounds_of([None, *begins])]

    def lacking(self, ranges: Sequence[tuple[Bound, str]]) -> list[Operation]:
        """Return the operations in those ranges in which this site holds others than a site that sent these ranges, in the order of their
        stamps."""
        pairs = bounds_of([begin for begin, _ in ranges])
        different = (self._places(begin, end) for (begin, end), (_, theirs) in zip(pairs, ranges) if self.hash_between(begin, end) != theirs)
        return [*itertools.chain.from_iterable(self._operations[first:last] for first, last in different)]


def bounds_of(begins: Sequence[Bound]) -> list[tuple[Bound, Bound]]:
    """Return the bounds of ranges, given where each begins."""
    return [*zip(begins, [*begins[1:], None])]


def first_bits(stamp: Stamp) -> int:
    """Return the first 64 bits of the hash in a stamp."""
    return int.from_bytes(base64.urlsafe_b64decode(stamp[1] + "==")[:8], "big")


def hash_of_edits(edits: Edits) -> str:
    """Return a hash of the edits of a road, which have no stamps."""
    return hashlib.sha256(to_json(sorted([*name, value] for name, value in edits.items())).encode()).hexdigest()[:16]
