"""Make the replicas of a program simulate roads: send them the edits that turn the road that they have into another one."""
from __future__ import annotations

import asyncio
import collections
import logging
from typing import Deque

from zegdrut.base.wire import WrittenEdit

from ..base.json_values import to_json
from ..model.projection import Edits, difference, difference_like, first_change
from ..model.road import Road
from .program import Program, import_lines

STAMP_NUMBER = 64  # the number in all stamps that the program gets; no replica has it
MOST_INLINE = 64  # layers of two roads whose difference is computed in the event loop; if there are more, in a thread
MOST_DIFFERENCES = 16  # differences


def rows_of(edits: Edits, count: int = 1) -> list[WrittenEdit]:
    """Return edits as rows of an import. Their stamps have a meaning only for the program."""
    return [(kind, index, step, count, STAMP_NUMBER, value) for (kind, index, step), value in edits.items()]


class Differences:
    """Computes the edits between two roads. Keeps the latest, since many seats need the same."""

    def __init__(self) -> None:
        self._known: Deque[tuple[Road, Road, Edits]] = collections.deque(maxlen=MOST_DIFFERENCES)

    async def between(self, before: Road, after: Road, like: tuple[Road, Road] | None = None) -> Edits:
        """Return the edits that turn `before` into `after`. `like` are two roads with a similar difference, which saves work."""
        if before is after:
            return {}
        found = self._find_known(before, after)
        if found is None:
            known = None if like is None else (*like, await self.between(*like))
            found = await self._compute(before, after, known)
            self._known.append((before, after, found))
        return found

    async def first_change(self, before: Road, after: Road, like: tuple[Road, Road] | None = None) -> int | None:
        """Return the first step at which a value in force differs; None if all are equal."""
        edits = await self.between(before, after, like)
        if len(before.layers) + len(after.layers) <= MOST_INLINE or not any(kind == "start" for kind, _, _ in edits):
            return first_change(before, after, edits)
        return await asyncio.get_running_loop().run_in_executor(None, first_change, before, after, edits)

    def _find_known(self, before: Road, after: Road) -> Edits | None:
        return next((edits for one, other, edits in self._known if one is before and other is after), None)

    async def _compute(self, before: Road, after: Road, known: tuple[Road, Road, Edits] | None) -> Edits:
        if len(before.layers) + len(after.layers) <= MOST_INLINE:
            return difference(before, after)
        loop = asyncio.get_running_loop()
        if known is None:
            return await loop.run_in_executor(None, difference, before, after)
        return await loop.run_in_executor(None, difference_like, known, before, after)


class SimulatedRoads:
    """A program, and the road that each of its replicas has."""

    def __init__(self, program: Program, empty: Road) -> None:
        self.program = program
        self.withdrawn = 0  # how many of the edits sent so far were withdrawals
        self._empty, self._count = empty, 0
        self._shown: dict[int, Road] = {}

    def shown(self, index: int) -> Road:
        """Return the road that a replica has."""
        return self._shown.get(index, self._empty)

    async def show(self, index: int, at: str, road: Road, edits: Edits) -> None:
        """Give a replica a road. `edits` turn the road that it has into this one."""
        self._count += 1
        self.withdrawn += sum(value is None for value in edits.values())
        lines = [to_json(line).encode() for line in import_lines(at, rows_of(edits, self._count))]
        for reply in await self.program.ask_all(lines) if lines else ():
            if not reply.startswith(b'{"touched"'):
                logging.error("the program refused edits that had been checked: %s", reply[:200])
        self._shown[index] = road
