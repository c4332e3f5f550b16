"""Keep roads of seats that do not change: the two of a seat's last preview, its variants, and the road of the folder's file. A second
program simulates them while they are queried."""
from __future__ import annotations

import asyncio
import logging
import time
from typing import Awaitable, Callable, NamedTuple, Sequence, TypeVar

from zegdrut.base.wire import WrittenEdit
from zegdrut.figures.lost_demand import AskedRates

from ..base.json_values import to_json
from ..base.refusals import Refused, program_crashed
from ..model.road import Road
from ..program.program import Program, ProgramExited, Times, command_of, import_lines, start
from ..program.turns import Job, More
from .keeper import Keeper

SIDES = ("before", "after")  # the names of the two roads of a preview
FILE = "file"  # the name of the road of the folder's file
VARIANT = "variant:"  # the beginning of the name of a variant's road
MOST_PROGRAMS = 4  # programs of such roads that are kept after an answer
UNUSED = 600.0  # seconds without a query after which roads are dropped
LET_GO = "the road is no longer kept"
T = TypeVar("T")


class KnownRoad(NamedTuple):
    """A road that does not change, with all its edits and the demands that were asked for, by inlet."""

    road: Road
    edits: Sequence[WrittenEdit]
    demands: Sequence[AskedRates]


Find = Callable[[str], Awaitable[KnownRoad]]
"""Returns the road with a name."""


class FixedRoads:
    """Some roads of a seat, and one program for all of them once they are queried."""

    def __init__(self, keeper: Keeper, names: Sequence[str], find: Find, gone: Refused, source: object = None) -> None:
        """`find` finds each road when it is first needed. Queries are refused with `gone` when the roads are no longer kept. `source` is
        what the roads are made of, if they can be found again later."""
        self._keeper, self._find, self._gone, self.source = keeper, find, gone, source
        self.replicas = {name: f"road{place}" for place, name in enumerate(names)}  # their names in the program
        self._known: dict[str, KnownRoad] = {}
        self.used = time.monotonic()
        self.when_idle: Callable[[], None] = lambda: None  # called after each answer
        self._is_over = False
        self.program: Program | None = None
        self._fed = set[str]()  # the roads whose edits the program has
        self.target_steps = dict.fromkeys(names, 0)  # the step up to which each road shall be simulated
        self.answering = asyncio.Lock()
        self._queries = 0  # those that are not answered yet

    async def know(self, name: str) -> KnownRoad:
        """Return what is known of a road."""
        self.used = time.monotonic()
        if name not in self._known:
            self._known[name] = await self._find(name)
        return self._known[name]

    async def prepare_program(self, name: str) -> Program:
        """Return its program, when that has the edits of a road and has simulated it as far as it shall."""
        known, replica = await self.know(name), self.replicas[name]
        program = self.program or await self._start_program()
        lines = [to_json(line).encode() for line in import_lines(replica, known.edits)]
        if lines and name not in self._fed:
            await program.ask_all(lines)
            self._fed.add(name)
        while await program.advance(replica, self.target_steps[name]) < self.target_steps[name]:
            await asyncio.sleep(0)
        return program

    async def _start_program(self) -> Program:
        """Start its program. Raise `ProgramExited` if the roads were dropped in the meantime."""
        plan: dict[str, object] = {**self._keeper.state.plan, "replicas": [*self.replicas.values()]}
        program = await start(command_of(self._keeper.path, plan), to_json(plan).encode())
        if self._is_over:
            program.kill()
            raise ProgramExited(LET_GO)
        self.program = program
        return program

    @property
    def is_queried(self) -> bool:
        """Return whether a query is not answered yet."""
        return self._queries > 0

    async def run_job(self, name: str, body: Job[T]) -> T:
        """Do a job with the program. Replace a program that exits, once."""
        self._queries += 1
        try:
            for _ in range(2):
                try:
                    async with self.answering:
                        await self.prepare_program(name)
                        while isinstance(said := await body(), More):
                            pass
                        return said
                except ProgramExited as fault:
                    self.close()
                    if self._is_over:
                        raise self._gone from fault
                    logging.warning("the program of a road that does not change: %s", fault)
            raise program_crashed()
        finally:
            self._queries -= 1
            self.used = time.monotonic()
            self.when_idle()

    def close(self) -> None:
        """End its program. The next query starts a new one."""
        if self.program is not None:
            self.program.kill()
        self.program, self._fed = None, set[str]()

    def rest(self) -> None:
        """End its program, and forget what can be found again."""
        self.close()
        self._known.clear()

    def end(self) -> None:
        """End its program for good."""
        self._is_over = True
        self.close()

    def end_when_idle(self) -> None:
        """End its program for good once all queries are answered."""
        self.when_idle = self.end_when_idle
        if not self.is_queried:
            self.end()


class FixedRoad:
    """A road that does not change."""

    def __init__(self, roads: FixedRoads, at: str) -> None:
        self._roads, self._at, self.name = roads, at, roads.replicas[at]

    async def know(self) -> KnownRoad:
        """Return what is known of it."""
        return await self._roads.know(self._at)

    async def run_job(self, body: Job[T], at_leisure: bool = False) -> T:
        return await self._roads.run_job(self._at, body)

    def mark(self) -> None:
        return None

    async def say_all(self, lines: list[bytes], times: Times) -> list[bytes]:
        if self._roads.program is None:
            raise ProgramExited(LET_GO)
        return await self._roads.program.say_all(lines, times)

    async def advance(self, to: int) -> int:
        targets = self._roads.target_steps
        targets[self._at] = max(to, targets[self._at])

        async def body() -> int:
            return to
        return await self.run_job(body)


Owner = tuple[int, str]
"""A seat, and what the roads are: its preview, or its variants."""


class KeptRoads:
    """The fixed roads of all seats."""

    def __init__(self) -> None:
        self._of: dict[Owner, FixedRoads] = {}

    def put(self, owner: Owner, roads: FixedRoads | None) -> None:
        """Replace the roads of a seat; None drops them. Queries of variants are answered before these are dropped for others."""
        old = self._of.pop(owner, None)
        if old is not None:
            (old.end if roads is None or roads.source is None else old.end_when_idle)()
        if roads is not None:
            roads.when_idle = self._end_programs
            self._of[owner] = roads

    def _end_programs(self) -> None:
        """End the programs that were not used for longest and answer no query, if there are too many."""
        running = [one for one in self._of.values() if one.program is not None]
        idle = sorted((one for one in running if not one.answering.locked()), key=lambda one: one.used)
        for roads in idle[:max(0, len(running) - MOST_PROGRAMS)]:
            roads.close()

    def get(self, owner: Owner) -> FixedRoads | None:
        """Return the roads of a seat; None if it has none. Of other owners, drop previews that were not used for long, and let variants
        rest, unless they are being queried."""
        before = time.monotonic() - UNUSED
        for other, roads in [(other, one) for other, one in self._of.items() if one.used < before and other != owner and not one.is_queried]:
            if roads.source is None:
                self.put(other, None)
            else:
                roads.rest()
        return self._of.get(owner)

    def close(self) -> None:
        for owner in list(self._of):
            self.put(owner, None)
