"""The roads that a seat can query: its own, the shared one, and the two of its last preview."""
from __future__ import annotations

from typing import Protocol, TypeVar

from ..model.road import Road
from ..program.program import Times
from ..program.turns import Job
from .keeper import Keeper

T = TypeVar("T")


class QueryRoad(Protocol):
    """A road that can be queried."""

    name: str

    async def run_job(self, body: Job[T], at_leisure: bool = False) -> T:
        """Call `body` when the road has been simulated as far as it shall be, again and again while it returns `MORE`. `at_leisure` says
        that no picture waits for the result."""

    def mark(self) -> Road | None:
        """Return an object that is replaced by another one whenever the road changes; None if the road never changes."""

    async def say_all(self, lines: list[bytes], times: Times) -> list[bytes]:
        """Send lines all at once and return the program's replies; raise the first refusal."""

    async def advance(self, to: int) -> int:
        """Simulate the road up to a step. Return the step that it has reached."""


class ReplicaRoad:
    """The road of a seat or the shared road, queried in the turn of a seat."""

    def __init__(self, keeper: Keeper, turn: int, index: int) -> None:
        self._keeper, self._turn, self._index = keeper, turn, index
        self.name = keeper.state.replica(index).at

    async def run_job(self, body: Job[T], at_leisure: bool = False) -> T:
        return await self._keeper.ask(self._turn, (self._index,), body, at_leisure)

    def mark(self) -> Road:
        return self._keeper.road(self._index)

    async def say_all(self, lines: list[bytes], times: Times) -> list[bytes]:
        return await self._keeper.program.say_all(lines, times)

    async def advance(self, to: int) -> int:
        wanted = self._keeper.target_steps
        wanted[self._index] = max(to, wanted.get(self._index, 0))

        async def body() -> int:
            return self._keeper.program.horizons.get(self.name, 0)
        return await self.run_job(body)
