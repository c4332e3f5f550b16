"""Test the tasks of a server that run as long as it does: if one fails, the server reports it and restarts it."""
from __future__ import annotations

import asyncio
from typing import Any
from unittest import mock

from faulty import Here, soon
from running import Case, until
from server.base import supervised
from server.lab.road_clock import RoadClock
from server.tabs.tabs import Tabs
from server.program.turns import Turns


def failing_once(does: Any) -> Any:
    """Return a function that fails the first time, and then calls `does`."""
    calls: list[Any] = []

    def call(*given: Any) -> Any:
        calls.append(given)
        if len(calls) == 1:
            raise KeyError("a fault in the server")
        return does(*given)
    call.calls = calls  # type: ignore[attr-defined]
    return call


class Parts(Case):
    def setUp(self) -> None:
        self.enterContext(mock.patch.object(supervised, "RESTART_PAUSE", 0.02))
        self.enterContext(self.assertLogs(level="ERROR"))

    async def ends(self, here: Here, call: Any, what: str) -> None:
        """Wait until the task has failed and works again, and the server has reported it."""
        tabs = Tabs(here.lab, "token")
        self.addAsyncCleanup(tabs.close)
        said: list[str] = []
        with mock.patch.object(tabs, "_tell_all", lambda kind, value: said.append(value)):
            async def again() -> bool:
                return len(call.calls) > 1
            await until(again, "it goes on")
        self.assertIn(f"A fault in the server has stopped {what}: it is started again", str(said))
        self.assertIn(what, str(tabs._trouble))
        tabs._show_fault(None)
        self.assertIsNone(tabs._trouble)

    async def test_the_task_that_keeps_the_clock_goes_on(self) -> None:
        """So does the freeing of seats."""
        call = failing_once(lambda lab: None)
        with mock.patch.object(RoadClock, "save", call):
            here = await self.enterAsyncContext(Here())
            await self.ends(here, call, "the task that saves the clock and frees seats")

    async def test_questions_are_answered(self) -> None:
        """Even the seat whose turn it was."""
        here = await self.enterAsyncContext(Here())
        ada, ben = await here.join("Ada", "Ben")
        call = failing_once(Turns._run_turn)
        with mock.patch.object(Turns, "_run_turn", call):
            asked = [asyncio.create_task(here.ask(seat, "scenario")) for seat in (ada, ben, ada)]
            await self.ends(here, call, "the answers to tabs")
            self.assertEqual([one["edits"] for one in await soon(asyncio.gather(*asked))], [[]] * 3)

    async def test_it_is_started_again_after_growing_pauses(self) -> None:
        told: list[str] = []
        slept: list[float] = []

        async def sleep(seconds: float) -> None:
            slept.append(seconds)
            if len(slept) > 9:
                raise asyncio.CancelledError

        async def ends() -> None:
            pass
        with mock.patch.object(supervised, "RESTART_PAUSE", 1.0), mock.patch.object(asyncio, "sleep", sleep):
            with self.assertRaises(asyncio.CancelledError):
                await supervised.supervise("it", ends, told.append)
        self.assertEqual(slept, [1, 2, 4, 8, 16, 32, 60, 60, 60, 60])
        self.assertEqual(len(told), 10)
