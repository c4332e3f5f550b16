"""Test that a program that ends or hangs is replaced, and a busy one is not."""
from __future__ import annotations

import asyncio
import json
import os
import signal
from typing import Any
from unittest import mock

from faulty import Here, soon
from running import SMALL, Case, program
from server.program.program import start

LONG: dict[str, Any] = {**SMALL, "length": 8_000, "zone": 1_000, "zones": [[5, 6_554]] * 8}


def state_of(process: int) -> str:
    with open(f"/proc/{process}/stat", encoding="ascii") as file:
        return file.read().rpartition(")")[2].split()[0]


class Programs(Case):
    async def test_a_hanging_program_is_replaced_and_users_are_warned(self) -> None:
        async with Here() as here:
            keeper = here.keeper
            ada, = await here.join("Ada")
            await here.put(ada, ["limit", 2, 50, 3])
            told: list[Any] = []
            keeper.listeners.program.on(lambda: told.append((keeper.replacements, keeper.why_replaced)))
            os.kill(keeper.program._process.pid, signal.SIGSTOP)
            with mock.patch("server.program.program.IDLE_PATIENCE", 1.0):
                reply = await soon(keeper.ask(ada, (ada,), lambda: keeper.program.ask(b'{"scenario":{"at":"seat1"}}')))
            self.assertEqual([[*edit[:3], edit[5]] for edit in json.loads(reply)["edits"]], [["limit", 2, 50, 3]])
            self.assertEqual(told, [(1, "the program did not answer and used no processor time for 1 seconds")])

    async def test_a_killed_program_is_replaced_and_users_are_warned(self) -> None:
        async with Here() as here:
            keeper = here.keeper
            ada, = await here.join("Ada")
            os.kill(keeper.program._process.pid, signal.SIGKILL)
            await here.put(ada, ["limit", 2, 50, 3])
            self.assertEqual(len((await here.ask(ada, "scenario"))["edits"]), 1)
            self.assertEqual((keeper.replacements, keeper.why_replaced), (1, "the program ended with status -9"))

    async def test_a_busy_program_is_not_replaced(self) -> None:
        """It works for much longer than the server waits for a program that hangs."""
        here = await start([str(program())], json.dumps({**LONG, "replicas": ["A"]}).encode())
        self.addAsyncCleanup(here.close)
        with mock.patch("server.program.program.IDLE_PATIENCE", 0.2):
            began = asyncio.get_running_loop().time()
            reply = await soon(here.ask(b'{"advance":{"at":"A","to":400000}}'))
            self.assertEqual(json.loads(reply), {"horizon": 400_000})
            self.assertGreater(asyncio.get_running_loop().time() - began, 0.4)
