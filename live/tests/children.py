"""Test the processes that compute figures, days, reports and curves beside the server."""
from __future__ import annotations

import asyncio
import contextlib
from pathlib import Path
from typing import Any

from counting_child import Asked, Told
from faulty import soon
from running import PATIENCE, Case, program, until
from server.figures.child import Child
from server.base.refusals import Refused


def runs(process: int) -> bool:
    """Return whether a process exists and has not ended."""
    with contextlib.suppress(OSError):
        return " Z " not in Path(f"/proc/{process}/stat").read_text(encoding="ascii")
    return False


class Children(Case):
    async def asyncSetUp(self) -> None:
        self.child: Child[Asked, Told] = Child("tests.counting_child", 5, PATIENCE)
        self.addCleanup(self.child.close)
        self.heard: list[Told] = []

    def ask(self, to: int, then: str = "") -> asyncio.Future[Told]:
        return asyncio.ensure_future(self.child.ask({"to": to, "then": then}, str(program()), self.heard.append))

    async def refused(self, question: Any) -> Refused:
        with self.assertRaises(Refused) as caught:
            await soon(question)
        return caught.exception

    async def hangs(self) -> tuple[asyncio.Future[Told], int]:
        """Ask what is never answered. Return the question, and the process that works on it."""
        self.heard.clear()
        question = self.ask(1, "hang")

        async def works() -> bool:
            return len(self.heard) == 1
        await until(works, "it works")
        return question, self.heard[0]["process"]

    async def has_ended(self, process: int) -> None:
        async def gone() -> bool:
            return not runs(process)
        await until(gone, "it has ended")

    async def test_each_result_is_heard_and_the_process_stays_for_the_next_question(self) -> None:
        first = await soon(self.ask(3))
        self.assertEqual([one["number"] for one in self.heard], [1, 2, 3])
        self.assertEqual(first["number"], 3)
        self.assertEqual(await soon(self.ask(2)), {**first, "number": 2})

    async def test_a_fault_is_refused_with_its_sentence(self) -> None:
        fault = await self.refused(self.ask(1, "fault"))
        self.assertEqual((fault.text, fault.why), ("Failed", "the road has no cells"))
        self.assertEqual((await soon(self.ask(2)))["number"], 2)

    async def test_a_process_that_exits_is_refused_and_started_again(self) -> None:
        for to in (0, 2):
            fault = await self.refused(self.ask(to, "exit"))
            self.assertEqual((fault.text, fault.why), ("Failed", "the server could not compute this; its log says why"))
        self.assertEqual((await soon(self.ask(2)))["number"], 2)

    async def test_no_answer_in_time_is_refused_and_ends_the_process(self) -> None:
        process = (await soon(self.ask(1)))["process"]
        self.child._patience = 2
        fault = await self.refused(self.ask(0, "hang"))
        self.assertEqual((fault.text, fault.why), ("TooLong", "this took more than 2 seconds: choose a shorter period"))
        await self.has_ended(process)

    async def test_closing_ends_the_question_and_leaves_the_next_one_alone(self) -> None:
        question, process = await self.hangs()
        self.child.close()
        following = self.ask(2)
        self.assertEqual((await self.refused(question)).text, "Failed")
        self.assertEqual((await soon(following))["number"], 2)
        await self.has_ended(process)
        self.assertEqual((await soon(self.ask(3)))["process"], (await following)["process"])

    async def test_a_question_that_is_cancelled_ends_the_process(self) -> None:
        question, process = await self.hangs()
        question.cancel()
        await asyncio.gather(question, return_exceptions=True)
        await self.has_ended(process)

    async def test_closing_while_the_process_starts(self) -> None:
        question = self.ask(1, "hang")
        await asyncio.sleep(0)
        self.child.close()
        self.assertEqual((await self.refused(question)).text, "Failed")
        self.assertEqual(self.heard, [])
