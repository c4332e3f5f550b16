"""Test fair turns: seats take turns with one job each, a long job runs in pieces, and the jobs of a seat run in their order."""
from __future__ import annotations

import asyncio
import random
import unittest
from typing import Any
from unittest import mock

from faulty import Here
from running import PATIENCE, Case
from server.program.turns import MORE, Job, More, Turns, Work


ROUNDS = 10  # of the event loop, within which a seat that was answered asks again
COUNTING: list[tuple[str, dict[str, int]]] = [("sums", {}), ("counts", {"each": 10})]


class FairTurns(unittest.IsolatedAsyncioTestCase):
    async def asyncSetUp(self) -> None:
        self.done: list[str] = []
        self.turns = Turns(self.around)
        self.task = asyncio.create_task(self.turns.run())

    async def asyncTearDown(self) -> None:
        self.task.cancel()

    async def around(self, job: Work) -> object:
        return await job()

    def job(self, name: str, pieces: int = 1, fault: Exception | None = None) -> Job[str]:
        left = [pieces]

        async def work() -> str | More:
            self.done.append(name)
            left[0] -= 1
            await asyncio.sleep(0)
            if fault is not None:
                raise fault
            return MORE if left[0] else name
        return work

    async def test_seats_take_turns_and_a_long_job_waits_between_its_pieces(self) -> None:
        asked = [self.turns.ask(seat, self.job(name, pieces)) for seat, name, pieces in
                 ((1, "a", 3), (1, "b", 1), (2, "c", 1), (2, "d", 1), (3, "e", 2))]
        self.assertEqual(await asyncio.gather(*asked), ["a", "b", "c", "d", "e"])
        self.assertEqual("".join(self.done), "aceadeab")

    async def test_a_seat_that_asks_much_delays_only_itself(self) -> None:
        many = [self.turns.ask(1, self.job("m")) for _ in range(50)]
        await asyncio.sleep(0)
        await self.turns.ask(2, self.job("x"))
        self.assertLess(self.done.index("x"), 4)
        await asyncio.gather(*many)

    async def test_background_jobs_wait_for_all_others_of_their_seat(self) -> None:
        figures = self.turns.ask(1, self.job("f", 3), at_leisure=True)
        while not self.done:
            await asyncio.sleep(0)
        await asyncio.gather(*(self.turns.ask(1, self.job(name)) for name in "gr"), figures)
        self.assertEqual("".join(self.done), "fgrff")

    async def test_background_jobs_wait_for_a_second_at_most(self) -> None:
        await self.use_test_clock()
        rows = [asyncio.create_task(self.always(1, "r", 0.15)) for _ in range(2)]
        while not self.done:
            await asyncio.sleep(0)
        self.done.clear()
        await asyncio.wait_for(self.turns.ask(1, self.job("f"), at_leisure=True), PATIENCE)
        self.assertIn(self.done.count("r"), range(6, 9))  # of 0.15 seconds each
        for one in rows:
            one.cancel()

    async def asks(self, seat: int, name: str, cost: float, takes_long: bool | None = None) -> None:
        """Ask for one turn that takes this many seconds of the test's clock."""
        async def work() -> None:
            self.done.append(name)
            for _ in range(5):
                await asyncio.sleep(0)  # others may ask in between
            self.now += cost
        await self.turns.ask(seat, work, takes_long=takes_long)

    async def always(self, seat: int, name: str, cost: float) -> None:
        while True:
            await self.asks(seat, name, cost)

    async def use_test_clock(self) -> None:
        """Let the turns use the test's clock from now on, and wait some rounds of the event loop for a seat: on a busy machine a real
        moment may be over before the seat can ask."""
        self.task.cancel()
        self.now, self.waits = 0.0, 0
        test = self

        class Counted(Turns):
            """Turns that count how often they wait for a seat that may ask next."""

            async def _wait_for_job(self, seconds: float) -> bool:
                test.waits += 1
                self._work.clear()
                for _ in range(ROUNDS):
                    await asyncio.sleep(0)
                return self._work.is_set()
        self.turns = Counted(self.around, lambda: self.now)
        self.task = asyncio.create_task(self.turns.run())

    async def test_a_gesture_and_its_rows_wait_for_one_long_turn(self) -> None:
        await self.use_test_clock()
        far = asyncio.create_task(self.always(1, "F", 0.15))
        while self.done.count("F") < 3:
            await asyncio.sleep(0)
        for _ in range(20):
            for _ in range(random.randrange(20)):
                await asyncio.sleep(0)
            self.done.clear()
            await self.asks(2, "g", 0.005)
            await self.asks(2, "r", 0.005)
            self.assertLessEqual(self.done.count("F"), 1)  # a turn that began while it was asked
        far.cancel()

    async def test_questions_asked_at_once_wait_for_one_long_turn(self) -> None:
        await self.use_test_clock()
        far = asyncio.create_task(self.always(1, "F", 0.15))
        while self.done.count("F") < 3:
            await asyncio.sleep(0)
        self.done.clear()
        await asyncio.gather(*(self.asks(2, "r", 0.005) for _ in range(6)))
        self.assertLessEqual(self.done.count("F"), 1)
        far.cancel()

    async def test_long_turns_get_their_turn_among_many_short_ones(self) -> None:
        await self.use_test_clock()
        busy = [asyncio.create_task(self.always(1, "F", 0.15)),
                *(asyncio.create_task(self.always(seat, "s", 0.002)) for seat in range(2, 64))]
        while self.now < 2:
            await asyncio.sleep(0)
        self.assertGreater(0.15 * self.done.count("F"), 0.4 * self.now)
        for one in busy:
            one.cancel()

    async def test_a_job_announced_as_short_waits_for_one_long_turn_at_most(self) -> None:
        """It does so even if its seat has used more time than the others, and none of their jobs was long before."""
        await self.use_test_clock()
        for _ in range(9):
            await self.asks(63, "F", 0.15)
        takes = [asyncio.create_task(self.asks(seat, "t", 0.2, takes_long=True)) for seat in range(1, 63)]
        while "t" not in self.done:
            await asyncio.sleep(0)
        for before in range(20):
            await self.asks(63, "g", 0.005, takes_long=False)
            self.assertLessEqual(self.done.count("t"), 2 * before + 2)
        self.assertLess(self.done.count("t"), 62)
        await asyncio.gather(*takes)

    async def test_short_jobs_run_within_the_long_turn_of_another_seat(self) -> None:
        """Jobs run in their seat's order, one at a time, and not while the turn repairs what they depend on."""
        self.task.cancel()
        may, ends = [True], asyncio.Event()
        self.turns = Turns(self.around, may_be_within=lambda: may[0])
        self.task = asyncio.create_task(self.turns.run())
        running: list[str] = []

        async def long() -> None:
            self.done.append("L")
            await ends.wait()
            self.done.append("l")

        def short(name: str) -> Job[None]:
            async def work() -> None:
                running.append(name)
                await asyncio.sleep(0)
                self.assertEqual(running, [name])
                running.remove(name)
                self.done.append(name)
            return work

        async def asks(seat: int, names: str) -> None:
            await asyncio.gather(*(self.turns.ask(seat, short(name), takes_long=False) for name in names))
        asked: list[asyncio.Future[Any]] = [self.turns.ask(1, long, takes_long=True), self.turns.ask(1, short("b"), takes_long=False)]
        await asyncio.wait_for(asyncio.gather(asks(2, "cd"), asks(3, "e")), PATIENCE)
        self.assertEqual("".join(self.done), "Lced")
        may[0] = False
        asked += [self.turns.ask(2, short("f"), takes_long=False), self.turns.ask(3, self.job("n"))]
        for _ in range(20):
            await asyncio.sleep(0)
        self.assertEqual("".join(self.done), "Lced")
        ends.set()
        await asyncio.gather(*asked)
        self.assertEqual("".join(self.done[:5]), "Lcedl")

    async def test_a_turn_waits_only_for_seats_that_were_answered_since(self) -> None:
        await self.use_test_clock()
        for _ in range(3):
            await self.asks(1, "F", 0.15)
        self.assertEqual(self.waits, 0)
        await self.asks(2, "g", 0.005)
        for _ in range(10):
            await self.asks(1, "F", 0.15)
        self.assertEqual(self.waits, 1)

    async def test_a_fault_is_reported_to_the_asking_seat_and_others_go_on(self) -> None:
        asked = [self.turns.ask(1, self.job("a", fault=ValueError("x"))), self.turns.ask(1, self.job("b"))]
        said = await asyncio.gather(*asked, return_exceptions=True)
        self.assertEqual([str(one) for one in said], ["x", "b"])

    async def test_a_job_that_nobody_waits_for_is_not_started(self) -> None:
        first, second = self.turns.ask(1, self.job("a", 2)), self.turns.ask(1, self.job("b"))
        second.cancel()
        self.assertEqual(await first, "a")
        self.assertEqual(await self.turns.ask(1, self.job("c")), "c")
        self.assertEqual("".join(self.done), "aac")


class Figures(Case):
    async def test_a_picture_waits_for_one_piece_of_its_seats_figures(self) -> None:
        async with Here() as here:
            seat, = await here.join("Ada")
            await here.lab.road_clock.set_clock(to=7_200)
            await here.ask(seat, "advance", to=7_200)
            for verb, more in COUNTING:
                figures = asyncio.ensure_future(here.ask(seat, verb, **{"from": 0, "to": 7_200}, **more))
                await asyncio.sleep(0)
                await here.ask(seat, "diagram", **{"from": 0, "to": 60})
                self.assertFalse(figures.done())
                await figures

    async def test_figures_belong_to_one_road_even_if_a_gesture_comes_between_their_pieces(self) -> None:
        self.enterContext(mock.patch("os.fsync", lambda _: None))  # a busy disk would answer the gesture after the figures
        for verb, more in COUNTING:
            async with Here() as here:
                seat, = await here.join("Ada")
                await here.lab.road_clock.set_clock(to=7_200)
                await here.ask(seat, "advance", to=7_200)
                span = {"from": 0, "to": 7_200, **more}
                before = await here.ask(seat, verb, **span)
                figures, lines = asyncio.ensure_future(here.ask(seat, verb, **span)), here.keeper.program.lines
                while here.keeper.program.lines == lines:
                    await asyncio.sleep(0)
                await here.put(seat, ["block", 30, 100, 1])
                self.assertFalse(figures.done())
                after, said = await here.ask(seat, verb, **span), await figures
                self.assertFalse(before == after)
                self.assertTrue(said in (before, after), f"the {verb} are of no road")
