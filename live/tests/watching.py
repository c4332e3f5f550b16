"""Test the watch that runs in all tests: a test fails if a piece of a server's work keeps all others waiting."""
from __future__ import annotations

import asyncio
import gc
import json
import time
import unittest
from typing import Any, Callable
from unittest import mock

from faulty import Here
from running import HELD_UP, Case, Watched, is_of_server, until
from working import takes_at_most
from server.shell.client import Seat
from server.lab.keeper import Keeper
from server.model.operations import About, Shape, put
from server.model.road import Road
from server.tabs.tabs import Tab, Tabs
from server.base.watch import SAID, Watch, keep_collections_short


SHAPES = 130


def works(seconds: float) -> None:
    """Use the processor for this long."""
    until = time.thread_time() + seconds
    while time.thread_time() < until:
        pass


class Watching(unittest.IsolatedAsyncioTestCase):
    def watched(self, *more: Any) -> list[str]:
        said: list[str] = []
        watch = Watch(0.1, said.append, *more)
        self.addCleanup(watch.end)
        return said

    async def test_a_long_piece_is_reported_with_its_place_and_a_short_one_is_not(self) -> None:
        said = self.watched()

        async def long() -> None:
            works(0.3)
        await asyncio.create_task(long())
        await asyncio.sleep(0)
        self.assertEqual(len(said), 1, said)
        self.assertRegex(said[0], rf"{SAID} for a piece of work of \d+\.\d\d s: .*watching\.py \d+ long, watching\.py \d+ works")
        for _ in range(20):
            works(0.02)
            await asyncio.sleep(0)
        asyncio.get_running_loop().call_soon(time.sleep, 0.3)  # waiting uses no processor
        await asyncio.sleep(0.4)
        self.assertEqual(len(said), 1, said)
        asyncio.get_running_loop().call_soon(works, 0.2)
        await asyncio.sleep(0.01)
        self.assertIn("works", said[1])

    async def test_only_the_work_of_the_server_counts_in_a_test(self) -> None:
        said = self.watched(is_of_server)

        async def long() -> None:
            works(0.2)
        await asyncio.create_task(long())
        asyncio.get_running_loop().call_soon(works, 0.2)
        await asyncio.sleep(0.01)
        self.assertEqual(said, [])
        self.assertTrue(is_of_server(Tab._read_frames))
        self.assertFalse(is_of_server(Seat._read))  # this is the work of a tab of the test


class Collections(unittest.TestCase):
    def tearDown(self) -> None:
        gc.unfreeze()

    def test_living_objects_are_scanned_once(self) -> None:
        """These are objects that exist from the start, and so many new ones that a collection takes long."""
        held: list[Any] = []
        self.addCleanup(gc.callbacks.pop)
        some: list[Callable[[], object]] = [keep_collections_short, gc.collect, gc.collect]
        for collects in some:
            held.append([[number] for number in range(600_000)])
            collects()
            self.assertLess(len(gc.get_objects()), 590_000)
        held.append([[number] for number in range(100)])
        gc.collect()
        self.assertGreater(len(gc.get_objects()), 100)  # a short collection is not reported


class Failing(Case):
    async def test_the_watch_makes_a_test_fail(self) -> None:
        """It does so if a server in this process, or in another one, was too slow."""
        class Example(Watched):
            def runTest(self) -> None:
                HELD_UP.extend(f"{SAID} for a piece of work of {seconds} s: x" for seconds in said)
        cases: list[tuple[list[str], float, int]] = [
            ([], 1.0, 0), (["0.20"], 1.0, 0), (["0.21"], 1.0, 1), (["0.29"], 1.5, 0), (["0.31"], 1.5, 1)]
        for said, slowness, fails in cases:
            result = unittest.TestResult()
            with mock.patch("working.slowness", lambda now=slowness: now):
                Example().run(result)
            self.assertEqual((len(result.failures), len(result.errors)), (fails, 0))
        HELD_UP.clear()
        server = self.server()
        with open(server.log, "a", encoding="ascii") as log:
            log.write(f"WARNING {SAID} for a piece of work of 0.20 s: x\n")
            log.write(f"WARNING {SAID} for a piece of work of 21.00 s: x\n")
        with self.assertRaisesRegex(AssertionError, "^[^\n]*21.00[^\n]*$"):
            self._held_nobody_up()
        here = await self.enterAsyncContext(Here())
        with mock.patch.object(Keeper, "reference", property(lambda keeper: works(0.3))):  # which nothing else asks
            await here.keeper.turns.ask(0, self.reference_of(here))
        await asyncio.sleep(0)
        self.assertEqual(len(HELD_UP), 1)
        HELD_UP.clear()

    def reference_of(self, here: Here) -> Any:
        async def reference() -> str:
            return here.keeper.reference
        return reference


class Pieces(Case):
    """Long work is done in pieces, and questions of others are answered in between."""

    async def test_a_gesture_adds_its_operation_to_the_road_of_its_seat_once(self) -> None:
        here = await self.enterAsyncContext(Here())
        ada, = await here.join("Ada")
        await here.put(ada, ["limit", 1, 0, 3])
        seat, added, adding = here.lab.state.seats[ada], list[Any](), Road.adding

        def counted(road: Road, operations: Any) -> Road:
            some = [*operations]
            added.extend(one for one in some if road is seat.road and one not in road)
            return adding(road, some)
        with mock.patch.object(Road, "adding", counted):
            stamp = await here.put(ada, ["limit", 1, 9, 2])
        self.assertEqual([one.stamp for one in added], [stamp])
        self.assertEqual([*seat.road.operations.held][1:], [stamp])

    async def test_operations_arrive_and_are_taken_in_pieces(self) -> None:
        """Many operations of another site arrive, and then a seat takes them."""
        here = await self.enterAsyncContext(Here())
        ada, = await here.join("Ada")
        await here.ask(ada, "layers")
        await here.ask(ada, "layers", at="shared")
        many = [put(count, Shape("limit", count % 6, count % 6, count, None, count % 5), About("Sam", site="south-00000002"))
                for count in range(1, 61)]
        added, adding = list[int](), Road.adding

        def counted(road: Road, operations: Any) -> Road:
            some = list(operations)
            added.append(len([one for one in some if one not in road]))
            return adding(road, some)
        with mock.patch("server.journal.state.APPLIED_AT_ONCE", 7), mock.patch.object(Road, "adding", counted):
            await here.lab.receive(many, "", {})
            self.assertEqual((await here.take(ada))["size"], 60)
        self.assertEqual((max(added), sum(added)), (7, 120))
        with mock.patch("server.lab.gestures.LIST_AT_ONCE", 60):
            for at in (f"seat{ada}", "shared"):
                self.assertEqual(len((await here.ask(ada, "layers", at=at))["layers"]), 60)

    async def test_news_for_many_tabs_is_computed_for_one_at_a_time(self) -> None:
        """It is computed when the tab's turn comes. The message has the first step of all operations that the tab was not told
        of."""
        here = await self.enterAsyncContext(Here())
        index, = await here.join("Ada")
        tabs, sent = Tabs(here.lab, "token"), list[str]()
        self.addAsyncCleanup(tabs.close)

        class Socket:
            async def send_str(self, text: str) -> None:
                sent.append(text)
        several = [Tab(tabs, Socket(), None) for _ in range(63)]  # type: ignore[arg-type]
        for tab in several:
            tab.index = index
        tabs._all.update(several)
        news = here.lab.unseen_shares

        def slowly(*given: Any) -> Any:
            works(0.005)
            return news(*given)
        with mock.patch.object(here.lab, "unseen_shares", slowly):
            with takes_at_most(0.1):
                for step in (70, 50, 60):
                    here.keeper.listeners.shared.notify(step)
            writers = [asyncio.create_task(tab._write_frames()) for tab in several]

            async def all_are_told() -> bool:
                return len(sent) == 63
            await until(all_are_told, "all have heard")
        self.assertEqual({json.loads(text)["news"]["touched"] for text in sent}, {50})
        for writer in writers:
            writer.cancel()
        tabs._all.clear()
