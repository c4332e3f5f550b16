"""Test comparisons of two roads over many days: their means and intervals; one at a time, at low priority, and ended when the
asking tab leaves."""
from __future__ import annotations

import asyncio
import json
import os
import statistics
from pathlib import Path
from typing import Any, Iterator, Sequence, cast
from unittest import mock

from zegdrut.base.wire import PlanLine
from zegdrut.figures import FREEWAY, Value
from zegdrut.figures.queues import NOBODY_WAITS, Ends

from faulty import Here, soon
from figures_told import SIDES, mine, of_side, value
from running import SMALL, Case, new_folder, program, until
from server.base.refusals import Refused
from server.base.settings import Settings
from server.figures import comparison
from server.figures.figures import list_figures

# Student's t for 95 %, by degrees of freedom, from a printed table.
T_OF = {1: 12.706205, 2: 4.302653}
SPAN = {"from": 20, "to": 200}
# A program that answers only for the first days (seeds from 1 on), and for measurements of inlets, whose seeds are above 1000.
PROGRAM_OF_DAYS = """read -r plan
seed=${{plan##*'"words":'}}
[ "${{seed%%,*}}" -le {days} ] || [ "${{seed%%,*}}" -ge 1000 ] || sleep 600
{{ printf '%s\\n' "$plan"; cat; }} | {program}"""


def runs(process: int) -> bool:
    """Return whether a process exists and has not ended."""
    try:
        return Path(f"/proc/{process}/stat").read_text(encoding="ascii").rpartition(")")[2].split()[0] != "Z"
    except OSError:
        return False


class Days(Case):
    async def asyncSetUp(self) -> None:
        self.heard: list[Any] = []
        self.here = await self.enterAsyncContext(Here())
        self.here.keeper.listeners.days.on(lambda *news: self.heard.append(news))
        self.ada, self.ben = await self.here.join("Ada", "Ben")

    def over(self, days: int) -> None:
        self.here.keeper.settings = Settings(days=days)

    async def change(self, here: Here, seat: int) -> None:
        """Make a jam that does not reach the inlets, and change the demand of one of them."""
        await here.ask(seat, "gesture", key="jam", shape=["block", 90, 90, 60, 75, 1])
        await here.put(seat, ["inflow", 1, 30, 20_000])

    def program_that(self, does: str) -> tuple[str, Path]:
        """Replace road_lab by a program that also writes into a file."""
        folder = new_folder()
        path, wrote = folder / "road_lab", folder / "wrote"
        path.write_text(f"#!/bin/sh\nexport WROTE={wrote}\n{does}\n", encoding="utf-8")
        path.chmod(0o755)
        return str(path), wrote

    async def of_days(self, days: int) -> list[Any]:
        """Return the replies of this many days, each computed on a road of its own with another seed."""
        found = []
        for words in range(1, days + 1):
            async with Here(plan={**SMALL, "words": words}) as here:
                seat, = await here.join("Ada")
                await self.change(here, seat)
                found.append(await here.ask(seat, "figures", of=mine(seat), **SPAN))
        return found

    def are_means(self, said: Any, of_days: list[Any]) -> None:
        """Check that the figures are the means of these days, with intervals if there are two or more days."""
        days = len(of_days)
        self.assertEqual([row["figure"] for row in said["figures"]], [row["figure"] for row in of_days[0]["figures"]])
        for place, row in enumerate(said["figures"]):
            for side in SIDES:
                values = [of_side(day["figures"][place], side)[0] for day in of_days]
                what = row["figure"]["title"], side
                if None in values:
                    self.assertEqual(of_side(row, side), [None, None], what)
                    continue
                self.assertAlmostEqual(of_side(row, side)[0], statistics.mean(values), 6, what)
                if days == 1:
                    self.assertIsNone(of_side(row, side)[1], what)
                else:
                    self.assertAlmostEqual(of_side(row, side)[1], T_OF[days - 1] * statistics.stdev(values) / days ** 0.5, 4, what)

    async def test_means_and_intervals_equal_those_of_the_days(self) -> None:
        of_days = await self.of_days(3)
        await self.change(self.here, self.ada)
        self.over(3)
        said = await soon(self.here.ask(self.ada, "days", of=mine(self.ada), **SPAN))
        self.assertEqual((said["from"], said["to"], said["days"], said["stopped"]), (20, 200, 3, False))
        self.assertGreater(sum(value(day, "difference", "delay") for day in of_days), 0)
        self.are_means(said, of_days)
        self.assertEqual(self.heard, [(self.ada, done, 3) for done in (1, 2, 3)])

    async def test_stopping_returns_the_days_that_are_done(self) -> None:
        """Only the first days ever end."""
        await self.change(self.here, self.ada)
        for days in (1, 2):
            self.here.keeper.path, _ = self.program_that(PROGRAM_OF_DAYS.format(days=days, program=program()))
            self.over(4)
            self.heard.clear()
            question = asyncio.ensure_future(self.here.ask(self.ada, "days", of=mine(self.ada), **SPAN))

            async def done() -> bool:
                return (self.ada, days, 4) in self.heard
            await until(done, "this many are done")
            self.assertEqual(await soon(self.here.ask(self.ada, "days", of=None)), {"stopped": True})
            said = await soon(question)
            self.assertEqual((said["days"], said["stopped"]), (days, True))
            self.assertEqual(said["warnings"], [] if days == 1 else [
                f"2 days are few: ± is then {T_OF[1]:.1f} standard errors of the mean (2.0 for many days). Use 5 days or more"])
            self.are_means(said, await self.of_days(days))

    def test_days_count_in_the_order_of_their_seeds(self) -> None:
        """The second day ends first, and the first one is 1, the second 2, the third 4."""
        figures = list_figures(cast(PlanLine, SMALL), FREEWAY)

        def ended(_make: object, seeds: Sequence[int]) -> Iterator[tuple[int, comparison.Day]]:
            for place in (1, 0, 2):
                yield place, comparison.Day([[Value(2.0 ** place, 2.0 ** place, 0.0)] * len(figures)], [Ends()], [NOBODY_WAITS] * 2)
        road = {"name": "a", "edits": [], "demands": [[(0, 500.0)] for _ in SMALL["inlets"]]}
        compared: Any = {"plan": SMALL, "roads": [road, road], "first": 20, "last": 200, "program": str(program()), "origin": 0}
        with mock.patch("server.figures.comparison.iterate_days", ended):
            found = [(said["done"], said["figures"][0]["values"][0][0]) for said in comparison.simulate_days({"compared": compared, "days": 3})]
        self.assertEqual(found, [(1, 1.0), (2, 1.5), (3, 7 / 3)])

    async def test_a_preview_is_compared_too_and_nothing_is_written(self) -> None:
        await self.change(self.here, self.ada)
        await self.here.ask(self.ada, "preview", what="share")
        entries = self.here.entries()
        self.over(2)
        preview, own = [await soon(self.here.ask(self.ada, "days", of=of, **SPAN)) for of in (["before", "after"], mine(self.ada))]
        words = json.dumps(own)
        for name, other in (("(mine)", "(after)"), ("the road mine", "the road after"), ("the road shared", "the road before")):
            words = words.replace(name, other)
        self.assertEqual(json.dumps(preview), words)
        self.assertEqual(self.here.entries(), entries)

    async def test_a_road_with_fixed_random_numbers_has_only_one_day(self) -> None:
        async with Here(plan={**SMALL, "words": "steady"}) as here:
            seat, = await here.join("Ada")
            with self.assertRaises(Refused) as caught:
                await here.ask(seat, "days", of=mine(seat), **SPAN)
        self.assertIn("fixed random numbers (no seed), so all days are the same", caught.exception.why)

    async def test_its_programs_have_low_priority_and_leave_a_processor_free(self) -> None:
        before = self.here.keeper.path
        self.here.keeper.path, wrote = self.program_that(
            f'echo "$(nice) $(grep Cpus_allowed_list /proc/self/status | cut -f2)" >> $WROTE; exec {program()}')
        self.over(2)
        await soon(self.here.ask(self.ada, "days", of=mine(self.ada), **SPAN))
        niceness, places = zip(*(line.split() for line in wrote.read_text().splitlines()))
        self.assertEqual(set(niceness), {str(min(19, os.nice(0) + 10))})
        own = os.sched_getaffinity(0)
        allowed = set().union(*(range(int(part.split("-")[0]), int(part.split("-")[-1]) + 1)
                                for part in places[0].split(",")))
        self.assertEqual(allowed, own - {min(own)} if len(own) > 1 else own)
        wrote.unlink()  # and so do the figures of one day
        await soon(self.here.ask(self.ada, "figures", of=mine(self.ada), **SPAN))
        self.assertEqual({line.split()[0] for line in wrote.read_text().splitlines()}, {str(min(19, os.nice(0) + 5))})
        self.here.keeper.path = before

    async def asks(self, seat: int) -> tuple[asyncio.Future[Any], list[int]]:
        """Ask a question whose program never answers. Return the task of asking, and the processes that run for it."""
        self.here.keeper.path, wrote = self.program_that("echo $$ >> $WROTE; exec sleep 1000")
        question = asyncio.ensure_future(self.here.ask(seat, "days", of=mine(seat), **SPAN))

        async def begun() -> bool:
            return wrote.exists() and wrote.read_text().endswith("\n")
        await until(begun, "it runs")
        return question, list(map(int, wrote.read_text().split()))

    async def ended(self, question: asyncio.Future[Any], processes: list[int]) -> None:
        with self.assertRaises(Refused) as caught:
            await soon(question)
        self.assertEqual(caught.exception.text, "Stopped")

        async def gone() -> bool:
            return not any(map(runs, processes))
        await until(gone, "nothing runs for it any more")

    async def test_one_question_at_a_time_and_the_refusal_names_who_asks(self) -> None:
        question, processes = await self.asks(self.ada)
        with self.assertRaises(Refused) as caught:
            await soon(self.here.ask(self.ben, "days", of=mine(self.ben), **SPAN))
        self.assertEqual(caught.exception.text, "Busy")
        self.assertIn("20 days are being simulated for Ada (0 done)", caught.exception.why)
        self.assertEqual(await soon(self.here.ask(self.ben, "days", of=None)), {"stopped": False})
        await soon(self.here.put(self.ben, ["limit", 2, 50, 3]))  # edits do not wait for it
        other, more = await self.asks(self.ada)  # her next question replaces it
        await self.ended(question, processes)
        self.assertEqual(await soon(self.here.ask(self.ada, "days", of=None)), {"stopped": True})
        await self.ended(other, more)

    async def test_it_ends_when_the_asking_tab_leaves(self) -> None:
        question, processes = await self.asks(self.ada)
        self.here.questions.drop_seat(self.ben)
        self.assertFalse(question.done())
        self.here.questions.drop_seat(self.ada)
        await self.ended(question, processes)
        self.here.keeper.path = str(program())
        self.over(2)  # then somebody else may ask
        await soon(self.here.ask(self.ben, "days", of=mine(self.ben), **SPAN))


class Leaving(Case):
    async def test_closing_the_tab_ends_the_question(self) -> None:
        server = self.server(LIVE_DAYS="4")
        async with server.seat("Ben") as ben:
            async with server.seat("Ada") as ada:
                await ada.say("clock", to=3_600)
                await ben.ask("advance", to=3_600)
                asked = asyncio.ensure_future(ada.reply("days", at=ada.at, of=mine(2), **{"from": 0, "to": 3_600}))
                await ada.reply("ping")  # (her questions are begun in their order)
                busy = await self.refusal(ben)
                self.assertIn("4 days are being simulated for Ada", busy)
                asked.cancel()

            async def free() -> bool:
                return (await self.refusal(ben)) == ""
            await until(free, "she has left")

    async def refusal(self, seat: Any) -> str:
        said = await seat.reply("days", at=seat.at, of=["shared", seat.at], **{"from": 0, "to": 60})
        return str(said.get("why", ""))
