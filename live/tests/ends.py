"""Test that hours and delay are bounds if the window ends while a road still has more cars than the one with which it is compared: in the
figures of one day and of many days, and in the report. What is wanted follows from the rows that the program shows."""
from __future__ import annotations

import math
import statistics
from typing import Any, Sequence
from unittest import mock

from faulty import Here, soon
from figures_told import mine
from raw_figures import Run
from running import Case
from server.base.settings import Settings

STEPS = 900
PLAN: dict[str, Any] = {"length": 240, "exit": 1, "zone": 20, "zones": [[5, 6_554]] * 12, "inlets": [[0, 20_000]], "detectors": [50], "words": 3,
                        "replicas": ["road"]}
CLOSURE = ["block", 200, 200, 300, 400, 1]
"""A closure whose queue is there at step 400, never reaches the inlet, and is gone at step 900."""
BOUNDED = ("delay", "hours")
"""The keys of the figures that do not include what late cars lose."""


def count_last(runs: Sequence[Run], last: int) -> tuple[int, int, int]:
    """Return the cars in the row `last` of two roads, and how many more the second one has of those that both have had up to then."""
    before, after = runs
    there, here = ({number for number, (begin, end) in run.seen.items() if begin <= last <= end} for run in (before, after))
    both = {number for number in before.seen.keys() & after.seen.keys() if number // 16 < last}
    return len(there), len(here), len(here & both) - len(there & both)


def explain(names: Sequence[str], days: Sequence[tuple[int, int, int]]) -> str:
    """Return what is said of two roads if by the mean of these days one has more cars at the end than the other, by more than chance."""
    there, here, more = (statistics.mean(each) for each in zip(*days))
    if abs(more) <= 2 * math.sqrt(min(there, here)):
        return ""
    late, other = names[::-1] if more > 0 else names
    return (f"The run ends too early: at its end the road {late} has {abs(round(more))} more cars than the road {other}. The figures of delay do not include "
            "what these cars lose later: let the run end later.")


class Ends(Case):
    async def asyncSetUp(self) -> None:
        self.here = await self.enterAsyncContext(Here(plan=PLAN))
        self.ada, = await self.here.join("Ada")
        await self.here.lab.road_clock.set_clock(to=STEPS)
        await self.here.ask(self.ada, "gesture", key="1", shape=CLOSURE)

    async def runs(self, day: int = 0) -> list[Run]:
        """Return the shared road and the own road on a day."""
        edits = [(await self.here.ask(self.ada, "scenario", at=at))["edits"] for at in ("shared", f"seat{self.ada}")]
        return [Run({**PLAN, "words": PLAN["words"] + day}, one, STEPS) for one in edits]

    def are(self, said: Any, place: int, bound: str, words: str) -> None:
        """Check the bounds of a later road, and the words of all rows."""
        for row in said["figures"]:
            key = row["figure"]["key"]
            self.assertEqual(row["bounds"][place], bound if key in BOUNDED else "", key)
            self.assertEqual(row["words"], words if key in BOUNDED else "", key)

    async def test_one_day(self) -> None:
        """A road that was simulated beyond the window has the cars of the window's end."""
        before, after = await self.runs()
        own = mine(self.ada)
        for last, bounds in ((STEPS, ("", "")), (400, ("at least", "at most"))):
            for of, names, runs, bound in zip((own, own[::-1]), (("shared", "mine"), ("mine", "shared")), ((before, after), (after, before)), bounds):
                words = explain(names, [count_last(runs, last)])
                self.assertEqual(bool(words), bool(bound))
                self.are(await soon(self.here.ask(self.ada, "figures", of=of, **{"from": 60, "to": last})), 0, bound, words)

    async def test_three_roads(self) -> None:
        """Each later road has its own bound. The words are there once."""
        await self.here.ask(self.ada, "variant", name="night")
        before, after = await self.runs()
        said = await soon(self.here.ask(self.ada, "figures", of=["shared", "file", "variant:night"], **{"from": 60, "to": 400}))
        words = explain(["shared", "“night”"], [count_last([before, after], 400)])
        for place, bound in enumerate(("", "at least")):
            self.are(said, place, bound, words)

    async def test_many_days(self) -> None:
        self.here.keeper.settings = Settings(days=3)
        days = [count_last(await self.runs(day), 400) for day in range(3)]
        self.assertGreater(len({more for *_, more in days}), 1)
        words = explain(["shared", "mine"], days)
        self.assertIn("The run ends too early", words)
        self.are(await soon(self.here.ask(self.ada, "days", of=mine(self.ada), **{"from": 60, "to": 400})), 0, "at least", words)

    async def test_the_report(self) -> None:
        days = [count_last(await self.runs(day), 400) for day in range(2)]
        with mock.patch("server.figures.report.DAYS", 2):
            html = (await soon(self.here.ask(self.ada, "report", of=mine(self.ada), title="Works", works=["a"], **{"from": 60, "to": 400})))["html"]
        words = explain(["shared", "Ada"], days)
        self.assertIn("The run ends too early", words)
        self.assertIn(words, html)
        for title in ("delay, vehicle hours", "vehicle hours on the road"):
            self.assertIn(f"<td>{title} (at least)</td>", html)
