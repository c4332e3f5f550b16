"""Compare the figures that live gives for two roads with those that numpy finds in the cars of each step: on 30 random roads with
all kinds of edits, in windows of any length, and over days."""
from __future__ import annotations

import math
import random
from typing import Any

from faulty import Here, soon
from figures_told import SIDES, at_inlets, mine, of_side, value
from raw_figures import LONG, STEPS, Run, compare, figures_of, random_plan, random_shapes
from running import ALL, Case
from server.base.settings import Settings

ROADS = 100 if ALL else 30


class ByCars(Case):
    def near(self, found: Any, wanted: Any, what: Any) -> None:
        """Compare a number, or each number of lists and objects, to seven digits."""
        if isinstance(wanted, dict):
            for name, one in wanted.items():
                self.near(found[name], one, (what, name))
        elif isinstance(wanted, list):
            self.assertEqual(len(found), len(wanted), what)
            for place, one in enumerate(wanted):
                self.near(found[place], one, (what, place))
        elif wanted is None:
            self.assertIsNone(found, what)
        else:
            self.assertAlmostEqual(found, wanted, 7, what)

    def are(self, said: Any, before: Run, after: Run, first: int, last: int, what: Any) -> None:
        """Compare each figure and the travel times by minute of entry with those of the cars. Demand is compared in `demand_is`."""
        known = figures_of(before, after, first, last)
        for row in said["figures"]:
            key, of = row["figure"]["key"], row["figure"]["of"]
            if key in ("demand", "demand at", "lost", "lost at"):
                continue
            for side, wanted in zip(SIDES, known.pop((key, of[0], of[1]))):
                self.near(of_side(row, side), [wanted, None], (*what, row["figure"]["title"], side))
        self.assertEqual(known, {}, what)
        self.near(said["entries"], [run.by_entry(first, last) for run in (before, after)], what)
        for side, run in (("before", before), ("after", after)):
            for inlet, steps in enumerate(run.came):
                lost = at_inlets(said, side, "lost")[inlet]
                if steps is not None:
                    missing = sum(first <= step < last for step in steps) - run.admitted(first, last)[inlet]
                    self.assertEqual(lost, missing if missing >= (3 if inlet else 1) else 0, (*what, side, inlet))
                    self.lost += lost > 0
            for key in ("demand", "lost"):
                self.assertAlmostEqual(value(said, side, key), sum(at_inlets(said, side, key)), 9, (*what, side, key))

    async def runs(self, here: Here, seat: int) -> list[Run]:
        """Build the shared road and the own road from the edits that the laboratory reports."""
        edits = [(await here.ask(seat, "scenario", at=at))["edits"] for at in ("shared", f"seat{seat}")]
        return [Run(here.plan, one, STEPS, here.origin) for one in edits]

    lost = 0  # how often cars were lost

    async def test_each_figure_equals_that_of_the_cars(self) -> None:
        for number in range(ROADS):
            chance = random.Random(number)
            async with Here(plan=random_plan(chance), origin=number % 3 * 20) as here:
                seat, = await here.join("Ada")
                await here.lab.road_clock.set_clock(to=STEPS)
                shapes = random_shapes(here.plan, chance)
                shared = chance.randrange(len(shapes) + 1)
                for place, shape in enumerate(shapes):
                    if place == shared:
                        await here.share(seat)
                    await here.ask(seat, "gesture", key=f"{place}", shape=shape)
                before, after = await self.runs(here, seat)
                whole = [0, STEPS]
                windows = [whole, sorted(chance.sample(range(STEPS), 2)), [chance.randrange(STEPS - 60)] * 2]
                windows[2][1] += 60
                for first, last in windows:
                    said = await soon(here.ask(seat, "figures", of=mine(seat), **{"from": first, "to": last}))
                    self.are(said, before, after, first, last, (number, first, last))
                    if [first, last] == whole:
                        self.demand_is(said, before, after, number)
                for step in (300, 40):  # late edits, the second one further back
                    await here.ask(seat, "gesture", key=f"late {step}", shape=["block", 8, 8, step, step + 40, 1])
                    before, after = await self.runs(here, seat)
                    said = await soon(here.ask(seat, "figures", of=mine(seat), **{"from": 0, "to": STEPS}))
                    self.are(said, before, after, 0, STEPS, (number, "late", step))
                for at, run in (("shared", before), (f"seat{seat}", after)):
                    await here.ask(seat, "advance", at=at, to=STEPS)
                    flows = (await here.ask(seat, "counts", at=at, **{"from": 0, "to": STEPS}))["flows"]
                    self.near(flows, [run.detector(one, 0, STEPS) for one in range(3)], (number, at))
                    sums = await here.ask(seat, "sums", at=at, **{"from": 60, "to": 420})
                    self.assertAlmostEqual(sum(sums["sums"]) / 3_600, run.hours(60, 420), 9)
                    minutes = [round(3_600 * run.approach_hours(first, first + 60)) for first in range(60, 420, 60)] if here.origin else None
                    self.assertEqual(sums.get("approach"), minutes)

        self.assertGreater(self.lost, 0)

    def demand_is(self, said: Any, before: Run, after: Run, number: int) -> None:
        """Check that the demand equals what its chances admit in long runs, within 0.5 % and four standard errors of such a run."""
        for side, run in (("before", before), ("after", after)):
            for inlet, asked in enumerate(at_inlets(said, side, "demand")):
                wanted = run.asked(inlet, 0, STEPS)
                error = math.sqrt(wanted * STEPS / LONG) if wanted else 0
                self.assertLessEqual(abs(asked - wanted), 0.005 * wanted + 4 * error + 1e-9, (number, side, inlet, asked, wanted))

    async def test_cars_held_back_at_an_inlet_are_lost_demand(self) -> None:
        """Without slowing, a chance q admits q / (1 + q q) cars a step if nothing is in their way, so the demand is known.
        Changes at the inlet hold cars back, but do not change the demand. A demand that is lowered, or a ramp that is switched
        off, loses nothing."""
        chances, steps = (26_214, 6_554), 3_600
        plan: dict[str, Any] = {"length": 240, "exit": 1, "zone": 20, "zones": [[5, 0]] * 12, "inlets": [[0, chances[0]], [100, chances[1]]],
                                "detectors": [50], "words": 3, "replicas": ["road"]}
        part = chances[0] / 65_536
        wanted = part / (1 + part * part) * steps
        scatter = 2 * math.sqrt(wanted)
        cases: list[tuple[list[list[Any]], float, float, float]] = [
            ([], wanted, -scatter, scatter),
            ([["slow", 0, 0, 0, None, 49_152]], wanted, 400, 900),  # three of four cars that enter do not start
            ([["start", 0, 0, 1, None, 60_000]], wanted, 400, 1_200), ([["limit", 0, 0, 0, None, 0]], wanted, wanted - scatter, wanted + scatter),
            ([["limit", 0, 0, 0, None, 1]], wanted, -scatter, scatter),  # (at 27 km/h a car still leaves the inlet at once)
            ([["block", 0, 5, 600, 2_400, 1]], wanted, wanted / 2 - scatter, wanted / 2 + scatter),
            ([["inflow", 0, 0, 0, None, 0]], 0, 0, 0)]
        for shapes, asked, least, most in cases:
            async with Here(plan=plan) as here:
                seat, = await here.join("Ada")
                await here.lab.road_clock.set_clock(to=steps)
                for place, shape in enumerate(shapes):
                    await here.ask(seat, "gesture", key=f"{place}", shape=shape)
                said = await soon(here.ask(seat, "figures", of=mine(seat), **{"from": 0, "to": steps}))
                demand, came, lost = (at_inlets(said, "after", key)[0] for key in ("demand", "admitted", "lost"))
                self.assertAlmostEqual(demand, asked, delta=0.01 * wanted, msg=str(shapes))
                self.assertTrue(least <= lost <= most, (shapes, lost, least, most))
                self.assertAlmostEqual(lost, demand - came, delta=scatter + 2)
                self.assertEqual(at_inlets(said, "before", "lost"), [0, 0])
                hours, = (row for row in said["figures"] if row["figure"]["key"] == "hours")
                self.assertEqual(hours["bounds"], ["at least" if lost else ""])
                self.assertEqual(f"Cars that cannot enter are lost: {lost:,.0f} at km 0 (mine)" in hours["words"], lost > 0, hours["words"])

    async def test_a_ramp_that_finds_no_place_loses_its_demand_and_one_that_is_switched_off_does_not(self) -> None:
        chances, steps = (26_214, 6_554), 3_600
        plan: dict[str, Any] = {"length": 240, "exit": 1, "zone": 20, "zones": [[5, 0]] * 12, "inlets": [[0, chances[0]], [100, chances[1]]],
                                "detectors": [50], "words": 3, "replicas": ["road"]}
        for shapes, share in (([["block", 130, 130, 0, None, 1]], 0.95), ([["inflow", 1, 1, 0, None, 0]], 0.0)):
            async with Here(plan=plan) as here:
                seat, = await here.join("Ada")
                await here.lab.road_clock.set_clock(to=steps)
                for place, shape in enumerate(shapes):
                    await here.ask(seat, "gesture", key=f"{place}", shape=shape)
                said = await soon(here.ask(seat, "figures", of=mine(seat), **{"from": 600, "to": steps}))
                asked, before = (at_inlets(said, side, "demand")[1] for side in ("after", "before"))
                lost = at_inlets(said, "after", "lost")[1]
                if share:
                    self.assertAlmostEqual(asked, before, 9)  # the jam leaves the demand as it is
                    self.assertGreater(lost, share * asked)
                else:
                    self.assertEqual((asked, lost), (0, 0))

    async def test_days_are_means_of_these_figures(self) -> None:
        chance = random.Random(77)
        for _ in range(2):
            plan = random_plan(chance)
            async with Here(plan=plan) as here:
                seat, = await here.join("Ada")
                await here.lab.road_clock.set_clock(to=STEPS)
                for place, shape in enumerate(random_shapes(plan, chance)):
                    await here.ask(seat, "gesture", key=f"{place}", shape=shape)
                here.keeper.settings = Settings(days=3)
                said = await soon(here.ask(seat, "days", of=mine(seat), **{"from": 60, "to": 400}))
                edits = [(await here.ask(seat, "scenario", at=at))["edits"] for at in ("shared", f"seat{seat}")]
                days = [[Run({**plan, "words": plan["words"] + day}, one, STEPS) for one in edits] for day in range(3)]
                for side, place in (("before", 0), ("after", 1)):
                    hours = [day[place].hours(60, 400) for day in days]
                    self.assertAlmostEqual(value(said, side, "hours"), sum(hours) / 3, 7)
                delays = [compare(before, after, 60, 400)["delay_hours"] for before, after in days]
                self.assertAlmostEqual(value(said, "difference", "delay"), sum(delays) / 3, 7)
