"""Test works with a capacity: the server finds the chances that leave it, which a loop of its own drives here."""
from __future__ import annotations

import asyncio
import json
import math
import random
import statistics
import unittest
from typing import Any, Sequence
from unittest import mock

from running import Case, new_folder
from server.figures.admission import Curves

SEEDS, WARM_UP, STEPS = range(8), 1_500, 5_000
T_7 = 2.365  # the quantile of Student's t with 7 degrees of freedom for an interval of 95 %
Zone = tuple[int, float, float]  # limit in cells a step, slowing chance, slow-to-start chance


def count_flow(zones: Sequence[tuple[int, Zone]], seed: int) -> float:
    """Drive a road that is fed without end, and return the cars per hour that leave it. `zones` are (cells, zone)."""
    chance = random.Random(seed)
    cells = [zone for length, zone in zones for _ in range(length)]
    cars: list[tuple[int, int]] = []  # place and speed, the first car of the road first
    left = 0
    for step in range(WARM_UP + STEPS):
        moved: list[tuple[int, int]] = []
        ahead = len(cells) + 99
        for place, speed in cars:
            limit, slowing, start = cells[place]
            drive = min(speed + 1, limit, ahead - place - 1)
            drive -= drive > 0 and chance.random() < (slowing if speed else start)
            ahead = place
            if place + drive < len(cells):
                moved.append((place + drive, drive))
            else:
                left += step >= WARM_UP
        if not moved or moved[-1][0] > 0:
            moved.append((0, 0))
        cars = moved
    return left * 3_600 / STEPS


def flow_of_works(drivers: Zone, works: Zone, cells: int) -> tuple[float, float]:
    """Return the mean flow out of a queue before works, and half its interval."""
    entry = drivers[0], 0.0, 0.0
    flows = [count_flow([(40, entry), (60, drivers), (cells, works), (60, drivers)], seed) for seed in SEEDS]
    return statistics.mean(flows), T_7 * statistics.stdev(flows) / math.sqrt(len(flows))


def admits(case: unittest.TestCase, value: Sequence[int], drivers: Zone, cells: int) -> None:
    """Check the value of a capacity by the loop above, within its interval and 0.5 % for the measurement's own seeds."""
    cars, limit, slowing, start = value
    mean, half = flow_of_works(drivers, (limit, slowing / 65_536, start / 65_536), cells)
    case.assertLess(half, 25)
    case.assertLess(abs(mean - cars), half + 0.005 * cars, (mean, half, value))


class Works(Case):
    async def test_the_chances_leave_the_cars_of_a_queue(self) -> None:
        """The drivers before the works are those of the plan, with the slow-to-start chance that a layer gives them from the beginning. A
        capacity is not counted as one."""
        server = self.server()
        async with server.seat() as ada:
            plain = (await ada.ask("capacity", first=2, last=3, cars=900, limit=2))["value"]
            self.assertEqual(plain[:2], [900, 2])
            admits(self, plain, (5, 0.1, 0.1), 40)
            await ada.ask("gesture", key="works", shape=["capacity", 2, 3, 0, None, plain])
            self.assertEqual((await ada.ask("capacity", first=2, last=3, cars=900, limit=2))["value"], plain)
            await ada.ask("gesture", key="start", shape=["start", 0, 5, 0, None, 29_491])
            await ada.ask("gesture", key="late", shape=["start", 0, 5, 1, None, 60_000])
            slow = (await ada.ask("capacity", first=1, last=3, cars=1_600, limit=3))["value"]
            admits(self, slow, (5, 0.1, 0.45), 60)

    async def test_a_capacity_that_cannot_be_is_refused_with_the_largest(self) -> None:
        most = flow_of_works((5, 0.1, 0.1), (2, 0.0, 0.0), 40)[0]  # (works without slowing let all pass that the road is fed with)
        async with self.server().seat() as ada:
            for fields, name, why in (
                    ({"cars": 2_500}, "Range", f"with a limit of 54 km/h leave [0-9]+ to {most:,.0f} cars per hour on this road"),
                    ({"limit": 0}, "Range", "a capacity needs a limit above 0 km/h, not 0: works that leave no car are a closure"),
                    ({"limit": 10}, "Range", "`limit` must be 0 to 9, not 10"), ({"last": 6}, "Range", "`first` and `last` must be 0 to 5"),
                    ({"last": 1}, "Range", "the smaller first"), ({"cars": -1}, "not a command", "`cars`")):
                said = await ada.reply("capacity", at=ada.at, **{"first": 2, "last": 3, "cars": 900, "limit": 2, **fields})
                self.assertEqual(said["refused"], name, said)
                self.assertRegex(said["why"], why)

    async def test_each_seat_has_its_turn(self) -> None:
        """One asks for eight capacities at once, then another one for one: it waits for two of them at most."""
        curves, order = Curves(new_folder()), list[int]()

        async def measured(asked: Any, path: str) -> Any:
            order.append(asked["cars"])
            await asyncio.sleep(0.01)
            return {"value": [asked["cars"], 2, 3, 4]}
        with mock.patch.object(curves.child, "ask", measured):
            asked = [asyncio.ensure_future(curves.find_works(1, {"cars": cars, "limit": 2, "drivers": (5, 0, None), "cells": 20}, ""))
                     for cars in range(8)]
            await asyncio.sleep(0)
            await curves.find_works(2, {"cars": 99, "limit": 2, "drivers": (5, 0, None), "cells": 20}, "")
            await asyncio.gather(*asked)
        self.assertIn(99, order[:3])
        self.assertEqual(sorted(order), [*range(8), 99])

    async def test_each_capacity_is_measured_once(self) -> None:
        """Two tabs ask at the same time, and one again after a restart. The folder keeps the answer, even if it is a refusal."""
        server = self.server()
        asked: dict[str, Any] = {"first": 0, "last": 5, "cars": 700, "limit": 1}
        path = server.folder / "admissions.jsonl"
        async with server.seat() as ada, server.seat("Ben") as ben:
            one, other = await asyncio.gather(ada.ask("capacity", **asked), ben.ask("capacity", **asked))
            self.assertEqual(one["value"], other["value"])
            await ada.reply("capacity", at=ada.at, **{**asked, "cars": 9_000})
        (key, kept), (wrong, refused) = map(json.loads, path.read_text(encoding="ascii").splitlines())
        self.assertEqual(kept, {"value": one["value"]})
        path.write_text(f'{json.dumps([key, {"value": [700, 1, 5, 6]}])}\n{json.dumps([wrong, {**refused, "why": "no"}])}\n', encoding="ascii")
        server.restart()
        async with server.seat("Cleo") as cleo:
            self.assertEqual((await cleo.ask("capacity", **asked))["value"], [700, 1, 5, 6])
            self.assertEqual((await cleo.reply("capacity", at=cleo.at, **{**asked, "cars": 9_000}))["why"], "no")

    def test_the_loop_lets_a_car_pass_each_second_step_at_the_lowest_limit(self) -> None:
        self.assertEqual(count_flow([(40, (1, 0.0, 0.0))], 1), 1_800)
