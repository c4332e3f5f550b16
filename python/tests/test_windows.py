"""Compute the figures of windows again by plain loops over `cars` of each step."""
from __future__ import annotations

import random
import unittest

from checked import Checked
from measured_recipe import ALWAYS
from zegdrut import Edit, Plan, RoadLab, Stamp
from zegdrut.figures.trips import (
    Trips, Window, compare_trips, compute_travel_times, compute_vehicle_hours, count_admitted_cars, count_seconds_on)


def raw_trips(lab: RoadLab, to: int, sites: list[int]) -> tuple[dict, list[dict], list[int]]:
    """Return when each car left, when each car passed each site, and how many cars each row has, by `cars` of each step."""
    left: dict = {}
    passed: list[dict] = [{} for _ in sites]
    numbers, before = [0], {}
    for step in range(to):
        now = {car.number: (car.cell, car.speed) for car in lab.cars("A", step + 1)}
        left.update((number, None) for number in now if number not in left)
        for number, (cell, _) in before.items():
            if number not in now:
                left[number] = step
                for index, site in enumerate(sites):
                    if cell < site:
                        passed[index][number] = step
        for number, (cell, speed) in now.items():
            for index, site in enumerate(sites):
                if cell - speed < site <= cell:
                    passed[index][number] = step
        numbers.append(len(now))
        before = now
    return left, passed, numbers


class Windows(Checked):
    def test_random_windows(self) -> None:
        """Compute the figures of windows again, on 30 random roads with all kinds of edits, by plain loops over `cars` of each step."""
        chance = random.Random(5)
        for case in range(30):
            length, width = chance.randint(60, 300), chance.randint(20, 100)
            zones, inlets = -(-length // width), [0, *sorted(chance.sample(range(1, length - 24), chance.randint(0, 2)))]
            plan = Plan(length=length, zone=width, zones=[(chance.randint(1, 9), chance.randint(0, 40_000)) for _ in range(zones)],
                        inlets=[(cell, chance.randint(0, ALWAYS)) for cell in inlets], exit=chance.choice((1, 1, 3, 20)), words=case,
                        replicas=["A", "B"])
            to, sites = 400, sorted(chance.sample(range(1, length - 21), 2))
            window = Window(*sorted(chance.sample(range(to + 1), 2)))
            ranges = {"limit": (zones, 9), "slow": (zones, 60_000), "start": (zones, 60_000), "block": (length, 1), "inflow": (len(inlets), ALWAYS)}
            runs, raws = [], []
            for edits in (4, 8):
                with RoadLab({**plan.to_line(), "replicas": ["A"]}) as lab:
                    drawn = random.Random(case)
                    for _ in range(edits):
                        kind = drawn.choice(list(ranges))
                        lab.edit("A", (kind, drawn.randrange(ranges[kind][0])), drawn.randrange(to), drawn.randint(0, ranges[kind][1]))
                    lab.advance("A", to)
                    trips = Trips(lab.plan, sites)
                    trips.follow(lab, "A", to // 3)
                    trips.follow(lab, "A", to)
                    runs.append(trips)
                    raws.append(raw_trips(lab, to, sites))
            for trips, (left, passed, numbers) in zip(runs, raws):
                self.check(f"road {case}: trips", (trips.left, trips.passed, trips.cars), (left, passed, numbers))
                self.check(f"road {case}: vehicle hours", compute_vehicle_hours(trips, window), sum(numbers[window.first + 1:window.last + 1]) / 3_600)
                self.check(f"road {case}: admitted", count_admitted_cars(trips, window),
                      [sum(number % 16 == inlet and window.first <= number // 16 < window.last for number in left) for inlet in range(len(inlets))])
                wanted = [[date - number // 16 for number, date in dates.items() if date is not None and window.first <= date < window.last]
                          for dates in (*passed, left)]
                self.check(f"road {case}: travel times", [tuple(one) for one in compute_travel_times(trips, window)], [(len(one), sum(one)) for one in wanted])
            (one, _, _), (other, _, _) = raws

            def rows(left: dict, number: int) -> int:
                return sum(number // 16 < row <= (to if left[number] is None else left[number]) for row in range(window.first + 1, window.last + 1))
            both = [number for number in one if number in other and number // 16 < window.last]
            self.check(f"road {case}: delay", compare_trips(*runs, window).delay, sum(rows(other, number) - rows(one, number) for number in both))
        edits = [Edit(("watch", detector), step, Stamp(1, 0), value) for detector, step, value in ((0, 100, 0), (0, 160, 1), (1, 0, 0), (0, 200, None))]
        self.check("seconds on", [count_seconds_on(edits, detector, Window(90, 190)) for detector in (0, 1, 2)], [40, 0, 100])


if __name__ == "__main__":
    unittest.main()
