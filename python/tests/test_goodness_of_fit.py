"""Compare days with counts, and make the demand of counts, in a second way, without a simulation."""
from __future__ import annotations

import dataclasses
import math
import random
import statistics
import unittest

from station_days import make_day, make_measured
from zegdrut.measurements import Station, compare_hours, compare_speeds
from zegdrut.measurements.counts_on_road import Series
from zegdrut.measurements.goodness_of_fit import compute_total_rmse, spread_excess, with_measured_demand
from zegdrut.roads import FIGURES

T_OF_TWO = 4.302653
"""Student's t for two degrees of freedom, from printed tables."""


class Demands(unittest.TestCase):
    def test_an_excess_enters_later(self) -> None:
        """Let the cars that arrive wait in a queue, second by second: in each interval as many enter as the limited demand says. The intervals differ,
        several in a row have too many cars, and some are left at the end."""
        rates, end, most = [(0, 1_500.0), (300, 2_400.0), (900, 2_000.0), (1_200, 1_900.0), (2_100, 300.0), (3_000, 1_700.0), (3_300, 2_600.0)], 3_900, 1_780.0
        found, number = spread_excess(rates, most, end)
        bounds = [step for step, _ in rates] + [end]
        queue, entered, full = 0.0, [], 0
        for (first, rate), last in zip(rates, bounds[1:]):
            before, cars = queue, 0.0
            for _ in range(first, last):
                queue += rate / 3_600
                cars += (out := min(queue, most / 3_600))
                queue -= out
            entered.append(cars * 3_600 / (last - first))
            full += before + rate * (last - first) / 3_600 > most * (last - first) / 3_600
        self.assertEqual([step for step, _ in found], bounds[:-1])
        for (_, limited), wanted in zip(found, entered):
            self.assertAlmostEqual(limited, wanted, 6)
        self.assertEqual((number, full), (4, 4))

    def test_the_demand_of_counts(self) -> None:
        """Multiply counts and the demand of the file by 1.05: counts of the first station and of a ramp station are per lane, and a ramp of the file has
        its own demand unless it is within 0.1 km of the ramp station."""
        measured = make_measured([[95.0] * 3] * 2, [[100.0, 110.0, 105.0], [120.0] * 3])
        ramp = Series(Station("r", 2.0, 1, True), [20.0, 24.0, 22.0], [None] * 3)
        measured = dataclasses.replace(measured, ramps=[ramp])
        figures = dataclasses.replace(FIGURES, main=900, ramps=[(1.95, 400), (0.75, [(0, 300), (5, 360)]), (2.25, 200)])
        found, notes = with_measured_demand(figures, measured, 1.05)
        self.assertEqual(notes, [])
        self.assertRates(found.main, [(0, 1_260), (5, 1_386), (10, 1_323)])
        self.assertEqual([km for km, _ in found.ramps], [0.75, 2.0, 2.25])
        for (_, demand), wanted in zip(found.ramps, ([(0, 315), (5, 378)], [(0, 252), (5, 302.4), (10, 277.2)], [(0, 210)])):
            self.assertRates(demand, wanted)

    def assertRates(self, found: object, wanted: list[tuple[float, float]]) -> None:
        assert isinstance(found, list)
        self.assertEqual([minute for minute, _ in found], [minute for minute, _ in wanted])
        for (_, cars), (_, right) in zip(found, wanted):
            self.assertAlmostEqual(cars, right, 9)


class Comparisons(unittest.TestCase):
    def setUp(self) -> None:
        """Draw counts and speeds of three stations in two hours, with missing ones, and three unlike days."""
        chance = random.Random(4)
        self.speeds = [[chance.choice((None, chance.uniform(20, 110), chance.uniform(20, 110))) for _ in range(24)] for _ in range(4)]
        self.cars = [[None if chance.random() < 0.1 else float(chance.randrange(30, 140)) for _ in range(24)] for _ in range(4)]
        self.cars[2][12:18] = [None] * 6
        self.measured = make_measured(self.speeds, self.cars, lanes=3)
        self.days = [make_day([[None if chance.random() < 0.2 else chance.uniform(15, 120) for _ in range(24)] for _ in range(3)],
                              [[chance.randrange(20, 130) for _ in range(24)] for _ in range(3)]).passed for _ in range(3)]

    def test_hours(self) -> None:
        found = {(one.station, one.first): one for one in compare_hours(self.measured, self.days)}
        wanted = {}
        for index in range(3):
            for hour in range(2):
                known = [place for place in range(12 * hour, 12 * hour + 12) if self.cars[index + 1][place] is not None]
                if len(known) >= 10:
                    counted = sum(self.cars[index + 1][place] or 0 for place in known) * 12 / len(known)
                    flows = [sum(day[index][place].cars for place in known) * 12 / len(known) for day in self.days]
                    mean = sum(flows) / 3
                    wanted[f"s{index + 1}", 3_600 * hour] = (counted, mean, T_OF_TWO * statistics.stdev(flows) / math.sqrt(3), *(
                        math.sqrt(2 * lanes * (mean - counted) ** 2 / (mean + counted)) for lanes in (1, 3)), len(known))
        self.assertEqual(found.keys(), wanted.keys())
        self.assertIn(("s1", 0), wanted)
        for key, values in wanted.items():
            one = found[key]
            for have, right in zip((one.measured, one.simulated, one.half, one.geh, one.geh_all_lanes, one.intervals), values):
                self.assertAlmostEqual(have or 0, right, 4)

    def test_speeds(self) -> None:
        """Compare the mean of the days with a car in each interval, and the error over the intervals of all stations together."""
        every = []
        for index, one in enumerate(compare_speeds(self.measured, self.days)):
            off = []
            for place, speed in enumerate(self.speeds[index + 1]):
                drawn = [day[index][place].speed for day in self.days if day[index][place].speed is not None]
                if speed is not None and drawn:
                    off.append(sum(drawn) / len(drawn) - speed)
            self.assertEqual(one.intervals, len(off))
            self.assertAlmostEqual(one.rmse or 0, math.sqrt(statistics.mean(value ** 2 for value in off)), 9)
            self.assertAlmostEqual(one.bias or 0, statistics.mean(off), 9)
            every.append(off)
        self.assertGreater(len({len(off) for off in every}), 1)
        together = [value for off in every for value in off]
        self.assertAlmostEqual(compute_total_rmse(compare_speeds(self.measured, self.days)) or 0,
                               math.sqrt(statistics.mean(value ** 2 for value in together)), 9)


if __name__ == "__main__":
    unittest.main()
