"""Compute parts of a calibration a second time, from trials and days that are written out, without a simulation."""
from __future__ import annotations

import math
import unittest
from types import SimpleNamespace
from unittest import mock

from station_days import INTERVAL, make_measured
from zegdrut.measurements import Bounds, Measured, calibration
from zegdrut.measurements.calibration import Misfit, Point, Trial, correct_factor, evaluate_day, fit_day, make_trial
from zegdrut.measurements.goodness_of_fit import Passed, Run
from zegdrut.roads import FIGURES, Figures
from zegdrut.roads.demand import Effort

WIDE = Bounds((0.0, 0.4), (0.0, 0.7), (0.8, 1.2))


class Factor(unittest.TestCase):
    def test_it_is_that_of_the_points_times_their_ratios(self) -> None:
        """Three trials with factors of their own: a factor of 1.05 whose simulated cars are 2 % too few stands for 1.05 x 1.02. The mean is kept
        within the bounds."""
        trials = [Trial(Point(0.1, 0.2, factor), 1.0, 1, ratio) for factor, ratio in ((1.05, 1.02), (1.1, 0.97), (0.96, 1.08))]
        self.assertAlmostEqual(correct_factor(WIDE, trials), (1.071 + 1.067 + 1.0368) / 3, 12)
        self.assertEqual(correct_factor(WIDE._replace(factor=(0.9, 1.03)), trials), 1.03)
        self.assertEqual(correct_factor(WIDE._replace(factor=(1.07, 1.2)), trials), 1.07)

    def test_true_factor(self) -> None:
        """Correct trials of any factor whose cars are that many times the measured ones: the corrected factor is 1."""
        trials = [make_trial(Point(0.1, 0.2, factor), 1, [Misfit(1.0, 1 / factor)] * 2) for factor in (0.9, 1.04, 1.1)]
        self.assertAlmostEqual(correct_factor(WIDE, trials), 1.0, 12)


class Days(unittest.TestCase):
    def test_each_day_has_its_own_drivers(self) -> None:
        """The errors of two days are paraboloids with different minima, and their ratios differ: each day alone has its own result. The trials are
        a grid of 49 points."""
        minima, widths, ratios = [(0.14, 0.31), (0.22, 0.45)], [(900.0, 300.0), (500.0, 700.0)], [1.02, 0.95]
        trials = []
        for x in range(7):
            for y in range(7):
                point = Point(0.1 + 0.025 * x, 0.25 + 0.05 * y, 1.05)
                errors = [4.0 + a * (point.slowing - low) ** 2 + b * (point.start - high) ** 2 for (low, high), (a, b) in zip(minima, widths)]
                trials.append(make_trial(point, 1 + x % 3, [Misfit(error, ratio) for error, ratio in zip(errors, ratios)]))
        for day, (slowing, start) in enumerate(minima):
            found = fit_day(WIDE, trials, trials[10:16], day)
            self.assertAlmostEqual(found.slowing, slowing, 6)
            self.assertAlmostEqual(found.start, start, 6)
            self.assertAlmostEqual(found.factor, 1.05 * ratios[day], 12)

    def test_a_trial_is_the_mean_of_its_days(self) -> None:
        found = make_trial(Point(0.1, 0.2, 1.05), 2, [Misfit(3.0, 1.1), Misfit(8.0, 0.8)])
        self.assertEqual((found.error, found.ratio, found.round), (5.5, (1.1 + 0.8) / 2, 2))


class Scales(unittest.TestCase):
    def evaluate(self, asked: list[float], admitted: list[list[int]], cars: list[list[int]], counted: list[float]) -> Misfit:
        """Return the misfit of simulated days that are given: the demand in cars, and for each day its admitted cars and those at a station."""
        measured = make_measured([[90.0] * 4] * 2, [counted, counted])
        steps = 4 * INTERVAL
        road = SimpleNamespace(steps=steps, inlets=[(0, [(0, one * 3_600 / steps)]) for one in asked])
        runs = [Run([[Passed(number, 90.0) for number in line]], [], [], entered) for line, entered in zip(cars, admitted)]

        def make_model(name: str, figures: Figures, measured: Measured, factor: float, effort: Effort) -> SimpleNamespace:
            self.assertEqual((figures.slowing, figures.start, factor), (0.1, 0.2, 1.05))
            return SimpleNamespace(road=road, measured=measured)
        with mock.patch.object(calibration, "make_model", make_model), mock.patch.object(
                calibration, "simulate_day", lambda model, seed, with_entries: runs[seed - 70]):
            return evaluate_day("road", FIGURES, measured, Point(0.1, 0.2, 1.05), range(70, 70 + len(runs)))

    def test_a_day_that_admits_more_or_fewer_cars_than_its_demand(self) -> None:
        """The demand of both inlets is 400 cars, and the days admit 412, 390 and 440. The flows of a day are multiplied by demand / admitted cars,
        by 5 % at most; then they are compared with the counts. Each interval is worked out one by one."""
        cars, counted = [[100, 104, 98, 110], [96, 93, 99, 102], [112, 108, 110, 110]], [99.0, 101.0, 97.0, 105.0]
        found = self.evaluate([310.0, 90.0], [[320, 92], [305, 85], [340, 100]], cars, counted)
        scales = [400 / 412, 400 / 390, 0.95]
        means = [sum(scale * line[place] for scale, line in zip(scales, cars)) / 3 for place in range(4)]
        self.assertAlmostEqual(found.ratio, sum(counted) / sum(means), 12)
        self.assertAlmostEqual(found.terms[0], ((sum(means) / sum(counted) - 1) / 0.005) ** 2, 9)
        self.assertAlmostEqual(found.terms[3], sum((mean - one) ** 2 / one for mean, one in zip(means, counted)) / 4 / 2, 9)
        alone = [[scale * number for number in line] for scale, line in zip(scales, cars)]
        for error, line in zip(found.by_seed, alone):
            total = ((sum(line) / sum(counted) - 1) / 0.005) ** 2
            self.assertAlmostEqual(error, total + sum((one - other) ** 2 / other for one, other in zip(line, counted)) / 4 / 2, 9)

    def test_no_scale_beyond_five_percent(self) -> None:
        """A day that admits a tenth too few cars is scaled by 1.05 only, so its total is too small."""
        found = self.evaluate([400.0], [[360]], [[90, 90, 90, 90]], [100.0] * 4)
        self.assertAlmostEqual(found.ratio, 1 / (0.9 * 1.05), 12)
        self.assertTrue(math.isfinite(found.error))


if __name__ == "__main__":
    unittest.main()
