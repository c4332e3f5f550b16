"""Judge jams and delays of days that are written out, without a simulation, and compute the wanted values by a second way."""
from __future__ import annotations

import unittest

from station_days import INTERVAL, make_day, make_measured
from zegdrut.measurements.congestion import Segment, compare_leaving, compare_time_lost, find_simulated_states
from zegdrut.program.road_rows import Sums

FREE, SLOW = 100.0, 30.0


class States(unittest.TestCase):
    def test_half_of_the_days_with_a_car(self) -> None:
        """An interval is congested if at least half of the days with a car are slow: one of two, two of four, and not one of three. A day without
        a car has no vote, and without any car nothing is known."""
        speeds: dict[tuple[float | None, ...], bool | None] = {
            (SLOW, FREE): True, (FREE, FREE): False, (SLOW, FREE, FREE): False, (SLOW, SLOW, FREE): True, (SLOW, FREE, None, None): True,
            (SLOW, SLOW, FREE, FREE): True, (SLOW, FREE, FREE, FREE): False, (None, None): None}
        for of_days, wanted in speeds.items():
            measured = make_measured([[FREE] * 2, [FREE, FREE]])
            days = [make_day([[speed, FREE]]) for speed in of_days]
            with self.subTest(days=of_days):
                self.assertEqual(find_simulated_states(measured, days, 0.6), [[wanted, False]])


class Leaving(unittest.TestCase):
    def test_unknown_speeds_are_not_free(self) -> None:
        """The flow that leaves a jam is that of the intervals in which the next station is known to be free. Twelve intervals are a jam at the
        first compared station. At the next one the speed of the first four is unknown, that of the next six free, and the last two are slow."""
        jammed = [SLOW] * 12 + [FREE] * 88
        following = [None] * 4 + [FREE] * 6 + [SLOW] * 2 + [FREE] * 88
        cars = [61.0, 62.0, 63.0, 64.0, 131.0, 135.0, 139.0, 127.0, 125.0, 123.0, 71.0, 72.0] + [90.0] * 88
        measured = make_measured([[FREE] * 100, jammed, following], [[90.0] * 100, [90.0] * 100, cars])
        found, = compare_leaving(measured, [])
        wanted = sum(cars[4:10]) / 6 * 3_600 / INTERVAL
        self.assertAlmostEqual(found.measured, wanted, 6)
        self.assertEqual(wanted, 1_560)

    def test_a_simulated_day_without_speeds(self) -> None:
        """On a simulated day nothing leaves a jam where no car passes the next station, so its flow is unknown, and the other days decide."""
        jammed, free = [SLOW] * 6 + [FREE] * 44, [FREE] * 50
        measured = make_measured([free, jammed, free], [[90.0] * 50, [90.0] * 50, [110.0] * 50])
        unknown = make_day([jammed, [None] * 6 + [FREE] * 44], [[90] * 50, [0] * 6 + [90] * 44])
        known = make_day([jammed, free], [[90] * 50, [104, 106, 108, 110, 112, 114] + [90] * 44])
        found, = compare_leaving(measured, [unknown, known])
        self.assertEqual((found.measured, found.simulated, found.half), (110 * 12, 109 * 12, None))


class TimeLost(unittest.TestCase):
    def test_intervals_without_a_count_or_a_speed(self) -> None:
        """The delay covers the intervals with a measured count and a measured speed: of the simulated days, too, by all cars and at stations. Of
        six simulated jammed intervals the counts know four."""
        cars: list[float | None] = [80.0, None, 84.0, 86.0, 88.0, 91.0, *[90.0] * 94]
        speeds: list[float | None] = [40.0, 42.0, None, 45.0, 48.0, 50.0, *[FREE] * 94]
        measured = make_measured([speeds, speeds], [cars, cars])
        seconds, steps = [9_000, 9_100, 9_200, 9_300, 9_400, 9_500], [11_000, 11_500, 12_000, 12_500, 13_000, 13_500]
        on = [[Sums(cars, speeds, 60_000) for cars, speeds in zip(seconds, steps)] + [Sums(3_000, 11_112, 60_000)] * 94] * 2
        segments = [Segment(series, 200 * index, 200 * index + 160, FREE, index) for index, series in enumerate(measured.main)]
        passed = make_day([[33.0, 34.0, 35.0, 36.0, 37.0, 38.0, *[FREE] * 94]], [[70, 71, 72, 73, 74, 75, *[90] * 94]]).passed[0]
        day = make_day([], [], on)._replace(at=[passed, passed])
        counted = [0, 3, 4, 5]
        km = 160 * 0.0075
        of_counts = 2 * sum((cars[place] or 0) * km * (1 / (speeds[place] or 1) - 1 / FREE) for place in counted)
        # 27 km/h is a cell per step, and a day's delay is the time of all cars minus the time at the free speed for the way that they drive.
        by_cars = 2 * sum(seconds[place] - steps[place] * 27 / FREE for place in counted) / 3_600
        at_stations = 2 * sum(passed[place].cars * km * (1 / (33.0 + place) - 1 / FREE) for place in counted)
        for at, wanted in ((False, by_cars), (True, at_stations)):
            found = compare_time_lost(segments, [day], at_stations=at)
            assert found is not None
            self.assertAlmostEqual(found.measured, of_counts, 9)
            self.assertAlmostEqual(found.simulated, wanted, 9)


if __name__ == "__main__":
    unittest.main()
