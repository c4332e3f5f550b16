"""Test that the table of metering describes runs that end while cars are late, by the cars of each row."""
from __future__ import annotations

import contextlib
import dataclasses
import io
import math
import unittest

from zegdrut.commands.metering import Control, compare_runs, count_last_cars, explain_queues, make_site, open_day, run_days, run_metered
from zegdrut.roads import FIGURES, count_demand

RAMP = 400
SMALL = dataclasses.replace(FIGURES, length=2, slowing=0.2, start=0.2, main=600, ramps=[(1.2, RAMP)], sections=[], stalled=[], detectors=[],
                            stretch=(0.5, 1), minutes=20, begin="07:00", approach=0.9)
"""A road whose run begins some minutes before 07:00, since it has an approach."""


class Ends(unittest.TestCase):
    def test_a_queue_at_the_ramp_is_there_at_the_end(self) -> None:
        """Metering admits fewer cars than arrive, and nobody waits before km 0. Hours are at least those of the table, or at most if the road without
        control has the queue."""
        with contextlib.redirect_stderr(io.StringIO()):
            slow = make_site("small", SMALL, Control(ramp=1.2, detector=1.5, setpoint=8.0, least=250.0, most=250.0))
        fast, steps = dataclasses.replace(slow, control=dataclasses.replace(slow.control, least=1_000.0, most=1_000.0)), slow.road.steps
        self.assertGreater(steps, 1_200)
        for site, has_queue in ((slow, True), (fast, False)):
            runs, ends = [], []
            for start in (math.inf, 0):
                with open_day(site, 3) as lab:
                    runs.append(run_metered(site, lab, start))
                    rows = [{car.number for car in lab.cars("A", step)} for step in range(steps + 1)]
                admitted = len({number for row in rows for number in row if number % 16 == 1})
                self.assertEqual(runs[-1].run.list_waiting(0)[-1:], [0] * bool(runs[-1].run.waiting))
                ends.append(len(rows[-1]) + max(RAMP * steps / 3_600 - admitted, 0))
            waiting = dataclasses.replace(runs[0].run, waiting={0: [9] * (steps - 1) + [5]})
            self.assertAlmostEqual(count_last_cars(site, runs[0].run), ends[0], 9)
            self.assertAlmostEqual(count_last_cars(site, waiting), ends[0] + 5, 9)
            more = round(abs(ends[1] - ends[0]))
            self.assertEqual(more > 2 * math.sqrt(min(ends)), has_queue)
            for day, bound in ((runs, "at least"), (runs[::-1], "at most")):
                late, other = ("with ALINEA", "without control")[::1 if bound == "at least" else -1]
                said = (f"The run ends too early: at its end the road {late} has {more} more cars than the road {other}. The figures of delay do not include "
                        "what these cars lose later: let the run end later.")
                found = {row.figure.key: (row.bound, row.words) for row in compare_runs(site, [day]) if row.bound or row.words}
                self.assertEqual(found, dict.fromkeys(["hours", "approach hours", "together"], (bound, (said,))) if has_queue else {})
                self.assertEqual(explain_queues(site, [day]), [said] * has_queue)

    def test_a_road_that_has_emptied(self) -> None:
        """No demand is left in the last eight minutes, so nobody is on the road at its end, and nobody waits, even if by chance more cars entered at the
        ramp than its demand."""
        empties = dataclasses.replace(SMALL, main=[(0.0, 600.0), (12.0, 0.0)], ramps=[(1.2, [(0.0, 400.0), (12.0, 0.0)])])
        with contextlib.redirect_stderr(io.StringIO()):
            site = make_site("small", empties, Control(ramp=1.2, detector=1.5, setpoint=8.0))
        days = run_days(site, range(1, 6))
        waiting = [count_demand(one.run.demands[1], 0, site.road.steps) - sum(number % 16 == 1 for number in one.run.trips.left) for day in days for one in day]
        self.assertLess(min(waiting), 0)
        self.assertEqual([count_last_cars(site, one.run) for day in days for one in day], [max(cars, 0) for cars in waiting])
        self.assertTrue(compare_runs(site, days))



if __name__ == "__main__":
    unittest.main()
