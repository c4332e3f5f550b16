"""Give tests of measured counts what several of them use."""
from __future__ import annotations

import statistics
import subprocess
from pathlib import Path

from checked import Checked
from zegdrut.measurements.congestion import TravelTimes
from zegdrut.measurements.goodness_of_fit import Passed

ALWAYS = 65_536


def passed(cars: int, speeds: int) -> Passed:
    return Passed(cars, speeds / cars * 27 if cars else None)


def drive(names: list[str], bounds: list[int], speeds: dict[str, list[float | None]], steps: int) -> dict[int, float]:
    """Return the travel time of each car that departs each minute, arrives in some steps, and has a speed all the way: it moves on for a tenth
    of a second at a time."""
    found = {}
    for departure in range(0, steps, 60):
        tenths, metres = departure * 10, bounds[0] * 7.5
        while tenths < steps * 10 and metres < bounds[-1] * 7.5:
            speed = speeds[names[sum(metres >= bound * 7.5 for bound in bounds) - 1]][tenths // 3_000]
            if speed is None:
                break
            metres, tenths = metres + speed / 36, tenths + 1
        if metres >= bounds[-1] * 7.5:
            found[departure] = tenths / 10 - departure
    return found


class MeasuredChecks(Checked):
    """Checks that several tests share."""

    def run_recipe(self, *words: object) -> subprocess.CompletedProcess[str]:
        """Run a recipe; it must succeed."""
        ran = subprocess.run(list(map(str, words)), capture_output=True, text=True, check=False)
        self.check(f"{Path(str(words[0])).parent.name}/{Path(str(words[0])).name}", (ran.returncode, ran.stderr if ran.returncode else ""), (0, ""))
        return ran

    def check_times(self, name: str, found: TravelTimes | None, drives: list[dict[int, float]]) -> None:
        """Compare travel times with those of `drive`: measured, of all simulated cars, and simulated at stations."""
        common = sorted(set.intersection(*map(set, drives)))
        assert found is not None
        self.check(f"{name}: the departures", (found.number, found.last), (len(common), common[-1]))
        measured, by_cars, at_stations = ([times[departure] for departure in common] for times in drives)
        for place, simulated in enumerate((by_cars, at_stations)):
            for what, one, each in (("mean", found[2 * place], statistics.mean), ("longest", found[2 * place + 1], max)):
                for side, value, times in (("measured", one.measured, measured), ("simulated", one.simulated, simulated)):
                    self.check_near(f"{name}: {what} travel time, {side} {place}", value, each(times), 0.6)
