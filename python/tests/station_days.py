"""Make measured and simulated days of stations for tests, without a simulation: speeds and cars are given for each station and interval."""
from __future__ import annotations

from typing import Sequence

from zegdrut.measurements import Measured, Station
from zegdrut.measurements.congestion import JudgedDay
from zegdrut.measurements.counts_on_road import Series
from zegdrut.measurements.goodness_of_fit import Passed
from zegdrut.program.road_rows import Sums
from zegdrut.roads import Clock

INTERVAL = 300
Line = Sequence["float | None"]


def make_measured(speeds: Sequence[Line], cars: Sequence[Line] | None = None, interval: int = INTERVAL, lanes: int = 2) -> Measured:
    """Return a measured day of stations, 1.5 km apart. The first one gives the demand. Without cars each interval has 90."""
    counts = cars or [[90.0] * len(line) for line in speeds]
    main = [Series(Station(f"s{index}", 1.5 * index, lanes), list(counts[index]), list(line)) for index, line in enumerate(speeds)]
    return Measured(Clock.read("07:00"), interval, main, [])


def make_sums(speed: float | None, seconds: int = 1_000) -> Sums:
    """Return the sums of `seconds` steps of cars at a speed in km/h, or of a road without a car."""
    return Sums(0, 0, 100) if speed is None else Sums(seconds, round(seconds * speed / 27), 9_000)


def make_day(near: Sequence[Line], cars: Sequence[Sequence[int]] | None = None, on: Sequence[Sequence[Sums]] = ()) -> JudgedDay:
    """Return a simulated day with these space-mean speeds near each compared station, and these cars."""
    counts = cars or [[90] * len(line) for line in near]
    return JudgedDay([[Passed(number, speed) for number, speed in zip(counts[index], line)] for index, line in enumerate(near)],
                     [[make_sums(speed) for speed in line] for line in near], [list(line) for line in on])
