"""Measure the figures of a window of a run: travel time, delay, vehicle hours, admitted cars and counts.

    trips = Trips(lab.plan, sites=[200, 360])
    trips.follow(lab, "A", to=7_200)                     # call again with a later step: only new rows are read
    window = Window(1_800, 5_400)
    compute_vehicle_hours(trips, window), count_admitted_cars(trips, window), compute_travel_times(trips, window)
    compare_trips(before, after, window).delay_hours

A window is the steps `first` to `last` - 1. Step s leads from row s to row s + 1, so the rows of a window are `first` + 1 to
`last`. No figure of a window contains anything outside it. A step is a second.

- *Vehicle hours*: the cars on the road in each row of the window, one second each. On a road with an approach, those before km 0 and
  those from km 0 on are summed apart.
- *Admitted*: the cars that enter in the steps of the window.
- *Travel time*: the seconds from a car's step of entry to the step in which it leaves the road (or passes a site). The mean of a
  window is over the cars that leave (or pass) in it. By minute of entry, the mean is over the cars that entered in that
  minute and have left.
- *Delay* of a change: the time that cars spend on the road in the rows of the window, after minus before, over the cars that
  both roads admitted. Cars that only one road admitted have no delay: they belong to the lost demand. *Delay at a site* is
  how much later, on average, cars reach the site: the mean over the cars that entered in the window and passed on both roads by its end.
- *Counts*: the cars that pass a detector in the steps of the window in which it is on, and their time-mean speed.
"""
from __future__ import annotations

from collections import Counter
from dataclasses import dataclass, field
from typing import Iterable, Mapping, NamedTuple, Sequence

from ..base.units import HOUR, KMH
from ..base.wire import PlanLine
from ..program.lab import RoadLab
from ..program.records import Edit
from ..program.road_rows import FASTEST, count_cars

INLETS = 16
"""A car's number is its step of entry times this, plus its inlet."""
PIECE = 960
"""Rows that `Trips.follow` reads at a time."""
CHECKPOINT = 480
"""Rows between two checkpoints, to which `Trips.rewind` returns."""


class Window(NamedTuple):
    """The steps `first` to `last` - 1."""

    first: int
    last: int

    @property
    def steps(self) -> int:
        """Return the number of steps, which is the number of seconds."""
        return self.last - self.first


def entry_step(number: int) -> int:
    """Return the step in which a car enters."""
    return number // INLETS


def entry_inlet(number: int) -> int:
    """Return the index of the inlet where a car enters."""
    return number % INLETS


Sighting = tuple[int, int]
"""A car's number and cell."""


class Checkpoint(NamedTuple):
    """The state of `Trips` at a row: the cars on the road, by cell, and the numbers of cars that had entered and passed each site."""

    row: int
    cars: list[Sighting]
    entered: int
    passed: list[int]


@dataclass
class Trips:
    """Every car of a run: when it entered, when it passed each site and when it left; and the number of cars in each row.

    plan: the plan's line, as `RoadLab.plan` has it.
    sites: cells, such as those of detectors.
    first: the first row that is read. With a later row than 0, cars that left before are unknown.
    origin: the cell at km 0. Cars before it are on the approach, and are counted apart.

    A car is known once a row shows it. A car that enters in the last cell before the deleted zone may leave in the same step; it stays
    unknown."""

    plan: PlanLine
    sites: Sequence[int] = ()
    first: int = 0
    origin: int = 0
    left: dict[int, int | None] = field(default_factory=dict)
    """By a car's number: the step in which it left the road, or None while it is on it."""
    passed: list[dict[int, int]] = field(default_factory=list)
    """For each site, by a car's number: the step in which the car passed the site."""
    cars: list[int] = field(default_factory=list)
    """The number of cars in each row, from row `first` on."""
    on_approach: list[int] = field(default_factory=list)
    """Those of them on the approach."""
    _now: list[Sighting] = field(default_factory=list)
    """The cars on the road in the last row, by cell."""
    _checkpoints: list[Checkpoint] = field(default_factory=list)

    def __post_init__(self) -> None:
        self.passed = self.passed or [{} for _ in self.sites]
        if self.first == 0 and not self.cars:
            self._begin([], 0)

    @property
    def horizon(self) -> int:
        """Return the last row that was read; the one before `first` if none was."""
        return self.first + len(self.cars) - 1

    @property
    def initial(self) -> frozenset[int]:
        """Return the numbers of the cars in row `first`."""
        return frozenset(number for number, _ in self._checkpoints[0].cars) if self._checkpoints else frozenset()

    @property
    def end(self) -> int:
        """Return the first cell of the deleted zone."""
        return self.plan["length"] - self.plan["exit"]

    @property
    def spacing(self) -> int:
        """Return a number of steps in which no car can cross the road, so that rows this far apart show every car."""
        last_inlet = max((cell for cell, _ in self.plan["inlets"]), default=0)
        return max((self.end - last_inlet) // FASTEST, 1)

    def sightings(self, to: int) -> list[int]:
        """Return the rows whose cars `read` needs to continue to row `to`."""
        start = [self.first] if self.horizon < self.first else []
        begin = max(self.horizon, self.first)
        return [*start, *range(begin + self.spacing, to, self.spacing), *([to] if to > begin else [])]

    def follow(self, lab: RoadLab, at: str, to: int) -> None:
        """Read the run of the replica `at` up to row `to`, which it has simulated."""
        while self.horizon < to:
            begin = max(self.horizon, self.first)
            end = min(to, begin + PIECE)
            rows = lab.diagram(at, begin, end)
            self.read({step: [(car.number, car.cell) for car in lab.cars(at, step)] for step in self.sightings(end)}, rows)

    def read(self, seen: Mapping[int, Sequence[Sighting]], rows: Sequence[str]) -> None:
        """Continue with the cars of the rows that `sightings` names, in rising cells, and all rows from the horizon to the last of them.

        ArithmeticError: the cars and the rows do not belong to one run."""
        start = max(self.horizon, self.first)
        if self.horizon < self.first:
            self._begin(seen[self.first], count_cars(rows[0]))
        if count_cars(rows[0]) != self.cars[-1]:
            raise ArithmeticError(f"row {start} has {count_cars(rows[0])} cars, and had {self.cars[-1]} before")
        for step in sorted(step for step in seen if step > start):
            self._read_between(rows[self.horizon - start:step - start + 1], list(seen[step]))

    def rewind(self, step: int) -> None:
        """Drop what follows row `step`, because an edit changed it. `follow` then reads those rows again.

        It returns to the last checkpoint at or before that row, so that fewer than `CHECKPOINT` + `PIECE` rows are read twice."""
        if step >= self.horizon:
            return
        while len(self._checkpoints) > 1 and self._checkpoints[-1].row > step:
            self._checkpoints.pop()
        mark = self._checkpoints[-1]
        # Dictionaries keep the order of insertion, so what came after the checkpoint is at the end.
        while len(self.left) > mark.entered:
            self.left.popitem()
        for steps, known in zip(self.passed, mark.passed):
            while len(steps) > known:
                steps.popitem()
        self.left.update((number, None) for number, _ in mark.cars)
        del self.cars[mark.row - self.first + 1:], self.on_approach[mark.row - self.first + 1:]
        self._now = mark.cars

    def _begin(self, cars: Sequence[Sighting], count: int) -> None:
        if len(cars) != count:
            raise ArithmeticError(f"row {self.first} has {count} cars, and {len(cars)} were given")
        self._now, self.cars, self.on_approach = list(cars), [count], [sum(cell < self.origin for _, cell in cars)]
        self.left.update((number, None) for number, _ in cars)
        self._keep_checkpoint()

    def _keep_checkpoint(self) -> None:
        self._checkpoints.append(Checkpoint(self.horizon, self._now, len(self.left), [len(steps) for steps in self.passed]))

    def _read_between(self, rows: Sequence[str], now: list[Sighting]) -> None:
        """Continue from the last known row, which is `rows[0]`, to the last of `rows`, whose cars are `now`."""
        begin, counts = self.horizon, [count_cars(row) for row in rows]
        before, there = dict(self._now), dict(now)
        new = [number for number, _ in now if number not in before]
        entries = Counter(map(entry_step, new))
        leaving = [counts[row] + entries[begin + row] - counts[row + 1] for row in range(len(rows) - 1)]
        gone = [number for number, _ in reversed(self._now) if number not in there]
        steps = [begin + row for row, number in enumerate(leaving) for _ in range(number)]
        if len(gone) != len(steps) or min(leaving, default=0) < 0:
            raise ArithmeticError(f"{len(gone)} cars left between rows {begin} and {begin + len(rows) - 1}, "
                                  f"but the rows show {sum(leaving)}")
        self.left.update(dict.fromkeys(new))
        self.left.update(zip(gone, steps))
        inlets = [cell for cell, _ in self.plan["inlets"]]
        for index, site in enumerate(self.sites):
            upstream = {number for number, cell in self._now if cell < site}
            upstream.update(number for number in new if inlets[entry_inlet(number)] < site)
            passing = [number for number in [*gone, *(number for number, cell in reversed(now) if cell >= site)]
                       if number in upstream]
            times = [begin + row for row in range(len(rows) - 1)
                     for _ in range(count_passings(rows[row], rows[row + 1], site, leaving[row], self.end))]
            if len(passing) != len(times):
                raise ArithmeticError(f"{len(passing)} cars passed cell {site} after row {begin}, but the rows show {len(times)}")
            self.passed[index].update(zip(passing, times))
        self._now = now
        self.cars += counts[1:]
        self.on_approach += [count_cars(row[:self.origin]) for row in rows[1:]]
        if self.horizon - self._checkpoints[-1].row >= CHECKPOINT:
            self._keep_checkpoint()


def count_passings(row: str, following: str, site: int, leaving: int, end: int) -> int:
    """Return how many cars pass a site between two rows of a road whose deleted zone begins at cell `end`.

    A car passes if it is downstream of the site and came from upstream of it, or if it is one of the `leaving` cars and was before it."""
    seen = sum(character.isdigit() and ahead < int(character) for ahead, character in enumerate(following[site:site + FASTEST]))
    if leaving and site + FASTEST > end:
        places = [cell for cell, character in enumerate(row) if character.isdigit()][-leaving:]
        seen += sum(cell < site for cell in places)
    return seen


# Figures of one road

def count_vehicle_steps(trips: Trips, window: Window) -> int:
    """Return the cars on the road in all rows of a window together."""
    return sum(cut_rows(trips, trips.cars, window))


def count_approach_steps(trips: Trips, window: Window) -> int:
    """Return the cars on the approach in all rows of a window together."""
    return sum(cut_rows(trips, trips.on_approach, window))


def cut_rows(trips: Trips, numbers: Sequence[int], window: Window) -> Sequence[int]:
    """Return those of the numbers of all rows that belong to a window."""
    return numbers[max(window.first + 1 - trips.first, 0):max(window.last + 1 - trips.first, 0)]


def compute_vehicle_hours(trips: Trips, window: Window) -> float:
    """Return the vehicle hours of a window."""
    return count_vehicle_steps(trips, window) / HOUR


def count_admitted_cars(trips: Trips, window: Window) -> list[int]:
    """Return the number of cars that each inlet admits in a window."""
    found = [0] * len(trips.plan["inlets"])
    for number in trips.left:
        found[entry_inlet(number)] += window.first <= entry_step(number) < window.last
    return found


class TravelTime(NamedTuple):
    """The number of some cars, and the sum of their travel times in seconds."""

    cars: int
    seconds: int

    @property
    def mean(self) -> float | None:
        """Return the seconds per car, or None without a car."""
        return self.seconds / self.cars if self.cars else None


def list_sites(trips: Trips) -> list[int | None]:
    """Return the indexes of all sites, and last None for the road's end."""
    return [*range(len(trips.sites)), None]


def find_arrivals(trips: Trips, site: int | None) -> Mapping[int, int | None]:
    """Return, by a car's number, the steps in which cars passed a site, or left the road if `site` is None."""
    if site is None:
        return trips.left
    arrivals: Mapping[int, int | None] = trips.passed[site]
    return arrivals


def compute_travel_time(trips: Trips, window: Window, site: int | None, inlet: int | None = None) -> TravelTime:
    """Return the travel times to a site, or to the road's end if `site` is None, of the cars that arrive there in the window. With
    `inlet` only cars from that inlet count."""
    times = [step - entry_step(number) for number, step in find_arrivals(trips, site).items()
             if step is not None and window.first <= step < window.last and inlet in (None, entry_inlet(number))]
    return TravelTime(len(times), sum(times))


def compute_travel_times(trips: Trips, window: Window, inlet: int | None = None) -> list[TravelTime]:
    """Return the travel times to each site, and last to the road's end."""
    return [compute_travel_time(trips, window, site, inlet) for site in list_sites(trips)]


def compute_travel_times_by_entry(trips: Trips, window: Window, period: int = 60) -> dict[int, list[TravelTime]]:
    """Return the travel times to each site and to the road's end for each `period` steps of entry, by the first of these steps.

    Each has the cars that entered in those steps and arrived by the window's end."""
    found: dict[int, list[list[int]]] = {}
    for place, site in enumerate(list_sites(trips)):
        for number, step in find_arrivals(trips, site).items():
            entry = entry_step(number)
            if step is not None and window.first <= entry and step < window.last:
                key = window.first + (entry - window.first) // period * period
                sums = found.setdefault(key, [[0, 0] for _ in range(len(trips.sites) + 1)])[place]
                sums[0] += 1
                sums[1] += step - entry
    return {key: [TravelTime(*sums) for sums in found[key]] for key in sorted(found)}


def count_seconds_in(trips: Trips, number: int, window: Window) -> int:
    """Return the seconds that a car spends on the road in the rows of a window."""
    left = trips.left[number]
    last = trips.horizon if left is None else left
    return max(min(last, window.last) - max(entry_step(number), window.first), 0)


# Figures of two roads

@dataclass(frozen=True)
class TripsCompared:
    """The cost of a change in a window, by the definitions at the head of this module."""

    cars: int
    """Cars that both roads admitted by the window's end and that spend time in the window on at least one of them."""
    delay: int
    """The seconds of all these cars together, after minus before."""
    at_sites: list[TravelTime]
    """For each site, and last for the road's end: the cars, and by how many seconds they arrive later."""
    admitted: tuple[list[int], list[int]]
    """The cars that each inlet admits, before and after."""
    vehicle_hours: tuple[float, float]
    """The vehicle hours before and after."""

    @property
    def delay_hours(self) -> float:
        """Return the delay in vehicle hours."""
        return self.delay / HOUR


def compute_delay(before: Trips, after: Trips, window: Window) -> TravelTime:
    """Return how many of the cars that both roads admitted spend time in the window, and their seconds there, after minus before."""
    times = [(count_seconds_in(before, number, window), count_seconds_in(after, number, window))
             for number in before.left.keys() & after.left.keys() if entry_step(number) < window.last]
    return TravelTime(sum(first + second > 0 for first, second in times), sum(second - first for first, second in times))


def compute_delay_at(before: Trips, after: Trips, window: Window, site: int | None) -> TravelTime:
    """Return how much later cars arrive at a site, or at the road's end if `site` is None: the cars, and their seconds together."""
    early, late = find_arrivals(before, site), find_arrivals(after, site)
    found = [second - first for number, first in early.items() if (second := late.get(number)) is not None and first is not None
             and max(first, second) < window.last and entry_step(number) >= window.first]
    return TravelTime(len(found), sum(found))


def compare_trips(before: Trips, after: Trips, window: Window) -> TripsCompared:
    """Compare two runs of one plan and seed in a window. Cars with the same number are the same car."""
    delay = compute_delay(before, after, window)
    return TripsCompared(delay.cars, delay.seconds, [compute_delay_at(before, after, window, site) for site in list_sites(before)],
                         (count_admitted_cars(before, window), count_admitted_cars(after, window)),
                         (compute_vehicle_hours(before, window), compute_vehicle_hours(after, window)))


# Detectors

class DetectorCount(NamedTuple):
    """The count of a detector in a window."""

    cars: int
    speeds: int
    """The sum of the cars' speeds, in cells per step."""
    seconds_on: int
    """The seconds of the window in which the detector was on."""
    seconds: int
    """The seconds of the window."""

    @property
    def flow(self) -> float | None:
        """Return the cars per hour of the time in which the detector was on, or None if it was off throughout."""
        return self.cars * HOUR / self.seconds_on if self.seconds_on else None

    @property
    def time_mean_speed(self) -> float | None:
        """Return the mean speed of the cars that passed, in km/h, or None without a car."""
        return self.speeds / self.cars * KMH if self.cars else None

    @property
    def was_off(self) -> bool:
        """Return whether the detector was off for a part of the window."""
        return self.seconds_on < self.seconds


def count_seconds_on(edits: Iterable[Edit], detector: int, window: Window) -> int:
    """Return the number of steps of a window in which a detector is on, under the winning edits, as `RoadLab.scenario` returns them."""
    changes = sorted((edit.step, edit.value) for edit in edits if edit.object == ("watch", detector) and edit.value is not None)
    total, since, is_on = 0, 0, 1
    for step, value in [*changes, (window.last, 1)]:
        if is_on:
            total += max(min(step, window.last) - max(since, window.first), 0)
        since, is_on = step, value
    return total


def count_detector(lab: RoadLab, at: str, detector: int, window: Window) -> DetectorCount:
    """Return what a detector, by its index, counted in a window at the replica `at`."""
    found = lab.count(at, detector, window.first, window.last)
    return DetectorCount(found.cars, found.speeds, count_seconds_on(lab.scenario(at), detector, window), window.steps)
