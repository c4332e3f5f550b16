"""Measure what a change costs: the delay of cars between two runs of one plan.

    from zegdrut.figures import Trips, compare_delays, to_vehicle_hours

    before, after = Trips(lab.plan), Trips(lab.plan)
    before.follow(lab, "A", 3_600)
    lab.edit("A", ("block", 200), step=1_200, value=1)
    lab.edit("A", ("block", 200), step=1_500, value=0)
    after.follow(lab, "A", 3_600)
    cost = compare_delays(before, after)
    print(cost.through.mean, "steps per car,", to_vehicle_hours(cost.total), "vehicle hours")

A car's number is its step of entry times 16, plus its inlet, and its random words depend on its number. So cars with the same number are
the same car in both runs. The travel time of a car is the number of rows in which it is on the road. A car that enters in step 5 and
leaves in step 105 is in the rows of the steps 6 to 105, so its travel time is 100 steps.
"""
from __future__ import annotations

from dataclasses import dataclass
from typing import Callable, Iterable, NamedTuple

from ..base.units import HOUR
from .trips import Trips, entry_inlet, entry_step


def to_vehicle_hours(steps: int, seconds: float = 1.0) -> float:
    """Convert steps of cars to vehicle hours, for steps of this many seconds."""
    return steps * seconds / HOUR


def travel_steps(trips: Trips, number: int) -> int:
    """Return the number of rows of a run in which a car is on the road; 0 if the run has no such car."""
    if number not in trips.left:
        return 0
    left = trips.left[number]
    return (trips.horizon if left is None else left) - entry_step(number)


def is_through(trips: Trips, number: int) -> bool:
    """Return whether a car has left the road by the last row of a run."""
    return trips.left[number] is not None


class Group(NamedTuple):
    """Some cars: the sums of their travel times before and after, and the largest delay of one car, all in steps."""

    cars: int
    before: int
    after: int
    greatest: int | None

    @property
    def delay(self) -> int:
        """Return the delay of all these cars together, in steps. It is negative if they gained time."""
        return self.after - self.before

    @property
    def mean(self) -> float | None:
        """Return the delay in steps per car, or None without a car."""
        return self.delay / self.cars if self.cars else None


class Entries(NamedTuple):
    """The cars that entered in a period: those that left the road in both runs, and how many entered only in the first run
    (`lost`) and only in the second (`gained`)."""

    through: Group
    lost: int
    gained: int


class Entered(NamedTuple):
    """The number of cars that entered at an inlet: in the first run, in the second, only in the first, and only in the second."""

    before: int
    after: int
    lost: int
    gained: int


@dataclass(frozen=True)
class Delay:
    """The cost of a change in steps. Each car is in one of the groups `through`, `inside`, `lost` and `gained`."""

    through: Group
    """Cars that left the road in both runs."""
    delayed: Group
    """Those of them that took longer in the second run. They are counted in `through`, too."""
    inside: Group
    """Cars of both runs that are still on the road in one of them: their travel times up to the last row."""
    lost: Group
    """Cars that entered only in the first run."""
    gained: Group
    """Cars that entered only in the second run."""
    periods: dict[int, Entries]
    """The cars by their period of entry, whose number is the key. Periods without a car are left out."""
    inlets: dict[int, Entered]
    """The cars by the inlet's index. Inlets without a car are left out."""
    by_rows: int
    """The cars on the road in all rows of the second run, minus those of the first."""

    @property
    def total(self) -> int:
        """Return the additional steps that all cars spent on the road in the second run. It equals `by_rows`."""
        return sum(group.delay for group in (self.through, self.inside, self.lost, self.gained))


def compare_delays(before: Trips, after: Trips, period: int = 60, begin: int = 0) -> Delay:
    """Compare two runs of one plan over the same rows, with the entries in periods of `period` steps that are counted from step `begin` on.

    The first row is 0, or a row before the change has an effect; cars that left earlier are then in no group.
    ValueError: the two runs have different rows, or different cars in the first row.
    ArithmeticError: the travel times do not add up to the cars in the rows, so the trips are not those of two runs.
    """
    for end, one, other in (("begins", before.first, after.first), ("ends", before.horizon, after.horizon)):
        if one != other:
            raise ValueError(f"one run {end} at row {one}, the other at row {other}: follow both over the same rows")
    if before.initial != after.initial:
        raise ValueError(f"the runs differ before row {before.first}: begin at an earlier row")

    def group(numbers: Iterable[int]) -> Group:
        times = [(travel_steps(before, number), travel_steps(after, number)) for number in numbers]
        return Group(len(times), sum(first for first, _ in times), sum(second for _, second in times),
                     max((second - first for first, second in times), default=None))

    both = before.left.keys() & after.left.keys()
    lost, gained = before.left.keys() - both, after.left.keys() - both
    through = {number for number in both if is_through(before, number) and is_through(after, number)}

    def entries(numbers: list[int]) -> Entries:
        return Entries(group(through.intersection(numbers)), len(lost.intersection(numbers)), len(gained.intersection(numbers)))

    def entered(numbers: list[int]) -> Entered:
        return Entered(len(before.left.keys() & numbers), len(after.left.keys() & numbers),
                       len(lost.intersection(numbers)), len(gained.intersection(numbers)))

    every = sorted(before.left.keys() | after.left.keys())
    delayed = {number for number in through if travel_steps(after, number) > travel_steps(before, number)}
    cost = Delay(
        group(through), group(delayed), group(both - through), group(lost), group(gained),
        {key: entries(numbers) for key, numbers in group_by(every, lambda number: (entry_step(number) - begin) // period).items()},
        {key: entered(numbers) for key, numbers in group_by(every, entry_inlet).items()},
        sum(after.cars) - sum(before.cars))
    if cost.total != cost.by_rows:
        raise ArithmeticError(f"the travel times add up to {cost.total} steps, but the rows to {cost.by_rows}")
    return cost


def group_by(numbers: Iterable[int], key: Callable[[int], int]) -> dict[int, list[int]]:
    """Group numbers by their keys. The keys rise."""
    groups: dict[int, list[int]] = {}
    for number in numbers:
        groups.setdefault(key(number), []).append(number)
    return dict(sorted(groups.items()))
