"""Estimate means of days with their 95 % intervals, by Student's t.

    one = estimate_mean([3.1, 2.7, 3.4])             one.mean, one.half, one.low, one.high
    difference = estimate_paired(before, after)      after minus before, day by day
    wider = estimate_unpaired(before, after)         the same, as if the days did not belong together

Days are assumed to be independent and their mean to be normally distributed. This is nearly so for a figure that sums over
many cars.
"""
from __future__ import annotations

import functools
import math
from typing import NamedTuple, Sequence

LEVEL = 0.95
FEW_DAYS = 5
"""With fewer days an interval is wide because little is known about how much days differ."""


class Estimate(NamedTuple):
    """A mean, and half the width of its interval."""

    mean: float
    half: float

    @property
    def low(self) -> float:
        """Return the lower end of the interval."""
        return self.mean - self.half

    @property
    def high(self) -> float:
        """Return the upper end of the interval."""
        return self.mean + self.half


def student_probability(t: float, freedom: int) -> float:
    """Return the probability that a Student-distributed number is between -t and t, for `freedom` degrees of freedom.

    Computed by the finite sums of Abramowitz and Stegun, 26.7.3 and 26.7.4.
    """
    angle = math.atan2(t, math.sqrt(freedom))
    square, is_odd = math.cos(angle) ** 2, freedom % 2
    term = math.cos(angle) if is_odd else 1.0
    total = 0.0
    for k in range(1 + is_odd, freedom, 2):
        total += term
        term *= square * k / (k + 1)
    total *= math.sin(angle)
    return (angle + total) * 2 / math.pi if is_odd else total


@functools.cache
def find_quantile(freedom: int, level: float = LEVEL) -> float:
    """Return the t for which a Student-distributed number is between -t and t with probability `level`, to ten digits."""
    low, high = 0.0, 1.0
    while student_probability(high, freedom) < level:
        high *= 2
    while high - low > 1e-11 * high:
        middle = (low + high) / 2
        low, high = (middle, high) if student_probability(middle, freedom) < level else (low, middle)
    return high


def sum_squared_deviations(values: Sequence[float]) -> float:
    """Return the sum of the squared deviations of the values from their mean."""
    mean = math.fsum(values) / len(values)
    return math.fsum((value - mean) ** 2 for value in values)


def estimate_mean(values: Sequence[float]) -> Estimate:
    """Return the mean of independent values with its interval. ValueError: there are fewer than two."""
    days = len(values)
    if days < 2:
        raise ValueError(f"an interval needs two days or more, not {days}")
    deviation = math.sqrt(sum_squared_deviations(values) / (days - 1) / days)
    return Estimate(math.fsum(values) / days, find_quantile(days - 1) * deviation)


def average_known(values: Sequence[float | None]) -> float | None:
    """Return the mean of the values that are not None, or None if all are."""
    known = [value for value in values if value is not None]
    return math.fsum(known) / len(known) if known else None


def may_be_chance(difference: Estimate) -> bool:
    """Return whether the interval of a difference contains 0. False if the values do not differ on any day."""
    return difference.half > 0 and abs(difference.mean) <= difference.half


CHANCE = "may be chance"


def describe_chance(difference: Estimate) -> str:
    """Return a remark on a difference whose interval contains 0; an empty string for any other."""
    return CHANCE if may_be_chance(difference) else ""


def warn_few_days(days: int) -> list[str]:
    """Return a warning if there are so few days that their intervals are wide."""
    if not 2 <= days < FEW_DAYS:
        return []
    return [f"{days} days are few: ± is then {find_quantile(days - 1):.1f} standard errors of the mean (2.0 for many days). "
            f"Use {FEW_DAYS} days or more"]


def estimate_paired(before: Sequence[float], after: Sequence[float]) -> Estimate:
    """Return the mean of `after` minus `before`, paired day by day, with its interval."""
    return estimate_mean([late - early for early, late in zip(before, after, strict=True)])


def estimate_unpaired(before: Sequence[float], after: Sequence[float]) -> Estimate:
    """Return the mean of `after` minus `before` with the interval for independent days, from their pooled variance."""
    days = len(before)
    variance = (sum_squared_deviations(before) + sum_squared_deviations(after)) / (2 * days - 2)
    return Estimate(estimate_paired(before, after).mean, find_quantile(2 * days - 2) * math.sqrt(2 * variance / days))


def count_opposite(differences: Sequence[float]) -> int:
    """Return the number of days whose difference has the opposite sign of the mean difference."""
    total = math.fsum(differences)
    return sum(one * total < 0 for one in differences)
