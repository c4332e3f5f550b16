"""Describe how sure the drivers of a calibrated road are: what `calibrate` writes into the field `calibration` of its file.

The field has the drivers that fit the measured counts as well within chance and cause the least and the most delay, and the flows that
leave the jams of the calibrated day, measured and simulated. The flow that leaves a jam decides how long queues last, also those of works: if works
leave a capacity c of a demand q for a time T, and their queue then leaves with a flow s, the delay is (q - c) (s - c) T^2 / (2 (s - q)). A closure has
the capacity 0.
"""
from __future__ import annotations

import math
from typing import NamedTuple, Sequence, cast

from ..base.argument_checks import is_number
from ..base.wire import Json

CHANCE_ERROR, MOST_ERROR = 2, 5.0
"""The error of a calibration that chance alone makes, about, and the error above which the road does not fit its counts."""
LEAVING_ERROR = 0.05
"""Flows that leave a jam agree if they differ by less. Counts are right to about this. In the shortest jam some 375 cars leave on a lane. If their
headways vary by half of the mean, this number varies by 0.5 / sqrt(375) = 2.6 % by chance, and 5 % are about twice that."""


class Alternative(NamedTuple):
    """Drivers that fit measured counts as well as those of the file, within chance: their slowing chance and slow-to-start chance, their
    demand divided by that of the file, and the delay that they cause on the calibrated day in vehicle hours per lane."""

    slowing: float
    start: float
    factor: float
    delay: float


class Leaving(NamedTuple):
    """The flow that leaves jams whose head is between a station and the next one, in cars per hour and lane: measured, and the mean of the
    simulated days with such a jam (None without one), with half its 95 % interval."""

    station: str
    following: str
    measured: float
    simulated: float | None
    half: float | None


class Calibrated(NamedTuple):
    """The delay that the drivers of the file cause on the calibrated day in vehicle hours per lane; of the other drivers that fit as well those
    with the least and the most delay (both None if no range is known); the flows that leave the jams of that day with the drivers of the file (None in a
    file of an earlier version); the delay of that day that is estimated from the speeds at its stations, measured and simulated; and the error of these
    drivers."""

    delay: float
    less: Alternative | None
    more: Alternative | None
    leaving: tuple[Leaving, ...] | None = None
    measured: float | None = None
    at_stations: float | None = None
    error: float | None = None


# In a file

def write_calibration(calibration: Calibrated) -> Json:
    """Return the field of a file."""
    less, more = (None if one is None else one._asdict() for one in (calibration.less, calibration.more))
    return {**calibration._asdict(), "less": less, "more": more, "leaving": [one._asdict() for one in calibration.leaving or ()]}


OPTIONAL = {"leaving", "measured", "at_stations", "error"}
"""The fields that may be missing."""


def read_calibration(value: Json) -> Calibrated | None:
    """Return what `calibrate` wrote, or None if a value is something else."""
    given = value if isinstance(value, dict) and set(value) | OPTIONAL == set(Calibrated._fields) else {"delay": None}
    both = [given.get("less"), given.get("more")]
    drivers = [one for one in both if isinstance(one, dict) and set(one) == set(Alternative._fields)]
    numbers = [given["delay"], *(one for name in ("measured", "at_stations", "error") if (one := given.get(name)) is not None),
               *(number for one in drivers for number in one.values())]
    flows = given.get("leaving", [])
    leaving = list(map(read_leaving, flows)) if isinstance(flows, list) else [None]
    if both not in ([None, None], drivers) or not all(is_number(number) and number >= 0 for number in numbers) or None in leaving:
        return None
    less, more = (Alternative(**cast("dict[str, float]", one)) for one in drivers) if drivers else (None, None)
    known = tuple(one for one in leaving if one is not None) if "leaving" in given else None
    return Calibrated(cast(float, given["delay"]), less, more, known,
                      *cast("list[float | None]", [given.get(name) for name in ("measured", "at_stations", "error")]))


def read_leaving(value: Json) -> Leaving | None:
    """Return a flow that leaves a jam, or None if a value is something else."""
    given = value if isinstance(value, dict) and set(value) == set(Leaving._fields) else {}
    station, following, measured, *drawn = (given.get(name) for name in Leaving._fields)
    if not isinstance(station, str) or not isinstance(following, str) or not is_number(measured) or measured <= 0:
        return None
    if not all(one is None or is_number(one) and one >= 0 for one in drawn):
        return None
    return Leaving(station, following, measured, *cast("list[float | None]", drawn))


# In sentences

NO_LEAVING = "calibration: the counts do not show the flow that leaves a jam, so nothing says whether queues of this road last as long as real ones"
OLD_FILE = "calibration: the file does not say whether queues of this road last as long as real ones: calibrate the road again"


def describe_calibration(calibration: Calibrated | None, days: int) -> list[str]:
    """Return sentences that say how sure the drivers of a calibrated road are, beside figures of some days: only those of several days have ±."""
    return [] if calibration is None else [
        *describe_misfit(calibration), f"calibration: {describe_delays(calibration)}{': ± does not include this' * (days > 1)}"]


def describe_queues(calibration: Calibrated | None) -> list[str]:
    """Return sentences that say whether queues of a calibrated road last as long as measured."""
    if calibration is None:
        return []
    return [OLD_FILE] if calibration.leaving is None else [f"calibration: {one}" for one in describe_leaving(calibration.leaving)] or [NO_LEAVING]


def describe_misfit(calibration: Calibrated) -> list[str]:
    """Return a sentence if the drivers of a file do not fit the counts."""
    return [] if calibration.error is None or calibration.error <= MOST_ERROR else [
        f"calibration: the error of the drivers of the file is {calibration.error:.1f}, but about {CHANCE_ERROR} is as good as chance allows: this road does "
        "not fit the counts of the calibrated day"]


def describe_delays(calibration: Calibrated) -> str:
    """Return the delays of the calibrated day: with drivers that fit equally well, from the least to the most, with those of the file, and those that are
    estimated from the speeds at stations."""
    what = "vehicle hours of delay per lane on the calibrated day"
    if calibration.less is None or calibration.more is None:
        parts = [f"no range of the delay is known. {calibration.delay:.1f} {what} by the drivers of the file"]
    else:
        low, *_, high = sorted((calibration.delay, calibration.less.delay, calibration.more.delay))
        parts = [f"{low:.1f} to {high:.1f} {what} by drivers that fit its counts equally well within chance", f"{calibration.delay:.1f} by those of the file"]
    said = ", and ".join(parts)
    if calibration.measured is None or calibration.at_stations is None:
        return said
    return f"{said} (estimated from speeds at stations: {calibration.measured:.1f} measured, and {calibration.at_stations:.1f} by the drivers of the file)"


def compare_delays(one: Leaving, demand: float, capacity: float) -> float | None:
    """Return the delay of works on the simulated road divided by that with the measured flow out of their queue, for a demand and a capacity in cars per
    hour: infinity if only the simulated queue never ends. None: there is no queue, or it would never end."""
    if one.simulated is None or not capacity < demand < one.measured:
        return None
    if one.simulated <= demand:
        return math.inf
    simulated, measured = ((flow - capacity) / (flow - demand) for flow in (one.simulated, one.measured))
    return simulated / measured


def describe_leaving(found: Sequence[Leaving]) -> list[str]:
    """Return a sentence for each flow that leaves a jam, with what follows for the queues of the simulated road."""
    return [f"flow that leaves the jam at station {one.station}, counted at station {one.following}: {one.measured:,.0f} cars/h per lane measured, "
            f"{compare_queues(one)}" for one in found]


def compare_queues(one: Leaving) -> str:
    """Return the simulated flow that leaves a jam, and what follows for queues."""
    if one.simulated is None:
        return "and no simulated day has a jam there"
    ratio = one.simulated / one.measured
    verdict = (f"they agree within {100 * LEAVING_ERROR:.0f} %" if abs(ratio - 1) <= LEAVING_ERROR else
               "queues of this road last too " + ("long, so works cost too much on it" if ratio < 1 else "short, so works cost too little on it"))
    return f"{one.simulated:,.0f}{'' if one.half is None else f' ± {one.half:,.0f}'} simulated: {verdict}"
