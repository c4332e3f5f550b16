"""Convert measured counts to series of intervals along a road of one lane, per lane and in the window of a run.

The model has one lane. Counts of a main-line station are divided by its lanes. Counts of an on-ramp are divided by the lanes of the next
main-line station downstream, so that the flow per lane after the ramp is right. The model has no off-ramps: if the flow falls downstream
by more than counting error, only the stations upstream are compared.
"""
from __future__ import annotations

import datetime
import math
from collections import Counter
from dataclasses import dataclass, field, replace
from typing import Iterable, NamedTuple, Sequence

from ..base.errors import Fault
from ..base.units import HOUR, count_things
from ..roads.clock import Clock
from ..roads.demand import Rates
from .stations import LEAST_FACTOR, MOST_LISTED, Counts, Row, Station, note_lines

SUSPICIOUS = 10
"""A zero between two intervals with at least this many cars per lane is a fault of the detector."""
MOST_FLOW = 3_000.0
"""The highest plausible flow in cars per hour and lane. Higher flows count as missing."""
COUNTING_ERROR = 0.05
"""The share of the flow that counting errors may lose between two stations."""
RAMP_ERROR, MAIN_ERROR = 0.2, 0.02
"""A ramp station is not named if its count differs by less of itself from the rise of the flow, or by less of the main flow: two good stations
may differ so much."""
LONGEST_SHIFT, SHORTEST_SHIFT = 7_200, 600
"""The most and the fewest seconds that a clock is found to be wrong. Cars take less than this from one station to the next."""
LEAST_GAIN = 2.0
"""Counts fit clearly better at other times if their misfit is smaller by this factor."""
LEAST_FALL, LEAST_FAR_GAIN = 0.75, 1.25
"""If both stations are on one side, the misfit to the nearer one must also fall by so much, and that to the other by this factor."""
A_DAY, FARTHEST_ROW = 86_400, 3_600
"""The seconds of a day, and those from the window to the farthest row with which a demand is interpolated."""
TIME_MEAN, SPACE_MEAN = "time-mean", "space-mean"
"""What measured speeds may be: the mean over the cars that pass a station, or the mean over the cars on the road there, such as a harmonic mean or
flow / density."""
FEWEST_PAIRS = 12
"""The fewest intervals in which two stations are compared."""


@dataclass(frozen=True)
class Series:
    """The cars per lane and the mean speeds in km/h of a station, for each interval. None is a missing value."""

    station: Station
    cars: list[float | None]
    speeds: list[float | None]
    outside: tuple[tuple[int, float], ...] = ()
    """The places and cars of the intervals that were counted in the hour before the window and in the hour after it."""

    @property
    def total(self) -> float:
        """Return the cars per lane in all intervals that are not missing."""
        return math.fsum(one for one in self.cars if one is not None)


@dataclass(frozen=True)
class Measured:
    """The series of the main line, in the order of the road, and of the on-ramps. Intervals last `interval` seconds. The first one begins
    with the clock."""

    clock: Clock
    interval: int
    main: list[Series]
    ramps: list[Series]
    notes: list[str] = field(default_factory=list)
    cut: str = ""
    """Why stations downstream of the last one are not compared, if there are any."""
    mean: str = TIME_MEAN
    """What the speeds are. Simulated speeds are compared as the same mean."""

    @property
    def intervals(self) -> int:
        """Return the number of intervals."""
        return len(self.main[0].cars)

    def demand(self) -> Rates:
        """Return the main demand per lane from the first station, as (step, cars per hour). Missing intervals are interpolated."""
        return make_rates(self.main[0], self.interval)

    def ramp_demands(self) -> list[tuple[float, Rates]]:
        """Return the km and the demand per main-line lane of each on-ramp station."""
        return [(one.station.km, make_rates(one, self.interval)) for one in self.ramps]


def make_rates(series: Series, interval: int) -> Rates:
    """Convert a series to a demand over time in steps and cars per hour. Fault: all intervals are missing."""
    known = sorted([*series.outside, *((place, cars) for place, cars in enumerate(series.cars) if cars is not None)])
    if len(known) == len(series.outside):
        raise Fault(f"station {series.station.name} has no count in the window, so its demand is unknown: check its times and begin of the road")
    found: Rates = []
    for place in range(len(series.cars)):
        before = max((one for one in known if one[0] <= place), default=known[0])
        after = min((one for one in known if one[0] >= place), default=known[-1])
        part = (place - before[0]) / (after[0] - before[0]) if after[0] != before[0] else 0.0
        found.append((place * interval, (before[1] + part * (after[1] - before[1])) * HOUR / interval))
    return found


class PlacedRow(NamedTuple):
    """A row, and the step at which its interval begins."""

    row: Row
    step: int


def find_interval(counts: Counts, clock: Clock) -> int:
    """Return the seconds between the rows of a station. Fault: they are not whole minutes that divide an hour."""
    gaps: Counter[int] = Counter()
    for name in counts.stations:
        steps = sorted(find_step(clock, row) for row in counts.rows if row.station == name)
        gaps.update(after - before for before, after in zip(steps, steps[1:]) if after > before)
    if not gaps:
        raise Fault(f"{counts.path}: no station has two intervals: the length of an interval is unknown")
    interval = gaps.most_common(1)[0][0]
    if interval % 60 or HOUR % interval:
        raise Fault(f"{counts.path}: intervals of {interval / 60:g} minutes do not divide an hour: use 1, 5, 10, 15, 20, 30 or 60 minutes")
    return interval


def find_step(clock: Clock, row: Row) -> int:
    """Return the step of the time of a row. It is negative before the beginning of the run."""
    return clock.find_step(find_moment(clock, row))


def check_one_day(counts: Counts, clock: Clock) -> None:
    """Check the dates. Fault: the rows have several dates and the clock has none."""
    dates = sorted({row.time.date() for row in counts.rows if isinstance(row.time, datetime.datetime)})
    if clock.date is None and len(dates) > 1:
        raise Fault(f'{counts.path} has {len(dates)} dates, {dates[0]} to {dates[-1]}: choose one in the file of the road: "date": "{dates[0]}"')


def put_on_road(counts: Counts, clock: Clock, seconds: int, origin: float | None = None, is_reversed: bool = False,
                checks_ramps: bool = True, gives_demand: bool = True) -> Measured:
    """Place counts on a road whose run begins when the clock does, and lasts `seconds`.

    origin: the km of the station table that is km 0 of the road. The default is 0, or the first main-line station if the table has miles
    or is reversed. is_reversed: km decrease in the direction of travel. checks_ramps: compare no station after which the flow has fallen. gives_demand: the
    first station and those of ramps give the demand, so notes say where it is not known.

    Fault: the counts do not fit the run, or nothing is left to compare."""
    check_one_day(counts, clock)
    interval = find_interval(counts, clock)
    if seconds < interval:
        raise Fault(f"minutes: the run of {seconds / 60:g} minutes is shorter than an interval of the counts, {interval / 60:g} minutes")
    if seconds % interval:
        raise Fault(f"the run of {seconds / 60:g} minutes does not consist of whole intervals of {interval / 60:g} minutes: change `minutes`")
    sign = -1 if is_reversed else 1
    main = sorted((one for one in counts.stations.values() if not one.is_ramp), key=lambda one: sign * one.km)
    if not main:
        raise Fault(f"{counts.path}: no station is on the main line: mark at least two with type ML")
    start = origin if origin is not None else main[0].km if main[0].is_mile or is_reversed else 0.0
    notes: list[str] = []
    placed: dict[str, list[PlacedRow]] = {name: [] for name in counts.stations}
    for placed_row in place_rows(counts, clock, notes):
        placed[placed_row.row.station].append(placed_row)
    check_clock_changes(counts, clock, seconds, notes)
    check_window(counts, clock, seconds, placed)
    found: list[Series] = []
    for station in counts.stations.values():
        here = station._replace(km=round(sign * (station.km - start), 4))
        lanes = station.lanes
        if station.is_ramp:
            lanes = find_lanes_downstream(station, main, sign)
        found.append(make_series(counts, here, placed[station.name], lanes, interval, seconds, clock, notes))
    lines = sorted((one for one in found if not one.station.is_ramp), key=lambda one: one.station.km)
    ramps = sorted((one for one in found if one.station.is_ramp), key=lambda one: one.station.km)
    lanes_differ = sorted({one.station.lanes for one in lines})
    if len(lanes_differ) > 1:
        notes.append(f"the stations have {' and '.join(map(str, lanes_differ))} lanes: the model has one lane, so it cannot show how the flow "
                     "per lane changes with the number of lanes")
    clocks = find_wrong_clocks(lines, interval)
    known, cut, doubts = cut_at_exit([one for one in lines if one.station.name not in clocks], ramps) if checks_ramps else (lines, "", [])
    upstream = [one for one in lines if one.station.km <= known[-1].station.km] if cut else lines
    notes += [*clocks.values(), *doubts, *([cut] if cut else [])]
    joining = [one for one in ramps if one.station.km < upstream[-1].station.km]
    for one in (upstream[0], *joining) if gives_demand else ():
        note_interpolated(one, clock, interval, notes)
    return Measured(clock, interval, upstream, joining, [*counts.notes, *notes], cut)


def check_window(counts: Counts, clock: Clock, seconds: int, placed: dict[str, list[PlacedRow]]) -> None:
    """Check that a row is in the window. Fault: none is. The message has the times of the window and of the rows."""
    steps = sorted(one.step for rows in placed.values() for one in rows)
    if steps and not any(0 <= step < seconds for step in steps):
        first, last = (clock.to_date_text(step) for step in (steps[0], steps[-1]))
        raise Fault(f"{counts.path}: no row is in the window of the road, {clock.to_date_text(0)} to {clock.to_date_text(seconds)}: the rows are "
                    f"from {first} to {last}. Change date, begin or minutes of the road")


def note_interpolated(series: Series, clock: Clock, interval: int, notes: list[str]) -> None:
    """Add a note if a station that gives a demand has missing intervals, whose demand `make_rates` interpolates."""
    known = sorted([place for place, _ in series.outside] + [place for place, cars in enumerate(series.cars) if cars is not None])
    if len(known) == len(series.outside):
        return
    missing = [place for place, cars in enumerate(series.cars) if cars is None and known[0] < place < known[-1]]
    if missing:
        times = ", ".join(clock.to_text(place * interval) for place in missing[:MOST_LISTED]) + (", .." if len(missing) > MOST_LISTED else "")
        notes.append(f"the demand of station {series.station.name} is interpolated in {count_things(len(missing), 'interval')} without a "
                     f"count, at {times}")
    for first, end, which in ((0, known[0], "first"), (known[-1] + 1, len(series.cars), "last")):
        if first < end:
            begin, until = clock.to_text(first * interval), clock.to_text(end * interval)
            advice = f"Begin the window at {until}" if which == "first" else f"End the window at {begin}"
            notes.append(f"the demand of station {series.station.name} is unknown in {count_things(end - first, 'interval')}, {begin} to {until}: it is "
                         f"assumed to be that of its {which} count. {advice}, or give its counts of {begin} to {until}")


def place_rows(counts: Counts, clock: Clock, notes: list[str]) -> list[PlacedRow]:
    """Return the rows with their steps, and add notes on duplicate rows and on times that the clock skips.

    When the clock is put back, an hour comes twice: a second row of the same time then belongs to the second hour."""
    again = {row.line for row in counts.repeated if clock.comes_twice(find_moment(clock, row))}
    own = replace(counts, notes=[])
    note_lines(own, [row.line for row in counts.repeated if row.line not in again], *(
        f"{what} the station and time of an earlier row: only the first one counts" for what in ("row has", "rows have")))
    rows = [*counts.rows, *(row._replace(time=row.time.replace(fold=1)) for row in counts.repeated if row.line in again)]
    skipped = [row.line for row in rows if clock.skips(find_moment(clock, row))]
    note_lines(own, skipped, *(f"{what} at a time that the clock change in {clock.zone} skips: ignored" for what in ("row is", "rows are")))
    notes += own.notes
    return [PlacedRow(row, find_step(clock, row)) for row in rows if row.line not in skipped]


def find_moment(clock: Clock, row: Row) -> datetime.datetime:
    """Return the date and time of a row. A clock time belongs to the first day of the run, or to the next day if it is before the
    beginning."""
    if isinstance(row.time, datetime.datetime):
        return row.time
    return clock.find_moment(row.time)


def find_lanes_downstream(ramp: Station, main: Iterable[Station], sign: int) -> int:
    """Return the lanes of the next main-line station downstream of a ramp, or of the last station."""
    stations = list(main)
    return next((one.lanes for one in stations if sign * one.km >= sign * ramp.km), stations[-1].lanes)


def make_series(counts: Counts, station: Station, rows: list[PlacedRow], lanes: int, interval: int, seconds: int, clock: Clock,
              notes: list[str]) -> Series:
    """Make the series of a station per lane, and add notes on missing and zero intervals."""
    number = seconds // interval
    cars: list[float | None] = [None] * number
    speeds: list[float | None] = [None] * number
    lines = [0] * number
    odd, high, noted, outside = [], [], set[int](), dict[int, float]()
    for row, step in rows:
        count = None if row.cars is None else row.cars * (interval / HOUR if counts.are_per_hour else 1)
        if not 0 <= step < seconds:
            # A clock time just before the window was placed on the next day.
            near = step - A_DAY if isinstance(row.time, datetime.time) and step >= A_DAY - FARTHEST_ROW else step
            if count and count <= MOST_FLOW * station.lanes * interval / HOUR and -FARTHEST_ROW <= near < seconds + FARTHEST_ROW and near % interval == 0:
                outside[near // interval] = count / lanes
            continue
        if step % interval:
            odd.append(row.line)
            continue
        place = step // interval
        lines[place] = row.line
        if count is None or count > MOST_FLOW * station.lanes * interval / HOUR:
            noted.add(place)
            if count is not None:
                high.append(row.line)
            continue
        cars[place] = count / lanes
        speeds[place] = row.speed
    own = replace(counts, notes=[])
    note_lines(own, high, *(f"{what} more than {MOST_FLOW:,.0f} cars per hour and lane: treated as missing" for what in
                            (f"row of station {station.name} has", f"rows of station {station.name} have")))
    note_lines(own, odd, *(f"{what} at a whole interval of {count_things(interval // 60, 'minute')}: ignored"
                           for what in (f"row of station {station.name} does not begin", f"rows of station {station.name} do not begin")))
    zero = [place for place, count in enumerate(cars) if count == 0]
    faulty = [place for place in zero if is_suspicious(cars, place)]
    note_lines(own, [lines[place] for place in zero if place not in faulty], f"row of station {station.name} has no car",
               f"rows of station {station.name} have no car")
    note_lines(own, [lines[place] for place in faulty], *(f"{what} no car between two that have many: treated as missing" for what in
                                                          (f"row of station {station.name} has", f"rows of station {station.name} have")))
    for place in faulty:
        cars[place] = speeds[place] = None
    missing = [place for place, count in enumerate(cars) if count is None and place not in faulty and place not in noted]
    if missing:
        times = ", ".join(clock.to_text(place * interval) for place in missing[:5]) + (", .." if len(missing) > 5 else "")
        after = max((line for place, line in enumerate(lines) if line and place < missing[0]), default=0)
        behind = f" (the first after line {after})" if after else ""
        own.notes.append(f"{counts.path}: station {station.name} has no row for {len(missing)} interval{'s' * (len(missing) > 1)}, "
                          f"at {times}{behind}")
    notes += own.notes
    return Series(station, cars, speeds, tuple(sorted(outside.items())))


def is_suspicious(cars: list[float | None], place: int) -> bool:
    """Return whether a zero is between two intervals with many cars."""
    neighbours = [next((one for one in part if one), 0) for part in (cars[place::-1][1:], cars[place + 1:])]
    return min(neighbours) >= SUSPICIOUS


def check_clock_changes(counts: Counts, clock: Clock, seconds: int, notes: list[str]) -> None:
    """Add a note if the clock changes in the window."""
    if clock.zone is None:
        return
    offsets = [clock.to_datetime(step).utcoffset() for step in range(0, seconds + 1, 900)]
    for place, (before, after) in enumerate(zip(offsets, offsets[1:])):
        if before != after and before is not None and after is not None:
            is_back = after < before
            notes.append(f"{counts.path}: the clock changes at {clock.to_text((place + 1) * 900)} in {clock.zone}: an hour "
                        + ("comes twice; without an offset from UTC the first row of a time belongs to the first hour" if is_back else "is skipped"))


def cut_at_exit(lines: list[Series], ramps: list[Series]) -> tuple[list[Series], str, list[str]]:
    """Return the stations up to the first one after which the flow falls by more than counting error, a sentence if there is one, and
    sentences on stations that count more or less than both neighbours, on a flow that rises without a ramp, and on ramp stations that do not
    fit their neighbours. The flow may also rise and fall at ramps without a station."""
    doubts, doubted = list[str](), set[str]()
    for place, (one, following) in enumerate(zip(lines, lines[1:])):
        before, after = lines[place - 1] if place else None, lines[place + 2] if place + 2 < len(lines) else None
        expected, counted = compare_flows(one, following, ramps)
        if differs(counted, expected) and one.station.name not in doubted and (
                after is None or differs(*compare_flows(one, after, ramps, following)[::-1])):
            doubts.append(describe_rise(one, following, expected, counted, ramps, is_first=before is None, is_last=after is None))
        if not differs(expected, counted):
            continue
        if before is not None and is_odd(before, one, following, ramps):
            doubts.append(describe_odd(one, before, following, counted / expected))
            doubted.add(one.station.name)
        elif after is not None and is_odd(one, following, after, ramps):
            doubts.append(describe_odd(following, one, after, expected / counted))
            doubted.add(following.station.name)
        else:
            is_high = before is None or fits_without(before, one, following, ramps)
            is_low = after is None or fits_without(one, following, after, ramps)
            fall = describe_fall(one, following, expected, counted, ramps, is_high, is_low)
            return lines[:place + 1], fall, [*doubts, *doubt_ramps(lines[:place + 1], ramps)]
    return lines, "", [*doubts, *doubt_ramps(lines, ramps)]


def fits_without(before: Series, one: Series, after: Series, ramps: list[Series]) -> bool:
    """Return whether the flow after a station does not fall below that before it, and these two are nearer to each other than to its own. All
    three are compared in the intervals that all of them counted."""
    expected, counted = compare_flows(before, after, ramps, one)
    others = [abs(more - less) for more, less in (compare_flows(before, one, ramps, after), compare_flows(one, after, ramps, before))]
    return not differs(expected, counted) and abs(expected - counted) < min(others)


def is_odd(before: Series, one: Series, after: Series, ramps: list[Series]) -> bool:
    """Return whether a station counts more than both neighbours, or less than both, and they fit each other."""
    into, out = compare_flows(before, one, ramps, after), compare_flows(one, after, ramps, before)
    return fits_without(before, one, after, ramps) and any(differs(*high) and differs(*low) for high, low in (
        (into[::-1], out), (into, out[::-1])))


def doubt_ramps(lines: list[Series], ramps: list[Series]) -> list[str]:
    """Return a sentence for each ramp station alone between two stations whose flows do not differ by what it counts. The cars of the main line
    pass both, so only those that join vary by chance. Where the main line itself differs, nothing is said of the ramp here."""
    said = []
    for one, following in zip(lines, lines[1:]):
        between = list_joining(one, following, ramps)
        before, joined, after = (cars * lanes for cars, lanes in zip(
            add_up_flows(one, following, ramps), (one.station.lanes, following.station.lanes, following.station.lanes)))
        expected, counted = compare_flows(one, following, ramps)
        rise = after - before
        if len(between) != 1 or differs(expected, counted) or differs(counted, expected) or abs(joined - rise) <= max(
                RAMP_ERROR * joined, MAIN_ERROR * after, 3 * math.sqrt(joined + max(rise, 0.0))):
            continue
        name, share = between[0].station.name, 100 * abs(joined - rise) / after
        ramp, first, second = ("over", "over", "under") if joined > rise else ("under", "under", "over")
        scale = f": then use --scale {name}={rise / joined:.3f}" if LEAST_FACTOR * joined <= rise <= joined / LEAST_FACTOR else ""
        said.append(f"the ramp station {name} (km {between[0].station.km:g}) counts {joined:,.0f} cars, but from station {one.station.name} to "
                    f"{following.station.name} the flow rises by {rise:,.0f} cars in the same intervals. {name} {ramp}-counts{scale}, or "
                    f"{one.station.name} {first}-counts or {following.station.name} {second}-counts by {share:.1f} %")
    return said


def describe_odd(one: Series, before: Series, after: Series, factor: float) -> str:
    """Return a sentence on a station that counts more or less than both neighbours. `factor` corrects its counts."""
    name, (there, first, then) = one.station.name, ("more", "join", "leave") if factor < 1 else ("less", "leave", "join")
    return (f"station {name} (km {one.station.km:g}) counts {100 * abs(1 / factor - 1):.0f} % {there} than the stations before and after it, "
            f"{before.station.name} and {after.station.name}: cars {first} before it and {then} after it, which the counts do not show, or "
            f"{name} {'over' if factor < 1 else 'under'}-counts. In the second case use {suggest_correction(one, factor)}")


def suspect_ramp(one: Series, following: Series, expected: float, counted: float, ramps: list[Series]) -> list[str]:
    """Return what explains that the flow after a ramp is not that before it and of the ramp together: that the station of the ramp, if there is a
    single one, counts too many cars or too few."""
    between = list_joining(one, following, ramps)
    if len(between) != 1:
        return []
    _, joined, _ = add_up_flows(one, following, ramps)
    factor = (joined + counted - expected) / max(joined, 1.0)
    name = between[0].station.name
    return [f"perhaps the ramp station {name} {'over' if factor < 1 else 'under'}-counts: then use --scale {name}={factor:.3f}"] * (
        LEAST_FACTOR <= factor <= 1 / LEAST_FACTOR)


def describe_rise(one: Series, following: Series, expected: float, counted: float, ramps: list[Series], is_first: bool, is_last: bool) -> str:
    """Return a sentence on a flow that rises although no ramp with a station joins."""
    readings = [f"{one.station.name} under-counts: then use {suggest_correction(one, counted / expected)}"] * is_first
    readings += [f"{following.station.name} over-counts: then use {suggest_correction(following, expected / counted)}"] * is_last
    readings = readings or [f"the stations up to {one.station.name} under-count, or those from {following.station.name} on over-count"]
    readings += suspect_ramp(one, following, expected, counted, ramps)
    return (f"from station {one.station.name} (km {one.station.km:g}) to {following.station.name} (km {following.station.km:g}) the flow per lane "
            f"rises from {expected:.0f} to {counted:.0f} cars, more than the on-ramp stations count. If the road has no other on-ramp there, "
            + ", or ".join(readings))


def describe_fall(one: Series, following: Series, expected: float, counted: float, ramps: list[Series], is_high: bool, is_low: bool) -> str:
    """Return a sentence on a flow that falls, and what it may mean: the first station may count too many cars, or the second one too few."""
    readings = [f"{one.station.name} over-counts: then use {suggest_correction(one, counted / expected)}"] * is_high
    readings += [f"{following.station.name} under-counts: then use {suggest_correction(following, expected / counted)}"] * is_low
    readings += suspect_ramp(one, following, expected, counted, ramps)
    reading = f" If there is no off-ramp, {', or '.join(readings)}." if readings and counted >= LEAST_FACTOR * expected else ""
    return (f"from station {one.station.name} (km {one.station.km:g}) to {following.station.name} (km {following.station.km:g}) "
            f"the flow per lane falls from {expected:.0f} to {counted:.0f} cars, as at an off-ramp, which the model does not have. "
            f"Only stations up to {one.station.name} are compared.{reading} To compare all stations use --no-ramp-check")


def list_joining(one: Series, following: Series, ramps: list[Series]) -> list[Series]:
    """Return the ramps from a station up to a following one."""
    return [ramp for ramp in ramps if one.station.km <= ramp.station.km < following.station.km]


def add_up_flows(one: Series, following: Series, ramps: list[Series], also: Series | None = None) -> tuple[float, float, float]:
    """Return the cars per lane of a station, of the ramps up to a following one, and of that one, in the intervals that both counted, and the ramps
    between, and a third station with its ramps."""
    known = sorted([one, following, *([also] if also else [])], key=lambda each: each.station.km)
    needed = [*known, *list_joining(known[0], known[-1], ramps)]
    places = [place for place in range(len(one.cars)) if all(each.cars[place] is not None for each in needed)]
    before, after = (math.fsum(each.cars[place] or 0 for place in places) for each in (one, following))
    return before, math.fsum(ramp.cars[place] or 0 for ramp in list_joining(one, following, ramps) for place in places), after


def compare_flows(one: Series, following: Series, ramps: list[Series], also: Series | None = None) -> tuple[float, float]:
    """Return the cars of a station and of the ramps up to a following one, and the cars of that one. `also`: see `add_up_flows`."""
    before, joined, after = add_up_flows(one, following, ramps, also)
    return before + joined, after


def differs(more: float, less: float) -> bool:
    """Return whether one flow is above another by more than counting error."""
    return more - less > max(COUNTING_ERROR * more, 3 * math.sqrt(more))


def suggest_correction(one: Series, factor: float) -> str:
    """Return the options that correct the counts of a station, if its factor is in range, or else leave it out."""
    scale = f" or --scale {one.station.name}={factor:.3f}" if LEAST_FACTOR <= factor <= 1 / LEAST_FACTOR else ""
    return f"--leave-out {one.station.name}{scale}"


def find_wrong_clocks(lines: list[Series], interval: int) -> dict[str, str]:
    """Return a sentence for each station, by its name, whose counts fit those of both neighbours much better at other times. A first or
    last station is compared with the two next ones."""
    found = {}
    for place, one in enumerate(lines):
        is_between = 0 < place < len(lines) - 1
        others = [lines[place - 1], lines[place + 1]] if is_between else lines[1:3] if place == 0 else lines[-2:-4:-1]
        shift = find_shift(one, others, interval, is_between) if len(others) == 2 else 0
        if shift:
            minutes = abs(shift) * interval // 60
            names = " and ".join(other.station.name for other in sorted(others, key=lambda other: other.station.km))
            found[one.station.name] = (
                f"the clock of station {one.station.name} seems to be about {minutes} minutes {'fast' if shift > 0 else 'slow'}: its counts fit those "
                f"of {names} best {minutes} minutes {'earlier' if shift > 0 else 'later'}. Check it, and use "
                f"--shift {one.station.name}={-shift * interval // 60} or --leave-out {one.station.name}")
    return found


def find_shift(one: Series, others: Sequence[Series], interval: int, is_between: bool) -> int:
    """Return by how many intervals the counts of a station lag behind those of two others, or 0 if they fit about as well without a lag.

    Between two stations, cars come later from the one and earlier to the other, so both must clearly show the lag. If both are on one side,
    the nearer one shows it, and the other must have about the same."""
    most = min(LONGEST_SHIFT // interval, len(one.cars) // 3)
    misfits = [{shift: compute_misfit(one, other, shift) for shift in range(-most, most + 1)} for other in others]
    near, far = (min(found, key=lambda shift: (found[shift], abs(shift))) for found in misfits)
    if abs(near - far) > 1 or near * far <= 0 or abs(near) * interval < SHORTEST_SHIFT or misfits[0][0] <= LEAST_GAIN * misfits[0][near]:
        return 0
    if is_between:
        is_clear = abs(far) * interval >= SHORTEST_SHIFT and misfits[1][0] > LEAST_GAIN * misfits[1][far]
        return min((near, far), key=lambda shift: math.fsum(found[shift] for found in misfits)) if is_clear else 0
    is_clear = misfits[0][0] - misfits[0][near] > LEAST_FALL and misfits[1][0] > LEAST_FAR_GAIN * misfits[1][far]
    return near if is_clear else 0


def compute_misfit(one: Series, other: Series, shift: int) -> float:
    """Return the mean of (difference of cars)^2 / (sum of cars) of two stations, one of them `shift` intervals later: about 1 if they
    count the same flow. Their totals are made equal first."""
    pairs = [(late, early) for place, early in enumerate(other.cars) if 0 <= place + shift < len(one.cars)
             if early is not None and (late := one.cars[place + shift]) is not None and early + late > 0]
    totals = [math.fsum(pair[which] for pair in pairs) for which in (0, 1)]
    if len(pairs) < FEWEST_PAIRS or not all(totals):
        return math.inf
    ratio = totals[0] / totals[1]
    return math.fsum((late - ratio * early) ** 2 / (late + ratio * early) for late, early in pairs) / len(pairs)
