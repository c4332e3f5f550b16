"""Judge whether a simulation is congested when and where the measured traffic is.

    segments = list_segments(model)
    days = simulate_segments(model, segments, days=5)
    found = judge(model.measured, days)
    print(found.count(), describe_jams(found, model.measured), compare_time_lost(segments, days),
          compare_travel_times(model, segments, days))

The free speed of a station is the speed that 85 % of its measured intervals do not exceed. A station interval is congested if its speed
is below a share of that speed, by default 0.6: with a free speed of 97 km/h (60 mph) this is 58 km/h, close to the 35 mph below which
Caltrans' Highway Congestion Monitoring Program counts a freeway as congested. As there, a jam lasts at least 15 minutes.
A shorter time without a speed does not end it.

In the simulation a station interval is congested if the space-mean speed within 0.15 km of the station is below that share, on at least
half of the days with a car. Measured speeds are usually time means, which are never below the space mean (Wardrop 1952). So where the
counts are congested, the space mean is, too, and a measured jam can be judged by the simulated space mean. (The time mean would not do:
in the model a car passes a detector at 27 km/h or more, and most have left the jam, so that a detector in a jam often shows twice a real
speed.) Where the counts are not congested, the space mean may be. So for a simulated jam that the counts do not have, means of the same
kind are compared: the counts rule it out only if they fall less than half as far below the free speed as the simulated speeds, on average over
the jam. A single station says less: on some days a jam of the same drivers does not reach it. So its speeds are given, but not judged. Errors of
speeds also compare means of the same kind.

The flow that leaves a jam decides how long a queue lasts. The head of a jam is between two neighbouring stations if the first one is in a jam and
the second one is not congested for 15 minutes in a row. The flow that leaves it is the flow at the second one in these intervals. It includes the cars of a ramp between the two. In the simulation the intervals are those of each day, since its jams have other times.

Delay and travel time cover the stretch from the first to the last station with speeds. Each station stands for its segment, which ends
halfway to the next station. The delay of an interval is cars x length x (1 / speed - 1 / free speed), by the cars and the speed at the
station. A travel time is that of a trajectory: a car departs each minute, and in each interval moves at the speed of its segment, which is
that at the station, or, in an interval in which it has none, at the nearest station that has one. The simulation has both at its stations, with speeds of the measured kind, and also by all cars: the delay of the cars
on the segment in each step, and the segment's space-mean speed, which also stands for the station in an interval in which no car passes it.
Delays are summed over congested intervals only, and only where both a count and a speed were measured. Travel times are those of the cars
that arrive in the window in the counts and on each simulated day.
"""
from __future__ import annotations

import math
from dataclasses import dataclass
from statistics import fmean
from typing import Callable, NamedTuple, Sequence

from ..base.intervals import average_known
from ..base.units import CELLS_A_KM, HOUR, KMH, count_things
from ..figures.simulation import simulate_days
from ..program.road_rows import Sums
from ..roads.calibrated import Leaving
from ..roads.clock import Clock
from ..roads.demand import Supply, count_demand
from .counts_on_road import SPACE_MEAN, Measured, Series
from .goodness_of_fit import (
    Day, Model, Passed, compute_space_mean, compute_speed, estimate_days, simulate_day, sum_intervals, sum_near)

CONGESTED = 0.6
"""Traffic is congested below this share of the free speed."""
FREE_SHARE = 0.85
"""The share of the measured intervals whose speed the free speed reaches or exceeds."""
SHORTEST_JAM, LONG_INTERVAL = 900, 300
"""The seconds that a jam lasts at least. In intervals below LONG_INTERVAL speeds vary so much that a jam is not congested in all of them."""
MOST, LEAST = 2 / 3, 1 / 3
"""A jam is reproduced if at least MOST of its station intervals are congested in the simulation, and missed if fewer than LEAST are."""
AS_DEEP = 0.5
"""The counts rule out a simulated jam if they fall by less than this share of the simulated fall below the free speed."""
FAR, MOST_SHARE = 0.25, 0.95
"""A jam is looked for up to so far above the share of `--congested`, and the greatest share."""
SLOWEST = 1.0
"""Lower speeds in km/h count as this one."""
DEPARTURE = 60
"""The seconds between two departures of the trajectories."""
LEAST_LOST = 0.02
"""The share of its demand that an inlet must lose: chances are accurate to 1 %."""
States = list[list["bool | None"]]
"""Whether each station is congested in each interval. None: no speed is known."""


class JudgedDay(NamedTuple):
    """A simulated day: what passed the compared stations, and for each interval the sums over the cars near each of them and over the cars
    on each segment. `admitted` are the cars that entered at each inlet in the whole run, and `at` is what passed the station of each segment.
    `rows` are those of the window, if they are kept."""

    passed: Day
    near: list[list[Sums]]
    on: list[list[Sums]]
    admitted: Sequence[int] = ()
    at: Sequence[list[Passed]] = ()
    rows: Sequence[str] = ()


class Intervals(NamedTuple):
    """The numbers of station intervals that are congested in both, only measured, only simulated, and in neither."""

    both: int
    only_measured: int
    only_simulated: int
    neither: int


class SpeedOff(NamedTuple):
    """The number of station intervals, the RMSE of their speeds in km/h, and the mean of simulated minus measured speed in km/h."""

    intervals: int
    rmse: float | None
    bias: float | None


class Jam(NamedTuple):
    """A jam: the indexes of its first and last station, its first interval and the one after its last, and its station intervals."""

    first: int
    last: int
    begin: int
    end: int
    places: list[tuple[int, int]]


@dataclass(frozen=True)
class Judgement:
    """The states of the compared stations, measured and simulated, and the speed errors in measured congestion and in free traffic."""

    measured: States
    simulated: States
    congested: SpeedOff
    free: SpeedOff
    interval: int
    """Seconds."""
    by_day: Sequence[Sequence[Sequence[float | None]]] = ()
    """For each simulated day the speeds at the stations in km/h, of the kind of the measured ones."""
    share: float = CONGESTED

    def count(self) -> Intervals:
        """Return how many station intervals with both speeds are congested."""
        pairs = [pair for known, drawn in zip(self.measured, self.simulated) for pair in zip(known, drawn) if None not in pair]
        return Intervals(*(pairs.count(pair) for pair in ((True, True), (True, False), (False, True), (False, False))))


def find_free_speed(series: Series) -> float | None:
    """Return the free speed of a station in km/h, or None if it has no speeds."""
    speeds = sorted(speed for speed in series.speeds if speed is not None)
    return speeds[math.ceil(FREE_SHARE * len(speeds)) - 1] if speeds else None


def judge(measured: Measured, days: Sequence[JudgedDay], share: float = CONGESTED) -> Judgement:
    """Find the congested intervals of the compared stations, and compare the speeds in them and in the other intervals."""
    drawn = find_simulated_states(measured, days, share)
    off: dict[bool, list[float]] = {True: [], False: []}
    passed = [day.passed for day in days]
    for index, series in enumerate(measured.main[1:]):
        bound = share * (find_free_speed(series) or 0.0)
        for place, speed in enumerate(series.speeds):
            mean = compute_speed(passed, index, place)
            if speed is not None and mean is not None:
                off[speed < bound].append(mean - speed)
    return Judgement(find_states(measured, share), drawn, summarize(off[True]), summarize(off[False]), measured.interval,
                     [[[one.speed for one in line] for line in day] for day in passed], share)


def find_states(measured: Measured, share: float) -> States:
    """Return whether the compared stations are congested in the counts."""
    return [[None if speed is None else speed < share * (find_free_speed(series) or 0.0) for speed in series.speeds] for series in measured.main[1:]]


def find_simulated_states(measured: Measured, days: Sequence[JudgedDay], share: float) -> States:
    """Return whether the compared stations are congested in the simulation."""
    bounds = [share * (find_free_speed(series) or 0.0) for series in measured.main[1:]]
    return [[is_simulated_congested(days, index, place, bound) if bound else None for place in range(measured.intervals)]
            for index, bound in enumerate(bounds)]


def is_simulated_congested(days: Sequence[JudgedDay], index: int, place: int, bound: float) -> bool | None:
    """Return whether at least half of the days with a car near a station have a speed below a bound in km/h, or None without a car."""
    slow = [speed < bound for day in days if (speed := compute_space_mean(day.near[index][place])) is not None]
    return 2 * sum(slow) >= len(slow) if slow else None


def summarize(off: Sequence[float]) -> SpeedOff:
    """Return the number, the root mean square and the mean of speed differences."""
    if not off:
        return SpeedOff(0, None, None)
    return SpeedOff(len(off), math.sqrt(math.fsum(one * one for one in off) / len(off)), math.fsum(off) / len(off))


# Jams

def find_runs(states: Sequence[bool | None], least: int) -> list[tuple[int, int]]:
    """Return the first interval of each run of at least `least` congested intervals, and the one after its last."""
    found, begin = list[tuple[int, int]](), None
    for place, state in enumerate([*states, False]):
        if state and begin is None:
            begin = place
        elif not state and begin is not None:
            found += [(begin, place)] if place - begin >= least else []
            begin = None
    return found


def find_congestion(line: Sequence[bool | None], interval: int) -> list[tuple[int, int]]:
    """Return when a station is congested for as long as a jam lasts at least: the first interval and the one after the last. A shorter time without a
    known speed between two congested intervals does not end it."""
    least, bridged = math.ceil(SHORTEST_JAM / interval), list(line)
    for begin, end in find_runs([state is None for state in line], 1):
        if 0 < begin and end < len(line) and line[begin - 1] and line[end] and end - begin < least:
            bridged[begin:end] = [True] * (end - begin)
    return find_runs(bridged, least)


def find_jams(states: States, interval: int) -> list[Jam]:
    """Return the jams. The congestion of neighbouring stations belongs to one jam if it overlaps in time."""
    jams: list[list[tuple[int, int, int]]] = []
    for index, line in enumerate(states):
        for begin, end in find_congestion(line, interval):
            near = [jam for jam in jams if any(index - other == 1 and begin < until and since < end for other, since, until in jam)]
            jams = [jam for jam in jams if jam not in near] + [[run for jam in near for run in jam] + [(index, begin, end)]]
    return sorted((make_jam(jam, states) for jam in jams), key=lambda jam: (jam.begin, jam.first))


def describe_congested_demand(measured: Measured, share: float = CONGESTED) -> list[str]:
    """Return a sentence if the station that gives the demand is congested: what it counts then is the flow of the jam, not the demand."""
    first, clock = measured.main[0], measured.clock
    bound = share * (find_free_speed(first) or 0.0)
    runs = find_congestion([None if speed is None else speed < bound for speed in first.speeds], measured.interval)
    times = " and from ".join(f"{clock.to_text(begin * measured.interval)} to {clock.to_text(end * measured.interval)}" for begin, end in runs)
    return [f"station {first.station.name} gives the demand, and is itself congested from {times}: its counts are then what the jam lets through, "
            "so the demand is too low. Use a station farther upstream, or a window that ends before"] if runs else []


def make_jam(runs: Sequence[tuple[int, int, int]], states: States) -> Jam:
    """Make a jam of runs, each with its station, its first interval and the one after its last. It has their intervals with a known state."""
    stations, begins, ends = zip(*runs)
    return Jam(min(stations), max(stations), min(begins), max(ends),
               [(index, place) for index, begin, end in runs for place in range(begin, end) if states[index][place] is not None])


def describe_jams(found: Judgement, measured: Measured) -> list[str]:
    """Return a sentence for each measured jam, whether the simulation reproduces it, and for each simulated jam that was not measured."""
    clock, names = measured.clock, [one.station.name for one in measured.main[1:]]
    if not any(state is not None for line in found.measured for state in line):
        return ["the counts have no speeds, so nothing says whether congestion is reproduced"]
    jams = find_jams(found.measured, found.interval)
    sentences = [describe_jam(jam, found.simulated, clock, names, found.interval) for jam in jams]
    told = {place for jam in jams for place in jam.places}
    for jam in find_jams(found.simulated, found.interval):
        known = [state for index, place in jam.places if (state := found.measured[index][place]) is not None]
        name = name_jam("the simulation has a jam from", jam, clock, names, found.interval)
        if not known:
            sentences.append(f"{name}, where no speed was measured")
        elif told.intersection(jam.places):
            if sum(known) < MOST * len(known):
                sentences.append(f"{name_jam('the simulated jam lasts from', jam, clock, names, found.interval)}, and the counts are congested in "
                                 f"{sum(known)} of its {count_things(len(known), 'station interval')}: {describe_speeds(jam, found, measured)}{note_time_means(measured)}")
        elif sum(known) < LEAST * len(known):
            sentences.append(f"{name} {judge_speeds(jam, found, measured)}")
        else:
            sentences.append(f"{name}: the counts are congested in {sum(known)} of its {count_things(len(known), 'station interval')}, but never for "
                             f"{SHORTEST_JAM // 60} minutes in a row")
    return [*(sentences or [describe_free_traffic(found, clock, names)]), *([] if jams else suggest_share(found, measured))]


class MeanSpeeds(NamedTuple):
    """Means over some station intervals in km/h: of the free speeds, of the measured speeds, and of those of each simulated day."""

    free: float
    measured: float
    by_day: list[float]

    @property
    def is_less_deep(self) -> bool:
        """Return whether the measured speeds fall by less than AS_DEEP of the simulated fall."""
        return self.free - self.measured < AS_DEEP * (self.free - fmean(self.by_day))

    def describe(self) -> str:
        """Return the speeds, with the slowest and the fastest simulated day."""
        days = f" ({min(self.by_day):.0f} to {max(self.by_day):.0f} on single days)" if len(self.by_day) > 1 else ""
        return f"{self.measured:.0f} km/h measured and {fmean(self.by_day):.0f} km/h simulated{days}"


def average_speeds(places: Sequence[tuple[int, int]], found: Judgement, measured: Measured) -> MeanSpeeds:
    """Return the mean speeds over station intervals with a measured speed. A day on which no car passes a station has the mean of the other days, and 0 if
    none passes it on any day."""
    speeds = [(find_free_speed(measured.main[index + 1]) or 0.0, measured.main[index + 1].speeds[place] or 0.0) for index, place in places]
    free, known = (fmean(values) for values in zip(*speeds))
    lines = [[day[index][place] for day in found.by_day] for index, place in places]
    filled = [[mean if speed is None else speed for speed in line] for line in lines for mean in [average_known(line) or 0.0]]
    return MeanSpeeds(free, known, [fmean(day) for day in zip(*filled)])


def list_known(jam: Jam, measured: Measured) -> list[tuple[int, int]]:
    """Return the station intervals of a jam in which a speed was measured."""
    return [(index, place) for index, place in jam.places if measured.main[index + 1].speeds[place] is not None]


def judge_speeds(jam: Jam, found: Judgement, measured: Measured) -> str:
    """Return whether the counts rule out a simulated jam in which they are not congested, with its speeds."""
    if average_speeds(list_known(jam, measured), found, measured).is_less_deep:
        return f"that was not measured: {describe_speeds(jam, found, measured)}"
    return f"that the counts do not rule out: {describe_speeds(jam, found, measured)}{note_time_means(measured)}"


def note_time_means(measured: Measured) -> str:
    """Return a remark if the speeds are time means."""
    return "" if measured.mean == SPACE_MEAN else ". In the model such speeds hardly show a jam"


def describe_speeds(jam: Jam, found: Judgement, measured: Measured) -> str:
    """Return the speeds of each station in a simulated jam, measured and simulated."""
    known = list_known(jam, measured)
    by_station = [f"{average_speeds([one for one in known if one[0] == index], found, measured).describe()} at station "
                  f"{measured.main[index + 1].station.name}" for index in sorted({index for index, _ in known})]
    return f"{measured.mean} speeds are {', '.join(by_station)}, with a free speed of {average_speeds(known, found, measured).free:.0f} km/h"


def suggest_share(found: Judgement, measured: Measured) -> list[str]:
    """Return how far the slowest station interval of the counts fell, and the share with which the counts have a jam, if it is near."""
    ratios = [(speed / free, series.station.name, place) for series in measured.main[1:] if (free := find_free_speed(series))
              for place, speed in enumerate(series.speeds) if speed is not None]
    least, name, place = min(ratios)
    if least >= found.share + FAR:
        return []
    steps = range(math.floor(found.share * 20 + 1.001), math.floor(min(found.share + FAR, MOST_SHARE) * 20 + 0.001) + 1)
    share = next((step / 20 for step in steps if find_jams(find_states(measured, step / 20), found.interval)), None)
    return [f"the slowest station interval of the counts has {least:.3f} of its free speed, at station {name} from "
            f"{measured.clock.to_text(place * measured.interval)} on" + ("" if share is None else f": with --congested {share:g} the counts have a jam")]


def describe_free_traffic(found: Judgement, clock: Clock, names: Sequence[str]) -> str:
    """Return a sentence if there is no jam: what is congested for a shorter time."""
    both = [describe_spells(states, clock, names, found.interval) for states in (found.measured, found.simulated)]
    if not any(both):
        return ("no jam was measured, and none is simulated: no station is congested in any interval, so these counts do not say whether the road jams "
                "as it should")
    shown = "; ".join(f"{said or 'none'} in the {where}" for said, where in zip(both, ("counts", "simulation")))
    return (f"no jam was measured, and none is simulated: no station is congested for {SHORTEST_JAM // 60} minutes in a row. Congested station "
            f"intervals: {shown}")


def describe_spells(states: States, clock: Clock, names: Sequence[str], interval: int) -> str:
    """Return the number of congested station intervals, and the longest time in a row; an empty string without any."""
    spells = [(end - begin, index, begin) for index, line in enumerate(states) for begin, end in find_runs(line, 1)]
    if not spells:
        return ""
    length, index, begin = max(spells, key=lambda spell: spell[0])
    return (f"{sum(spell[0] for spell in spells):,} (at most {count_things(length * interval // 60, 'minute')} in a row, at station {names[index]} from "
            f"{clock.to_text(begin * interval)} on)")


def describe_jam(jam: Jam, simulated: States, clock: Clock, names: Sequence[str], interval: int) -> str:
    """Return a sentence that says whether the simulation reproduces a measured jam."""
    known = [state for index, place in jam.places if (state := simulated[index][place]) is not None]
    share = sum(known) / len(known) if known else 0.0
    verdict = "is reproduced" if share >= MOST else "is missed" if share < LEAST else "is reproduced in part"
    return (f"{name_jam('the jam from', jam, clock, names, interval)} {verdict}: {sum(known)} of its {count_things(len(known), 'station interval')} "
            f"{'is' if sum(known) == 1 else 'are'} congested in the simulation")


def name_jam(head: str, jam: Jam, clock: Clock, names: Sequence[str], interval: int) -> str:
    """Name a jam by its times and stations."""
    *others, last = names[jam.first:jam.last + 1]
    stations = f"stations {', '.join(others)} and {last}" if others else f"station {last}"
    return f"{head} {clock.to_text(jam.begin * interval)} to {clock.to_text(jam.end * interval)} at {stations}"


# The flow that leaves a jam

def compare_leaving(measured: Measured, days: Sequence[JudgedDay], share: float = CONGESTED) -> list[Leaving]:
    """Compare the flow that leaves a jam, for each two stations between which a measured jam has its head."""
    found, interval = [], measured.interval
    known, drawn = find_states(measured, share), [find_simulated_states(measured, [day], share) for day in days]
    for index, (one, following) in enumerate(zip(measured.main[1:], measured.main[2:])):
        flow = compute_leaving(known, index, following.cars, interval)
        flows = [compute_leaving(states, index, [passed.cars for passed in day.passed[index + 1]], interval) for states, day in zip(drawn, days)]
        jammed = [each for each in flows if each is not None]
        if flow:  # (nothing leaves a road that is closed)
            found.append(Leaving(one.station.name, following.station.name, flow, *(estimate_days(jammed) if jammed else (None, None))))
    return found


def compute_leaving(states: States, index: int, cars: Sequence[float | None], interval: int) -> float | None:
    """Return the flow of the cars that pass the station after a station in cars per hour, while the head of a jam is between the two: the first
    one is in a jam, and the second one is free for as long as a jam lasts at least. (A station inside the jam may seem free in single intervals.) Return
    None if this is shorter than a jam."""
    least = math.ceil(SHORTEST_JAM / interval)
    in_jam = {place for run in find_congestion(states[index], interval) for place in range(*run)}
    is_head = [place in in_jam and state is False for place, state in enumerate(states[index + 1])]
    left = [count for run in find_runs(is_head, least) for place in range(*run) if (count := cars[place]) is not None]
    return math.fsum(left) / len(left) * HOUR / interval if len(left) >= least else None


# Lost cars

def find_lost(model: Model, days: Sequence[JudgedDay]) -> list[Supply]:
    """Return the demand of each inlet and the cars that it admitted, in the whole run, if more cars are lost than arrivals at random explain.

    The demand is summed over the days."""
    asked = [len(days) * count_demand(rates, 0, model.road.steps) for _, rates in model.road.inlets]
    supplies = [Supply(cars, sum(entered)) for cars, entered in zip(asked, zip(*(day.admitted for day in days)))]
    return [one if one.lost > max(one.scatter, LEAST_LOST * one.demand) else Supply(0.0, 0) for one in supplies]


def describe_lost(model: Model, days: Sequence[JudgedDay]) -> list[str]:
    """Return a sentence for each inlet at which cars are lost. The first inlet is that of the main road, the others are ramps."""
    return [f"{one.lost / len(days):,.0f} of {one.demand / len(days):,.0f} cars cannot enter at {model.road.units.place(cell)} and are lost: the simulated "
            "delay and travel times leave them out. "
            + ("If no jam was measured there, calibrate the drivers; otherwise check the demand of the ramp" if inlet else
               "If a jam reaches km 0, give the road an approach")
            for inlet, ((cell, _), one) in enumerate(zip(model.road.inlets, find_lost(model, days))) if one.demand]


# Delay and travel time

class Segment(NamedTuple):
    """The cells `first` to `last - 1`, for which a main-line station stands, the free speed of the station in km/h, and its index among
    the stations."""

    series: Series
    first: int
    last: int
    free: float
    number: int

    @property
    def km(self) -> float:
        """Return the length in km."""
        return (self.last - self.first) / CELLS_A_KM


class Both(NamedTuple):
    """A measured value, the mean of the simulated days, and half its 95 % interval (None for one day)."""

    measured: float
    simulated: float
    half: float | None


class TravelTimes(NamedTuple):
    """The mean and the longest travel time of some trajectories in seconds, by the speeds of all cars and by those at the stations, their number,
    and the step of the last departure."""

    mean: Both
    longest: Both
    mean_at_stations: Both
    longest_at_stations: Both
    number: int
    last: int
    bridged: int
    """The number of station intervals that have the speed of the nearest station."""

    @property
    def left_out(self) -> int:
        """Return how many departures until the last one have no time, because no station has a speed on their way."""
        return self.last // DEPARTURE + 1 - self.number


def list_segments(model: Model) -> list[Segment]:
    """Return the segments of the stations with speeds, or an empty list if fewer than two stations have speeds."""
    known = [(one, free, index) for index, one in enumerate(model.measured.main) if (free := find_free_speed(one)) is not None]
    cells = [min(max(model.road.to_cell(one.station.km), model.road.approach), model.road.length) for one, *_ in known]
    if len(known) < 2:
        return []
    ends = [cells[0], *((before + after) // 2 for before, after in zip(cells, cells[1:])), cells[-1]]
    return [Segment(one, first, last, free, index) for (one, free, index), first, last in zip(known, ends, ends[1:])]


def simulate_segments(model: Model, segments: Sequence[Segment], days: int,
                      progress: Callable[[int, int], None] | None = None, with_rows: bool = False) -> list[JudgedDay]:
    """Simulate days in parallel: the seed of the road, and the ones after it. With `with_rows` the first one keeps its rows."""
    return simulate_days(lambda seed: simulate_segment_day(model, segments, seed, with_rows and seed == model.seed),
                         range(model.seed, model.seed + days), progress)


def simulate_segment_day(model: Model, segments: Sequence[Segment], seed: int, with_rows: bool = False) -> JudgedDay:
    """Simulate one day, and keep its rows with `with_rows`."""
    run = simulate_day(model, seed, with_rows=True, with_entries=True)
    return JudgedDay(run.day, [sum_near(model, run.rows, cell) for cell in model.road.detectors[:len(model.detectors)]],
                     [sum_intervals(model, run.rows, one.first, one.last) for one in segments], run.admitted,
                     [[run.first, *run.day][one.number] for one in segments], run.rows if with_rows else ())


def compare_time_lost(segments: Sequence[Segment], days: Sequence[JudgedDay], share: float = CONGESTED, at_stations: bool = False) -> Both | None:
    """Compare the delay in congested intervals in vehicle hours per lane, or return None without segments. The simulated one is that of all cars
    on the road, or, with `at_stations`, the one that its stations show, by the formula of the measured one."""
    if not segments:
        return None

    def delay_of(index: int, day: JudgedDay) -> float:
        one = segments[index]
        if not at_stations:
            return delay_of_day(one, day.on[index], share)
        return delay_at_station(one, [passed if is_counted(one, place) else Passed(0, None) for place, passed in enumerate(day.at[index])], share)
    delays = [math.fsum(delay_of(index, day) for index in range(len(segments))) for day in days]
    return Both(math.fsum(delay_at_station(one, list(zip(one.series.cars, one.series.speeds)), share) for one in segments), *estimate_days(delays))


def compare_travel_times(model: Model, segments: Sequence[Segment], days: Sequence[JudgedDay]) -> TravelTimes | None:
    """Compare the travel times of the cars that depart each minute and arrive in the window, in the counts and on each simulated day. Return
    None if there is no such car."""
    on_road = [[[one.free if speed is None else speed for speed in map(compute_space_mean, sums)] for one, sums in zip(segments, day.on)]
               for day in days]
    at_stations = [[[speed if one.speed is None else one.speed for one, speed in zip(*both)] for both in zip(day.at, of_day)]
                   for day, of_day in zip(days, on_road)]
    measured = bridge_speeds(segments)
    bridged = sum(speed is not None and one.series.speeds[place] is None for one, line in zip(segments, measured) for place, speed in enumerate(line))
    fields: list[Sequence[Sequence[float | None]]] = [measured, *on_road, *at_stations]
    lengths, found = [one.km for one in segments], dict[int, list[float]]()
    for departure in range(0, model.window_steps if segments else 0, DEPARTURE):
        times = [follow_car(lengths, speeds, model.measured.interval, departure) for speeds in fields]
        arrived = [time for time in times if time is not None]
        if len(arrived) == len(times):
            found[departure] = arrived
    if not found:
        return None
    of_counts, *drawn = zip(*found.values())

    def compare(choose: Callable[[Sequence[float]], float], of_days: Sequence[Sequence[float]]) -> Both:
        return Both(choose(of_counts), *estimate_days([choose(times) for times in of_days]))
    by_cars, by_stations = drawn[:len(days)], drawn[len(days):]
    return TravelTimes(compare(fmean, by_cars), compare(max, by_cars), compare(fmean, by_stations), compare(max, by_stations), len(found), max(found),
                       bridged)


def bridge_speeds(segments: Sequence[Segment]) -> list[list[float | None]]:
    """Return the measured speeds of the segments. In an interval in which a station has none, it is that of the nearest station with one."""
    found = []
    for one in segments:
        near = sorted(segments, key=lambda other: abs(other.series.station.km - one.series.station.km))
        found.append([next((speed for speed in speeds if speed is not None), None) for speeds in zip(*(other.series.speeds for other in near))])
    return found


def follow_car(lengths: Sequence[float], speeds: Sequence[Sequence[float | None]], interval: int, departure: int) -> float | None:
    """Return the seconds in which a car passes segments of some km. In each interval it moves at the speed of its segment in km/h. Return
    None if a speed on its way is unknown, or if it has not arrived after the last interval."""
    time = float(departure)
    for left, line in zip(lengths, speeds):
        while left > 0:
            place = int(time // interval)
            speed = line[place] if place < len(line) else None
            if speed is None:
                return None
            end = (place + 1) * interval
            reached = speed * (end - time) / HOUR
            time, left = (time + left / speed * HOUR, 0.0) if reached >= left else (end, left - reached)
    return time - departure


def is_counted(segment: Segment, place: int) -> bool:
    """Return whether a station has both a count and a speed in an interval."""
    return segment.series.cars[place] is not None and segment.series.speeds[place] is not None


def delay_at_station(segment: Segment, passed: Sequence[tuple[float | None, float | None]], share: float) -> float:
    """Return the delay of a segment in vehicle hours by the cars and speeds at its station, in its congested intervals."""
    return math.fsum(cars * segment.km * (1 / max(speed, SLOWEST) - 1 / segment.free) for cars, speed in passed
                     if cars is not None and speed is not None and speed < share * segment.free)


def delay_of_day(segment: Segment, sums: Sequence[Sums], share: float) -> float:
    """Return the delay of a simulated day on a segment in vehicle hours, in its congested intervals."""
    return math.fsum(one.cars - one.speeds * KMH / segment.free for place, one in enumerate(sums)
                     if is_counted(segment, place) and (compute_space_mean(one) or 0.0) < share * segment.free) / HOUR
