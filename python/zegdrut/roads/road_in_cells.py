"""Make a road in cells and steps from a freeway in km, and find the edits that change one road into another."""
from __future__ import annotations

import dataclasses
import math
from dataclasses import dataclass, field
from typing import Callable, Iterator, Optional, Sequence, TypeVar, Union

from ..base.errors import Fault as Fault
from ..base.units import (
    ALWAYS, CELLS_A_KM, KMH, METRES, Units, format_distance, to_cells, to_km, to_limit, to_chance, to_steps)
from .capacity import LIMIT, describe_capacity, find_capacity
from .clock import Clock
from .demand import BeyondCapacity, Drivers, Effort, Rates, convert_demands, measure_admission
from .freeway_files import Demand, Figures as Figures, Section as Section, Stalled as Stalled

CELLS = range(8, 8_193)
"""The allowed numbers of cells of a road."""
MOST_STEPS = 1_048_576
MOST_ZONES = 64
FASTEST = 9
ENTRY = 0.3
"""The km at the beginning of the road where nobody is slowed, if slowed drivers could not admit the main demand. An inlet without slowing
admits up to 1,800 cars per hour. Five minutes of a real freeway often bring more cars than an inlet with slowed drivers admits."""
SLOWEST = 0.5
"""The lowest free speed, in cells per step, with which free travel times are computed."""
NEARLY_FULL = 0.98
"""The share of its capacity that an inlet with slowed drivers must not exceed."""


V = TypeVar("V")


# The road in cells and steps

RoadEdit = tuple[str, int, int, int]
"""An edit: kind, index, step and value."""


@dataclass
class Road:
    """A road in cells and steps. `notes` has a sentence for each figure that was rounded. Cells and zones count from the head of the
    approach, steps from the beginning of the run."""

    length: int
    """The cells of the approach and of the road after it."""
    zone: int
    limit: int
    slowing: int
    inlets: list[tuple[int, Rates]]
    """A (cell, demand) for each inlet. A demand is a list of (step, cars per hour), each in force until the next."""
    detectors: list[int]
    edits: list[RoadEdit]
    steps: int
    """The length of the run."""
    notes: list[str] = field(default_factory=list)
    start: int | None = None
    clock: Clock | None = None
    """None if the file has no begin: times are then minutes."""
    entry: int = 0
    """The number of zones at the beginning of the road where nobody is slowed."""
    approach: int = 0
    """The cells of the approach, so the cell at km 0."""
    lead: int = 0
    """The steps before minute 0."""
    early: int = 0
    """The steps in which a free car drives over the approach."""

    @property
    def units(self) -> Units:
        """Return the units in which places and times of this road are shown."""
        return Units(METRES, 1.0, self.approach, self.lead)

    def to_km(self, cell: int) -> float:
        """Return the km at which a cell begins."""
        return to_km(cell - self.approach)

    def to_cell(self, km: float) -> int:
        """Return the cell of a km."""
        return to_cells(km) + self.approach

    @property
    def demands(self) -> list[Rates]:
        """Return the demand of each inlet when it is on the road: that of the main inlet when it reaches km 0."""
        main, *others = (demand for _, demand in self.inlets)
        return [postpone(main, self.early), *others]

    @property
    def base_edits(self) -> list[RoadEdit]:
        """Return the edits of step 0 that the road also has without sections: slow-to-start in all zones after the entry."""
        return [] if self.start is None else [("start", zone, 0, self.start) for zone in range(self.entry, self.zones)]

    def find_slowing(self, zone: int) -> int:
        """Return the slowing chance of a zone outside sections."""
        return 0 if zone < self.entry else self.slowing

    def format_time(self, step: int) -> str:
        """Return the time of a step: a clock time, or a minute if the file has no begin."""
        return f"minute {(step - self.lead) / 60:g}" if self.clock is None else self.clock.to_text(step)

    @property
    def drivers(self) -> Drivers:
        """Return the limit and the slowing chances of the road outside its sections."""
        return Drivers(self.limit, self.slowing, self.start, min(self.entry * self.zone, self.length))

    @property
    def zones(self) -> int:
        """Return the number of zones."""
        return -(-self.length // self.zone)


Chances = list[list[tuple[int, int]]]
"""The inflow chances of each inlet over time: a list of (step, 1/65,536), each in force until the next."""


def convert_road_demands(road: Road, effort: Effort = Effort(), progress: Callable[[int], None] = lambda inlet: None) -> Chances:
    """Measure the inflow chances that admit the demand of each inlet. The inlets are measured without an approach, which changes no flow.

    Takes some seconds. BeyondCapacity: an inlet cannot admit its demand."""
    main, *ramps = convert_demands(list_free_cells(road), road.demands, road.drivers, effort, progress)
    return [bring_forward(main, road.early), *ramps]


def list_free_cells(road: Road) -> list[int]:
    """Return the cells that the inlets would have without an approach."""
    return leave_out_approach([cell for cell, _ in road.inlets], road.approach)


ACCELERATING = 8
"""The cells in which cars that have entered accelerate. There they hinder a ramp more than cars that come from an approach."""


def leave_out_approach(cells: Sequence[int], approach: int) -> list[int]:
    """Return the cells that inlets would have without an approach of some cells. If a ramp is near km 0, as much of the approach is left as cars
    need to accelerate."""
    left_out = max(min([approach, *(cell - ACCELERATING for cell in cells if cell)]), 0)
    return [max(cell - left_out, 0) for cell in cells]


def measure_chances(road: Road, progress: Callable[[int], None] = lambda inlet: None) -> Chances:
    """Measure the inflow chances as `convert_road_demands` does. Fault: an inlet cannot admit its demand."""
    try:
        return convert_road_demands(road, progress=progress)
    except BeyondCapacity as fault:
        raise Fault(f"a demand of {fault.demand:g} cars per hour at km {format_distance(road.to_km(road.inlets[fault.inlet][0]))} exceeds the capacity "
                    f"of the inlet, {fault.capacity:.0f} ({fault.drivers}): ask for less") from None


def bring_forward(changes: Sequence[tuple[int, V]], steps: int) -> list[tuple[int, V]]:
    """Return the values over time of some steps earlier, from step 0 on."""
    return [*{max(step - steps, 0): value for step, value in changes}.items()]


def postpone(changes: Sequence[tuple[int, V]], steps: int) -> list[tuple[int, V]]:
    """Return the values over time of some steps later. The first one still begins at step 0."""
    return [(step + steps if step else 0, value) for step, value in changes]


def widen_inlet(figures: Figures, effort: Effort = Effort()) -> Figures:
    """Return the figures with a number as `entry`: the one of the file, or by default 0, or ENTRY if slowed drivers do not admit the main
    demand. Takes some seconds."""
    if figures.entry is not None:
        return figures
    drivers = Drivers(to_limit(figures.limit), to_chance(figures.slowing), None if figures.start is None else to_chance(figures.start))
    most = max(cars for _, cars in to_rates(figures.main))
    try:
        measure_admission(drivers, effort=effort, demands=[most / NEARLY_FULL]).chance(most / NEARLY_FULL)
    except BeyondCapacity:
        return dataclasses.replace(figures, entry=ENTRY)
    return dataclasses.replace(figures, entry=0.0)


def widen_inlets(roads: Sequence[Figures]) -> list[Figures]:
    """Widen the inlets of roads that are compared: if one needs it, all have it."""
    found = [widen_inlet(one) for one in roads]
    most = max(one.entry or 0.0 for one in found)
    return [dataclasses.replace(one, entry=most) for one in found]


def warm_up_minutes(figures: Figures) -> int:
    """Return the minutes that fill the road before the window: twice the free travel time, rounded up to five minutes."""
    return math.ceil(2 * (figures.approach + figures.length) / max(figures.limit, KMH) * 60 / 5) * 5


def find_free_speed(figures: Figures) -> float:
    """Return the mean speed of a free car in cells per step."""
    return max(to_limit(figures.limit) - figures.slowing, SLOWEST)


def with_lead(figures: Figures) -> Figures:
    """Return the figures of a run that begins earlier, by one free travel time and two minutes, if the road has an approach: the first
    cars have then reached the road's end at minute 0."""
    seconds = (figures.approach + figures.length) * CELLS_A_KM / find_free_speed(figures)
    return with_warm_up(figures, math.ceil(seconds / 60 + 2) if figures.approach else 0)


def with_warm_up(figures: Figures, minutes: float) -> Figures:
    """Return the figures of a run that begins some minutes earlier, with the first demand, so that the road is not empty when the given
    run would have begun. Works that last from its beginning on also begin earlier."""
    if not minutes:
        return figures
    sections = [one._replace(begin=one.begin + minutes if one.begin > 0 else 0, end=one.end + minutes) for one in figures.sections]
    stalled = [one._replace(begin=one.begin + minutes, end=one.end + minutes) for one in figures.stalled]
    return dataclasses.replace(
        figures, main=shift_demand(figures.main, minutes), ramps=[(km, shift_demand(demand, minutes)) for km, demand in figures.ramps],
        sections=sections, stalled=stalled, minutes=figures.minutes + minutes, lead=figures.lead + minutes)


def shift_demand(demand: Demand, minutes: float) -> Demand:
    """Return a demand that begins some minutes earlier with its first value."""
    if not isinstance(demand, list):
        return demand
    return [(0.0 if minute == 0 else minute + minutes, cars) for minute, cars in demand]


def to_rates(demand: Demand) -> Rates:
    """Convert a demand over time from minutes to steps."""
    if isinstance(demand, list):
        found = [(to_steps(minute), cars) for minute, cars in demand]
        return found if found[0][0] == 0 else [(0, 0.0), *found]
    return [(0, demand)]


def make_road(figures: Figures) -> Road:
    """Make the road in cells, steps and chances. Fault: a figure is out of range. The message begins with the file of the figures."""
    try:
        return make_checked_road(figures)
    except Fault as fault:
        raise Fault(f"{figures.source}: {fault}" if figures.source else str(fault)) from None


def make_checked_road(figures: Figures) -> Road:
    """Make the road. Fault: a figure is out of range."""
    if to_cells(figures.length) not in CELLS:
        raise Fault(f"length {figures.length:g} km is out of range: {to_km(CELLS[0]):g} to {to_km(CELLS[-1]):g} km "
                    f"({CELLS[0]} to {CELLS[-1]:,} cells)")
    if not 0 <= to_cells(figures.stretch[0]) < to_cells(figures.stretch[1]) <= to_cells(figures.length):
        raise Fault(f"the stretch from km {figures.stretch[0]:g} to {figures.stretch[1]:g} is not on the road of {figures.length:g} km")
    if min(to_steps(figures.piece), to_steps(figures.minutes)) < 1:
        raise Fault("minutes and piece: both must be at least one step (1 second)")
    if to_steps(figures.minutes) > MOST_STEPS:
        raise Fault(f"minutes {figures.minutes:g} is out of range: at most {MOST_STEPS // 60:,}")
    notes: list[str] = []
    length = note_if_rounded(notes, "a road of", figures.length, "km", to_cells(figures.length), to_km)
    zone = choose_zone_width(notes, figures, length)
    approach = count_approach_zones(figures, zone) * zone
    if approach:
        note_if_rounded(notes, "an approach of", figures.approach, "km", approach, to_km)
    early = round(approach / find_free_speed(figures))
    road = Road(approach + length, zone, find_limit(notes, "the limit", figures.limit), to_chance(figures.slowing),
                [(0, bring_forward(to_rates(figures.main), early))], [], [], to_steps(figures.minutes), notes,
                None if figures.start is None else to_chance(figures.start), None if figures.begin is None else figures.clock,
                approach=approach, lead=to_steps(figures.lead), early=early)
    if figures.entry:
        road.entry = find_entry(notes, figures.entry, road)
    for km, demand in sorted(figures.ramps, key=lambda ramp: ramp[0]):
        road.inlets.append((find_cell(notes, "the ramp at", km, road), to_rates(demand)))
    road.detectors = [find_cell(notes, "the detector at", km, road) for km in figures.detectors]
    figures = replace_capacities(notes, figures, road)
    road.edits = [*make_section_edits(notes, figures, road), *make_stalled_edits(notes, figures, road)]
    return road


def find_entry(notes: list[str], km: float, road: Road) -> int:
    """Return the number of zones of the entry, and add a note on it. Fault: it is longer than the road."""
    if km > to_km(road.length) + 1e-9:
        raise Fault(f"entry {km:g} km is longer than the road of {to_km(road.length):g} km")
    zones = max(-(-find_bound(km * CELLS_A_KM, road.zone, road.length) // road.zone), 1)
    where = " of the approach" if road.approach else ""
    notes.append(f"nobody is slowed on the first {format_distance(to_km(min(zones * road.zone, road.length)))} km{where} (`entry`), so that the inlet "
                 "admits up to 1,800 cars per hour")
    return zones


def note_if_rounded(notes: list[str], what: str, asked: float, unit: str, taken: int, size: Callable[[int], float]) -> int:
    """Return the number of cells or steps that is used, and add a note if it is not exactly the requested size."""
    if abs(size(taken) - asked) > 1e-9:
        notes.append(f"{what} {asked:g} {unit}: rounded to {format_distance(size(taken))} {unit}")
    return taken


def find_cell(notes: list[str], what: str, km: float, road: Road) -> int:
    """Return the cell of a km, from km 0 on, after the first cell and before the deleted zone. Fault: it is not on the road."""
    cell, first, last = road.to_cell(km), max(road.approach, 1), road.length - 2
    if not first <= cell <= last:
        raise Fault(f"{what} {km:g} km is not on the road: {road.to_km(first):g} to {road.to_km(last):g} km")
    return note_if_rounded(notes, what, km, "km", cell, road.to_km)


def note_rounded_times(notes: list[str], what: str, *minutes: float) -> None:
    """Add a note for each minute that is not a whole step."""
    for minute in minutes:
        note_if_rounded(notes, f"{what}, minute", minute, "min", to_steps(minute), lambda taken: taken / 60)


def find_limit(notes: list[str], what: str, kmh: float) -> int:
    """Return the limit nearest to one in km/h, in cells per step. Fault: it is out of range."""
    taken = to_limit(kmh)
    if taken > FASTEST:
        raise Fault(f"{what} of {kmh:g} km/h is out of range: 0 to {FASTEST * KMH:g} km/h")
    return note_if_rounded(notes, what + " of", kmh, "km/h", taken, lambda cells_a_step: cells_a_step * KMH)


def choose_zone_width(notes: list[str], figures: Figures, length: int) -> int:
    """Return the width of a zone in cells: the given one, or the one whose zones cover the sections best."""
    least, asked = -(-length // MOST_ZONES), to_cells(figures.approach)
    widths: Sequence[int] = range(max(length, asked), least - 1, -1)
    if figures.zone is not None:
        width = note_if_rounded(notes, "a zone of", figures.zone, "km", max(to_cells(figures.zone), 1), to_km)
        if width < least:
            raise Fault(f"zones of {figures.zone:g} km are more than {MOST_ZONES}: use at least {to_km(least):g} km")
        widths = [width]
    most = max(find_longest_approach(width, length) for width in widths)
    fitting = [width for width in widths if has_room(figures, width, length)]
    # With zones of a given width the approach is rounded to whole zones.
    if not fitting or figures.zone is None and asked > most:
        zones, room = "" if figures.zone is None else f" with zones of {figures.zone:g} km", format_distance(to_km(most))
        raise Fault(f"approach {figures.approach:g} km is too long: a road of {figures.length:g} km{zones} leaves {room} km, because approach and road "
                    f"together have at most {MOST_ZONES} zones and {CELLS[-1]:,} cells: " + (f"use at most {room} km" if most else "leave it out")
                    + (", or use wider zones" if zones else ""))
    return choose_width(fitting, [figures], length)


def find_longest_approach(width: int, length: int) -> int:
    """Return the most cells that an approach of whole zones can have before a road of some length."""
    return min(MOST_ZONES - -(-length // width), (CELLS[-1] - length) // width) * width


def count_approach_zones(figures: Figures, width: int) -> int:
    """Return the number of zones of the approach, at least one if there is an approach."""
    return max(round(to_cells(figures.approach) / width), 1) if figures.approach else 0


def has_room(figures: Figures, width: int, length: int) -> bool:
    """Return whether zones of some width leave room for the approach."""
    return count_approach_zones(figures, width) * width <= find_longest_approach(width, length)


def choose_width(widths: Sequence[int], roads: Sequence[Figures], length: int) -> int:
    """Return the width whose zones cover the sections of all roads best, of these the one that fits the approach best, and of these the
    widest."""
    def compare(width: int) -> tuple[float, int, int]:
        approach = count_approach_zones(roads[0], width) * width
        return sum(sum_misfit(road, width, length) for road in roads), abs(approach - to_cells(roads[0].approach)), -width
    return min(widths, key=compare)


def sum_misfit(figures: Figures, width: int, length: int) -> float:
    """Return how far the ends of the sections and of the entry lie from those of the zones that cover them, in cells."""
    found = 0.0
    for section in figures.sections:
        zones = find_covering_zones(section, width, length)
        found += abs(zones.start * width - section.first * CELLS_A_KM) + abs(min(zones.stop * width, length) - section.last * CELLS_A_KM)
    entry = (figures.entry or 0.0) * CELLS_A_KM
    return found + abs(find_bound(entry, width, length) - entry)


def find_bound(place: float, width: int, length: int) -> int:
    """Return the cell of the zone bound nearest to a place in cells. The end of the road is a bound, too."""
    return min(round(place / width) * width, length, key=lambda bound: abs(bound - place))


def find_zones(section: Section, road: Road) -> range:
    """Return the zones of a section."""
    zones, before = find_covering_zones(section, road.zone, road.length - road.approach), road.approach // road.zone
    return range(zones.start + before, zones.stop + before)


def find_covering_zones(section: Section, width: int, length: int) -> range:
    """Return the zones between the bounds nearest to the ends of a section, at least one zone. The last zone of a road may be narrower."""
    first, last = (-(-find_bound(km * CELLS_A_KM, width, length) // width) for km in (section.first, section.last))
    first = min(first, -(-length // width) - 1)
    return range(first, max(last, first + 1))


def replace_capacities(notes: list[str], figures: Figures, road: Road) -> Figures:
    """Return the figures with the limit and the drivers that leave the cars per hour of sections with a capacity, and add a note on each.

    Takes some seconds for each. Fault: a section has a slowing chance, too, or no drivers leave this capacity."""
    found = []
    for section in figures.sections:
        if section.capacity is not None:
            name = f"the section from km {format_distance(section.first)} to {format_distance(section.last)}"
            if section.slowing is not None or section.start is not None:
                raise Fault(f"{name}: a capacity stands for a slowing chance and a slow-to-start chance: leave these out, or the capacity")
            zones = find_zones(section, road)
            cells = min(zones.stop * road.zone, road.length) - zones.start * road.zone
            try:
                works = find_capacity(section.capacity, LIMIT if section.limit is None else section.limit, road.drivers, cells)
            except Fault as fault:
                raise Fault(f"{name}: {fault}") from None
            notes.append(f"{name}: {describe_capacity(works)}")
            section = section._replace(limit=works.limit * KMH, slowing=works.slowing / ALWAYS, start=works.start / ALWAYS, capacity=None)
        found.append(section)
    return dataclasses.replace(figures, sections=found)


def make_section_edits(notes: list[str], figures: Figures, road: Road) -> Iterator[RoadEdit]:
    """Yield an edit for each change of a value of a zone that sections cover."""
    covered = {}
    for section in figures.sections:
        zones = covered[section] = find_zones(section, road)
        name = f"the section from km {section.first:g} to {section.last:g}"
        note_rounded_times(notes, name, section.begin, section.end)
        if not 0 <= section.first < section.last <= figures.length or not 0 <= section.begin < section.end:
            times = [figures.format_time(section.begin), figures.format_time(section.end).removeprefix("minute ")]
            raise Fault(f"{name}, {' to '.join(times)}: it must begin before it ends, on the road and in the run")
        first, last = road.to_km(zones[0] * road.zone), road.to_km(min((zones[-1] + 1) * road.zone, road.length))
        if abs(first - section.first) > 1e-9 or abs(last - section.last) > 1e-9:
            notes.append(f"{name}: rounded to km {format_distance(first)} to {format_distance(last)}, because zones are {format_distance(to_km(road.zone))} km wide")
        if section.limit is not None:
            find_limit(notes, f"{name}: the limit", section.limit)
    for zone in range(road.zones):
        over = [section for section, zones in covered.items() if zone in zones]
        dates = sorted({to_steps(date) for section in over for date in (section.begin, section.end)})
        for kind in ("limit", "slow", "start"):
            before = find_zone_value(kind, over, road, zone, -1)
            for step in dates:
                now = find_zone_value(kind, over, road, zone, step)
                if now is not None and now != before and step < road.steps:
                    yield kind, zone, step, now
                before = now


def find_zone_value(kind: str, over: list[Section], road: Road, zone: int, step: int) -> int | None:
    """Return the value of a zone at a step under the sections over it; None if nothing sets it.

    Standing cars have the slowing chance of all cars unless a section says otherwise."""
    found: dict[str, int | None] = {"limit": road.limit, "slow": road.find_slowing(zone), "start": None if zone < road.entry else road.start}
    for section in over:
        if to_steps(section.begin) <= step < to_steps(section.end):
            given = {"limit": section.limit, "slow": section.slowing, "start": section.start}
            made = {"limit": to_limit, "slow": to_chance, "start": to_chance}
            found.update({name: made[name](value) for name, value in given.items() if value is not None})
    # `start` is set only if some section mentions it.
    plain = found["slow"] if any(section.start is not None for section in over) else None
    return plain if kind == "start" and found["start"] is None else found[kind]


def make_stalled_edits(notes: list[str], figures: Figures, road: Road) -> Iterator[RoadEdit]:
    """Yield the edits that close and open the cell of each stalled car."""
    for car in figures.stalled:
        cell = find_cell(notes, "the stalled car at", car.at, road)
        note_rounded_times(notes, f"the stalled car at km {car.at:g}", car.begin, car.end)
        if not 0 <= car.begin < car.end:
            times = [figures.format_time(car.begin), figures.format_time(car.end).removeprefix("minute ")]
            raise Fault(f"the stalled car at km {car.at:g}, {' to '.join(times)}: it must begin before it ends, in the run")
        yield "block", cell, to_steps(car.begin), 1
        if to_steps(car.end) < road.steps:
            yield "block", cell, to_steps(car.end), 0


Shape = tuple[str, int, int, int, Optional[int], Union[int, tuple[int, int, int, int]]]
"""A value on objects over time: kind, first and last index, first step, step after the last (None: it has no end), value. The value of the
kind `capacity` is the cars per hour, and the limit and the two chances of its zones."""


def make_shapes(figures: Figures, road: Road, chances: Chances) -> Iterator[Shape]:
    """Yield the demand over time, the sections and the stalled cars as shapes, from the lowest layer to the topmost.

    The last demand of an inlet and the slow-to-start chance of the whole road stay in force after the file's last minute."""
    for inlet, changes in enumerate(chances):
        for place, (step, chance) in enumerate(changes[1:], 2):
            yield "inflow", inlet, inlet, step, changes[place][0] if place < len(changes) else None, chance
    if road.start is not None:
        yield "start", road.entry, road.zones - 1, 0, None, road.start
    for section, asked in zip(replace_capacities([], figures, road).sections, figures.sections):
        zones = find_zones(section, road)
        given = {"limit": (section.limit, to_limit), "slow": (section.slowing, to_chance), "start": (section.start, to_chance)}
        found = [(kind, made(value)) for kind, (value, made) in given.items() if value is not None]
        if asked.capacity is not None:
            limit, slowing, start = (value for _, value in found)
            yield "capacity", zones[0], zones[-1], to_steps(section.begin), to_steps(section.end), (round(asked.capacity), limit, slowing, start)
            continue
        for kind, value in found:
            yield kind, zones[0], zones[-1], to_steps(section.begin), to_steps(section.end), value
    for car in figures.stalled:
        yield "block", road.to_cell(car.at), road.to_cell(car.at), to_steps(car.begin), to_steps(car.end), 1


# Changes afterwards

Change = tuple[str, int, int, Optional[int]]
"""An edit: kind, index, step and value. None is a withdrawal."""


def make_all_roads(figures: Sequence[Figures]) -> list[Road]:
    """Return roads of one length with the zones that fit the sections of all best, unless a file sets their width."""
    first = figures[0]
    if len(figures) > 1 and all(one.zone is None for one in figures) and to_cells(first.length) in CELLS:
        every = dataclasses.replace(first, sections=[section for one in figures for section in one.sections])
        figures = [dataclasses.replace(one, zone=to_km(choose_zone_width([], every, to_cells(first.length)))) for one in figures]
    return list(map(make_road, figures))


def find_changes(road: Road, then: Road) -> list[Change]:
    """Return the edits and withdrawals that change one road into the other."""
    before, after = ({put[:3]: put[3] for put in one.edits} for one in (road, then))
    put = [(*key, value) for key, value in after.items() if before.get(key) != value]
    return sorted([*put, *((*key, None) for key in before if key not in after)], key=lambda change: change[:3])


def describe_changes(road: Road, changed: list[Change]) -> list[str]:
    """Return a sentence for each change, in km and minutes and in cells and steps. Neighbouring zones share a sentence."""
    spans: dict[tuple[str, int, int | None, int], range] = {}
    for kind, index, step, value in changed:
        before = spans.pop((kind, step, value, index - 1), range(index, index)) if kind != "block" else range(index, index)
        spans[kind, step, value, index] = range(before.start, index + 1)
    found = sorted((kind, span.start, step, span, value) for (kind, step, value, _), span in spans.items())
    return [describe_change(road, kind, span, step, value) for kind, _, step, span, value in found]


def describe_change(road: Road, kind: str, indexes: range, step: int, value: int | None) -> str:
    """Return a sentence for a change of neighbouring objects."""
    since = f"from {road.format_time(step)} (step {step}) on"
    if kind == "block":
        said = f"closure {since} withdrawn" if value is None else f"{'closed' if value else 'open'} {since}"
        return f"km {format_distance(road.to_km(indexes[0]))} (cell {indexes[0]}): {said}"
    first, last = indexes[0] * road.zone, min((indexes[-1] + 1) * road.zone, road.length)
    zones = f"zone {indexes[0]}" if len(indexes) == 1 else f"zones {indexes[0]}-{indexes[-1]}"
    where = f"km {format_distance(road.to_km(first))} to {format_distance(road.to_km(last))} ({zones}, cells {first} to {last - 1})"
    name = {"limit": "limit", "slow": "slowing", "start": "slowing of standing cars"}[kind]
    if value is None:
        return f"{where}: {name} {since} withdrawn"
    return f"{where}: {name} {f'{value * KMH:g} km/h' if kind == 'limit' else f'{value / ALWAYS:.3g}'} {since}"
