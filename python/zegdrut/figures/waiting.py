"""Let the cars that cannot enter wait before the road, so that a queue that reaches an inlet is not lost.

    queues = let_wait(lab, "A", find_arrivals(script, free, last=7_200), last=7_200)
    queues[0].waiting[3_600]                             # the cars that wait before inlet 0 after step 3,600

The arrivals of an inlet are the steps in which cars would enter if the road were free. As soon as fewer cars have entered, the inlet
admits whoever finds its cell free, until as many cars have entered as have arrived; then the settings of the road return. At the main inlet nobody is slowed in the first zone meanwhile, since a queue there would start as a jam does, from standing.
All of this is done by edits, to the step.
"""
from __future__ import annotations

import dataclasses
from collections import Counter
from dataclasses import dataclass, field
from itertools import accumulate
from typing import Mapping, Sequence

from ..base.units import ALWAYS, to_cells, to_km
from ..base.wire import Fields, PlanLine
from ..program.lab import RoadLab
from ..program.records import Edit, Object
from ..program.road_rows import FASTEST
from ..program.scripts import Script
from ..roads.road_in_cells import MOST_ZONES, Figures, Road, choose_width, has_room, make_all_roads, sum_misfit
from .lost_demand import LEAST_AT_RAMP
from .trips import INLETS, Trips, entry_inlet, entry_step

PIECE = 600
"""Steps that are read at a time."""
FREE_ROAD = 250
"""The cells of a free road on which the arrivals of the main inlet are found."""
LONGEST_ZONE = 200
"""The first zone admits a queue only if it has at most these cells (1.5 km)."""

Arrivals = Mapping[int, Sequence[int]]
"""The steps in which cars arrive, by the inlet's index."""


@dataclass
class Queue:
    """The queue before an inlet."""

    waiting: list[int] = field(default_factory=list)
    """The cars that wait after each step."""
    missing: int = 0
    """The arrivals up to a step, minus the cars that have entered."""
    is_open: bool = False
    """Whether cars wait."""

    def count(self, has_arrived: bool, has_entered: bool, least: int) -> bool:
        """Count a step, and return whether cars begin or cease to wait with it. They begin when `least` cars are missing."""
        was_open = self.is_open
        self.missing += has_arrived - has_entered
        self.is_open = self.missing >= (1 if was_open else least)
        self.waiting.append(self.missing if self.is_open else 0)
        return was_open != self.is_open


class Timeline:
    """The values of an object over time on the road without a queue, and the edits that change them for a queue."""

    def __init__(self, lab: RoadLab, at: str, thing: Object, edits: Sequence[Edit], default: int) -> None:
        self.lab, self.at, self.thing = lab, at, thing
        self.edited = {edit.step: edit.value for edit in edits if tuple(edit.object) == thing and edit.value is not None}
        self.values = sorted({0: default, **self.edited}.items())
        self.changed: set[int] = set()

    def put(self, step: int, held: int | None) -> None:
        """Hold a value from a step on, or return to the values of the road if `held` is None."""
        value = [value for date, value in self.values if date <= step][-1]
        for date, value in [(step, value), *((date, value) for date, value in self.values if date > step)]:
            self.lab.edit(self.at, self.thing, date, value if held is None else held)
            self.changed.add(date)

    def withdraw(self) -> None:
        """Withdraw all values that were put."""
        for date in sorted(self.changed):
            if date in self.edited:
                self.lab.edit(self.at, self.thing, date, self.edited[date])
            else:
                self.lab.withdraw(self.at, self.thing, date)
        self.changed.clear()


def find_main(plan: PlanLine) -> int:
    """Return the index of the main inlet, which is the one farthest upstream. The others are ramps."""
    return min(range(len(plan["inlets"])), key=lambda inlet: int(plan["inlets"][inlet][0]))


def make_timelines(lab: RoadLab, at: str, inlet: int) -> list[tuple[Timeline, int]]:
    """Return what a queue before an inlet changes, with the values that it holds."""
    plan, edits = lab.plan, lab.scenario(at)
    found = [(Timeline(lab, at, ("inflow", inlet), edits, plan["inlets"][inlet][1]), ALWAYS)]
    if inlet == find_main(plan) and plan["zone"] <= LONGEST_ZONE:
        zone = int(plan["inlets"][inlet][0]) // plan["zone"]
        objects: tuple[Object, Object] = ("slow", zone), ("start", zone)
        slow, start = (Timeline(lab, at, thing, edits, plan["zones"][zone][1]) for thing in objects)
        if not any(tuple(edit.object) == ("start", zone) for edit in edits):
            start.values = slow.values  # (standing cars are slowed as moving ones are)
        found += [(one, 0) for one in (slow, start) if any(value for _, value in one.values)]
    return found


def can_wait(script: Script) -> bool:
    """Return whether cars can wait before the main inlet of a road: its zone is narrow enough to be held free, or nobody is ever slowed there."""
    plan, main = script.plan, find_main(script.plan)
    zone = int(plan["inlets"][main][0]) // plan["zone"]
    edited = [edit["value"] for line in script.commands if isinstance(edit := line.get("edit"), dict)
              and tuple(edit["object"]) in (("slow", zone), ("start", zone))]
    return plan["zone"] <= LONGEST_ZONE or not any([plan["zones"][zone][1], *edited])


def explain_wide_zone(script: Script) -> str:
    """Return why the cars of a road that cannot enter are lost; an empty string if they can wait."""
    return "" if can_wait(script) else f", because cars can wait only before a first zone of at most {to_km(LONGEST_ZONE):g} km"


def find_narrow_zone(width: int, roads: Sequence[Figures]) -> int:
    """Return the width of the widest zones of at most LONGEST_ZONE cells that fit some roads as well as zones of `width` cells do.

    It is `width` if there are none, or if a file sets the width."""
    length = to_cells(roads[0].length)
    if width <= LONGEST_ZONE or roads[0].zone is not None:
        return width
    misfits = {one: sum(sum_misfit(road, one, length) for road in roads)
               for one in (width, *range(-(-length // MOST_ZONES), LONGEST_ZONE + 1)) if has_room(roads[0], one, length)}
    narrow = [one for one, misfit in misfits.items() if one <= LONGEST_ZONE and misfit <= misfits[width]]
    return choose_width(narrow or [width], roads, length)


def make_waiting_roads(figures: Sequence[Figures]) -> list[Road]:
    """Return roads before which cars can wait: the first zone has at most LONGEST_ZONE cells, unless a file sets the width."""
    roads = make_all_roads(figures)
    zone = find_narrow_zone(roads[0].zone, figures)
    return roads if zone == roads[0].zone else make_all_roads([dataclasses.replace(one, zone=to_km(zone)) for one in figures])


def find_entries(lab: RoadLab, at: str, inlet: int, first: int, last: int) -> list[int]:
    """Return the steps from `first` to `last` - 1 in which cars enter at an inlet."""
    end = lab.plan["length"] - lab.plan["exit"]
    apart = max((end - max(int(cell) for cell, _ in lab.plan["inlets"])) // FASTEST, 1)  # (no car leaves in so few steps)
    seen = {car.number for step in (*range(first + apart, last, apart), last) for car in lab.cars(at, step)}
    return sorted(entry_step(number) for number in seen if entry_inlet(number) == inlet and entry_step(number) >= first)


class Queues:
    """The queues before the inlets of `arrivals` while the replica `at` is simulated, from step 0 on."""

    def __init__(self, lab: RoadLab, at: str, arrivals: Arrivals) -> None:
        self.lab, self.at, self.step = lab, at, 0
        self.of_inlet = {inlet: Queue() for inlet in arrivals}
        self._timelines = {inlet: make_timelines(lab, at, inlet) for inlet in arrivals}
        self._arrivals = {inlet: frozenset(steps) for inlet, steps in arrivals.items()}
        self._main = find_main(lab.plan)

    def advance(self, last: int) -> None:
        """Simulate the replica up to step `last`, and let cars wait."""
        while self.step < last:
            first, end = self.step, min(self.step + PIECE, last)
            self.lab.advance(self.at, end)
            entered = {inlet: frozenset(find_entries(self.lab, self.at, inlet, first, end)) for inlet in self.of_inlet}
            changed: list[int] = []
            while self.step < end and not changed:
                changed = [inlet for inlet, queue in self.of_inlet.items() if queue.count(
                    self.step in self._arrivals[inlet], self.step in entered[inlet], 1 if inlet == self._main else LEAST_AT_RAMP)]
                self.step += 1
            for inlet in changed:
                for timeline, held in self._timelines[inlet]:
                    timeline.put(self.step, held if self.of_inlet[inlet].is_open else None)

    def withdraw(self) -> None:
        """Withdraw what the queues changed, so that the road has its own settings again."""
        for timelines in self._timelines.values():
            for timeline, _ in timelines:
                timeline.withdraw()


def let_wait(lab: RoadLab, at: str, arrivals: Arrivals, last: int) -> dict[int, Queue]:
    """Run the replica `at` up to step `last`, and let cars wait before the inlets of `arrivals`. Return the queue of each."""
    queues = Queues(lab, at, arrivals)
    queues.advance(last)
    return queues.of_inlet


def ask_edits(lab: RoadLab, commands: Sequence[Fields]) -> None:
    """Carry out the commands of a script, without its advance."""
    for line in commands:
        if "advance" not in line:
            lab.ask(line)


def find_arrivals(script: Script, free: Script, last: int) -> dict[int, list[int]]:
    """Return the arrivals at the inlets of a road. `free` is its script without works.

    Those at the main inlet are the entries on a short free road, those at a ramp the entries on the road without works, if it has works."""
    main = find_main(script.plan)
    found = {main: find_main_arrivals(free, last)}
    ramps = [inlet for inlet in range(len(script.plan["inlets"])) if inlet != main]
    if ramps and script.commands != free.commands:
        with RoadLab(free.plan) as lab:
            ask_edits(lab, free.commands)
            let_wait(lab, "A", found, last)
            found.update({ramp: find_entries(lab, "A", ramp, 0, last) for ramp in ramps})
    return found


def find_main_arrivals(free: Script, last: int) -> list[int]:
    """Return the entries at the main inlet on a free road with the same first zones."""
    plan, main = free.plan.copy(), find_main(free.plan)
    cell, chance = plan["inlets"][main]
    length = min(cell + FREE_ROAD, MOST_ZONES * plan["zone"])
    zones = -(-length // plan["zone"])
    shut = [[cell + 1 + inlet, 0] for inlet in range(main)]  # (the random words of an inlet belong to its index)
    plan.update({"length": length, "zone": min(plan["zone"], length), "inlets": [*shut, [cell, chance]], "detectors": [],
                 "zones": [plan["zones"][min(zone, len(plan["zones"]) - 1)] for zone in range(zones)]})
    with RoadLab(plan) as lab:
        ask_edits(lab, [line for line in free.commands if is_edit_there(line, main, zones)])
        lab.advance("A", last)
        return find_entries(lab, "A", main, 0, last)


def is_edit_there(line: Fields, inlet: int, zones: int) -> bool:
    """Return whether a line edits an inlet or one of the first zones."""
    edit = line.get("edit")
    if not isinstance(edit, dict):
        return False
    kind, index = edit["object"]
    return bool(index == inlet if kind == "inflow" else index < zones and kind in ("limit", "slow", "start"))


def name_by_arrival(trips: Trips, arrivals: Arrivals, queues: Mapping[int, Queue]) -> Trips:
    """Number the cars of an inlet by their arrivals if cars waited there. The first car that entered is the first that arrived, and so on.

    The trips must begin at step 0. Waiting cars count as being on the road. So a car has one number on two roads even if it waited, and
    its travel time includes the wait."""
    names: dict[int, int] = {}
    still: list[int] = []
    for inlet, queue in queues.items():
        if any(queue.waiting):
            arrived = [step * INLETS + inlet for step in arrivals[inlet] if step < trips.horizon]
            entered = sorted(number for number in trips.left if entry_inlet(number) == inlet)
            # Cars that entered although nobody arrived keep their numbers.
            more = max(len(entered) - len(arrived), 0)
            others = set([number for number in entered if number not in set(arrived)][-more:] if more else [])
            entered = [number for number in entered if number not in others]
            names.update(zip(entered, arrived))
            still += arrived[len(entered):]
    if not names and not still:
        return trips
    changes = Counter(entry_step(number) + 1 for number in (*names.values(), *still))
    changes.subtract(Counter(entry_step(number) + 1 for number in names))
    more_cars = accumulate(changes[trips.first + row] for row in range(len(trips.cars)))
    return dataclasses.replace(trips, left={**{names.get(number, number): step for number, step in trips.left.items()}, **dict.fromkeys(still)},
                               passed=[{names.get(number, number): step for number, step in steps.items()} for steps in trips.passed],
                               cars=[cars + more for cars, more in zip(trips.cars, more_cars)])
