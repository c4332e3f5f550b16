"""Compute the figures of two roads from the cars of each step alone, and make random roads for tests of figures."""
from __future__ import annotations

import functools
import random
import statistics
from typing import Any, Sequence

from server.journal.entries import read_plan_line
from zegdrut import RoadLab

STEPS = 420
LONG = 200_000  # steps of a run that shows what a chance admits
Wanted = dict["tuple[str, int | None, int | None]", "list[float | None]"]
"""By key, inlet and detector: a figure before and after a change, and the difference."""


def random_plan(chance: random.Random) -> dict[str, Any]:
    """Return a road of 0.9 to 1.8 km, with a ramp or without, whose detectors are all downstream of the first inlet."""
    length = chance.randrange(120, 241)
    slowing = chance.choice([0, 0, 6_554, 16_384])
    ramp = [[chance.randrange(30, 70), chance.randrange(2_000, 9_000)]] if chance.random() < 0.6 else []
    return {"length": length, "exit": 1, "zone": 20, "zones": [[chance.choice([3, 4, 5]), slowing]] * -(-length // 20),
            "inlets": [[0, chance.randrange(6_000, 34_000)], *ramp], "words": chance.randrange(1_000),
            "detectors": sorted(chance.sample(range(10, length - 15), 3)), "replicas": ["road"]}


def random_shapes(plan: dict[str, Any], chance: random.Random, steps: int = STEPS) -> list[list[Any]]:
    """Return random shapes of all kinds, with an end or without."""
    found = []
    for kind, there in (("limit", len(plan["zones"])), ("slow", len(plan["zones"])), ("start", len(plan["zones"])),
                        ("block", plan["length"] - 1), ("inflow", len(plan["inlets"])), ("watch", 3)):
        for _ in range(chance.choice([0, 1, 1, 2])):
            first, begin = chance.randrange(there), chance.randrange(1, steps)
            last = first if kind in ("inflow", "watch") else min(there - 1, first + chance.randrange(3))
            end = None if kind != "block" and chance.random() < 0.3 else begin + chance.randrange(20, 200)
            value = {"limit": chance.randrange(1, 4), "block": 1, "watch": 0, "inflow": chance.randrange(0, 30_000)}.get(
                kind, chance.randrange(60_000))
            found.append([kind, first, last, begin, end, value])
    return found


class Run:
    """The replies to `cars` at each step: when each car entered, passed each detector and left, and in which rows it was on the road."""

    def __init__(self, plan: dict[str, Any], edits: Sequence[Any], steps: int, origin: int = 0) -> None:
        """`origin` is the cell at km 0."""
        self.plan, self.edits, self.origin = plan, edits, origin
        self.rows: list[int] = []  # the number of cars in each row
        self.on_approach: list[int] = []  # those of them before km 0
        self.seen: dict[int, tuple[int, int]] = {}  # by car: the first row that has it, and the last one
        self.left: dict[int, int] = {}  # by car: the step in which it left
        self.passed: list[dict[int, int]] = [{} for _ in plan["detectors"]]  # by car: the step in which it passed
        self.speeds: list[dict[int, int]] = [{} for _ in plan["detectors"]]
        with RoadLab(read_plan_line(plan)) as lab:
            if edits:
                lab.ask({"import": {"at": "road", "edits": list(edits), "form": 2}})
            lab.command("advance", "road", to=steps)
            before: dict[int, int] = {}
            for row in range(steps + 1):
                cars: Any = lab.command("cars", "road", step=row)["cars"]
                before = self.read(row, before, cars)

    def read(self, row: int, before: dict[int, int], cars: Sequence[tuple[int, int, int]]) -> dict[int, int]:
        """Read a row, which the step `row` - 1 has made. Return the cell of each car."""
        self.rows.append(len(cars))
        self.on_approach.append(sum(cell < self.origin for _, cell, _ in cars))
        for number, cell, speed in cars:
            start = before.get(number, self.plan["inlets"][number % 16][0])  # before its step of entry a car is at its inlet
            self.seen[number] = self.seen.get(number, (row, row))[0], row
            for detector, site in enumerate(self.plan["detectors"]):
                if start < site <= cell:
                    self.passed[detector][number], self.speeds[detector][number] = row - 1, speed
        now = {number: cell for number, cell, _ in cars}
        self.left.update((number, row - 1) for number in before if number not in now)
        return now

    def arrivals(self) -> list[dict[int, int]]:
        """Return, for each detector and last for the road's end, the step in which each car arrives there."""
        return [*self.passed, self.left]

    def seconds(self, number: int, first: int, last: int) -> int:
        """Return the rows of a window that have a car."""
        begin, end = self.seen[number]
        return max(min(end, last) - max(begin, first + 1) + 1, 0)

    @functools.cached_property
    def came(self) -> list[list[int] | None]:
        """Return the steps in which cars arrive at each inlet: at the first one as if it were alone on a long road, at a ramp as on the road
        with its demand alone. None: works do not hold back a ramp, or cars of the main road cannot enter even without works."""
        plan, steps = self.plan, len(self.rows) - 1
        of_demand = [edit for edit in self.edits if edit[0] == "inflow" or edit[0] == "start" and edit[2] == 0]
        here = [edit for edit in of_demand if edit[1] == 0 or edit[0] == "start"]
        alone = Run({**plan, "length": 400, "zones": plan["zones"][:1] * 20, "inlets": plan["inlets"][:1], "detectors": []}, here, steps)
        free = Run({**plan, "detectors": []}, of_demand, steps)
        entries = [[sorted(number // 16 for number in run.seen if number % 16 == inlet) for inlet in range(len(plan["inlets"]))] for run in (alone, free)]
        is_free = entries[0][0] == entries[1][0] and len(of_demand) < len(self.edits)
        return [entries[0][0], *(each if is_free else None for each in entries[1][1:])]

    def on(self, detector: int, first: int, last: int) -> list[bool]:
        """Return whether a detector is on in each step of a window."""
        watch = sorted((edit[2], edit[-1]) for edit in self.edits if edit[:2] == ["watch", detector] and edit[-1] is not None)
        return [bool(next((value for begin, value in reversed(watch) if begin <= step), 1)) for step in range(first, last)]

    def detector(self, detector: int, first: int, last: int) -> dict[str, Any]:
        """Return what a detector counts in a window."""
        is_on = self.on(detector, first, last)
        speeds = [self.speeds[detector][number] for number, step in self.passed[detector].items() if first <= step < last and is_on[step - first]]
        cars, on = len(speeds), sum(is_on)
        return {"cars": cars, "speeds": sum(speeds), "flow": cars * 3_600 / on if on else None,
                "speed": sum(speeds) / cars * 27 if cars else None, "on": on}

    def hours(self, first: int, last: int) -> float:
        return sum(self.rows[first + 1:last + 1]) / 3_600

    def approach_hours(self, first: int, last: int) -> float:
        return sum(self.on_approach[first + 1:last + 1]) / 3_600

    def admitted(self, first: int, last: int) -> list[float]:
        return [float(sum(number % 16 == inlet and first <= number // 16 < last for number in self.seen))
                for inlet in range(len(self.plan["inlets"]))]

    def travel(self, place: int, inlet: int, first: int, last: int) -> float | None:
        """Return the mean travel time in seconds of the cars from an inlet that arrive at a place in a window: at a detector, or at the
        road's end, which follows the detectors."""
        times = [step - number // 16 for number, step in self.arrivals()[place].items() if number % 16 == inlet and first <= step < last]
        return statistics.mean(times) if times else None

    def by_entry(self, first: int, last: int) -> dict[str, list[list[float | None]]]:
        """Return, by the first step of each minute of entry, the cars that arrived at each detector and at the road's end, and their mean
        travel time in seconds."""
        found: dict[str, list[list[float | None]]] = {}
        for minute in range(first, last, 60):
            each = [[step - number // 16 for number, step in steps.items() if minute <= number // 16 < min(minute + 60, last) and step < last]
                    for steps in self.arrivals()]
            if any(each):
                found[str(minute)] = [[len(times), statistics.mean(times) if times else None] for times in each]
        return found

    def chance_at(self, inlet: int, step: int) -> int:
        """Return the inflow chance of an inlet at a step."""
        puts = sorted((edit[2], edit[-1]) for edit in self.edits if edit[:2] == ["inflow", inlet] and edit[-1] is not None)
        value: int = next((value for begin, value in reversed(puts) if begin <= step), self.plan["inlets"][inlet][1])
        return value

    def start(self, cell: int) -> int | None:
        """Return the slow-to-start chance of a cell's zone from step 0 on."""
        zone = ["start", cell // self.plan["zone"], 0]
        return next((edit[-1] for edit in self.edits if edit[:3] == zone), None)

    def asked(self, inlet: int, first: int, last: int) -> float:
        """Return the demand of an inlet in cars: what its chances admit on the plan's road, in a long run."""
        states = [tuple(self.chance_at(one, step) for one in range(len(self.plan["inlets"]))) for step in range(first, last)]
        return sum(states.count(state) / 3_600 * flow(self.plan, state, inlet, self.start(self.plan["inlets"][inlet][0]))
                   for state in sorted(set(states)))


KNOWN: dict[Any, float] = {}


def flow(plan: dict[str, Any], chances: tuple[int, ...], inlet: int, start: int | None) -> float:
    """Return the cars per hour that an inlet admits with these chances on a road without works, in a long run with another
    seed."""
    key = str(plan["zones"][0]), str([cell for cell, _ in plan["inlets"]]), chances[:inlet + 1], inlet, start
    if key not in KNOWN:
        cells = [cell for cell, _ in plan["inlets"]]
        length = cells[inlet] + 150
        road = {**plan, "length": length, "zone": length, "zones": plan["zones"][:1], "words": 4_321, "replicas": ["A"],
                "inlets": [[cells[one], chances[one]] for one in range(inlet + 1)], "detectors": [cells[inlet] + 50, *cells[1:inlet + 1]]}
        with RoadLab(read_plan_line(road)) as lab:
            if start is not None:
                lab.edit("A", ("start", 0), 0, start)
            lab.command("advance", "A", to=1_000 + LONG)
            behind, *at = (lab.count("A", detector, 1_000, 1_000 + LONG).cars for detector in range(len(road["detectors"])))
        KNOWN[key] = (behind - (at[-1] if at else 0)) * 3_600 / LONG
    return KNOWN[key]


def compare(before: Run, after: Run, first: int, last: int) -> dict[str, Any]:
    """Return the cost of the change from one road to another in a window: the delay in vehicle hours, and for each place the cars
    that both roads have and their mean delay."""
    both = before.seen.keys() & after.seen.keys()
    delay = sum(after.seconds(number, first, last) - before.seconds(number, first, last) for number in both if number // 16 < last)
    later: list[list[float | None]] = []
    for early, late in zip(before.arrivals(), after.arrivals()):
        more = [late[number] - early[number] for number in early.keys() & late.keys()
                if max(early[number], late[number]) < last and number // 16 >= first]
        later.append([len(more), statistics.mean(more) if more else None])
    return {"delay_hours": delay / 3_600, "later": later}


def figures_of(before: Run, after: Run, first: int, last: int) -> Wanted:
    """Return the figures of two roads in a window but demand and lost demand."""
    plan, cost = before.plan, compare(before, after, first, last)
    found: Wanted = {("delay", None, None): [None, None, cost["delay_hours"]]}

    def both(key: str, inlet: int | None, detector: int | None, values: list[float | None]) -> None:
        early, late = values
        found[key, inlet, detector] = [early, late, None if early is None or late is None else late - early]
    roads = (before, after)
    both("hours", None, None, [run.hours(first, last) - run.approach_hours(first, last) for run in roads])
    if before.origin:
        both("approach hours", None, None, [run.approach_hours(first, last) for run in roads])
        both("all hours", None, None, [run.hours(first, last) for run in roads])
    both("admitted", None, None, [sum(run.admitted(first, last)) for run in (before, after)])
    places = [*range(len(plan["detectors"])), None]
    for inlet, (cell, _) in enumerate(plan["inlets"]):
        if len(plan["inlets"]) > 1:
            both("admitted at", inlet, None, [run.admitted(first, last)[inlet] for run in (before, after)])
        for place, detector in enumerate(places):
            if detector is None or cell < plan["detectors"][detector]:
                both("travel", inlet, detector, [run.travel(place, inlet, first, last) for run in (before, after)])
    for place, detector in enumerate(places):
        found["delay at", None, detector] = [None, None, cost["later"][place][1]]
        if detector is not None:
            counts = [run.detector(detector, first, last) for run in (before, after)]
            for key in ("cars", "flow", "speed", "on"):
                both(key, None, detector, [one[key] for one in counts])
    return found
