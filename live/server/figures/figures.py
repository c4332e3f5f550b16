"""Measure the figures of some roads in a window. They are the rows of the table of `zegdrut.figures`, which names and defines them.

As a child, this module answers a `FiguresQuestion` with the figures of the steps `first` to `last` - 1; or with {"done": step}, if it has
only read up to that step after `seconds`. A road stays in its slot, so the next question about it only reads rows that are new or that
an edit has changed.
"""
from __future__ import annotations

import math
import time
from collections import OrderedDict
from typing import Iterator, Mapping, Sequence, TypedDict

from zegdrut import Edit, RoadLab
from zegdrut.base import METRES, Units
from zegdrut.base.wire import CountReply, Fields, PlanLine, WrittenEdit
from zegdrut.figures import Figure, FigureRow, Mean as FigureMean, RoadRun, Trips, Window, compare_roads, compute_demands, list_means, measure_roads, pair_roads, read_counts
from zegdrut.figures.lost_demand import AskedRates
from zegdrut.figures.queues import NOBODY_WAITS, Ends, Waits, average_ends, compare_ends, explain_cause, is_of_free_road, is_shown, with_bounds, with_lost
from zegdrut.figures.table import list_shown
from zegdrut.figures.trips import DetectorCount, compute_travel_times_by_entry, count_seconds_on
from zegdrut.figures.waiting import find_arrivals
from zegdrut.program import Script
from zegdrut.reports import Side

from ..model.projection import Edits
from ..program.program import import_lines
from ..program.simulated_roads import rows_of
from . import child

SECONDS = 60.0  # seconds for a question; the next one resumes where this one stopped
STEPS_AT_ONCE = 1_920  # steps that are read at a time
MOST_FIGURE_ROADS = 12  # roads that are kept
NICE = 5  # below editing, above what takes longer
OVER_DAYS = "; over days they wait"  # the end of a sentence on the lost cars of the shown day
ENTRY = 60  # steps: travel times are grouped by the minute in which the cars entered

ComparedRoad = TypedDict("ComparedRoad", {"name": str, "edits": Sequence[WrittenEdit], "demands": Sequence[AskedRates], "capacities": Sequence[int]})
"""A road: what it is called, its edits, the demands that were asked for, by inlet, and the capacities of its works in cars per hour."""
ComparedRoads = TypedDict("ComparedRoads", {
    "plan": PlanLine, "roads": Sequence[ComparedRoad], "first": int, "last": int, "program": str, "origin": int})
"""Two roads or more with the same plan, a window of the steps `first` to `last` - 1, the path of road_lab, and the cell at km 0. Each road
is compared with the first one."""
FiguresQuestion = TypedDict("FiguresQuestion", {"compared": ComparedRoads, "slots": Sequence[str], "seconds": float})
"""A question: roads, the slot of each, and the seconds that the answer may take."""
DetectorFigures = TypedDict("DetectorFigures", {"cars": int, "speeds": int, "flow": "float | None", "speed": "float | None", "on": int})
"""What a detector counted: cars, the sum of their speeds in cells per step, flow in cars per hour, mean speed in km/h; and for how
many seconds it was on."""
Head = TypedDict("Head", {"key": str, "of": "Sequence[int | None]", "label": str, "unit": str, "title": str, "digits": int})
"""A figure: its key, the indexes of its inlet and its detector, its name without and with its unit, and its decimals."""
Mean = Sequence["float | None"]
"""A mean, and the half-width of its interval; None if it is unknown. One day has no interval."""
Row = TypedDict("Row", {"figure": Head, "values": Sequence[Mean], "differences": Sequence[Mean], "bounds": Sequence[str], "words": str})
"""A figure: its value on each road, and each later road minus the first. `bounds` says how the true differences relate to these, such as
"at least", and `words` are sentences that the figure needs."""
MeanTimes = Mapping[str, Sequence["tuple[int, float | None]"]]
"""By the first step of a minute of entry: for each detector, and last for the road's end, the number of cars and their mean seconds."""
FiguresAnswer = TypedDict("FiguresAnswer", {"done": int, "figures": Sequence[Row], "entries": Sequence[MeanTimes]}, total=False)
"""The figures of roads, and the travel times of each; or in `done` the step up to which the roads have been read."""


def write_head(figure: Figure) -> Head:
    """Return a figure in the form of a reply."""
    return {"key": figure.key, "of": list(figure.of), "label": figure.label, "unit": figure.unit, "title": figure.title, "digits": figure.digits}


def list_figures(plan: PlanLine, units: Units, inlets: frozenset[int] = frozenset()) -> list[Figure]:
    """Return the figures that live has of a road. Cars wait before these inlets, on the shown day before none."""
    return [figure for figure in list_shown("live", plan, units) if is_shown(figure, inlets, units)]


def list_heads(plan: PlanLine, units: Units) -> list[Head]:
    """Return the figures that live has of a road in the form of a welcome."""
    return [write_head(figure) for figure in list_figures(plan, units)]


def units_of(compared: ComparedRoads) -> Units:
    """Return the units of places of roads."""
    return Units(METRES, 1.0, compared["origin"])


def compare_all_ends(runs: Sequence[RoadRun]) -> list[Ends]:
    """Compare the cars at the end of a day on the first road with those on each later one."""
    return [compare_ends(before, after) for before, after in pair_roads(runs)]


def write_rows(tables: Sequence[Sequence[FigureRow]], days: Sequence[Sequence[Ends]], waits: Sequence[Sequence[Waits]], compared: ComparedRoads,
               cause: str) -> list[Row]:
    """Return figures in the form of a reply. They say which of them need a word: a detector was off for a while, a road loses cars (`cause` says
    why), or cars wait or are late there at the end. `days` has for each day what `compare_all_ends` returns, and `waits` the queues of the roads."""
    names = [road["name"] for road in compared["roads"]]
    values = {(row.figure.key, *row.of): list_means(tables, place, len(compared["roads"])) for place, row in enumerate(tables[0])}
    places = [(units_of(compared).place(cell), values.get(("lost at", inlet, None)) or values["lost", None, None])
              for inlet, (cell, _) in enumerate(compared["plan"]["inlets"])]
    lost = [{place: means[number].mean or 0.0 for place, means in places} for number in range(len(compared["roads"]))]
    pairs = [pair_roads(day) for day in waits]
    bounded = [with_bounds(rows, pair, [each[place] for each in pairs], average_ends([ends[place] for ends in days]))
               for place, (rows, pair) in enumerate(zip(tables, pair_roads(names)))]
    tables = with_lost(bounded, names, lost, cause)
    found: list[Row] = []
    for rows in zip(*tables):
        row, (inlet, detector) = rows[0], rows[0].of
        found.append({"figure": write_head(row.figure), "values": [list(one) for one in values[row.figure.key, inlet, detector]],
                      "differences": [list(one.difference) for one in rows], "bounds": [one.bound for one in rows],
                      "words": " ".join(dict.fromkeys(words for one in rows for words in one.words)) or describe_off(
                          row, values.get(("on", inlet, detector), ()), compared["last"] - compared["first"])})
    return found


def describe_off(row: FigureRow, on: Sequence[FigureMean], steps: int) -> str:
    """Return a sentence if a detector was off for a part of some steps. `on` has the time in which the detector of a row was on, by road."""
    were_off = [(mean or 0) < steps for mean, _ in on]
    if row.figure.key not in ("cars", "flow", "speed") or not any(were_off):
        return ""
    place = row.figure.label.partition(":")[0].removeprefix("cars at ")
    where = ("all roads" if len(on) > 2 else "both roads") if all(were_off) else "some roads" if sum(were_off) > 1 else "one of the roads"
    return f"The detector at {place} was off for a part of the time on {where}."


def detector_figures(said: CountReply, edits: Sequence[Edit], detector: int, window: Window) -> DetectorFigures:
    """Return what a detector counted in a window, given the program's reply. `edits` are those of detectors, which switch them."""
    count = DetectorCount(said["cars"], said["speeds"], count_seconds_on(edits, detector, window), window.steps)
    return {"cars": count.cars, "speeds": count.speeds, "flow": count.flow, "speed": count.time_mean_speed,
            "on": count.seconds_on}


# In the child

class DrivenRoad:
    """A road that is simulated and read step by step, and whose edits can be replaced."""

    def __init__(self, plan: PlanLine, origin: int) -> None:
        self.plan, self.lab, self.trips = plan, RoadLab(plan), Trips(plan, plan["detectors"], origin=origin)
        self._edits: Edits = {}
        self._count = 0
        self._arrivals: tuple[object, dict[int, list[int]]] = (None, {})

    def become(self, rows: Sequence[WrittenEdit]) -> None:
        """Replace all edits by these rows of an import."""
        edits = edits_of(rows)
        changed = {key: edits.get(key) for key in sorted(edits.keys() | self._edits.keys()) if edits.get(key) != self._edits.get(key)}
        self._edits, first = edits, min((step for _, _, step in changed), default=None)
        if first is not None:
            self._count += 1
            for line in import_lines("road", rows_of(changed, self._count)):
                self.lab.ask(line)
            self.trips.rewind(first)

    def read(self, to: int, until: float) -> None:
        """Simulate and read the road up to a row, or until the monotonic clock passes `until`."""
        while self.trips.horizon < to and time.monotonic() < until:
            end = min(to, self.trips.horizon + STEPS_AT_ONCE)
            self.lab.command("advance", "road", to=end)
            self.trips.follow(self.lab, "road", end)

    def run_of(self, side: Side, window: Window) -> RoadRun:
        """Return its run in a window; `side` is the same road as a script."""
        assert side.free is not None
        key = side.free.commands, side.script is side.free
        if self._arrivals[0] != key:
            self._arrivals = key, find_arrivals(side.script, side.free, window.last)
        return RoadRun(self.trips, window, read_counts(self.lab, "road", range(len(self.plan["detectors"])), [window]), side.demands,
                       arrivals=self._arrivals[1])


def edits_of(rows: Sequence[WrittenEdit]) -> Edits:
    """Return the edits in rows of an import, without those that are withdrawn."""
    return {(kind, index, step): value for kind, index, step, *_, value in rows if value is not None}


def sides_of(compared: ComparedRoads) -> list[Side]:
    """Return roads as scripts, with their demands."""
    found, last, plan = [], compared["last"], compared["plan"].copy()
    plan["replicas"] = ["A"]
    advance: Fields = {"advance": {"at": "A", "to": last}}
    for road in compared["roads"]:
        rows = road["edits"]
        edits = [Edit.read(row) for row in rows_of(dict(sorted(edits_of(rows).items())))]
        of_free = [edit for edit in edits if is_of_free_road(edit)]
        free = Script(plan, [*({"edit": {"at": "A", "object": list(edit.object), "step": edit.step, "value": edit.value}} for edit in of_free), advance])
        script = free if len(of_free) == len(edits) else Script(plan, [*import_lines("A", rows_of(edits_of(rows))), advance])
        found.append(Side(road["name"], script, compute_demands(plan, edits, last, asked=road["demands"]), free, units_of(compared)))
    return found


def times_by_entry(run: RoadRun) -> MeanTimes:
    """Return the travel times of a road by the minute of entry."""
    return {str(step): [(one.cars, one.mean) for one in times]
            for step, times in compute_travel_times_by_entry(run.trips, run.window, ENTRY).items()}


class Roads:
    """The roads of the latest questions, by slot."""

    def __init__(self) -> None:
        self._roads: OrderedDict[str, DrivenRoad] = OrderedDict()

    def road(self, slot: str, plan: PlanLine, origin: int) -> DrivenRoad:
        """Return the road in a slot; a new one if the slot is empty or has another plan."""
        road = self._roads.pop(slot, None)
        if road is not None and road.plan != plan:
            road.lab.close()
            road = None
        self._roads[slot] = road = road or DrivenRoad(plan, origin)
        while len(self._roads) > MOST_FIGURE_ROADS:
            self._roads.popitem(last=False)[1].lab.close()
        return road

    def answer(self, asked: FiguresQuestion) -> Iterator[FiguresAnswer]:
        """Yield the figures of some roads, or up to which step they have been read."""
        compared, until = asked["compared"], time.monotonic() + asked["seconds"]
        window = Window(compared["first"], compared["last"])
        roads = [self.road(slot, compared["plan"], compared["origin"]) for slot in asked["slots"]]
        for road, one in zip(roads, compared["roads"]):
            road.become(one["edits"])
            road.read(window.last, until)
        done = min(road.trips.horizon for road in roads)
        if done < window.last:
            yield {"done": done}
            return
        sides = sides_of(compared)
        runs = [road.run_of(side, window) for road, side in zip(roads, sides)]
        figures = list_figures(compared["plan"], units_of(compared))
        tables = compare_roads(figures, [measure_roads(figures, runs)])
        cause = explain_cause([side.script for side in sides]) or OVER_DAYS
        yield {"figures": write_rows(tables, [compare_all_ends(runs)], [[NOBODY_WAITS] * len(runs)], compared, cause),
               "entries": [*map(times_by_entry, runs)]}


if __name__ == "__main__":
    child.serve(Roads().answer)
