"""Run a day of a road before which cars wait if they cannot enter, and say what its figures need then.

    road = read_road("works.jsonl", script)                       # a script of any kind as a plan, its edits and an advance
    run = run_day(road.script, road.free, Window(0, road.last))
    run.list_waiting(0), run.by_arrival                           # the cars that wait before inlet 0; the cars by their arrivals

The rule is in `zegdrut.figures.waiting`.
"""
from __future__ import annotations

import dataclasses
import math
from typing import Mapping, NamedTuple, Sequence

from ..base.units import HOUR, Units, count_things
from ..base.wire import Fields
from ..program.lab import RoadLab
from ..program.records import Edit
from ..program.scripts import Script, choose_replica, open_edited
from ..roads.capacity import NEAR_OUTFLOW, measure_outflow
from ..roads.demand import Drivers, Rates
from .lost_demand import find_drivers
from .simulation import RoadRun, read_run
from .table import FREEWAY, Bound, Figure, FigureRow, count_lost, pair_roads
from .trips import Window, entry_inlet, entry_step
from .waiting import ask_edits, can_wait, explain_wide_zone, find_arrivals, find_main, let_wait, name_by_arrival

WAITING_KEYS = ("wait", "wait queue", "wait end")
"""The figures of cars that wait before the road, which are shown if cars wait."""
GROWING_KEYS = ("delay", "together", "all hours", *WAITING_KEYS)
"""The figures that are too small if cars still wait in the last row."""


class EditedRoad(NamedTuple):
    """A road that a script leaves: the script of its winning edits, the script of the same road without works, and its last step."""

    script: Script
    free: Script
    edits: list[Edit]
    last: int

    @property
    def drivers(self) -> Drivers:
        """Return the drivers at the main inlet."""
        plan = self.script.plan
        return find_drivers(plan, self.edits, int(plan["inlets"][find_main(plan)][0]))


def read_road(name: object, script: Script, at: str | None = None) -> EditedRoad:
    """Carry out a script, and return the road of the replica `at`, by default the first one.

    Without works a road has the edits of its demand, and those of slow-to-start in step 0. Fault: a line is refused. `name` names the script
    in the message. Refused: there is no such replica."""
    with open_edited(str(name), script) as lab:
        replica = choose_replica(lab, at)
        last, edits = lab.advance(replica, 0), lab.scenario(replica)
    plan = script.plan.copy()
    plan["replicas"] = ["A"]
    lines: list[tuple[Edit, Fields]] = [(edit, {"edit": {"at": "A", "object": list(edit.object), "step": edit.step, "value": edit.value}})
                                        for edit in edits if edit.value is not None]
    advance: Fields = {"advance": {"at": "A", "to": last}}
    return EditedRoad(Script(plan, [*(line for _, line in lines), advance]),
                      Script(plan, [*(line for edit, line in lines if is_of_free_road(edit)), advance]), edits, last)


def read_roads(names: Sequence[object], scripts: Sequence[Script], at: str | None = None) -> list[EditedRoad]:
    """Carry out scripts, and return their roads, up to the last step of any of them. The errors are those of `read_road`."""
    roads = [read_road(name, script, at) for name, script in zip(names, scripts)]
    last = max(road.last for road in roads)
    return [road._replace(last=last) for road in roads]


def is_of_free_road(edit: Edit) -> bool:
    """Return whether the road without works has an edit, too: of an inflow, or of slow-to-start in step 0."""
    kind = edit.object[0]
    return kind == "inflow" or kind == "start" and edit.step == 0


def run_day(script: Script, free: Script | None, window: Window, demands: Sequence[Rates] = (), detectors: Sequence[int] | None = None,
            period: int | None = None, with_passings: bool = True, with_rows: bool = False, seconds: float = 1.0,
            origin: int = 0) -> RoadRun:
    """Run a script up to the end of a window. Cars wait before its inlets if `free`, its script without works, is given and they can wait;
    otherwise cars that cannot enter are lost. `read_run` describes the other arguments."""
    with RoadLab(script.plan) as lab:
        ask_edits(lab, script.commands)
        arrivals, waits = ({}, False) if free is None else (find_arrivals(script, free, window.last), can_wait(script))
        queues = let_wait(lab, "A", arrivals if waits else {}, window.last)
        run = read_run(lab, "A", window, demands, detectors, period, with_passings, with_rows, seconds, origin)
    return dataclasses.replace(run, arrived=name_by_arrival(run.trips, arrivals, queues), arrivals={} if waits else arrivals,
                               waiting={inlet: queue.waiting for inlet, queue in queues.items()})


# What the figures need

class Waits(NamedTuple):
    """The queues of a run in its window."""

    inlets: frozenset[int]
    """The inlets before which cars wait."""
    is_growing: bool
    """Whether cars still wait in the last row."""
    arriving: float | None
    """The cars per hour that arrive at the main inlet while cars wait there; None if nobody waits there."""

    @staticmethod
    def of(run: RoadRun) -> Waits:
        """Return the queues of a run."""
        main = find_main(run.trips.plan)
        steps = {run.window.first + place for place, cars in enumerate(run.list_waiting(main)) if cars}
        arrived = sum(entry_inlet(number) == main and entry_step(number) in steps for number in run.by_arrival.left)
        return Waits(frozenset(inlet for inlet in run.waiting if any(run.list_waiting(inlet))),
                     any(any(run.list_waiting(inlet)[-1:]) for inlet in run.waiting),
                     arrived * HOUR / (len(steps) * run.seconds) if steps else None)


NOBODY_WAITS = Waits(frozenset(), False, None)
"""The queues of a run in which all cars can enter, or those that cannot enter are lost."""


def find_inlets(days: Sequence[Sequence[Waits]]) -> frozenset[int]:
    """Return the inlets before which cars wait on some day of some road."""
    return frozenset().union(*(waits.inlets for day in days for waits in day))


def is_shown(figure: Figure, inlets: frozenset[int], units: Units = FREEWAY) -> bool:
    """Return whether a figure is shown if cars wait before some inlets. Figures of queues are left out if nobody waits."""
    return bool(inlets or units.origin) if figure.key == "all hours" else figure.key not in WAITING_KEYS or figure.of.inlet in inlets


class Ends(NamedTuple):
    """The cars that are on two roads, or wait before them, at the end of their runs."""

    before: float = 0
    after: float = 0
    more: float = 0
    """Of the cars that entered both roads, how many more are still on the second one."""

    @property
    def is_late(self) -> list[bool]:
        """Return for each road whether its run ends too early: whether it has more cars than the other one, at least one, beyond the chance of a day."""
        chance = 2 * math.sqrt(min(self.before, self.after))
        return [more > chance and more >= 1 for more in (-self.more, self.more)]


def compare_ends(before: RoadRun, after: RoadRun) -> Ends:
    """Compare the cars that are on two roads, or wait before them, at the end of a day, which is that of their windows."""
    one, other = map(list_last_cars, (before, after))
    known = before.by_arrival.left.keys() & after.by_arrival.left.keys()
    return Ends(len(one), len(other), len(other & known) - len(one & known))


def list_last_cars(run: RoadRun) -> set[int]:
    """Return the cars that are on a road, or wait before it, at the end of the window."""
    last = run.window.last
    return {number for number, left in run.by_arrival.left.items() if entry_step(number) < last and (left is None or left >= last)}


def average_ends(days: Sequence[Ends]) -> Ends:
    """Return the means over some days."""
    return Ends(*(math.fsum(values) / len(days) for values in zip(*days)))


def explain_end(names: Sequence[str], days: Sequence[Sequence[Waits]], ends: Ends) -> str:
    """Return a sentence that says on which road the run ends too early: cars still wait in its last row, or they are late there. An empty string if
    on none."""
    grow = find_growing(days)
    words = explain_growing(names, grow)
    if not any(is_late and not grows for is_late, grows in zip(ends.is_late, grow)):
        return words
    there, here = names if ends.more > 0 else reversed(names)
    late = (f"The run ends too early: at its end the road {here} has {count_things(round(abs(ends.more)), 'more car')} than the road {there}. The figures of "
            "delay do not include what these cars lose later: let the run end later.")
    return f"{words} {late}".strip()


def with_bounds(rows: Sequence[FigureRow], names: Sequence[str], days: Sequence[Sequence[Waits]], ends: Ends = Ends()) -> list[FigureRow]:
    """Return rows that say which figures are bounds, because cars of some roads still wait in the last row, or are late there. `names` are those of
    the roads, and `ends` are the means over the days of two roads."""
    grow, words = find_growing(days), explain_end(names, days, ends)

    def with_bound(row: FigureRow) -> FigureRow:
        key = row.figure.key
        early = [key in GROWING_KEYS and grows or key in HOURS_KEYS and is_late for grows, is_late in zip(grow, ends.is_late)]
        return dataclasses.replace(row, bound=find_bound(early), words=(words,) if any(early) else ())
    return [with_bound(row) for row in rows]


def find_growing(days: Sequence[Sequence[Waits]]) -> list[bool]:
    """Return for each road whether cars still wait in the last row of one of its days."""
    return [any(waits.is_growing for waits in road) for road in zip(*days)]


def find_bound(grow: Sequence[bool]) -> Bound:
    """Return how the figures of delay relate to the true ones, if cars of some roads still wait in the last row."""
    *before, after = grow
    return "" if not any(grow) else "at most" if not after else "unknown" if any(before) else "at least"


def explain_growing(names: Sequence[str], grow: Sequence[bool]) -> str:
    """Return a sentence that says on which roads cars still wait in the last row; an empty string if on none."""
    where = " and ".join(f"on the road {name}" for name, grows in zip(names, grow) if grows)
    return f"Cars still wait at the end {where}: the figures of delay and waiting do not include what these cars lose later." if where else ""


HOURS_KEYS = ("delay", "hours", "approach hours", "together", "all hours")
"""The figures that leave out what lost cars, and late cars after the end, would lose."""
SUPPLY_KEYS = ("demand", "demand at", "admitted", "admitted at")
"""The figures from which the lost cars follow."""


def with_lost(tables: Sequence[Sequence[FigureRow]], names: Sequence[str], lost: Sequence[Mapping[str, float]],
              cause: str = "") -> list[list[FigureRow]]:
    """Return the tables of `compare_roads` with rows that say which figures are bounds, because roads lose cars that cannot enter. `lost` has
    the lost cars of each road, by the place of the inlet; `names` are those of the roads, and `cause` ends the sentence on these cars.

    Two roads lose equally many cars if they have the same demand and admit as many cars on each day, whatever `lost` says by chance. If one
    of them loses none, the other loses none either. If both lose cars, a difference of 0 on each day is exact: the same cars met the same
    road."""
    words = explain_lost(names, lost, cause)
    if not words:
        return [list(rows) for rows in tables]
    pairs = pair_roads([any(of_road.values()) for of_road in lost])
    return [[dataclasses.replace(row, bound=combine_bounds(row.bound, find_lost_bound(row, lose, lose_equally(rows))), words=(*row.words, words))
             if row.figure.key in HOURS_KEYS else row for row in rows] for rows, lose in zip(tables, pairs)]


def combine_bounds(one: Bound, other: Bound) -> Bound:
    """Return how a figure relates to the true one, if two reasons make it a bound or none."""
    return "unknown" if one and other and one != other else one or other


def lose_equally(rows: Sequence[FigureRow]) -> bool:
    """Return whether two roads have the same demand and admit as many cars on each day. False if the rows do not say."""
    supply = [row for row in rows if row.figure.key in SUPPLY_KEYS]
    return {"demand", "admitted"} <= {row.figure.key for row in supply} and all(row.is_same for row in supply)


def find_lost_bound(row: FigureRow, lose: Sequence[bool], equally: bool) -> Bound:
    """Return how a figure relates to the true one, if these roads lose cars. `equally`: they lose equally many on each day."""
    return "" if equally and (not all(lose) or row.is_same) else find_bound(lose)


def explain_lost(names: Sequence[str], lost: Sequence[Mapping[str, float]], cause: str = "") -> str:
    """Return a sentence that says how many cars each road loses at which inlet, and ends with a cause; an empty string if none."""
    parts = [f"{cars:,.0f} at {place} ({name})" for name, of_road in zip(names, lost) for place, cars in of_road.items() if cars]
    return f"Cars that cannot enter are lost: {', '.join(parts)}; hours and delay leave them out{cause}." if parts else ""


def explain_cause(scripts: Sequence[Script]) -> str:
    """Return why cars are lost on one of some roads that cannot let them wait; an empty string if all can."""
    return next(filter(None, map(explain_wide_zone, scripts)), "")


def average_lost(runs: Sequence[RoadRun], units: Units = FREEWAY) -> dict[str, float]:
    """Return the mean number of cars that each inlet of a road loses on some days, by its place; 0 if the arrivals are not known."""
    plan = runs[0].trips.plan
    return {units.place(cell): math.fsum(count_lost(run, inlet) for run in runs if run.arrivals) / len(runs)
            for inlet, (cell, _) in enumerate(plan["inlets"])}


def explain_outflow(drivers: Drivers, days: Sequence[Sequence[Waits]]) -> list[str]:
    """Return a sentence if the demand while cars wait is close to what a queue of some drivers lets out, which makes the waiting inexact."""
    demands = [waits.arriving for day in days for waits in day if waits.arriving is not None]
    if not demands:
        return []
    demand, outflow = math.fsum(demands) / len(demands), measure_outflow(drivers._replace(entry=0)).mean
    return [f"While cars wait before the road, {demand:,.0f} cars per hour arrive, and a queue lets out {outflow:,.0f}: with less than "
            f"{NEAR_OUTFLOW} between them the waiting is some 10 % too low."] if demand > outflow - NEAR_OUTFLOW else []
