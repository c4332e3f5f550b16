"""Make the report on some roads in a window: the same page as `zegdrut report` makes for a freeway.

As a child, this module answers a `ReportQuestion` with the page.
"""
from __future__ import annotations

import math
import time
from typing import Iterator, Sequence, TypedDict

from zegdrut import Edit
from zegdrut.base import KMH, Units
from zegdrut.base.units import ALWAYS, count_things
from zegdrut.base.wire import PlanLine
from zegdrut.figures import RoadRun, Window
from zegdrut.figures.days import SEEDS
from zegdrut.figures.lost_demand import find_drivers
from zegdrut.figures.queues import Waits, explain_outflow
from zegdrut.figures.waiting import find_main
from zegdrut.reports import Side, make_tables, run_sides
from zegdrut.reports.report_page import Contents, describe_approach, describe_capacities, draw_demands, format_page
from zegdrut.roads import Clock
from zegdrut.roads.calibrated import describe_calibration, describe_queues, read_calibration
from zegdrut.roads.demand import Rates
from zegdrut.sweeps.pool import count_processors

from ..base.json_values import Json
from ..model.projection import Edits
from ..program.simulated_roads import rows_of
from . import child
from .figures import ComparedRoads, edits_of, sides_of, units_of

DAYS = 5
"""The days of a report for which no number of days was given."""
MOST_SECONDS = child.PATIENCE
"""The seconds that a report may take."""
NICE = 8
NO_RANGES = ("this report has no table of how far the figures move with drivers that fit as well: the report that `python3 -m zegdrut report` writes of the "
             "freeway file has one, for the works of that file")
DAYS_OF_SEEDS = "days of other seeds than the one that live shows: cars that cannot enter wait before the road on them, and are lost on that one"
MOST_DATES = 12  # changes of a demand that a sentence lists; if there are more, the chart shows them
ReportQuestion = TypedDict("ReportQuestion", {
    "compared": ComparedRoads, "title": str, "works": Sequence[str], "clock": Sequence["str | None"], "days": int, "approach": bool, "calibration": Json})
"""Two roads or more, sentences about the changes, the clock time, date and time zone of step 0, the number of days, whether the diagrams
show the approach, and what `calibrate` wrote into the file of the road."""
ReportAnswer = TypedDict("ReportAnswer", {"html": str, "days": int, "why": str}, total=False)
"""The page, and its number of days; or why the report would take too long."""


# In the child

def describe_sureness(calibration: Json, days: int) -> list[str]:
    """Return sentences that say how sure the drivers are and where more is said of that, if `calibrate` wrote a calibration into the file of the
    road. They stand beside figures of some days."""
    known = read_calibration(calibration)
    return [*describe_calibration(known, days), *describe_queues(known), *([NO_RANGES] if known is not None and known.less is not None else [])]


def closures_of(edits: Edits, last: int, units: Units) -> list[tuple[int, int, float, float]]:
    """Return the closures of a road, as (from step, to step, from km, to km). Neighbouring cells are one closure. The edits of a cell
    close it and open it in turn."""
    changes = sorted((cell, step, value) for (kind, cell, step), value in edits.items() if kind == "block")
    firsts: dict[tuple[int, int, int], int] = {}  # by the begin, the end and the next cell of a closure: its first cell
    for (cell, begin, value), (following, end, _) in zip(changes, [*changes[1:], (-1, last, 0)]):
        if value and begin < last:
            span = begin, end if following == cell else last
            firsts[(*span, cell + 1)] = firsts.pop((*span, cell), cell)
    return [(begin, end, units.to_km(first), units.to_km(behind)) for (begin, end, behind), first in firsts.items()]


def facts_of(compared: ComparedRoads, sides: Sequence[Side], clock: Clock) -> list[str]:
    """Return sentences that say the length and drivers of the plan, and the demands: of two roads those of the later one, of more those of
    each road if they differ."""
    plan, differ = compared["plan"], len(sides) > 2 and any(side.demands != sides[0].demands for side in sides)
    kinds = {(limit, slowing) for limit, slowing in plan["zones"]}
    (limit, slowing), *more = sorted(kinds)
    drivers = f"limit {limit * KMH:g} km/h, slowing {slowing / ALWAYS:.0%}" if not more else f"{len(kinds)} kinds of zones"
    starts = {value for (kind, _, step), value in edits_of(compared["roads"][0]["edits"]).items() if kind == "start" and step == 0 and value is not None}
    drivers += "".join(f", slow-to-start {chance / ALWAYS:.0%}" for chance in (starts if len(starts) == 1 else ()))
    units = units_of(compared)
    found = [f"{units.to_km(plan['length']):g} km, one lane, {drivers}", *describe_approach(units)]
    return [*found, DAYS_OF_SEEDS, *(f"{f'{side.name}: ' if differ else ''}{name}: {demand_text(rates, clock, compared['last'])}"
                      for side in (sides if differ else sides[-1:]) for name, rates in named_demands(plan, side))]


def named_demands(plan: PlanLine, side: Side) -> list[tuple[str, Rates]]:
    """Return the name and the demand of each inlet. If the road has an approach, cars enter the main road at its head, before km 0."""
    main = f"main road at {side.units.place(0)}" if side.units.origin else "main road"
    return [(f"on-ramp at {side.units.place(cell)}" if cell else main, rates) for (cell, _), rates in zip(plan["inlets"], side.demands)]


def demand_chart(plan: PlanLine, sides: Sequence[Side], clock: Clock, window: Window) -> str:
    """Return a chart of the demands of the roads; of only one road if they are equal."""
    shown = sides if any(side.demands != sides[0].demands for side in sides) else sides[-1:]
    return draw_demands([(side.name if len(shown) > 1 else "", named_demands(plan, side)) for side in shown], clock, window)


def demand_text(rates: Rates, clock: Clock, last: int) -> str:
    """Return a phrase that describes a demand over time, up to the step `last`."""
    whole = [(step, round(rate)) for step, rate in rates if step < last]
    dates = [one for place, one in enumerate(whole) if not place or one[1] != whole[place - 1][1]]
    if len(dates) == 1:
        return f"{dates[0][1]:,} cars/h"
    if len(dates) > MOST_DATES:
        peak, most = max(dates, key=lambda one: one[1])
        return f"{min(rate for _, rate in dates):,} to {most:,} cars/h, with the peak from {clock.to_text(peak)} on"
    return ", ".join(f"{rate:,} from {clock.to_text(step)}" for step, rate in dates) + " cars/h"


def explain_waiting(compared: ComparedRoads, days: Sequence[Sequence[RoadRun]]) -> list[str]:
    """Return a sentence if cars wait before the first road with a demand close to what a queue lets out, which makes the waiting inexact."""
    plan = compared["plan"]
    edits = [Edit.read(row) for row in rows_of(edits_of(compared["roads"][0]["edits"]))]
    drivers = find_drivers(plan, edits, int(plan["inlets"][find_main(plan)][0]))
    return explain_outflow(drivers, [list(map(Waits.of, runs)) for runs in days])


class TakesTooLong(Exception):
    """A report would take longer than it may. The message says what to do."""


def check_time(seconds: float, done: int, runs: int, days: int) -> None:
    """Raise `TakesTooLong` if all runs of a report, on all processors, would take too long. `done` of them took `seconds`."""
    team = count_processors()
    of_round = seconds / math.ceil(done / team)  # each processor has a run
    total, rounds = of_round * math.ceil(runs / team), int(MOST_SECONDS / of_round)
    if total <= MOST_SECONDS:
        return
    fitting = rounds * team // (runs // days)
    fewer = f", or at most {count_things(fitting, 'day')}" if fitting else ""
    raise TakesTooLong(f"the report over {count_things(days, 'day')} would take about {count_things(math.ceil(total / 60), 'minute')}, and may take "
                       f"{MOST_SECONDS / 60:g}: choose a shorter period{fewer}. On the page, a report has as many days as the table of days, which you "
                       f"can stop earlier, and {DAYS} without that table")


def make_page(asked: ReportQuestion) -> Iterator[ReportAnswer]:
    """Yield the report as HTML, or why it would take too long. Its days are those of a comparison over as many days."""
    compared = asked["compared"]
    window, plan = Window(compared["first"], compared["last"]), compared["plan"]
    clock, seed = Clock.read(*asked["clock"]), plan["words"]
    edits = [edits_of(road["edits"]) for road in compared["roads"]]
    closed = [closures_of(one, window.last, units_of(compared)) for one in edits]
    sides, began = sides_of(compared), time.monotonic()
    if all(one == edits[0] for one in edits):  # one road
        del sides[:-1], closed[:-1]
    seeds: list[int | str] = [(seed + day) % SEEDS for day in range(asked["days"])] if isinstance(seed, int) else [seed]
    try:
        days = run_sides(sides, seeds, window, lambda done, runs: check_time(time.monotonic() - began, done, runs, len(seeds)))
    except TakesTooLong as fault:
        yield {"why": str(fault)}
        return
    tables = make_tables(sides, days, window)
    yield {"days": len(days), "html": format_page(Contents(
        title=asked["title"], facts=facts_of(compared, sides, clock), works=asked["works"], notes=[], clock=clock, window=window,
        length=plan["length"], detectors=plan["detectors"], sides=sides, days=days, rows=tables[0], others=tables[1:], seed=seed,
        closed=closed, demand=demand_chart(plan, sides, clock, window), has_approach=asked["approach"],
        remarks=[*describe_capacities([one for road in compared["roads"] for one in road["capacities"]]), *explain_waiting(compared, days)],
        sure=describe_sureness(asked["calibration"], len(days))))}


if __name__ == "__main__":
    child.serve(make_page)
