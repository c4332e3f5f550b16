"""Measure what a change costs, from two scripts of one plan, such as those of recipes/freeway.

    python3 -m zegdrut delay [OPTIONS] BEFORE AFTER    two scripts: the road as it was, and the changed road

    --days N       compare over N days, 2 to 1,000: the seed of the plan and the N - 1 after it
    --at NAME      the replica; by default the first one of each plan
    --metres M     the length of a cell: places are then shown in km, not as cells
    --seconds S    the length of a step (default: 1)
    --demand       also show demand, admitted cars and lost demand of each inlet (demand.csv); this takes some seconds
    --minutes N    the period of entry in minutes (default: 1)
    --out FOLDER   the folder of the tables (default: out/)

If the folder of BEFORE has a file units.json, such as recipes/freeway writes, its "metres" and "seconds" are the defaults, "origin" is
the cell at km 0, and "begin" the step at minute 0. If it has a "clock", the tables of a day have clock times.

Cars that cannot enter wait before their inlet, and their waiting is part of the delay (`zegdrut.figures.waiting` has the rule). If cars wait,
a car's entry is its arrival at the inlet, and the tables have rows for the queues.

For one day it prints three tables, and writes them into the folder: the delay by period of entry (delay.csv), the cars that
entered at each inlet (inlets.csv), and the sums in vehicle hours with a check (sums.csv). If cars wait, it also prints the queues
(waiting.csv).
For many days it prints one table: the mean of each figure before and after, and their difference, with 95 % intervals
(days.csv). It also writes the figures of each day (by_day.csv) and a picture (differences.png).
Status 1: a line is refused, the scripts have different plans, or the plan has no seed for many days.
"""
from __future__ import annotations

import argparse
import json
import shutil
import subprocess
import sys
from pathlib import Path
from typing import Sequence

from ..base.errors import Fault, LabError, describe_error
from ..base.intervals import warn_few_days
from ..base.units import Units, count_things, format_fixed
from ..figures.days import ROADS, Days, run_over_days
from ..figures.delay_by_car import Delay, Entered, Group, compare_delays, to_vehicle_hours
from ..figures.lost_demand import compute_demands, compute_supplies
from ..figures.queues import (EditedRoad, Waits, average_lost, compare_ends, explain_end, explain_lost, explain_outflow, find_bound,
                              explain_cause, find_growing, find_inlets, read_roads, run_day)
from ..figures.simulation import RoadRun
from ..figures.table import PER_LANE, Figure, FigureRow, choose, list_figures, sort_inlets
from ..figures.trips import Window, count_admitted_cars
from ..program.scripts import read_script, check_same_road
from ..reports.outputs import format_csv, prepare_folder, with_title, write_lines
from ..roads.clock import Clock, InvalidTime
from ..roads.demand import Supply

PICTURE = Path(__file__).with_name("differences.gnuplot")

# The tables

def format_delays(cost: Delay, seconds: float, minutes: float, clock: Clock | None) -> list[str]:
    """Return the table of delays by period of entry."""
    lines = [f"{'minute' if clock is None else 'time'} of entry,cars,before s,after s,mean delay s,greatest s,veh·h,only before,only after"]
    for number, minute in cost.periods.items():
        through = minute.through
        times = [format_mean_seconds(through.before, through, seconds), format_mean_seconds(through.after, through, seconds),
                 format_mean_seconds(through.delay, through, seconds),
                 "" if through.greatest is None else f"{through.greatest * seconds:.0f}"]
        lines.append(",".join([format_minute(number * minutes, clock, f"{number * minutes:g}"), str(through.cars), *times,
                               format_hours(through.delay, seconds), str(minute.lost), str(minute.gained)]))
    return lines


def format_minute(minute: float | None, clock: Clock | None, plain: str) -> str:
    """Return a minute as a clock time; as `plain` if no clock, or no minute, is known."""
    return plain if clock is None or minute is None else clock.to_text(round(minute * 60))


def format_mean_seconds(steps: int, group: Group, seconds: float) -> str:
    """Return the mean seconds per car; an empty string without a car."""
    return f"{steps * seconds / group.cars:.1f}" if group.cars else ""


def format_inlets(cost: Delay, inlets: Sequence[Sequence[int]], units: Units) -> list[str]:
    """Return the table of the cars that entered at each inlet."""
    lines = [f"inlet,{units.place_title()},entered before,entered after,only before,only after"]
    for inlet, (cell, _) in enumerate(inlets):
        lines.append(",".join(map(str, (inlet, units.place_value(cell), *cost.inlets.get(inlet, Entered(0, 0, 0, 0))))))
    return lines


def compute_supplies_of_run(road: EditedRoad, run: RoadRun) -> list[Supply]:
    """Return the demand of each inlet in a run, and the cars that it admitted."""
    return compute_supplies(compute_demands(road.script.plan, road.edits, road.last), count_admitted_cars(run.trips, run.window), run.window)


def format_demands(inlets: Sequence[Sequence[int]], before: list[Supply], after: list[Supply], units: Units) -> list[str]:
    """Return the table of demand and lost demand, in cars. Arrivals are random: even a free road loses up to ±. If more cars enter than the
    demand, none is lost."""
    lines = [f"inlet,{units.place_title()},demand before,admitted before,lost before,demand after,admitted after,lost after,± by chance"]
    for inlet, ((cell, _), one, other) in enumerate(zip(inlets, before, after)):
        numbers = [f"{value:.1f}" for side in (one, other) for value in (side.demand, side.admitted, max(side.lost, 0.0))]
        lines.append(",".join([str(inlet), units.place_value(cell), *numbers, f"{max(one.scatter, other.scatter):.0f}"]))
    return lines


def format_waiting(figures: Sequence[Figure], runs: Sequence[RoadRun], inlets: frozenset[int], units: Units, clock: Clock | None) -> list[str]:
    """Return the table of the queues before the inlets where cars wait on one of the runs."""
    until = "until minute" if clock is None else "until"
    lines = [f"inlet,{units.place_title()},waiting before veh·h,longest queue cars,{until},waiting after veh·h,longest queue cars,{until}"]
    plan = runs[0].trips.plan
    for inlet in sort_inlets(plan):
        if inlet in inlets:
            of_inlet = choose(figures, "wait", "wait queue", "wait end", inlet=inlet)
            numbers = [format_minute(value, clock, format_fixed(value, 1)) if figure.key == "wait end" else format_fixed(value, 3 if figure.key == "wait" else 0)
                       for run in runs for figure in of_inlet for value in [figure.measure(None, run).after]]
            lines.append(",".join([str(inlet), units.place_value(plan["inlets"][inlet][0]), *numbers]))
    return lines


def list_waiting_sums(figures: Sequence[Figure], runs: Sequence[RoadRun], inlets: frozenset[int]) -> list[str]:
    """Return the rows of the sums that say how much of the delay is waiting before an inlet."""
    of_inlets = [figure for figure in figures if figure.key == "wait" and figure.of.inlet in inlets]
    return [f"of this {figure.label.removeprefix('vehicle hours ')},,,,{format_fixed(figure.measure(*runs).difference, 3)}" for figure in of_inlets]


def format_sums(cost: Delay, seconds: float, waiting: Sequence[str] = (), bound: str = "") -> list[str]:
    """Return the table of sums in vehicle hours. `waiting` has the rows of queues. `bound` says how the delay relates to the true one."""
    lines = ["cars,number,mean delay s,greatest s,veh·h"]
    for name, group in {"through in both runs": cost.through, "of these delayed": cost.delayed,
                        "still on the road": cost.inside}.items():
        greatest = "" if group.greatest is None else f"{group.greatest * seconds:.0f}"
        lines.append(f"{name},{group.cars},{format_mean_seconds(group.delay, group, seconds)},{greatest},{format_hours(group.delay, seconds)}")
    for name, group in {"only in the first run": cost.lost, "only in the second run": cost.gained}.items():
        lines.append(f"{name},{group.cars},,,{format_hours(group.delay, seconds)}")
    return lines + [f"all cars{f' ({bound})' if bound else ''},,,,{format_hours(cost.total, seconds)}", *waiting,
                    f"check: cars in all rows{' and before the road' if waiting else ''},,,,{format_hours(cost.by_rows, seconds)}"]


def format_hours(steps: int, seconds: float) -> str:
    """Return steps of cars in vehicle hours."""
    return f"{to_vehicle_hours(steps, seconds):.3f}"


def write_table(folder: Path, name: str, lines: list[str]) -> None:
    """Write a table into the folder. Its first row says that it is per lane."""
    write_lines(folder / name, with_title(PER_LANE, lines))


def write_and_print(folder: Path, name: str, lines: list[str]) -> None:
    """Write a table into the folder, and print it."""
    write_table(folder, name, lines)
    print("\n".join(with_title(PER_LANE, lines)), end="\n\n")


def print_notes(cost: Delay, notes: Sequence[str]) -> None:
    """Print what the tables do not show: notes, and cars of one run only."""
    print("".join(f"{note}\n" for note in notes), end="")
    lost = sum(inlet.lost - inlet.gained for inlet in cost.inlets.values())
    if lost:
        more = "fewer" if lost > 0 else "more"
        print(f"{count_things(abs(lost), f'{more} car')} entered in the second run. The delay does not include them; --demand shows whether "
              "demand was lost.")


# Many days

def format_rows(rows: Sequence[FigureRow]) -> list[str]:
    """Return the table of means over all days. It says which figures are bounds, if some are."""
    has_bounds = any(row.bound for row in rows)
    table = [["mean of a day", "before", "±", "after", "±", "difference", "±", "unpaired ±", "days of opposite sign", *["bound"] * has_bounds]]
    for row in rows:
        numbers = [*row.before, *row.after, *row.difference, row.unpaired]
        table.append([row.figure.title, *(format_fixed(number, 3) for number in numbers), str(row.others), *[row.bound] * has_bounds])
    return format_csv(table)


def format_days(days: Days) -> list[str]:
    """Return the table of the figures of each day."""
    table = [["day", "seed", *(f"{figure.title} {when}" for figure in days.figures for when in ROADS)]]
    for number, (seed, values) in enumerate(zip(days.seeds, days.values)):
        table.append([str(number), str(seed), *("" if one is None else f"{one:.10g}" for value in values for one in (value.before, value.after))])
    return format_csv(table)


def draw_differences(folder: Path, days: Days, row: FigureRow) -> None:
    """Draw the differences of a figure on all days, if gnuplot is installed."""
    if shutil.which("gnuplot") is None:
        print("gnuplot is not installed, so there is no differences.png: install the package gnuplot-nox", file=sys.stderr)
        return
    column = 2 * days.figures.index(row.figure) + 3
    given = (f"out='{folder}'; mean={row.difference.mean}; half={row.difference.half}; days={len(days.seeds)}; column={column}; "
             f"name='{row.figure.title.capitalize()}'")
    subprocess.run(["gnuplot", "-e", given, PICTURE], check=True)


def compare_over_days(given: argparse.Namespace) -> None:
    """Compare both scripts over many days."""
    before, after = map(read_script, given.scripts)
    prepare_folder(given.out)
    days = run_over_days(before, after, given.days, given.at, read_units(given), given.scripts)
    rows = days.rows()
    print("".join(f"{one}\n" for one in warn_few_days(given.days)), end="", file=sys.stderr, flush=True)
    write_and_print(given.out, "days.csv", format_rows(rows))
    write_table(given.out, "by_day.csv", format_days(days))
    print("".join(f"{note}\n" for note in days.notes), end="")
    # All hours include those of cars that wait.
    draw_differences(given.out, days, next((row for row in rows if row.figure.key == "all hours"), rows[0]))


def read_units(given: argparse.Namespace) -> Units:
    """Return the lengths of a cell and of a step: those of the options, or of units.json in the folder of the first script."""
    path = find_units(given)
    try:
        found = json.loads(path.read_text(encoding="utf-8")) if path.exists() else {}
        metres, seconds = (None if found.get(name) is None else float(found[name]) for name in ("metres", "seconds"))
        of_file = Units(metres, seconds, int(found.get("origin", 0)), int(found.get("begin", 0)))
    except (ValueError, TypeError, AttributeError):
        raise Fault(f'{path} must be an object such as {{"metres": 7.5, "seconds": 1}}') from None
    units = of_file._replace(metres=given.metres or of_file.metres, seconds=given.seconds or of_file.seconds or 1.0)
    if not all(0 < length < float("inf") for length in (units.metres, units.seconds) if length is not None):
        raise Fault("--metres and --seconds (or those of units.json) must be above 0")
    return units


def find_units(given: argparse.Namespace) -> Path:
    """Return the path of units.json in the folder of the first script."""
    return Path(given.scripts[0]).with_name("units.json")


def read_clock(given: argparse.Namespace) -> Clock | None:
    """Return the clock of minute 0 in units.json, or None if the file has no clock. `read_units` has checked its form."""
    path = find_units(given)
    found = json.loads(path.read_text(encoding="utf-8")) if path.exists() else {}
    try:
        return Clock.read(*(found.get(name) for name in ("clock", "date", "timezone"))) if "clock" in found else None
    except InvalidTime as fault:
        raise Fault(f"{path}, whose clock is the begin of a freeway: {fault}") from None


def read_arguments(words: Sequence[str] | None, example: Sequence[str], out: Path) -> argparse.Namespace:
    """Read the command line."""
    parser = argparse.ArgumentParser("zegdrut delay", description=__doc__, formatter_class=argparse.RawDescriptionHelpFormatter)
    parser.add_argument("--days", type=int, metavar="N")
    parser.add_argument("--demand", action="store_true", help="show the demand of each inlet, and how much of it was lost (takes some seconds)")
    parser.add_argument("--at", metavar="NAME")
    parser.add_argument("--metres", type=float, metavar="M")
    parser.add_argument("--seconds", type=float, metavar="S")
    parser.add_argument("--minutes", type=float, default=1.0)
    parser.add_argument("--out", type=Path, default=out, metavar="FOLDER")
    parser.add_argument("scripts", nargs="*", metavar="BEFORE AFTER")
    given = parser.parse_args(words)
    given.scripts = given.scripts or list(example)
    if len(given.scripts) != 2:
        parser.error("name two scripts: BEFORE and AFTER")
    return given


def compare(given: argparse.Namespace) -> None:
    """Compare both scripts on one day."""
    units, clock = read_units(given), read_clock(given)
    seconds = units.seconds or 1.0
    if not seconds / 2 < given.minutes * 60 < float("inf"):
        raise Fault(f"--minutes {given.minutes:g} must be at least one step ({seconds:g} s)")
    scripts = list(map(read_script, given.scripts))
    prepare_folder(given.out)
    roads = read_roads(given.scripts, scripts, given.at)
    plan = scripts[0].plan
    check_same_road(plan, scripts[1].plan)
    runs = [run_day(road.script, road.free, Window(units.begin, road.last), detectors=[], seconds=seconds, origin=units.origin) for road in roads]
    cost = compare_delays(runs[0].by_arrival, runs[1].by_arrival, max(round(given.minutes * 60 / seconds), 1), units.begin)
    waits = [list(map(Waits.of, runs))]
    grow, inlets, figures, lost = find_growing(waits), find_inlets(waits), list_figures(plan, units), [average_lost([run], units) for run in runs]
    ends = compare_ends(*runs)
    bound = find_bound([grows or any(cars.values()) or is_late for grows, cars, is_late in zip(grow, lost, ends.is_late)])
    supplies = [compute_supplies_of_run(road, run) for road, run in zip(roads, runs)] if given.demand else []
    write_and_print(given.out, "delay.csv", format_delays(cost, seconds, given.minutes, clock))
    write_and_print(given.out, "inlets.csv", format_inlets(cost, plan["inlets"], units))
    if inlets:
        write_and_print(given.out, "waiting.csv", format_waiting(figures, runs, inlets, units, clock))
    write_and_print(given.out, "sums.csv", format_sums(cost, seconds, list_waiting_sums(figures, runs, inlets), bound))
    if given.demand:
        write_and_print(given.out, "demand.csv", format_demands(plan["inlets"], supplies[0], supplies[1], units))
    print_notes(cost, [note for note in (
        explain_end(ROADS, waits, ends), *explain_outflow(roads[0].drivers, waits), explain_lost(ROADS, lost, explain_cause([road.script for road in roads]))) if note])


def main(words: Sequence[str] | None = None, example: Sequence[str] = (), out: Path = Path("out")) -> int:
    """Compare two scripts, by default those of `example`. Return the exit status."""
    given = read_arguments(words, example, out)
    try:
        (compare if given.days is None else compare_over_days)(given)
        sys.stdout.flush()
        print(f"The tables are in {given.out}", file=sys.stderr)
    except (LabError, OSError) as fault:
        print(describe_error(fault), file=sys.stderr)
        return 1
    return 0

