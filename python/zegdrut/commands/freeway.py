"""Simulate a freeway that is described in km, minutes, km/h and cars per hour.

    python3 -m zegdrut freeway [FILE] [--then FILE2] [--out FOLDER]
    python3 -m zegdrut freeway --plan FILE

Without FILE it simulates the example below: 3 km with an on-ramp and a work zone of ten minutes. FILE is a JSON object with the
figures that differ from the example. The command first prints which figures it had to round. Then it prints three tables and writes
them into the folder, by default out/ or, for a file NAME.json, out/NAME:

    demand.csv     demand, admitted cars and lost demand of each inlet and hour
    counts.csv     flow and speed at each detector, minute by minute
    stretch.csv    flow, density and speed on a stretch of the road, period by period

The folder also has the script (script.jsonl), its replies, and units.json with the lengths of a cell and a step. If the road has an
approach, units.json also has the cell at km 0 ("origin") and the step at minute 0 ("begin"). If the file has a `begin`, units.json
has the clock time of minute 0. If the road has sections or stalled cars, without.jsonl is the same road and seed without them.

FILE2 of --then has the sections and stalled cars as they turned out. The command then changes the past of the run by edits
(then.jsonl) and lists them. The tables of the changed run are then_demand.csv and so on.
With --plan the command runs no freeway. It prints, for live/serve, the plan, the shapes of the demand over time, of sections and of
stalled cars, and the demand of each inlet in cars per hour. If the road has an approach, it also prints the cell at km 0 ("origin") and
the step at minute 0 ("lead").

The stretch is measured by Edie's definitions over the rows after each step of the period. If N is the number of cars on its cells in
all these rows and V is the sum of their speeds, then density is N and flow is V, both divided by the number of cells and of rows, and
the space-mean speed is V / N.
"""
from __future__ import annotations

import argparse
import json
import re
import sys
from pathlib import Path
from typing import Iterable, Iterator, Sequence, cast

from ..base.errors import LabError, describe_error
from ..base.units import CELLS_A_KM, HOUR, KMH, METRES, format_distance, to_steps
from ..base.wire import CountReply, Fields, Reply, RowsReply
from ..figures.table import PER_LANE
from ..figures.trips import Trips, Window, count_admitted_cars
from ..figures.waiting import make_waiting_roads
from ..program.lab import RoadLab
from ..program.scripts import Script
from ..reports.outputs import prepare_folder, with_title, write_lines
from ..roads.demand import Inlet, Supply, count_admitted, count_demand, find_rate
from ..roads.freeway_files import FIGURES
from ..roads.inflow_chances import run_script
from ..roads.road_in_cells import (
    Figures, Road, find_changes, describe_changes, list_free_cells, make_shapes, measure_chances, postpone, widen_inlet,
    widen_inlets, with_lead)
from ..roads.road_scripts import Chances, make_commands, make_plan, make_script

MOST_ROWS = 1_000
SHORT = 0.98
"""An inlet that admits less than this share of its demand in the long run is reported."""

Lines = list[str]


def report_progress(doing: str) -> None:
    """Print on standard error what is being done."""
    print(f"{doing} ..", file=sys.stderr, flush=True)


# Demand

def measure_chances_aloud(road: Road) -> Chances:
    """Measure the inflow chances that admit the demand of each inlet, with the inlets before it. Report the progress."""
    def tell(inlet: int) -> None:
        cell, demand = road.inlets[inlet]
        most = max(cars for _, cars in demand)
        report_progress(f"measuring the inflow chance for {'up to ' * (len(demand) > 1)}{most:g} cars per hour at km "
                        f"{road.to_km(cell):g}" + ", with the inlets before it" * bool(inlet))
    return measure_chances(road, tell)


def format_demands(road: Road, found: Chances, start: Script) -> Lines:
    """Return the table of demand, admitted cars and lost demand (demand minus admitted) of each inlet and hour.

    ± is how far the number of cars that a free road admits may vary by chance. If more cars enter than the demand, none is lost."""
    report_progress("measuring the inflow in the long run and in this run")
    trips = follow_run(road, start)
    times = "from,to" if road.clock else "from minute,to minute"
    lines = [f"inlet at km,{times},demand in cars,admitted cars,lost cars,± by chance"]
    for inlet, (cell, demand) in enumerate(road.inlets):
        for first in range(road.lead, road.steps, HOUR):
            last = min(first + HOUR, road.steps)
            came = count_admitted_cars(trips, Window(first, last))[inlet]
            supply = Supply(count_demand(demand, first, last), came)
            lines.append(f"{road.units.place_value(cell)},{format_time(road, first)},{format_time(road, last)},{supply.demand:.1f},{came},"
                         f"{max(supply.lost, 0.0):.1f},{supply.scatter:.0f}")
        whole = Supply(count_demand(demand, road.lead, road.steps), count_admitted_cars(trips, Window(road.lead, road.steps))[inlet])
        if is_short(whole):
            road.notes.append(f"at km {format_distance(road.to_km(cell))} {whole.lost:.0f} of {whole.demand:.0f} cars cannot enter in this run, and are lost: "
                              "the tables leave them out")
    note_full_inlets(road, found)
    return lines


def note_full_inlets(road: Road, found: Chances) -> None:
    """Add a note for each inlet that admits less than its demand in the long run, at the time of the highest total demand."""
    demands = road.demands
    step = max(sorted({step for demand in demands for step, _ in demand}), key=lambda date: sum(find_rate(demand, date) for demand in demands))
    chances = [postpone(found[0], road.early), *found[1:]]
    now = [(cell, int(find_rate(changes, step))) for cell, changes in zip(list_free_cells(road), chances)]
    bounds = [1_000 + 4_000 * piece for piece in range(26)]
    pieces = count_admitted([Inlet(*inlet) for inlet in now], road.drivers, bounds, seed=1)
    for (cell, _), demand, cars in zip(road.inlets, demands, zip(*pieces)):
        asked, hours = find_rate(demand, step), (bounds[-1] - bounds[0]) / HOUR
        if is_short(Supply(asked * hours, sum(cars))):
            road.notes.append(f"at km {format_distance(road.to_km(cell))} only {sum(cars) / hours:.0f} of {asked:g} cars per hour can enter in the "
                              "long run, because the road downstream is full")


def is_short(supply: Supply) -> bool:
    """Return whether clearly fewer cars entered than the demand, and fewer than arrivals at random explain."""
    return supply.admitted < SHORT * supply.demand and supply.lost > supply.scatter


def format_time(road: Road, step: int) -> str:
    """Return the time of a step for a table."""
    return f"{(step - road.lead) / 60:g}" if road.clock is None else road.clock.to_text(step)


def follow_run(road: Road, start: Script) -> Trips:
    """Run a script, and return the trips of its cars."""
    with RoadLab(start.plan) as lab:
        for line in start.commands:
            lab.ask(line)
        trips = Trips(lab.plan, [])
        trips.follow(lab, "A", road.steps)
    return trips


# The run

def with_commands(script: Script, commands: Iterable[Fields]) -> Script:
    """Return a script with more commands at its end."""
    return Script(script.plan, [*script.commands, *commands])


def list_queries(road: Road) -> list[Fields]:
    """Return the queries for the tables."""
    return [*list_diagrams(road), *list_counts(road)]


def list_counts(road: Road) -> list[Fields]:
    """Return the queries for the counts of each detector and minute."""
    return [{"count": {"at": "A", "detector": detector, "from": first, "to": min(first + 60, road.steps)}}
            for detector in range(len(road.detectors)) for first in range(road.lead, road.steps, 60)]


def list_diagrams(road: Road) -> Iterator[Fields]:
    """Yield the queries for all rows, in diagrams of the allowed length."""
    for first in range(0, road.steps + 1, MOST_ROWS):
        yield {"diagram": {"at": "A", "from": first, "to": min(first + MOST_ROWS - 1, road.steps)}}


# The tables

def format_rate(cars: int, speeds: int, duration: int) -> tuple[str, str]:
    """Return the flow in cars per hour, and the time-mean speed in km/h (empty if no car passed)."""
    return f"{cars * HOUR / duration:.0f}", f"{speeds / cars * KMH:.1f}" if cars else ""


def format_traffic(rows: list[str], first: int, last: int) -> tuple[str, str, str]:
    """Return flow in cars per hour, density in cars per km and space-mean speed in km/h on the cells `first` to `last - 1`."""
    speeds = [int(sign) for row in rows for sign in re.sub("[.#]", "", row[first:last])]
    area = len(rows) * (last - first)
    speed = f"{sum(speeds) / len(speeds) * KMH:.1f}" if speeds else ""
    return f"{sum(speeds) / area * HOUR:.0f}", f"{len(speeds) / area * CELLS_A_KM:.1f}", speed


def format_detectors(figures: Figures, road: Road, counted: list[CountReply]) -> Lines:
    """Return the table of flow and speed at each detector and minute."""
    lines, found = [f"detector at km,{'time' if road.clock else 'minute'},cars an hour,km/h"], iter(counted)
    for cell in road.detectors:
        for first in range(road.lead, road.steps, 60):
            one, duration = next(found), min(60, road.steps - first)
            lines.append(",".join([road.units.place_value(cell), format_time(road, first), *format_rate(one["cars"], one["speeds"], duration)]))
    return lines


def format_stretch(figures: Figures, road: Road, counted: list[CountReply], rows: list[str]) -> Lines:
    """Return the table of the stretch, with the detector nearest to its middle if the periods are whole minutes.

    A period has the rows after each of its steps, like all figures of windows (`trips`)."""
    middle, every = sum(figures.stretch) / 2, to_steps(figures.piece)
    nearest = min(range(len(figures.detectors)), key=lambda one: abs(figures.detectors[one] - middle), default=None)
    lines = [f"{'time' if road.clock else 'minute'},cars an hour,cars a km,space-mean km/h"]
    if nearest is not None and every % 60:
        nearest = None
    if nearest is not None:
        lines[0] += f",detector at {road.units.place(road.detectors[nearest])}: cars an hour,time-mean km/h"
    a_detector = len(counted) // max(len(figures.detectors), 1)
    first_cell, last_cell = map(road.to_cell, figures.stretch)
    for first in range(road.lead, road.steps, every):
        last = min(first + every, road.steps)
        words: tuple[str, ...] = ()
        if nearest is not None:
            of_piece = counted[nearest * a_detector:][(first - road.lead) // 60:-(-(last - road.lead) // 60)]
            words = format_rate(sum(one["cars"] for one in of_piece), sum(one["speeds"] for one in of_piece), last - first)
        lines.append(",".join([format_time(road, first), *format_traffic(rows[first + 1:last + 1], first_cell, last_cell), *words]))
    return lines


def run_and_write(folder: Path, name: str, replies_name: str, script: Script) -> list[Reply]:
    """Run a script. Write it and its replies, and return the replies."""
    report_progress(f"running {name}")
    replies = run_script(script.lines)
    files: tuple[tuple[str, Sequence[Fields]], ...] = (name, script.lines), (replies_name, replies)
    for file, values in files:
        write_lines(folder / file, [json.dumps(value, separators=(",", ":")) for value in values])
    return replies


def print_lines(sentences: Lines, end: str = "") -> None:
    """Print sentences at once."""
    print("".join(line + "\n" for line in sentences), end=end, flush=True)


def make_tables(figures: Figures, road: Road, demand: Lines, replies: list[Reply]) -> dict[str, Lines]:
    """Make the tables from the replies to the queries."""
    counted = [cast(CountReply, reply) for reply in replies if "speeds" in reply]
    rows = [row for reply in replies if "rows" in reply for row in cast(RowsReply, reply)["rows"]]
    return {"demand": demand, "counts": format_detectors(figures, road, counted),
            "stretch": format_stretch(figures, road, counted, rows)}


def write_tables(folder: Path, before_name: str, tables: dict[str, Lines]) -> None:
    """Write tables into the folder, and print them."""
    titled = {name: with_title(PER_LANE, lines) for name, lines in tables.items()}
    for name, lines in titled.items():
        write_lines(folder / f"{before_name}{name}.csv", lines)
    print("\n\n".join("\n".join(lines) for lines in titled.values()), flush=True)


def run_freeway(figures: Figures, folder: Path, then: Figures | None = None) -> None:
    """Run a freeway, without its works and with its later changes too, and write everything into the folder."""
    road, *others = make_waiting_roads([figures] if then is None else [figures, then])
    turned = others[0] if others else None
    prepare_folder(folder)
    print_lines(road.notes)
    changed = find_changes(road, turned) if turned else []
    if turned:
        print_lines([f"then: {one}" for one in turned.notes if one not in road.notes])
        print_lines([f"then: {one}" for one in describe_changes(road, changed)] or ["then: nothing changes"])
    before = len(road.notes)
    inlets = measure_chances_aloud(road)
    start = make_script(road, inlets, figures.seed)
    demand = format_demands(road, inlets, start)
    print_lines(road.notes[before:], end="\n")
    units: dict[str, object] = {"metres": METRES, "seconds": 1, **({"origin": road.approach, "begin": road.lead} if road.approach else {}),
             **({name: value for name, value in (("clock", figures.begin), ("date", figures.date), ("timezone", figures.timezone)) if value}
                if figures.begin else {})}
    write_lines(folder / "units.json", [json.dumps(units)])
    script = with_commands(start, list_queries(road))
    write_tables(folder, "", make_tables(figures, road, demand, run_and_write(folder, "script.jsonl", "replies.jsonl", script)))
    if road.edits:
        run_and_write(folder, "without.jsonl", "without_replies.jsonl",
            with_commands(make_script(road, inlets, figures.seed, with_works=False), list_queries(road)))
    if changed:
        edits, told = make_commands(changed), len(road.notes)
        demand = format_demands(road, inlets, with_commands(start, edits))
        print_lines([f"then: {one}" for one in road.notes[told:] if one not in road.notes[:told]])
        replies = run_and_write(folder, "then.jsonl", "then_replies.jsonl", with_commands(script, [*edits, *list_queries(road)]))
        print("\nthen:\n")
        write_tables(folder, "then_", make_tables(figures, road, demand, replies[-len(list_queries(road)):]))
    print(f"The tables, the scripts and their replies are in {folder}", file=sys.stderr)


def print_plan(figures: Figures) -> None:
    """Print the plan and the shapes for live/serve as a line of JSON, and on standard error what was rounded."""
    (road,) = make_waiting_roads([figures])
    print("".join(f"{one}\n" for one in road.notes), end="", file=sys.stderr, flush=True)
    found = measure_chances_aloud(road)
    approach = {"origin": road.approach, "lead": road.lead} if road.approach else {}
    print(json.dumps({"plan": make_plan(road, found, figures.seed), "shapes": list(make_shapes(figures, road, found)),
                      "demands": [rates for _, rates in road.inlets], **approach}))


def read_arguments(words: Sequence[str] | None) -> argparse.Namespace:
    """Read the command line."""
    parser = argparse.ArgumentParser("zegdrut freeway", description=__doc__, formatter_class=argparse.RawDescriptionHelpFormatter)
    parser.add_argument("--plan", action="store_true")
    parser.add_argument("--then", type=Path, metavar="FILE2")
    parser.add_argument("--out", type=Path, metavar="FOLDER")
    parser.add_argument("file", type=Path, nargs="?", metavar="FILE")
    return parser.parse_args(words)


def main(words: Sequence[str] | None = None, out: Path = Path("out")) -> int:
    """Run a freeway. Its tables are below `out` unless the arguments name a folder. Return the exit status."""
    given = read_arguments(words)
    try:
        figures = FIGURES.override(given.file) if given.file else FIGURES
        if given.plan:
            print_plan(with_lead(widen_inlet(figures)))
            return 0
        then = figures.override_works(given.then) if given.then else None
        folder = given.out or out / (given.file.stem if given.file else "")
        prepare_folder(folder)
        figures, *turned = map(with_lead, widen_inlets([figures] if then is None else [figures, then]))
        then = turned[0] if turned else None
        run_freeway(figures, folder, then)
    except (LabError, OSError) as fault:
        print(describe_error(fault), file=sys.stderr)
        return 1
    return 0

