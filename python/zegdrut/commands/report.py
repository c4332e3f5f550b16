"""Write a report of a freeway as one HTML file that prints on A4: diagrams, flow and speed by time, and a table with intervals.

    python3 -m zegdrut report ROAD.json [--against OTHER.json ..] [--days N] [--counts CSV [--stations TABLE.csv]] [--out FILE.html]

ROAD.json is a freeway as `zegdrut freeway` reads it. It is compared with OTHER.json, a file of the same road. By default it is
compared with the same road without its sections and stalled cars, if it has any. With two or three files after --against the report shows all
of these roads side by side, and how each differs from the first one. Each day is a seed: all roads of a day have the same drivers. Each run begins some minutes before the window, so that the road is not empty when the window begins: earlier by twice the
free travel time, unless --warm-up says otherwise. With --counts the report also compares the road before, the first one, with measured counts. It
then takes the options of `zegdrut measured`. It writes report-NAME-0630-0930.html, and into the same folder the table, the series and the
demand as CSV with units.
"""
from __future__ import annotations

import argparse
import csv
import dataclasses
import math
import sys
from dataclasses import dataclass
from html import escape
from pathlib import Path
from typing import Sequence

from ..base.errors import Fault, LabError, describe_error
from ..base.intervals import warn_few_days
from ..base.progress_bars import Bar
from ..base.units import KMH, count_things, format_distance, to_steps
from ..base.wire import Record
from ..figures.queues import Waits, explain_outflow
from ..figures.simulation import RoadRun
from ..figures.table import PER_LANE, FigureRow
from ..figures.trips import Window
from ..figures.waiting import make_waiting_roads
from ..measurements.congestion import list_segments, simulate_segments
from ..measurements.counts_on_road import TIME_MEAN, Measured
from ..measurements.goodness_of_fit import Model, compare_hours, make_model
from ..reports.outputs import format_window, make_title as make_csv_title, prepare_file
from ..reports.report_page import Contents, describe_approach, describe_capacities, draw_demands, format_page, make_list_html
from ..reports.report_tables import (
    MOST_SIDES, PERIOD, RangeRow, Side, make_flow_series, make_range_records, make_ranges, make_records,
    make_speed_series, make_tables, run_sides)
from ..roads.calibrated import Alternative, compare_delays, describe_calibration, describe_queues
from ..roads.capacity import LIMIT as WORKS_LIMIT
from ..roads.clock import Clock
from ..roads.demand import BeyondCapacity, count_demand, find_rate
from ..roads.freeway_files import FIGURES, Demand
from ..roads.road_in_cells import (
    Figures, Road, make_all_roads, measure_chances, to_rates, warm_up_minutes, widen_inlets, with_warm_up)
from ..roads.road_scripts import make_script
from .freeway import report_progress
from .measured import (Congestion, add_congestion_argument, add_count_options, add_demand_argument, check_congested, check_days, choose_factor,
                       format_hours, format_shares, format_speeds, make_comparison_charts, make_title, read_data)
from .sweep import add_dask_options, open_executor

DAYS = 5
MOST_LISTED = 12
"""The number of values of a demand that the report lists in a sentence."""
MOST_WARM_UP = 1_440
OTHER_DAYS = ["As each run begins before the window, its days are not those of `delay` and live with the same seeds: their figures differ by chance. "
              "--warm-up 0 gives the same days."]
"""A remark on a report whose runs begin before the window."""


def read_arguments(words: Sequence[str] | None) -> argparse.Namespace:
    """Read the command line."""
    parser = argparse.ArgumentParser("zegdrut report", description=__doc__, formatter_class=argparse.RawDescriptionHelpFormatter)
    parser.add_argument("road", type=Path, metavar="ROAD.json")
    parser.add_argument("--against", type=Path, nargs="+", metavar="OTHER.json", help="the road before (default: ROAD.json without its works), or "
                        "two or three roads: all others are compared with the first of them")
    parser.add_argument("--days", type=int, default=DAYS, metavar="N", help="number of days, each with a seed (default: %(default)s)")
    parser.add_argument("--counts", type=Path, metavar="CSV", help="measured counts to compare with")
    add_count_options(parser)
    add_demand_argument(parser)
    add_congestion_argument(parser)
    parser.add_argument("--warm-up", type=float, metavar="MINUTES", help="minutes of the run before the window (default: twice the free "
                        "travel time, rounded up to five minutes; 0: the road is empty when the window begins)")
    parser.add_argument("--show-approach", action="store_true", help="draw the approach in the space-time diagrams, too")
    parser.add_argument("--title", help="title of the report (default: the names of the files)")
    parser.add_argument("--out", type=Path, metavar="FILE.html", help="file of the report")
    add_dask_options(parser)
    return parser.parse_args(words)


# The roads

@dataclass(frozen=True)
class Request:
    """A request for a report: the road, the roads that it is compared with, the names of all, the minutes before the window, the measured
    counts, and the default title."""

    figures: Figures
    others: Sequence[Figures]
    names: Sequence[str]
    warm: float
    measured: Measured | None
    title: str = ""

    @property
    def first(self) -> Figures:
        """Return the first road: the others are compared with it, and it is compared with measured counts."""
        return [*self.others, self.figures][0]

    @property
    def window(self) -> Window:
        """Return the window of all figures."""
        first = to_steps(self.warm)
        return Window(first, first + to_steps(self.figures.minutes))


def read_request(given: argparse.Namespace) -> Request:
    """Read and check everything. Fault: a file is invalid, or the two files describe different roads or times."""
    check_days(given.days, 1)
    check_congested(given.congested)
    if given.counts is None:
        used = [f"--{name.replace('_', '-')}" for name in ("stations", "origin", "reverse", "leave_out", "scale", "shift", "no_ramp_check", "column", "unit")
                if getattr(given, name) not in (None, False, [])]
        used += ["--demand"] if given.demand != "counts" else []
        used += ["--speeds"] if given.speeds != TIME_MEAN else []
        if used:
            raise Fault(f"{used[0]} has no effect without counts: add --counts CSV, or leave it out")
    if given.warm_up is not None and not 0 <= given.warm_up <= MOST_WARM_UP:
        raise Fault(f"--warm-up must be 0 to {MOST_WARM_UP:,} minutes, not {given.warm_up:g}")
    figures = FIGURES.override(given.road)
    others: list[Figures] = []
    names = ["simulated"]
    if given.against is not None:
        others, names = read_others(given, figures)
    elif figures.sections or figures.stalled:
        others, names = [dataclasses.replace(figures, sections=[], stalled=[])], ["without works", "with works"]
    make_all_roads([*others, figures])  # (a road that cannot be made is refused here)
    measured = None
    if given.counts is not None:
        dated, measured = read_data(given)
        figures = dataclasses.replace(figures, date=dated.date)
        others = [dataclasses.replace(other, date=dated.date) for other in others]
    return Request(figures, others, names, warm_up_minutes(figures) if given.warm_up is None else given.warm_up, measured,
                   given.road.stem if given.against is None else
                   f"{join_names([one.stem for one in (*given.against[1:], given.road)])} compared with {given.against[0].stem}")


def read_others(given: argparse.Namespace, figures: Figures) -> tuple[list[Figures], list[str]]:
    """Read the files after --against. Return their roads, and the names of all roads. Fault: there are too many, or they differ in more than
    their demand, drivers and works."""
    if len(given.against) >= MOST_SIDES:
        raise Fault(f"--against takes up to {MOST_SIDES - 1} files, not {len(given.against)}: a report has at most {MOST_SIDES} roads")
    others = [FIGURES.override(path) for path in given.against]
    for path, other in zip(given.against, others):
        for name in ("length", "minutes", "begin", "date", "seed", "detectors", "entry", "approach"):
            if getattr(figures, name) != getattr(other, name):
                raise Fault(f"{path}: {name} is {getattr(other, name)}, but {getattr(figures, name)} in {given.road}: "
                            + (advise_window([figures, other]) if name in ("minutes", "begin") else "both files must describe the same road and time"))
        if [km for km, _ in other.ramps] != [km for km, _ in figures.ramps]:
            raise Fault(f"{path}: its ramps are not those of {given.road}: both files must describe the same road and time")
    names = [path.stem for path in (*given.against, given.road)]
    if len(names) == 2 and names[0] == names[1]:
        names = [f"{names[0]}, before", f"{names[1]}, after"]
    if len(set(names)) < len(names):
        raise Fault(f"two of the files have the name {next(name for name in names if names.count(name) > 1)}: the report calls roads by the names "
                    "of their files, so rename one")
    return others, names


def advise_window(both: Sequence[Figures]) -> str:
    """Return what to do if two files have different windows."""
    begins = [one.clock.begin for one in both]
    minutes = max(begin / 60 + one.minutes for begin, one in zip(begins, both)) - min(begins) / 60
    window = f', such as "begin": "{Clock(min(begins)).to_text(0)}" and "minutes": {minutes:g},' if all(one.begin for one in both) else ""
    return f"give both files one window{window} that holds the works of both, and the demand of all that time"


def find_first_file(given: argparse.Namespace) -> Path:
    """Return the file of the first road."""
    files: Sequence[Path] = [*(given.against or []), given.road]
    return files[0]


def join_names(names: Sequence[str]) -> str:
    """Return names as a list in a sentence."""
    return " and ".join([*([", ".join(names[:-1])] if names[:-1] else []), names[-1]])


def make_sides(request: Request) -> tuple[list[Road], list[Side]]:
    """Return the roads and the sides of the report. They begin before the window."""
    wide = [with_warm_up(one, request.warm) for one in widen_inlets([*request.others, request.figures])]
    roads = make_waiting_roads(wide)
    found = []
    for name, road in zip(request.names, roads):
        report_progress(f"measuring the inflow chances for the demand of the road {name}")
        chances = measure_chances(road)
        found.append(Side(name, make_script(road, chances, wide[-1].seed), [demand for _, demand in road.inlets],
                          make_script(road, chances, wide[-1].seed, with_works=False), road.units))
    return roads, found


def list_alternatives(request: Request) -> list[Request]:
    """Return the requests for all roads with the drivers that fit the counts as well, or none if the roads were not calibrated together or no range is
    known."""
    calibration = request.figures.calibration
    if calibration is None or any(one.calibration != calibration for one in request.others):
        return []
    return [dataclasses.replace(request, figures=with_drivers(request.figures, drivers), others=[with_drivers(one, drivers) for one in request.others])
            for drivers in (calibration.less, calibration.more) if drivers is not None]


def with_drivers(figures: Figures, drivers: Alternative) -> Figures:
    """Return the figures of a road with other drivers, and its demands times their factor."""
    def times(demand: Demand) -> Demand:
        return [(minute, cars * drivers.factor) for minute, cars in demand] if isinstance(demand, list) else demand * drivers.factor
    return dataclasses.replace(figures, slowing=drivers.slowing, start=drivers.start, main=times(figures.main),
                               ramps=[(km, times(demand)) for km, demand in figures.ramps])


def describe_sureness(request: Request, days: int) -> list[str]:
    """Return sentences that say how sure the drivers of the roads are, beside figures of some days."""
    calibrations = {one.calibration for one in (*request.others, request.figures)}
    if len(calibrations) > 1:
        return ["the files have different calibrations, so this report does not show how far the figures move with drivers that fit the counts as well"]
    return [*describe_calibration(request.figures.calibration, days), *describe_queues(request.figures.calibration),
            *(one for name, figures in zip(request.names, (*request.others, request.figures))
              for one in compare_works(figures, f" of the road {name}" if request.others else ""))]


def compare_works(figures: Figures, of_road: str = "") -> list[str]:
    """Return for each of the works that close a calibrated road or leave a capacity how many times as much they cost as with the measured flow out of
    their queue, by the formula of a queue. The demand is the mean while they last, of all inlets up to their end."""
    works = [*((f"km {one.first:g} to {one.last:g}", one.last, one.begin, one.end, one.capacity) for one in figures.sections if one.capacity is not None),
             *((f"km {one.at:g}", one.at, one.begin, one.end, 0.0) for one in figures.stalled)]
    flows, found = (figures.calibration.leaving or () if figures.calibration is not None else ()), []
    for place, last, begin, end, capacity in works:
        cars = sum(count_demand(to_rates(demand), to_steps(begin), to_steps(end)) for km, demand in ((0.0, figures.main), *figures.ramps) if km <= last)
        demand = cars / (end - begin) * 60
        ratios = [ratio for one in flows if (ratio := compare_delays(one, demand, capacity)) is not None]
        if ratios:
            named = f"the works{of_road} at {place} from {figures.format_time(begin)} on, with a demand of {demand:,.0f} cars/h,"
            times = " to ".join(dict.fromkeys(f"{one:.2f}" for one in (min(ratios), max(ratios))))
            what = (f"the queue of {named} never ends on this road, but would end" if max(ratios) == math.inf else
                    f"{named} cost {times} times as much on this road as")
            found.append(f"calibration: by the formula of a queue, {what} with the measured flow that leaves a jam")
    return found


def describe_works(figures: Figures) -> list[str]:
    """Describe sections and stalled cars in km, km/h and clock times."""
    clock = figures.clock
    found = []
    for one in figures.sections:
        limit = WORKS_LIMIT if one.limit is None and one.capacity is not None else one.limit
        what = [f"{one.capacity:,.0f} cars/h"] if one.capacity is not None else []
        what += [f"limit {limit:g} km/h" + ", which also delays free traffic" * (one.capacity is not None)] if limit is not None else []
        what += [f"slowing {one.slowing:.0%}"] if one.slowing is not None else []
        what += [f"slow-to-start {one.start:.0%}"] if one.start is not None else []
        found.append(f"km {one.first:g} to {one.last:g}, {clock.to_text(round(one.begin * 60))} to {clock.to_text(round(one.end * 60))}: "
                     + (", ".join(what) or "like the rest of the road"))
    found += [f"km {one.at:g}, {clock.to_text(round(one.begin * 60))} to {clock.to_text(round(one.end * 60))}: a stalled car closes the lane"
              for one in figures.stalled]
    return found


def name_inlets(figures: Figures) -> list[tuple[str, Demand]]:
    """Return the name and the demand of each inlet."""
    return [("main road", figures.main), *((f"on-ramp at km {km:g}", demand) for km, demand in figures.ramps)]


def describe_demand(figures: Figures) -> list[str]:
    """Describe the demand of each inlet in cars per hour and clock times. A long profile is in a chart and a table."""
    clock = figures.clock
    found = []
    for name, demand in name_inlets(figures):
        if not isinstance(demand, list):
            found.append(f"{name}: {demand:,.0f} cars/h")
        elif len(demand) <= MOST_LISTED:
            steps = ", ".join(f"{cars:,.0f} from {clock.to_text(to_steps(minute))}" for minute, cars in demand)
            found.append(f"{name}: {steps} cars/h")
        else:
            peak, most = max(demand, key=lambda pair: pair[1])
            found.append(f"{name}: {min(cars for _, cars in demand):,.0f} to {most:,.0f} cars/h, with the peak from {clock.to_text(to_steps(peak))} on")
    return found


def make_demand_chart(roads: Sequence[tuple[str, Figures]]) -> str:
    """Return the demands of roads over the window as a chart; an empty string if none changes. Roads with the same demand are drawn once."""
    figures = roads[-1][1]
    named = [(name if len(roads) > 1 else "", [(inlet, to_rates(demand)) for inlet, demand in name_inlets(one)]) for name, one in roads]
    return draw_demands(named, figures.clock, Window(0, to_steps(figures.minutes)))


def make_demand_records(roads: Sequence[tuple[str, Figures]]) -> list[Record]:
    """Return the demands of roads in cars per hour as records, at each time at which one changes. They apply until the next record."""
    columns = [(f"{side}: {name}: cars/h" if len(roads) > 1 else f"{name}: cars/h", to_rates(demand))
               for side, one in roads for name, demand in name_inlets(one)]
    dates = sorted({step for _, rates in columns for step, _ in rates})
    return [{"time": roads[0][1].clock.to_text(date), **{name: round(find_rate(rates, date), 2) for name, rates in columns}} for date in dates]


def describe_demands(request: Request) -> list[str]:
    """Describe the demands of all roads, or only of one if they are the same."""
    roads = list_demands(request)
    return [f"{side}: {one}" if len(roads) > 1 else one for side, figures in roads for one in describe_demand(figures)]


def list_demands(request: Request) -> list[tuple[str, Figures]]:
    """Return the roads of a report by name, or only the last one if all have the same demand."""
    if all(name_inlets(other) == name_inlets(request.figures) for other in request.others):
        return [(request.names[-1], request.figures)]
    return [*zip(request.names, [*request.others, request.figures])]


def list_works(request: Request) -> list[str]:
    """Describe the works of the road, and those of other roads that have some, after their names."""
    others = [f"{name}: {one}" for name, figures in zip(request.names, request.others) for one in describe_works(figures)]
    return [*others, *(f"{request.names[-1]}: {one}" if others else one for one in describe_works(request.figures))]


def list_notes(names: Sequence[str], roads: Sequence[Road]) -> list[str]:
    """Return what was rounded to the model: first what was rounded on all roads, then the rest after the name of its road."""
    common = [note for note in roads[0].notes if all(note in road.notes for road in roads)]
    return [*common, *(f"{name}: {note}" for name, road in zip(names, roads) for note in road.notes if note not in common)]


# The page

def make_lines_html(lines: Sequence[str]) -> str:
    """Return the lines of a CSV table as HTML."""
    head, *rows = csv.reader(lines)
    return ("<table><thead><tr>" + "".join(f"<th>{escape(cell)}</th>" for cell in head) + "</tr></thead><tbody>"
            + "".join("<tr>" + "".join(f"<td>{escape(cell)}</td>" for cell in row) + "</tr>" for row in rows) + "</tbody></table>")


def make_counts_html(given: argparse.Namespace, request: Request, model: Model) -> str:
    """Return the part that compares the first road with measured counts, as HTML."""
    measured, judged = model.measured, simulate_segments(model, list_segments(model), given.days)
    days, congestion = [one.passed for one in judged], Congestion(model, judged, given.congested)
    hours = compare_hours(measured, days)
    notes = make_list_html(measured.notes) if measured.notes else ""
    whose = "the measured demand" if given.demand == "counts" else f"the demand of {find_first_file(given).name}"
    only = f" Only the road {request.names[0]} is compared with the counts." if request.others else ""
    shares = "; ".join([*format_shares(measured, hours), *congestion.explain()]) + "."
    return (f"<h2>Comparison with measured counts</h2><p>{escape(make_title(model))}, mean of {count_things(given.days, 'day')} with {escape(whose)}."
            f"{escape(only)}</p>{make_list_html(congestion.judge_jams())}<p>{escape(shares)}</p>" + notes + make_lines_html(format_hours(model, hours))
            + make_lines_html(format_speeds(model, days)) + make_lines_html(congestion.format_table())
            + f'<div class="pairs">{"".join(f"<div>{one.draw(470, 175)}</div>" for one in make_comparison_charts(model, days))}</div>')


def make_page(given: argparse.Namespace, request: Request, roads: Sequence[Road], sides: Sequence[Side], days: Sequence[Sequence[RoadRun]],
              tables: Sequence[Sequence[FigureRow]], ranges: Sequence[RangeRow], model: Model | None) -> str:
    """Return the report as HTML."""
    figures, road, window = request.figures, roads[-1], request.window
    clock = with_warm_up(figures, request.warm).clock
    title = given.title or request.title
    drivers = f"limit {road.limit * KMH:g} km/h, slowing {figures.slowing:.0%}" + (
        f", slow-to-start {figures.start:.0%}" if figures.start is not None else "")
    closed = [[(window.first + to_steps(one.begin), window.first + to_steps(one.end), one.at, one.at) for one in side.stalled]
              for side in (*request.others, figures)]
    return format_page(Contents(
        title=title, facts=[f"{format_distance(road.to_km(road.length))} km, one lane, {drivers}", *describe_approach(road.units), *describe_demands(request)],
        demand=make_demand_chart(list_demands(request)), works=list_works(request),
        notes=list_notes(request.names, roads), clock=clock, window=window, length=road.length, detectors=road.detectors, sides=sides, days=days,
        rows=tables[0], others=tables[1:], seed=figures.seed, closed=closed, more="" if model is None else make_counts_html(given, request, model),
        remarks=[*describe_capacities([one.capacity for side in (*request.others, figures) for one in side.sections if one.capacity is not None]),
                 *OTHER_DAYS[:bool(request.warm)], *explain_outflow(road.drivers, [list(map(Waits.of, runs)) for runs in days])], ranges=ranges,
        sure=describe_sureness(request, given.days), has_approach=given.show_approach))


# The command

def write_table(path: Path, title: str, records: Sequence[Record]) -> None:
    """Write records as CSV, with the road and the window in the first row."""
    with open(path, "w", newline="", encoding="utf-8") as file:
        file.write(f"# {title}\n")
        writer = csv.DictWriter(file, list(records[0]), lineterminator="\n")
        writer.writeheader()
        writer.writerows(records)


def make_series_records(request: Request, sides: Sequence[Side], roads: Sequence[Road], days: Sequence[Sequence[RoadRun]]) -> list[Record]:
    """Return flow and speed by time at each detector as records."""
    found, window = [], request.window
    for detector, cell in enumerate(roads[0].detectors):
        each = [(make_flow_series([both[place] for both in days], detector, window),
                 make_speed_series([both[place] for both in days], detector, window)) for place in range(len(sides))]
        for index, first in enumerate(range(0, window.steps, PERIOD)):
            record: Record = {"detector km": roads[0].units.place_value(cell), "time": request.figures.clock.to_text(first)}
            for side, (flow, speed) in zip(sides, each):
                cars, kmh = flow[index][1], speed[index][1]
                record.update({f"{side.name}: cars/h": None if cars is None else round(cars, 1),
                               f"{side.name}: time-mean km/h": None if kmh is None else round(kmh, 1)})
            found.append(record)
    return found


def write_report(given: argparse.Namespace, out: Path) -> None:
    """Read, run, and write the report."""
    request = read_request(given)
    figures, window, clock = request.figures, request.window, request.figures.clock
    times = format_window(clock, window.steps)
    path = given.out or out / f"report-{given.road.stem}-{times}.html"
    prepare_file(path, "--out FILE.html")
    print("".join(f"{one}\n" for one in warn_few_days(given.days)), end="", file=sys.stderr, flush=True)
    model = None
    if request.measured is not None:
        report_progress("measuring the inflow chances for the comparison with counts")
        model = make_model(find_first_file(given).stem, request.first, request.measured, choose_factor(given))
    roads, sides = make_sides(request)
    each = []
    for place, of_drivers in enumerate([sides, *(make_sides(one)[1] for one in list_alternatives(request))]):
        report_progress(f"simulating {count_things(given.days, 'day')}" + " with drivers that fit as well" * bool(place))
        bar = Bar("runs", in_log=True)
        with open_executor(given.dask) as executor:
            each.append(run_sides(of_drivers, range(figures.seed, figures.seed + given.days), window, bar.show, executor, given.ship))
        bar.end()
    days, *others = each
    tables, ranges = make_tables(sides, days, window), make_ranges(sides, each, window) if others else []
    path.write_text(make_page(given, request, roads, sides, days, tables, ranges, model), encoding="utf-8")
    of_road = f"{make_csv_title(given.road.stem, clock, window.steps)}, {PER_LANE}"
    title = f"{of_road}, mean of {count_things(given.days, 'day')}"
    write_table(path.with_name(f"figures-{given.road.stem}-{times}.csv"), title, make_records(sides, tables))
    if ranges:
        write_table(path.with_name(f"calibration-{given.road.stem}-{times}.csv"), title, make_range_records(sides, ranges))
    write_table(path.with_name(f"demand-{given.road.stem}-{times}.csv"), of_road, make_demand_records(list_demands(request)))
    series = make_series_records(request, sides, roads, days)
    if series:
        write_table(path.with_name(f"series-{given.road.stem}-{times}.csv"), title, series)
    print(path)


def main(words: Sequence[str] | None = None, out: Path = Path("out")) -> int:
    """Write a report. Return the exit status."""
    given = read_arguments(words)
    try:
        write_report(given, out)
    except (LabError, BeyondCapacity, OSError) as fault:
        print(describe_error(fault), file=sys.stderr)
        return 1
    return 0
