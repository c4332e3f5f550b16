"""Compare a road with measured counts over some days: GEH of each station and hour, speeds, and pictures.

    python3 -m zegdrut measured ROAD.json COUNTS.csv [--stations TABLE.csv] [--days N] [--out FOLDER]

ROAD.json is a freeway as `zegdrut freeway` reads it. It needs a "begin" such as "06:30", and a "date" if the counts have dates. The
first main-line station upstream gives the demand at km 0, on-ramp stations give the demands of ramps, and the other stations are
compared. The model has one lane, so all figures are per lane. The run begins some minutes before the window, to fill the road.

COUNTS.csv has a header with time, km or station, count or flow, and perhaps speed. It may also be five-minute station data without a
header, which need --stations TABLE.csv with station, km or miles, and lanes. Missing and doubtful data are reported with line numbers.

With --write-road FILE it only writes the road with the measured demand to a file, which freeway, metering and report can read. With
--demand road it simulates the demand of ROAD.json, such as that of a calibrated road.

It writes the tables hours-, speeds-, congestion- and intervals-NAME-0630-0930.csv, and the pictures comparison- and space-time-NAME-0630-0930.svg.
"""
from __future__ import annotations

import argparse
import dataclasses
import datetime
import sys
from pathlib import Path
from typing import Optional, Sequence, cast

from ..base.errors import Fault, LabError, describe_error
from ..base.intervals import FEW_DAYS, warn_few_days
from ..base.progress_bars import Bar
from ..base.units import HOUR, count_things, format_fixed
from ..base.wire import Record
from ..measurements.congestion import (CONGESTED, DEPARTURE, LONG_INTERVAL, Both, JudgedDay, compare_leaving, compare_time_lost, compare_travel_times,
                                       describe_congested_demand, describe_jams, describe_lost, judge, list_segments, simulate_segments)
from ..measurements.counts_on_road import SPACE_MEAN, TIME_MEAN, Measured, put_on_road
from ..measurements.goodness_of_fit import (
    Day, Hour, Model, compare_hours, compare_speeds, list_left_out, make_model, make_interval_records,
    compute_total_rmse, compute_share_below, with_measured_demand, with_stations)
from ..measurements.stations import HEADERS, Counts, correct_counts, read_counts, read_stations
from ..reports.outputs import format_csv, prepare_file, prepare_folder
from ..reports.pictures import MEASURED, NO_DATA, SIMULATED, Chart, Field, Line, draw_field, draw_scale, stack_drawings, make_speed_field
from ..roads.calibrated import Leaving, describe_calibration, describe_leaving
from ..roads.demand import BeyondCapacity
from ..roads.freeway_files import FIGURES, write_road
from ..roads.road_in_cells import Figures, make_road, widen_inlet

DAYS = 5
A_MINUTE = 60
CELLS_A_PIECE = 13
"""The cells of a piece of the space-time diagram: about 100 m."""


def read_arguments(words: Sequence[str] | None) -> argparse.Namespace:
    """Read the command line."""
    parser = argparse.ArgumentParser("zegdrut measured", description=__doc__, formatter_class=argparse.RawDescriptionHelpFormatter)
    add_data_arguments(parser)
    add_demand_argument(parser)
    add_congestion_argument(parser)
    parser.add_argument("--days", type=int, default=DAYS, metavar="N", help="number of days, each with a seed (default: %(default)s)")
    parser.add_argument("--write-road", type=Path, metavar="FILE", help="write the road with the measured demand, and simulate nothing")
    return parser.parse_args(words)


def add_data_arguments(parser: argparse.ArgumentParser) -> None:
    """Add the arguments that name the road and its data."""
    parser.add_argument("road", type=Path, metavar="ROAD.json")
    parser.add_argument("counts", type=Path, metavar="COUNTS.csv")
    add_count_options(parser)
    parser.add_argument("--out", type=Path, metavar="FOLDER", help="folder of tables and pictures")


def add_demand_argument(parser: argparse.ArgumentParser) -> None:
    """Add the option that chooses the demand of the road."""
    parser.add_argument("--demand", choices=("counts", "road"), default="counts", help="simulate the demand of the counts, or that of "
                        "ROAD.json, such as of a calibrated road (default: %(default)s)")


def add_congestion_argument(parser: argparse.ArgumentParser) -> None:
    """Add the option that says when traffic is congested."""
    parser.add_argument("--congested", type=float, default=CONGESTED, metavar="SHARE", help="traffic is congested below this share of a "
                        "station's free speed (default: %(default)s)")


def check_congested(share: float) -> None:
    """Check the share of --congested. Fault: it is out of range."""
    if not 0.1 <= share <= 0.95:
        raise Fault(f"--congested must be 0.1 to 0.95 of the free speed, not {share:g}")


def add_count_options(parser: argparse.ArgumentParser) -> None:
    """Add the options that say how to read measured counts."""
    parser.add_argument("--stations", type=Path, metavar="TABLE.csv", help="table with station, km or miles, and lanes")
    parser.add_argument("--origin", type=float, metavar="KM", help="km of the table that is km 0 of the road (default: 0, or the first station if the table has miles)")
    parser.add_argument("--reverse", action="store_true", help="the km of the table decrease in the direction of travel")
    parser.add_argument("--leave-out", action="append", default=[], metavar="STATION", help="do not use this station")
    parser.add_argument("--scale", action="append", default=[], metavar="STATION=FACTOR", help="multiply the counts of a station that counts "
                        "too many or too few, such as 103=0.926")
    parser.add_argument("--shift", action="append", default=[], metavar="STATION=MINUTES", help="move the times of a station whose clock is wrong, such "
                        "as 103=-10 if it is 10 minutes fast")
    parser.add_argument("--no-ramp-check", action="store_true", help="compare also the stations after a fall of the flow, as at an off-ramp")
    parser.add_argument("--column", action="append", default=[], metavar="QUANTITY=COLUMN", help="title of the column of a quantity, such as speed=v_mean")
    parser.add_argument("--unit", action="append", default=[], metavar="speed=UNIT", help="unit of the speeds: km/h, mph or m/s")
    parser.add_argument("--speeds", choices=(TIME_MEAN, SPACE_MEAN), default=TIME_MEAN, help="what the speeds are: arithmetic means of the cars that "
                        "pass, or means of the cars on the road, such as harmonic means or flow / density (default: %(default)s)")


def read_pairs(given: list[str], word: str, example: str, known: Sequence[str]) -> dict[str, str]:
    """Read arguments such as speed=mph into a dictionary. Fault: one has no =, or its quantity is unknown."""
    found = dict(one.partition("=")[::2] for one in given)
    if "" in found.values() or any("=" not in one for one in given):
        raise Fault(f"--{word} must be QUANTITY={word.upper()}, such as {example}, not {' '.join(given)}")
    for name in found:
        if name not in known:
            raise Fault(f"--{word} {name}={found[name]}: unknown quantity {name!r}: it must be {' or '.join(known)}")
    return found


def read_numbers(given: list[str], form: str) -> dict[str, float]:
    """Read arguments such as 103=0.926 into a dictionary. `form` is that of the option. Fault: one has no number."""
    found = {}
    for one in given:
        name, sign, text = one.rpartition("=")
        try:
            found[name] = float(text if sign else "")
        except ValueError:
            raise Fault(f"{form}, not {one}") from None
    return found


def read_data(given: argparse.Namespace) -> tuple[Figures, Measured]:
    """Read the road and its counts, and check that they fit. Fault: one of them is invalid."""
    return read_day(given, FIGURES.override(given.road))


def read_days(given: argparse.Namespace, dates: Sequence[str]) -> list[tuple[Figures, Measured]]:
    """Read the road and its counts on each of these dates, or on the date of the road without dates. Fault: one of them is invalid."""
    figures = FIGURES.override(given.road)
    return [read_day(given, dataclasses.replace(figures, date=date)) for date in dates] or [read_day(given, figures)]


def list_dates(figures: Figures) -> list[datetime.date] | None:
    """Return the dates of the window, or None if the road has no date."""
    first = figures.clock.date
    if first is None:
        return None
    return [first + datetime.timedelta(days=day) for day in range((figures.clock.begin + round(figures.minutes * 60)) // 86_400 + 1)]


def read_day(given: argparse.Namespace, figures: Figures) -> tuple[Figures, Measured]:
    """Read the counts of a road, and check that they fit. Fault: one of them is invalid."""
    if figures.begin is None:
        raise Fault(f'{given.road} has no begin: add the clock time at which the window begins, such as "begin": "06:30"')
    table = read_stations(given.stations) if given.stations else None
    columns, units = (read_pairs(given.column, "column", "speed=v_mean", list(HEADERS)),
                      read_pairs(given.unit, "unit", "speed=mph", ["speed"]))
    # Faults of other days are not told. If no row has the date, all rows are read, and `put_on_road` says what dates they have.
    counts = read_counts(given.counts, table, columns, units, list_dates(figures))
    counts = counts if counts.rows else read_counts(given.counts, table, columns, units)
    counts = correct_counts(counts, given.leave_out, read_numbers(given.scale, "--scale must be STATION=FACTOR, such as 103=0.926"),
                            read_numbers(given.shift, "--shift must be STATION=MINUTES, such as 103=-10"))
    figures = with_date_of(figures, counts)
    gives_demand = getattr(given, "demand", "counts") == "counts"  # (`calibrate` has no such option)
    measured = put_on_road(counts, figures.clock, round(figures.minutes * 60), given.origin, given.reverse, not given.no_ramp_check, gives_demand)
    measured = dataclasses.replace(measured, mean=given.speeds)
    road = with_stations(figures, measured)
    if not gives_demand:
        make_road(road)
        return figures, measured
    make_road(with_measured_demand(road, measured)[0])
    return figures, dataclasses.replace(measured, notes=[*measured.notes, *describe_congested_demand(measured, given.congested)])


def with_date_of(figures: Figures, counts: Counts) -> Figures:
    """Return the figures with the date of the counts, if they have one date and the road has none."""
    dates = {row.time.date() for row in counts.rows if isinstance(row.time, datetime.datetime)}
    return dataclasses.replace(figures, date=str(min(dates))) if figures.date is None and len(dates) == 1 else figures


def print_lines(sentences: Sequence[str]) -> None:
    """Print sentences at once."""
    print("".join(f"{one}\n" for one in sentences), end="", flush=True)


def report_progress(doing: str) -> None:
    """Print on standard error what is being done."""
    print(f"{doing} ..", file=sys.stderr, flush=True)


# Tables

def format_window(model: Model) -> str:
    """Return the window for names of files: 0630-0930."""
    clock = model.measured.clock
    return f"{clock.to_file_text(0)}-{clock.to_file_text(model.window_steps)}"


def make_title(model: Model) -> str:
    """Return the title of tables and pictures: the road and the window."""
    clock = model.measured.clock
    date = f" on {clock.date}" if clock.date else ""
    return f"{model.name}, {clock.to_text(0)} to {clock.to_text(model.window_steps)}{date}, per lane"


def format_number(value: float | None, digits: int = 1) -> str:
    """Return a number for a table; an empty string for None."""
    return "" if value is None else format_fixed(value, digits)


def find_places(model: Model) -> dict[str, str]:
    """Return the km of each compared station by its name, as the road has it: in whole cells."""
    return {one.station.name: model.road.units.place_value(cell) for one, cell in zip(model.measured.main[1:], model.road.detectors)}


def format_hours(model: Model, hours: Sequence[Hour]) -> list[str]:
    """Return the table of stations and hours."""
    rows = ["station,km,from,to,measured cars/h/lane,simulated cars/h/lane,± cars/h/lane,GEH per lane,lanes,GEH all lanes,intervals".split(",")]
    an_hour = HOUR // model.measured.interval
    clock, lanes = model.measured.clock, {one.station.name: one.station.lanes for one in model.measured.main}
    places = find_places(model)
    for one in hours:
        rows.append([one.station, places[one.station], clock.to_text(one.first), clock.to_text(one.first + HOUR), f"{one.measured:.1f}",
                     f"{one.simulated:.1f}", format_number(one.half), f"{one.geh:.2f}", str(lanes[one.station]), f"{one.geh_all_lanes:.2f}", f"{one.intervals} of {an_hour}"])
    return format_csv(rows)


def format_speeds(model: Model, days: Sequence[Day]) -> list[str]:
    """Return the table of speeds by station and for all stations."""
    errors, places = compare_speeds(model.measured, days), find_places(model)
    rows = [f"station,km,intervals,RMSE of {model.measured.mean} speed km/h,simulated minus measured km/h".split(",")]
    rows += [[one.station, places[one.station], str(one.intervals), format_number(one.rmse), format_number(one.bias)] for one in errors]
    return format_csv([*rows, ["all", "", str(sum(one.intervals for one in errors)), format_number(compute_total_rmse(errors)), ""]])


class Congestion:
    """The congestion of a road, compared with the measured one, as a table and as sentences."""

    delay: Both | None
    """The delay of congested traffic by all cars, in vehicle hours per lane, or None without speeds."""
    delay_at_stations: Both | None
    """The delay by the cars that pass the stations."""
    leaving: Sequence[Leaving]
    """The flows that leave jams."""

    def __init__(self, model: Model, days: Sequence[JudgedDay], share: float) -> None:
        """Judge the days of a model. Traffic is congested below a share of the free speed."""
        self._measured, self._share = model.measured, share
        self._found = judge(model.measured, days, share)
        self._segments = list_segments(model)
        self.delay, self.delay_at_stations = (compare_time_lost(self._segments, days, share, at_stations) for at_stations in (False, True))
        self._times = compare_travel_times(model, self._segments, days)
        self._lost_cars = describe_lost(model, days)
        self.leaving = compare_leaving(model.measured, days, share)

    def format_table(self) -> list[str]:
        """Return the table of station intervals, speeds, delay and travel times."""
        rows = ["figure,unit,value,±".split(",")]
        names = ("congested in both", "congested only measured", "congested only simulated", "congested in neither")
        rows += [[name, "station intervals", str(count), ""] for name, count in zip(names, self._found.count())]
        mean = self._measured.mean
        for what, off in (("measured congestion", self._found.congested), ("measured free traffic", self._found.free)):
            rows += [[f"RMSE of {mean} speed in {what}", "km/h", format_number(off.rmse), ""],
                     [f"simulated minus measured {mean} speed in {what}", "km/h", format_number(off.bias), ""]]
        bound = " (at least)" if self._lost_cars else ""
        found, times = [("delay of congested traffic", "vehicle hours per lane", self.delay, self.delay_at_stations)], self._times
        if times is not None:
            found += [("mean travel time by trajectories", "s", times.mean, times.mean_at_stations),
                      ("longest travel time by trajectories", "s", times.longest, times.longest_at_stations)]
        for name, unit, both, alike in found:
            if both is not None and alike is not None:
                rows += [[f"{name}, estimated from measured station speeds", unit, format_number(both.measured), ""],
                         [f"{name}, estimated from simulated station speeds{bound}", unit, format_number(alike.simulated), format_number(alike.half)],
                         [f"{name}, simulated by all cars{bound}", unit, format_number(both.simulated), format_number(both.half)]]
        return format_csv(rows)

    def describe(self) -> list[str]:
        """Return what congestion means here, what the delay and the travel times are, and a verdict on each jam."""
        return [*self.explain(), *self.judge_jams()]

    def explain(self) -> list[str]:
        """Return what congestion means here, and what the delay and the travel times are."""
        said = [f"congested: below {self._share:g} of the free speed of the station, {describe_means(self._measured.mean)}"]
        if self._segments:
            first, last = (self._segments[place].series.station for place in (0, -1))
            said += [f"delay and travel times: from station {first.name} to {last.name}, km {first.km:g} to {last.km:g}. Station intervals and jams: at the "
                     "stations after the first", self._describe_estimates(), self._describe_times()]
        interval = self._measured.interval
        if interval < LONG_INTERVAL:
            said.append(f"in counts of {count_things(interval // 60, 'minute')} one free interval ends a jam: for a verdict add them up to "
                        f"{LONG_INTERVAL // 60} minutes")
        return [*said, *self._lost_cars]

    def judge_jams(self) -> list[str]:
        """Return a verdict on each jam, or say why no jam is judged, and compare the flows that leave jams."""
        return [*describe_jams(self._found, self._measured), *describe_leaving(self.leaving)]

    def _describe_estimates(self) -> str:
        """Return what an estimate from station speeds leaves out."""
        places = [one.series.station.km for one in self._segments]
        gap = max(after - before for before, after in zip(places, places[1:]))
        return (f"estimated from station speeds: a jam between two stations, which are up to {gap:.3g} km apart, is not seen" + (
            "" if self._measured.mean == SPACE_MEAN else ". Time-mean speeds are higher than those of all cars in a jam. So the estimates are rather too low"))

    def _describe_times(self) -> str:
        """Describe the travel times, or say why they are unknown."""
        if self._times is None:
            return "no travel times: no car that departs in the window arrives in it with a measured speed all the way"
        left_out, bridged = self._times.left_out, self._times.bridged
        return (f"travel times by trajectories: those of {count_things(self._times.number, 'car')} that depart {DEPARTURE} s apart and arrive in the window, the "
                f"last one from {self._measured.clock.to_text(self._times.last)}{f', without {left_out} that pass where no station has a speed' * (left_out > 0)}. "
                "In each interval a car moves at the speed of its place: that at the nearest station, or the mean of all cars there" + (
                    f". {count_things(bridged, 'station interval')} without a speed: the speed is that of the nearest station that has one" if bridged else ""))


def describe_means(mean: str) -> str:
    """Return the means that say whether the counts and the simulation are congested."""
    return ("measured and simulated by space-mean speeds" if mean == SPACE_MEAN else
            "measured by time-mean speeds, and simulated by space-mean speeds, which are lower in a jam")


def format_records(records: Sequence[Record]) -> list[str]:
    """Return records as the lines of a CSV file."""
    names = list(records[0])
    return format_csv([names, *([record[name] for name in names] for record in records)])


def write_table(folder: Path, name: str, model: Model, lines: Sequence[str]) -> None:
    """Write a table. Its first line is the title."""
    path = folder / f"{name}-{model.name}-{format_window(model)}.csv"
    path.write_text("".join(f"{line}\n" for line in (f"# {make_title(model)}", *lines)), encoding="utf-8")


# Pictures

def draw_comparison(model: Model, days: Sequence[Day]) -> str:
    """Return measured and simulated flow and speed by time at each station as one SVG."""
    return stack_drawings([chart.draw() for chart in make_comparison_charts(model, days)])


def make_comparison_charts(model: Model, days: Sequence[Day]) -> list[Chart]:
    """Return charts of measured and simulated flow and speed by time, two for each station."""
    measured, mean, charts, places = model.measured, model.measured.mean, list[Chart](), find_places(model)
    records = cast("list[dict[str, Optional[float]]]", make_interval_records(model, days))  # (the figures of these charts)
    for index, series in enumerate(measured.main[1:]):
        rows = records[index * measured.intervals:(index + 1) * measured.intervals]
        middles = [(place + 0.5) * measured.interval for place in range(measured.intervals)]
        for what, unit, names in (("Flow", "cars/h per lane", ("measured cars/h/lane", "simulated cars/h/lane", "± cars/h/lane")),
                                  (f"{mean.capitalize()} speed", "km/h", (f"measured {mean} km/h", f"simulated {mean} km/h", ""))):
            chart = Chart(f"{what}, station {series.station.name}, km {places[series.station.name]}", unit, measured.clock, 0, model.window_steps)
            simulated, half = [row[names[1]] for row in rows], [row.get(names[2]) for row in rows]
            pairs = [(mean, width) for mean, width in zip(simulated, half) if mean is not None and width is not None]
            has_band = len(pairs) == len(rows) and len(days) >= FEW_DAYS
            low, high = ([mean + sign * width for mean, width in pairs] if has_band else None for sign in (-1, 1))
            chart.add(Line("simulated", list(zip(middles, simulated)), SIMULATED, low, high))
            chart.add(Line("measured", list(zip(middles, (row[names[0]] for row in rows))), MEASURED, is_dashed=True))
            charts.append(chart)
    return charts


def make_measured_field(model: Model, pieces: int) -> Field:
    """Return measured speeds as a field. Each piece of the road has the speed of the nearest station: NO_DATA if it has none then, and None
    if it counted no car."""
    measured = model.measured
    last = model.road.to_km(model.road.length)
    nearest = [min(measured.main, key=lambda one: abs(one.station.km - (piece + 0.5) * last / pieces)) for piece in range(pieces)]
    return [[NO_DATA if one.speeds[place] is None and one.cars[place] != 0 else one.speeds[place] for one in nearest]
            for place in range(measured.intervals)]


def draw_space_time(model: Model, rows: Sequence[str]) -> str:
    """Return the measured and the simulated space-time diagram with the same colour scale, as SVG. `rows` are those of the first day."""
    road, clock = model.road, model.measured.clock
    km = road.to_km(road.length)
    simulated = make_speed_field([row[road.approach:] for row in rows], A_MINUTE, CELLS_A_PIECE)
    ramps, stations = [road.to_km(cell) for cell, _ in road.inlets[1:]], [min(max(one.station.km, 0.0), km) for one in model.measured.main]
    drawn = [draw_field(simulated, f"Simulated space-mean speed, seed {model.seed}", clock, 0, model.window_steps, km, ramps=ramps, detectors=stations)]
    if any(speed is not None for one in model.measured.main for speed in one.speeds):
        measured = make_measured_field(model, len(simulated[0]))
        title = f"Measured {model.measured.mean} speed, nearest station"
        drawn.insert(0, draw_field(measured, title, clock, 0, model.window_steps, km, ramps=ramps, detectors=stations))
    return stack_drawings([*drawn, draw_scale(has_no_data=len(drawn) > 1, has_ramps=bool(ramps), has_detectors=True)])


# The command

def compare(given: argparse.Namespace, out: Path) -> None:
    """Read the data, simulate, compare, and write the results."""
    check_days(given.days, 1)
    check_congested(given.congested)
    figures, measured = read_data(given)
    folder = given.out or out / given.road.stem
    if given.write_road is None:
        prepare_folder(folder)
    else:
        prepare_file(given.write_road, "--write-road FILE")
    print_lines([*measured.notes, *warn_few_days(given.days)])
    if given.write_road is not None:
        write_measured_road(given, figures, measured)
        return

    def tell_inlet(inlet: int) -> None:
        report_progress(f"measuring the inflow chances of inlet {inlet}")
    model = make_model(given.road.stem, figures, measured, choose_factor(given), progress=tell_inlet)
    print_lines(model.road.notes)
    report_progress(f"simulating {count_things(given.days, 'day')}")
    bar = Bar("days", in_log=True)
    judged = simulate_segments(model, list_segments(model), given.days, bar.show, with_rows=True)
    bar.end()
    days = [one.passed for one in judged]
    hours = compare_hours(measured, days)
    congestion = Congestion(model, judged, given.congested)
    tables = {"hours": format_hours(model, hours), "speeds": format_speeds(model, days), "congestion": congestion.format_table()}
    for name, lines in tables.items():
        write_table(folder, name, model, lines)
        print(f"\n{make_title(model)}\n" + "\n".join(lines))
    write_table(folder, "intervals", model, format_records(make_interval_records(model, days)))
    print()
    print_lines([*format_shares(measured, hours), *congestion.describe(),
                 *describe_calibration(None if given.demand == "counts" else figures.calibration, given.days)])
    window = format_window(model)
    (folder / f"comparison-{model.name}-{window}.svg").write_text(draw_comparison(model, days), encoding="utf-8")
    (folder / f"space-time-{model.name}-{window}.svg").write_text(draw_space_time(model, judged[0].rows), encoding="utf-8")
    print(f"The tables and pictures are in {folder}", file=sys.stderr)


def choose_factor(given: argparse.Namespace) -> float | None:
    """Return the factor of the measured demand: 1, or None for the road's own demand."""
    return 1.0 if given.demand == "counts" else None


def check_days(days: int, least: int) -> None:
    """Check a number of days. Fault: it is out of range."""
    if not least <= days <= 1_000:
        raise Fault(f"--days must be {least} to 1,000, not {days:,}")


def write_measured_road(given: argparse.Namespace, figures: Figures, measured: Measured) -> None:
    """Write the road with the measured demand as a file, which freeway, metering and report take."""
    found, notes = with_measured_demand(with_stations(figures, measured), measured)
    print_lines(notes)
    report_progress("measuring whether the inlet at km 0 admits the demand")
    write_road(given.write_road, given.road, widen_inlet(found))
    print(given.write_road)


def format_shares(measured: Measured, hours: Sequence[Hour]) -> list[str]:
    """Return how many station hours are compared, why the others are left out, and the shares with a GEH below 5."""
    left_out = list_left_out(measured)
    found = [f"{len(hours)} of {count_things(len(hours) + len(left_out), 'station hour')} compared"]
    scaled = sum(one.intervals < HOUR // measured.interval for one in hours)
    if scaled:
        found.append(f"rows are missing in {count_things(scaled, 'compared station hour')}: measured and simulated flows there are those of the other rows, "
                     "scaled to an hour")
    if left_out:
        found.append("left out: " + "; ".join(f"station {one.station} from {measured.clock.to_text(one.first)} ({one.reason})" for one in left_out))
    if not hours:
        return [*found, "so there is no GEH: it needs hours with at least five sixths of their rows"]
    one, every = [hour.geh for hour in hours], [hour.geh_all_lanes for hour in hours]
    return [*found, f"GEH below 5 in {100 * compute_share_below(one):.0f} % of {count_things(len(hours), 'compared station hour')} by the flow per "
            f"lane, and in {100 * compute_share_below(every):.0f} % by the flow of all lanes (guidelines require 85 % of the links)"]


def main(words: Sequence[str] | None = None, out: Path = Path("out")) -> int:
    """Compare a road with measured counts. Return the exit status."""
    given = read_arguments(words)
    try:
        compare(given, out)
    except (LabError, BeyondCapacity, OSError) as fault:
        print(describe_error(fault), file=sys.stderr)
        return 1
    return 0
