"""Fit the slowing chance, the slow-to-start chance and a demand factor to measured counts and speeds.

    python3 -m zegdrut calibrate ROAD.json COUNTS.csv [--stations TABLE.csv] [--fit DATE,.. --check DATE,..] [--bounds FILE] [--out FOLDER]

ROAD.json and COUNTS.csv are as `zegdrut measured` reads them. The bounds are {"slowing": [0, 0.4], "start": [0, 0.7], "factor":
[0.9, 1.1]}, or those of a JSON file. Each limit around the measured free speed is searched, or those within the bounds "limit". Several
rounds of points are simulated in parallel on all processors, each point over some days. With --fit the errors are means over these days
of COUNTS.csv, and the spread between the days is shown; with --check the result is compared with other days. On a terminal it shows the
progress and the best point; to a log it writes a line every ten seconds.

It prints the result, the terms of the smallest error, the ten best points, and the errors of the result and of the drivers of ROAD.json. It
writes calibrated-NAME.json (ROAD.json with the fitted drivers, and the measured demand of the main road and of the ramps times the fitted
factor), tried-NAME.csv (all points with their errors) and surface-NAME.svg (a picture of the errors). zegdrut/measurements/calibration.py
defines the error. An error of about 2 is as good as chance allows. The command warns if the smallest error or that of the result is above
5, and if a result is within 5 % of the bounds of its range. Then it compares the congestion of the result with the measured one, and says
how far the delay moves with drivers that fit as well within chance. calibrated-NAME.json has these drivers, too, and `zegdrut report` shows
how far its figures move with them.
"""
from __future__ import annotations

import argparse
import dataclasses
import datetime
import json
import math
import shlex
import statistics
import sys
from pathlib import Path
from typing import NamedTuple, Sequence

from ..base.errors import Fault, LabError, describe_error
from ..base.progress_bars import Bar
from ..measurements.calibration import (DELAY_UNCERTAINTY, NAMES, TERMS, TOTAL_UNCERTAINTY, Alternatives, Bounds, Calibration, MeasuredDay, Misfit,
                                        Point, Search, Trial, apply_point, calibrate, find_alternatives, find_chance, is_congested, list_limits,
                                        make_calibrated)
from ..measurements.congestion import CONGESTED, Both, compare_time_lost, list_segments, simulate_segments
from ..measurements.counts_on_road import TIME_MEAN, Measured
from ..measurements.goodness_of_fit import compare_hours, make_model, with_measured_demand
from ..program.programs import program_path
from ..reports.outputs import prepare_folder
from ..reports.pictures import draw_points, stack_drawings
from ..roads.calibrated import CHANCE_ERROR, MOST_ERROR, Alternative, Calibrated, Leaving
from ..roads.demand import BeyondCapacity
from ..roads.freeway_files import FIGURES, write_road
from ..roads.road_in_cells import Figures, make_road, measure_chances
from .measured import (DAYS, Congestion, add_congestion_argument, add_data_arguments, check_congested, format_shares, print_lines, read_days,
                       report_progress)
from .sweep import add_dask_options, open_executor


NO_CONGESTION = ("no station is congested (more than 10 km/h below its highest speed): these counts cannot determine the slow-to-start "
                 "chance, and its value is arbitrary. Use counts of a day with a jam")
NO_MINIMUM = ("the errors show no minimum, so the result is the mean of the best points: the slow-to-start chance may be off by 0.2, "
              "whatever its spread. Try more points or days")
NO_RANGE = ("no range of the delay is known: with a single simulated day per point, or fewer than 3 points near the best, nothing says how far the "
            "delay moves with drivers that fit as well within chance. Use --days 2 or more, and more --points")
SHORT_SEARCH = (f"fewer than {Search.points} points or {Search.days} days: the result may be off by more than its spread, which is only that "
                "of the best points (recipes/measured/README.md has examples)")


BEST_SO_FAR = "the search was ended early, and wrote no file. The best point of each limit so far:"
NEAR_BOUND = 0.05
"""The share of a range within which a result is near the bound of the range."""
QUANTITIES = ("slowing chance", "slow-to-start chance", "demand factor")


ONLY_MOVING = (". In the model only moving cars pass a detector: if the detectors of the counts see a jam, this term stays large, and the verdict "
               "on jams says more")
LARGE_TERM = 3.0
"""A term of an error above this is far from what chance makes, about 1."""


def find_mean_misfit(found: Calibration) -> Misfit | None:
    """Return the mean over the measured days of the misfit of the best trial."""
    days = found.best_ten()[0].by_day
    if not days:
        return None
    means = [statistics.mean(one.terms[place] for one in days) for place in range(len(TERMS))]
    return Misfit(statistics.mean(one.error for one in days), statistics.mean(one.ratio for one in days), tuple(means),
                  statistics.mean(one.free_speed for one in days), statistics.mean(one.delay for one in days))


def describe_terms(misfit: Misfit, limit: float) -> list[str]:
    """Return a sentence for each term of the error that chance does not explain."""
    off = 1 / misfit.ratio - 1
    details = (f"the best point has {100 * abs(off):.1f} % {'more' if off > 0 else 'fewer'} cars" if abs(off) > TOTAL_UNCERTAINTY else
               "the totals of the stations do not fit each other",
               f"the simulated free speed is {abs(misfit.free_speed):.1f} km/h too {'high' if misfit.free_speed > 0 else 'low'} with the limit "
               f"{limit:g} km/h", f"by the speeds at detectors the best point has {math.exp(misfit.delay):.2f} times the measured delay" + ONLY_MOVING * (
                   misfit.delay < 0), "", "")
    return [f"the error is large in its term {name!r} ({value:.1f})" + (f": {detail}" if detail else "")
            for name, value, detail in zip(TERMS, misfit.terms, details) if value > LARGE_TERM]


def explain_bound(name: str, is_upper: bool, misfit: Misfit, limit: float) -> str:
    """Return why a result stands at a bound, or an empty string: even there the simulation differs from the counts."""
    if name == "slowing" and (misfit.free_speed > 0) is is_upper and abs(misfit.free_speed) > 1:
        return (f"even so the free speed is {abs(misfit.free_speed):.1f} km/h too {'high' if is_upper else 'low'}, since the limit {limit:g} km/h is too "
                f"{'high' if is_upper else 'low'}")
    if name == "start" and (misfit.delay < 0) is is_upper and abs(misfit.delay) > DELAY_UNCERTAINTY:
        return f"even so there is {'less' if is_upper else 'more'} delay than measured"
    if name == "factor" and (misfit.ratio > 1) is is_upper and abs(misfit.ratio - 1) > TOTAL_UNCERTAINTY:
        return f"even so there are {'fewer' if is_upper else 'more'} cars than measured"
    return ""


def list_warnings(found: Calibration, bounds: Bounds) -> list[str]:
    """Return a sentence if the road fits the counts badly, for each large term of the error, and for each result at or near the bound of
    its range."""
    warnings = []
    least = min(one.error for one in found.best_ten())
    misfit = find_mean_misfit(found)
    if least > MOST_ERROR:
        warnings.append(f"the smallest error is {least:.1f}, but about {CHANCE_ERROR} is as good as chance allows: the calibrated road does "
                        f"not fit these counts. Compare it with them before you use it, and check the counts and the road")
    elif found.last and found.last[0].error > MOST_ERROR:
        warnings.append(f"the error of the result is {found.last[0].error:.1f}, but about {CHANCE_ERROR} is as good as chance allows, and a point has "
                        f"{least:.1f}: the search has not found the minimum. Try more points or days")
    warnings += describe_terms(misfit, found.limit) if misfit is not None else []
    for quantity, name, value, (low, high) in zip(QUANTITIES, NAMES, found.best, bounds[:3]):
        bound = low if value - low < high - value else high
        if low < high and abs(value - bound) <= NEAR_BOUND * (high - low):
            can_widen = bound > 0 if name == "factor" else 0 < bound < 1
            why = "" if misfit is None else explain_bound(name, bound == high, misfit, found.limit)
            warnings.append(f"the {quantity} of {value:.3f} is at or near the bound {bound:g} of its range, {low:g} to {high:g}: " + (why and f"{why}; ")
                            + (f'a value outside may fit better. Widen "{name}" by --bounds FILE' if can_widen else "no value beyond it is possible"))
    return warnings


def read_arguments(words: Sequence[str] | None) -> argparse.Namespace:
    """Read the command line."""
    parser = argparse.ArgumentParser("zegdrut calibrate", description=__doc__, formatter_class=argparse.RawDescriptionHelpFormatter)
    add_data_arguments(parser)
    add_congestion_argument(parser)
    parser.add_argument("--bounds", type=Path, metavar="FILE", help="a JSON file with the bounds of slowing, start and factor")
    parser.add_argument("--points", type=int, default=Search.points, metavar="N", help=f"points of each round but the first, 10 or more (default: %(default)s); the "
                        f"first of {Search.rounds} rounds has {Search.first_points}")
    parser.add_argument("--days", type=int, default=Search.days, metavar="N", help="simulated days per point (default: %(default)s)")
    parser.add_argument("--fit", type=read_dates, default=[], metavar="DATE,..", help="fit to these days of the counts (default: the date of the road)")
    parser.add_argument("--check", type=read_dates, default=[], metavar="DATE,..", help="compare the result with these days of the counts")
    parser.add_argument("--jobs", type=int, metavar="N", help="processes (default: one for each processor)")
    add_dask_options(parser)
    return parser.parse_args(words)


def read_dates(text: str) -> list[str]:
    """Read dates such as 2026-03-02,2026-03-03. ArgumentTypeError: one of them is not a date."""
    try:
        return [datetime.date.fromisoformat(one).isoformat() for one in text.split(",")]
    except ValueError as fault:
        raise argparse.ArgumentTypeError(f"write dates such as 2026-03-02,2026-03-03: {fault}") from None


def read_bounds(path: Path | None) -> Bounds:
    """Read the bounds of a file, or take the usual ones. Fault: the file cannot be read."""
    if path is None:
        return Bounds()
    try:
        return Bounds.read(json.loads(path.read_text(encoding="utf-8")), str(path))
    except ValueError as fault:
        raise Fault(f"{path} is not JSON: {fault}") from None


def describe_best(best: Trial) -> str:
    """Return the best point of a round, for the progress."""
    point = ", ".join(f"{name} {value:.3f}" for name, value in zip(NAMES, best.point))
    return f"; the best of the round: {point}, error {best.error:.2f}"


def format_trials(tried: Sequence[Trial]) -> list[str]:
    """Return points with their errors as the lines of a table."""
    return ["round,slowing,slow-to-start,demand factor,error"] + [
        f"{one.round},{one.point.slowing:.4f},{one.point.start:.4f},{one.point.factor:.4f},{one.error:.4f}" for one in tried]


def format_terms(found: Calibration) -> list[str]:
    """Return the terms of the smallest error as the lines of a table. By chance each is about 1 or less."""
    misfit = find_mean_misfit(found)
    return [] if misfit is None else ["term of the smallest error,value", *(f"{name},{value:.2f}" for name, value in zip(TERMS, misfit.terms))]


def format_days(days: Sequence[MeasuredDay], found: Calibration) -> list[str]:
    """Return the result of each measured day alone, and the standard deviation between the days, as the lines of a table."""
    rows = ["day," + ",".join(QUANTITIES)]
    rows += [f"{day.clock.date}," + ",".join(f"{value:.3f}" for value in point) for (_, day), point in zip(days, found.of_days)]
    return [*rows, "spread between days," + ",".join(f"{statistics.stdev(values):.3f}" for values in zip(*found.of_days))]


def describe_errors(found: Calibration, figures: Figures) -> list[str]:
    """Return the errors of the result and of the drivers of the file, and whether both fit equally well within chance."""
    if not found.last or found.own is None:
        return []
    result = found.last[0].error
    drivers = f"the drivers of the file (limit {figures.limit:g} km/h, slowing {found.own.point.slowing:g}, slow-to-start {found.own.point.start:g})"
    if not math.isfinite(found.own.error):
        return [f"error {result:.1f} of the result; {drivers} do not admit the demand"]
    off, chance = found.own.error - result, find_chance(found)
    verdict = "" if chance is None else (f", and errors less than {chance:.1f} apart fit equally well within chance: the drivers of the file fit "
                                         + ("as well" if abs(off) < chance else "worse" if off > 0 else "better: try more points"))
    return [f"error {result:.1f} of the result, and {found.own.error:.1f} of {drivers}, on the same simulated days. Chance alone makes about "
            f"{CHANCE_ERROR}{verdict}"]


def draw_surface(found: Calibration) -> str:
    """Return the errors over slowing and slow-to-start, and over slowing and factor, as SVG."""
    known = [one for one in found.tried if math.isfinite(one.error)]
    drawn = []
    for first, second in ((0, 1), (0, 2)):
        points = [(one.point[first], one.point[second], one.error) for one in known]
        drawn.append(draw_points("Error by " + " and ".join(("slowing", "slow-to-start", "demand factor")[axis] for axis in (first, second)),
                                 ("slowing chance", ("slow-to-start chance", "demand factor")[second - 1]), points,
                                 (found.best[first], found.best[second])))
    return stack_drawings(drawn)


def run_calibration(given: argparse.Namespace, out: Path) -> None:
    """Read the data, search, and write the results."""
    if given.points < 10 or given.days < 1:
        raise Fault("--points must be 10 or more, and --days 1 or more")
    if given.jobs is not None and given.jobs < 1:
        raise Fault(f"--jobs must be 1 or more, not {given.jobs}")
    check_congested(given.congested)
    bounds = read_bounds(given.bounds)
    days, checked = read_days(given, given.fit), read_days(given, given.check) if given.check else []
    figures, measured = days[0]
    name, folder = given.road.stem, given.out or out / given.road.stem
    prepare_folder(folder)
    for _, day in (*days, *checked):
        print_lines(day.notes)
    search = dataclasses.replace(Search(), points=given.points, days=given.days, elite=max(given.points // 4, 4))
    point = Point(figures.slowing, figures.start or 0.0, 1.0)
    for road, day in days:
        print_lines([*make_road(make_calibrated(road, day, point)).notes, *with_measured_demand(road, day)[1]])
    if given.points < Search.points or given.days < Search.days:
        print_lines([SHORT_SEARCH])
    if not any(is_congested(day) for _, day in days):
        print_lines([NO_CONGESTION])
    program_path()  # (its note is printed here, and not by each process)
    limits = list_limits(figures, [day for _, day in days], bounds)
    report_progress(f"trying {search.total * len(limits)} points, {search.total} with {'each ' * (len(limits) > 1)}limit: "
                    f"{', '.join(f'{one:g}' for one in limits)} km/h. A last round follows")
    found = search_limits(given, days, bounds, search, limits)
    figures_of_file = figures
    days, checked = ([(dataclasses.replace(one, limit=found.limit), day) for one, day in each] for each in (days, checked))
    figures, measured = days[0]
    if not found.is_fitted:
        print_lines([NO_MINIMUM])
    print("quantity,found,spread of the best points")
    for quantity, value, spread in zip(QUANTITIES, found.best, found.spread):
        print(f"{quantity},{value:.3f},{spread:.3f}")
    print(f"limit,{found.limit:g} km/h,{' or '.join(f'{one:g}' for one in limits)} km/h tried")
    print("\n" + "\n".join(format_terms(found)))
    if len(days) > 1:
        print("\n" + "\n".join(format_days(days, found)))
    print("\n" + "\n".join(format_trials(found.best_ten())))
    print_lines(["", *describe_errors(found, figures_of_file), *list_warnings(found, bounds)])
    best = found.best._replace(slowing=round(found.best.slowing, 4), start=round(found.best.start, 4))
    calibrated = dataclasses.replace(make_calibrated(figures, measured, best), calibration=None)
    path = folder / f"calibrated-{name}.json"
    write_road(path, given.road, calibrated)
    (folder / f"tried-{name}.csv").write_text("".join(f"{line}\n" for line in format_trials([*found.tried, *found.last])), encoding="utf-8")
    (folder / f"surface-{name}.svg").write_text(draw_surface(found), encoding="utf-8")
    alternatives = find_alternatives(found)
    if alternatives is None:
        print_lines([NO_RANGE])
    if check_admission(calibrated):
        for what, each in (("fitted", days), ("checked", checked)):
            for road, day in each:
                # The written file has the demand of the first day, rounded. The same file has the same figures in `measured`.
                own = (FIGURES.override(path), None) if day is measured else (apply_point(road, best), best.factor)
                congestion = compare_calibrated(given, own[0], day, own[1], f"{what}: {day.clock.date or 'the counts'}")
                if each is days:
                    sure = None
                    if alternatives is not None and congestion.delay is not None:
                        sure = measure_alternatives(given, alternatives, (road, day), best, congestion.delay)
                        print_lines([describe_alternatives(alternatives, found, sure, congestion)])
                    if day is measured:
                        record = make_record(congestion, sure, found)
                        write_road(path, given.road, dataclasses.replace(calibrated, calibration=record))
    more = "".join(f" {word}" for word in list_count_words(given))
    print(f"The calibrated road, the points and the picture are in {folder}. Compare the road with its counts by "
          f"`recipes/measured/run {path} {given.counts}{more} --demand road`", file=sys.stderr)


def search_limits(given: argparse.Namespace, days: Sequence[MeasuredDay], bounds: Bounds, search: Search, limits: Sequence[float]) -> Calibration:
    """Search the limits, and show the progress. After Ctrl-C print the best point of each limit so far."""
    bar, best = Bar("points", in_log=True), dict[float, Trial]()

    def show(done: int, total: int, trial: Trial) -> None:
        for limit in limits[(done - 1) // search.total:][:1]:  # (none in the last round)
            best[limit] = min(best.get(limit, trial), trial, key=lambda one: one.error)
        bar.show(done, total, describe_best(trial))
    try:
        with open_executor(given.dask) as executor:
            found = calibrate(given.road.stem, days, bounds, search, show, given.jobs, executor, given.ship)
    except KeyboardInterrupt:
        bar.end()
        print_lines([BEST_SO_FAR, "limit km/h,slowing,slow-to-start,demand factor,error"] + [
            f"{limit:g},{','.join(f'{value:.4f}' for value in one.point)},{one.error:.4f}" for limit, one in best.items()])
        raise
    bar.end()
    return found


def list_count_words(given: argparse.Namespace) -> list[str]:
    """Return the options that say how the counts were read, as words of a command line."""
    words = [f"--stations {given.stations}"] if given.stations else []
    words += [f"--origin {given.origin:g}"] if given.origin is not None else []
    words += ["--reverse"] if given.reverse else []
    words += ["--no-ramp-check"] if given.no_ramp_check else []
    words += [f"--speeds {given.speeds}"] if given.speeds != TIME_MEAN else []
    words += [f"--congested {given.congested:g}"] if given.congested != CONGESTED else []
    return [*words, *(f"--{name.replace('_', '-')} {shlex.quote(one)}" for name in ("leave_out", "scale", "shift", "column", "unit")
                      for one in getattr(given, name))]


def check_admission(figures: Figures) -> bool:
    """Return whether each inlet of the calibrated road admits its demand, and print a line if one does not."""
    try:
        measure_chances(make_road(figures))
    except Fault as fault:
        print_lines([f"the calibrated road would be refused: {fault}"])
        return False
    return True


def compare_calibrated(given: argparse.Namespace, figures: Figures, measured: Measured, factor: float | None, title: str) -> Congestion:
    """Simulate a road over as many days as `measured` does, with the measured demand times a factor, or with its own demand if `factor` is
    None. Print its congestion beside the measured one, its GEH and a verdict on each jam."""
    model = make_model(given.road.stem, figures, measured, factor)
    days = simulate_segments(model, list_segments(model), DAYS)
    congestion = Congestion(model, days, given.congested)
    print_lines(["", title, *congestion.format_table(), "", *format_shares(measured, compare_hours(measured, [one.passed for one in days])),
                 *congestion.describe()])
    return congestion


class Sure(NamedTuple):
    """The delay of the result, and of the drivers that fit as well those with the least and the most delay, with the delays of both."""

    delay: Both
    less: tuple[Alternative, Both]
    more: tuple[Alternative, Both]

    def describe(self) -> str:
        """Return the least and the most delay, each with half its 95 % interval, and a remark if the range is on one side of the result."""
        low, *_, high = sorted((self.delay, self.less[1], self.more[1]), key=lambda both: both.simulated)
        own, less, more = (both.simulated for both in (self.delay, self.less[1], self.more[1]))
        side = "less" if 0 < own < less else "more" if own > more else ""
        return (f"{format_both(low)} to {format_both(high)} by drivers that fit as well within chance"
                + f" (points with {side} delay than the result were tried, and fit worse)" * bool(side))


def make_record(congestion: Congestion, sure: Sure | None, found: Calibration) -> Calibrated | None:
    """Return what the file of the calibrated road has of the delay and the jams of the calibrated day, or None if the counts have no speeds."""
    if congestion.delay is None or congestion.delay_at_stations is None:
        return None
    less, more = (None, None) if sure is None else (sure.less[0], sure.more[0])
    own = found.last[0].error if found.last else math.inf
    return Calibrated(round(congestion.delay.simulated, 2), less, more, tuple(map(round_flow, congestion.leaving)), round(congestion.delay.measured, 2),
                      round(congestion.delay_at_stations.simulated, 2), round(own, 2) if math.isfinite(own) else None)


def round_flow(one: Leaving) -> Leaving:
    """Return a flow that leaves a jam, rounded for a file."""
    simulated, half = (None if flow is None else round(flow, 1) for flow in (one.simulated, one.half))
    return one._replace(measured=round(one.measured, 1), simulated=simulated, half=half)


def format_both(both: Both) -> str:
    """Return a simulated value with half its 95 % interval."""
    return f"{both.simulated:.1f}" + ("" if both.half is None else f" ± {both.half:.1f}")


def measure_alternatives(given: argparse.Namespace, alternatives: Alternatives, day: MeasuredDay, best: Point, delay: Both) -> Sure:
    """Measure the delay of the drivers that fit a measured day as well, over the same simulated days as that of the best point."""
    report_progress("simulating drivers that fit as well")
    road, measured = day

    def measure(point: Point) -> tuple[Alternative, Both]:
        rounded = point._replace(slowing=round(point.slowing, 4), start=round(point.start, 4))
        model = make_model(given.road.stem, apply_point(road, rounded), measured, rounded.factor)
        lost = compare_time_lost(segments := list_segments(model), simulate_segments(model, segments, DAYS), given.congested)
        found = lost or Both(0.0, 0.0, None)
        return Alternative(rounded.slowing, rounded.start, round(rounded.factor / best.factor, 5), round(found.simulated, 2)), found
    less, more = sorted(map(measure, (alternatives.less, alternatives.more)), key=lambda drivers: drivers[0].delay)
    return Sure(delay, less, more)


def describe_alternatives(alternatives: Alternatives, found: Calibration, sure: Sure, congestion: Congestion) -> str:
    """Return a sentence on the delay, measured and simulated, and how far it moves over the points that fit as well."""
    later = sum(bool(one.round) for one in (*found.tried, *found.last))
    at_stations = "" if congestion.delay_at_stations is None else f" and {format_both(congestion.delay_at_stations)} simulated"
    return (f"delay of congested traffic in vehicle hours per lane: estimated from station speeds {sure.delay.measured:.1f} measured{at_stations}, "
            f"by all cars between them {format_both(sure.delay)} simulated. Calibration: {sure.describe()} ({alternatives.points} of the {later} points after "
            f"the first round, with errors up to {alternatives.chance:.1f} above the smallest). ± does not include this")


def main(words: Sequence[str] | None = None, out: Path = Path("out")) -> int:
    """Fit drivers and demand to measured counts. Return the exit status."""
    given = read_arguments(words)
    try:
        run_calibration(given, out)
    except (LabError, BeyondCapacity, OSError) as fault:
        print(describe_error(fault), file=sys.stderr)
        return 1
    return 0
