"""Calibrate a road: its errors, the search, and what is written."""
from __future__ import annotations

import contextlib
import dataclasses
import functools
import io
import json
import math
import os
import random
import re
import statistics
import subprocess
import sys
import tempfile
import unittest.mock
from pathlib import Path
from types import SimpleNamespace
from typing import Callable

from measured_recipe import MeasuredChecks, passed
from zegdrut.base.errors import Fault
from zegdrut.commands import calibrate
from zegdrut.measurements import Bounds, Measured, Station, calibration, list_segments, make_model, put_on_road, read_counts, simulate_segments
from zegdrut.measurements.calibration import Calibration, Point, Trial
from zegdrut.measurements.congestion import Both, compare_time_lost
from zegdrut.measurements.counts_on_road import Series
from zegdrut.reports.pictures import draw_points
from zegdrut.roads import Clock, FIGURES
from zegdrut.roads.calibrated import Leaving, read_calibration, write_calibration
from zegdrut.roads.demand import QUICK

RECIPE = Path(__file__).resolve().parents[2] / "recipes" / "measured"


def fit_plane(rows: list[tuple[float, float, float]]) -> tuple[float, float]:
    """Return both slopes of the plane through (x, y, value) by least squares, from the covariances of the columns."""
    xs, ys, values = zip(*rows)
    var_x, var_y = statistics.variance(xs), statistics.variance(ys)
    xy, xv, yv = (statistics.covariance(*pair) for pair in ((xs, ys), (xs, values), (ys, values)))
    return (xv * var_y - yv * xy) / (var_x * var_y - xy * xy), (yv * var_x - xv * xy) / (var_x * var_y - xy * xy)


def write_free_traffic(folder: str, kmh: float, dates: tuple[str, ...]) -> tuple[Path, Path]:
    """Write a road and counts of four stations with one free speed and no jam. Only the first date has a row without a count."""
    rng, road, counts = random.Random(5), Path(folder, "road.json"), Path(folder, "counts.csv")
    rows = []
    for date in dates:
        for place in range(24):
            cars = 60 + 40 * (1 - abs(place - 12) / 12)
            for name, km in (("1", 0.05), ("2", 1.5), ("3", 3.0), ("4", 4.5)):
                count = "" if (date, place, name) == (dates[0], 3, "3") else str(round(rng.gauss(cars, math.sqrt(cars))))
                rows.append(f"{date} {7 + place * 5 // 60:02}:{place * 5 % 60:02},{name},{km},{count},{kmh + rng.gauss(0, 0.5):.1f}")
    counts.write_text("time,station,km,count,speed km/h\n" + "\n".join(rows) + "\n", encoding="utf-8")
    road.write_text(json.dumps({"length": 5, "limit": 130, "begin": "07:00", "minutes": 120, "main": 1000, "ramps": [], "sections": [], "stalled": [],
                                "date": dates[0]}), encoding="utf-8")
    return road, counts


class Calibrations(MeasuredChecks):
    def test_error_surface(self) -> None:
        """Mark the axes of a picture of errors at round values: 0.00625 to 0.203 at each 0.05, and 0.28 to 0.52 at each 0.05."""
        drawn = draw_points("Errors", ("slowing", "start"), [(0.00625, 0.28, 3.0), (0.203, 0.52, 5.0), (0.1, 0.4, 1.0)], (0.1, 0.4))
        self.check("round marks", re.findall(r">([0-9.]+)</text>", drawn), ["0.05", "0.1", "0.15", "0.2", "0.3", "0.35", "0.4", "0.45", "0.5"])

    def test_calibration_warnings(self) -> None:
        """Warn of a bad fit and of results near the bounds of their ranges: within 5 % of 0 to 0.4, which is 0.02. A range of one value has none."""
        def warnings(point: Point, error: float, bounds: Bounds = Bounds()) -> list[str]:
            return calibrate.list_warnings(Calibration(point, Point(0, 0, 0), [Trial(point, error + 9, 0), Trial(point, error, 1)], 135), bounds)
        self.check("a good fit", warnings(Point(0.021, 0.6, 1.0), 4.9), [])
        self.check("a bad fit at the bounds", warnings(Point(0.389, 0.03, 0.905), 18.5), [
            "the smallest error is 18.5, but about 2 is as good as chance allows: the calibrated road does not fit these counts. Compare it with them "
            "before you use it, and check the counts and the road",
            'the slowing chance of 0.389 is at or near the bound 0.4 of its range, 0 to 0.4: a value outside may fit better. Widen "slowing" by '
            "--bounds FILE",
            "the slow-to-start chance of 0.030 is at or near the bound 0 of its range, 0 to 0.7: no value beyond it is possible",
            'the demand factor of 0.905 is at or near the bound 0.9 of its range, 0.9 to 1.1: a value outside may fit better. Widen "factor" by '
            "--bounds FILE"])
        self.check("a result that fits worse than a point", [calibrate.list_warnings(Calibration(
            Point(0.2, 0.3, 1.0), Point(0, 0, 0), [Trial(Point(0.2, 0.3, 1.0), 1.6, 1)], 135, last=(Trial(Point(0.2, 0.3, 1.0), error, 5),)), Bounds())
            for error in (5.0, 6.0)], [[], ["the error of the result is 6.0, but about 2 is as good as chance allows, and a point has 1.6: the search has not "
                                            "found the minimum. Try more points or days"]])
        self.check("a range of one value", warnings(Point(0.2, 0.3, 1.0), 1.0, Bounds((0.2, 0.2), (0.0, 0.7), (1.0, 1.0))), [])

    def test_misfit_by_hand(self) -> None:
        """Compute the misfit of a day to counts of two stations. The free speed of station a is 104 km/h; it is 81 in the simulation, which is
        23 too low although no simulated interval is within 10 km/h of 104. Station b has a jam of 50 km/h in one of four intervals, and the
        simulation, at 108, has none: its free speed is 4 too high. The median over both is (4 - 23) / 2."""
        series = [Series(Station(name, km, 1), [20.0] * 4, speeds) for name, km, speeds in (
            ("0", 0.0, [None] * 4), ("a", 1.0, [104.0] * 4), ("b", 2.0, [104.0, 104.0, 50.0, 104.0]))]
        measured = Measured(Clock.read("07:00"), 300, series, [])
        day = [[passed(20, 60)] * 4, [passed(22, 88)] * 4]
        found = calibration.compute_misfit(SimpleNamespace(measured=measured), [day], [1.0])
        wanted = statistics.median([81 - 104] * 4 + [108 - 104] * 3)
        self.check_near("free speed", found.free_speed, wanted, 1e-9)
        self.check_near("its term", found.terms[1], (wanted / 0.3) ** 2, 1e-6)
        self.check_near("the totals", found.terms[0], (0 + (0.1 / 0.005) ** 2) / 2, 1e-9)
        self.check_near("the ratio of cars", found.ratio, (1 + 80 / 88) / 2, 1e-12)
        slow, jam = 80 * (3600 / 81 - 3600 / 94), 20 * (3600 / 50 - 3600 / 94)
        self.check_near("the delay", found.delay, math.log((slow + 1000) / (jam + 1000)), 1e-9)
        self.check_near("the error", found.error, sum(found.terms), 1e-9)

    def test_equally_good(self) -> None:
        """Find the points that fit as well as the best within chance. The best has an error of 1, and the errors of single days differ by 2 (the
        median of 2, 2, 2 and 9), so errors up to 3 are as good: not that of 3.1, and not that of the first round. By a plane through the
        logarithms 0.5, -2, 1 and 2 of their delays, the drivers of the second point cause the least delay, and those of the third the most,
        although the fourth had more on its days, and standing cars are slower to start at the second than at the first."""
        def trial(slowing: float, start: float, error: float, delay: float, spread: float = 2.0, number: int = 1) -> Trial:
            # Two measured days: the errors of a simulated day are means over both. Those of three simulated days have a deviation of `spread`.
            alone = [(4 - 2 * spread, 4, 4 + 2 * spread), (4, 4, 4)]
            return Trial(Point(slowing, start, 1.0), error, number, 1.0, tuple(
                calibration.Misfit(error, delay=delay + more, by_seed=errors) for more, errors in zip((-1, 1), alone)))
        rows = [(0.16, 0.40, 0.5), (0.15, 0.41, -2.0), (0.18, 0.50, 1.0), (0.17, 0.46, 2.0)]
        tried = [trial(0.0, 0.1, 0.5, -9, number=0), *(trial(*row[:2], error, row[2], spread) for row, error, spread in zip(rows, (1, 2, 3, 2.9), (2, 2, 2, 9))),
                 trial(0.3, 0.6, 3.1, 9), Trial(Point(0.4, 0.7, 1.0), math.inf, 1)]
        slopes = fit_plane(rows)
        ranked = sorted(rows, key=lambda row: slopes[0] * row[0] + slopes[1] * row[1])
        self.check("the plane decides", (ranked[0], ranked[-1]), (rows[1], rows[2]))
        found = calibration.find_alternatives(Calibration(Point(0.16, 0.45, 1), Point(0, 0, 0), tried, 135))
        self.check("as good as the best", found, (4, 2.0, Point(0.15, 0.41, 1.0), Point(0.18, 0.50, 1.0)))
        free = [trial(slowing, start, 1, 0) for slowing, start in ((0.3, 0.2), (0.2, 0.5), (0.1, 0.4))]
        found = calibration.find_alternatives(Calibration(Point(0.2, 0.4, 1), Point(0, 0, 0), free, 135))
        self.check("without delay slow-to-start decides", (found.less.start, found.more.start), (0.2, 0.5))
        self.check("two points give no range", calibration.find_alternatives(Calibration(Point(0.2, 0.4, 1), Point(0, 0, 0), free[:2], 135)), None)
        single = [one._replace(by_day=tuple(day._replace(by_seed=day.by_seed[:1]) for day in one.by_day)) for one in free]
        self.check("one simulated day", calibration.find_alternatives(Calibration(Point(0.2, 0.4, 1), Point(0, 0, 0), single, 135)), None)

    def test_delay_of_alternatives(self) -> None:
        """Measure the delay of two other kinds of drivers on the jam of the example, and find it again with files that have these drivers: first
        those with less delay, though the plane ranked them otherwise. The errors of single days are those of runs of these days alone."""
        road = dataclasses.replace(FIGURES.override(RECIPE / "example.json"), begin="07:30", minutes=45)
        measured = put_on_road(read_counts(RECIPE / "example_counts.csv"), road.clock, 45 * 60)
        given = SimpleNamespace(road=RECIPE / "example.json", congested=0.8)
        best, others = Point(0.16, 0.45, 1.0), (Point(0.1578, 0.38, 0.97), Point(0.15, 0.47, 1.01))
        quick = functools.partial(make_model, effort=QUICK)
        with contextlib.redirect_stderr(io.StringIO()), unittest.mock.patch.object(calibrate, "make_model", quick), \
                unittest.mock.patch.object(calibrate, "DAYS", 2):
            sure = calibrate.measure_alternatives(given, calibration.Alternatives(7, 2.54, *others[::-1]), (road, measured), best, Both(4.04, 30.0, 9.46))
        halves = []
        for point, (found, both) in zip(others, (sure.less, sure.more)):
            model = quick("other", calibration.make_calibrated(road, measured, point), measured, None)
            passed_by = simulate_segments(model, list_segments(model), 2)
            lost = [compare_time_lost(list_segments(model), [day], 0.8).simulated for day in passed_by]
            self.check_near(f"the delay of {point}", found.delay, statistics.mean(lost), 0.006)
            halves.append(12.7062 * statistics.stdev(lost) / math.sqrt(2))
            self.check_near("half its interval by Student's t for two days", both.half or 0, halves[-1], 0.001 * halves[-1])
            self.check_near("its demand", found.factor, point.factor, 1e-9)
        flows = [Leaving("402", "403", 1_551.26, 1_432.94, 15.04), Leaving("403", "404", 1_600.0, None, None)]
        last = Calibration(best, best, [], 135, last=(Trial(best, 45.267, 5), Trial(best, 1.0, 5)))
        judged = SimpleNamespace(delay=Both(4.04, 30.0, 9.46), delay_at_stations=Both(4.04, 3.81, 0.62), leaving=flows)
        written = calibrate.make_record(judged, sure, last)
        self.check("what the file has", (written.delay, written.less == sure.less[0], written.more == sure.more[0], written.less.delay < written.more.delay,
                                    written.measured, written.at_stations, written.error), (30.0, True, True, True, 4.04, 3.81, 45.27))
        without = calibrate.make_record(judged, None, Calibration(best, best, [], 135, last=(Trial(best, math.inf, 5), Trial(best, 1.0, 5))))
        self.check("without a range", without, written._replace(less=None, more=None, error=None))
        self.check("counts without speeds", calibrate.make_record(SimpleNamespace(delay=None, delay_at_stations=None, leaving=[]), None, last), None)
        self.check("the flows that the file has", written.leaving, (("402", "403", 1_551.3, 1_432.9, 15.0), ("403", "404", 1_600.0, None, None)))
        field = json.loads(json.dumps(write_calibration(written)))
        self.check("the field is read as it was written", read_calibration(field), written)
        self.check("a field without a range", read_calibration(json.loads(json.dumps(write_calibration(without)))), without)
        self.check("a field of an earlier version", read_calibration({name: field[name] for name in ("delay", "less", "more")}),
              written._replace(leaving=None, measured=None, at_stations=None, error=None))
        for place, name, value in ((0, "measured", 0), (0, "measured", None), (0, "simulated", -1), (0, "half", "15"), (1, "station", 403), (1, "following", None),
                                   (1, "more", 1)):
            wrong = json.loads(json.dumps(field))
            wrong["leaving"][place][name] = value
            self.check(f"a field with {name} {value}", read_calibration(wrong), None)
        for name, value in (("leaving", {}), ("leaving", [5]), ("other", 5), ("less", None), ("more", 5), ("delay", -1), ("delay", None), ("error", "5"), ("measured", -1), ("at_stations", [])):
            self.check(f"a field with {name} {value}", read_calibration({**field, name: value}), None)
        tried = [Trial(best, 1.0, number) for number in (0, 1, 1, 1)]

        def said(delay: float, less: float, more: float) -> str:
            ends = [(end[0], Both(4.04, value, half)) for end, value, half in zip((sure.less, sure.more), (less, more), (1.23, None))]
            congestion = SimpleNamespace(delay_at_stations=Both(4.04, 3.81, 0.62))
            return calibrate.describe_alternatives(calibration.Alternatives(2, 2.54, *others), Calibration(best, best, tried, 135, last=(Trial(best, 1.0, 5),)),
                                                   calibrate.Sure(Both(4.04, delay, 9.46), *ends), congestion)
        head = ("delay of congested traffic in vehicle hours per lane: estimated from station speeds 4.0 measured and 3.8 ± 0.6 simulated, by all cars "
                "between them {} ± 9.5 simulated. Calibration: {} by drivers that fit as well within chance{} (2 of the 4 points after the first round, with "
                "errors up to 2.5 above the smallest). ± does not include this")
        worse = " (points with {} delay than the result were tried, and fit worse)"
        self.check("the range", said(30, 10, 50), head.format("30.0", "10.0 ± 1.2 to 50.0", ""))
        self.check("a range of more delay", said(30, 40, 50), head.format("30.0", "30.0 ± 9.5 to 50.0", worse.format("less")))
        self.check("a range of less delay", said(30, 10, 20), head.format("30.0", "10.0 ± 1.2 to 30.0 ± 9.5", worse.format("more")))
        self.check("no delay", [said(0, less, 20) for less in (0, 5)], [head.format("0.0", "0.0 ± 9.5 to 20.0", "")] * 2)
        fit = calibration.evaluate_day("both", road, measured, best, [5, 6])
        self.check("errors of single days", fit.by_seed, tuple(calibration.evaluate_day("one", road, measured, best, [seed]).error for seed in (5, 6)))

    def test_last_round(self) -> None:
        """Try what the last round tries, with a made-up error of a point: 1 and ten times its distance from (0.2, 0.3), with the days 1 higher and lower than
        their mean. The best has an error of 1, and errors of days differ by the square root of 2. So the three points with errors up to 2.4 fit as well, and
        those opposite them are tried, except one whose slow-to-start chance is below 0. On the days of the last round all errors are 5 higher: 7.2, 8.4 and 8.7,
        so two of its points fit as well, too."""
        def error(point: Point) -> float:
            return 1 + 10 * math.hypot(point.slowing - 0.2, point.start - 0.3)

        def trial(point: Point, number: int = 1) -> Trial:
            return Trial(point, error(point), number, 1.0, (calibration.Misfit(error(point), by_seed=(error(point) - 1, error(point) + 1)),))

        def evaluate(name: str, days: calibration.Sequence, job: tuple[Point, range]) -> list[calibration.Misfit]:
            one = trial(job[0]).by_day[0]
            return [one._replace(error=one.error + 5, terms=(days[0][0].limit, *job[1]))]
        tried = [trial(Point(*point, 1.0)) for point in ((0.2, 0.3), (0.3, 0.3), (0.2, 0.43), (0.2, 0.5))] + [trial(Point(0.2, 0.3, 1.0), 0)]
        figures, told = dataclasses.replace(FIGURES, limit=135, slowing=0.1, start=None), []
        with unittest.mock.patch.object(calibration, "evaluate_alone", evaluate):
            found = calibration.check_result("small", [(figures, Measured(Clock.read("07:00"), 300, [], []))], Calibration(
                Point(0.19, 0.18, 0.98), Point(0, 0, 0), tried, 108), Bounds(), calibration.Search(days=2, rounds=3), 80, lambda *done: told.append(done[:2]), 1,
                None, False)
        points = [Point(0.19, 0.18, 0.98), Point(0.18, 0.06, 0.98), Point(0.08, 0.06, 0.98)]
        rounded = [(Point(*(round(value, 9) for value in one.point)), one.by_day[0].terms) for one in (*found.last, found.own)]
        self.check("what is tried, at which limit and on which days", rounded,
              [(point, (108, 40_000, 40_001)) for point in points] + [(Point(0.1, 0.0, 1.0), (135, 40_000, 40_001))])
        self.check("the last round", ([one.round for one in found.last], [round(one.error, 6) for one in (*found.last, found.own)]),
              ([3, 3, 3], [round(error(point) + 5, 6) for point in (*points, Point(0.1, 0.0, 1.0))]))
        self.check("its progress", told, [(81, 84), (82, 84), (83, 84), (84, 84)])
        self.check("its points belong to the range", (calibration.find_alternatives(found).points, round(calibration.find_alternatives(found).chance, 6)),
              (5, round(math.sqrt(2), 6)))
        self.check("the errors", calibrate.describe_errors(found, figures), [
            "error 7.2 of the result, and 9.2 of the drivers of the file (limit 135 km/h, slowing 0.1, slow-to-start 0), on the same simulated days. Chance alone "
            "makes about 2, and errors less than 1.4 apart fit equally well within chance: the drivers of the file fit worse"])
        for own, wanted in ((6.0, "as well"), (8.4, "as well"), (5.5, "better: try more points")):
            said, = calibrate.describe_errors(dataclasses.replace(found, own=found.own._replace(error=own)), figures)
            self.check(f"drivers with the error {own}", said.rpartition("the drivers of the file fit ")[2], wanted)
        said, = calibrate.describe_errors(dataclasses.replace(found, own=found.own._replace(error=math.inf)), figures)
        self.check("too much demand", said, "error 7.2 of the result; the drivers of the file (limit 135 km/h, slowing 0.1, slow-to-start 0) do not admit the demand")

    def test_limits_of_free_speeds(self) -> None:
        """List the limits to search: multiples of 27 km/h just above the free speed and up to 10 km/h below it, and that of the road."""
        def limits(free: float | None, limit: float, bounds: Bounds = Bounds()) -> list[float]:
            series = [Series(Station(name, 1.0, 1), [20.0] * 20, [free] * 19 + [250.0 if free else None]) for name in "ab"]
            return calibration.list_limits(dataclasses.replace(FIGURES, limit=limit), [Measured(Clock.read("07:00"), 300, series, [])], bounds)
        self.check("limits", [limits(*given) for given in ((112.0, 135), (112.0, 108), (104.0, 130), (20.0, 27), (150.0, 135), (None, 108),
                                                        (91.0, 108), (91.1, 108), (118.0, 54))],
              [[108, 135], [108, 135], [108, 135], [27], [135], [108], [81, 108], [108], [54, 108, 135]])
        self.check("given limits", limits(112.0, 135, Bounds.read({"limit": [80, 110]}, "FILE")), [81, 108])
        try:
            self.check("no limit", Bounds.read({"limit": [82, 107]}, "FILE"), "a refusal")
        except Fault as fault:
            self.check("no limit", str(fault), "FILE: bounds: limit: no multiple of 27 km/h from 27 to 135 km/h is within [82, 107]")

    def test_interrupted_search(self) -> None:
        """End a search of three limits by Ctrl-C at the third point of the second limit: the best point of each limit so far is printed. A point of the last
        round belongs to no limit."""
        trials = [Trial(Point(0.1, 0.2, 1.0), 9.0, 0), Trial(Point(0.2, 0.3, 1.0), 4.0, 1), Trial(Point(0.3, 0.4, 1.0), 6.0, 0),
                  Trial(Point(0.25, 0.5, 0.98), math.inf, 0), Trial(Point(0.25, 0.6, 0.98), 7.0, 0), Trial(Point(0.2, 0.3, 0.98), 1.0, 5)]

        def search(name: str, days: object, bounds: Bounds, size: calibration.Search, show: Callable[[int, int, Trial], None], *_: object) -> Calibration:
            for done, trial in zip((1, size.total - 1, size.total, size.total + 1, size.total + 2, 3 * size.total + 1), trials):
                show(done, 3 * size.total, trial)
            raise KeyboardInterrupt
        given = SimpleNamespace(road=Path("small.json"), dask=None, jobs=None, ship=False)
        with unittest.mock.patch.object(calibrate, "calibrate", search), contextlib.redirect_stdout(io.StringIO()) as said, \
                contextlib.redirect_stderr(io.StringIO()):
            try:
                calibrate.search_limits(given, [], Bounds(), calibration.Search(), [81, 108, 135])
                self.check("the interrupt is passed on", False, True)
            except KeyboardInterrupt:
                self.check("the best points so far", said.getvalue().splitlines()[1:],
                      ["limit km/h,slowing,slow-to-start,demand factor,error", "81,0.2000,0.3000,1.0000,4.0000", "108,0.2500,0.6000,0.9800,7.0000"])

    def test_calibrated_limit(self) -> None:
        """Calibrate a road of 130 km/h to traffic with a free speed of 104 km/h, which is 108 km/h minus a slowing of about 0.15. With the limit
        135 km/h alone the slowing stands at its bound, and the recipe says why. Two days are fitted, a third is checked, and of a day that is
        not used nothing is said."""
        dates = ("2026-03-02", "2026-03-03", "2026-03-04", "2026-03-05")
        with tempfile.TemporaryDirectory() as folder:
            road, counts = write_free_traffic(folder, 104, dates)
            bounds = Path(folder, "bounds.json")
            bounds.write_text('{"limit": [135, 135]}', encoding="utf-8")
            words = (RECIPE / "calibrate", road, counts, "--points", "10", "--days", "1", "--jobs", "2", "--out", folder)
            ran = self.run_recipe(*words, "--fit", "2026-03-03,2026-03-04", "--check", "2026-03-05")
            written = json.loads(Path(folder, "calibrated-road.json").read_text(encoding="utf-8"))
            high = self.run_recipe(*words, "--bounds", bounds).stdout
        lines = ran.stdout.splitlines()
        self.check("the limit", ("limit,108 km/h,108 or 135 km/h tried" in lines, written["limit"]), (True, 108))
        self.check_near("the slowing", written["slowing"], 0.15, 0.05)
        self.check("days", [line.split(",")[0] for line in lines if re.match("2026|spread between|fitted|checked", line)],
              ["2026-03-03", "2026-03-04", "spread between days", "fitted: 2026-03-03", "fitted: 2026-03-04", "checked: 2026-03-05"])
        self.check("a fault of another day", "no count" in ran.stdout, False)
        self.check("a fault of this day", "row has no count" in high, True)
        self.check("why the slowing is at its bound", "since the limit 135 km/h is too high" in high, True)
        self.check("the bad term", bool(re.search(r"the error is large in its term 'free speed' .*: the simulated free speed is [12]\d\.\d km/h too high with the "
                                             "limit 135 km/h", high)), True)

    def test_calibrated(self) -> None:
        """Find the drivers of the example (slowing 0.16, slow-to-start 0.45, demand factor 1) from counts of other seeds."""
        with tempfile.TemporaryDirectory() as folder:
            ran = subprocess.run([sys.executable, RECIPE / "calibrate", RECIPE / "example.json", RECIPE / "example_counts.csv", "--out", folder],
                                 stdout=subprocess.PIPE, text=True, check=True)
        table = ran.stdout.split("quantity,", 1)[1].splitlines()[1:4]
        found = dict(line.split(",")[:2] for line in table)
        for name, wanted, by in (("slowing chance", 0.16, 0.02), ("slow-to-start chance", 0.45, 0.05), ("demand factor", 1.0, 0.01)):
            self.check_near(f"calibrated {name}", float(found[name]), wanted, by)


if "ALL_TESTS" not in os.environ:
    del Calibrations.test_calibrated  # it takes minutes


if __name__ == "__main__":
    unittest.main()
