"""Read the output of SUMO, and compute the table of the recipe from its days."""
from __future__ import annotations

import csv
import gzip
import importlib.machinery
import importlib.util
import json
import math
import os
import signal
import statistics
import subprocess
import tempfile
import unittest
from collections import defaultdict
from pathlib import Path
from types import ModuleType
from unittest import mock

from checked import Checked
from zegdrut.measurements import Measured, Station
from zegdrut.measurements.congestion import JudgedDay
from zegdrut.measurements.counts_on_road import Series
from zegdrut.program.road_rows import Sums
from zegdrut.roads import Clock

RECIPE = Path(__file__).resolve().parents[2] / "recipes" / "beside_sumo"
KEPT = RECIPE / "kept"
T_OF_FOUR = 3.182446
"""Student's t for three degrees of freedom, from printed tables."""
COUNTS = """<detector><interval begin="540.00" end="600.00" id="102_0" nVehContrib="7" speed="30"/>
<interval begin="600.00" end="660.00" id="102_0" nVehContrib="3" speed="20"/>
<interval begin="600.00" end="660.00" id="102_1" nVehContrib="1" speed="28"/>
<interval begin="660.00" end="720.00" id="102_0" nVehContrib="0" speed="-1.00"/>
<interval begin="660.00" end="720.00" id="110_0" nVehContrib="2" speed="15"/>
</detector>"""
HOURS = """<meandata><interval begin="600" end="6000"><edge id="before" sampledSeconds="999"/>
<edge id="up" sampledSeconds="5400"/><edge id="ramp" sampledSeconds="888"/><edge id="down" sampledSeconds="1800"/></interval></meandata>"""
TIMES = """<e3Detector><interval begin="0" end="600" meanTravelTime="500" vehicleSum="9"/>
<interval begin="600" end="1200" meanTravelTime="300" vehicleSum="3"/>
<interval begin="1200" end="1800" meanTravelTime="340" vehicleSum="1"/>
<interval begin="1800" end="2400" meanTravelTime="-1" vehicleSum="0"/></e3Detector>"""


def load(name: str) -> ModuleType:
    """Import a script of the recipe, without its handling of Ctrl-C."""
    loader = importlib.machinery.SourceFileLoader(name, str(RECIPE / name))
    spec = importlib.util.spec_from_loader(name, loader)
    assert spec is not None
    module = importlib.util.module_from_spec(spec)
    with mock.patch.object(signal, "signal"):
        loader.exec_module(module)
    return module


def estimate(values: list[float]) -> list[str]:
    """Return the mean of four days and half its interval, as the table has them."""
    return [f"{statistics.mean(values):.1f}", f"{T_OF_FOUR * statistics.stdev(values) / math.sqrt(4):.1f}"]


def compute_sumo() -> dict[str, list[str]]:
    """Return the mean and half the interval of each figure of SUMO, by loops over the lines of kept/."""
    noons = list(csv.DictReader((KEPT / "noons.csv").open(encoding="utf-8")))
    found = {}
    for column, by, title, change in (("vehicle hours", 2, "vehicle hours", "delay"),
                                      ("mean travel time s", 1, "travel time from km 0 to 8", "longer travel time")):
        opened, closed = ([float(line[column]) / by for line in noons if line["right lane"] == state]
                          for state in ("open", "closed"))
        found[f"{title}, both lanes open"], found[f"{title}, right lane closed"] = estimate(opened), estimate(closed)
        found[change] = estimate([late - early for early, late in zip(opened, closed)])
    speeds: dict[tuple[str, str], list[float]] = defaultdict(list)
    for line in csv.DictReader(gzip.decompress((KEPT / "closed.csv.gz").read_bytes()).decode().splitlines()):
        if line["type"] == "ML" and line["station"] != "101" and line["speed km/h"]:
            speeds[line["km"], line["time"][:10]].append(float(line["speed km/h"]))
    for km in sorted({km for km, _ in speeds}):
        days = [values for (one, _), values in sorted(speeds.items()) if one == km]
        free = [sorted(values)[math.ceil(0.85 * len(values)) - 1] for values in days]
        found[f"congested at km {km}"] = estimate([float(sum(value < 0.6 * most for value in values)) for values, most in zip(days, free)])
    return found


class BesideSumo(Checked):
    def test_output_of_sumo(self) -> None:
        """Read a small output of SUMO. The lanes of a station are added, and the time before the window, the ramp and the km before 0 are left
        out. Four vehicles have a mean speed of (3 x 20 + 28) / 4 m/s, which is 79.2 km/h."""
        make_days = load("make_days")
        with tempfile.TemporaryDirectory() as name:
            counts, hours, times = (Path(name, kind) for kind in ("counts.xml", "hours.xml", "times.xml"))
            for path, text in ((counts, COUNTS), (hours, HOURS), (times, TIMES)):
                path.write_text(text, encoding="utf-8")
            day = make_days.Day("2026-03-02", "11:59", make_days.NOON)
            self.check("rows", list(make_days.make_rows(day, make_days.read_counts(counts))),
                  [["2026-03-02 11:59", "102", "2", "ML", "2", "4", "79.2"], ["2026-03-02 12:00", "102", "2", "ML", "2", "0", ""],
                   ["2026-03-02 12:00", "110", "4", "OR", "1", "2", "54.0"]])
            self.check("vehicle hours and travel times", make_days.read_noon(hours, times), (2.0, 4, 310.0))

    def test_congested_minutes(self) -> None:
        """Count congested minutes: SUMO's free speed is 100 km/h, so minutes below 60 km/h are congested. Here a car of 2 cells a step has
        54 km/h."""
        first, second = (Series(Station(name, km, 2), [9.0] * 4, speeds) for name, km, speeds in (
            ("a", 0.1, [90.0] * 4), ("b", 2.0, [100.0, 59.0, 61.0, 100.0])))
        jam, free, empty = Sums(10, 20, 410), Sums(10, 40, 410), Sums(0, 0, 410)
        days = [JudgedDay([], [[jam, jam, free, empty]], []), JudgedDay([], [[free, jam, free, free]], [])]
        row, = load("run").count_congested([Measured(Clock(), 60, [first, second], [])] * 2, days)
        self.check("congested minutes", (row.figure, row.unit, row.sumo, row.here[0]), ("congested at km 2", "minutes", (1.0, 0.0), 1.5))

    def test_table(self) -> None:
        """Run the recipe for two days. SUMO's columns are computed again; this model's are those of the report that it wrote."""
        with tempfile.TemporaryDirectory() as name:
            ran = subprocess.run([RECIPE / "run", "--days", "2", "--out", name], capture_output=True, text=True, check=False)
            self.check("status", (ran.returncode, ran.stderr if ran.returncode else ""), (0, ""))
            if ran.returncode:
                return
            head, *rows = csv.reader(ran.stdout.split("\n\n")[0].splitlines())
            self.check("head", head, ["figure", "unit", "SUMO", "±", "this model", "±", "difference", "difference %"])
            found = {row[0]: row[2:] for row in rows}
            self.check("SUMO", {figure: row[:2] for figure, row in found.items()}, compute_sumo())
            with open(Path(name, "figures-noon-1200-1330.csv"), encoding="utf-8") as file:
                file.readline()
                here = {line["figure"]: line for line in csv.DictReader(file)}
            for title, change, figure in (("vehicle hours", "delay", "vehicle hours on the road"),
                                          ("travel time from km 0 to 8", "longer travel time", "travel time from km 0 to the end, s")):
                for one, side in ((f"{title}, both lanes open", "without works"), (f"{title}, right lane closed", "with works"),
                                  (change, "difference")):
                    self.check(one, found[one][2:4], [f"{float(here[figure][column]):.1f}" for column in (side, f"± {side}")])
            drivers = [[json.loads(path.read_text(encoding="utf-8"))[one] for one in ("limit", "slowing", "start")]
                       for path in (Path(name, "noon.json"), KEPT / "calibrated-morning.json")]
            self.check("the drivers of the noon", *drivers)
            self.check("a sentence for each noon", sorted({line[:10] for line in ran.stdout.splitlines() if line.startswith("2026-")}),
                  [f"2026-03-{day:02}" for day in range(2, 6)])

    def test_again(self) -> None:
        """Make the days again with SUMO."""
        with tempfile.TemporaryDirectory() as name:
            subprocess.run([RECIPE / "make_days", name], check=True)
            for kept in ("mornings.csv.gz", "closed.csv.gz", "noons.csv"):
                self.check(kept, Path(name, kept).read_bytes(), (KEPT / kept).read_bytes())


if "ALL_TESTS" not in os.environ:
    del BesideSumo.test_again  # it takes minutes


if __name__ == "__main__":
    unittest.main()
