"""Test that a closure costs the same wherever it is asked: in `delay`, in `report`, in the days of live and without control in `metering`."""
from __future__ import annotations

import csv
import json
import subprocess
import sys
import tempfile
import unittest
from pathlib import Path
from typing import Any, cast

from zegdrut.commands.metering import Control, make_site, open_day, run_metered
from zegdrut.figures import Value, choose, list_figures, measure_day
from zegdrut.figures.waiting import LONGEST_ZONE
from zegdrut.roads import FIGURES

from running import program
from server.figures import comparison
from server.lab.new_road import read_road

TOP = Path(__file__).resolve().parents[2]
CLOSED = {"length": 2.4, "limit": 135, "slowing": 0.16, "start": 0.4, "main": [["07:00", 1_250], ["07:12", 700]], "ramps": [], "begin": "07:00", "entry": 0.15,
          "minutes": 30, "sections": [], "stalled": [[0.9, "07:04", "07:09"]], "detectors": [1.8], "stretch": [0.3, 0.6], "seed": 5}
"""A road whose lane is closed for five minutes: the queue reaches km 0, and is gone at the end."""
FILES: dict[str, dict[str, object]] = {"default zones": {}, "zones of 150 cells": {"zone": 1.125}, "zones of 250 cells": {"zone": 1.875, "entry": 0, "slowing": 0.1, "start": 0.3}, "a ramp": {"ramps": [[0.6, 120]]}}
HOURS = "vehicle hours on the road"


def run(*words: object) -> str:
    """Run a recipe. Return what it prints."""
    ran = subprocess.run([sys.executable, *map(str, words)], capture_output=True, text=True, check=False, env={"PATH": "/usr/bin:/bin", "ROAD_LAB": str(program())})
    if ran.returncode:
        raise AssertionError(ran.stderr)
    return ran.stdout


class OneDelay(unittest.TestCase):
    def setUp(self) -> None:
        self.folder = Path(self.enterContext(tempfile.TemporaryDirectory()))

    def write(self, **fields: object) -> Path:
        path = self.folder / "small.json"
        path.write_text(json.dumps({**CLOSED, **fields}), encoding="utf-8")
        return path

    def ask_delay(self, path: Path) -> dict[str, Any]:
        """Return the table of `delay` over two days: for each figure the means before and after, the difference and its bound."""
        out = self.folder / "freeway"
        run(TOP / "recipes/freeway/run", path, "--out", out)
        run(TOP / "recipes/delay/run", "--days", "2", "--out", self.folder / "delay", out / "without.jsonl", out / "script.jsonl")
        lines = (self.folder / "delay" / "days.csv").read_text(encoding="utf-8").splitlines()
        return {row[0]: (*map(float, filter(None, row[1:7:2])), "at least" in row) for row in csv.reader(lines[1:]) if row and "±" not in row}

    def ask_report(self, path: Path) -> dict[str, Any]:
        """Return the table of `report` without a time before the window."""
        run(TOP / "recipes/report/run", path, "--days", "2", "--warm-up", "0", "--out", self.folder / "report.html")
        lines = (self.folder / "figures-small-0700-0730.csv").read_text(encoding="utf-8").splitlines()
        return {row["figure"]: (*(float(row[name]) for name in ("without works", "with works", "difference") if row[name]), row.get("bound", "") == "at least")
                for row in csv.DictReader(lines[1:])}

    def ask_live(self, path: Path) -> dict[str, Any]:
        """Return the table of two days that live simulates of a folder with this file, beside the road without the works."""
        road = read_road(path, str(program()))
        edits: list[Any] = []
        for number, (shape, _) in enumerate(road.shapes):
            for index in range(shape.first, shape.last + 1):
                default = {"block": 0, "inflow": None}.get(shape.kind)
                edits += [[shape.kind, index, shape.begin, 1 + number, 0, shape.value]]
                edits += [[shape.kind, index, shape.end, 1 + number, 1, default]] if shape.end is not None and default is not None else []
        free = [edit for edit in edits if edit[0] != "block"]
        demands = [[(0, None)] for _ in cast("list[Any]", road.plan["inlets"])]
        roads = [{"name": name, "edits": rows, "demands": demands, "capacities": []} for name, rows in (("file", free), ("mine", edits))]
        compared: Any = {"plan": road.plan, "roads": roads, "first": 0, "last": 1_800, "program": str(program()), "origin": 0}
        *_, said = comparison.simulate_days({"compared": compared, "days": 2})
        return {row["figure"]["title"]: (*(one[0] for one in [*row["values"], *row["differences"]] if one[0] is not None), row["bounds"] == ["at least"])
                for row in said["figures"]}

    def test_four_files(self) -> None:
        """The delay is the same to the digit, and so are the hours on the road and before it. With a first zone of more than 200 cells cars are lost, and
        all say so."""
        for name, fields in FILES.items():
            with self.subTest(name):
                path = self.write(**fields)
                tables = {"delay": self.ask_delay(path), "report": self.ask_report(path), "live": self.ask_live(path)}
                is_wide = fields.get("zone") == 1.875
                hours = {of: [round(number, 3) for number in table[HOURS][:3]] for of, table in tables.items()}
                self.assertEqual(hours["report"], hours["delay"])
                self.assertEqual(hours["live"], hours["delay"])
                self.assertEqual({of: table[HOURS][-1] for of, table in tables.items()}, dict.fromkeys(tables, is_wide))
                waited = {of: [round(table[title][-2], 3) for title in table if "waiting before" in title and "longest" not in title] for of, table in tables.items()}
                self.assertEqual(waited["report"], waited["delay"])
                self.assertEqual(waited["live"], waited["delay"])
                self.assertEqual(bool(waited["delay"]), not is_wide)
                delays = [round(table["delay, vehicle hours"][0], 6) for of, table in tables.items() if of != "delay"]
                self.assertEqual(delays[0], delays[1])
                every = {of: [round(number, 3) for number in table.get("vehicle hours on the road and before it", ())[:3]] for of, table in tables.items()}
                self.assertEqual(every["report"], every["delay"])
                self.assertEqual(every["live"], every["delay"])

    def test_the_road_without_control(self) -> None:
        """Without control the road of `metering` costs what it costs in `delay`, but for the chance of the ramp, which is set each minute."""
        path = self.write(ramps=[[0.6, 120]], stalled=[[1.2, "07:04", "07:06"]])
        site = make_site("small", FIGURES.override(path), Control(ramp=0.6, detector=1.2, setpoint=20))
        wanted = self.ask_delay(path)[HOURS][1]
        found = []
        for seed in (5, 6):
            with open_day(site, seed) as lab:
                metered = run_metered(site, lab, float("inf"))
                figure, = choose(list_figures(lab.plan), "hours")
                found.append(measure_day([figure], metered.run)[0].after or 0.0)
        self.assertLess(site.road.zone, LONGEST_ZONE + 1)
        self.assertLess(abs(sum(found) / 2 - wanted), 0.03 * wanted)


if __name__ == "__main__":
    unittest.main()
