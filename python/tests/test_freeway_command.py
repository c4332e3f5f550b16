"""Run the command `freeway`, and check its tables by `cars` of each step."""
from __future__ import annotations

import contextlib
import csv
import dataclasses
import io
import json
import math
import os
import signal
import statistics
import subprocess
import tempfile
import unittest
from pathlib import Path

from checked import Checked
from freeway_recipe import PLAIN
from zegdrut import Plan, RoadLab
from zegdrut.commands import freeway as run
from zegdrut.roads import Section, Stalled, Supply
from zegdrut.roads.inflow_chances import count_entries, measure_inflow

RECIPE = Path(__file__).resolve().parents[2] / "recipes" / "freeway"
SHORT = dataclasses.replace(PLAIN, length=1, main=600, ramps=[], detectors=[0.75], stretch=(0.3, 0.6), piece=2, minutes=4)
WORKS = [Section(0.45, 0.75, 2, 3, limit=27)]


def run_recipe(*words: object) -> list[str]:
    """Run the recipe. Return the lines that it writes to standard error."""
    with contextlib.redirect_stdout(io.StringIO()), contextlib.redirect_stderr(io.StringIO()) as said:
        run.run_freeway(*words)
    return said.getvalue().splitlines()


def read_lines(path: Path) -> list[dict]:
    return list(map(json.loads, path.read_text(encoding="utf-8").splitlines()))


class Commands(Checked):
    def test_lost_cars(self) -> None:
        """Close a short road until its queue reaches km 0: a sentence has the cars of the table that cannot enter. A free road loses none."""
        for stalled in ([[1.0, 2, 20]], []):
            with tempfile.TemporaryDirectory() as folder:
                road = Path(folder, "small.json")
                road.write_text(json.dumps({"length": 1.5, "main": 900, "minutes": 20, "ramps": [], "sections": [], "stalled": stalled, "detectors": [],
                                            "stretch": [0.5, 1]}), encoding="utf-8")
                ran = subprocess.run([RECIPE / "run", road, "--out", folder], capture_output=True, text=True, check=True)
                title, *table = Path(folder, "demand.csv").read_text(encoding="utf-8").splitlines()
                (row,) = csv.DictReader(table)
            self.check("its title", title, "# per lane")
            lost = 900 / 3 - int(row["admitted cars"])
            said = [line for line in ran.stdout.splitlines() if "lost:" in line]
            self.check("the lost cars", (lost > 50, said), (True, [f"at km 0 {lost:.0f} of 300 cars cannot enter in this run, and are lost: the tables leave them out"])
                  if stalled else (False, []))

    def test_interrupted(self) -> None:
        """Press Ctrl-C while a recipe imports its modules: here a module of the standard library that waits stands before the real one."""
        with tempfile.TemporaryDirectory() as folder:
            Path(folder, "zoneinfo.py").write_text("import time\nprint('importing', flush=True)\ntime.sleep(60)\n", encoding="utf-8")
            for name in ("delay/run", "report/run", "metering/run", "metering/search", "freeway/run", "measured/run", "measured/calibrate", "beside_sumo/run"):
                with subprocess.Popen([RECIPE.parent / name], env={**os.environ, "PYTHONPATH": folder}, stdout=subprocess.PIPE,
                                      stderr=subprocess.PIPE, text=True) as recipe:
                    assert recipe.stdout is not None
                    self.check(f"{name} imports", recipe.stdout.readline(), "importing\n")
                    recipe.send_signal(signal.SIGINT)
                    self.check(f"{name} after Ctrl-C", (recipe.communicate(timeout=60)[1], recipe.returncode), ("", -signal.SIGINT))

    def test_long_run(self) -> None:
        """Count the cars that two inlets admit, from the cars that have entered and those that have not yet reached a detector, at the end of
        each of 25 periods; compute the interval by Python's `statistics` and a printed value of Student's t."""
        inlets, slow, piece, ends = [(0, 30_000), (60, 9_000)], 16_384, 800, 26
        bounds = [1_000 + piece * one for one in range(ends)]
        with RoadLab(Plan(length=160, inlets=inlets, zones=[(5, slow)], words=1)) as lab:
            lab.advance("A", bounds[-1])
            met = {car.number for step in range(0, bounds[-1] + 1, 10) for car in lab.cars("A", step)}
            rows = [lab.cars("A", step) for step in bounds]
        past = [[sum(number // 16 < step and inlets[number % 16][0] < site for number in met) - sum(car.cell < site for car in row)
                 for site in (50, 60, 110)] for step, row in zip(bounds, rows)]
        wanted = [[to[0] - first[0], to[2] - first[2] - to[1] + first[1]] for first, to in zip(past, past[1:])]
        self.check("what two inlets let in", count_entries(inlets, slow, bounds, 5), wanted)
        for found, cars in zip(measure_inflow(inlets, slow, piece * 25), zip(*wanted)):
            hourly = [one * 3_600 / piece for one in cars]
            half = 2.063899 * statistics.stdev(hourly) / math.sqrt(25)
            self.check("in the long run", [round(one, 3) for one in found], [round(one, 3) for one in (statistics.mean(hourly), half)])

    def test_reasons_beyond_chance(self) -> None:
        """30 cars per hour over 104,000 seconds are 866.7 cars, and two standard deviations of them 58.9. A flow of 1,400 is 40,444
        cars with 402; there 2 % are more."""
        for asked, came, wanted in ((30, 809, False), (30, 807, True), (1_400, 39_700, False), (1_400, 39_600, True)):
            supply = Supply(asked * 104_000 / 3_600, came)
            self.check(f"{came} cars of a demand of {asked} per hour are short", run.is_short(supply), wanted)

    def test_without_works(self) -> None:
        """Compare the road without its works with the road of a file without works: they differ only in the bounds of zones. A file
        without works gives no second road."""
        with tempfile.TemporaryDirectory() as folder:
            works, plain = (Path(folder, name) for name in ("works", "plain"))
            said = run_recipe(dataclasses.replace(SHORT, sections=WORKS), works)
            run_recipe(SHORT, plain)
            one, other = read_lines(works / "without.jsonl"), read_lines(plain / "script.jsonl")
            self.check("without works", {**one[0], "zone": 0, "zones": []}, {**other[0], "zone": 0, "zones": []})
            self.check("its commands", one[1:], other[1:])
            self.check("its replies", read_lines(works / "without_replies.jsonl")[1:], read_lines(plain / "replies.jsonl")[1:])
            self.check("files", sorted(path.name for path in plain.iterdir()),
                  ["counts.csv", "demand.csv", "replies.jsonl", "script.jsonl", "stretch.csv", "units.json"])
            self.check("progress", said, [
                "measuring the inflow chance for 600 cars per hour at km 0 ..",
                "measuring the inflow in the long run and in this run ..",
                "running script.jsonl ..", "running without.jsonl ..",
                f"The tables, the scripts and their replies are in {works}"])

    def test_one_window(self) -> None:
        """Measure the stretch from km 0.3 to 0.6, the cells 40 to 79, by `cars` of the rows 1 to 120 and 121 to 240: the rows after 120 steps
        each."""
        with tempfile.TemporaryDirectory() as name:
            run_recipe(SHORT, Path(name))
            plan, *script = read_lines(Path(name, "script.jsonl"))
            table = [line.split(",")[1:4] for line in Path(name, "stretch.csv").read_text(encoding="utf-8").splitlines()[2:]]
            with RoadLab(plan) as lab:
                for line in script:
                    if "edit" in line or "advance" in line:
                        lab.ask(line)
                for place, first in enumerate((1, 121)):
                    speeds = [car.speed for step in range(first, first + 120) for car in lab.cars("A", step) if 40 <= car.cell < 80]
                    self.check(f"the stretch, rows {first} to {first + 119}", table[place], [
                        f"{sum(speeds) / 4_800 * 3_600:.0f}", f"{len(speeds) / 4_800 * 1_000 / 7.5:.1f}", f"{statistics.mean(speeds) * 27:.1f}"])

    def test_works_that_began_earlier(self) -> None:
        """Compare a run that is changed afterwards with one that had these figures from the start."""
        plan, turned = (dataclasses.replace(SHORT, zone=0.15, sections=[one]) for one in (
            Section(0.45, 0.75, 2, 3, limit=27), Section(0.45, 0.75, 1, 3, limit=27, slowing=0.5)))
        turned = dataclasses.replace(turned, stalled=[Stalled(0.9, 1.5, 2)])
        with tempfile.TemporaryDirectory() as folder:
            then, first, start = (Path(folder, name) for name in ("then", "first", "start"))
            run_recipe(plan, then, turned)
            run_recipe(plan, first)
            run_recipe(turned, start)
            for name in ("demand.csv", "counts.csv", "stretch.csv"):
                as_file = lambda path: path.read_text(encoding="utf-8").splitlines()
                self.check(f"then_{name}", as_file(then / f"then_{name}"), as_file(start / name))
                self.check(name, as_file(then / name), as_file(first / name))
            rows = [[row for reply in read_lines(path) if "rows" in reply for row in reply["rows"]]
                    for path in (then / "then_replies.jsonl", first / "replies.jsonl", start / "replies.jsonl")]
            self.check("rows before and after", rows[0] == rows[1] + rows[2] and rows[1] != rows[2], True)


if __name__ == "__main__":
    unittest.main()
