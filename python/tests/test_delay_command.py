"""Run the command `delay` on one day and on many."""
from __future__ import annotations

import csv
import dataclasses
import json
import re
import shutil
import subprocess
import tempfile
import unittest
from pathlib import Path

from checked import Checked
from delay_recipe import ALWAYS, Edits, PLAN, close_cell
from zegdrut import Fault, Plan, Refused, RoadLab
from zegdrut.figures import Mean, Trips, run_over_days
from zegdrut.program import Script, read_script

RECIPE = Path(__file__).resolve().parents[2] / "recipes" / "delay"
ONE = [("inflow", 0, 0, 0), ("inflow", 0, 2, ALWAYS), ("inflow", 0, 3, 0)]


def one_road(words: object, *commands: object) -> Script:
    plan = {**PLAN.to_line(), "inlets": [[0, ALWAYS // 2], [6, 0]], "detectors": [3, 8], "words": words}
    return Script(plan, [*commands, {"advance": {"at": "before", "to": 60}}])


class Commands(Checked):
    def run_recipe(self, first: Plan, second: Plan, change: Edits, *options: str, units: str | None = None) -> tuple[int, str]:
        """Run the recipe on one car in each of two plans, the second with a change. Return its status, and its output, or its error message
        if it failed."""
        with tempfile.TemporaryDirectory() as folder:
            paths = [Path(folder, name) for name in ("BEFORE", "AFTER")]
            for path, plan, edits in zip(paths, (first, second), ([], change)):
                lines = [plan.to_line()] + [{"edit": {"at": "before", "object": [kind, index], "step": step, "value": value}}
                                            for kind, index, step, value in ONE + edits]
                lines.append({"advance": {"at": "before", "to": 20 if edits else 9}})
                path.write_text("".join(json.dumps(line) + "\n" for line in lines), encoding="utf-8")
            if units is not None:
                Path(folder, "units.json").write_text(units, encoding="utf-8")
            out = Path(folder, "tables", "here")
            ran = subprocess.run([RECIPE / "run", "--seconds", "600", "--minutes", "10", "--out", out, *options, *paths], capture_output=True,
                                 text=True, check=False)
            if not ran.returncode:
                tables = [(out / name).read_text(encoding="utf-8") for name in ("delay.csv", "inlets.csv", "sums.csv")]
                self.check("the tables as files", ran.stdout.startswith("\n".join(tables)), True)
            return ran.returncode, (ran.stderr if ran.returncode else ran.stdout).replace(f"{folder}/", "")

    def test_scripts(self) -> None:
        """Compare one car in two scripts, with steps of 10 minutes. It enters in step 2, which is minute 20. It takes 6,000 s before and
        7,800 s after, half a vehicle hour more. The first script ends while the car is on the road, but the second one advances further.
        Zones that are all alike may have different bounds. A refused line is named. Places are cells, or km if the length of a cell is
        known."""
        changed = close_cell(5, 4, 9)
        halves = dataclasses.replace(PLAN, zones=[(1, 0), (1, 0)], detectors=[3])
        table = """# per lane
minute of entry,cars,before s,after s,mean delay s,greatest s,veh·h,only before,only after
20,1,6000.0,7800.0,1800.0,1800,0.500,0,0

# per lane
inlet,at cell,entered before,entered after,only before,only after
0,0,1,1,0,0
1,6,0,0,0,0

# per lane
cars,number,mean delay s,greatest s,veh·h
through in both runs,1,1800.0,1800,0.500
of these delayed,1,1800.0,1800,0.500
still on the road,0,,,0.000
only in the first run,0,,,0.000
only in the second run,0,,,0.000
all cars,,,,0.500
check: cars in all rows,,,,0.500

"""
        in_km = table.replace("at cell", "at km").replace("\n1,6,", "\n1,0.3,")
        self.check("two scripts", self.run_recipe(PLAN, halves, changed), (0, table))
        self.check("in km", self.run_recipe(PLAN, halves, changed, "--metres", "50"), (0, in_km))
        self.check("in km by units.json", self.run_recipe(PLAN, halves, changed, units='{"metres": 50, "seconds": 3}'), (0, in_km))
        self.check("clock times", self.run_recipe(PLAN, halves, changed, units='{"metres": 50, "seconds": 3, "clock": "23:50"}'),
              (0, in_km.replace("minute of", "time of").replace("\n20,", "\n00:10,")))
        self.check("a bad clock", self.run_recipe(PLAN, halves, changed, units='{"metres": 50, "clock": "noon"}'),
              (1, "units.json, whose clock is the begin of a freeway: begin: 'noon' is not a clock time: write \"7:00\", \"07:00\" or \"07:00:30\"\n"))
        self.check("bad units.json", self.run_recipe(PLAN, halves, changed, units="50"),
              (1, 'units.json must be an object such as {"metres": 7.5, "seconds": 1}\n'))
        self.check("no length", self.run_recipe(PLAN, halves, changed, units='{"metres": 0}'),
              (1, "--metres and --seconds (or those of units.json) must be above 0\n"))
        self.check("minutes below a step", self.run_recipe(PLAN, halves, changed, "--minutes", "4.9"),
              (1, "--minutes 4.9 must be at least one step (600 s)\n"))
        others = dataclasses.replace(PLAN, zones=[(1, 0), (2, 0)], words=8)
        self.check("two plans", self.run_recipe(PLAN, others, changed), (1, "the two scripts describe different roads: the seed (`words`) and the zones must be the same in both\n"))
        self.check("a refused script", self.run_recipe(PLAN, halves, [("limit", 2, 0, 1)]),
              (1, "AFTER, line 5: NoObject: the plan has no zone 2: it has 2 zones, counted from 0: "
                  '{"edit":{"at":"before","object":["limit",2],"step":0,"value":1}}\n'))

    def test_many_days(self) -> None:
        """Run several days: their seeds rise, with 0 after the largest, and each day is the road of its seed. Without a change both runs are
        the same. Wrong arguments are refused."""
        greatest = (1 << 64) - 1
        plain, seen = one_road(greatest), []
        found = run_over_days(plain, plain, 3, progress=lambda done, whole: seen.append((done, whole)))
        self.check("seeds", found.seeds, [greatest, 0, 1])
        self.check("progress", seen, [(1, 3), (2, 3), (3, 3)])
        for seed, values in zip(found.seeds, found.values):
            with RoadLab(plain.with_seed(seed).plan) as lab:
                lab.advance("before", 60)
                run = Trips(lab.plan)
                run.follow(lab, "before", 60)
                wanted = [sum(run.cars) / 3_600, sum(left - car // 16 for car, left in run.left.items() if left is not None) / 3_600, len(run.left),
                          *(lab.count("before", which, 0, 60).cars for which in (0, 1))]
            self.check(f"seed {seed}", [tuple(value) for value in values], [(one, one, 0) for one in wanted])
        self.check("nothing is changed", {(row.difference, row.others) for row in found.rows()}, {(Mean(0, 0), 0)})
        bad = {"edit": {"at": "before", "object": ["limit", 2], "step": 0, "value": 1}}
        refusals = {
            "the number of days must be 2 to 1,000, not 1": (plain, plain, 1), "the number of days must be 2 to 1,000, not 1,001": (plain, plain, 1_001),
            "the plan has steady words and so no seed: all days would be the same. Give it a number in `words`": (one_road("steady"), one_road("steady"), 2),
            "the two scripts describe different roads: the seed (`words`) must be the same in both": (plain, one_road(8), 2),
            "run after, line 2: NoObject: the plan has no zone 2: it has 1 zone, counted from 0: "
            '{"edit":{"at":"before","object":["limit",2],"step":0,"value":1}}': (plain, one_road(greatest, bad), 2)}
        unknown = 'NoReplica: the plan has no replica "Z": its replicas are `before` `after`: {"advance":{"at":"Z","to":0}}'
        refusals[unknown] = (one_road(3), one_road(3), 2, "Z")
        for wanted, asked in refusals.items():
            try:
                self.check(wanted, run_over_days(*asked), "a refusal")
            except (Fault, Refused) as error:
                self.check(wanted, str(error), wanted)

    def test_zones_before_which_no_car_can_wait(self) -> None:
        """Close a road whose first zone has 400 cells: its cars are lost, so the figures are bounds, on one day and over days, and in the other
        direction if the scripts change places. As many are lost as the table of inlets has fewer entries. With zones of 200 cells they wait."""
        with tempfile.TemporaryDirectory() as folder:
            def run(zone: int, *words: str, turned: bool = False) -> str:
                plan = Plan(length=400, zone=zone, inlets=[(0, 26_240), (100, 4_640)], zones=[(5, 6_554)] * (400 // zone), words=3)
                paths = [Path(folder, name) for name in ("open", "shut")]
                for path, works in zip(paths, ([], close_cell(300, 300, 900))):
                    edits = [{"edit": {"at": "A", "object": [kind, index], "step": step, "value": value}} for kind, index, step, value in works]
                    path.write_text("".join(json.dumps(line) + "\n" for line in [plan.to_line(), *edits, {"advance": {"at": "A", "to": 2_400}}]), encoding="utf-8")
                return subprocess.run([RECIPE / "run", "--metres", "7.5", "--out", folder, *words, *paths[::-1 if turned else 1]], capture_output=True,
                                      text=True, check=False).stdout
            said = run(400)
            lost = [int(row[2]) - int(row[3]) for row in csv.reader(said.splitlines()) if len(row) == 6 and row[1] in ("0", "0.75")]
            self.check("cars are lost at both inlets", (len(lost), min(lost) > 2), (2, True))
            parts, cause = f"{lost[0]} at km 0 (after), {lost[1]} at km 0.75 (after)", "because cars can wait only before a first zone of at most 1.5 km"
            self.check("the sentence", f"\nCars that cannot enter are lost: {parts}; hours and delay leave them out, {cause}.\n" in said, True)
            self.check("bounds", ("all cars (at least)" in said, "all cars (at most)" in run(400, turned=True)), (True, True))
            over = run(400, "--days", "2")
            bounds = {row[0]: row[-1] for row in csv.reader(over.splitlines()) if len(row) == 10}
            self.check("over days", (bounds["vehicle hours on the road"], bounds["cars that entered"]), ("at least", ""))
            self.check("a sentence over days", re.search(rf"^Cars that cannot enter are lost: \d+ at km 0 \(after\), \d+ at km 0.75 \(after\); .*, {cause}\.$", over,
                                                        re.M) is not None, True)
            self.check("narrow zones", ("are lost" in run(200), "(at least)" in run(200)), (False, False))

    def test_too_short(self) -> None:
        """End a run while cars wait: the table says that the delay is a bound, in which direction, and where cars wait."""
        said = "Cars still wait at the end on the road {}: the figures of delay and waiting do not include what these cars lose later.\n"
        halves = dataclasses.replace(PLAN, inlets=[(0, 20_000), (6, 0)], words=2)
        with tempfile.TemporaryDirectory() as folder:
            paths = [Path(folder, name) for name in ("open", "shut")]
            for path, edits in zip(paths, ([], [("block", 3, 10, 1)])):
                lines = [halves.to_line(), *({"edit": {"at": "before", "object": [kind, index], "step": step, "value": value}}
                                             for kind, index, step, value in edits), {"advance": {"at": "before", "to": 120}}]
                path.write_text("".join(json.dumps(line) + "\n" for line in lines), encoding="utf-8")
            for order, bound, where in ((paths, "at least", "after"), (paths[::-1], "at most", "before"), ([paths[1]] * 2, "unknown", "before and on the road after")):
                for options, mark in (([], f"all cars ({bound}),,,,"), (["--days", "2"], f",{bound}\n")):
                    ran = subprocess.run([RECIPE / "run", "--out", folder, *options, *order], capture_output=True, text=True, check=False)
                    self.check(f"{bound}, {options}", (mark in ran.stdout, said.format(where) in ran.stdout), (True, True))

    def test_jam_at_the_end(self) -> None:
        """End a run while a jam is on the road, but not before it. Of 400 cells, cell 350 is closed from step 400 on, 40 steps before the end, or only
        from step 40 to 60. The cars on both roads are counted in their last rows, for two seeds."""
        long = dataclasses.replace(PLAN, length=400, inlets=[(0, 20_000)], zones=[(5, 0)], words=2)
        said = "The run ends too early: at its end the road {} has {} more cars than the road {}. The figures of delay do not include what these cars lose later"
        for edits, is_late in (([("block", 350, 400, 1)], True), ([("block", 350, 40, 1), ("block", 350, 60, 0)], False)):
            with tempfile.TemporaryDirectory() as folder:
                paths, more = [Path(folder, name) for name in ("open", "shut")], []
                for path, of_road in zip(paths, ([], edits)):
                    lines = [{"edit": {"at": "before", "object": [kind, index], "step": step, "value": value}} for kind, index, step, value in of_road]
                    path.write_text("".join(json.dumps(line) + "\n" for line in (long.to_line(), *lines, {"advance": {"at": "before", "to": 480}})), encoding="utf-8")
                for seed in (2, 3):
                    with RoadLab(dataclasses.replace(long, words=seed)) as lab:
                        for kind, index, step, value in edits:
                            lab.edit("after", (kind, index), step, value)
                        cars = []
                        for at in ("before", "after"):
                            lab.advance(at, 480)
                            cars.append(len(lab.cars(at, 480)))
                        more.append(cars[1] - cars[0])
                for order, bound, roads in ((paths, "at least", ("after", "before")), (paths[::-1], "at most", ("before", "after"))):
                    for options, mark, number in (([], f"all cars ({bound}),,,,", more[0]), (["--days", "2"], f",{bound}\n", round(sum(more) / 2))):
                        ran = subprocess.run([RECIPE / "run", "--out", folder, *options, *order], capture_output=True, text=True, check=False)
                        sentence = said.format(roads[0], number, roads[1])
                        self.check(f"a jam at the end: {edits}, {bound}, {options}", (ran.returncode, mark in ran.stdout, sentence in ran.stdout, "too early" in ran.stdout),
                              (0, is_late, is_late, is_late))

    def test_days_of_a_freeway(self) -> None:
        """Compare the output for five days with the simulator's. The days are paired: for a short closure the interval of the difference
        is narrower than for independent days."""
        with tempfile.TemporaryDirectory() as folder:
            ran = subprocess.run([RECIPE / "run", "--days", "5", "--out", folder], capture_output=True, text=True, check=False)
            self.check("five days", ran.stdout, (RECIPE / "days.expected").read_text(encoding="utf-8"))
            self.check("a picture", Path(folder, "differences.png").exists(), shutil.which("gnuplot") is not None)
            days = Path(folder, "by_day.csv").read_text(encoding="utf-8").splitlines()
            self.check("each day", [line.split(",")[:2] for line in days], [["# per lane"], ["day", "seed"], *([str(day), str(day + 1)] for day in range(5))])
        before = read_script(RECIPE / "without_works.jsonl")
        closure = [{"edit": {"at": "A", "object": [kind, index], "step": step, "value": value}}
                   for kind, index, step, value in close_cell(200, 600, 660)]
        for row in run_over_days(before, Script(before.plan, [*before.commands[:-1], *closure, before.commands[-1]]), 10).rows():
            self.check(f"{row.figure.title}: paired is narrower", row.difference.half < row.unpaired, True)


if __name__ == "__main__":
    unittest.main()
