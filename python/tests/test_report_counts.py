"""Compare counts with the first road of a report, and refuse those that are not known."""
from __future__ import annotations

import csv
import json
import re
import subprocess
import tempfile
import unittest
from html import escape
from pathlib import Path

from report_recipe import ROAD, ReportChecks

RECIPE = Path(__file__).resolve().parents[2] / "recipes" / "report"


class Counts(ReportChecks):
    def test_options_of_counts(self) -> None:
        """Refuse counts whose columns and units are unknown, before anything is simulated; and read them with the options that the message
        names."""
        with tempfile.TemporaryDirectory() as name:
            road, other, later, night, counts, page = (Path(name, file) for file in ("small.json", "longer.json", "later.json", "night.json", "counts.csv",
                                                                                     "report.html"))
            road.write_text(json.dumps(ROAD), encoding="utf-8")
            for path, more in ((other, {"length": 2}), (later, {"begin": "11:00", "minutes": 15}), (night, {"begin": "23:55"})):
                path.write_text(json.dumps({**ROAD, "main": 700, "sections": [], "stalled": [], **more}), encoding="utf-8")
            counts.write_text("time,station,km,n,v\n" + "".join(f"07:{place * 5:02},{station},{km},75,60\n" for place in range(4)
                                                               for station, km in (("a", 12), ("b", 10.9))), encoding="utf-8")
            columns = ["--counts", counts, "--column", "count=n", "--column", "speed=v"]
            for words, said in (
                    (["--counts", counts], f"{counts}: no column is named count or flow: the columns are time, station, km, n, v; choose one with "
                                           "`--column count=NAME`"),
                    (columns, f"{counts}: the column 'v' has no unit: name it `speed km/h` or `speed mph`, or give --unit speed=mph"),
                    ([*columns, "--unit", "speed=mph", "--reverse", "--origin", "20"], "station b is at km 9.1, outside the road of 1.5 km: "
                                                                                       "correct length or --origin"),
                    (["--stations", counts], "--stations has no effect without counts: add --counts CSV, or leave it out"),
                    (["--demand", "road"], "--demand has no effect without counts: add --counts CSV, or leave it out"),
                    (["--shift", "a=5"], "--shift has no effect without counts: add --counts CSV, or leave it out"),
                    (["--speeds", "space-mean"], "--speeds has no effect without counts: add --counts CSV, or leave it out"),
                    (["--days", "0"], "--days must be 1 to 1,000, not 0"), (["--warm-up", "-1"], "--warm-up must be 0 to 1,440 minutes, not -1"),
                    (["--against", other], f"{other}: length is 2, but 1.5 in {road}: both files must describe the same road and time"),
                    (["--against", later], f'{later}: minutes is 15, but 20 in {road}: give both files one window, such as "begin": "07:00" and "minutes": 255, '
                     "that holds the works of both, and the demand of all that time"),
                    (["--against", night], f'{night}: begin is 23:55, but 07:00 in {road}: give both files one window, such as "begin": "07:00" and "minutes": 1035, '
                     "that holds the works of both, and the demand of all that time")):
                ran = subprocess.run([RECIPE / "run", road, "--out", page, *words], capture_output=True, text=True, check=False)
                self.check("refused before anything is simulated", (ran.returncode, ran.stdout, ran.stderr, page.exists()), (1, "", f"{said}\n", False))
            profile = [(f"07:{minute:02}", 600 + 10 * minute) for minute in range(20)]
            road.write_text(json.dumps({**ROAD, "main": profile}), encoding="utf-8")
            ran = subprocess.run([RECIPE / "run", road, "--out", page, *columns, "--unit", "speed=mph", "--reverse", "--days", "1"],
                                 capture_output=True, text=True, check=False)
            html = page.read_text(encoding="utf-8") if ran.returncode == 0 else ran.stderr
            demand = Path(name, "demand-small-0700-0720.csv").read_text(encoding="utf-8").splitlines() if ran.returncode == 0 else []
        self.check("the demand's table", demand, ["# small, 07:00 to 07:20 on 2026-03-02, per lane", "time,main road: cars/h,on-ramp at km 0.6: cars/h",
                                             *(f"{time},{cars}.0,200.0" for time, cars in profile)])
        chart = html.partition(">Demand per lane</text>")[2].partition("</svg>")[0]
        lines = [line.split() for line in re.findall('<polyline points="([^"]*)"', chart)]
        self.check("the points of the demand's chart", [len(line) for line in lines], [40, 2])
        if lines:
            edges = [tuple(map(float, point.split(","))) for point in (lines[0][0], lines[0][-1])]
            self.check("the profile fills the whole window", [x for x, _ in edges], [58.0, 888.0])
            self.check("its values rise as in the file", round((edges[0][1] - edges[1][1]) / (160 - 26 - 34) * 800, -1), 190.0)  # (0.1 is 0.8 cars)
        for wanted in ("main road: 600 to 790 cars/h, with the peak from 07:19 on", "Comparison with measured counts",
                       "Only the road without works is compared with the counts.", "0 of 1 station hour compared; left out: station b from 07:00 (no whole hour); ",
                       "Flow, station b, km 1.1025"):
            if wanted not in html:
                self.check_number(f"the page has {wanted!r}", "0", 1)

    def test_road_of_the_counts(self) -> None:
        """Compare counts with the first road of a report, which is the road without its works, or the first file after --against: the report has the
        tables that `measured` has of this road, with its own demand."""
        with tempfile.TemporaryDirectory() as name:
            works, plain, other, counts, page = (Path(name, file) for file in ("works.json", "plain.json", "other.json", "counts.csv", "report.html"))
            fields = {**ROAD, "entry": 0.3, "main": 700, "sections": [[1.05, 1.2, "07:02", "07:18", 27, 0.4]], "stalled": []}
            for path, more in ((works, {}), (plain, {"sections": []}), (other, {"main": 900})):
                path.write_text(json.dumps({**fields, **more}), encoding="utf-8")
            counts.write_text("time,station,km,count,speed km/h\n" + "".join(f"07:{place * 5:02},{station},{km},60,90\n" for place in range(4)
                                                                            for station, km in (("a", 0), ("b", 0.9))), encoding="utf-8")
            words, tables, verdicts = ("--demand", "road", "--days", "1"), {}, {}
            for road in (works, plain, other):
                ran = subprocess.run([RECIPE.parent / "measured" / "run", road, counts, *words, "--out", name], capture_output=True, text=True, check=False)
                self.check("status", (ran.returncode, ran.stderr if ran.returncode else ""), (0, ""))
                verdicts[road] = [line for line in ran.stdout.splitlines() if line.startswith(("no jam was", "the simulation has a jam"))]
                tables[road] = [row for table in ("speeds", "congestion") for row in csv.reader(
                    Path(name, f"{table}-{road.stem}-0700-0720.csv").read_text(encoding="utf-8").splitlines()[1:])]
            self.check("tables that differ", len({str(table) for table in tables.values()}), 3)
            for first, called, files in ((plain, "without works", [works]), (works, "works", [plain, "--against", works, other]),
                                         (other, "other", [works, "--against", other])):
                ran = subprocess.run([RECIPE / "run", *files, "--counts", counts, *words, "--out", page], capture_output=True, text=True, check=False)
                html = page.read_text(encoding="utf-8") if ran.returncode == 0 else ran.stderr
                rows = ["".join(f"<td>{escape(cell)}</td>" for cell in row) for row in tables[first]]
                self.check(f"the tables of {first.stem}", [row for row in rows if row.replace("td>", "th>") not in html and row not in html], [])
                self.check(f"the verdicts on {first.stem}", verdicts[first] != [] and
                      f"counts.</p><ul>{''.join(f'<li>{escape(one)}</li>' for one in verdicts[first])}</ul><p>" in html, True)
                of_file = first.name if files[1:] else "works.json"
                for wanted in (f"{of_file[:-5]}, 07:00 to 07:20", f"with the demand of {of_file}.", f"Only the road {called} is compared with the counts."):
                    self.check(f"the page has {wanted}", wanted in html, True)


if __name__ == "__main__":
    unittest.main()
