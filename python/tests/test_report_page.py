"""Look at the page of a report: its heading, its sentences and what it rounds."""
from __future__ import annotations

import csv
import dataclasses
import json
import re
import subprocess
import tempfile
import unittest
from pathlib import Path

from report_recipe import ROAD, ReportChecks
from zegdrut.commands.report import compare_works
from zegdrut.roads import FIGURES, Section, Stalled
from zegdrut.roads.calibrated import Calibrated, Leaving

RECIPE = Path(__file__).resolve().parents[2] / "recipes" / "report"


class Pages(ReportChecks):
    def test_heading(self) -> None:
        """Compare two files of one road, on five days: the heading names both, ramps and detectors are marked, and bands have a legend in their
        colours. No name stands between backticks. Demands that differ have names."""
        with tempfile.TemporaryDirectory() as name:
            road, other, page = (Path(name, file) for file in ("small.json", "plain.json", "report.html"))
            road.write_text(json.dumps({**ROAD, "entry": 0.3, "main": 700, "minutes": 10, "sections": [], "stalled": []}), encoding="utf-8")
            other.write_text(json.dumps({**ROAD, "entry": 0.3, "main": 600, "minutes": 10, "sections": [], "stalled": []}), encoding="utf-8")
            for title, words in (("small compared with plain", []), ("A road &amp; more", ["--title", "A road & more"])):
                ran = subprocess.run([RECIPE / "run", road, "--against", other, "--days", "5", "--out", page, *words], capture_output=True, text=True,
                                     check=False)
                html = page.read_text(encoding="utf-8") if ran.returncode == 0 else ran.stderr
                self.check("the title", (f"<h1>{title}</h1>" in html, f"<title>{title}</title>" in html), (True, True))
            records = {row["figure"]: row for row in csv.DictReader(Path(name, "figures-small-0700-0710.csv").read_text(encoding="utf-8").splitlines()[1:])}
        self.check("marks in two diagrams and the legend", (html.count('class="ramp"'), html.count('class="detector"')), (3, 5))
        self.check("a ramp at km 0.6 of 1.5", 'class="ramp" d="M890.0 116.0l9' in html, True)
        self.check("names in code", ("(<code>entry</code>)" in html, "`" in html.split("</style>")[1]), (True, False))
        self.check("the legend of the bands", '<tspan fill="#0072b2" fill-opacity="0.4">█</tspan><tspan fill="#d55e00" fill-opacity="0.4">█</tspan>' in html, True)
        for wanted in ("The charts of speeds have no intervals", "plain: main road: 600 cars/h", "small: main road: 700 cars/h",
                       "a figure that does not differ on any day has no remark"):
            self.check(f"the page has {wanted}", wanted in html, True)
        self.check("may be chance", {row["may be chance"] for row in records.values()} <= {"yes", "no", ""}, True)
        self.check("a demand that always differs", records["demand, cars"]["may be chance"], "no")

    def test_jam_at_the_end(self) -> None:
        """Let the window end during a closure, and long after one. Only the first jam is still there, and only its delay is a bound. The queue before km 0
        ends at a clock time."""
        with tempfile.TemporaryDirectory() as name:
            road, page = Path(name, "small.json"), Path(name, "report.html")
            for closed, bound in ((["07:14", "07:20"], "at least"), (["07:02", "07:05"], "")):
                road.write_text(json.dumps({**ROAD, "main": 500, "ramps": [], "sections": [], "stalled": [[1.3, *closed]]}), encoding="utf-8")
                subprocess.run([RECIPE / "run", road, "--days", "2", "--out", page], capture_output=True, check=True)
                html = page.read_text(encoding="utf-8")
                table = Path(name, "figures-small-0700-0720.csv").read_text(encoding="utf-8").splitlines()[1:]
                bounds = {row["figure"]: row.get("bound", "") for row in csv.DictReader(table)}
                marked = {"delay, vehicle hours", "vehicle hours on the road"} if bound else set()
                self.check(f"a closure from {closed}", {figure for figure, found in bounds.items() if found}, marked)
                self.check(f"a closure from {closed}: the page", [f"<td>{figure} (at least)</td>" in html for figure in sorted(marked)], [True] * len(marked))
                said = re.search(r"The run ends too early: at its end the road with works has (\d+) more cars than the road without works\.", html)
                # Within 6 minutes 50 cars arrive.
                self.check(f"a closure from {closed}: cars", said is not None and 35 < int(said.group(1)) < 65, bool(bound))

    def test_capacities(self) -> None:
        """Look for two sentences on works with a capacity: no interval shows how sure it is, and a limit that the file does not give also delays free traffic."""
        with tempfile.TemporaryDirectory() as name:
            road, page = Path(name, "small.json"), Path(name, "report.html")
            works = [[0.9, 1.2, "07:05", "07:10", None, None, None, 900], [0.9, 1.2, "07:10", "07:12", 81, None, None, 1_000]]
            road.write_text(json.dumps({**ROAD, "main": 500, "ramps": [], "sections": works, "stalled": []}), encoding="utf-8")
            subprocess.run([RECIPE / "run", road, "--days", "1", "--out", page], capture_output=True, check=True)
            html = page.read_text(encoding="utf-8")
        for wanted in ("km 0.9 to 1.2, 07:05 to 07:10: 900 cars/h, limit 54 km/h, which also delays free traffic</li>",
                       "km 0.9 to 1.2, 07:10 to 07:12: 1,000 cars/h, limit 81 km/h, which also delays free traffic</li>",
                       "by the number of lanes. No interval and no range shows how sure the capacities of 900 and 1,000 cars/h are: try others."):
            self.check(f"the page has {wanted}", wanted in html, True)

    def test_drivers_that_fit_as_well(self) -> None:
        """Report three roads that were calibrated: each figure moves from the least to the greatest value of three reports, of files with the drivers of
        the file, with those of less delay and with those of more. Only with the last ones cars wait before the road. A report of files with different
        calibrations does not have this table."""
        less, more = {"slowing": 0.1, "start": 0.2, "factor": 0.5, "delay": 12.04}, {"slowing": 0.3, "start": 0.6, "factor": 1.25, "delay": 41.0}
        of_file = {"slowing": 0.15, "start": 0.4, "factor": 1.0}
        stops = {"plain": [], "late": [[0.9, "07:04", "07:05"]], "early": [[0.9, "07:02", "07:05"]]}
        with tempfile.TemporaryDirectory() as name:
            paths = {road: Path(name, f"{road}.json") for road in stops}

            def report(drivers: dict, **more_fields: object) -> tuple[str, dict[str, dict[str, str]]]:
                main = [[time, cars * drivers["factor"]] for time, cars in (("07:00", 700), ("07:05", 600))]
                for road, stalled in stops.items():
                    paths[road].write_text(json.dumps({**ROAD, "main": main, "ramps": [], "sections": [], "minutes": 10, "stalled": stalled,
                                                       "slowing": drivers["slowing"], "start": drivers["start"], **more_fields}), encoding="utf-8")
                return run(), read("figures")

            def run(days: int = 2) -> str:
                page = Path(name, "report.html")
                ran = subprocess.run([RECIPE / "run", paths["early"], "--against", paths["plain"], paths["late"], "--days", str(days), "--out", page],
                                     capture_output=True, text=True, check=False)
                self.check("the status", (ran.returncode, ran.stderr if ran.returncode else ""), (0, ""))
                return page.read_text(encoding="utf-8")

            def read(table: str) -> dict[str, dict[str, str]]:
                path = Path(name, f"{table}-early-0700-0710.csv")
                return {row["figure"]: row for row in csv.DictReader(path.read_text(encoding="utf-8").splitlines()[1:])} if path.exists() else {}
            each = [report(drivers)[1] for drivers in (of_file, less, more)]
            self.check("a report without calibration", read("calibration"), {})
            calibration = {"delay": 30.0, "less": less, "more": more}
            flows = [{"station": "103", "following": "104", "measured": 1_551.2, "simulated": 1_433.0, "half": 15.4},
                     {"station": "105", "following": "106", "measured": 1_600.0, "simulated": None, "half": None}]
            without_range, _ = report(of_file, calibration={"delay": 30.0, "less": None, "more": None, "leaving": flows, "measured": 7.46, "at_stations": 9.04, "error": 5.1})
            no_table = read("calibration")
            report(of_file, calibration=calibration)
            without_flows = run(1)
            report(of_file, calibration={**calibration, "leaving": []})
            without_counted = run(1)
            html, _ = report(of_file, calibration={**calibration, "leaving": flows})
            ranges, one_day = read("calibration"), run(1)
            paths["plain"].write_text(paths["plain"].read_text(encoding="utf-8").replace("41.0", "42.0"), encoding="utf-8")
            other = run()
        self.check("figures with a range", set(ranges), {figure for table in each for figure in table})
        waiting = "vehicle hours waiting before km 0"
        self.check("only some drivers cause a queue", [waiting in table for table in each], [False, False, True])
        columns = ("plain", "late", "early", "difference late", "difference early")
        for table in each[:2]:  # (nobody waits)
            table |= {figure: dict.fromkeys(columns, "0") for figure in (waiting, "longest queue before km 0, cars")}
            table["vehicle hours on the road and before it"] = table["vehicle hours on the road"]
        for figure, row in ranges.items():
            for column in columns:
                values = [float(table[figure][column]) for table in each if table.get(figure, {}).get(column)]
                for end, pick in (("from", min), ("to", max)):
                    self.check_number(f"{figure}: {column}, {end}", row[f"{column}, {end}"], pick(values) if len(values) == 3 else None)
        low, high = (float(ranges["delay, vehicle hours"][f"difference early, {end}"]) for end in ("from", "to"))
        self.check("the delay depends on the drivers", high > 2 * low > 0, True)
        sentence = ("Calibration: 12.0 to 41.0 vehicle hours of delay per lane on the calibrated day by drivers that fit its counts equally well within chance, "
                    "and 30.0 by those of the file")
        flow = "Calibration: flow that leaves the jam at station "
        self.check("a file without flows", (flow in without_flows, "± does not include this" in without_flows, "Calibration: the file does not say whether "
              "queues of this road last as long as real ones: calibrate the road again." in without_flows), (False, False, True))
        self.check("counts without a flow", "Calibration: the counts do not show the flow that leaves a jam, so nothing says whether queues of this road last as long as real "
              "ones." in without_counted, True)
        for wanted in ("Calibration: the error of the drivers of the file is 5.1, but about 2 is as good as chance allows: this road does not fit the counts of the "
                       "calibrated day.", "Calibration: no range of the delay is known. 30.0 vehicle hours of delay per lane on the calibrated day by the drivers of "
                       "the file (estimated from speeds at stations: 7.5 measured, and 9.0 by the drivers of the file): ± does not include this.", f"{flow}103, counted at station 104:"):
            self.check(f"a file without a range: {wanted}", wanted in without_range, True)
        self.check("a file without a range has no table of it", (no_table, "From the least to the greatest mean" in without_range, "error of the drivers" in html),
              ({}, False, False))
        # The demand is 700 cars/h when both cars stall: 1,433 / 733 is 1.955, and that is 1.07 times 1,551.2 / 851.2 = 1.822.
        for place in ("late at km 0.9 from 07:04", "early at km 0.9 from 07:02"):
            wanted = (f"Calibration: by the formula of a queue, the works of the road {place} on, with a demand of 700 cars/h, cost 1.07 times as much on this road as "
                      "with the measured flow that leaves a jam.")
            self.check(f"the page has {wanted}", wanted in html, True)
        for wanted in (f"{flow}103, counted at station 104: 1,551 cars/h per lane measured, 1,433 ± 15 simulated: queues of this road last too long, so works cost "
                       "too much on it.", f"{flow}105, counted at station 106: 1,600 cars/h per lane measured, and no simulated day has a jam there.",
                       "All figures are per lane: for the whole road multiply cars, flows and vehicle hours by the number of lanes.",
                       f"<td>{low:.2f} to {high:.2f}</td>", "nor how well the drivers are known: the table of calibration shows that", "<th>calibration: from .. to, per lane</th>", "<th>difference of late</th>",
                       f"{sentence}: ± does not include this.", "From the least to the greatest mean of 2 days"):
            self.check(f"the page has {wanted}", wanted in html, True)
        self.check("a calibrated road on one day", [sentence + end in one_day for end in (".", ": ± does not include this.")], [True, False])
        self.check("different calibrations", ("The files have different calibrations, so" in other, "table of calibration" in other), (True, False))

    def test_works_and_queues(self) -> None:
        """Compare works with the formula of a queue. 750 cars/h and two ramps with 100 and 75 reach km 5.4, the second of them in the works, from noon on, and 100 less
        before. A queue leaves a closure with 1,531 cars/h and not with 1,662: 1,531 / 606 is 1.12 times 1,662 / 737 for 925 cars/h. If the works leave 750, 781 / 606
        is 1.04 times 912 / 737. Two hours from 11:00 on have 875 cars/h on average: 781 / 656 is 1.03 times 912 / 787. No queue forms before works that leave 925. A queue that
        leaves with 920 never ends, and no queue ends that leaves with 870 on the real road."""
        flows = (Leaving("1", "2", 1_662.0, 1_531.0, 9.0), Leaving("2", "3", 1_600.0, 1_600.0, 9.0), Leaving("3", "4", 870.0, 1_600.0, 9.0), Leaving("4", "5", 1_600.0, None, None),
                 Leaving("5", "6", 1_600.0, 920.0, None))
        works = [*(Section(5.0, 5.4, 60, 120, capacity=capacity) for capacity in (750, 925, None)), Section(5.0, 5.4, 0, 120, capacity=750)]
        figures = dataclasses.replace(FIGURES, length=8, begin="11:00", minutes=180, main=[(0.0, 650.0), (60.0, 750.0)], ramps=[(4.0, 100.0), (5.3, 75.0), (6.0, 300.0)],
                                      sections=works, stalled=[Stalled(5.3, 60, 90)], calibration=Calibrated(5.0, None, None, flows[:1]))
        head, tail = "calibration: by the formula of a queue, the works{} at km 5{} on, with a demand of {} cars/h,", "with the measured flow that leaves a jam"
        noon, closed = head.format("", " to 5.4 from 12:00", 925), head.format("", ".3 from 12:00", 925)
        self.check("works", compare_works(figures), [f"{noon} cost 1.04 times as much on this road as {tail}",
                                                f"{head.format('', ' to 5.4 from 11:00', 875)} cost 1.03 times as much on this road as {tail}",
                                                f"{closed} cost 1.12 times as much on this road as {tail}"])
        self.check("four jams", compare_works(dataclasses.replace(figures, calibration=Calibrated(5.0, None, None, flows[:4])), " of the road night")[2:],
              [f"{head.format(' of the road night', '.3 from 12:00', 925)} cost 1.00 to 1.12 times as much on this road as {tail}"])
        self.check("a queue that never ends", compare_works(dataclasses.replace(figures, calibration=Calibrated(5.0, None, None, flows)))[2:],
              [f"{closed.replace('the works', 'the queue of the works')} never ends on this road, but would end {tail}"])
        self.check("no flow", [compare_works(dataclasses.replace(figures, calibration=calibration)) for calibration in (
            Calibrated(5.0, None, None, flows[2:4]), Calibrated(5.0, None, None), None)], [[], [], []])

    def test_rounded_roads(self) -> None:
        """Report two roads of 131 km/h. On the later one a car stands at km 1.301, in cell 173, which begins at km 1.2975."""
        with tempfile.TemporaryDirectory() as name:
            plain, late, page = (Path(name, file) for file in ("plain.json", "late.json", "report.html"))
            for path, stalled in ((plain, []), (late, [[1.301, "07:04", "07:05"]])):
                path.write_text(json.dumps({**ROAD, "limit": 131, "main": 500, "ramps": [], "sections": [], "minutes": 10, "stalled": stalled}), encoding="utf-8")
            found = []
            for words in ((late, "--against", plain), (plain, "--against", late), (plain,)):
                subprocess.run([RECIPE / "run", *words, "--days", "1", "--out", page], capture_output=True, check=True)
                found += re.findall("Rounded to the model: (.*?)</p>", page.read_text(encoding="utf-8"))
        limit, place = "the limit of 131 km/h: rounded to 135 km/h", "late: the stalled car at 1.301 km: rounded to 1.298 km"
        self.check("what was rounded on which road", found, [f"{limit}; {place}.", f"{limit}; {place}.", f"{limit}."])


if __name__ == "__main__":
    unittest.main()
