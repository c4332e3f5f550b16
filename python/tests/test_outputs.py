"""Test that outputs that cannot be written and inputs that cannot be read are refused by one sentence, before anything is simulated."""
from __future__ import annotations

import contextlib
import io
import json
import os
import tempfile
import unittest
import unittest.mock
from pathlib import Path

from zegdrut.__main__ import main

ROAD = {"length": 2, "begin": "07:00", "minutes": 20, "main": 300, "ramps": [[0.9, 100]], "sections": [[1, 1.5, "07:05", "07:10", 54]],
        "detectors": [1.5], "stretch": [0.5, 1]}
PLAN = {"length": 60, "exit": 1, "zone": 60, "zones": [[5, 0]], "inlets": [[0, 9_000]], "detectors": [30], "words": 1, "replicas": ["A"]}


class Outputs(unittest.TestCase):
    def setUp(self) -> None:
        self.folder = Path(self.enterContext(tempfile.TemporaryDirectory()) if hasattr(self, "enterContext") else tempfile.mkdtemp())
        self.road, self.counts, self.control, self.script, self.model = (
            self.folder / name for name in ("road.json", "counts.csv", "control.json", "script.jsonl", "model.py"))
        self.road.write_text(json.dumps(ROAD), encoding="utf-8")
        self.control.write_text('{"ramp": 0.9, "detector": 1.2, "setpoint": 12}', encoding="utf-8")
        self.counts.write_text("time,km,count,speed km/h\n" + "".join(f"07:{place * 5:02},{km},25,90\n" for place in range(4) for km in (0, 1)),
                               encoding="utf-8")
        self.script.write_text(json.dumps(PLAN) + '\n{"advance":{"at":"A","to":60}}\n', encoding="utf-8")
        self.model.write_text("def one(size, seed):\n    raise SystemExit('it is simulated')\n", encoding="utf-8")
        self.commands = {
            "freeway": [self.road], "measured": [self.road, self.counts], "calibrate": [self.road, self.counts], "metering": [self.road, self.control],
            "report": [self.road], "delay": [self.script, self.script], "sweep": [f"{self.model}:one", "--grid", "size=1"]}
        # Without a program nothing can be simulated.
        self.enter({"ROAD_LAB": str(self.folder / "none")})

    def enter(self, more: dict[str, str]) -> None:
        patch = unittest.mock.patch.dict(os.environ, more)
        patch.start()
        self.addCleanup(patch.stop)

    def run_command(self, *words: object) -> tuple[int, str]:
        said, errors = io.StringIO(), io.StringIO()
        with contextlib.redirect_stdout(said), contextlib.redirect_stderr(errors):
            status = main([str(word) for word in words])
        return status, errors.getvalue()

    def test_an_output_below_a_file(self) -> None:
        taken = self.folder / "taken"
        taken.write_text("", encoding="utf-8")
        for command, words in self.commands.items():
            for more in (["--days", "2"],) if command == "delay" else ([],):
                out = taken / "below" / "out.html"
                place = out.parent if command in ("report", "sweep") else out
                option = {"report": "FILE.html", "sweep": "FILE"}.get(command, "FOLDER")
                with self.subTest(command):
                    self.assertEqual(self.run_command(command, *words, *more, "--out", out),
                                     (2 if command == "sweep" else 1, f"no file can be written in {place} (Not a directory): give another place by "
                                                                      f"--out {option}\n"))
        self.assertEqual(self.run_command("measured", self.road, self.counts, "--write-road", taken / "road.json"),
                         (1, f"{taken} is a file, not a folder: give another place by --write-road FILE\n"))

    def test_a_file_instead_of_a_folder(self) -> None:
        for command in ("freeway", "measured", "calibrate", "metering", "delay"):
            with self.subTest(command):
                self.assertEqual(self.run_command(command, *self.commands[command], "--out", self.road),
                                 (1, f"{self.road} is a file, not a folder: give another place by --out FOLDER\n"))
        self.assertEqual(json.loads(self.road.read_text(encoding="utf-8")), ROAD)

    def test_a_folder_instead_of_a_file(self) -> None:
        for command, option in (("report", "FILE.html"), ("sweep", "FILE")):
            with self.subTest(command):
                self.assertEqual(self.run_command(command, *self.commands[command], "--out", self.folder)[1],
                                 f"{self.folder} is a folder, not a file: give another place by --out {option}\n")

    def test_an_input_that_is_missing(self) -> None:
        none = self.folder / "nofile"
        for words in (["freeway", none], ["freeway", self.road, "--then", none], ["measured", none, self.counts],
                      ["measured", self.road, none], ["measured", self.road, self.counts, "--stations", none],
                      ["calibrate", self.road, self.counts, "--bounds", none], ["metering", self.road, none], ["metering", none, self.control],
                      ["report", none], ["report", self.road, "--against", none], ["report", self.road, "--counts", none], ["delay", none, self.script],
                      ["sweep", f"{self.model}:one", "--points", none]):
            with self.subTest(words):
                self.assertEqual(self.run_command(*words, "--out", self.folder / "out")[1], f"{none}: No such file or directory: check the path\n")


if __name__ == "__main__":
    unittest.main()
