"""Test what lies beside a table: it says what made it, keeps types and units, and makes the same table once more."""
from __future__ import annotations

import json
import os
import subprocess
import sys
import tempfile
import unittest
from pathlib import Path
from typing import Any

from test_page import TOP, find_python
from zegdrut import Fault, Plan, RoadLab
from zegdrut.program.programs import find_program, read_record
from zegdrut.sweeps import Flows, Row, Series, load, run_one, runs, sweep
from zegdrut.sweeps.results import make_identifier

MODEL = '''
from zegdrut import Plan
from zegdrut.sweeps import Series
def road(inflow, slowing):
    return Plan(length=60, inlets=[(0, inflow)], zones=[(4, slowing)], detectors=[20])
def profile(x, word, seed):
    return {"name": word + "x", "y": x + seed / 2, "along the road": Series([x, seed, 0.5], ("cell",)), "field": [[x, 1], [seed, 2]],
            "sometimes": x if seed == 1 else None}
'''


def model(x: float, word: str, seed: int) -> dict[str, Any]:
    return {"text": {"a": "007", "b": "1e5"}[word] if seed == 1 else "nan", "y ±": x * seed, "profile": Series([x, 0.5, float(seed)], ("cell",)),
            "nothing": None}


class Tables(unittest.TestCase):
    def setUp(self) -> None:
        self.folder = Path(self.enterContext(tempfile.TemporaryDirectory()))
        (self.folder / "model.py").write_text(MODEL, encoding="utf-8")
        self.out = self.folder / "out.csv"

    def run_command(self, *words: str, python: str = sys.executable, **more: str) -> subprocess.CompletedProcess[str]:
        return subprocess.run([python, *words], cwd=self.folder, capture_output=True, text=True, check=False,
                              env={**os.environ, "PYTHONPATH": str(TOP), **more})

    def run_roads(self, *words: str) -> subprocess.CompletedProcess[str]:
        ran = self.run_command("-m", "zegdrut", "sweep", "model.py:road", "--grid", "inflow=10000,60000", "--grid", "slowing=0,9000", "--seeds",
                               "1-2", "--measure", "100:400", "--out", "out.csv", "--unit", "inflow=1/65536", *words)
        self.assertEqual(ran.returncode, 0, ran.stderr)
        return ran

    def test_what_made_it(self) -> None:
        self.run_roads()
        about = json.loads((self.folder / "out.csv.json").read_text(encoding="utf-8"))
        self.assertEqual(about["points"], [{"inflow": inflow, "slowing": slowing} for inflow in (10_000, 60_000) for slowing in (0, 9_000)])
        self.assertEqual((about["model"], about["measure"], about["seeds"]), ("model.py:road", "100:400", [[1, 2]] * 4))
        plan = Plan(length=60, inlets=[(0, 60_000)], zones=[(4, 9_000)], detectors=[20])
        self.assertEqual(about["plans"][3], json.loads(json.dumps(plan.to_line())))
        self.assertEqual({name: column["unit"] for name, column in about["columns"].items()}, {
            "inflow": "1/65536", "slowing": "", "seed": "", "model": "", "flow": "cars/step", "time-mean speed": "cells/step",
            "density": "cars/cell", "space-mean speed": "cells/step"})
        self.assertEqual(about["columns"]["time-mean speed"]["identifier"], "time_mean_speed")
        made = read_record(find_program())
        if made is not None:
            self.assertEqual((about["program"]["text"], about["program"]["proved"]), (made.text, made.proved))
        self.assertIn("sweep", about["command"])
        self.assertLessEqual(about["begun"], about["ended"])
        found = load(self.out)
        self.assertEqual([row["model"] for row in found.rows], [about["mark"]] * 8)
        self.assertEqual(found.rows, load(self.folder / "out.csv.json").rows)
        (self.folder / "out.csv.json").unlink()
        with self.assertRaisesRegex(Fault, "out.csv.json is missing: it says what made "):
            load(self.out)

    def test_types_are_kept(self) -> None:
        """Read strings that look like numbers, series and None: all are the same, also after a resumed sweep."""
        points = [{"x": 1, "word": "a"}, {"x": 2.5, "word": "b"}]
        rows = sweep(model, points, (1, 2)).rows
        self.assertEqual([row["text"] for row in rows], ["007", "nan", "1e5", "nan"])
        self.assertEqual(rows[2]["profile"], Series([2.5, 0.5, 1.0], ("cell",)))
        sweep(model, points[:1], (1, 2), out=self.out)
        self.assertEqual(sweep(model, points[:1], (1, 2), out=self.out).rows, rows[:2])
        self.assertEqual(sweep(model, points, (1, 2), out=self.out).rows, rows)
        self.assertEqual(load(self.out).rows, rows)
        self.assertEqual((rows[0]["y_half"], rows[0]["y ±"]), (1, 1))
        with self.assertRaises(KeyError):
            rows[0]["z"]
        self.assertEqual([make_identifier(one) for one in ("flow ±", "flow 0 ±", "1st", "space-mean speed")],
                         ["flow_half", "flow_0_half", "_1st", "space_mean_speed"])

    def test_runs_one_by_one(self) -> None:
        """Distribute the runs oneself: the figures are those of the sweep."""
        def road(inflow: int) -> Plan:
            return Plan(length=60, inlets=[(0, inflow)], zones=[(4, 9_000)], detectors=[20])
        points, measure = {"inflow": [10_000, 60_000]}, Flows(100, 300)
        whole = sweep(road, points, (1, 2), measure=measure).rows
        for run, row in zip(runs(points, (1, 2)), whole):
            figures = run_one(road, run, measure)
            self.assertEqual({**run.point, "seed": run.seed, "model": row["model"], **figures}, row)
        with self.assertRaisesRegex(Fault, "there are no seeds"):
            runs(points, ())
        self.assertEqual(Row(a=1)["a"], 1)

    def test_the_same_table_again(self) -> None:
        self.run_roads()
        whole = self.out.read_bytes()
        ran = self.run_command("-m", "zegdrut", "sweep", "--again", "out.csv.json")
        self.assertEqual((ran.returncode, ran.stderr.splitlines()[-1]), (0, "out.again.csv is the same as out.csv, byte for byte"), ran.stderr)
        self.assertEqual((self.folder / "out.again.csv").read_bytes(), whole)
        other = self.folder / "other"
        other.write_text(f"#!/bin/sh\nexec {find_program().resolve()} \"$@\"\n", encoding="utf-8")
        other.chmod(0o755)
        ran = self.run_command("-m", "zegdrut", "sweep", "--again", "out.csv.json", "--out", "other.csv", ROAD_LAB=str(other))
        self.assertRegex(ran.stderr, "out.csv was made by road-[0-9a-f]{12}, and this run is road-[0-9a-f]{12}; changed: the program\n")
        self.assertEqual((ran.returncode, ran.stderr.splitlines()[-1]), (1, "other.csv is different from out.csv"))
        self.assertEqual([row["flow"] for row in load(self.folder / "other.csv").rows], [row["flow"] for row in load(self.out).rows])
        self.out.unlink()
        ran = self.run_command("-m", "zegdrut", "sweep", "--again", "out.csv.json", "--out", "third.csv")
        self.assertEqual((ran.returncode, ran.stderr.splitlines()[-1]), (1, "out.csv is not there, so nothing was compared with third.csv"))
        self.assertEqual((self.folder / "third.csv").read_bytes(), whole)

    def test_a_table_that_grew(self) -> None:
        """Grow a table by other points, seeds and a part: the file beside it lists all its runs in the order of its rows, and makes it again."""
        words = ["-m", "zegdrut", "sweep", "model.py:profile", "--grid"]
        for more in (["x=1,2", "--grid", "word=a", "--seeds", "1-3", "--out", "out.csv"],
                     ["x=5,6,7", "--grid", "word=a", "--seeds", "4", "--part", "2/3", "--out", "part.csv"],
                     ["x=2,3", "--grid", "word=a,b", "--seeds", "2,5", "--out", "out.csv", "--take", "part.csv"]):
            self.assertEqual(self.run_command(*words, *more).returncode, 0)
        about, rows = json.loads((self.folder / "out.csv.json").read_text(encoding="utf-8")), load(self.out).rows
        self.assertEqual([(row["x"], row["word"], row["seed"]) for row in rows],
                         [(point["x"], point["word"], seed) for point, seeds in zip(about["points"], about["seeds"]) for seed in seeds])
        self.assertEqual([(*point.values(), seeds) for point, seeds in zip(about["points"], about["seeds"])],
                         [(2, "a", [2, 5, 1, 3]), (2, "b", [2, 5]), (3, "a", [2, 5]), (3, "b", [2, 5]), (1, "a", [1, 2, 3]), (6, "a", [4])])
        ran = self.run_command("-m", "zegdrut", "sweep", "--again", "out.csv.json")
        self.assertEqual((ran.returncode, ran.stderr.splitlines()[-1]), (0, "out.again.csv is the same as out.csv, byte for byte"), ran.stderr)
        self.assertEqual(load(self.folder / "out.again.csv").rows, rows)

    def test_the_plans_of_a_table_that_grew(self) -> None:
        self.run_roads()
        self.run_command("-m", "zegdrut", "sweep", "model.py:road", "--grid", "inflow=20000", "--grid", "slowing=1", "--measure", "100:400",
                         "--out", "out.csv")
        about = json.loads((self.folder / "out.csv.json").read_text(encoding="utf-8"))
        self.assertEqual([(plan["inlets"][0][1], plan["zones"][0][1]) for plan in about["plans"]],
                         [(point["inflow"], point["slowing"]) for point in about["points"]])
        self.assertEqual(about["seeds"], [[1], *[[1, 2]] * 4])

    def test_models_without_a_name(self) -> None:
        sweep(lambda x, seed: {"y": x}, {"x": [1]}, out=self.out)
        ran = self.run_command("-m", "zegdrut", "sweep", "--again", "out.csv.json")
        self.assertEqual((ran.returncode, ran.stderr.partition(":")[0]), (2, "out.csv.json names no model that can be imported, such as MODULE"))

    def test_a_changed_constant_is_named(self) -> None:
        path = self.folder / "model.py"
        path.write_text("LIMIT = 3\ndef road(x, seed):\n    return {'y': x * LIMIT}\n", encoding="utf-8")
        words = ["-m", "zegdrut", "sweep", "model.py:road", "--grid", "x=1,2", "--out", "out.csv"]
        self.assertEqual(self.run_command(*words).returncode, 0)
        path.write_text(path.read_text(encoding="utf-8").replace("3", "4"), encoding="utf-8")
        ran = self.run_command(*words)
        self.assertEqual(ran.returncode, 1)
        self.assertIn("; changed: model.LIMIT: name a different file", ran.stderr)

    def test_arrays(self) -> None:
        """Open a table in xarray, with values, units, and the program's hash; a run that is missing is NaN."""
        python = find_python("xarray, netCDF4, pandas")
        if python is None:
            self.skipTest("xarray, netCDF4 or pandas not installed")
        code = ("import json, sys, xarray\nfrom zegdrut.sweeps import load, sweep, Series\nimport model\n"
                "sweep(model.profile, [dict(x=x, word=w) for x, w in ((1, 'a'), (3, 'a'), (3, 'b'))], (1, 2), out='p.csv', units={'y': 'cars'})\n"
                "found = load('p.csv')\nfound.to_netcdf('p.nc')\n"
                "for data in (found.to_xarray(), xarray.open_dataset('p.nc')):\n"
                "    print(json.dumps([list(data.y.dims), data.y.values.tolist(), data.y.units, list(data.along_the_road.dims),\n"
                "          data.along_the_road.sel(x=3, word='a', seed=2).values.tolist(), data.field.dims[-2:], data.field.shape,\n"
                "          data.name.sel(x=3, word='b', seed=1).item(), str(data.sometimes.values.tolist()), data.program_text, data.mark]))\n"
                "frame = found.to_pandas()\nprint(list(frame.columns), frame.attrs['units'], len(frame))\n")
        ran = self.run_command("-c", code, python=python)
        self.assertEqual(ran.returncode, 0, ran.stderr)
        made, (*datasets, frame) = read_record(find_program()), ran.stdout.splitlines()
        self.assertEqual(datasets[0], datasets[1])
        y = [[[1.5, 2.0], [float("nan")] * 2], [[3.5, 4.0], [3.5, 4.0]]]
        first = json.loads(datasets[0])
        self.assertEqual(str(first[:2]), str([["x", "word", "seed"], y]))
        self.assertEqual(first[2:8], ["cars", ["x", "word", "seed", "cell"], [3.0, 2.0, 0.5], ["axis_0", "axis_1"], [2, 2, 2, 2, 2], "bx"])
        self.assertEqual(first[8], "[[[1.0, nan], [nan, nan]], [[3.0, nan], [3.0, nan]]]")
        if made is not None:
            self.assertEqual(first[9], made.text)
        self.assertEqual(frame, "['x', 'word', 'seed', 'model', 'name', 'y', 'along_the_road', 'field', 'sometimes'] {'y': 'cars'} 6")


if __name__ == "__main__":
    unittest.main()
