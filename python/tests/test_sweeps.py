"""Test sweeps: means, failures, interrupts, crashes, files cut at each byte, parts, and GNU parallel."""
from __future__ import annotations

import csv
import itertools
import os
import resource
import shutil
import signal
import subprocess
import sys
import tempfile
import threading
import time
import unittest
from pathlib import Path
from typing import Any

from test_page import TOP, find_python
from zegdrut import Fault, NoProgram, Plan, RoadLab
from zegdrut.base.progress_bars import format_duration
from zegdrut.commands.sweep import read_seeds, read_values
from zegdrut.sweeps import Failure, Flows, Row, make_grid, sweep
from zegdrut.sweeps.pool import run_in_parallel
from zegdrut.sweeps.results import Results, read_rows, parse_cell, format_cell

MODEL = '''
import os, time
from pathlib import Path
from zegdrut import Plan
LOG = Path(os.environ.get("LOG", os.devnull))

def slow(a, b, seed):
    """Write each run to the log when it begins."""
    with open(LOG, "a") as log:
        log.write(f"{a} {b} {seed}\\n")
    time.sleep(float(os.environ.get("TAKES", "0.02")))
    return {"sum": a + b * 0.1, "seed again": seed, "name": f"{a},{b}"}

def bad(a, b, seed):
    if a == 2 and b == 1 and not Path("mended").exists():
        raise ValueError("two and one, not here")
    return slow(a, b, seed)

def road(inflow):
    return Plan(length=60, inlets=[(0, inflow)], zones=[(4, 0)], detectors=[20, 40])
'''
DAYS = '''
import os, time
from zegdrut.figures import simulate_days
def make_run(seed):
    os.write(1, f"{os.getpid()}\\n".encode())
    time.sleep(60)
simulate_days(make_run, range(6), jobs=3)
'''
GRID = ["--grid", "a=1,2,3", "--grid", "b=0:4:1", "--seeds", "1-4"]
KEYS = [(a, b, seed) for a in (1, 2, 3) for b in range(5) for seed in range(1, 5)]


def plain_model(x: float, seed: int) -> dict[str, Any]:
    return {"y": x * 10 + seed, "always": 3, "odd": None if seed % 2 else 1.5, "text": "a,b"}


def fail_by_x(x: int, seed: int) -> dict[str, Any]:
    """Fail in each way that a run can fail."""
    if x == 1:
        raise ZeroDivisionError("no such road")
    if x == 2:
        os.kill(os.getpid(), signal.SIGKILL)
    if x == 3:
        sys.exit(5)
    if x == 4:
        return {}
    if x == 5:
        return {"z": 1}
    if x == 6:
        return {"y": [1]}
    if x == 7:
        with RoadLab(Plan(length=4, inlets=[(0, 1)], zones=[(5, 0)])):
            pass
    return {"y": x}


class Folder(unittest.TestCase):
    def setUp(self) -> None:
        self.folder = Path(self.enterContext(tempfile.TemporaryDirectory()))
        (self.folder / "model.py").write_text(MODEL, encoding="utf-8")
        self.out, self.log = self.folder / "out.csv", self.folder / "log"

    def command(self, *words: str, **more: str) -> list[str]:
        self.environment = {**os.environ, "PYTHONPATH": str(TOP), "LOG": str(self.log), **more}
        return [sys.executable, "-m", "zegdrut", "sweep", *words, "--out", "out.csv"]

    def run_command(self, *words: str, **more: str) -> subprocess.CompletedProcess[str]:
        return subprocess.run(self.command(*words, **more), capture_output=True, text=True, check=False, cwd=self.folder,
                              env=self.environment)

    def list_begun(self) -> list[tuple[int, ...]]:
        text = self.log.read_text(encoding="utf-8") if self.log.exists() else ""
        return [tuple(map(int, line.split())) for line in text.splitlines()]

    def run_whole(self) -> bytes:
        """Run a sweep without interrupts. Return its file."""
        ran = self.run_command("model.py:slow", *GRID, TAKES="0")
        self.assertEqual((ran.returncode, ran.stdout), (0, ""), ran.stderr)
        data = self.out.read_bytes()
        self.out.unlink()
        self.log.unlink()
        return data


class Values(unittest.TestCase):
    def test_values_of_arguments(self) -> None:
        self.assertEqual(read_values("1,2.5,fast,-3"), [1, 2.5, "fast", -3])
        self.assertEqual(read_values("0:1:0.1"), [0, 0.1, 0.2, 0.3, 0.4, 0.5, 0.6, 0.7, 0.8, 0.9, 1])
        self.assertEqual(read_values("6144:20000:4096"), [6_144, 10_240, 14_336, 18_432])
        self.assertEqual(read_seeds("1-4,9"), [1, 2, 3, 4, 9])
        for text in ("1:2", "1:2:0", "a:b:c"):
            with self.assertRaisesRegex(Fault, "write from:to:step"):
                read_values(text)
        self.assertEqual([format_duration(one) for one in (7.4, 200, 3_900)], ["7 s", "3 min 20 s", "1 h 05 min"])

    def test_cells_keep_their_values(self) -> None:
        for value in (0.1 + 0.2, 1e-300, -5, 2 ** 70, None, "a,\"b\"", "1_0", "--", float("inf")):
            self.assertEqual(parse_cell(format_cell(value)), value)
        for wrong in (True, ["a"], [[1], [2, 3]], "a\nb", "", {}):
            with self.assertRaises(TypeError):
                format_cell(wrong)


class Sweeps(Folder):
    def test_means(self) -> None:
        """Compute means by hand: the seeds 1 to 4 have the mean 2.5 and the deviation 1.29099, and Student's t of 3 is 3.182446."""
        found = sweep(plain_model, {"x": [1, 2.5]}, range(1, 5))
        self.assertEqual([(row["x"], row["seed"], row["y"]) for row in found.rows],
                         [(x, seed, x * 10 + seed) for x in (1, 2.5) for seed in range(1, 5)])
        first, second = found.means()
        self.assertEqual((first["x"], first["seeds"], first["y"], second["y"]), (1, 4, 12.5, 27.5))
        self.assertAlmostEqual(first["y ±"], 3.182446 * 1.290994449 / 2, 6)
        self.assertEqual([first[name] for name in ("always", "always ±", "odd", "odd ±")], [3, 0, None, None])
        self.assertNotIn("text", first)
        one, = sweep(plain_model, [{"x": 4}]).means()
        self.assertEqual((one["y"], one["y ±"], one["seeds"]), (41, None, 1))

    def test_failures_are_named_and_left_out(self) -> None:
        with self.subTest("in memory and in a file"):
            found = sweep(fail_by_x, {"x": range(10)}, (1, 2), out=self.out, jobs=3)
            errors = ["ZeroDivisionError: no such road", "its process ended by SIGKILL", "its process ended with status 5",
                      "Fault: it returns {}, but a run must return a dictionary with at least one figure", "Fault: its figures are z, but other rows have y",
                      "Fault: y is a series with the axes axis_0, but in other rows a number"]
            self.assertEqual([(failure.point["x"], failure.seed, failure.error) for failure in found.failures[:12]],
                             [(x, seed, error) for x, error in enumerate(errors, 1) for seed in (1, 2)])
            self.assertEqual([failure.error.partition(":")[0] for failure in found.failures[12:]], ["Refused"] * 2)
            self.assertEqual([row["x"] for row in found.means()], [0, 8, 9])
            self.assertEqual(str(found.failures[0]), "x=1 seed=1: ZeroDivisionError: no such road")
            listed = read_rows(f"{self.out}.failed")
            self.assertEqual([(row["x"], row["seed"]) for row in listed], [(x, seed) for x in range(1, 8) for seed in (1, 2)])
            self.assertEqual({row["x"] for row in read_rows(self.out)}, {0, 8, 9})

    def test_a_point_that_fails_by_one_seed_has_no_mean(self) -> None:
        found = sweep(lambda x, seed: {"y": 1 // (x - seed)}, {"x": [2, 9]}, (1, 2, 3))
        self.assertEqual(found.failures, [Failure(Row(x=2), 2, "ZeroDivisionError: integer division or modulo by zero")])
        self.assertEqual([row["x"] for row in found.means()], [9])

    def test_a_plan_is_measured(self) -> None:
        """Compare the figures with those of a lab that runs the same road."""
        plan = lambda inflow: Plan(length=60, inlets=[(0, inflow)], zones=[(4, 9_000)], detectors=[20, 40])
        row, = sweep(plan, [{"inflow": 30_000}], [5], measure=Flows(500, 1_500, (10, 50))).rows
        with RoadLab(Plan(length=60, inlets=[(0, 30_000)], zones=[(4, 9_000)], detectors=[20, 40], words=5)) as lab:
            lab.advance("A", 1_500)
            counts = [lab.count("A", index, 500, 1_500) for index in (0, 1)]
            cars = [car for step in range(500, 1_500) for car in lab.cars("A", step) if 10 <= car.cell < 50]
        self.assertEqual({name: row[name] for name in ("flow 0", "flow 1", "time-mean speed 1", "density", "space-mean speed")}, {
            "flow 0": counts[0].cars / 1_000, "flow 1": counts[1].cars / 1_000,
            "time-mean speed 1": counts[1].speeds / counts[1].cars, "density": len(cars) / 40_000,
            "space-mean speed": sum(car.speed for car in cars) / len(cars)})
        wrong = sweep(plan, [{"inflow": 1}]).failures + sweep(plain_model, [{"x": 1}], measure=Flows(0, 5)).failures
        self.assertIn("plain_model() missing 1 required positional argument: 'seed'", wrong[1].error)

    def test_wrong_arguments(self) -> None:
        for said, call in (("there are no points: give at least one value of each parameter", lambda: sweep(plain_model, [])),
                           ("there are no points: give at least one value of each parameter", lambda: sweep(plain_model, {"x": []})),
                           ("there are no seeds: give at least one", lambda: sweep(plain_model, {"x": [1]}, [])),
                           ("point 1 has the parameters y, and the first one x", lambda: sweep(plain_model, [{"x": 1}, {"y": 1}])),
                           ("a parameter cannot be named seed: this is a column of the results", lambda: sweep(plain_model, [{"seed": 1}])),
                           ("a point or a seed appears twice: remove one", lambda: sweep(plain_model, {"x": [1, 1]})),
                           ("jobs must be 1 or more, not 0", lambda: sweep(plain_model, {"x": [1]}, jobs=0)),
                           ("part 3 of 2 does not exist", lambda: sweep(plain_model, {"x": [1]}, part=(3, 2)))):
            with self.subTest(said), self.assertRaisesRegex(Fault, f"^{said}$"):
                call()
        self.assertEqual(make_grid({"a": [1, 2], "b": "xy"}), [{"a": a, "b": b} for a in (1, 2) for b in "xy"])

    def test_results_that_cannot_be_sent(self) -> None:
        (done,) = run_in_parallel(lambda _: lambda: 0, [0])
        self.assertIn("the result cannot be sent to the parent process: ", done.error or "")
        self.assertEqual([done.value for done in run_in_parallel(len, ["ab", "c"], 9)].count(2), 1)
        self.assertEqual(list(run_in_parallel(len, [])), [])

    def test_a_run_that_takes_too_long(self) -> None:
        """End it, and its program; the other runs go on."""
        def model(x: int, seed: int) -> dict[str, int]:
            while x == 2:
                time.sleep(0.01)
            return {"y": x}
        found = sweep(model, {"x": [1, 2, 3]}, timeout=3, jobs=2)
        self.assertEqual(found.failures, [Failure(Row(x=2), 1, "it took longer than its timeout")])
        self.assertEqual([row["y"] for row in found.rows], [1, 3])

    def test_no_program(self) -> None:
        """End the sweep at once if a run needs the program and there is none."""
        def model(x: int, seed: int) -> dict[str, int]:
            if x == 1:
                with RoadLab(Plan(length=40, inlets=[(0, 1)], zones=[(5, 0)])):
                    pass
            time.sleep(0.1 if x > 1 else 0)
            return {"y": x}
        with self.assertRaisesRegex(NoProgram, "no program at /nowhere"):
            sweep(model, {"x": range(1, 100)}, out=self.out, jobs=2, program="/nowhere")
        self.assertLess(len(read_rows(self.out)), 50)
        self.assertEqual(sweep(model, {"x": [2]}, program="/nowhere").rows[0]["y"], 2)

    def test_jobs_run_in_parallel(self) -> None:
        """Check that all processes work, each yields its own results, and they end with the caller."""
        def work(job: int) -> tuple[int, int]:
            time.sleep(0.05)
            return job * job, os.getpid()
        found = list(run_in_parallel(work, range(12), 4))
        self.assertEqual(sorted((done.job, done.value[0]) for done in found), [(job, job * job) for job in range(12)])
        self.assertEqual(len({done.value[1] for done in found}), 4)
        running = run_in_parallel(work, range(100), 3)
        pids = {next(running).value[1] for _ in range(6)}
        running.close()
        self.assertTrue(all(not Path(f"/proc/{pid}").exists() for pid in pids))

    def test_workers_end_with_their_caller(self) -> None:
        """End a script that simulates days: its processes end at once, too, and not only once their jobs are done."""
        for number in (signal.SIGTERM, signal.SIGKILL):
            process = subprocess.Popen([sys.executable, "-c", DAYS], stdout=subprocess.PIPE, text=True,
                                       env={**os.environ, "PYTHONPATH": os.pathsep.join(sys.path)})
            assert process.stdout is not None
            commands = [Path("/proc", process.stdout.readline().strip(), "cmdline") for _ in range(3)]
            process.send_signal(number)
            process.wait()
            process.stdout.close()
            until = time.monotonic() + 20
            while any(one.exists() and one.read_bytes() for one in commands) and time.monotonic() < until:
                time.sleep(0.01)
            self.assertLess(time.monotonic(), until, number)

    def test_files_of_different_sweeps(self) -> None:
        sweep(plain_model, {"x": [1]}, out=self.out)
        other = lambda x, seed: {"y": x}
        with self.assertRaisesRegex(Fault, "has results of plain_model-[0-9a-f]{12}, but the model is now <lambda>-"):
            sweep(other, {"x": [1]}, out=self.out)
        with self.assertRaisesRegex(Fault, "has the columns x seed model y always odd text, not z seed model"):
            sweep(plain_model, {"z": [1]}, out=self.out)
        self.out.write_bytes(b"\xff\n")
        with self.assertRaisesRegex(Fault, "is not a valid CSV table"):
            sweep(plain_model, {"x": [1]}, out=self.out)

    def test_more_points_are_added(self) -> None:
        sweep(plain_model, {"x": [1, 3]}, (1, 2), out=self.out)
        found = sweep(plain_model, {"x": [2, 3]}, (1, 2), out=self.out)
        self.assertEqual([row["x"] for row in found.rows], [2, 2, 3, 3])
        self.assertEqual([row["x"] for row in read_rows(self.out)], [2, 2, 3, 3, 1, 1])


class Resuming(Folder):
    """Resume sweeps: the final file is the same, and no run in it is repeated."""

    def test_interrupts(self) -> None:
        """Interrupt by Ctrl-C, terminate, and crash, one after the other."""
        whole = self.run_whole()
        for number in (signal.SIGINT, signal.SIGTERM, signal.SIGKILL):
            before = len(self.list_begun())
            process = subprocess.Popen(self.command("model.py:slow", *GRID, "--jobs", "3", TAKES="0.3"), cwd=self.folder,
                                       env=self.environment, stderr=subprocess.PIPE, text=True)
            until = time.monotonic() + 180
            while len(self.list_begun()) < before + 8 and time.monotonic() < until:
                time.sleep(0.005)
            process.send_signal(number)
            _, said = process.communicate()
            self.assertEqual(process.returncode, -9 if number == signal.SIGKILL else 130, said)
            if number != signal.SIGKILL:
                self.assertIn("the finished runs are in out.csv: the same command continues from there", said)
                self.assertNotIn("Traceback", said)
            self.check_begun_once(before)
        time.sleep(1)  # (runs that the killed process had begun end by themselves)
        before = len(self.list_begun())
        self.assertEqual(self.run_command("model.py:slow", *GRID).returncode, 0)
        self.check_begun_once(before, 60)
        self.assertEqual(self.out.read_bytes(), whole)
        self.assertGreater(before, 3 * 8 - 1)

    def check_begun_once(self, before: int, at_most: int = 60) -> None:
        """Check that no run that was in the file was begun again, and that the file has only whole rows."""
        had = getattr(self, "had", set())
        self.assertFalse(had.intersection(self.list_begun()[before:]), "a run that was in the file was begun again")
        self.had = {(row["a"], row["b"], row["seed"]) for row in read_rows(self.out)}
        self.assertLessEqual(len(self.had), at_most)

    def test_a_file_that_is_cut_at_each_byte(self) -> None:
        points, seeds = {"x": [2.5]}, (1, 2)
        sweep(plain_model, points, seeds, out=self.out)
        whole, path = self.out.read_bytes(), self.log

        def again(x: float, seed: int) -> dict[str, Any]:
            with open(path, "a", encoding="utf-8") as log:
                log.write("run\n")
            return plain_model(x, seed)
        mark = sweep(again, points, seeds).rows[0]["model"]
        whole = whole.replace(sweep(plain_model, points, seeds).rows[0]["model"].encode(), mark.encode())
        for size in range(len(whole) + 1):
            self.out.write_bytes(whole[:size])
            self.log.write_text("", encoding="utf-8")
            sweep(again, points, seeds, out=self.out, jobs=1)
            self.assertEqual(self.out.read_bytes(), whole, f"cut at byte {size}")
            rows = max(whole[:size].count(b"\n") - 1, 0)
            self.assertEqual(len(self.log.read_text(encoding="utf-8").splitlines()), 2 - rows, f"cut at byte {size}")

    def test_a_reader_sees_whole_rows(self) -> None:
        """Read the file while it is written: it is always a table."""
        stop, wrong = threading.Event(), list[bytes]()

        def read() -> None:
            while not stop.is_set():
                data = self.out.read_bytes() if self.out.exists() else b""
                if data and not data.endswith(b"\n") or any(line.count(b",") != 7 for line in data.splitlines()[1:] if line):
                    wrong.append(data[-200:])
                time.sleep(0.0005)
        reader = threading.Thread(target=read)
        reader.start()
        sweep(plain_model, {"x": range(300)}, (1, 2), out=self.out, jobs=2)
        stop.set()
        reader.join()
        self.assertEqual(wrong, [])
        with open(self.out, newline="", encoding="utf-8") as file:
            self.assertEqual([int(row["x"]) for row in csv.DictReader(file)], [x for x in range(300) for _ in (1, 2)])

    def test_a_full_disk(self) -> None:
        """Let no file be longer than some bytes: the command names the file and says how to go on, and then does."""
        words = ["model.py:slow", *GRID[:-1], "1-30"]
        self.assertEqual(self.run_command(*words, TAKES="0").returncode, 0)
        whole, about = self.out.read_bytes(), self.out.with_name("out.csv.json").stat().st_size
        self.assertGreater(len(whole), 2 * about)
        for most, full in ((len(whole) * 2 // 3, "out.csv"), (about // 2, "out.csv.json")):
            for path in (self.out, self.log):
                path.unlink(missing_ok=True)
            ran = subprocess.run(self.command(*words, TAKES="0"), capture_output=True, text=True, check=False, cwd=self.folder, env=self.environment,
                                 preexec_fn=lambda most=most: resource.setrlimit(resource.RLIMIT_FSIZE, (most, most)))
            self.assertEqual((ran.returncode, ran.stderr.splitlines()[-2]), (2, "the finished runs are in out.csv: the same command continues from there"))
            self.assertRegex(ran.stderr.splitlines()[-1], f"^{full} was not written: (File too large|No space left on device): make room on the disk, "
                                                          "and repeat the command$")
            kept = len(read_rows(self.out))
            self.assertEqual(kept > 100, full == "out.csv")
            self.assertLess(kept, 450)
            self.log.unlink(missing_ok=True)
            self.assertEqual(self.run_command(*words, TAKES="0").returncode, 0)
            self.assertEqual((self.out.read_bytes(), len(self.list_begun())), (whole, 450 - kept))

    def test_two_sweeps_with_one_file(self) -> None:
        results = Results(self.out, ["a", "b", "seed", "model"])
        ran = self.run_command("model.py:slow", *GRID)
        self.assertEqual((ran.returncode, ran.stderr.splitlines()[-1:]),
                         (2, ["another process is writing out.csv: wait for it, or name a different file"]))
        results.close()
        self.assertEqual(self.run_command("model.py:slow", *GRID, TAKES="0").returncode, 0)

    def test_failures_by_the_command(self) -> None:
        words = ["model.py:bad", *GRID, "--means", "-"]
        ran = self.run_command(*words)
        self.assertEqual(ran.returncode, 1)
        self.assertEqual([line for line in ran.stderr.splitlines() if line.startswith("failed")],
                         [f"failed: a=2 b=1 seed={seed}: ValueError: two and one, not here" for seed in range(1, 5)])
        self.assertIn("56 runs are in out.csv, and 4 failed", ran.stderr)
        self.assertEqual(len(ran.stdout.splitlines()), 1 + 14)
        self.assertEqual(len(read_rows(self.folder / "out.csv.failed")), 4)
        (self.folder / "mended").touch()
        self.log.unlink()
        ran = self.run_command(*words)
        self.assertEqual((ran.returncode, sorted(self.list_begun())), (0, [(2, 1, seed) for seed in range(1, 5)]))
        self.assertEqual(len(ran.stdout.splitlines()), 1 + 15)
        self.assertFalse((self.folder / "out.csv.failed").exists())

    def test_wrong_arguments_of_the_command(self) -> None:
        for words, said in (
                (["nowhere.py:slow", *GRID], "there is no file nowhere.py"), (["model.py", *GRID], "model.py: write FILE.py:FUNCTION"),
                (["model.py:fast", *GRID], "model.py has no function fast"), (["no_such_module:f", *GRID], "No module named"),
                (["model.py:slow"], "name the points: --grid NAME=VALUES or --points FILE"),
                (["model.py:slow", "--grid", "a"], "--grid a: write NAME=VALUES"),
                (["model.py:slow", "--points", "none.csv"], "No such file"),
                (["model.py:slow", *GRID, "--part", "1"], "--part as K/N"), (["model.py:slow", *GRID, "--seeds", "x"], "--seeds as 1-4")):
            ran = self.run_command(*words)
            self.assertEqual(ran.returncode, 2, words)
            self.assertIn(said, ran.stderr)
            self.assertNotIn("Traceback", ran.stderr)

    def test_points_of_a_file(self) -> None:
        (self.folder / "points.csv").write_text("inflow\n1000\n60000\n", encoding="utf-8")
        ran = self.run_command("model.py:road", "--points", "points.csv", "--measure", "100:400", "--seeds", "3")
        self.assertEqual(ran.returncode, 0, ran.stderr)
        self.assertEqual([(row["inflow"], row["seed"]) for row in read_rows(self.out)], [(1_000, 3), (60_000, 3)])
        self.assertGreater(read_rows(self.out)[1]["flow 1"], 0.3)

    def test_parts(self) -> None:
        whole = self.run_whole()
        for part in (1, 2, 3):
            subprocess.run([*self.command("model.py:slow", *GRID, "--part", f"{part}/3", TAKES="0")[:-1], f"part-{part}.csv"],
                           check=True, cwd=self.folder, env=self.environment, stderr=subprocess.DEVNULL)
        self.assertEqual(sorted(self.list_begun()), KEYS)
        self.log.unlink()
        ran = self.run_command("model.py:slow", *GRID, "--take", "part-1.csv", "part-2.csv", "part-3.csv")
        self.assertEqual((ran.returncode, self.list_begun()), (0, []), ran.stderr)
        self.assertEqual(self.out.read_bytes(), whole)

    def test_gnu_parallel(self) -> None:
        """Run the command of the page: --resume-failed repeats a failed part, and only its missing runs."""
        if shutil.which("parallel") is None:
            self.skipTest("parallel not installed")
        words = ["model.py:bad", *GRID]
        parts = " ".join([*self.command(*words, TAKES="0")[:-1], "part-{}.csv", "--jobs", "1", "--part", "{}/5"])
        run = ["parallel", "--will-cite", "--joblog", "sweep.log", "--resume-failed", "-j", "3", parts, ":::", *"12345"]
        self.environment["PYTHONPATH"] = str(TOP)
        first = subprocess.run(run, cwd=self.folder, env=self.environment, capture_output=True, text=True, check=False)
        self.assertGreater(first.returncode, 0)
        self.assertEqual(len(self.list_begun()), 56)
        (self.folder / "mended").touch()
        self.log.unlink()
        second = subprocess.run(run, cwd=self.folder, env=self.environment, capture_output=True, text=True, check=False)
        self.assertEqual(second.returncode, 0, second.stderr)
        self.assertEqual(sorted(self.list_begun()), [(2, 1, seed) for seed in range(1, 5)])
        ran = self.run_command(*words, "--take", *(f"part-{part}.csv" for part in range(1, 6)))
        self.assertEqual(ran.returncode, 0, ran.stderr)
        self.assertEqual([(row["a"], row["b"], row["seed"]) for row in read_rows(self.out)], KEYS)

    def test_pandas(self) -> None:
        python = find_python("pandas")
        if python is None:
            self.skipTest("pandas not installed")
        self.run_command("model.py:slow", *GRID, TAKES="0")
        code = ("import pandas\nfound = pandas.read_csv('out.csv')\n"
                "print(len(found), list(found.columns), found['a'].dtype, found['sum'].dtype, found.groupby('a')['seed'].count().tolist())")
        ran = subprocess.run([python, "-c", code], capture_output=True, text=True, check=True, cwd=self.folder)
        self.assertEqual(ran.stdout, "60 ['a', 'b', 'seed', 'model', 'sum', 'seed again', 'name'] int64 float64 [20, 20, 20]\n")


if __name__ == "__main__":
    unittest.main()
