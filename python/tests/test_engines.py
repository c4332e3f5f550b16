"""Test sweeps by executors: processes, threads, joblib's loky, Dask workers on this machine that lack the repository, and a job array."""
from __future__ import annotations

import contextlib
import io
import os
import shutil
import signal
import socket
import subprocess
import sys
import tempfile
import threading
import time
import unittest
from concurrent.futures import Executor, Future, ProcessPoolExecutor, ThreadPoolExecutor
from pathlib import Path
from types import SimpleNamespace
from typing import Any
from unittest import mock

from test_page import TOP, find_python
from zegdrut import Fault, Plan, RoadLab
from zegdrut.program.programs import find_program
from zegdrut.sweeps import NoWorker, sweep
from zegdrut.sweeps.results import read_rows

PATIENCE = 120.0
TRIES = 5  # to see a sweep before it has ended
MODEL = '''
import os, time
from pathlib import Path
from zegdrut import Plan, RoadLab
import helpers

LIMIT = 5

def road(inflow, seed):
    with RoadLab(Plan(length=100, inlets=[(0, inflow)], zones=[(LIMIT, 16_384)], detectors=[60], words=seed)) as lab:
        lab.advance("A", 400)
        time.sleep(0.1)
        return {"cars": helpers.halve(lab.count("A", 0, 100, 400).cars), "seed again": seed}
'''
HELPERS = "PARTS = 2\ndef halve(x):\n    return x / PARTS\n"
WORDS = ["model.py:road", "--grid", "inflow=10000,20000,30000,60000", "--seeds", "1-15"]

DAYS = '''
import sys
from concurrent.futures import ProcessPoolExecutor
from pathlib import Path
from zegdrut.commands.calibrate import read_arguments
from zegdrut.commands.measured import read_days
from zegdrut.commands.metering import make_site, read_control, run_days
from zegdrut.figures import Window, run_over_days
from zegdrut.measurements import Bounds, Search, calibrate
from zegdrut.program import read_script
from zegdrut.reports import Side, run_sides
from zegdrut.roads import FIGURES

STEPS = 1_200
Path("road.json").write_text('{"length": 1.5, "limit": 135, "slowing": 0.1, "begin": "06:30", "minutes": 20, "main": 900, "ramps": [[0.7, 100]],'
                             ' "sections": [], "stalled": [], "detectors": [1], "stretch": [0.5, 1], "seed": 1}')
Path("control.json").write_text('{"ramp": 0.7, "detector": 1.1, "setpoint": 9}')
Path("main.json").write_text(Path("road.json").read_text().replace("[[0.7, 100]]", "[]"))
Path("counts.csv").write_text("time,station,km,type,lanes,count,speed km/h\\n" + "".join(
    f"2026-03-02 06:{minute},{name},{km},ML,1,{cars},{speed}\\n" for minute, cars in ((30, 75), (35, 80), (40, 70), (45, 75))
    for name, km, speed in (("1", 0.05, 100), ("2", 0.6, 128), ("3", 1.2, 127))))
script = ('{"length":200,"exit":1,"zone":200,"zones":[[5,9000]],"inlets":[[0,20000]],"detectors":[90],"words":7,"replicas":["A"]}\\n%s'
          '{"advance":{"at":"A","to":1200}}\\n')
Path("before.jsonl").write_text(script % "")
Path("after.jsonl").write_text(script % '{"edit":{"at":"A","object":["limit",0],"step":300,"value":2}}\\n')
figures = FIGURES.override(Path("road.json"))
site = make_site("road", figures, read_control(Path("control.json"), figures))
measured = read_days(read_arguments(["main.json", "counts.csv", "--unit", "speed=km/h"]), [])
before, after = read_script("before.jsonl"), read_script("after.jsonl")
sides = [Side("before", before, [[(0, 1_000.0)]]), Side("after", after, [[(0, 1_000.0)]])]


class Counted:
    """An executor that counts what each call sends."""

    def __init__(self, executor):
        self.executor, self.sent = executor, []

    def submit(self, *given):
        self.sent[-1] += 1
        return self.executor.submit(*given)

    def begin(self):
        self.sent.append(0)
        return self if self.executor else None


def tell_all(executor, ship=False):
    counted = Counted(executor)
    days = run_over_days(before, after, 3, executor=counted.begin(), ship=ship)
    metered = run_days(site, [1, 2], executor=counted.begin(), ship=ship)
    reported = run_sides(sides, [5, 6], Window(100, STEPS), executor=counted.begin(), ship=ship)
    search = Search(first_points=4, first_days=1, points=4, days=1, rounds=2, elite=4)
    found = calibrate("road", measured, Bounds(limit=(135, 135)), search, executor=counted.begin(), ship=ship)
    print(*map(min, counted.sent, (3, 2, 4, 8)))
    return repr((days.seeds, days.values, [[(one.rates, one.run.counts, one.run.trips.left) for one in day] for day in metered],
                 [[(one.counts, one.rows, one.trips.left) for one in day] for day in reported], found.best, found.spread, sorted(found.tried)))


if __name__ == "__main__":
    own = tell_all(None)
    with ProcessPoolExecutor(2) as executor:
        print(len(own) > 10_000, own == tell_all(executor))
    from distributed import Client
    with Client(sys.argv[1]) as client:
        print(own == tell_all(client.get_executor(pure=False), True))
'''


def model(x: int, seed: int) -> dict[str, Any]:
    if x == 3:
        raise ValueError("not here")
    with RoadLab(Plan(length=60, inlets=[(0, x * 6_000)], zones=[(4, 9_000)], detectors=[20], words=seed)) as lab:
        lab.advance("A", 200)
        return {"cars": lab.count("A", 0, 0, 200).cars}


def add(x: int, seed: int) -> dict[str, int]:
    return {"y": x * 10 + seed}


def die(x: int, seed: int) -> dict[str, Any]:
    if x == 3:
        os.kill(os.getpid(), signal.SIGKILL)
    return {"x": x}


class Executors(unittest.TestCase):
    def setUp(self) -> None:
        self.out = Path(self.enterContext(tempfile.TemporaryDirectory())) / "out.csv"

    def check(self, executor: Executor) -> None:
        """Compare with the own pool, and check that failures are named and the table is the same."""
        points, seeds = {"x": range(1, 8)}, range(1, 9)
        own = sweep(model, points, seeds, out=self.out)
        other = self.out.with_name("other.csv")
        found = sweep(model, points, seeds, executor=executor, out=other)
        self.assertEqual((found.rows, found.failures), (own.rows, own.failures))
        self.assertEqual({failure.error for failure in found.failures}, {"ValueError: not here"})
        self.assertEqual(other.read_bytes(), self.out.read_bytes())

    def test_processes(self) -> None:
        with ProcessPoolExecutor(3) as executor:
            self.check(executor)

    def test_threads(self) -> None:
        with ThreadPoolExecutor(3) as executor:
            self.check(executor)

    def test_short_runs(self) -> None:
        """Run short runs, which are sent in batches: each has its own figures."""
        with ThreadPoolExecutor(2) as executor:
            found = sweep(add, {"x": range(300)}, (1, 2, 3), executor=executor)
        self.assertEqual([row["y"] for row in found.rows], [x * 10 + seed for x in range(300) for seed in (1, 2, 3)])

    def test_loky(self) -> None:
        python = find_python("joblib")
        if python is None:
            self.skipTest("joblib not installed")
        code = ("import sys; sys.path[:0] = sys.argv[1:]\nfrom joblib.externals.loky import get_reusable_executor\nimport test_engines, zegdrut.sweeps\n"
                "found = zegdrut.sweeps.sweep(test_engines.model, {'x': [1, 2]}, (1, 2), executor=get_reusable_executor(2))\n"
                "print(found.rows == zegdrut.sweeps.sweep(test_engines.model, {'x': [1, 2]}, (1, 2)).rows, len(found.rows))\n")
        ran = subprocess.run([python, "-c", code, str(TOP), str(TOP / "tests")], capture_output=True, text=True, check=False)
        self.assertEqual((ran.returncode, ran.stdout), (0, "True 4\n"), ran.stderr)

    def test_a_broken_executor(self) -> None:
        """A process of a `ProcessPoolExecutor` dies: the sweep says so, keeps what has ended, and continues with a new one."""
        with self.assertRaisesRegex(Fault, "the executor is broken .*: the finished runs are kept"), ProcessPoolExecutor(1) as executor:
            sweep(die, {"x": [1, 2, 3, 4]}, executor=executor, out=self.out)
        self.assertEqual({row["x"] for row in read_rows(self.out)}, {1, 2})
        with ProcessPoolExecutor(1) as executor:
            self.assertEqual(len(sweep(die, {"x": [1, 2, 4]}, executor=executor, out=self.out).rows), 3)

    def test_what_cannot_be_sent(self) -> None:
        """Without cloudpickle, which sends a lambda, the sweep says what to do."""
        with mock.patch.dict(sys.modules, {"cloudpickle": None}), ProcessPoolExecutor(1) as executor, \
                self.assertRaisesRegex(Fault, "the model cannot be sent to workers .*cloudpickle"):
            sweep(lambda x, seed: {"y": x}, {"x": [1]}, executor=executor)


class ForgetfulDask(ThreadPoolExecutor):
    """An executor like that of a Dask client whose scheduler is started again: it loses one result, or returns it once its jobs are sent again."""

    def __init__(self, lost: int, late: bool = False) -> None:
        super().__init__(2)
        self._client = self
        self.status, self.scheduler, self.workers = "running", SimpleNamespace(address="tcp://somewhere:8786"), {"one": {}}
        self._sent, self._lost, self._late = 0, lost, late
        self._kept: dict[object, tuple[Future[Any], Future[Any]]] = {}

    def scheduler_info(self) -> dict[str, Any]:
        return {"id": "second" if self._sent > self._lost else "first", "workers": self.workers}

    def submit(self, *given: Any, **named: Any) -> Future[Any]:
        self._sent += 1
        found = super().submit(*given, **named)
        if self._sent == self._lost:
            forgotten: Future[Any] = Future()
            forgotten.set_running_or_notify_cancel()  # (so it cannot be cancelled)
            self._kept[given[-1]] = forgotten, found
            return forgotten
        if self._late and given[-1] in self._kept:
            late, result = self._kept.pop(given[-1])
            late.set_result(result.result())
        return found


class Silence(unittest.TestCase):
    """Sweeps by a cluster that does not answer, with short times to wait."""

    def setUp(self) -> None:
        for name, seconds in (("LOOK", 0.05), ("SETTLED", 0.2), ("SILENCE", 0.6)):
            self.enterContext(mock.patch(f"zegdrut.sweeps.engine.{name}", seconds))
        self.said = self.enterContext(contextlib.redirect_stderr(io.StringIO()))

    def test_a_result_that_a_new_scheduler_has_forgotten(self) -> None:
        """Lose each of the first results in turn, for ever or until its jobs were sent again: each run is there once."""
        wanted = sweep(add, {"x": range(40)}, (3, 5)).rows
        for lost in (1, 3, 6):
            for late in (False, True):
                with ForgetfulDask(lost, late) as executor:
                    self.assertEqual(sweep(add, {"x": range(40)}, (3, 5), executor=executor).rows, wanted, (lost, late))

    def test_a_sweep_that_waits_says_for_what(self) -> None:
        with ForgetfulDask(2) as executor:
            executor.workers, executor.scheduler_info = {}, lambda: {"id": "first", "workers": executor.workers}  # type: ignore[method-assign]

            def come_back() -> None:
                executor.scheduler_info = lambda: {"id": "second", "workers": {"one": {}}}  # type: ignore[method-assign]
            back = threading.Timer(1.5, come_back)
            back.start()
            self.assertEqual(len(sweep(add, {"x": range(40)}, (3, 5), executor=executor).rows), 80)
            back.join()
        self.assertEqual(set(self.said.getvalue().splitlines()), {"the sweep waits for 1 s: no workers at tcp://somewhere:8786: Debian's workers end "
                                                                  "with their scheduler, so start them again"})

    def test_a_client_that_has_given_up_ends_the_sweep(self) -> None:
        with ForgetfulDask(2) as executor, self.assertRaisesRegex(Fault, "the executor is broken .its client has lost the scheduler.: the finished runs are kept"):
            executor.status = "closed"
            sweep(add, {"x": range(40)}, (3, 5), executor=executor)


class Folder(unittest.TestCase):
    def setUp(self) -> None:
        self.folder = Path(self.enterContext(tempfile.TemporaryDirectory()))
        (self.folder / "model.py").write_text(MODEL, encoding="utf-8")
        (self.folder / "helpers.py").write_text(HELPERS, encoding="utf-8")

    def run_sweep(self, out: str, *words: str, python: str = sys.executable, wait: bool = True) -> subprocess.Popen[str]:
        process = subprocess.Popen([python, "-m", "zegdrut", "sweep", *WORDS, "--out", out, *words], cwd=self.folder, text=True,
                                   env={**os.environ, "PYTHONPATH": str(TOP), "ROAD_LAB": str(find_program().resolve()),
                                        "DASK_DISTRIBUTED__COMM__TIMEOUTS__CONNECT": f"{PATIENCE:.0f}s"}, stderr=subprocess.PIPE)
        if wait:
            process.said = process.communicate(timeout=PATIENCE)[1]  # type: ignore[attr-defined]
        return process


class JobArray(Folder):
    def test_a_job_array(self) -> None:
        """Run the commands of the page with SLURM's two variables, as its jobs 1 to 3."""
        self.run_sweep("whole.csv")
        command = " ".join([sys.executable, "-m", "zegdrut", "sweep", *WORDS])
        job = f"{command} --jobs 1 --part $SLURM_ARRAY_TASK_ID/$SLURM_ARRAY_TASK_COUNT --out part-$SLURM_ARRAY_TASK_ID.csv"
        for number in ("1", "2", "3"):
            subprocess.run(["sh", "-c", job], cwd=self.folder, check=True, stderr=subprocess.DEVNULL,
                           env={**os.environ, "PYTHONPATH": str(TOP), "SLURM_ARRAY_TASK_ID": number, "SLURM_ARRAY_TASK_COUNT": "3"})
        self.run_sweep("joined.csv", "--take", "part-1.csv", "part-2.csv", "part-3.csv")
        self.assertEqual((self.folder / "joined.csv").read_bytes(), (self.folder / "whole.csv").read_bytes())
        self.assertEqual(sum(len(read_rows(self.folder / f"part-{number}.csv")) for number in (1, 2, 3)), 60)


class Dask(Folder):
    """Workers that have neither the repository, nor the package, nor the program; one of them is killed."""

    def setUp(self) -> None:
        super().setUp()
        python = find_python("distributed")
        if python is None:
            self.skipTest("dask.distributed not installed")
        self.python, self.processes = python, list[subprocess.Popen[bytes]]()
        self.addCleanup(self.end_all)
        with socket.socket() as free:
            free.bind(("127.0.0.1", 0))
            self.address = f"tcp://127.0.0.1:{free.getsockname()[1]}"
        self.start_scheduler("scheduler")

    def start_scheduler(self, name: str) -> None:
        self.start(name, "dask_scheduler", "--host", "127.0.0.1", "--port", self.address.rpartition(":")[2])

    def start(self, name: str, module: str, *words: str) -> subprocess.Popen[bytes]:
        """Start a part of Dask in a folder and a home of its own, without variables of this process."""
        home = self.folder / name
        (home / "tmp").mkdir(parents=True)
        process = subprocess.Popen([self.python, "-m", f"distributed.cli.{module}", *words, "--no-dashboard"], cwd=home, stdin=subprocess.DEVNULL,
                                   stdout=subprocess.DEVNULL, stderr=subprocess.DEVNULL, start_new_session=True,
                                   env={"PATH": "/usr/bin:/bin", "HOME": str(home), "TMPDIR": str(home / "tmp"), "PYTHONDONTWRITEBYTECODE": "1"})
        self.processes.append(process)
        return process

    def start_worker(self, name: str) -> subprocess.Popen[bytes]:
        return self.start(name, "dask_worker", self.address, "--nthreads", "1", "--no-nanny", "--host", "127.0.0.1")

    def end_all(self) -> None:
        for process in self.processes:
            if process.poll() is None:
                os.killpg(process.pid, signal.SIGKILL)
            process.wait()

    def begin_sweep(self) -> tuple[subprocess.Popen[str], str]:
        """Start a sweep, and wait until its table has some rows, but not all: a busy machine may look too late, and then another sweep is started.
        Return its process and its table."""
        for number in range(TRIES):
            path, until = self.folder / f"dask{number}.csv", time.monotonic() + PATIENCE
            running = self.run_sweep(path.name, "--dask", self.address, "--ship", python=self.python, wait=False)
            while (not path.exists() or len(read_rows(path)) < 4) and time.monotonic() < until:
                time.sleep(0.02)
            if 0 < len(read_rows(path)) < 60:
                return running, path.name
            running.communicate(timeout=PATIENCE)
        raise AssertionError(f"the table had no rows or all rows at {TRIES} looks")

    def test_workers_without_the_repository(self) -> None:
        self.run_sweep("own.csv", python=self.python)
        workers = [self.start_worker(name) for name in ("one", "two")]
        ran = self.run_sweep("none.csv", "--dask", self.address, python=self.python)
        self.assertRegex(ran.said, r"the worker .*, process \d+ cannot run this sweep: it has no package zegdrut: install it there, or send it")  # type: ignore[attr-defined]
        self.assertEqual((ran.returncode, read_rows(self.folder / "none.csv")), (2, []))
        running, table = self.begin_sweep()
        os.killpg(workers[0].pid, signal.SIGKILL)
        self.assertEqual(running.wait(2 * PATIENCE), 0)
        self.assertIn(f"60 runs are in {table}", running.communicate()[1].splitlines())  # Dask may complain afterwards
        self.assertEqual((self.folder / table).read_bytes(), (self.folder / "own.csv").read_bytes())
        left = [path.name for name in ("one", "two") for path in (self.folder / name / "tmp").iterdir()]
        self.assertEqual([name for name in left if "dask" not in name], [])

    def test_a_scheduler_that_is_started_again(self) -> None:
        """Kill the scheduler, whose workers then end, and start it again with another worker: each run is in the table once."""
        self.run_sweep("own.csv", python=self.python)
        self.start_worker("one")
        running, table = self.begin_sweep()
        os.killpg(self.processes[0].pid, signal.SIGKILL)
        self.processes[0].wait()
        self.start_scheduler("scheduler again")
        self.start_worker("two")
        self.assertEqual(running.wait(2 * PATIENCE), 0)
        self.assertIn(f"60 runs are in {table}", running.communicate()[1].splitlines())
        self.assertEqual((self.folder / table).read_bytes(), (self.folder / "own.csv").read_bytes())

    def test_days(self) -> None:
        """Calibrate, meter, and run the days of a report and of a comparison, by processes and by a worker without the repository: all
        figures are those of the own processes."""
        self.start_worker("one")
        (self.folder / "days.py").write_text(DAYS, encoding="utf-8")
        ran = subprocess.run([self.python, "days.py", self.address], cwd=self.folder, capture_output=True, text=True, check=False, timeout=4 * PATIENCE,
                             env={**os.environ, "PYTHONPATH": str(TOP), "ROAD_LAB": str(find_program().resolve())})
        self.assertEqual((ran.returncode, ran.stdout), (0, "0 0 0 0\n3 2 4 8\nTrue True\n3 2 4 8\nTrue\n"), ran.stderr)

    def test_a_worker_with_another_program(self) -> None:
        """A worker that has this package, but another program, is refused by name."""
        shutil.copytree(TOP / "zegdrut", self.folder / "one" / "zegdrut", ignore=shutil.ignore_patterns("__pycache__"))
        (self.folder / "one").rename(self.folder / "kept")
        self.start_worker("one")
        (self.folder / "kept" / "zegdrut").rename(self.folder / "one" / "zegdrut")
        ran = self.run_sweep("out.csv", "--dask", self.address, python=self.python)
        self.assertRegex(ran.said, "cannot run this sweep: the program at .* is missing, or differs from the caller's: set ROAD_LAB there")  # type: ignore[attr-defined]
        self.assertEqual(ran.returncode, 2)


class Mpi(Folder):
    def test_mpi(self) -> None:
        """Run by `mpi4py.futures` on two workers. Only `python/test --all` does this."""
        python = find_python("mpi4py")
        if python is None or shutil.which("mpiexec") is None:
            self.skipTest("mpi4py not installed")
        (self.folder / "by_mpi.py").write_text(
            "from mpi4py.futures import MPIPoolExecutor\nfrom zegdrut.sweeps import sweep\nimport model\n"
            "if __name__ == '__main__':\n    points = {'inflow': [10_000, 60_000]}\n    with MPIPoolExecutor() as executor:\n"
            "        found = sweep(model.road, points, (1, 2, 3), executor=executor)\n"
            "    print(len(found.rows), found.rows == sweep(model.road, points, (1, 2, 3)).rows)\n", encoding="utf-8")
        ran = subprocess.run(["mpiexec", "--allow-run-as-root", "--oversubscribe", "-n", "3", python, "-m", "mpi4py.futures", "by_mpi.py"],
                             cwd=self.folder, capture_output=True, text=True, check=False, timeout=PATIENCE,
                             env={**os.environ, "PYTHONPATH": str(TOP), "ROAD_LAB": str(find_program().resolve())})
        self.assertEqual((ran.returncode, ran.stdout), (0, "6 True\n"), ran.stderr)


if "ALL_TESTS" not in os.environ:
    del Mpi


if __name__ == "__main__":
    unittest.main()
