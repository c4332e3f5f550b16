"""Test that no call gets the reply to another call: interrupts at each byte of a reply, timeouts, threads, and programs that end."""
from __future__ import annotations

import gc
import os
import pickle
import re
import signal
import subprocess
import sys
import tempfile
import threading
import time
import unittest
from concurrent.futures import ThreadPoolExecutor
from pathlib import Path
from types import FrameType
from typing import Any

from zegdrut import Ended, LabBroken, LabCancelled, LabError, LabTimeout, NoProgram, Plan, Refused, RoadLab

FAKE = Path(__file__).with_name("fake_program.py")
PLAN: dict[str, Any] = {"length": 8}
ROAD = Plan(length=40, inlets=[(0, 65_536)], zones=[(3, 0)], detectors=[28], words="steady")
LONG = 20.0  # seconds: enough even on a busy machine


def fake(timeout: float | None = LONG) -> RoadLab:
    return RoadLab(PLAN, FAKE, timeout)


def list_threads() -> set[str]:
    """Return the numbers of this process's threads, also of those that the module `threading` does not know."""
    return set(os.listdir("/proc/self/task"))


def echo(text: object, **how: Any) -> dict[str, Any]:
    return {"echo": {"text": text, **how}}


class Interrupt(BaseException):
    """The exception of a signal handler."""


class Interrupts(unittest.TestCase):
    def test_an_interrupt_at_each_byte_of_a_reply(self) -> None:
        size = len('{"echo": "mine"}\n')
        with fake() as lab:
            for cut in range(size + 1):
                with self.subTest(cut=cut):
                    with self.assertRaises(KeyboardInterrupt):
                        lab.ask(echo("mine", cut=cut))
                        time.sleep(LONG)  # (the reply may come before the signal)
                    self.assertEqual(lab.ask(echo(f"next {cut}", steps=True)), {"echo": f"next {cut}"})

    def test_many_interrupts_in_a_row(self) -> None:
        """Interrupt several calls in a row: the next call gets its own reply."""
        with fake() as lab:
            for turn in range(40):
                for cut in range(turn % 7):
                    with self.assertRaises(KeyboardInterrupt):
                        lab.ask(echo(f"interrupted {turn}", cut=cut))
                        time.sleep(LONG)
                self.assertEqual(lab.ask(echo(turn)), {"echo": turn})

    def test_interrupts_while_a_long_line_is_written(self) -> None:
        text = "x" * 400_000
        with fake() as lab:
            for signals in range(1, 12):
                lab.ask(echo("ready", then_signals=signals))
                with self.assertRaises(KeyboardInterrupt):
                    lab.ask(echo(text))
                    time.sleep(LONG)
                while True:
                    try:
                        found = lab.ask(echo(f"next {signals}"))
                        break
                    except KeyboardInterrupt:
                        pass  # (one of the other signals)
                self.assertEqual(found, {"echo": f"next {signals}"})

    def test_a_signal_at_any_moment_of_any_call(self) -> None:
        """Raise an exception in a signal handler between any two instructions of a call: at rising times, then as often as possible."""
        armed = False

        def interrupt(_: int, __: FrameType | None) -> None:
            nonlocal armed
            if armed:
                armed = False
                raise Interrupt
        with RoadLab(ROAD, timeout=LONG) as lab:
            lab.advance("A", 400)
            rows = lab.diagram("A", 0, 400)
            self.addCleanup(signal.signal, signal.SIGALRM, signal.signal(signal.SIGALRM, interrupt))
            self.addCleanup(signal.setitimer, signal.ITIMER_REAL, 0)
            begin = time.perf_counter()
            for step in range(200):
                lab.cells("A", step)
            usual = (time.perf_counter() - begin) / 200
            for storm in (False, True):
                if storm:
                    signal.setitimer(signal.ITIMER_REAL, usual * 2, usual * 2)
                given_up = right = 0
                for turn in range(2_000):
                    step = turn * 13 % 401
                    try:
                        if not storm:
                            signal.setitimer(signal.ITIMER_REAL, usual * (turn % 400 + 1) / 200)
                        armed = True
                        found = lab.cells("A", step)
                        armed = False
                        right += 1
                        self.assertEqual(found, rows[step])
                    except Interrupt:
                        given_up += 1
                        if turn % 5:
                            self.assertEqual(lab.cells("A", turn % 401), rows[turn % 401])
                self.assertGreater(given_up, 10)
                self.assertGreater(right, 10)
            signal.setitimer(signal.ITIMER_REAL, 0)
            self.assertEqual(lab.diagram("A", 0, 400), rows)

    def test_an_interrupted_message_is_explained(self) -> None:
        """Explain a refusal that is due to an abandoned call."""
        with RoadLab(ROAD, timeout=LONG) as lab:
            said = ""
            while "carries the call out all the same" not in said:
                lab.timeout = 0.0
                with self.assertRaises(LabTimeout) as raised:
                    lab.send("A", "m")
                said = str(raised.exception)
                lab.timeout = LONG
            with self.assertRaisesRegex(Refused, "the name \"m\" is taken: `send` made a message of this name"):
                lab.send("A", "m")

    def test_ctrl_c_does_not_reach_the_program(self) -> None:
        with fake() as lab:
            self.assertNotEqual(lab.ask(echo("", what="session")), {"echo": os.getsid(0)})

    def test_an_interrupted_advance_continues(self) -> None:
        with RoadLab(ROAD, timeout=LONG) as lab:
            with self.assertRaises(KeyboardInterrupt):
                lab.advance("A", 1_000, 100, lambda done, whole: signal.raise_signal(signal.SIGINT))
            self.assertEqual(lab.advance("A", 1_000), 1_000)


class Endings(unittest.TestCase):
    def check_refuses_all(self, lab: RoadLab, said: str) -> None:
        for _ in range(3):
            with self.assertRaisesRegex(LabBroken, f"{re.escape(said)}.*: start a new one$"):
                lab.ask(echo("anything"))

    def test_a_timeout(self) -> None:
        with fake() as lab:
            lab.timeout = 0.05
            with self.assertRaisesRegex(LabTimeout, "no reply within 0.05 s"):
                lab.ask(echo("late", late=0.3))
            lab.timeout = LONG
            self.assertEqual(lab.ask(echo("next")), {"echo": "next"})

    def test_a_call_whose_time_is_over(self) -> None:
        """Let the time of a call pass that the program has begun, and of one that still waits: only the first is carried out."""
        with fake() as lab:
            lab.timeout = 0.5
            with self.assertRaisesRegex(LabTimeout, "no reply within 0.5 s: the program carries the call out all the same, and the next call waits"):
                lab.ask(echo("begun", late=3))
            lab.timeout = 0.1
            with self.assertRaisesRegex(LabTimeout, "no reply within 0.1 s: the program was busy with an earlier call, and this one was dropped"):
                lab.ask(echo("dropped"))
            lab.timeout = LONG
            self.assertEqual(lab.ask(echo("", what="count")), {"echo": 2})

    def test_a_timeout_of_a_call_with_many_commands(self) -> None:
        """Advance by many short commands: the timeout holds for the whole call."""
        pieces: list[int] = []

        def wait(done: int, _: int) -> None:
            pieces.append(done)
            self.assertLess(len(pieces), 40, "the timeout holds for each command alone")
            time.sleep(0.25)
        with RoadLab(ROAD, timeout=LONG) as lab:
            lab.timeout = 3
            with self.assertRaisesRegex(LabTimeout, "no reply within 3 s"):
                lab.advance("A", 1_000_000, 10, wait)
            lab.timeout = LONG
            reached = lab.advance("A", 0)
            self.assertEqual(lab.advance("A", reached + 10), reached + 10)

    def test_a_call_that_is_cancelled(self) -> None:
        """Cancel a call from another thread, during a command and between two: it raises `LabCancelled`, and the lab goes on."""
        pieces: list[int] = []
        with RoadLab(ROAD, timeout=LONG) as lab:
            def wait(done: int, _: int) -> None:
                pieces.append(done)
                self.assertLess(len(pieces), 5, "the call was not cancelled")
                lab.cancel()
            with self.assertRaisesRegex(LabCancelled, "the call was cancelled: if the program has begun it"):
                lab.advance("A", 1_000_000, 10, wait)
            self.assertEqual(len(lab.cells("A", 0)), 40)
        with fake() as lab:
            threading.Timer(0.2, lab.cancel).start()
            begin = time.monotonic()
            with self.assertRaises(LabCancelled):
                lab.ask(echo("cancelled", late=2))
            self.assertLess(time.monotonic() - begin, 2)
            self.assertEqual(lab.ask(echo("next")), {"echo": "next"})

    def test_interrupts_of_close(self) -> None:
        """Interrupt `close` at rising times, and repeat it: no process and no thread stays, and the lab does not reply."""
        def interrupt(_: int, __: FrameType | None) -> None:
            raise Interrupt
        self.addCleanup(signal.signal, signal.SIGALRM, signal.signal(signal.SIGALRM, interrupt))
        self.addCleanup(signal.setitimer, signal.ITIMER_REAL, 0)
        before, interrupted = list_threads(), 0
        for turn in range(60):
            lab = fake()
            pid = lab.ask(echo("", what="session"))["echo"]
            try:
                signal.setitimer(signal.ITIMER_REAL, 10 ** (-6 + turn % 30 / 10))
                lab.close()
                signal.setitimer(signal.ITIMER_REAL, 0)
            except Interrupt:
                interrupted += 1
                lab.close()
            self.check_refuses_all(lab, "this lab was closed")
            self.assertFalse(Path(f"/proc/{pid}").exists())
            self.assertEqual(list_threads() - before, set())
        self.assertGreater(interrupted, 5)

    def test_interrupts_of_a_constructor(self) -> None:
        """Interrupt constructors at rising times: no thread and no program stays."""
        def interrupt(_: int, __: FrameType | None) -> None:
            raise Interrupt
        self.addCleanup(signal.signal, signal.SIGALRM, signal.signal(signal.SIGALRM, interrupt))
        self.addCleanup(signal.setitimer, signal.ITIMER_REAL, 0)
        before, interrupted = list_threads(), 0
        for turn in range(300):
            try:
                signal.setitimer(signal.ITIMER_REAL, 10 ** (-5 + turn % 50 / 20))
                with fake() as lab:
                    signal.setitimer(signal.ITIMER_REAL, 0)
                    lab.ask(echo("right"))
            except Interrupt:
                interrupted += 1
        self.assertGreater(interrupted, 30)
        gc.collect()
        until = time.monotonic() + LONG
        while list_threads() - before and time.monotonic() < until:
            time.sleep(0.01)
        self.assertEqual(list_threads() - before, set())

    def test_a_program_that_ends(self) -> None:
        with fake() as lab:
            with self.assertRaisesRegex(Ended, "status 3: out of memory") as raised:
                lab.ask(echo("", what="exit"))
            self.assertEqual((raised.exception.status, raised.exception.said), (3, "no more"))
            self.check_refuses_all(lab, "the program ended with status 3")

    def test_a_program_that_is_killed(self) -> None:
        with fake() as lab:
            pid = lab.ask(echo("", what="session"))["echo"]
            threading.Timer(0.05, os.kill, (pid, signal.SIGKILL)).start()
            with self.assertRaisesRegex(Ended, "status -9"):
                lab.ask(echo("", late=LONG))
            self.check_refuses_all(lab, "the program ended with status -9")

    def test_output_without_a_request(self) -> None:
        with fake() as lab:
            lab.ask(echo("one", what="twice"))
            time.sleep(0.1)
            self.check_refuses_all(lab, "the program wrote something without a request: b'{\"echo\": \"one\"}")

    def test_output_that_is_not_a_reply(self) -> None:
        with fake() as lab:
            with self.assertRaisesRegex(LabBroken, "wrote something that is not a reply: b'Segmentation fault'"):
                lab.ask(echo("", what="noise"))
            self.check_refuses_all(lab, "something that is not a reply")

    def test_a_closed_lab(self) -> None:
        before = list_threads()
        lab = fake()
        with lab:
            pass
        lab.close()
        self.check_refuses_all(lab, "this lab was closed")
        self.assertEqual(list_threads() - before, set())  # (a thread of an earlier test may end meanwhile)

    def test_a_lab_that_is_closed_during_a_call(self) -> None:
        lab = fake()
        threading.Timer(0.05, lab.close).start()
        begin = time.monotonic()
        with self.assertRaisesRegex(LabBroken, "this lab was closed"):
            lab.ask(echo("", late=LONG))
        self.assertLess(time.monotonic() - begin, LONG / 2)

    def test_a_lab_without_references(self) -> None:
        lab = fake()
        pid = lab.ask(echo("", what="session"))["echo"]
        del lab
        gc.collect()
        until = time.monotonic() + LONG
        while Path(f"/proc/{pid}").exists() and time.monotonic() < until:
            time.sleep(0.01)
        self.assertFalse(Path(f"/proc/{pid}").exists())

    def test_no_program(self) -> None:
        with self.assertRaisesRegex(NoProgram, "no program at /nowhere/road_lab"):
            RoadLab(ROAD, "/nowhere/road_lab")

    def test_a_program_that_cannot_be_started(self) -> None:
        """Start a file that is not a program, a folder, and a program while no file can be opened: the errors name the file."""
        with tempfile.TemporaryDirectory() as folder:
            path = Path(folder, "wrong")
            path.write_text("echo '{}'\n", encoding="utf-8")
            path.chmod(0o755)
            with self.assertRaisesRegex(LabBroken, f"{path} could not be started: Exec format error"):
                RoadLab(ROAD, path)
            with self.assertRaisesRegex(NoProgram, f"no program at {folder}"):
                RoadLab(ROAD, folder)
        code = ("import resource; from zegdrut import LabError, RoadLab\nopen_now = len(__import__('os').listdir('/proc/self/fd'))\n"
                "resource.setrlimit(resource.RLIMIT_NOFILE, (open_now, open_now))\n"
                f"try: RoadLab({PLAN!r}, {str(FAKE)!r})\nexcept LabError as fault: print(fault)")
        ran = subprocess.run([sys.executable, "-c", code], capture_output=True, text=True, check=False,
                             env={**os.environ, "PYTHONPATH": os.pathsep.join(sys.path)})
        self.assertEqual((ran.stdout, ran.stderr), (f"{FAKE} could not be started: Too many open files: start a new one\n", ""))

    def test_a_plan_that_is_refused(self) -> None:
        before = list_threads()
        with self.assertRaisesRegex(Refused, "^Length: a road must have 8 to 8,192 cells"):
            RoadLab(Plan(length=4, inlets=[(0, 1)], zones=[(5, 0)]))
        self.assertEqual(list_threads() - before, set())  # (a thread of an earlier test may end meanwhile)

    def test_errors_can_be_pickled(self) -> None:
        for fault in (Refused("Step", "too late", "{}"), Ended(3, "no"), LabBroken("closed"), NoProgram("/x")):
            again = pickle.loads(pickle.dumps(fault))
            self.assertEqual((type(again), str(again)), (type(fault), str(fault)))
            self.assertIsInstance(again, LabError)

    def test_a_lab_cannot_be_pickled(self) -> None:
        with fake() as lab, self.assertRaisesRegex(TypeError, "send the plan"):
            pickle.dumps(lab)


class Sharing(unittest.TestCase):
    def test_threads(self) -> None:
        """Ask one lab from eight threads: each gets its own replies."""
        with RoadLab(ROAD, timeout=LONG) as lab:
            lab.advance("A", 400)
            rows, wrong = lab.diagram("A", 0, 400), list[int]()

            def ask(first: int) -> None:
                wrong.extend(step for step in range(first, 401, 8) if lab.cells("A", step) != rows[step])
            threads = [threading.Thread(target=ask, args=(first,)) for first in range(8)]
            for thread in threads:
                thread.start()
            for thread in threads:
                thread.join()
            self.assertEqual(wrong, [])

    def test_a_forked_process(self) -> None:
        """Use a lab in a forked process: it is refused, and closing it there does not end the program."""
        with fake() as lab:
            child = os.fork()
            if not child:
                try:
                    lab.ask(echo("child"))
                except LabBroken as fault:
                    lab.close()
                    os._exit(0 if "belongs to the process that started it" in str(fault) else 1)
                os._exit(2)
            self.assertEqual(os.waitpid(child, 0)[1], 0)
            self.assertEqual(lab.ask(echo("parent")), {"echo": "parent"})

    def test_a_process_that_dies_leaves_no_program(self) -> None:
        """End Python in several ways during a long call: its program ends at once, too."""
        for end in ("os.kill(os.getpid(), signal.SIGKILL)", "os.kill(os.getpid(), signal.SIGTERM)", "os._exit(3)", "sys.exit(3)"):
            code = ("import os, signal, sys, threading; from zegdrut import RoadLab\n"
                    f"lab = RoadLab({PLAN!r}, {str(FAKE)!r})\n"
                    "print(lab.ask({'echo': {'text': '', 'what': 'session'}})['echo'], flush=True)\n"
                    f"threading.Thread(target=lab.ask, args=({{'echo': {{'text': '', 'late': {LONG}}}}},), daemon=True).start()\n"
                    f"threading.Event().wait(0.3)\n{end}")
            begin = time.monotonic()
            ran = subprocess.run([sys.executable, "-c", code], stdout=subprocess.PIPE, text=True, check=False, stderr=subprocess.DEVNULL,
                                 env={**os.environ, "PYTHONPATH": os.pathsep.join(sys.path)})
            program = Path(f"/proc/{ran.stdout.strip()}/cmdline")
            while program.exists() and program.read_bytes() and time.monotonic() < begin + LONG / 2:
                time.sleep(0.01)
            self.assertLess(time.monotonic() - begin, LONG / 2, end)

    def test_labs_of_threads_that_end(self) -> None:
        """Start labs in a thread and in an executor that end: the programs go on, because a thread of their own waits for them."""
        labs: list[RoadLab] = []
        thread = threading.Thread(target=lambda: labs.append(fake()))
        thread.start()
        thread.join()
        with ThreadPoolExecutor(2) as pool:
            labs += [one.result() for one in [pool.submit(fake) for _ in range(3)]]
        time.sleep(0.3)
        for number, lab in enumerate(labs):
            with lab:
                self.assertEqual(lab.ask(echo(number)), {"echo": number})


if __name__ == "__main__":
    unittest.main()
