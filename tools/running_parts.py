"""Run the parts of ./check at the same time, and report the outcome of each part."""
from __future__ import annotations

import os
import re
import shutil
import signal
import subprocess
import sys
import time
from collections import Counter
from dataclasses import dataclass, field
from pathlib import Path
from typing import Sequence

import processes
from built_programs import TOP
from check_parts import Part

LOOK = 0.2  # seconds between two looks at the parts that run
LONGEST = 3_600  # seconds that a part may run without printing anything
PASSED, FAILED, LEFT_OUT = "ok", "FAILED", "left out"
SAYS_LEFT_OUT = "left out: "  # a test begins a line with this if the test itself leaves something out
SAYS_BAD_EDIT = ": BAD EDIT: "  # rt says this of an edit that cannot be applied or compiled; `rt ci` then passes
# rt says this of an edit that is refused because an answer of a proof file names what the edit removed: that shows nothing
SAYS_BY_ANSWER = re.compile(r": refused, as it must be(?: \(only because a proof file names|: \S+ error: \d+ declarations? that depend on )")
DUE = re.compile(r"(\d+) mutants are due\b")  # the last line of tools/try-mutants


@dataclass
class Run:
    """A part that is running."""

    part: Part
    log: Path
    process: subprocess.Popen[bytes]
    processors: int
    began: float = field(default_factory=time.monotonic)
    shown: int = 0
    size: int = 0
    printed: float = field(default_factory=time.monotonic)

    def seconds(self) -> float:
        return time.monotonic() - self.began

    def is_stuck(self) -> bool:
        """Return whether the part has printed nothing for too long. The proof may print nothing while it proves one crate."""
        size = self.log.stat().st_size
        if size != self.size:
            self.size, self.printed = size, time.monotonic()
        return not self.part.is_shown and time.monotonic() - self.printed > LONGEST

    def show_new_lines(self) -> None:
        """Print what was added to the log since the last call."""
        with open(self.log, "rb") as log:
            log.seek(self.shown)
            new = log.read()
        self.shown += len(new)
        sys.stdout.write(new.decode(errors="replace"))
        sys.stdout.flush()


class Report:
    """Prints one line for each part, and counts the outcomes. If it is strict, a part fails if it is left out or leaves something out."""

    def __init__(self, folder: Path, is_strict: bool) -> None:
        self.folder, self.is_strict, self.outcomes = folder, is_strict, dict[str, str]()
        self.skipped = 0  # what parts that passed have left out, mutants that are due, and what `skip` has counted
        shutil.rmtree(folder, ignore_errors=True)
        folder.mkdir(parents=True)
        self._width, self._counts = 0, sys.stdout.isatty()

    def add(self, part: Part, outcome: str, seconds: float = 0.0, why: str = "") -> None:
        """Record the outcome of a part, and print its line."""
        self.clear()
        self.outcomes[part.name] = outcome
        time_taken = f"{seconds:5.0f} s" if outcome != LEFT_OUT else ""
        print(f"{part.name:<20} {outcome:<9}{time_taken}{why and ' ' + why}", flush=True)

    def add_ended(self, part: Part, seconds: float, output: str) -> None:
        """Record a part that ended with status 0: its output decides whether it has passed. Print the lines that say so."""
        lines = output.splitlines()
        bad, left_out = [line for line in lines if SAYS_BAD_EDIT in line], [line for line in lines if line.startswith(SAYS_LEFT_OUT)]
        answered = [line for line in lines if SAYS_BY_ANSWER.search(line)]
        due = [match for match in map(DUE.match, lines) if match]
        has_failed = bad or self.is_strict and left_out
        self.add(part, FAILED if has_failed else PASSED, seconds)
        self.skipped += sum(int(match[1]) for match in due) + len(answered) + (0 if self.is_strict else len(left_out))
        for line in (*bad, *answered, *left_out, *(match.string for match in due)):
            print(f"{'':<20} {line}", flush=True)

    def skip(self, why: str) -> None:
        """Count something that was left undone outside of the parts, and print why."""
        self.skipped += 1
        print(why, flush=True)

    def show_running(self, runs: Sequence[Run]) -> None:
        """Print on a terminal which parts are running, in a line that the next line replaces."""
        if self._counts and runs:
            text = "running: " + ", ".join(f"{run.part.name} {run.seconds():.0f} s" for run in runs)
            text = text[:shutil.get_terminal_size().columns - 1]
            print("\r" + text.ljust(self._width), end="", flush=True)
            self._width = len(text)

    def clear(self) -> None:
        if self._counts and self._width:
            print("\r" + " " * self._width + "\r", end="")
            self._width = 0

    def has_passed(self) -> bool:
        counts = Counter(self.outcomes.values())
        return not counts[FAILED] and not (self.is_strict and counts[LEFT_OUT])

    def closing_line(self) -> str:
        """Return the line that says how many parts passed and failed, and how much was skipped; CI reads it."""
        counts = Counter(self.outcomes.values())
        failed = counts[FAILED] + counts[LEFT_OUT] * self.is_strict
        skipped = self.skipped + counts[LEFT_OUT] * (not self.is_strict)
        return f"{counts[PASSED]} passed, {failed} failed" + (f", {skipped} skipped" if skipped else "")


def run_all(parts: Sequence[Part], processors: int, report: Report) -> None:
    """Run parts, as many at a time as `processors` allows, and report each. If an exception is raised here, all parts end first."""
    waiting, running = list(parts), list[Run]()
    try:
        while waiting or running:
            for run in [run for run in running if run.process.poll() is not None or run.is_stuck()]:
                running.remove(run)
                finish(run, report)
            waiting = [part for part in waiting if not settle(part, running, processors, report)]
            for run in running:
                if run.part.is_shown:
                    run.show_new_lines()
            report.show_running(running)
            time.sleep(LOOK)
    finally:
        report.clear()
        end_all(running)


def settle(part: Part, running: list[Run], processors: int, report: Report) -> bool:
    """Start a part if it can start now, or leave it out if it can never start. Return whether the part was started or left out."""
    if part.left_out:
        report.add(part, LEFT_OUT, why=part.left_out)
        return True
    failed = [name for name in part.before if report.outcomes.get(name, PASSED) != PASSED]
    if failed:
        report.add(part, LEFT_OUT, why=f"since {failed[0]} has not passed")
        return True
    needed = min(part.processors, processors)
    may_start = all(name in report.outcomes for name in part.before)
    if may_start and sum(run.processors for run in running) + needed <= processors:
        running.append(begin(part, needed, report.folder))
        return True
    return False


def begin(part: Part, processors: int, folder: Path) -> Run:
    """Start a part."""
    log = folder / f"{part.name.replace(' ', '-')}.log"
    variables = {**os.environ, **dict(part.environment), "processors": str(processors)}
    with open(log, "wb") as output:
        process = processes.start(["bash", "-euc", "\n".join(part.lines)], cwd=TOP, env=variables, stdin=subprocess.DEVNULL,
                                  stdout=output, stderr=output)
    return Run(part, log, process, processors)


def finish(run: Run, report: Report) -> None:
    """Report a part that has ended. End and report a part that is stuck."""
    is_stuck = run.process.poll() is None
    processes.end(run.process)
    if run.part.is_shown:
        run.show_new_lines()
    output = run.log.read_text(encoding="utf-8", errors="replace")
    if not is_stuck and run.process.returncode == 0:
        return report.add_ended(run.part, run.seconds(), output)
    report.add(run.part, FAILED, run.seconds(), f"no output for {LONGEST} s" if is_stuck else f"status {run.process.returncode}")
    if not run.part.is_shown:
        print(f"{output.rstrip()}\n({run.log})", flush=True)


def end_all(running: Sequence[Run]) -> None:
    """Send all parts the signal to end, then wait for each of them."""
    for run in running:
        processes.send_signal(run.process, signal.SIGINT)
    for run in running:
        processes.wait_for_end(run.process)
