"""Run a script, explain each refused line, and warn of accepted lines that are probably mistakes.

    python3 -m zegdrut explain [--metres M] [--seconds S] SCRIPT

With the metres of a cell and the seconds of a step (such as 7.5 and 1), km and minutes are shown, too.
The program is the one at ROAD_LAB, or the one of this repository. Status 0: no line was refused (there may be warnings); 1: a line was
refused; 2: the program did not read the whole script, or there is no program or no script.
"""
from __future__ import annotations

import argparse
import json
import subprocess
import sys
from typing import Sequence

from ..base.errors import STATUSES
from ..base.units import Units
from ..program.lint import Linter
from ..program.programs import NoProgram, program_path
from ..program.refusal_reasons import Reasons

SHOWN = 100


def print_note(number: int, said: str, line: bytes) -> None:
    """Print a note on a line, and the line."""
    print(f"line {number}: {said}")
    print(f"    {line[:SHOWN].decode(errors='backslashreplace')}{'..' * (len(line) > SHOWN)}")


def explain(path: str, units: Units) -> int:
    """Explain the lines of a script. Return the exit status."""
    reasons, linter, number, refused = Reasons(units), Linter(units), 0, 0
    with open(path, "rb") as script, open(path, "rb") as lines:
        try:
            program = subprocess.Popen([program_path()], stdin=script, stdout=subprocess.PIPE,
                                       stderr=subprocess.DEVNULL)
        except (FileNotFoundError, PermissionError):
            raise NoProgram(program_path()) from None
        assert program.stdout is not None
        for number, text in enumerate(program.stdout, 1):
            line, reply = lines.readline().rstrip(b"\n"), json.loads(text)
            said = reasons.hear(line, reply)
            if said is not None:
                refused += 1
                print_note(number, f"{reply['refused']}: {said}", line)
            said = linter.check(line, reply)
            if said is not None:
                print_note(number, f"warning: {said}", line)
    print_warnings(path, linter.finish())
    status = program.wait()
    if status not in (0, 2):
        print(f"the program ended after line {number}: {STATUSES.get(status, f'status {status}')}")
        return 2
    return 1 if refused else 0


def print_warnings(path: str, warnings: dict[int, str]) -> None:
    """Print warnings, by line number, with their lines."""
    if warnings:
        with open(path, "rb") as lines:
            for number, line in enumerate(lines, 1):
                if number in warnings:
                    print_note(number, f"warning: {warnings[number]}", line.rstrip(b"\n"))


def read_positive(text: str) -> float:
    """Read a number above 0. ValueError: it is something else."""
    number = float(text)
    if not 0 < number < float("inf"):
        raise ValueError
    return number


def main(words: Sequence[str] | None = None) -> int:
    """Explain a script. Return the exit status."""
    parser = argparse.ArgumentParser("zegdrut explain", description=__doc__, formatter_class=argparse.RawDescriptionHelpFormatter)
    parser.add_argument("--metres", type=read_positive)
    parser.add_argument("--seconds", type=read_positive)
    parser.add_argument("script", metavar="SCRIPT")
    given = parser.parse_args(words)
    try:
        return explain(given.script, Units(given.metres, given.seconds))
    except (NoProgram, OSError) as fault:
        print(fault, file=sys.stderr)
        return 2

