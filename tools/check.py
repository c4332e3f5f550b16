#!/usr/bin/python3
"""Test everything that can be tested without a proof; with --proof, prove everything first, as the gate does.

    ./check                     every part
    ./check NAME ..             these parts; --list names all parts
    ./check --proof [NAME ..]   first `rt ci`, then the parts, with the proved programs

Parts run at the same time. For each part one line is printed: its name, its outcome and its seconds. The output of a part goes
to out/check/NAME.log, and is printed if the part fails. The last line is `N passed, M failed`, or `N passed, M failed, K skipped`.
The status is 1 if a part failed. If you are root, missing Debian packages of tools/packages.txt are installed; otherwise the command
to type is printed, and the parts that need them are left out. Ctrl-C ends everything.

With --proof nothing may be left out: if a package is missing, nothing is proved, and a part that prints a line `left out: ..` has
failed. So has one that prints BAD EDIT, as `rt ci` does for an edit that does not fit the code. `K skipped` counts the mutants that
are due, and the edits that a proof file alone refuses. Without --proof it counts the parts that were left out, and the lines
`left out: ..`. If all parts run, it also counts .ci/proved if that file does not name the present text of the program; a line before
the last one says so.

Only `mutants` needs a proof, and is left out without --proof. Missing programs are made without a proof; `refused-uses` and
`lost-worker` look for errors that are found without one. `failures` needs programs without the compiler's checks: if they are
not proved, and .ci/proved does not name their text, it is left out. If ROAD_LAB names a program, it is used in
place of the one in crates/road_lab.
"""
from __future__ import annotations

import os
import sys

sys.dont_write_bytecode = True
import processes  # noqa: E402  (this script's folder is on the path)

if __name__ == "__main__":
    processes.end_on_signals()

import argparse  # noqa: E402
import shutil
import subprocess
import time

import check_parts
import packages
from built_programs import LABORATORY, TOP, find_unwritable
from proved_texts import is_proved
from running_parts import Report, run_all

LOGS = TOP / "out" / "check"
TAKEN = {"python3": sys.executable, "node": "node", "chromium": "chromium", "rt": "rt"}  # commands whose versions decide what is tested


def read_options() -> argparse.Namespace:
    names = [part.name for part in check_parts.all_parts()]
    parser = argparse.ArgumentParser(prog="./check", description=__doc__, formatter_class=argparse.RawDescriptionHelpFormatter)
    parser.add_argument("names", nargs="*", metavar="NAME", help="a part")
    parser.add_argument("--proof", action="store_true", help="prove everything first, with the Rattle kit; docs/GATE.md says how long it takes")
    parser.add_argument("--list", action="store_true", help="list the parts, and what each of them tests")
    parser.add_argument("--processors", type=int, metavar="N", help="use N processors (default: all)")
    options = parser.parse_args()
    for name in options.names:
        if name not in names:
            parser.error(f"there is no part {name}: {' '.join(names)}")
    return options


def check(options: argparse.Namespace) -> int:
    """Run the parts, and return the status."""
    began, why = time.monotonic(), find_unwritable(LOGS)
    if why:
        print(f"./check: {why} Copy {TOP} to a folder of your own, and run it there.", file=sys.stderr)
        return 1
    for name, command in TAKEN.items():
        print(f"{name:<20} {describe_command(command)}", flush=True)
    parts = check_parts.choose(options.names, options.proof)
    missing = packages.provide({part.name for part in parts})
    if missing:
        print(f"Not installed: {' '.join(missing)}. To install them:\n    {packages.command_line(missing)}", flush=True)
    report = Report(LOGS, is_strict=options.proof)
    stale = None if options.names else describe_stale_record(options.proof)
    run_all(check_parts.with_programs(parts, options.proof), options.processors or processes.find_processors(), report)
    print(f"{(time.monotonic() - began) / 60:.1f} minutes")
    if stale:
        report.skip(stale)
    print(report.closing_line(), flush=True)
    return 0 if report.has_passed() else 1


def describe_command(command: str) -> str:
    """Return the path of a command and the line that names its version, or "none"."""
    path = shutil.which(command)
    if path is None:
        return "none"
    ran = subprocess.run([path, "version" if command == "rt" else "--version"], capture_output=True, text=True, check=False)
    return " ".join([path, *ran.stdout.strip().splitlines()[:1]])


def describe_stale_record(is_proved_now: bool) -> str | None:
    """Return a sentence with the cure if .ci/proved does not name the present text of the program, or None if it does or there is no
    kit."""
    kit = check_parts.find_kit()
    if kit is None or is_proved(LABORATORY, kit):
        return None
    cure = "if the part proof has passed, it names it now: commit it" if is_proved_now else "`tools/prove-program` proves it and writes it there; then commit the file"
    return f".ci/proved did not name the present text of {LABORATORY}: {cure}"


def main() -> int:
    options = read_options()
    if options.list:
        for part in check_parts.all_parts():
            print(f"{part.name:<14} {part.what}")
        return 0
    return check(options)


if __name__ == "__main__":
    sys.exit(main())
