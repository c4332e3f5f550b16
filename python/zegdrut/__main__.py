"""Run a command of this package: `python3 -m zegdrut COMMAND --help` describes it.

    explain    explain each refused line of a script, and warn of probable mistakes
    freeway    simulate a freeway that is described in km, minutes, km/h and cars per hour
    inflow     measure the inflow chances for given demands
    delay      measure what a change costs, on one day or over many
    sweep      run a model over many parameters and seeds, on all processors
    measured   compare a road with measured counts: GEH, speeds, pictures
    calibrate  fit drivers and demand to measured counts
    metering   meter an on-ramp in a closed loop
    report     write a report of a freeway, before and after, as one page to print
    program    print the path of the program, and whether it is proved and up to date
"""
from __future__ import annotations

import importlib
import os
import signal
import sys
from typing import Callable, Sequence

from .program.programs import main as show_program

COMMANDS = ("explain", "freeway", "inflow", "delay", "sweep", "measured", "calibrate", "metering", "report")
INTERRUPTED = 130


def main(words: Sequence[str] | None = None) -> int:
    """Run the command that the arguments name. Return its exit status."""
    command, *rest = (sys.argv[1:] if words is None else list(words)) or ["--help"]
    return run(lambda: choose(command, rest))


def choose(command: str, rest: list[str]) -> int:
    """Run a command with its arguments. Return its exit status."""
    if command == "program":
        return show_program()
    if command in COMMANDS:
        return int(importlib.import_module(f"zegdrut.commands.{command}").main(rest))
    if command in ("-h", "--help"):
        print((__doc__ or "").strip())
        return 0
    print(f"unknown command {command!r}: the commands are {' '.join((*COMMANDS, 'program'))}", file=sys.stderr)
    return 2


def run(command: Callable[[], int]) -> int:
    """Run a command. Return its exit status, also after Ctrl-C or if the reader of its output has gone."""
    signal.signal(signal.SIGINT, signal.default_int_handler)
    try:
        try:
            return command()
        finally:  # (also after `--help`, which ends by an exception)
            sys.stdout.flush()
    except KeyboardInterrupt:
        print("interrupted", file=sys.stderr)
        return INTERRUPTED
    except BrokenPipeError:
        os.dup2(os.open(os.devnull, os.O_WRONLY), sys.stdout.fileno())
        return 1


if __name__ == "__main__":
    sys.exit(main())
