"""The programs that this repository builds: where each of them is, and what source text it was made from.

A program has the name of its crate. The proved one is crates/NAME/out/NAME, the unproved one is NAME_unproved in the same folder.
"""
from __future__ import annotations

import os
import subprocess
import sys
from pathlib import Path

TOP = Path(__file__).resolve().parent.parent
sys.path.insert(0, str(TOP / "python"))
from zegdrut.program import programs  # noqa: E402  (the only import of the package by these tools)

LABORATORY, WITHIN, CALLS = "road_lab", "tests_within", "tests_failures"
PROGRAMS = (LABORATORY, WITHIN, CALLS)


def crate_of(name: str) -> Path:
    """Return the folder of a program's crate."""
    return programs.CRATES / name


def proved_path(name: str) -> Path:
    """Return where the proved program is, or would be."""
    return crate_of(name) / "out" / name


def unproved_path(name: str) -> Path:
    """Return where the unproved program is, or would be."""
    return crate_of(name) / "out" / f"{name}_unproved"


def text_of(name: str) -> str:
    """Return the checksum of a program's present source text."""
    return programs.sum_text(name)


def write_record(path: Path, text: str, proved: bool, checks: bool) -> None:
    """Write a record next to a program: the checksum of the text that it was made from, and how and with which kit it was made."""
    try:
        kit = kit_name()
    except (OSError, subprocess.CalledProcessError):
        kit = None
    programs.write_record(path, text, proved, checks, kit)


def note_path(path: Path) -> None:
    """Note the path of a program for packages that are installed outside the repository."""
    programs.note_path(path)


def current_path(name: str, with_checks: bool = True) -> Path | None:
    """Return a program that was made from the present source text, the proved one if there are two, or None if it was never made.

    A proved laboratory without a record was built by hand, and counts as present. If `with_checks` is False, a program with the
    compiler's checks does not count.
    """
    text = text_of(name)
    for path in (proved_path(name), unproved_path(name)):
        made = programs.read_record(path) if os.access(path, os.X_OK) else None
        if made and made.text == text and (with_checks or not made.checks):
            return path
    by_hand = name == LABORATORY and os.access(proved_path(name), os.X_OK) and not has_record(proved_path(name))
    return proved_path(name) if by_hand else None


def has_record(path: Path) -> bool:
    """Return whether the record next to a program describes exactly this program."""
    return programs.read_record(path) is not None


def describe_standing(path: Path) -> str | None:
    """Return a sentence that warns users of an unproved or outdated laboratory, or None if it is proved from the present text."""
    return programs.describe_standing(path)


def find_unwritable(folder: Path) -> str | None:
    """Return a sentence that says why this user cannot write to a folder or create it, or None if that is possible."""
    nearest = folder.absolute()
    while not nearest.exists():
        nearest = nearest.parent
    if not nearest.is_dir():
        return f"{nearest} is not a folder."
    return None if os.access(nearest, os.W_OK | os.X_OK) else f"You may not write to {nearest}."


def kit_name() -> str:
    """Return the line that names the kit. Raises OSError or CalledProcessError if `rt` does not run."""
    return subprocess.run(["rt", "version"], capture_output=True, text=True, check=True).stdout.strip()
