"""Prepare folders and files for results, before anything is simulated, and write tables in CSV.

    prepare_folder(Path("out"))              # makes it, and tries a file in it
    write_csv(Path("out/speeds.csv"), "a road, 06:30 to 09:30", [["km", "km/h"], ["1.2", "54"]])
"""
from __future__ import annotations

import csv
import io
import tempfile
from pathlib import Path
from typing import Sequence

from ..base.errors import Fault
from ..roads.clock import Clock


def prepare_folder(folder: Path, option: str = "--out FOLDER") -> None:
    """Make a folder if it does not exist, and try a file in it. Fault: no file can be written there."""
    if folder.exists() and not folder.is_dir():
        raise Fault(f"{folder} is a file, not a folder: give another place by {option}")
    try:
        folder.mkdir(parents=True, exist_ok=True)
        with tempfile.NamedTemporaryFile(dir=folder, prefix=".try-"):
            pass
    except OSError as fault:
        raise Fault(f"no file can be written in {folder} ({fault.strerror}): give another place by {option}") from None


def prepare_file(path: Path, option: str = "--out FILE") -> None:
    """Make the folder of a file if it does not exist, and check that the file can be written. Fault: it cannot."""
    if path.is_dir():
        raise Fault(f"{path} is a folder, not a file: give another place by {option}")
    prepare_folder(path.parent, option)
    if path.exists():
        try:
            with open(path, "ab"):
                pass
        except OSError as fault:
            raise Fault(f"{path} cannot be written ({fault.strerror}): give another place by {option}") from None


def format_csv(rows: Sequence[Sequence[object]]) -> list[str]:
    """Return rows as the lines of a CSV file. Fields with commas are quoted."""
    text = io.StringIO()
    csv.writer(text, lineterminator="\n").writerows(rows)
    return text.getvalue().splitlines()


def write_lines(path: Path, lines: Sequence[str]) -> None:
    """Write lines as a file."""
    path.write_text("".join(f"{line}\n" for line in lines), encoding="utf-8")


def write_csv(path: Path, title: str, rows: Sequence[Sequence[object]]) -> list[str]:
    """Write rows as a CSV file. Its first line is the title. Return the lines."""
    lines = with_title(title, format_csv(rows))
    write_lines(path, lines)
    return lines


def with_title(title: str, lines: Sequence[str]) -> list[str]:
    """Return the lines of a table below its title."""
    return [f"# {title}", *lines]


def make_title(road: str, clock: Clock, steps: int) -> str:
    """Return the title of a table: the road, the window and the date."""
    return f"{road}, {clock.to_text(0)} to {clock.to_text(steps)}" + (f" on {clock.date}" if clock.date else "")


def format_window(clock: Clock, steps: int) -> str:
    """Return a window for the names of files: 0630-0930."""
    return f"{clock.to_file_text(0)}-{clock.to_file_text(steps)}"
