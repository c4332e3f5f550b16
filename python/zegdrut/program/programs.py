"""Find the program: the one at ROAD_LAB, or the proved one of this repository, or the unproved one.

    path = program_path()                  prints a note once on standard error if there is one
    note = describe_standing(path)         the note; None for a proved program of the present source text

The file PATH.made next to a program records its source text. `tools/prove-program` and `tools/try-program` write it.
"""
from __future__ import annotations

import contextlib
import contextvars
import functools
import hashlib
import json
import math
import os
import shutil
import sys
import time
from dataclasses import asdict, dataclass
from pathlib import Path
from typing import Iterator

from ..base.errors import LabError

ROOT = Path(__file__).resolve().parents[3]
CRATES = ROOT / "crates"
PROVED = CRATES / "road_lab" / "out" / "road_lab"
UNPROVED = PROVED.with_name("road_lab_unproved")
_USED: contextvars.ContextVar[Path | str | None] = contextvars.ContextVar("program", default=None)
_EXPECTED: contextvars.ContextVar[str | None] = contextvars.ContextVar("expected", default=None)
_UNTIL = contextvars.ContextVar("until", default=math.inf)
PARTS = ("src", "specs", "proofs")
"""The folders of a crate that determine the program."""


class NoProgram(LabError):
    """There is no program at the path."""

    def __init__(self, path: Path | str) -> None:
        where = f"no program at {path}" if is_repository() or Path(path) != PROVED else "no program"  # (that path is one of a repository)
        super().__init__(f"{where}: in the repository, `tools/try-program` makes an unproved one in about three minutes, and "
                         "`tools/prove-program` a proved one; elsewhere, set ROAD_LAB to its path")
        self.path = path

    def __reduce__(self) -> tuple[type[NoProgram], tuple[Path | str]]:
        return type(self), (self.path,)


class NotProved(NoProgram):
    """A proved program is needed, and there is none."""

    def __init__(self, path: Path | str) -> None:
        super().__init__(path)
        self.args = (f"no proved program at {path}: `tools/prove-program` proves and builds it",)


class OtherProgram(NoProgram):
    """The program at the path is not the one that the caller has."""

    def __init__(self, path: Path | str) -> None:
        super().__init__(path)
        self.args = (f"the program at {path} is missing, or differs from the caller's: set ROAD_LAB there to the path of the same program, or "
                     "send it with ship=True (--ship)",)


@dataclass(frozen=True)
class Made:
    """The record of how a program was made.

    text: the SHA-256 of its source text.
    program: the SHA-256 of the program itself.
    proved: whether it is proved.
    checks: whether it contains the compiler's run-time checks.
    kit: the line that names the kit, or None in a record that does not have it.
    """

    text: str
    program: str
    proved: bool
    checks: bool
    kit: str | None = None


def list_crates(name: str) -> dict[str, list[str]]:
    """Return a crate and its dependencies in this repository, each with its own dependencies, as crates.txt lists them."""
    lines = (ROOT / "crates.txt").read_text(encoding="utf-8").splitlines()
    split = [line.partition(":") for line in lines if ":" in line and not line.startswith("#")]
    dependencies = {head.split()[0]: names.split() for head, _, names in split}
    found = [name]
    for one in found:
        found += [below for below in dependencies[one] if below in dependencies and below not in found]
    return {one: dependencies[one] for one in sorted(found)}


def list_files(crate: str) -> list[Path]:
    """Return the files of a crate that determine the program, sorted by path."""
    return sorted(path for part in PARTS for path in (CRATES / crate / part).rglob("*") if path.is_file())


def sum_text(program: str = "road_lab") -> str:
    """Return the SHA-256 of a program's source text: names and bytes of all files of its crates that determine it, and their
    dependencies."""
    total = hashlib.sha256()
    for name, below in list_crates(program).items():
        total.update(f"{name}: {' '.join(below)}\n".encode())
        for path in list_files(name):
            text = path.read_bytes()
            total.update(f"{path.relative_to(CRATES)} {len(text)}\n".encode() + text)
    return total.hexdigest()


def sum_file(path: Path) -> str:
    """Return the SHA-256 of a file."""
    return hashlib.sha256(path.read_bytes()).hexdigest()


def write_record(path: Path, text: str, proved: bool, checks: bool, kit: str | None = None) -> None:
    """Write the record next to a program: the SHA-256 of its source text, whether it is proved and has checks, and its kit."""
    made = Made(text, sum_file(path), proved, checks, kit)
    path.with_name(path.name + ".made").write_text(json.dumps(asdict(made)) + "\n", encoding="utf-8")


def read_record(path: Path) -> Made | None:
    """Return the record of a program, or None if it is missing or describes an earlier program at this path."""
    try:
        made = Made(**json.loads(path.with_name(path.name + ".made").read_text(encoding="utf-8")))
        return made if made.program == sum_file(path) else None
    except (OSError, ValueError, TypeError):
        return None


def describe_program(path: Path | str | None = None) -> str:
    """Return a line that distinguishes programs: the SHA-256 of the source text, whether it is proved, and the kit. Without a record it
    has the SHA-256 of the file; without a program it is "none". By default the program is the one that `find_program` finds."""
    path = Path(path or find_program())
    if not path.is_file():
        return "none"
    made = read_record(path)
    if made is None:
        return f"file {sum_file(path)}"
    return f"text {made.text}, {'proved' if made.proved else 'not proved'}" + (f", {made.kit}" if made.kit else "")


def describe_standing(path: Path | str) -> str | None:
    """Return a note if a program is not proved, or was made from a different source text than the present one.

    None: it is proved and made from the present text of the crates, or it is from elsewhere and has no record.
    """
    path = Path(path).absolute()
    made, proves = read_record(path), "`tools/prove-program` makes a proved one"
    if made is None:
        return f"{path.name} has no record of its source text: {proves}" if path in (PROVED, UNPROVED) else None
    if is_repository() and made.text != sum_text():
        how = "proved" if made.proved else "not proved"
        return (f"{path.name} is {how}, and was made from an earlier source text: `tools/try-program` makes a new one, {proves}")
    if made.proved:
        return None
    if made.checks:
        return f"{path.name} is not proved: it is tested, and about ten times slower because of its run-time checks; {proves}"
    return f"{path.name} is not proved itself, but was made from a source text that has been proved: {proves}"


def is_repository() -> bool:
    """Return whether this package is in the repository, which has the crates."""
    return (ROOT / "crates.txt").exists()


def find_proved() -> Path:
    """Return the program at ROAD_LAB, or the proved one of this repository. NotProved: it does not exist or is not proved."""
    path = Path(os.environ.get("ROAD_LAB") or PROVED)
    made = read_record(path)
    if not os.access(path, os.X_OK) or made and not made.proved:
        raise NotProved(path)
    return path


def require_proved(path: str | None) -> None:
    """Set ROAD_LAB to a path, or to the proved program, for measurements. Exit with a message if there is no proved program."""
    try:
        os.environ["ROAD_LAB"] = os.path.abspath(path or find_proved())
    except NotProved as fault:
        sys.exit(str(fault))


def program_path() -> Path:
    """Return the path of the program, and print the note about it once on standard error.

    This is ROAD_LAB if it is set. Otherwise it is the proved program of this repository, or the unproved one if there is no
    proved one or only the unproved one is up to date. Outside the repository it is `road_lab` on the PATH, or the one whose path
    `./start` or `tools/prove-program` has written into the user's data folder. If there is no program at all, it is the path that the
    proved one would have.
    """
    path, expected = find_program(), _EXPECTED.get()
    if expected is not None and describe_once(path, path.stat().st_mtime_ns if path.exists() else 0) != expected:
        raise OtherProgram(path)
    if path.exists():
        print_standing_once(path)
    return path


@functools.cache
def describe_once(path: Path, _: int) -> str:
    """Return what `describe_program` says. (The time is a part of the cache key.)"""
    return describe_program(path)


def find_program() -> Path:
    """Return the path of the program, as `program_path` does, without a note. In `using_program` it is the one given there."""
    given = _USED.get() or os.environ.get("ROAD_LAB")
    return Path(given) if given else choose_program()


@contextlib.contextmanager
def using_program(path: Path | str | None, timeout: float | None = None, expected: str | None = None) -> Iterator[None]:
    """Let labs that are opened in this block use a program, unless they name one, and end their calls after `timeout` seconds in all.

    expected: the description of the program, by `describe_program`. If it differs, these labs raise `OtherProgram`.
    """
    used, until = _USED.set(path or _USED.get()), _UNTIL.set(math.inf if timeout is None else time.monotonic() + timeout)
    awaited = _EXPECTED.set(expected)
    try:
        yield
    finally:
        _USED.reset(used)
        _UNTIL.reset(until)
        _EXPECTED.reset(awaited)


def read_copy(path: Path) -> tuple[bytes, str | None]:
    """Return a program and the text of its record, to write a copy elsewhere. NoProgram: it does not exist."""
    record = path.with_name(path.name + ".made")
    try:
        return path.read_bytes(), record.read_text(encoding="utf-8") if record.exists() else None
    except OSError:
        raise NoProgram(path) from None


def write_copy(path: Path, data: bytes, record: str | None) -> Path:
    """Write a copy of a program with its record. Return its path."""
    path.write_bytes(data)
    path.chmod(0o755)
    if record is not None:
        path.with_name(path.name + ".made").write_text(record, encoding="utf-8")
    return path


def seconds_left() -> float:
    """Return the seconds that are left in the block of `using_program`, or infinity."""
    return _UNTIL.get() - time.monotonic()


def choose_program() -> Path:
    """Return the program to run if ROAD_LAB is not set."""
    if PROVED.exists() and UNPROVED.exists():
        return UNPROVED if is_stale(PROVED, PROVED.stat().st_mtime_ns) and not is_stale(UNPROVED, UNPROVED.stat().st_mtime_ns) else PROVED
    if UNPROVED.exists():
        return UNPROVED
    return PROVED if PROVED.exists() or is_repository() else Path(shutil.which("road_lab") or read_noted_path() or PROVED)


def noted_path() -> Path:
    """Return the file in the user's data folder that has the path of a program, for packages outside the repository."""
    return Path(os.environ.get("XDG_DATA_HOME") or Path.home() / ".local" / "share") / "zegdrut" / "program"


def note_path(path: Path) -> None:
    """Write the path of a program into the user's data folder, if it can be written."""
    with contextlib.suppress(OSError):
        noted_path().parent.mkdir(parents=True, exist_ok=True)
        noted_path().write_text(f"{path.absolute()}\n", encoding="utf-8")


def read_noted_path() -> Path | None:
    """Return the path in the user's data folder, or None if nothing is noted there or its program has gone."""
    try:
        path = Path(noted_path().read_text(encoding="utf-8").strip())
    except (OSError, RuntimeError):
        return None
    return path if path.is_file() else None


@functools.cache
def is_stale(path: Path, _: int) -> bool:
    """Return whether a program is known to be made from an earlier source text. (The time is a part of the cache key.)"""
    made = read_record(path)
    return made is not None and made.text != sum_text()


@functools.cache
def print_standing_once(path: Path) -> None:
    """Print the note about a program on standard error, once for this process and its children."""
    if os.environ.get("ROAD_LAB_NOTED") != str(path):
        os.environ["ROAD_LAB_NOTED"] = str(path)
        said = describe_standing(path)
        if said:
            print(said, file=sys.stderr, flush=True)


def main() -> int:
    """Print the path of the program, for shell scripts. Return the exit status: 2 if there is no program."""
    path = program_path()
    if not os.access(path, os.X_OK):
        print(NoProgram(path), file=sys.stderr)
        return 2
    print(path.resolve())
    return 0
