"""Write a table of results in CSV row by row, so that it survives a crash.

Each row is one write at the end of the file, within one memory page, so that a reader sees the whole row or nothing. If the rest of a
page is too short for a row, it is filled with empty lines, which disappear when the sweep ends. A row that a crash cut off is
ignored, and its run is repeated.
"""
from __future__ import annotations

import contextlib
import csv
import errno
import fcntl
import io
import json
import os
from pathlib import Path
from typing import Callable, Dict, Iterable, List, Mapping, NamedTuple, Sequence, Union

from ..base.errors import Fault, LabError

PAGE = 4_096
"""The size of a memory page in bytes. What is written within one page appears to a reader at once."""
Numbers = Union[List[float], List["Numbers"]]
"""Numbers in lists, and lists of them for each further axis."""


class Series(NamedTuple):
    """A figure that is an array of numbers, such as a profile along the road, with a name for each axis."""

    values: Numbers
    axes: tuple[str, ...]

    def shape(self) -> tuple[int, ...]:
        """Return the length of each axis. Fault: the values are not an array."""
        return find_shape(self.values)


Value = Union[int, float, str, None, Series]
"""A value of a table."""


class Row(Dict[str, Value]):
    """A row of a table. The names of columns are also identifiers: `row["flow_half"]` is `row["flow ±"]`."""

    def __missing__(self, name: str) -> Value:
        found = next((column for column in self if make_identifier(column) == name), None)
        if found is None:
            raise KeyError(name)
        return self[found]


class Column(NamedTuple):
    """A column of a table: "number", "text", "mixed" or "series", the axes of a series, and the unit."""

    kind: str
    axes: tuple[str, ...] = ()
    unit: str = ""


def make_identifier(name: str) -> str:
    """Return the name of a column as an identifier: `flow_half` for `flow ±`."""
    found = "_".join("".join(one if one.isalnum() else " " for one in name.replace("±", " half")).split())
    return found if found.isidentifier() else f"_{found}"


def find_shape(values: object) -> tuple[int, ...]:
    """Return the lengths of nested lists of numbers. Fault: they differ, or something else is in them."""
    if isinstance(values, list):
        shapes = {find_shape(one) for one in values}
        if len(shapes) > 1:
            raise Fault("the lists of a series differ in length")
        return (len(values), *(shapes.pop() if shapes else ()))
    if isinstance(values, bool) or not isinstance(values, (int, float)):
        raise Fault(f"{values!r} in a series is not a number")
    return ()


def to_plain(value: object) -> Value:
    """Convert a value, such as numpy's, to Python's own type. Lists and arrays become a `Series`, whose axes are called `axis_0` and so on.

    TypeError: it is not a number, a string of one line, a list of numbers, or None.
    """
    axes = value.axes if isinstance(value, Series) else None
    value = value.values if isinstance(value, Series) else value
    if hasattr(value, "tolist"):
        value = value.tolist()
    if isinstance(value, (list, tuple)):
        try:
            numbers = json.loads(json.dumps(value, default=lambda one: one.tolist()))
            shape = find_shape(numbers)
        except (Fault, TypeError, ValueError, AttributeError):
            raise TypeError(f"{value!r} must be a list of numbers") from None
        names = axes or tuple(f"axis_{number}" for number in range(len(shape)))
        if len(names) != len(shape):
            raise TypeError(f"a series with the axes {' '.join(names)} must have {len(names)} dimensions, not {len(shape)}")
        return Series(numbers, tuple(names))
    if isinstance(value, bool) or not (value is None or isinstance(value, (int, float, str))):
        raise TypeError(f"{value!r} must be a number, a string, a list of numbers, or None")
    if isinstance(value, str) and ("\n" in value or "\r" in value or not value):
        raise TypeError(f"{value!r} must be a string of one line" if value else "an empty string cannot be told from None: return None")
    return value


def find_kind(value: Value) -> Column | None:
    """Return the column that a value needs; None fits into any."""
    if isinstance(value, Series):
        return Column("series", value.axes)
    return None if value is None else Column("text" if isinstance(value, str) else "number")


def format_cell(value: object) -> str:
    """Return a value as text for the table: numbers without loss, None as an empty string, a series as JSON."""
    value = to_plain(value)
    if value is None:
        return ""
    if isinstance(value, Series):
        return json.dumps(value.values, separators=(",", ":"))
    return repr(value) if isinstance(value, float) else str(value)


def parse_cell(text: str) -> int | float | str | None:
    """Read a value whose column is not known: an int, a float, a string, or None."""
    if text.lstrip("-").isdecimal():
        return int(text)
    try:
        return text or None if "_" in text else float(text)
    except ValueError:
        return text or None


def read_cell(text: str, column: Column | None) -> Value:
    """Read a value of a column: in a column of text, 007 stays a string."""
    if column is None or not text or column.kind in ("number", "mixed"):
        return parse_cell(text)
    return text if column.kind == "text" else Series(json.loads(text), column.axes)


def format_row(values: Iterable[str]) -> bytes:
    """Return a row as a line of CSV."""
    line = io.StringIO()
    csv.writer(line, lineterminator="\n").writerow(values)
    return line.getvalue().encode()


def read_rows(path: Path | str, known: Mapping[str, Column] = {}) -> list[Row]:
    """Read the rows of a file, without a row that was cut off. Fault: it is not a table. OSError: it cannot be read."""
    columns, rows = parse_table(Path(path).read_bytes(), path)
    return [Row(zip(columns, (read_cell(cell, known.get(name)) for name, cell in zip(columns, row)))) for row in rows]


def parse_table(data: bytes, path: Path | str) -> tuple[list[str], list[list[str]]]:
    """Return the columns and the rows of a file as text. Fault: it is not a table."""
    try:
        lines = list(csv.reader(io.StringIO(data[:data.rfind(b"\n") + 1].decode())))
    except (UnicodeDecodeError, csv.Error) as fault:
        raise Fault(f"{path} is not a valid CSV table: {fault}") from None
    columns = lines[0] if lines else []
    wrong = next((number for number, row in enumerate(lines, 1) if row and len(row) != len(columns)), None)
    if wrong:
        raise Fault(f"{path}, line {wrong}: the number of columns differs from the first line")
    return columns, [row for row in lines[1:] if row]


class DiskFull(LabError):
    """A file could not be written."""

    def __init__(self, path: Path | None, why: str | None) -> None:
        super().__init__(f"{path} was not written: {why}: make room on the disk, and repeat the command")


def replace_file(path: Path, data: bytes) -> None:
    """Replace a file, so that a reader finds the old one or the new one. DiskFull: it was not written. OSError: the path is wrong."""
    temporary = path.with_name(path.name + ".new")
    try:
        with open(temporary, "wb", buffering=0) as file:
            if file.write(data) != len(data):
                raise OSError(errno.ENOSPC, os.strerror(errno.ENOSPC))
            os.fsync(file.fileno())
        os.replace(temporary, path)
    except OSError as fault:
        if fault.filename is not None:
            raise
        temporary.unlink()
        raise DiskFull(path, fault.strerror) from None


class Results:
    """The rows of a file, and the rows that are added. Without a path they are only in memory.

    Each row has the columns `keys`, and then figures, which the first row names. kinds: what is known of the figures' columns.
    on_kind: called before a row is written that makes more known of a column.
    Fault: the file has different columns, or another process is writing it.
    """

    def __init__(self, path: Path | str | None, keys: Sequence[str], kinds: Mapping[str, Column] | None = None,
                 on_kind: Callable[[], None] | None = None) -> None:
        self.path = None if path is None else Path(path)
        self.kinds: dict[str, Column] = dict(kinds or {})
        self._on_kind = on_kind
        self._keys = list(keys)
        self.columns: list[str] = []
        self.rows: dict[tuple[str, ...], list[str]] = {}
        self._file: int | None = None
        self._is_padded = False
        if self.path is not None:
            self._open(self.path)

    def _open(self, path: Path) -> None:
        path.parent.mkdir(parents=True, exist_ok=True)
        self._file = os.open(path, os.O_RDWR | os.O_APPEND | os.O_CREAT | os.O_CLOEXEC, 0o666)
        try:
            fcntl.lockf(self._file, fcntl.LOCK_EX | fcntl.LOCK_NB)  # (forked processes do not inherit the lock)
        except OSError:
            self.close()
            raise Fault(f"another process is writing {path}: wait for it, or name a different file") from None
        try:
            with open(self._file, "rb", closefd=False) as file:
                data = file.read()
            os.ftruncate(self._file, data.rfind(b"\n") + 1)
            self._is_padded = b"\n\n" in data
            self._note(*parse_table(data, path), path)
        except BaseException:
            self.close()
            raise

    def take(self, paths: Iterable[Path]) -> None:
        """Add the rows of other files that are missing here. Fault: a file has different columns; then no row is added."""
        tables = [(path, *parse_table(path.read_bytes(), path)) for path in paths]
        for path, columns, _ in tables:
            self._check_columns(columns, path, next((found for _, found, _ in tables if found), []))
        for path, columns, rows in tables:
            fresh = [row for row in rows if self._key(row) not in self.rows]
            for line in ([] if self.columns or not columns else [columns]) + fresh:
                self._append(format_row(line))
            self._note(columns, fresh, path)

    def _check_columns(self, columns: list[str], path: Path | str, others: list[str]) -> None:
        wanted = self.columns or others
        if columns and (columns[:len(self._keys)] != self._keys or wanted not in ([], columns)):
            raise Fault(f"{path} has the columns {' '.join(columns)}, not {' '.join(wanted or [*self._keys, '..'])}: name a different file")

    def _note(self, columns: list[str], rows: list[list[str]], path: Path | str) -> None:
        self._check_columns(columns, path, [])
        self.columns = columns or self.columns
        self.rows.update((self._key(row), row) for row in rows)

    def _key(self, row: Sequence[str]) -> tuple[str, ...]:
        return tuple(row[:len(self._keys)])

    def add(self, key: Sequence[str], figures: Mapping[str, Value]) -> None:
        """Add a row, and write it. TypeError: a figure has a wrong type. Fault: its figures have different names or kinds."""
        columns = [*self._keys, *figures]
        if self.columns not in ([], columns):
            raise Fault(f"its figures are {' '.join(figures)}, but other rows have {' '.join(self.columns[len(self._keys):])}")
        self.note_kinds({name: kind for name, value in figures.items() if (kind := find_kind(to_plain(value)))})
        row = [*key, *map(format_cell, figures.values())]
        head = b"" if self.columns else format_row(columns)
        self._append(head + format_row(row))
        self.columns = columns
        self.rows[self._key(row)] = row

    def note_kinds(self, kinds: Mapping[str, Column]) -> None:
        """Note what columns hold. Fault: a column would hold numbers and something else."""
        fresh = {}
        for name, kind in kinds.items():
            known = self.kinds.get(name)
            if known is None:
                fresh[name] = kind
            elif (known.kind, known.axes) != (kind.kind, kind.axes):
                raise Fault(f"{name} is a {describe_kind(kind)}, but in other rows a {describe_kind(known)}")
        self.kinds.update(fresh)
        if fresh and self._on_kind:
            self._on_kind()

    def _append(self, data: bytes) -> None:
        """Write lines at the end of the file. DiskFull: not all of them were written; what was is cut off when the file is opened again."""
        if self._file is None:
            return
        room = PAGE - os.fstat(self._file).st_size % PAGE
        try:
            if room < len(data) <= PAGE:
                self._is_padded = True
                os.write(self._file, b"\n" * room)
            if os.write(self._file, data) != len(data):
                raise DiskFull(self.path, os.strerror(errno.ENOSPC))
        except OSError as fault:
            raise DiskFull(self.path, fault.strerror) from None

    def sort(self, keys: Sequence[Sequence[str]]) -> None:
        """Sort the rows with these keys to the front, in this order. Rewrite the file if the order has changed."""
        order = {tuple(key): place for place, key in enumerate(keys)}
        rows = dict(sorted(self.rows.items(), key=lambda item: order.get(item[0], len(order))))
        if self._is_padded or list(rows) != list(self.rows):
            self.rows = rows
            if self.path is not None:
                replace_file(self.path, b"".join(map(format_row, [self.columns, *rows.values()])))

    def figures(self, key: Sequence[str]) -> Row | None:
        """Return the figures of a key, or None if it has no row."""
        row, first = self.rows.get(tuple(key)), len(self._keys)
        names = self.columns[first:]
        return None if row is None else Row((name, read_cell(cell, self.kinds.get(name))) for name, cell in zip(names, row[first:]))

    def close(self) -> None:
        """Write everything to the disk, and close the file."""
        if self._file is not None:
            with contextlib.suppress(OSError):
                os.fsync(self._file)
            os.close(self._file)
            self._file = None


def describe_kind(column: Column) -> str:
    """Return what a column holds, as words."""
    return {"number": "number", "text": "string", "mixed": "number or string"}.get(column.kind, f"series with the axes {', '.join(column.axes)}")
