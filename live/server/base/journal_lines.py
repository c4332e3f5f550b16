"""Read and write the lines of a journal.

A line ends with the checksum of its entry: `crc` in the first line of a write, `and` in the other lines. A write begins only when
the one before is on the disk. So if a line is malformed and no write begins after it, that line was never confirmed.
"""
from __future__ import annotations

import itertools
import json
import re
import zlib
from pathlib import Path
from typing import Iterator, Mapping

from .json_values import Json

JOURNAL = "journal.jsonl"
JOURNAL_FORM = 4
JournalLine = Mapping[str, Mapping[str, Json]]
"""The kind of an entry, and its fields."""
SUM = 18  # bytes of a checksum at the end of a line
SUMMED = re.compile(rb',"(crc|and)":"([0-9a-f]{8})"\}')


class CannotStart(Exception):
    """The server cannot start with this folder or these options. The text is a sentence that says why."""


class CorruptJournal(CannotStart):
    """The journal has a malformed line. `why` says what is wrong with it."""

    def __init__(self, path: Path, number: int, why: str) -> None:
        super().__init__(f"{path}, line {number}, {why}. A new folder can be made from all other lines: live/road mend {path.parent} NEW_FOLDER")
        self.why = why


def journal_line(text: str, is_first: bool) -> bytes:
    """Return the line of an entry. `is_first` says whether it is the first of a write."""
    data = text.encode()
    return data[:-1] + b',"%s":"%08x"}\n' % (b"crc" if is_first else b"and", zlib.crc32(data))


class Entries:
    """The entries of a journal, read one by one. When all have been read, `size` is their length in bytes."""

    def __init__(self, path: Path, most: int | None = None) -> None:
        """Read only the first `most` bytes if that is given."""
        self._path, self._most = path, most
        self.size = 0

    def __iter__(self) -> Iterator[JournalLine]:
        """Yield each entry. Raise `CorruptJournal` at a malformed line, unless it belongs to a write that was never confirmed."""
        if not self._path.exists():
            return
        left = self._path.stat().st_size if self._most is None else self._most
        with open(self._path, "rb") as file:
            for number in itertools.count(1):
                line = file.readline(left)
                left -= len(line)
                if not line.endswith(b"\n"):
                    return
                try:
                    entry = entry_of(self._path, number, line[:-1])
                except CorruptJournal:
                    if not self._never_ended(line[:-1], file.read(left)):
                        raise
                    return
                self.size += len(line)
                yield entry

    def _never_ended(self, line: bytes, behind: bytes) -> bool:
        """Return whether a malformed line belongs to a write that never ended: no write begins in the bytes behind it."""
        *lines, rest = behind.split(b"\n")
        could = [line.rpartition(b"\0")[2], *lines]
        return bool(rest or b"\0" in line) and not any(map(is_confirmed_before, could))


def form_of(folder: Path) -> Json:
    """Return the form of a folder's journal; None if it has no journal that can be read."""
    try:
        return next((entry.get("lab", {}).get("form") for entry in Entries(folder / JOURNAL)), None)
    except (CorruptJournal, OSError):
        return None


def read_entries(path: Path, size: int | None = None) -> tuple[list[JournalLine], int]:
    """Return the entries of a journal, or of its first `size` bytes, and their length in bytes. Raise `CorruptJournal` at a malformed
    line, unless it belongs to a write that was never confirmed."""
    entries = Entries(path, size)
    return list(entries), entries.size


def entry_of(path: Path, number: int, line: bytes) -> JournalLine:
    """Read an entry; raise `CorruptJournal` if it is malformed, or its checksum is missing or wrong."""
    try:
        fields, mark = parse_line(line)
        if mark is None and fields.get("lab", {}).get("form", JOURNAL_FORM) == JOURNAL_FORM:  # lines of other forms may have no checksum
            raise ValueError("it has no checksum")
        return fields
    except (ValueError, RecursionError) as fault:
        raise CorruptJournal(path, number, f"is malformed ({fault}): {line[:60]!r}") from None


def parse_line(line: bytes) -> tuple[JournalLine, bytes | None]:
    """Return the entry of a line, and the name of its checksum, or None if it has none. Raise `ValueError` or `RecursionError` if it is
    malformed."""
    summed = SUMMED.fullmatch(line[-SUM:])
    text = line[:-SUM] + b"}" if summed else line
    if summed and zlib.crc32(text) != int(summed[2], 16):
        raise ValueError("its checksum is wrong")
    entry: Json = json.loads(text)
    fields = {kind: value for kind, value in entry.items() if isinstance(value, dict)} if isinstance(entry, dict) else {}
    if len(fields) != 1 or fields != entry:
        raise ValueError("it is not an entry")
    return fields, summed[1] if summed else None


def is_confirmed_before(line: bytes) -> bool:
    """Return whether this line shows that all lines before it were confirmed: it is well-formed, and the first of a write."""
    try:
        return parse_line(line)[1] != b"and"
    except (ValueError, RecursionError):
        return False
