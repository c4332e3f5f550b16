"""Measure density, flow and space-mean speed from rows of a road, and convert rows to arrays."""
from __future__ import annotations

import importlib.util
import zlib
from typing import TYPE_CHECKING, Iterable, NamedTuple, Sequence

if TYPE_CHECKING:
    import numpy
    from numpy.typing import NDArray
    Bytes = NDArray[numpy.int8]

EMPTY, BLOCKED = -1, -2
"""The values of empty and of blocked cells in an array of rows."""
FASTEST = 9
"""The highest speed, in cells per step."""
WRONG = b"\x7f"
"""The value of a character that no row has."""
VALUES = bytes(code - ord("0") if chr(code) in "0123456789" else {".": EMPTY, "#": BLOCKED}.get(chr(code), WRONG[0]) & 255 for code in range(256))
"""The value of each character, for `bytes.translate`."""
NO_NUMPY = "numpy is not installed: on Debian run `apt install python3-numpy`, else `pip install numpy`"


class Traffic(NamedTuple):
    """Density, flow and speed on some cells in some rows, by Edie's definitions."""

    density: float
    """Cars per cell."""
    flow: float
    """Cars per step."""
    speed: float | None
    """The space-mean speed in cells per step, or None without a car."""


class Sums(NamedTuple):
    """Sums over some cells in some rows: the cars, their speeds in cells per step, and the cells themselves."""

    cars: int
    speeds: int
    area: int

    def traffic(self) -> Traffic:
        """Return density, flow and space-mean speed. ValueError: there are no cells or no rows."""
        if not self.area:
            raise ValueError("there are no cells or no rows")
        return Traffic(self.cars / self.area, self.speeds / self.area, self.speeds / self.cars if self.cars else None)

    def __add__(self, other: Sums) -> Sums:  # type: ignore[override]
        return Sums(self.cars + other.cars, self.speeds + other.speeds, self.area + other.area)


def count_cars(row: str) -> int:
    """Return the number of cars in a row."""
    return len(row) - row.count(".") - row.count("#")


def add_up(rows: Iterable[str], first: int = 0, last: int | None = None) -> Sums:
    """Return the sums over the cells `first` to `last - 1` of each row, to the end if `last` is None."""
    return add_up_cells("".join(row[first:last] for row in rows).encode("latin-1", "replace"))


ARE_DIGITS = bytes(code in b"0123456789" for code in range(256))
"""Whether each character is a digit, for `bytes.translate`."""
ADLER = 65_521
"""The lower half of Adler-32, which C computes, is 1 + the sum of the bytes, modulo this number."""
PIECE = 7_000
"""Cells whose speeds have a sum below ADLER, and that stay in the processor's cache."""


def add_up_cells(cells: bytes) -> Sums:
    """Return the sums of cells, each a digit, "." or "#", without numpy and without a number for each cell."""
    cars = speeds = 0
    for start in range(0, len(cells), PIECE):
        piece = cells[start:start + PIECE]
        here = (zlib.adler32(piece.translate(ARE_DIGITS)) & 0xFFFF) - 1
        codes = (zlib.adler32(piece) & 0xFFFF) - 1
        empty = ord(".") * (len(piece) - here) - (ord(".") - ord("#")) * piece.count(b"#")
        cars += here
        speeds += (codes - empty - ord("0") * here) % ADLER
    return Sums(cars, speeds, len(cells))


BEFORE, AFTER = len('{"rows":["'), len('","')
"""The bytes before the first row of a reply, and the bytes after each row."""
AT_ONCE, MOST_AT_ONCE = 64, 4_096
"""The rows that are added up at once, so that they stay in the processor's cache; more if only a part of each is added up, but at most so
many that the speeds of a cell fit in 16 bits."""


class Rows(NamedTuple):
    """Rows as the program writes them, {"rows":["..","..",..]}, with the number of cells of each."""

    line: bytes
    length: int

    @classmethod
    def read(cls, line: bytes) -> Rows:
        """Return the rows of a reply."""
        return cls(line, line.index(b'"', BEFORE) - BEFORE)

    def size(self) -> int:
        """Return the number of rows."""
        return (len(self.line) - BEFORE) // (self.length + AFTER)

    def add_up(self, first: int, last: int | None) -> Sums:
        """Return the sums over the cells `first` to `last - 1` of each row, to the end if `last` is None. With numpy it is faster."""
        begin, end, _ = slice(first, last).indices(self.length)
        try:
            import numpy
        except ImportError:
            starts = range(BEFORE, len(self.line), self.length + AFTER)
            return add_up_cells(b"".join(self.line[start + begin:start + end] for start in starts))
        table, cars, speeds = numpy.frombuffer(self.line, dtype=numpy.uint8, offset=BEFORE).reshape(self.size(), -1)[:, begin:end], 0, 0
        at_once = min(AT_ONCE * self.length // max(end - begin, 1), MOST_AT_ONCE)
        for start in range(0, len(table), at_once):
            values = table[start:start + at_once] - ord("0")  # (unsigned: other characters become large numbers)
            are_cars = values <= FASTEST
            values *= are_cars
            cars += int(numpy.count_nonzero(are_cars))
            speeds += int(values.sum(axis=0, dtype=numpy.uint16).sum(dtype=numpy.int64))
        return Sums(cars, speeds, self.size() * max(end - begin, 0))

    def fill(self, array: Bytes) -> None:
        """Write the values of all cells into an array of steps by cells."""
        import numpy
        values = numpy.frombuffer(self.line.translate(VALUES), dtype=numpy.int8, offset=BEFORE)
        array[:] = values.reshape(self.size(), -1)[:, :self.length]


def measure_traffic(rows: Iterable[str], first: int = 0, last: int | None = None) -> Traffic:
    """Return density, flow and space-mean speed on the cells `first` to `last - 1` of these rows."""
    return add_up(rows, first, last).traffic()


def to_array(rows: Sequence[str]) -> Bytes:
    """Convert rows to an array of steps by cells. Each value is a byte: a car's speed in cells per step, EMPTY or BLOCKED.

    ImportError: numpy is not installed; only this function needs it. ValueError: the rows differ in length, or contain a
    character that is not a digit, "." or "#".
    """
    check_numpy()
    import numpy
    length = len(rows[0]) if len(rows) else 0
    if any(len(row) != length for row in rows):
        raise ValueError("the rows differ in length")
    array: Bytes = numpy.empty((len(rows), length), dtype=numpy.int8)
    for place, row in enumerate(rows):
        values = row.encode("latin-1", "replace").translate(VALUES)
        if WRONG in values:
            raise ValueError("a row contains a character that is not a digit, \".\" or \"#\"")
        array[place] = numpy.frombuffer(values, dtype=numpy.int8)
    return array


def check_numpy() -> None:
    """Raise an ImportError with what to do if numpy is not installed."""
    if importlib.util.find_spec("numpy") is None:
        raise ImportError(NO_NUMPY)
