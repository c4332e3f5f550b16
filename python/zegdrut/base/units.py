"""Convert between an engineer's units and cells, steps and chances. By default a cell is 7.5 m and a step 1 s."""
from __future__ import annotations

import math
from typing import NamedTuple

METRES, HOUR = 7.5, 3_600
"""The length of a cell in metres, and of an hour in steps."""
CELLS_A_KM, KMH = 1_000 / METRES, METRES * 3.6
"""Cells per kilometre, and the km/h of one cell per step (27)."""
ALWAYS = 65_536
"""The chance of an event that always happens. Chances are whole numbers of 1/65,536."""


def to_cells(km: float) -> int:
    """Convert km to cells, rounded."""
    return round(km * CELLS_A_KM)


def to_km(cell: float) -> float:
    """Return the km at which a cell begins."""
    return cell / CELLS_A_KM


def to_steps(minutes: float) -> int:
    """Convert minutes to steps, rounded."""
    return round(minutes * 60)


def to_limit(kmh: float) -> int:
    """Convert a speed limit in km/h to cells per step, rounded: 27, 54, 81, 108, 135 and so on are whole. Only 0 becomes 0."""
    return max(round(kmh / KMH), 1 if kmh > 0 else 0)


def to_chance(chance: float) -> int:
    """Convert a chance from 0 to 1 to 1/65,536, rounded."""
    return round(chance * ALWAYS)


class Units(NamedTuple):
    """The length of a cell and of a step, if they are known; the cell at km 0, and the step at minute 0."""

    metres: float | None = None
    seconds: float | None = None
    origin: int = 0
    begin: int = 0

    def to_km(self, cell: int) -> float:
        """Return the km at which a cell of the usual length begins."""
        return to_km(cell - self.origin)

    def place(self, cell: int) -> str:
        """Return where a cell is: "km 0.375", or "cell 50" if the length of a cell is unknown."""
        return f"{'km' if self.metres else 'cell'} {self.place_value(cell)}"

    def place_title(self) -> str:
        """Return the title of a column of places."""
        return "at km" if self.metres else "at cell"

    def place_value(self, cell: int) -> str:
        """Return a place for such a column: its km, or its cell if the length of a cell is unknown."""
        return format_plain((cell - self.origin) * self.metres / 1_000) if self.metres else str(cell)

    def km(self, cells: int) -> str:
        """Return cells in km, in brackets; an empty string if the length of a cell is unknown."""
        return f" ({format_plain(cells * self.metres / 1_000)} km)" if self.metres else ""

    def minutes(self, steps: int) -> str:
        """Return a step as a minute, in brackets; an empty string if the length of a step is unknown."""
        return f" (minute {format_plain((steps - self.begin) * self.seconds / 60)})" if self.seconds else ""

    def kmh(self, limit: int) -> str:
        """Return a limit in km/h, with the usual lengths of cells and steps if they are unknown."""
        known = f" at {self.metres or METRES:g} m a cell and {self.seconds or 1:g} s a step"
        return f"{format_plain(limit * self.pace())} km/h" + ("" if self.metres and self.seconds else known)

    def pace(self) -> float:
        """Return the km/h of one cell per step."""
        return (self.metres or METRES) / (self.seconds or 1) * 3.6


def format_km(cell: float) -> str:
    """Return the km at which a cell begins, up to four decimals: the only form of a place in tables and pictures. A cell is 0.0075 km."""
    return format_plain(to_km(cell))


def format_distance(km: float) -> str:
    """Return the km of a sentence, to the nearest metre. Half a metre is rounded up."""
    return f"{math.floor(1_000 * km + 0.5 + 1e-6) / 1_000:.3f}".rstrip("0").rstrip(".")


def count_things(number: int, thing: str, things: str | None = None) -> str:
    """Return a number with its noun: "1 row", "2 rows"."""
    return f"{number:,} {thing if number == 1 else things or thing + 's'}"


def format_fixed(number: float | None, digits: int, separator: str = "") -> str:
    """Return a number with some decimals, never "-0.0"; an empty string if it is unknown. separator: "," between thousands, or nothing."""
    return "" if number is None else f"{round(number, digits) + 0.0:{separator}.{digits}f}"


def format_plain(number: float) -> str:
    """Return a number with up to four decimals, without zeros at the end."""
    return f"{number:.4f}".rstrip("0").rstrip(".")
