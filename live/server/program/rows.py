"""Take rows out of replies, and join them. A row is a byte string with a character for each cell: a digit is a car's speed, "." an
empty cell, "#" a closed one.
"""
from __future__ import annotations

from typing import Iterator, Sequence


def of_diagram(reply: bytes) -> list[bytes]:
    """Return the rows in a reply `{"rows":["..","..",..]}`."""
    return reply[10:-3].split(b'","')


def of_cells(reply: bytes) -> bytes:
    """Return the row in a reply `{"cells":".."}`."""
    return reply[10:-2]


def diagram_of(rows: Sequence[bytes]) -> bytes:
    return b'{"rows":["' + b'","'.join(rows) + b'"]}'


def split_steps(first: int, last: int, most: int) -> Iterator[tuple[int, int]]:
    """Yield the steps from `first` to `last` as (first, last) of stretches of at most `most` steps."""
    return ((start, min(last, start + most - 1)) for start in range(first, last + 1, most))
