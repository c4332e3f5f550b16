"""Write the changes of a folder as SQLite tables, for `sqlite3` and pandas. No table has a key, the token or a secret.

    write_tables(path, read_folder(folder)[0])    all changes of a stopped folder
    write_tables(path, tables)                    what a seat of a running server can see
"""
from __future__ import annotations

import contextlib
import json
import os
import sqlite3
import time
from pathlib import Path
from typing import Iterator, Mapping, NamedTuple, Sequence

from zegdrut.base import KMH, Units
from zegdrut.base.wire import PlanLine
from zegdrut.roads import Clock

from ..base.json_values import to_json, Json
from ..lab import new_road
from ..model.operations import Operation, Shape, Stamp, describe_act
from .mend import read_damaged

Row = tuple["int | float | str | None", ...]
SCHEMA = """
CREATE TABLE operations (stamp TEXT PRIMARY KEY, count INTEGER, site TEXT, seat INTEGER, who TEXT, note TEXT, made TEXT, does TEXT,
                         undoes TEXT, shared INTEGER, json TEXT);
CREATE TABLE shapes (stamp TEXT REFERENCES operations, layer TEXT, kind TEXT, first INTEGER, last INTEGER, begin INTEGER, end INTEGER,
                     value INTEGER, what TEXT, from_km REAL, to_km REAL, from_time TEXT, to_time TEXT);
CREATE TABLE seats (seat INTEGER PRIMARY KEY, name TEXT, private INTEGER);
CREATE TABLE shares (who TEXT, title TEXT, made TEXT, size INTEGER);
CREATE VIEW changes AS
    SELECT made, who, does, what, from_km, to_km, from_time, to_time, note, shared, undoes, stamp
    FROM operations LEFT JOIN shapes USING (stamp) ORDER BY count, stamp;
"""
PERCENT = 100 / 65_536  # of a chance


class HeldOperation(NamedTuple):
    """An operation, whether it is shared, and the seat that made it, if that is known."""

    operation: Operation
    is_shared: bool
    seat: int | None


class Tables(NamedTuple):
    """The contents of the tables: the plan, its units of places and times, the time of day of minute 0, operations, and the rows of seats and
    shares."""

    plan: PlanLine
    units: Units
    clock: Clock
    operations: Sequence[HeldOperation]
    seats: Sequence[Row]
    shares: Sequence[Row]


def read_folder(folder: Path) -> tuple[Tables, list[str]]:
    """Return all changes of a folder, which no server uses, and a sentence for each line of its journal that cannot be read. Raise
    `CannotStart` if there is no plan."""
    state, left_out = read_damaged(folder)
    held = dict.fromkeys([*state.shared.places, *(one for seat in state.seats for one in seat.own)])
    operations = [HeldOperation(one, one in state.shared.places, state.makers.get(one)) for one in held]
    seats = [(seat.index, seat.name, len(seat.shareable())) for seat in state.seats[1:] if seat.key]
    tables = Tables(state.plan, state.units, new_road.clock_of(folder) or Clock(), operations, seats,
                    [share_row(one.reply_fields()) for one in state.shares])
    return tables, left_out


def share_row(share: Mapping[str, Json]) -> Row:
    """Return the row of a share, given its fields in a reply."""
    return str(share["who"]), str(share["title"]), utc_text(share["when"]), json.dumps(share["size"])


def write_tables(path: Path, tables: Tables) -> None:
    """Write a new file that only its owner may read. Raise FileExistsError if there is one already."""
    os.close(os.open(path, os.O_CREAT | os.O_EXCL | os.O_WRONLY, 0o600))
    by_stamp = {one.operation.stamp: one.operation for one in tables.operations}
    try:
        with contextlib.closing(sqlite3.connect(path)) as database, database:
            database.executescript(SCHEMA)
            write_rows(database, "operations", (operation_row(one, by_stamp) for one in tables.operations))
            write_rows(database, "shapes", (shape_row(one.operation, tables) for one in tables.operations if one.operation.sets))
            write_rows(database, "seats", tables.seats)
            write_rows(database, "shares", tables.shares)
    except BaseException:
        path.unlink()
        raise


def write_rows(database: sqlite3.Connection, table: str, rows: Iterator[Row] | Sequence[Row]) -> None:
    for row in rows:
        database.execute(f"INSERT INTO {table} VALUES ({','.join('?' * len(row))})", row)


def operation_row(held: HeldOperation, by_stamp: Mapping[Stamp, Operation]) -> Row:
    operation, about = held.operation, held.operation.about
    return (stamp_text(operation.stamp), operation.stamp[0], operation.site, held.seat, about.who, about.note,
            utc_text(about.when), describe_act(operation, by_stamp),
            None if operation.undoes is None else stamp_text(operation.undoes), int(held.is_shared), to_json(operation.written()))


def shape_row(operation: Operation, tables: Tables) -> Row:
    """Return the row of the layer that an operation sets."""
    names = stamp_text(operation.stamp), stamp_text(operation.line or operation.stamp)
    if operation.shape is None:
        return *names, *[None] * 6, "withdrawn", *[None] * 4
    kind, first, last, begin, end, value = operation.shape
    return (*names, kind, first, last, begin, end, value[0] if isinstance(value, tuple) else value,
            describe_value(operation.shape, operation.about.more.get("demand")), *find_places(tables, kind, first, last),
            *(None if step is None else tables.clock.to_date_text(step - tables.units.begin) for step in (begin, end)))


def describe_value(shape: Shape, demand: Json) -> str:
    """Return a value as `live/road NAME put` prints it."""
    kind, value = shape.kind, shape.value
    if isinstance(value, tuple):
        return f"capacity {value[0]} cars/h"
    if kind == "block":
        return "closed" if value else "open"
    if kind == "watch":
        return f"detector {'on' if value else 'off'}"
    if kind == "limit":
        return f"limit {value * KMH:g} km/h"
    if kind == "inflow" and isinstance(demand, (int, float)):
        return f"{demand:g} cars/h"
    word = {"slow": "slowing", "start": "slow-to-start", "inflow": "inflow"}[kind]
    return f"{word} {value * PERCENT:.4g} %"


def find_places(tables: Tables, kind: str, first: int, last: int) -> tuple[float, float]:
    """Return where the objects `first` to `last` of a kind begin and end, in km. An inlet or a detector begins and ends at its cell."""
    plan = tables.plan
    if kind == "block":
        cells = first, last + 1
    elif kind == "inflow":
        cells = plan["inlets"][first][0], plan["inlets"][last][0]
    elif kind == "watch":
        cells = plan["detectors"][first], plan["detectors"][last]
    else:
        cells = first * plan["zone"], min((last + 1) * plan["zone"], plan["length"])
    return tables.units.to_km(cells[0]), tables.units.to_km(cells[1])


def stamp_text(stamp: Stamp) -> str:
    return ".".join(map(str, stamp))


def utc_text(when: Json) -> str | None:
    """Return a time in seconds since 1970 as a date and time of UTC; None if it is missing."""
    if not isinstance(when, (int, float)) or not when:
        return None
    return time.strftime("%Y-%m-%d %H:%M:%S", time.gmtime(when))
