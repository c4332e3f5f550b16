"""Read a journal that is damaged, and make a new folder from what can be read.

    state, left_out = read_damaged(folder)
    site, left_out = mend(folder, new_folder)    `left_out` has a sentence for each line that is left out
"""
from __future__ import annotations

import dataclasses
import functools
import json
import os
import secrets
import shutil
import time
from pathlib import Path

from ..base.journal_lines import JOURNAL, SUM, CannotStart, CorruptJournal, entry_of
from ..base.json_values import Json
from ..journal.entries import Entry, NamedVariant, SeatGrant, Take, Works, write_entry
from ..journal.journal import journal_lines, make_folder, put_in_place, sync_folder
from ..journal.state import NO_PLAN, State
from ..lab.seating import digest
from ..model.reading import Malformed

LEFT_BEHIND = shutil.ignore_patterns("journal.*", "lock", "address")  # files of a folder that a new one does not get


def read_damaged(folder: Path) -> tuple[State, list[str]]:
    """Return the state of a folder, which no server uses, and a sentence for each line of its journal that cannot be read. An end without
    a line feed was never confirmed. Raise `CannotStart` if there is no plan."""
    state, left_out, lost, path = State(), list[str](), 0, folder / JOURNAL
    if not path.exists():
        raise CannotStart(f"{folder} has no journal: give the folder of a server")
    with open(path, "rb") as file:
        for number, line in enumerate(file, 1):
            if not line.endswith(b"\n"):
                break
            try:
                state.read(entry_of(path, number, line[:-1]), functools.partial(shift_places, lost=lost, size=state.shared.size))
            except (CorruptJournal, Malformed) as fault:
                left_out.append(f"line {number} is left out: it {fault.why if isinstance(fault, CorruptJournal) else fault}")
                lost += count_shared(line)
    if state.plan is NO_PLAN:
        raise CannotStart(f"the first line of {path}, with the plan and the site, cannot be read. If there are other sites, a new folder "
                          "gets everything shared from them: live/serve --folder NEW_FOLDER --broker HOST:PORT FILE")
    return state, left_out


def shift_places(entry: Entry, lost: int, size: int) -> Entry:
    """Return an entry that counts the operations of the shared road without the lost ones. So nobody has taken what he has not seen."""
    if isinstance(entry, (Take, SeatGrant, NamedVariant, Works)) and entry.upto is not None:
        return dataclasses.replace(entry, upto=max(0, min(entry.upto - lost, size)))
    return entry


def count_shared(line: bytes) -> int:
    """Return how many operations a damaged line may have brought to the shared road."""
    try:
        value: Json = json.loads(line[:-SUM - 1] + b"}")
        (kind, fields), = value.items() if isinstance(value, dict) else ()
        named = fields.get({"came": "operations", "share": "stamps"}[kind]) if isinstance(fields, dict) else None
        return len(named) if isinstance(named, list) else 1
    except (ValueError, KeyError):
        return 1


def give_back_seats(state: State) -> None:
    """Give each seat whose line is lost, but which has operations, to their author, with a key that nobody has: he can take it over."""
    for seat in state.seats[1:]:
        if seat.own and not seat.key:
            who = [*seat.own][-1].about.who or f"seat {seat.index}"
            SeatGrant(seat.index, who, digest(secrets.token_hex(16)), int(time.time()), seat.upto).apply(state)


def mend(folder: Path, new: Path) -> tuple[str, list[str]]:
    """Make a new folder with the site, the files and all readable lines of a folder, which no server uses. Return the site, and a sentence
    for each line that is left out. Raise `CannotStart` if there is no plan, or if the new folder exists."""
    if new.exists():
        raise CannotStart(f"{new} exists already: remove it, or give another folder")
    state, left_out = read_damaged(folder)
    give_back_seats(state)
    make_folder(new)
    shutil.copytree(folder, new, ignore=LEFT_BEHIND, dirs_exist_ok=True)
    os.close(put_in_place(new / JOURNAL, journal_lines(write_entry(one, state.site) for one in state.entries())))
    sync_folder(new)
    return state.site, left_out
