"""Test journals that were kept as they were written: every later version of the server reads the same roads from them.

`kept_journals.jsonl.gz` has journals of random histories of two sites, as they were written and as they were compacted, each with a
checksum of every road, step by step, by the oracle. If a rule changes, the form of journals gets a new number, and this script writes
other journals. It writes none if the oracle and the model disagree on a road.
"""
from __future__ import annotations

import gzip
import hashlib
import json
import random
import sys
import unittest
from pathlib import Path
from typing import Any, Iterator

sys.path[:0] = [str(Path(__file__).resolve().parents[1]), str(Path(__file__).resolve().parent)]

import running  # noqa: E402
from oracle import Values, all_edits, by_rows, oracle_of  # noqa: E402
from painted import LAST, THERE, random_operation  # noqa: E402
from running import Case, Server  # noqa: E402
from server.base.journal_lines import JOURNAL_FORM, journal_line  # noqa: E402
from server.base.json_values import to_json  # noqa: E402
from server.journal.entries import Arrival, Entry, Folder, Keys, OwnOperation, SeatGrant, Share, Take, read_plan_line, write_entry  # noqa: E402
from server.journal.state import Replica, State  # noqa: E402
from server.model.operations import About, Operation, undo  # noqa: E402
from server.model.road import Road  # noqa: E402
from server.program.simulated_roads import rows_of  # noqa: E402

KEPT = Path(__file__).resolve().parent / "kept_journals.jsonl.gz"
HISTORIES, ACTS, SEATS = 30, 70, 2
PLAN: dict[str, Any] = {"length": THERE["block"], "exit": 1, "zone": 1, "zones": [[5 if index < 4 else 4, 1] for index in range(THERE["block"])],
        "inlets": [[index, 2] for index in range(THERE["inflow"])], "detectors": [1, 2, 3], "words": 7,
        "replicas": ["shared", *(f"seat{index}" for index in range(1, 64))]}
ORACLE = oracle_of(PLAN, LAST)


def checksum(values: Values) -> str:
    told = [([kind, at, step], value) for (kind, at), line in values.items() for step, value in enumerate(line)]
    return hashlib.sha256(json.dumps(sorted(told)).encode()).hexdigest()[:16]


def shown(replica: Replica) -> str:
    """Return the checksum of the edits that a program gets."""
    return checksum(ORACLE.by_the_program(by_rows(rows_of(all_edits(replica.road)))))


def state_of(entries: list[Any]) -> State:
    state = State()
    for entry in entries:
        state.read(json.loads(json.dumps(entry)))
    return state


def compacted(state: State) -> list[Any]:
    return [write_entry(entry, state.site) for entry in state.entries()]


class Hand:
    """A seat that makes random operations: its road, its author, and the sites that it may exclude."""

    def __init__(self, replica: Replica, author: About) -> None:
        self.replica, self.author = replica, author

    @property
    def road(self) -> Road:
        return self.replica.road


class Site:
    """A state, and the entries that made it."""

    def __init__(self, name: str) -> None:
        self.state, self.written, self.name, self.sent = State(), list[Any](), name, list[Operation]()
        self.enter(Folder(JOURNAL_FORM, read_plan_line(PLAN), name))
        for index in range(1, SEATS + 1):
            self.enter(SeatGrant(index, f"n{index}", digest(f"key {index}"), index))

    def enter(self, entry: Entry) -> None:
        self.written.append(json.loads(json.dumps(write_entry(entry, self.name))))
        entry.apply(self.state)

    def act(self, chance: random.Random, other: Site, number: int) -> None:
        seat, what = self.state.seats[chance.randint(1, SEATS)], chance.random()
        if what < 0.65:
            hand: Any = Hand(seat, About(seat.name, site=self.name, when=number))
            sites: list[Any] = [self, other]
            one = random_operation(chance, hand, sites) if what < 0.5 or not seat.own else undo(
                1 + max(stamp[0] for stamp in seat.road.operations.held), chance.choice([*seat.own]), hand.author)
            self.enter(OwnOperation(seat.index, one, f"key {number}"))
        elif what < 0.8:
            some = seat.shareable()
            self.sent += some
            self.enter(Share(seat.index, [one.stamp for one in some], seat.name, "works", number))
        elif what < 0.9:
            self.enter(Take(seat.index, self.state.shared.size))
        else:
            fresh = [one for one in other.sent if one not in self.state.shared.road and chance.random() < 0.7]
            if fresh:
                self.enter(Arrival(fresh, fresh[0].about.who, "", number))


def digest(key: str) -> str:
    return hashlib.sha256(key.encode()).hexdigest()


def histories() -> Iterator[dict[str, Any]]:
    """Yield a journal of each random history, as it was written and as it was compacted, with the checksum of each road."""
    for seed in range(HISTORIES):
        chance = random.Random(seed)
        sites = [Site(f"site{number}-0000000{number}") for number in (1, 2)]
        for number in range(ACTS):
            sites[number % 2].act(chance, sites[1 - number % 2], number)
        state, roads = sites[0].state, dict[str, str]()
        for index in range(SEATS + 1):
            replica = state.replica(index)
            roads[str(index)] = checksum(ORACLE.painted(replica.places))
            if shown(replica) != roads[str(index)]:
                raise ValueError(f"the model and the oracle disagree on history {seed}")
        yield {"entries": sites[0].written, "short": compacted(state), "roads": roads}


class Journals(unittest.TestCase):
    def kept(self) -> list[Any]:
        with gzip.open(KEPT, "rt") as lines:
            return [json.loads(line) for line in lines]

    def test_no_road_of_a_kept_journal_differs(self) -> None:
        """Nor does one after the journal was compacted, then or now."""
        kept = self.kept()
        for one in kept:
            for entries in (one["entries"], one["short"]):
                state = state_of(entries)
                again = state_of(compacted(state))
                for index, wanted in one["roads"].items():
                    self.assertEqual([shown(each.replica(int(index))) for each in (state, again)], [wanted] * 2)
        entered = [entry["made"]["operation"] for one in kept for entry in one["entries"] if "made" in entry]
        for what, least in (("undoes", 100), ("excludes", 10), ("top", 30), ("shape", 300)):
            self.assertGreater(sum(what in operation for operation in entered), least, what)

    def test_entries_are_read_back(self) -> None:
        """A compacted journal gives the same state as the longer one."""
        for one in self.kept():
            state = state_of(one["entries"])
            written = compacted(state)
            again = state_of(written)
            self.assertEqual(compacted(again), written)
            for seat in state.seats:
                other = again.seats[seat.index]
                self.assertEqual((seat.name, seat.key, seat.upto, seat.done), (other.name, other.key, other.upto, other.done))
                self.assertEqual({one.text() for one in seat.own}, {one.text() for one in other.own})
            self.assertTrue(any(Keys.kind in entry for entry in written))


class Servers(Case):
    async def test_a_server_shows_the_roads_of_a_kept_journal(self) -> None:
        """It shows them at each of two starts."""
        with gzip.open(KEPT, "rt") as lines:
            kept = json.loads(lines.readline())
        folder = running.new_folder()
        (folder / "journal.jsonl").write_bytes(b"".join(journal_line(to_json(entry), True) for entry in kept["entries"]))
        server = Server(folder, PLAN)
        self.addCleanup(lambda: running.end(server.process))
        for _ in range(2):
            for index in range(1, SEATS + 1):
                async with server.seat(key=f"key {index}") as seat:
                    for at, number in ((seat.at, index), ("shared", 0)):
                        edits = (await seat.ask("scenario", at=at))["edits"]
                        self.assertEqual(checksum(ORACLE.by_the_program(by_rows(edits))), kept["roads"][str(number)], at)
            server.restart()

    async def test_a_journal_of_a_former_form_is_refused_and_left_as_it_is(self) -> None:
        for form in (1, 2, 3, 5):
            folder = running.new_folder()
            head = {"plan": PLAN, "site": 1, "folder": "f", "form": form}
            (folder / "journal.jsonl").write_bytes(journal_line(to_json({"lab": head}), True))
            before = (folder / "journal.jsonl").read_bytes()
            with self.assertRaisesRegex(RuntimeError, f"Use the {'older' if form < 5 else 'newer'} server that wrote it"):
                Server(folder, PLAN)
            self.assertEqual((folder / "journal.jsonl").read_bytes(), before)
            self.assertFalse([one for one in folder.iterdir() if one.name.startswith("journal.") and one.name != "journal.jsonl"])


if __name__ == "__main__":
    with gzip.open(KEPT, "wt") as file:
        file.writelines(to_json(one) + "\n" for one in histories())
