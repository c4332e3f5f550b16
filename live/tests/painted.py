"""Compare the model with an oracle, on random histories of sites and seats, with messages that are late, doubled and in any
order.

The oracle computes what operations mean, object by object and step by step, from their definition alone. After each act, the
edits that a program was given must give the oracle's road, by the program's rule that the latest edit wins.
"""
from __future__ import annotations

import json
import random
import unittest
from collections import Counter
from typing import Any, Iterable

from oracle import Oracle
from running import ALL
from server.model import choices, lines, projection, visibility
from server.model.operations import About, Operation, Shape, Stamp, exclude, lift, put, undo
from server.model.reading import read_operation
from server.model.road import Road, change

STEPS, LAST = 30, 43
THERE = {"block": 10, "limit": 6, "slow": 6, "start": 6, "inflow": 4, "watch": 3}
HISTORIES = 5_000 if ALL else 200


def made_by(road: Road, author: About) -> list[Operation]:
    """Return the operations of a road that an author made."""
    return [one for one in road.operations if (one.about.who, one.site) == (author.who, author.site)]


def plan(kind: str, index: int) -> int | None:
    return {"block": 0, "limit": 5 if index < 4 else 4, "slow": 1, "start": None, "inflow": 2, "watch": 1}[kind]


EMPTY = Road(plan)
ORACLE = Oracle(THERE, plan, LAST)


# Replicas, seats and sites

class Replica:
    """A road, a program that got only differences, and a list that got only increments."""

    def __init__(self, counted: Counter[str]) -> None:
        self.road, self.count, self.counted = EMPTY, 0, counted
        self.program: dict[tuple[str, int], dict[int, tuple[int, Any]]] = {}
        self.listed: dict[Stamp, Any] = {}

    def becomes(self, road: Road, chance: random.Random) -> None:
        edits = list(projection.difference(self.road, road).items())
        self.count += 1
        chance.shuffle(edits)
        for (kind, index, step), value in edits:
            self.program.setdefault((kind, index), {})[step] = self.count, value
        before, self.road = self.road, road
        wanted, said = ORACLE.painted(road.operations), ORACLE.by_the_program(self.program)
        assert wanted == said, {thing: (wanted[thing], said[thing]) for thing in wanted if wanted[thing] != said[thing]}
        self.check_list(lines.find_altered_lines(before, road))
        self.counted["roads"] += 1

    def check_list(self, altered: set[Stamp]) -> None:
        """Check that the list from increments equals the whole list."""
        for line in altered:
            self.listed[line] = entry(self.road, line)
        whole = {line: entry(self.road, line) for line in lines.all_lines(self.road)}
        kept = {line: one for line, one in self.listed.items() if one["operations"]}
        assert kept == whole, {line: (kept.get(line), whole.get(line)) for line in kept.keys() | whole.keys()
                               if kept.get(line) != whole.get(line)}
        self.counted["lists"] += 1


def entry(road: Road, line: Stamp) -> Any:
    """Return what the list shows of a line."""
    losses = visibility.find_overruled(road, line)
    return {"shown": visibility.visible_rectangles(road, line), "standing": line in road.layers, "covered": visibility.covered_rectangles(road, line), "operations": [
        (one.text(), road.operations.counts(one), losses[one].stamp if one in losses else None)
        for one in lines.operations_on(road, line)]}


class Seat(Replica):
    def __init__(self, author: About, counted: Counter[str]) -> None:
        super().__init__(counted)
        self.author, self.upto = author, 0


class Site:
    def __init__(self, number: int, seats: int, counted: Counter[str]) -> None:
        self.name, self.shared, self.counted = f"site{number}-0000000{number}", Replica(counted), counted
        self.order: list[Operation] = []
        self.sent: list[str] = []
        self.seats = [Seat(About(f"n{at}", site=self.name), counted) for at in range(seats)]

    def holds(self, operations: Iterable[Operation], chance: random.Random) -> None:
        fresh = [one for one in operations if one not in self.shared.road]
        self.order += fresh
        self.shared.becomes(self.shared.road.adding(fresh), chance)

    def hears(self, message: str, chance: random.Random) -> None:
        self.holds(map(read_operation, json.loads(message)), chance)

    def takes(self, seat: Seat, upto: int, chance: random.Random) -> None:
        base = EMPTY.adding(self.order[:seat.upto])
        seat.upto = max(seat.upto, upto)
        then, after = base.adding(self.order[:seat.upto]), seat.road.adding(self.order[:seat.upto])
        known = base, then, projection.difference(base, then)
        assert projection.difference_like(known, seat.road, after) == projection.difference(seat.road, after)
        seat.becomes(after, chance)

    def shares(self, operations: list[Operation], chance: random.Random) -> None:
        self.holds(operations, chance)
        self.sent.append(json.dumps([one.written() for one in operations]))


def count_of(seat: Seat, chance: random.Random) -> int:
    """Return a count above all that are held; sometimes far above, as if from the clock of another site."""
    return max([0, *(stamp[0] for stamp in seat.road.operations.held)]) + chance.choice([1, 1, 1, 2, 9])


def random_shape(chance: random.Random) -> Shape:
    kind = chance.choice([*THERE, "capacity"])
    objects = THERE["limit" if kind == "capacity" else kind]
    first, begin = chance.randrange(objects), chance.randrange(STEPS)
    end = None if chance.random() < 0.25 else begin + 1 + chance.randrange(12)
    value = chance.randrange(2) if kind in ("block", "watch") else chance.randrange(6)
    return Shape(kind, first, min(objects - 1, first + chance.randrange(5)), begin, end,
                 (900, value, chance.randrange(6), chance.randrange(6)) if kind == "capacity" else value)


def random_operation(chance: random.Random, seat: Seat, sites: list[Site]) -> Operation:
    count, what, author = count_of(seat, chance), chance.random(), seat.author
    names = sorted(lines.all_lines(seat.road))
    if what < 0.36 or not names:
        return put(count, random_shape(chance), author)
    line = chance.choice(names)
    if what < 0.6:
        return change(seat.road, count, line, random_shape(chance), chance.random() < 0.3, author)
    if what < 0.68:
        return lift(count, line, author)
    if what < 0.76:
        return change(seat.road, count, line, None, about=author)
    if what < 0.79 and len(sites) > 1:
        other = chance.choice([site for site in sites if site.name != author.site])
        return exclude(count, other.name, chance.random() < 0.6, author)
    return undo(count, chance.choice(list(seat.road.operations)), author)


def same(one: Road, other: Road) -> None:
    assert one.layers == other.layers and one.operations.excluded == other.operations.excluded
    assert {each.stamp for each in one.operations.void} == {each.stamp for each in other.operations.void}


class History:
    """One random history."""

    def __init__(self, seed: int, counted: Counter[str]) -> None:
        self.chance, self.counted = random.Random(seed), counted
        self.sites = [Site(number + 1, self.chance.randrange(1, 4), counted) for number in range(self.chance.randrange(2, 5))]
        self.heard: set[tuple[str, str, int]] = set()

    def run(self, acts: tuple[int, int] = (10, 45)) -> None:
        for _ in range(self.chance.randrange(*acts)):
            site = self.chance.choice(self.sites)
            self.act(site, self.chance.choice(site.seats))
        self.end()

    def act(self, site: Site, seat: Seat) -> None:
        chance, what = self.chance, self.chance.random()
        if what < 0.5:
            self.make(seat, random_operation(chance, seat, self.sites))
        elif what < 0.56:
            self.press(seat)
        elif what < 0.7:
            self.share(site, seat)
        elif what < 0.82:
            site.takes(seat, chance.choice([len(site.order), len(site.order), chance.randrange(len(site.order) + 1)]), chance)
        else:
            self.deliver(site)
        if chance.random() < 0.3:
            self.check_shown(chance.choice([seat, site.shared]).road)
            self.check_seat(site, seat)
        if chance.random() < 0.1:
            some = list(seat.road.operations)
            chance.shuffle(some)
            fresh = Replica(self.counted)
            fresh.becomes(EMPTY.adding(some), chance)  # a restart
            same(fresh.road, seat.road)

    def make(self, seat: Seat, one: Operation) -> None:
        before = seat.road
        seat.becomes(before.adding([one]), self.chance)
        if one.undoes is not None:
            self.check_undo(before, one)
        self.counted["operations"] += 1

    def press(self, seat: Seat) -> None:
        for redo in (False, True):
            found = choices.find_undoable(seat.road, made_by(seat.road, seat.author))
            one = found.redo if redo else found.undo
            if one is not None and self.chance.random() < 0.7:
                self.make(seat, undo(count_of(seat, self.chance), one, seat.author))

    def share(self, site: Site, seat: Seat) -> None:
        some = choices.shareable(seat.road, site.shared.road, made_by(seat.road, seat.author))
        if self.chance.random() < 0.4:
            stamps = {one.stamp for one in seat.road.operations if self.chance.random() < 0.5}
            some = choices.sendable(seat.road, site.shared.road, made_by(seat.road, seat.author), stamps)
        if some:
            site.shares(some, self.chance)

    def deliver(self, to: Site, likely: float = 0.5) -> None:
        """Deliver messages of others in any order, some twice, and many late."""
        some = [(other, at) for other in self.sites if other is not to for at in range(len(other.sent))
                if (to.name, other.name, at) not in self.heard or self.chance.random() < 0.1]
        some = [one for one in some if self.chance.random() < likely]
        self.chance.shuffle(some)
        for other, at in some:
            self.heard.add((to.name, other.name, at))
            to.hears(other.sent[at], self.chance)

    # What holds

    def check_undo(self, before: Road, one: Operation) -> None:
        """Check that an undo gives the road without the operation, and that undoing the undo gives the road before."""
        operations = before.operations
        if any(each.excludes is not None for each in operations):
            return
        after = before.adding([one])
        undone = operations.held.get(one.undoes or (0, ""))
        if undone is not None and undone not in operations.void:
            never = EMPTY.adding(each for each in operations if each is not undone)
            assert after.layers == never.layers
        again = after.adding([undo(one.stamp[0] + 1, one, one.about)])
        assert again.layers == before.layers
        self.counted["undone"] += 1

    def check_shown(self, road: Road) -> None:
        top = ORACLE.tops(road.operations)
        for name in self.chance.sample(sorted(road.layers), min(3, len(road.layers))):
            layer = road.layers[name]
            found: dict[Any, Any] = {}
            for kind, low, high, since, until, _, by in visibility.visible_rectangles(road, name):
                for index in range(low, high + 1):
                    for step in range(since, LAST if until is None else min(LAST, until)):
                        assert (kind, index, step) not in found
                        found[kind, index, step] = by
            kinds = ["limit", "slow", "start"] if layer.kind == "capacity" else [layer.kind]
            wanted = {(kind, index, step): None if top[kind, index][step][1] == name else top[kind, index][step][1] for kind in kinds
                      for index in range(layer.first, layer.last + 1) for step in range(layer.begin, min(LAST, layer.end))}
            assert found == wanted, (name, found, wanted)
            covered = {(index, step) for one in visibility.covered_rectangles(road, name) for index in range(one.first, one.last + 1)
                       for step in range(one.begin, min(LAST, one.end or LAST))}
            assert covered == ({key[1:] for key, by in wanted.items() if by is not None} if layer.kind == "capacity" else set())
            self.counted["shown"] += 1

    def check_seat(self, site: Site, seat: Seat) -> None:
        """Check that Z and Redo change something, and that the shareable operations are active and make the shared road the seat's."""
        road, shared, chance = seat.road, site.shared.road, self.chance
        found = choices.find_undoable(road, made_by(road, seat.author))
        for one in (found.undo, found.redo):
            if one is not None:
                then = road.adding([undo(count_of(seat, chance), one, seat.author)])
                assert then.layers != road.layers or then.operations.excluded != road.operations.excluded, "Z does nothing"
        for one in found.blocked:
            assert road.adding([undo(count_of(seat, chance), one, seat.author)]).layers == road.layers
            assert any((other.about.who, other.site) != (seat.author.who, seat.author.site) for other in choices.find_overruling(road, one)), "somebody else is named"
        some = choices.shareable(road, shared, made_by(road, seat.author))
        assert all(map(road.operations.counts, some)), "what is undone is not shared"
        everything = road.adding(site.order)
        then = shared.adding(choices.shareable(everything, shared, made_by(everything, seat.author)))
        assert then.layers == everything.layers and then.operations.excluded == everything.operations.excluded
        gone = choices.find_forgettable(road, shared, made_by(road, seat.author), chance.randrange(4))
        left = EMPTY.adding(one for one in road.operations if one not in gone)
        assert left.layers == road.layers and left.operations.excluded == road.operations.excluded
        self.counted["forgettable"] += len(gone)
        if gone and chance.random() < 0.3:
            seat.becomes(left, chance)

    def end(self) -> None:
        """Share and deliver everything. Check that all sites have the same road, and that no message was sent in reply to
        another."""
        for site in self.sites:
            for seat in site.seats:
                some = choices.shareable(seat.road, site.shared.road, made_by(seat.road, seat.author))
                if some:
                    site.shares(some, self.chance)
        sent = sum(len(site.sent) for site in self.sites)
        for site in self.sites:
            self.deliver(site, 2)
        assert sent == sum(len(site.sent) for site in self.sites)
        for site in self.sites:
            same(site.shared.road, self.sites[0].shared.road)
            for seat in site.seats:
                site.takes(seat, len(site.order), self.chance)
                # Somebody else's undo may have uncovered an operation of the seat that did not need to be shared before.
                if not choices.shareable(seat.road, site.shared.road, made_by(seat.road, seat.author)):
                    assert seat.road.layers == site.shared.road.layers


class Painted(unittest.TestCase):
    def test_random_histories_give_the_roads_of_the_oracle(self) -> None:
        counted: Counter[str] = Counter()
        for seed in range(HISTORIES):
            with self.subTest(seed=seed):
                History(seed, counted).run()
        for what in ("roads", "lists", "undone", "shown", "forgettable"):
            self.assertGreater(counted[what], HISTORIES // 20, what)
