"""Hold the state that a folder's journal describes: the plan, the seats, and the operations that each seat holds.

    state = State()
    for entry in read_entries(path)[0]: state.read(entry)
    entry.apply(state)                     a new entry
    entries = list(state.entries())        as few entries as possible that give the same state

Seat 0 is the shared road, which holds the shared operations in order of arrival. Every other seat holds its own operations, and the
first ones of the shared road.
"""
from __future__ import annotations

import asyncio
from typing import Callable, Iterable, Iterator, Mapping, Sequence

from zegdrut.base import METRES, Units
from zegdrut.base.wire import PlanLine

from ..base.journal_lines import JOURNAL_FORM
from ..model.choices import find_forgettable, shareable
from ..model.lines import all_lines, find_altered_lines, line_of, operations_on
from ..model.operations import SEATS, Operation, Stamp, intern_int
from ..model.reading import Malformed
from ..model.road import Road
from .entries import (NewsList, Arrival, Clock, Entry, Fields, Folder, Keys, NamedVariant, OwnOperation, News, SeatGrant, Take,
                      Works, read_entry)
from .naming import Counter

TAB_FORM = 8  # the protocol of tabs
SITE_FORM = 4  # the protocol of sites
MOST_NEWS = 100
MOST_FORGOTTEN_KEYS = 1_000  # keys of a seat whose operations were forgotten
APPLIED_AT_ONCE = 100  # operations that are applied before others get a turn
MOST_SHARED_ROADS = 8  # values of the shared road that are kept for seats that take

Variant = tuple[int, Sequence[Stamp]]
"""What a named road is made of: how many operations of the shared road it has, the first ones, and the stamps of the seat's own others."""
NO_PLAN: PlanLine = {"length": 0, "inlets": (), "zones": (), "zone": 0, "exit": 0, "detectors": (), "words": 0, "replicas": ()}
"""The plan of a state that has not read a plan."""


def plan_value(plan: PlanLine, kind: str, index: int) -> int | None:
    """Return the value that the plan gives an object; None for `start`, which a plan does not set."""
    if kind == "inflow":
        return int(plan["inlets"][index][1])
    if kind in ("limit", "slow"):
        return int(plan["zones"][index][kind == "slow"])
    return {"block": 0, "watch": 1, "start": None}[kind]


class Replica:
    """A road with the list of its changes. New operations wait until somebody asks for the road."""

    def __init__(self, index: int, state: State) -> None:
        self.index, self._state = index, state
        self.begun = self.version = state.begun  # the first and the present version of its list
        self.marks: dict[Stamp, int] | None = None  # line -> version of its last change, relative to `begun`
        self.own: dict[Operation, None] = {}  # made at this seat, in order
        self.places: dict[Operation, int] = {}  # operation -> its place in order of arrival
        self.size: int = 0  # how many operations it holds
        self._road: Road | None = None
        self._waiting: list[Operation] = []

    @property
    def at(self) -> str:
        """Return its name in the program."""
        return f"seat{self.index}" if self.index else "shared"

    @property
    def road(self) -> Road:
        if self._road is None:
            self._road, self._waiting = self.build(), []
        if self._waiting:
            waiting, self._waiting = self._waiting, []
            self.become(self._road.adding(waiting))
        return self._road

    async def catch_up(self) -> None:
        """Apply waiting operations in pieces, so that other seats get their turn in between. The property `road` still applies all."""
        while self._road is not None and len(self._waiting) > APPLIED_AT_ONCE:
            part, self._waiting = self._waiting[:APPLIED_AT_ONCE], self._waiting[APPLIED_AT_ONCE:]
            self.become(self._road.adding(part))
            await asyncio.sleep(0)

    def adopt(self, road: Road) -> None:
        """Replace the road by one that has the waiting operations."""
        self._waiting = []
        self.become(road)

    def build(self) -> Road:
        """Build its road from all the operations that it holds."""
        raise NotImplementedError

    def become(self, road: Road) -> None:
        """Replace the road, and mark the lines that may look different."""
        before, self._road = self._road, road
        if self.marks is not None and before is not None:
            self.mark(sorted(find_altered_lines(before, road)))

    def hold(self, operations: Iterable[Operation]) -> list[Operation]:
        """Hold operations, and return those that are new."""
        fresh = []
        for operation in operations:
            if operation not in self.places:
                self.places[operation] = intern_int(self.size)
                self.size += 1
                fresh.append(operation)
        if self._road is not None:
            self._waiting += fresh
        return fresh

    def mark(self, lines: Iterable[Stamp]) -> None:
        """Mark lines of the list as altered, in this order."""
        if self.marks is not None:
            for line in lines:
                self.version += 1
                self.marks[line] = intern_int(self.version - self.begun)

    def begin_list(self) -> dict[Stamp, int]:
        """Return the marks. The first time, all lines are new."""
        road = self.road
        if self.marks is None:
            self.marks = {}
            self.mark(sorted(all_lines(road)))
        return self.marks


class SharedReplica(Replica):
    """The shared road."""

    def __init__(self, state: State) -> None:
        super().__init__(0, state)
        self._order: list[Operation] = []
        self._roads: dict[int, Road] = {}  # by the number of operations: values of the road
        self.greatest = 0  # the greatest count of its operations

    def build(self) -> Road:
        return self.upto(self.size)

    def hold(self, operations: Iterable[Operation]) -> list[Operation]:
        fresh = super().hold(operations)
        self._order += fresh
        self.greatest = max([self.greatest, *(one.stamp[0] for one in fresh)])
        return fresh

    def operations(self, first: int = 0, end: int | None = None) -> list[Operation]:
        """Return its operations in order of arrival, from place `first` to before `end`, except those that cannot be read."""
        return self._order[first:end]

    def upto(self, size: int) -> Road:
        """Return the road of the first `size` operations."""
        if size not in self._roads:
            base = max((one for one in self._roads if one < size), default=0)
            road = self._roads[base] if base in self._roads else self._state.empty
            self.keep(size, road.adding(self._order[base:size]))
        return self._roads[size]

    def keep(self, size: int, road: Road) -> None:
        """Keep a value of the road for the seats that will need it, and drop values that none needs."""
        self._roads[size] = road
        used = {seat.upto for seat in self._state.seats if seat.key}
        for old in [one for one in self._roads if one not in used][:-MOST_SHARED_ROADS]:
            del self._roads[old]

    def become(self, road: Road) -> None:
        super().become(road)
        self.keep(self.size - len(self._waiting), road)

    def prepare(self) -> None:
        """Build the roads that will be needed, before anybody asks."""
        for size in sorted({self.size, *(seat.upto for seat in self._state.seats if seat.key)}):
            self.upto(size)


class SeatReplica(Replica):
    """A seat: who has it, and what it holds."""

    def __init__(self, index: int, state: State) -> None:
        super().__init__(index, state)
        self.name, self.key = "", ""  # `key` is the hash of its tab's key; empty if nobody has the seat
        self.upto = 0  # how many operations of the shared road it has taken
        self.used: float = 0  # when it last had a tab, in seconds since 1970
        self.done: dict[str, Stamp] = {}  # its operations by their keys
        self.idle: frozenset[Operation] = frozenset()  # private ones that need not be shared, as the list shows
        self.variants: Mapping[str, Variant] = {}  # by name; another object after each change
        self._shareable: tuple[Road, Road, list[Operation]] | None = None

    def build(self) -> Road:
        return self._state.shared.upto(self.upto).adding(self.own)

    def present_variant(self) -> Variant:
        """Return what its road is made of now."""
        places = self._state.shared.places
        return self.upto, [one.stamp for one in self.own if places.get(one, self.upto) >= self.upto]

    def name_variant(self, name: str, variant: Variant | None) -> None:
        """Keep a variant under a name, which may have named another one; None removes it."""
        kept = self.variants if variant is None else {**self.variants, name: variant}
        self.variants = {one: kept[one] for one in kept if variant is not None or one != name}

    def held_by_variants(self) -> set[Stamp]:
        """Return the stamps of the operations that its variants hold."""
        return {stamp for _, stamps in self.variants.values() for stamp in stamps}

    def rebuild_without(self, lines: set[Stamp]) -> None:
        """Build its road again after operations on these lines were forgotten. Lines without operations leave the list."""
        self._road = None
        if self.marks is not None:
            left = {line for line in lines if operations_on(self.road, line)}
            self.mark(sorted(left))
            self.marks = {line: version for line, version in self.marks.items() if line in left or line not in lines}

    def shareable(self) -> list[Operation]:
        """Return the private operations that would change the shared road."""
        if not self._state.private(self):
            return []
        road, shared = self.road, self._state.shared.road
        if self._shareable is None or self._shareable[0] is not road or self._shareable[1] is not shared:
            self._shareable = road, shared, shareable(road, shared, self.own, self._all_shared(shared))
        return self._shareable[2]

    def _all_shared(self, shared: Road) -> Road:
        """Return the shared road with all private operations added. Start from the last such road, which has most of them."""
        lately = self._state.lately
        known, then = lately.pop(self.index, (shared, shared))
        lately[self.index] = shared, (then if known is shared else shared).adding(self._state.private(self))
        if len(lately) > MOST_SHARED_ROADS:
            del lately[next(iter(lately))]
        return lately[self.index][1]

    def look_for_idle(self) -> None:
        """Mark the lines whose operations have become idle, or are no longer idle."""
        given = set(self.shareable())
        idle = frozenset(one for one in self._state.private(self) if one not in given and one in self.road)
        changed, self.idle = idle ^ self.idle, idle
        self.mark(sorted({line_of(self.road, one) for one in changed if one in self.places}))

    def begin_list(self) -> dict[Stamp, int]:
        marks = super().begin_list()
        self.look_for_idle()
        return marks


class State:
    """All that a journal determines."""

    def __init__(self, counter: Counter | None = None, begun: int = 0) -> None:
        """`counter` counts operations. Versions of lists begin above `begun`."""
        self.begun = begun
        self.plan: PlanLine = NO_PLAN
        self.units = Units(METRES, 1.0)  # with the cell at km 0 and the step at minute 0 of the road's file
        self.site = ""
        self.makers: dict[Operation, int] = {}  # the seats that made operations
        self.unsent: dict[Operation, None] = {}  # shared at this site, but not yet returned by the broker
        self.titles: dict[Operation, str] = {}  # the title under which an operation was shared
        self.shares: list[News] = []
        self.works = 0  # how many operations of the shared road every new seat starts with
        self.rate: float = 0
        self.now = 0
        self.stop: int | None = None
        self.by_stamp: dict[Stamp, Operation] = {}
        self.lately: dict[int, tuple[Road, Road]] = {}  # by seat: the shared road, and the same road with all private operations
        self._counter = counter or Counter()
        self.empty = Road(lambda kind, index: plan_value(self.plan, kind, index))
        self.shared = SharedReplica(self)
        self.seats: list[SeatReplica] = []
        self.seats = [SeatReplica(index, self) for index in range(SEATS)]

    def replica(self, index: int) -> Replica:
        """Return the replica of a seat; of seat 0 the shared one."""
        return self.seats[index] if index else self.shared

    # Entries

    def read(self, entry: Mapping[str, Fields], change: Callable[[Entry], Entry] = lambda entry: entry) -> None:
        """Apply an entry of a journal, or what `change` makes of it; raise `Malformed` if it cannot be read."""
        (kind, value), = entry.items()
        try:
            change(read_entry(kind, value, self.site)).apply(self)
        except (KeyError, IndexError, TypeError, ValueError, OverflowError) as fault:
            why = str(fault) if isinstance(fault, ValueError) else repr(fault)
            raise Malformed(f"has a malformed entry `{kind}`: {why}") from None

    def intern(self, operation: Operation) -> Operation:
        """Return the equal operation that is already held, or this one."""
        self._counter.hold(operation.stamp[0])
        return self.by_stamp.setdefault(operation.stamp, operation)

    def hold_shared(self, operations: Iterable[Operation], is_unsent: bool, title: str = "") -> list[Operation]:
        """Let the shared road hold operations. Return those that are new there."""
        fresh = self.shared.hold(operations)
        for operation in fresh:
            if is_unsent:
                self.unsent[operation] = None
            if title:
                self.titles[operation] = title
            seat = self.seats[self.makers.get(operation, 0)]
            if operation in seat.own and seat.marks is not None:
                seat.mark([line_of(seat.road, operation)])  # it is not private any more
        return fresh

    def take(self, seat: SeatReplica, upto: int) -> None:
        came, seat.upto = self.unseen(seat, upto), max(seat.upto, upto)
        seat.hold(came)

    def free(self, index: int) -> None:
        self.lately.pop(index, None)
        for operation in self.seats[index].own:
            del self.makers[operation]
        for replica in (self.shared, *self.seats):  # lists name the seat that made an operation
            if replica.marks is not None:
                replica.mark(sorted({line_of(replica.road, one) for one in self.seats[index].own if one in replica.places}))
        self.seats[index] = SeatReplica(index, self)

    def add_news(self, news: News) -> None:
        self.shares = [*self.shares, news][-MOST_NEWS:]

    # Questions

    def private(self, seat: SeatReplica) -> list[Operation]:
        """Return the seat's own operations that have not been shared."""
        return [one for one in seat.own if one not in self.shared.places]

    def has_private(self, seat: SeatReplica) -> bool:
        """Return whether freeing a seat would lose variants, or private changes that would change the shared road."""
        return bool(seat.variants) or bool(seat.shareable())

    def operations_of(self, variant: Variant) -> list[Operation]:
        """Return the operations that a variant is made of."""
        upto, stamps = variant
        return [*self.shared.operations(0, upto), *(self.by_stamp[one] for one in stamps if one in self.by_stamp)]

    def unseen(self, seat: SeatReplica, upto: int | None = None) -> list[Operation]:
        """Return the shared operations that the seat has not taken and does not hold already."""
        return [one for one in self.shared.operations(seat.upto, upto) if one not in seat.places]

    # Forgetting

    def forgettable(self, seat: SeatReplica, kept: int) -> list[Stamp]:
        """Return the private operations that no longer have an effect, except the newest `kept` and those of variants. No road differs
        without them."""
        private = self.private(seat)
        if len(private) <= kept:
            return []
        gone = find_forgettable(seat.road, self.shared.road, seat.own, kept, seat.held_by_variants())
        return [one.stamp for one in private if one in gone]

    def forget(self, seat: SeatReplica, stamps: Iterable[Stamp]) -> None:
        """Drop private operations of a seat, which have no effect."""
        wanted = set(stamps)
        gone = [one for one in seat.own if one.stamp in wanted]
        lines = set() if seat.marks is None else {line_of(seat.road, one) for one in gone}
        for operation in gone:
            del seat.own[operation], seat.places[operation], self.makers[operation]
            self.by_stamp.pop(operation.stamp, None)
        seat.rebuild_without(lines)

    def forget_keys(self, seat: SeatReplica) -> None:
        """Drop keys whose operations were forgotten, except the newest."""
        gone = [key for key, stamp in seat.done.items() if stamp not in self.by_stamp]
        for key in gone[:-MOST_FORGOTTEN_KEYS]:
            del seat.done[key]

    # Compaction

    def entries(self) -> Iterator[Entry]:
        """Yield entries that give the same state, each operation once."""
        yield Folder(JOURNAL_FORM, self.plan, self.site, self.units.origin, self.units.begin)
        yield Clock(self.rate, self.now, self.stop)
        for seat in self.seats[1:]:
            if seat.key:
                yield SeatGrant(seat.index, seat.name, seat.key, seat.used)
        for operation in self.shared.places:
            yield self._shared_entry(operation)
        yield NewsList(self.shares)
        if self.works:
            yield Works(self.works)
        for seat in self.seats[1:]:
            yield from (OwnOperation(seat.index, one) for one in self.private(seat))
            if seat.upto:
                yield Take(seat.index, seat.upto)
            if seat.done:
                yield Keys(seat.index, [*seat.done.items()])
            yield from (NamedVariant(seat.index, name, *variant) for name, variant in seat.variants.items())

    def _shared_entry(self, operation: Operation) -> Entry:
        if operation in self.makers:
            return OwnOperation(self.makers[operation], operation, is_shared=True, is_unsent=operation in self.unsent,
                                title=self.titles.get(operation, ""))
        return Arrival([operation], title=self.titles.get(operation, ""), is_unsent=operation in self.unsent)
