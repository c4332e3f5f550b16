"""Make operations for seats, which are their gestures, and share and take them.

An operation is checked, applied to the state, written to the journal, and given to the program, in this order. Since it was checked,
the program accepts its edits. This module has no sockets.
"""
from __future__ import annotations

import asyncio
import time
from dataclasses import dataclass, replace
from typing import TYPE_CHECKING, Awaitable, Callable, Mapping, TypedDict, TypeVar, Union

from ..base.json_values import Json
from ..base.refusals import Refused
from ..journal.checks import Checks
from ..journal.entries import Arrival, NamedVariant, OwnOperation, Share, Take
from ..journal.state import Replica, SeatReplica, State, Variant
from ..model.choices import find_overruling, sendable, find_undoable, would_change
from ..model.demands import kept_demand, written_demand
from ..model.lines import line_of
from ..model.operations import About, Operation, Shape, Stamp, exclude, lift, put, undo
from ..model.reading import Malformed
from ..model.road import Road, change, repeat
from ..program.program import Times
from .change_list import ListedOperation, Lister
from .keeper import SHARED, Keeper, wait_until_written
from .road_clock import RoadClock
from .seating import Seating

if TYPE_CHECKING:
    from .new_road import NewRoad

MOST_IN_TAKE = 200  # operations in the reply to a take
LOOKED_AT = 500  # operations that are looked at for news
LIST_AT_ONCE = 0.02  # seconds for the lines of a reply; the page asks for the remaining lines
MOST_BLOCKED = 5  # operations that undo skips, in a reply
MOST_VARIANTS = 16  # of a seat

ReplyFields = Mapping[str, object]
"""The fields of a reply to a tab."""
NewsReply = TypedDict("NewsReply", {"size": int, "from": "list[str]", "shares": "list[dict[str, Json]]", "changes": "list[ListedOperation]"})
Done = asyncio.Future[None]
"""An entry that is being written. It is done once the entry is on the disk."""
StampOrKey = Union[Stamp, str]  # a stamp, or the key of an operation of the seat
T = TypeVar("T")


@dataclass(frozen=True)
class Author:
    """The seat that makes an operation, the count of the operation, and its author, note, time and site."""

    seat: SeatReplica
    count: int
    about: About


MakeOperation = Callable[[Author], Operation]


def require_variant(seat: SeatReplica, name: str) -> Variant:
    """Return the variant of a seat with this name. Raise `Refused` if the seat has no such variant."""
    if name not in seat.variants:
        raise Refused("NoSuchVariant", f"this seat has no variant of the name {name}")
    return seat.variants[name]


class Lab:
    """The laboratory behind a server."""

    def __init__(self, keeper: Keeper) -> None:
        self.keeper = keeper
        self.seating, self.road_clock = Seating(keeper), RoadClock(keeper)
        self._pending: dict[tuple[int, str], Done] = {}  # by seat and key: entries that are being written

    async def open(self, read_road: Callable[[], NewRoad], site: str | None) -> bool:
        """Open the keeper's folder. Return whether it is new."""
        is_new = await self.keeper.open(read_road, site)
        self._checks = Checks(self.state.plan)
        self.keeper.supervise("the task that saves the clock and frees seats", self._look_after)
        return is_new

    @property
    def state(self) -> State:
        return self.keeper.state

    async def _look_after(self) -> None:
        """Save the clock and free unused seats, at intervals."""
        settings, rounds = self.keeper.settings, 0
        while True:
            await asyncio.sleep(1)
            await self.keeper.wait_until_writable()
            if self.keeper.journal.fault is not None:
                continue
            rounds += 1
            self.road_clock.save()
            if rounds % 10 == 0 or settings.day < 60:
                self.seating.free_unused()

    # Operations

    def put_shape(self, by: Author, shape: Shape, demand: float | None = None) -> Operation:
        """Put a shape on top of all. `demand` is what an inflow chance stands for, in cars per hour."""
        return put(by.count, shape, replace(by.about, more=written_demand(demand)))

    def change_line(self, by: Author, called: StampOrKey, shape: Shape | None, top: bool, demand: float | None = None) -> Operation:
        """Change the shape of a line, or withdraw the line if `shape` is None. It keeps its height unless `top` is true."""
        road, line = by.seat.road, self._find_line(by.seat, called)
        said = demand if demand is not None or shape is None else kept_demand(road, line, shape)
        return change(road, by.count, line, shape, top, replace(by.about, more=written_demand(said)))

    def lift_line(self, by: Author, called: StampOrKey) -> Operation:
        """Put a line on top, with its present shape."""
        return lift(by.count, self._find_line(by.seat, called), by.about)

    def undo(self, by: Author, called: StampOrKey) -> Operation:
        """Undo an operation."""
        undone = self._find_operation(by.seat, called)
        root = by.seat.road.operations.root_of(undone)
        if root.excludes is not None and root.site != self.state.site:
            raise Refused("NothingToUndo", f"only site {root.site} can undo its own exclusion of site {root.excludes[0]}: include "
                          "that site again instead")
        if not would_change(by.seat.road, undone):
            raise Refused("NothingToUndo", self._why_nothing(by.seat, undone))
        return undo(by.count, undone, by.about)

    def put_again(self, by: Author, called: StampOrKey) -> Operation:
        """Repeat what an operation did to its line, on top of all."""
        old = self._find_operation(by.seat, called)
        again = repeat(by.seat.road, by.count, old, replace(by.about, note=old.about.note, more=old.about.more))
        if again is None:
            raise Refused("NothingToPut", "an undo cannot be repeated: change the line itself")
        return again

    def exclude_site(self, by: Author, site: str, out: bool) -> Operation:
        """Ignore all past and future operations of a site if `out` is true; otherwise include them again."""
        if site == self.state.site:
            raise Refused("OwnSite", f"site {site} cannot exclude itself: another site must do it")
        return exclude(by.count, site, out, by.about)

    def _find_operation(self, seat: SeatReplica, called: StampOrKey) -> Operation:
        """Return an operation that the seat holds, given its stamp or its key."""
        stamp = seat.done.get(called) if isinstance(called, str) else called
        if stamp is None:
            raise Refused("NoSuchChange", f"this seat has made no change with the key {called}")
        held = self.state.by_stamp.get(stamp)
        if held is None or held not in seat.places:
            raise Refused("NoSuchChange", f"this seat holds no change with the stamp {list(stamp)}: if it is somebody else's, `take` first")
        return held

    def _find_line(self, seat: SeatReplica, called: StampOrKey) -> Stamp:
        """Return the name of a line of the seat's list. `called` is that name, or an operation that changed the line."""
        named = isinstance(called, tuple) and seat.road.setters_of(called)
        line = called if isinstance(called, tuple) and named else line_of(seat.road, self._find_operation(seat, called))
        first = seat.road.operations.held.get(line)
        if not seat.road.changes_of(line) or first is not None and first.line is None:
            raise Refused("NoSuchChange", "this change has no shape: undo it, or include the site again that it excludes")
        return line

    def _why_nothing(self, seat: SeatReplica, operation: Operation) -> str:
        """Return why the undo of an operation would change nothing."""
        operations = seat.road.operations
        if operation.site in operations.excluded:
            return f"site {operation.site} is excluded, so this change has no effect already"
        by = [other for other in find_overruling(seat.road, operation) if other is not operation]
        if not operations.counts(operation):
            by = [other for other in operations.undos_of(operation) if operations.counts(other)]
            return f"{' and '.join(sorted({other.about.who for other in by}))} undid this change already"
        later = sorted({other.about.who for other in by if other.undoes is None})
        return f"{' and '.join(later)} changed its line since" if later else "nothing of this change is in force any more"

    async def make(self, index: int, times: Times, key: str, note: str, make_operation: MakeOperation) -> ReplyFields:
        """Make an operation, at most one for each key. Return the reply when the operation is on the disk."""
        async def make_once() -> tuple[ReplyFields, Done | None]:
            seat = self.seating.require_owned(index)
            if key in seat.done:  # a tab sends a key again after a lost connection: confirm the operation that it made then
                again: ReplyFields = {"stamp": seat.done[key], "touched": None, "again": True, **self.list_of(seat, seat.version)}
                return again, self._pending.get((index, key))
            await self.keeper.require_writable()
            before, version = seat.road, self._list_version(seat)
            operation, after = self._new_operation(seat, note, make_operation)
            done = self._pending[index, key] = self.keeper.record(OwnOperation(index, operation, key))
            done.add_done_callback(lambda _: self._pending.pop((index, key), None))
            seat.adopt(after)
            touched = await self.keeper.differences.first_change(before, after)
            return {"stamp": operation.stamp, "touched": touched, **self.list_of(seat, version)}, done
        return await self._write(index, make_once, times, takes_long=False)

    def _new_operation(self, seat: SeatReplica, note: str, make_operation: MakeOperation) -> tuple[Operation, Road]:
        """Return a new operation, and the seat's road with it. Raise `Refused` if not every site would take it, or if it would change
        nothing."""
        by = Author(seat, self.keeper.counter.next(), About(seat.name, note, int(time.time()), self.state.site))
        try:
            operation = self.read(make_operation(by).written())
        except Malformed as fault:
            raise Refused(fault.refusal, str(fault)) from None
        if operation.site in seat.road.operations.excluded and operation.excludes is None:
            raise Refused("SiteExcluded", "this site is excluded: changes made here have no effect until another site includes it again")
        after = seat.road.adding([operation])
        if after.layers == seat.road.layers and after.operations.excluded == seat.road.operations.excluded:
            raise Refused("NoEffect", self._why_no_effect(operation))
        return operation, after

    def _why_no_effect(self, operation: Operation) -> str:
        if operation.excludes is not None:
            return f"site {operation.excludes[0]} is {'excluded' if operation.excludes[1] else 'included'} already"
        if operation.withdraws:
            return "nothing of this change is in force any more, so there is nothing to withdraw"
        if not operation.sets:
            return "this change is on top already, or nothing of it is in force any more"
        return "the road already has these values"

    async def _write(self, turn: int, make: Callable[[], Awaitable[tuple[T, Done | None]]], times: Times,
                     takes_long: bool | None = None) -> T:
        """Call `make` in the turn of a seat, and return its result when the entry that it wrote, if any, is on the disk. The program gets
        the edits when it is next asked."""
        made, done = await self.keeper.ask(turn, (), make, takes_long=takes_long)
        if done is not None:
            await wait_until_written(done, times)
        return made

    async def name_variant(self, index: int, times: Times, name: str, is_kept: bool) -> ReplyFields:
        """Keep what a seat's road is made of under a name, or remove the variant of this name."""
        async def make() -> tuple[ReplyFields, Done | None]:
            seat = self.seating.require_owned(index)
            await self.keeper.require_writable()
            if not is_kept:
                require_variant(seat, name)
            elif len({*seat.variants, name}) > MOST_VARIANTS:
                raise Refused("TooManyVariants", f"a seat has at most {MOST_VARIANTS} variants: remove one first")
            upto, stamps = seat.present_variant() if is_kept else (None, ())
            done = self.keeper.record(NamedVariant(index, name, upto, stamps))
            return {"name": name, "variants": [*seat.variants]}, done
        return await self._write(index, make, times, takes_long=False)

    # Lists

    def _list_version(self, seat: SeatReplica) -> int:
        """Return the version of a seat's list. Begin the list if it was not begun."""
        seat.begin_list()
        return seat.version

    def list_of(self, replica: Replica, version: int) -> ReplyFields:
        """Return the lines that have changed since a version of the list, and what undo and redo would do."""
        marks = replica.begin_list()
        lines, after = Lister(self.state, replica).lines_since(marks, version - replica.begun, LIST_AT_ONCE)
        found = find_undoable(replica.road, replica.own)
        return {"layers": lines, "since": version, "next": replica.version if after is None else replica.begun + after,
                "more": after is not None, "undo": found.undo and found.undo.stamp, "redo": found.redo and found.redo.stamp,
                "blocked": self._blocked(replica, found.blocked)}

    def _blocked(self, replica: Replica, some: list[Operation]) -> list[ReplyFields]:
        """Return the seat's operations that undo skips, each with the names of those who changed its line since."""
        return [{"stamp": one.stamp, "by": sorted({other.about.who for other in find_overruling(replica.road, one)
                                                   if other not in replica.own})} for one in some[:MOST_BLOCKED]]

    # What is shared

    async def share(self, index: int, times: Times, *, stamps: set[Stamp] | None, title: str) -> ReplyFields:
        """Share the operations of a seat with these stamps; without stamps all that have an effect."""
        async def make() -> tuple[tuple[list[Stamp], int | None], Done | None]:
            seat, shared, done = self.seating.require_owned(index), self.state.shared, None
            given = seat.shareable() if stamps is None else sendable(seat.road, shared.road, seat.own, stamps)
            before, found = shared.road, [one.stamp for one in given]
            if given:
                await self.keeper.require_writable()
                done = self.keeper.record(Share(index, found, seat.name, title, int(time.time())))
            return (found, await self.keeper.differences.first_change(before, shared.road)), done
        found, touched = await self._write(index, make, times)
        if found:
            self.keeper.listeners.shared.notify(touched)
        return {"message": "shared", "size": len(found), "stamps": found, "touched": touched}

    async def take(self, index: int, times: Times) -> ReplyFields:
        """Take all operations that have been shared so far."""
        async def make() -> tuple[ReplyFields, Done | None]:
            seat, done = self.seating.require_owned(index), None
            await self.keeper.require_writable()
            version, before, upto = self._list_version(seat), seat.road, seat.upto
            came = self.state.unseen(seat, self.keeper.confirmed)
            if seat.upto < self.keeper.confirmed:
                done = self.keeper.record(Take(index, self.keeper.confirmed))
                await seat.catch_up()
            shared = self.state.shared
            touched = await self.keeper.differences.first_change(before, seat.road, (shared.upto(upto), shared.upto(seat.upto)))
            lister = Lister(self.state, seat)
            return {"touched": touched, "size": len(came),
                    "changes": [lister.operation(one) for one in came[-MOST_IN_TAKE:]], **self.list_of(seat, version)}, done
        return await self._write(index, make, times, takes_long=True)

    def unseen_shares(self, index: int, most: int) -> NewsReply:
        """Return what others have shared and this seat has not taken, with the newest `most` operations."""
        seat, shared, upto = self.state.seats[index], self.state.shared, self.keeper.confirmed
        begin = max(seat.upto, upto - LOOKED_AT)  # a seat that never takes may have missed very many
        fresh = [one for one in shared.operations(begin, upto) if one not in seat.own]
        shares = [one for one in self.state.shares if seat.upto < one.upto <= upto]
        lister = Lister(self.state, shared, self.keeper.road(SHARED))
        return {"size": len(fresh) + begin - seat.upto, "from": sorted({one.about.who for one in fresh})[:10],
                "shares": [one.reply_fields() for one in shares[-20:]],
                "changes": [lister.operation(one) for one in fresh[-most:]]}

    # What comes from other sites

    async def receive(self, operations: list[Operation], title: str, times: Times) -> bool:
        """Hold operations of another site, as `read` returns them, on the shared road. Return whether any was new. `times` gets the
        seconds of `work`."""
        async def make() -> tuple[tuple[bool, int | None], Done | None]:
            shared = self.state.shared
            fresh = [one for one in operations if one not in shared.road]
            if not fresh:
                return (False, None), None
            await self.keeper.require_writable()
            before, began = shared.road, time.thread_time()
            done = self.keeper.record(Arrival(fresh, fresh[0].about.who, title, int(time.time()), is_unsent=False))
            await shared.catch_up()
            touched = await self.keeper.differences.first_change(before, shared.road)
            times["work"] = time.thread_time() - began
            return (True, touched), done
        is_new, touched = await self._write(SHARED, make, times)
        if not is_new:
            await wait_until_written(self.keeper.journal.wait_until_written(), times)
            return False
        self.keeper.listeners.shared.notify(touched)
        return True

    def read(self, written: Json) -> Operation:
        """Return an operation of a seat or of another site. Raise `Malformed` if it is not one that every site takes."""
        return self._checks.read(written)
