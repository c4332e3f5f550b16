"""Give seats to tabs, let other tabs take them over, and free seats that nobody has used for a day.

If the disk refuses writes when a seat is given, the seat is written to the journal later. Until then its key contains a signed copy of
the seat's number and name, so that the tab gets the seat back even if the server is killed.
"""
from __future__ import annotations

import asyncio
import base64
import hashlib
import hmac
import logging
import secrets
import time
from typing import Callable, TypedDict

from ..base.names import NO_NAME, fold_look_alikes, is_name
from ..base.refusals import Refused
from ..journal.entries import SeatRelease, SeatGrant, SeatUse
from ..journal.state import SeatReplica, State
from ..model.operations import SEATS
from ..model.reading import LONGEST_NAME, clean_text
from .keeper import A_MOMENT, SHARED, Keeper, NotKept, wait_until_written

JUMP = 60.0  # seconds that the system's clock must differ from the time that passed, to count as a jump
NOTED = 1 / 24  # how often the use of a seat is noted, as a fraction of the time after which unused seats are freed


def digest(key: str) -> str:
    return hashlib.sha256(key.encode("utf-8", "replace")).hexdigest()


ListedSeat = TypedDict("ListedSeat", {"seat": int, "at": str, "name": str, "here": bool, "private": int})
"""A seat that somebody has, in the form of a reply. `private` is the number of changes that it has not shared."""


class Seating:
    """The seats of a laboratory."""

    def __init__(self, keeper: Keeper) -> None:
        self._keeper = keeper
        self._giving = asyncio.Lock()
        self.steady = SteadyClock(keeper.settings.day * NOTED)
        self.secret = secrets.token_bytes(16)  # signs keys; nobody else has it
        self._unkept: dict[int, SeatGrant] = {}  # seats that were given while the disk refused writes
        self._listed: list[ListedSeat] = []  # the last list whose seats were all on the disk
        keeper.listeners.trouble.on(self._keep)

    @property
    def _state(self) -> State:
        return self._keeper.state

    def _keep(self) -> None:
        """Once the disk accepts writes again, write the seats that were given meanwhile, before any operation of theirs."""
        while self._unkept and self._keeper.journal.fault is None:
            index, entry = self._unkept.popitem()
            if self._state.seats[index].key == entry.key:
                self._keeper.record(entry)

    # Lists

    def list_seats(self) -> list[ListedSeat]:
        """Return the seats that somebody has."""
        return [{"seat": seat.index, "at": seat.at, "name": seat.name, "here": seat.index in self._keeper.connected,
                 "private": len(seat.shareable())} for seat in self._state.seats[1:] if seat.key]

    async def list_saved_seats(self, turn: int | None = None) -> list[ListedSeat]:
        """Return the seats that somebody has, when they are on the disk; in the turn of a seat if `turn` is given. If the disk does not
        answer, return the last list that was on the disk."""
        async def look() -> list[ListedSeat]:
            return self.list_seats()

        async def in_turn() -> list[ListedSeat]:
            return await (look() if turn is None else self._keeper.ask(turn, (), look))
        asked = asyncio.ensure_future(self._keeper.read_committed(in_turn))
        while not (await asyncio.wait([asked], timeout=A_MOMENT))[0]:
            if self._listed and self._keeper.journal.has_waited(A_MOMENT):
                asked.cancel()
                kept = [one.copy() for one in self._listed]
                for seat in kept:
                    seat["here"] = seat["seat"] in self._keeper.connected
                return kept
        self._listed = asked.result()
        return self._listed

    # Coming

    async def join(self, name: str, key: str, take: int | None) -> tuple[int, str]:
        """Give a tab a seat: the seat of its key, the seat `take` that it takes over, or a new one. Return the seat's index and its key."""
        if take is None and key:
            known = [seat for seat in self._state.seats[1:] if seat.key and hmac.compare_digest(seat.key, digest(key))]
            if known:
                return known[0].index, key
        async with self._giving:
            if take is not None:
                return await self._take_over(take)
            return await (self._give_again(key) if key else self._new_seat(name))

    async def _take_over(self, index: int) -> tuple[int, str]:
        if not 1 <= index < SEATS or not self._state.seats[index].key:
            raise self._refuse_with_seats("NoSuchSeat", "nobody has this seat")
        if index in self._keeper.connected:
            raise self._refuse_with_seats("SeatConnected", "a tab is connected to this seat")
        return await self._give(index, self._state.seats[index].name)

    async def _new_seat(self, name: str) -> tuple[int, str]:
        if not is_name(name):
            raise self._refuse_with_seats("NoName", NO_NAME)
        alike = self._find_similar_name(name)
        if alike is not None:
            hint = "" if alike == name else f", and {name} looks like it"
            raise self._refuse_with_seats("NameTaken", f"there is a seat of {alike} already{hint}: take it over, or choose another name")
        free = [seat.index for seat in self._state.seats[1:] if not seat.key]
        if not free:
            raise self._refuse_with_seats("AllSeatsTaken", "all 63 seats are taken: take one over")
        return await self._give(free[0], name, self._state.works)

    async def _give_again(self, key: str) -> tuple[int, str]:
        """Give a tab the seat that its signed key names. The seat was given while the disk refused writes, and must be free."""
        said, _, name = key.partition(".")[2].partition(".")
        index = int(said) if said.isdecimal() and len(said) <= 2 else 0
        is_signed = hmac.compare_digest(self._sign(key[:8], index, name).encode(), key.encode("utf-8", "replace"))
        if not is_signed or name != clean_text(name, LONGEST_NAME) or self._state.seats[index].key or self._find_similar_name(name) is not None:
            raise self._refuse_with_seats("UnknownKey", "this seat was taken over or freed: choose a seat")
        return await self._give(index, name, self._state.works, key)

    def _find_similar_name(self, name: str) -> str | None:
        """Return the name of a seat that is equal to this name or looks like it; None if no seat has such a name."""
        return next((seat.name for seat in self._state.seats if seat.key and fold_look_alikes(seat.name) == fold_look_alikes(name)), None)

    def _refuse_with_seats(self, text: str, why: str) -> Refused:
        return Refused(text, why, seats=self.list_seats())

    async def _give(self, index: int, name: str, upto: int = 0, key: str = "") -> tuple[int, str]:
        key = key or secrets.token_urlsafe(12)
        self._keeper.connected.add(index)  # so that nobody else gets the seat meanwhile
        try:
            try:
                await self._keeper.turns.ask(SHARED, self._keeper.require_writable)
                await wait_until_written(self._keeper.apply_when_written(self._entry(index, name, key, upto), lambda: None), {})
            except NotKept:  # the disk does not accept writes: give the seat anyway, so that the newcomer can view everything
                key = self._sign(key[:8], index, name)
                entry = self._entry(index, name, key, upto)

                async def give_unsaved() -> None:
                    entry.apply(self._state)
                    self._unkept[index] = entry
                await self._keeper.turns.ask(SHARED, give_unsaved)
        except BaseException:  # also if the tab has gone meanwhile
            self._keeper.connected.discard(index)
            raise
        return index, key

    def _entry(self, index: int, name: str, key: str, upto: int) -> SeatGrant:
        return SeatGrant(index, name, digest(key), int(time.time()), upto=upto)

    def _sign(self, bits: str, index: int, name: str) -> str:
        """Return a key that contains the seat's number and name, signed. `bits` make it random."""
        said = f"{index}.{name}"
        seal = hmac.digest(self.secret, f"{bits}.{said}".encode("utf-8", "replace"), "sha256")[:12]
        return f"{bits}{base64.urlsafe_b64encode(seal).decode()}.{said}"

    # Going

    def leave(self, index: int) -> None:
        """Note that the tab of a seat has gone."""
        self._keeper.connected.discard(index)
        if self._keeper.journal.fault is None and self._state.seats[index].key:
            self._note_use(index)

    def _note_use(self, index: int) -> None:
        self._keeper.record(SeatUse(index, int(time.time())))

    async def release_seat(self, index: int) -> None:
        """Free a seat when its earlier commands are done. Raise `Refused` if it has changes that are not shared."""
        async def body() -> asyncio.Future[None]:
            if self._state.has_private(seat := self.require_owned(index)):
                raise Refused("PrivateChanges", "this seat has variants: remove them first" if seat.variants else
                              "this seat has changes that are not shared: share or undo them first")
            await self._keeper.require_writable()
            return self._free(index)
        await wait_until_written(await self._keeper.turns.ask(index, body), {})

    def require_owned(self, index: int) -> SeatReplica:
        """Return a seat. Raise `Refused` if an earlier command has released it."""
        seat = self._state.seats[index]
        if not seat.key:
            raise Refused("NotYourReplica", "this tab has left its seat: say `hello` again")
        return seat

    def _free(self, index: int) -> asyncio.Future[None]:
        self._keeper.target_steps.pop(index, None)
        return self._keeper.record(SeatRelease(index))

    def free_unused(self) -> None:
        """Free the seats that nobody has used for a day and that have no private changes. Write down at intervals which seats are used,
        so that this is known after a kill. Do nothing for an hour after a start or a jump of the clock."""
        if not self.steady.is_steady():
            return
        now, day = time.time(), self._keeper.settings.day
        for seat in [one for one in self._state.seats[1:] if one.key]:
            if seat.index in self._keeper.connected:
                if seat.used < now - day * NOTED:
                    self._note_use(seat.index)
            elif seat.used < now - day and not self._state.has_private(seat):
                logging.info("seat %d of %s was not used for a day and is freed", seat.index, seat.name)
                self._free(seat.index)
                self._keeper.listeners.seats.notify()


class SteadyClock:
    """Compares the system's clock with a clock that cannot be set, to notice jumps."""

    def __init__(self, patience: float, wall: Callable[[], float] = time.time,
                 passed: Callable[[], float] = time.monotonic) -> None:
        """`patience` is the time in seconds that must pass without a jump; `wall` is the system's clock, `passed` the other one."""
        self._patience, self._wall, self._passed = patience, wall, passed
        self._offset, self._since = wall() - passed(), passed()

    def is_steady(self) -> bool:
        """Return whether the clock has run without a jump for long enough. Must be called at intervals."""
        offset, now = self._wall() - self._passed(), self._passed()
        if abs(offset - self._offset) > JUMP:
            self._offset, self._since = offset, now
        return now - self._since >= self._patience
