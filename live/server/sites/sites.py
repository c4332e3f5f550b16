"""Exchange shared operations with other sites, through a broker.

A site sends an operation again until the broker has returned it. It acknowledges a message to the broker when the operations are on the
disk. Every few seconds it announces itself, hashes of the operations that it holds, and a hash of the road that they give. A site that
hears a different hash twice sends the operations that the other one may lack. So nothing is lost if a broker is killed or stores nothing.

A connection is open once the broker has accepted it: then this site sends. It is heard while the broker returns this site's announcements:
the page says so.
"""
from __future__ import annotations

import argparse
import asyncio
import collections
import hashlib
import itertools
import logging
import math
import secrets
import socket
import time
from time import thread_time
from types import TracebackType
from typing import Callable, Deque, Iterator, Mapping, NamedTuple, Sequence

from ..base.json_values import Json
from ..base.refusals import Refused
from ..base.supervised import supervise
from ..journal.entries import Acknowledgement
from ..journal.naming import is_far
from ..journal.state import SITE_FORM, State
from ..lab.gestures import Lab
from ..lab.keeper import SHARED, wait_until_written
from ..model.operations import Operation, sort_by_stamp
from ..model.reading import LONGEST_NOTE, Malformed, clean_text
from ..model.road import Road
from ..program.program import Times
from .brokers import Arrival, Client, Handlers, broker_of, check_version
from .inbox import Inbox
from .message_limits import ANNOUNCEMENTS, FLOOD, REPEATS, STRANGERS, UNSEALED, Floods, drop_oldest
from .messages import InvalidMessage, form_of, read_message, site_of, sum_of
from .outbox import Outbox
from .peers import ANNOUNCE_EVERY, HEARD, BrokerState, Peers, Site
from .seals import Seal, Unsealed, key_of, road_of
from .sums import Bound, Sums, hash_of_edits

LONGEST_RESEND_PAUSE = 300.0  # seconds after which an operation is sent again at the latest
LARGE_MESSAGE = 100_000  # bytes; a longer message is read in a thread
OPERATIONS_AT_ONCE = 500  # operations that are sent, or taken, without a pause
READ_FOR = 0.002  # seconds of processor time for reading operations, until others get twice as long
MOST_SENTENCES, MOST_STAY = 5, 20  # sentences that are shown: said once, and true at present
MOST_DONE = 20_000  # messages that bring nothing new and are known by their hashes
ADDED_AT_ONCE = 2_000  # operations that are added to the hashes without a pause
LASTED = 30.0  # seconds of connection after which a new client connects after a short pause again
SITES_TOPIC = "road/sites"
SENDERS = {STRANGERS: "A sender that does not announce itself", UNSEALED: "A sender without this site's --site-key",
           ANNOUNCEMENTS: "A sender of announcements", REPEATS: "A sender of messages that bring nothing new"}


class Pause(NamedTuple):
    """The pause after a run was sent operations that it may lack."""

    told: float  # when it began
    long: float  # seconds
    place: int  # the place of the operation with which the next piece begins; if it is not 0, that piece is sent without a pause
    held: str  # the hash of the operations that this site held; once it holds others, the pause is as short as the first one


class Sites:
    """The connection to the broker, and the exchange of operations."""

    def __init__(self, lab: Lab, tell: Callable[[], None], options: argparse.Namespace) -> None:
        self._lab, self._keeper, self._tell, self._options = lab, lab.keeper, tell, options
        check_version()
        self._broker = broker_of(options.broker)
        self._seal = Seal(key_of(options.site_key) if options.site_key else None)
        self._road, self._host = road_of(lab.keeper.reference, self._seal.key), socket.gethostname()
        self._operations_topic, self._sum_topic = f"road/{self._road}/operations", f"road/{self._road}/sum"
        self._inbox: Inbox[tuple[str, str, bytes]] = Inbox()  # topic, run and body of each message
        self._outbox = Outbox(self._seal, lambda: lab.keeper.state.titles, self._say)
        self._opened, self._heard = math.inf, -math.inf  # when the connection was opened, and when it was heard last
        self._echoes: dict[bytes, float] = {}  # what the latest announcements had in `echo`, and when they were sent
        self._peers = Peers(lab.keeper, self._road, self._seal.own)
        self._told: Deque[str] = collections.deque(maxlen=MOST_SENTENCES)
        self._sent: dict[Operation, tuple[float, float]] = {}  # when it was sent last, and the seconds until it is sent again
        self._sums: dict[str, tuple[str, str]] = {}  # by run: its latest hash, and this site's hash at that time
        self._pauses: dict[str, Pause] = {}  # by run
        self._floods = Floods()
        self._work = 0.0  # seconds of processor time that the present message has taken
        self._done: dict[bytes, None] = {}  # hashes of messages of operations that can bring nothing new any more
        self._left_out = 0  # messages without a valid seal
        self._counted: tuple[State, int, Sums] = lab.state, 0, Sums()  # how many operations are in the hashes, and these
        self._may_answer = True  # a piece of missing operations was not sent since the last announcement
        self._hashed: tuple[Road, str] | None = None  # a road, and the hash of its values
        self._client = self._new_client()  # now, since wrong options must refuse the start

    # Coming and going

    async def __aenter__(self) -> Sites:
        self._loop, warn = asyncio.get_running_loop(), self._keeper.listeners.ended.notify
        self._tasks = [supervise("the announcements to other sites", self._announce_forever, warn),
                       supervise("the hashes for other sites", self._compare_forever, warn),
                       supervise("the messages of other sites", lambda: self._inbox.take_for_ever(self._receive_waiting), warn),
                       supervise("the connection to the broker", self._stay_connected, warn, self._has_lasted)]
        return self

    async def __aexit__(self, kind: type[BaseException] | None, fault: BaseException | None,
                        trace: TracebackType | None) -> None:
        self._inbox.close()
        for task in self._tasks:
            task.cancel()
        await asyncio.gather(*self._tasks, return_exceptions=True)

    def _new_client(self) -> Client:
        handlers = Handlers(self._on_open, self._on_gone, self._on_message, self._on_receipt, self._on_refusal)
        return Client(handlers, self._options, [(self._operations_topic, 1), (self._sum_topic, 0), (SITES_TOPIC, 0)])

    async def _stay_connected(self) -> None:
        """Stay connected to the broker until a fault ends the client. The next client is a new one."""
        try:
            await self._client.run(*self._broker)
        finally:
            self._note_connection(None)
            self._client = self._new_client()

    def _has_lasted(self, _: float) -> bool:
        """Return whether the connection that has just ended was open for long."""
        return time.monotonic() - self._opened > LASTED

    @property
    def _is_heard(self) -> bool:
        return time.monotonic() - self._heard < HEARD

    def state(self) -> BrokerState:
        """Return the state for tabs: the connection, the sites with which this one exchanges operations, and sentences."""
        return {"state": "connected" if self._is_heard else "away", "unsent": len(self._unreturned()), "behind": self._inbox.behind,
                "sites": [{"site": name, "when": int(site.when)} for name, site in self._peers.others().items()],
                "told": list(self._told), "stays": list(itertools.islice(self._notices(), MOST_STAY)),
                "sealed": self._seal.key is not None, "left_out": self._left_out}

    def _notices(self) -> Iterator[str]:
        """Yield the sentences that are true at present."""
        if self._seal.key is None:
            yield "Anybody who can connect to the broker can send changes: start all sites with --site-key"
        for sender in self._floods.ignored_senders():
            yield (f"{SENDERS.get(sender) or self._peers.describe_site(sender)} sends too many messages: they are ignored for "
                   f"{FLOOD:.0f} seconds")
        if self._left_out:
            yield f"{self._left_out} messages were ignored: they are not sealed with this site's --site-key"
        yield from self._peers.notices()

    def _say(self, sentence: str) -> None:
        """Show a sentence on the page and log it, unless it is shown already."""
        if sentence not in self._told:
            logging.warning("%s", sentence)
            self._told.append(sentence)
            self._tell()

    # What the broker's thread calls

    def _on_open(self, client: Client, longest: int) -> None:
        self._seal.begin_run()
        self._loop.call_soon_threadsafe(self._note_connection, client, longest)

    def _on_gone(self) -> None:
        self._loop.call_soon_threadsafe(self._note_connection, None)

    def _on_refusal(self, why: str) -> None:
        self._loop.call_soon_threadsafe(self._say, why)

    def _on_receipt(self, number: int, code: int) -> None:
        self._loop.call_soon_threadsafe(self._outbox.note_receipt, self._operations_topic, number, code)

    def _on_message(self, message: Arrival, acknowledge: Callable[[], None]) -> None:
        """Put a message into the inbox, unless it brings nothing: then acknowledge it at once."""
        try:
            run, body = self._seal.open(message.topic, message.payload)
        except Unsealed as fault:
            self._left_out += 1
            if not self._floods.count_message(UNSEALED):
                self._loop.call_soon_threadsafe(self._say, f"A message from the broker was ignored: {fault}")
            acknowledge()
            return
        if message.topic == SITES_TOPIC and run in self._seal.own:
            self._look_for_echo(body)
        is_known = hashlib.sha256(body).digest() in self._done
        account = REPEATS if is_known else self._account_of(message.topic, run)
        over = self._floods.count_message(account) if account in SENDERS else self._floods.is_ignored(account)
        if over or is_known:
            acknowledge()
        else:
            self._inbox.put(self._loop, (message.topic, run, body), acknowledge, message.topic != self._operations_topic)

    def _look_for_echo(self, body: bytes) -> None:
        """Note that the connection is heard if a message has what an announcement of this site had in `echo` a moment ago."""
        now = time.monotonic()
        if any(echo in body and now < sent + HEARD for echo, sent in [*self._echoes.items()]):
            was_heard, self._heard = self._is_heard, now
            if not was_heard:
                self._loop.call_soon_threadsafe(self._tell)

    def _account_of(self, topic: str, run: str) -> str:
        """Return the sender as which a message is counted. All runs that were not heard before are one sender, since anybody could
        invent many."""
        if topic == SITES_TOPIC:
            return ANNOUNCEMENTS
        if topic.endswith("/sum"):
            return REPEATS
        return run if self._peers.has_heard(run) else STRANGERS

    def _note_connection(self, client: Client | None, longest: int = 0) -> None:
        """Note that a connection is open, or that it is gone."""
        self._outbox.client, self._heard = None, -math.inf
        self._sent.clear()
        if client is not None:
            self._opened = time.monotonic()
            self._outbox.open(client, longest)
            self._announce_site()
            self.send_shared()
        self._tell()

    # What is sent

    def send_shared(self) -> None:
        """Send the operations that the broker has not returned, in the order of their stamps: new ones at once, others again after
        growing pauses."""
        if self._outbox.client is None:
            return
        now = time.monotonic()
        due = [one for one in sort_by_stamp(self._unreturned()) if sum(self._sent.get(one, (0.0, 0.0))) <= now][:OPERATIONS_AT_ONCE]
        for operation in due:
            _, pause = self._sent.get(operation, (0.0, ANNOUNCE_EVERY / 2))
            self._sent[operation] = now, min(LONGEST_RESEND_PAUSE, 2 * pause)
        self._outbox.send(self._operations_topic, due)

    def _unreturned(self) -> list[Operation]:
        """Return the operations that are on the disk and that the broker has not returned."""
        places, confirmed = self._keeper.state.shared.places, self._keeper.confirmed
        return [one for one in self._keeper.state.unsent if places.get(one, confirmed) < confirmed]

    def _announce_site(self) -> None:
        now, echo = time.monotonic(), secrets.token_hex(8)
        self._echoes = {**{one: sent for one, sent in self._echoes.items() if now < sent + HEARD}, echo.encode(): now}
        self._outbox.publish(SITES_TOPIC, {"site": self._keeper.state.site, "host": self._host, "road": self._road,
                                           "count": self._keeper.counter.greatest, "echo": echo})

    async def _announce_forever(self) -> None:
        while True:
            await asyncio.sleep(ANNOUNCE_EVERY)
            self._announce_site()
            self._tell()

    async def _compare_forever(self) -> None:
        # It does not announce the site, since the hash of a long road takes longer than a site may be silent.
        while True:
            await asyncio.sleep(ANNOUNCE_EVERY)
            try:
                await self.compare()
            except Refused as fault:
                logging.warning("the hashes of this site were not sent: %s", fault.why)

    async def announce(self) -> None:
        """Announce this site, and compare it with others."""
        self._announce_site()
        await self.compare()

    async def compare(self) -> None:
        """Send the operations that the broker has not returned, and the hashes of all."""
        self.send_shared()
        unsent = self._keeper.state.unsent
        self._sent = {one: when for one, when in self._sent.items() if one in unsent}
        self._may_answer = True
        timeline = await self._hash_road()
        self._outbox.send_sum(self._sum_topic, {"timeline": timeline}, await self._sum_up())
        self._tell()

    async def _hash_road(self) -> str:
        """Return a hash of the values in force on the shared road. If it differs between sites with the same operations, their servers
        have different rules."""
        road = self._keeper.road(SHARED)
        if self._hashed is None or self._hashed[0] is not road:
            edits = await self._keeper.differences.between(self._keeper.state.empty, road)
            self._hashed = road, await self._loop.run_in_executor(None, hash_of_edits, edits)
        return self._hashed[1]

    async def _sum_up(self) -> Sums:
        """Return the hashes of the operations on the shared road that are on the disk."""
        while True:
            state, confirmed = self._keeper.state, self._keeper.confirmed
            _, first, sums = self._counted if self._counted[0] is state else (state, 0, Sums())
            end = min(confirmed, first + ADDED_AT_ONCE)
            sums.add(state.shared.operations(first, end))
            self._counted = state, max(first, end), sums
            if end == confirmed:
                return sums
            await asyncio.sleep(0)

    # What comes

    async def _receive_waiting(self, message: tuple[str, str, bytes]) -> None:
        await self._receive(*message)

    async def _receive(self, topic: str, run: str, body: bytes) -> None:
        self._work, is_new, account = 0.0, False, self._account_of(topic, run)
        try:
            value = self._read_message(body) if len(body) < LARGE_MESSAGE else await asyncio.to_thread(self._read_message, body)
            if topic == SITES_TOPIC:
                self._receive_announcement(run, value)
            elif topic.endswith("/sum"):
                await self._receive_hash(run, value)
            else:
                is_new = await self._receive_operations(value, hashlib.sha256(body).digest())
        except (InvalidMessage, Refused) as fault:
            is_new = True
            self._say(f"A message from the broker was ignored: {fault.why if isinstance(fault, Refused) else fault}")
        is_counted, account = account in SENDERS, account if account in SENDERS or is_new else REPEATS
        self._floods.add_work(account, self._work)
        if not is_counted:
            self._floods.count_message(account)

    def _read_message(self, body: bytes) -> Mapping[str, Json]:
        """Return the fields of a message. (For a large one, another thread calls this.)"""
        began = thread_time()
        try:
            return read_message(body)
        finally:
            self._work += thread_time() - began

    def _receive_announcement(self, run: str, value: Mapping[str, Json]) -> None:
        site, host, road, count = site_of(value)
        now = time.time()
        if self._peers.receive_announcement(run, Site(site, host, road, form_of(value), now, now), count):
            self._tell()

    async def _receive_operations(self, value: Mapping[str, Json], known: bytes) -> bool:
        """Take the operations of a message. Report malformed ones, and those with counts too far above the others; take the rest all the
        same. Return whether the message brought anything that was not held."""
        operations = value.get("operations")
        if value.get("form") != SITE_FORM or not isinstance(operations, list):
            raise InvalidMessage(f"it has no list of operations, or is not of form {SITE_FORM}")
        good = await self._read_operations(operations)
        near = self._leave_out_far(sort_by_stamp(good))
        title = clean_text(value.get("title") or "", LONGEST_NOTE)
        is_new = len(good) < len(operations)
        for begin in range(0, len(near), OPERATIONS_AT_ONCE):
            is_new |= await self._take(near[begin:begin + OPERATIONS_AT_ONCE], title)
        if len(near) == len(good):
            self._done[known] = None
            if len(self._done) > MOST_DONE:
                del self._done[next(iter(self._done))]
        return is_new

    async def _read_operations(self, written: Sequence[Json]) -> list[Operation]:
        """Return the operations of a message that every site takes, and report the others in one sentence."""
        good, faults, began = list[Operation](), list[str](), thread_time()
        for value in written:
            try:
                good.append(self._lab.read(value))
            except Malformed as fault:
                faults.append(str(fault))
            if thread_time() > began + READ_FOR:
                self._work += thread_time() - began
                await asyncio.sleep(2 * READ_FOR)
                began = thread_time()
        self._work += thread_time() - began
        if faults:
            several = f"{len(faults)} operations of a message were ignored. The first: "
            self._say((several if faults[1:] else "An operation of a message was ignored: ") + faults[0])
        return good

    def _leave_out_far(self, some: Sequence[Operation]) -> list[Operation]:
        """Return operations, given in the order of their stamps, without those whose counts are too far above the shared road. Their
        sites send them again."""
        near, greatest = list[Operation](), self._keeper.state.shared.greatest
        for operation in some:
            if not is_far(operation.stamp[0], greatest):
                near.append(operation)
                greatest = max(greatest, operation.stamp[0])
        if len(near) < len(some):
            self._say(f"{len(some) - len(near)} changes were left out, since their counts are far above all that are shared here: they are "
                      "taken once those before them have come")
        return near

    async def _take(self, operations: list[Operation], title: str) -> bool:
        """Take operations. Return whether any was new, or came back."""
        times: Times = {}
        is_new = await self._lab.receive(operations, title, times)
        self._work += times.get("work", 0)
        unsent = self._keeper.state.unsent
        back = [one.stamp for one in map(self._keeper.state.intern, operations) if one in unsent]
        if back:
            await wait_until_written(self._keeper.record(Acknowledgement(back)), {})
            self._tell()
        return is_new or bool(back)

    async def _receive_hash(self, run: str, value: Mapping[str, Json]) -> None:
        began = thread_time()
        theirs, ranges = sum_of(value)
        self._work += thread_time() - began
        if not self._peers.is_connected(run) or form_of(value) != SITE_FORM:
            return
        sums = await self._sum_up()
        ours = sums.total
        pair_now = theirs, ours
        before = self._sums.pop(run, None)
        self._sums[run] = pair_now
        drop_oldest(self._sums)
        if theirs == ours:
            self._pauses.pop(run, None)
            if value.get("timeline") != await self._hash_road() and (await self._sum_up()).total == ours:
                self._say(f"{self._peers.describe_site(run)} has the same changes but computes a different road from them: its server "
                          f"has a different version. Update the older of the two")
        elif self._may_answer and (before == pair_now or run in self._pauses and self._pauses[run].place):
            began = thread_time()
            self._send_missing(run, ranges, sums)
            self._work += thread_time() - began

    def _send_missing(self, run: str, ranges: Sequence[tuple[Bound, str]], sums: Sums) -> None:
        """Send a run a piece of the operations of the ranges in which it holds others. Nobody gets another piece until this site's next
        announcement. After the last piece, begin again after a pause, which grows each time."""
        now, held = time.monotonic(), sums.total
        last = self._pauses.pop(run, Pause(0.0, 0.0, 0, held))
        place, pause = last.place, last.long if last.held == held else min(last.long, ANNOUNCE_EVERY)
        if not place and now < last.told + pause:
            self._pauses[run] = last
            return
        lacking = sums.lacking(ranges)
        self._may_answer = False
        logging.info("another site holds different operations: sending it %d to %d of %d", place,
                     min(place + OPERATIONS_AT_ONCE, len(lacking)), len(lacking))
        self._outbox.send(self._operations_topic, lacking[place:place + OPERATIONS_AT_ONCE])
        has_more = place + OPERATIONS_AT_ONCE < len(lacking)
        self._pauses[run] = (Pause(now, pause, place + OPERATIONS_AT_ONCE, held) if has_more
                             else Pause(now, min(LONGEST_RESEND_PAUSE, max(ANNOUNCE_EVERY, 2 * pause)), 0, held))
        drop_oldest(self._pauses)
