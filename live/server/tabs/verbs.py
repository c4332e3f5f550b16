"""Answer the commands of a tab. The table `VERBS` has for each command the roads that `at` may name, and the reader of its fields. A
reader returns a function that answers the command."""
from __future__ import annotations

from dataclasses import dataclass
from typing import Awaitable, Callable, Sequence, TypeVar

from zegdrut.program.grammar import LAST_HORIZON
from zegdrut.program.road_rows import FASTEST as FASTEST_CAR
from zegdrut.reports.report_tables import MOST_SIDES

from ..base.json_values import Json
from ..base.names import NO_NAME, is_name
from ..base.refusals import Refused, not_a_command
from ..journal.state import Replica
from ..lab.fixed_roads import FILE, SIDES, VARIANT
from ..lab.gestures import Author, Lab, require_variant
from ..lab.keeper import SHARED
from ..lab.road_clock import FASTEST
from ..lab.roads import QueryRoad
from ..model.operations import Operation
from ..model.reading import LONGEST_NAME, LONGEST_NOTE
from ..program.program import Times
from .fields import CommandFields
from .questions import Questions, Reply

MOST_SENTENCES = 200  # sentences about the change in a report
NO_ROAD = frozenset[str]()  # the command has no `at`
OWN = frozenset({"own"})
SHARED_ROAD = frozenset({"shared"})
KEPT_ROADS = OWN | SHARED_ROAD
LISTED_ROADS = KEPT_ROADS | frozenset({FILE, VARIANT})  # VARIANT stands for all variants of the seat
ROADS = LISTED_ROADS | frozenset(SIDES)


@dataclass
class Call:
    """A command that is being answered: the seat that sent it, the road that it is about, and the times that the answer takes."""

    lab: Lab
    questions: Questions
    index: int
    at: str  # as `road_name` returns it
    times: Times

    @property
    def replica(self) -> Replica:
        """Return the replica that the command is about: the seat's own or the shared one."""
        return self.lab.state.replica(SHARED if self.at == "shared" else self.index)

    @property
    def road(self) -> QueryRoad:
        return self.questions.roads.find(self.index, self.at)

    def names(self, of: Sequence[str]) -> list[str]:
        """Return the names of some roads as `road_name` returns them."""
        return [name_in(self.lab, self.index, one, ROADS) for one in of]


Handler = Callable[[Call], Awaitable[Reply]]
"""A command whose fields have been read. It answers a call."""
Reader = Callable[[CommandFields], Handler]
T = TypeVar("T")


@dataclass(frozen=True)
class Verb:
    """A command: the roads that `at` may name, and the reader of its fields. If the command is about a road in `lists`, the reply may
    show changes of other seats, so it waits until these are on the disk. A command that `changes` something is done even if its tab has
    left."""

    of: frozenset[str]
    reader: Reader
    lists: frozenset[str] = frozenset()
    changes: bool = False


def is_change(verb: str) -> bool:
    """Return whether a command changes something."""
    return verb in VERBS and VERBS[verb].changes


async def answer(lab: Lab, questions: Questions, index: int, asked: CommandFields, times: Times) -> Reply:
    """Return the reply to a command of a seat. Raise `Refused` if the command is refused."""
    if asked.verb not in VERBS:
        raise not_a_command(f"there is no command `{asked.verb}`")
    verb = VERBS[asked.verb]
    call = Call(lab, questions, index, road_name(lab, index, asked, verb), times)
    with asked:
        does = verb.reader(asked)
    if verb.of in (NO_ROAD, OWN) and not verb.lists:
        return await does(call)
    may_see = "shared" if call.at in verb.lists else "nothing"
    return await lab.keeper.read_committed(lambda: does(call), may_see)


def road_name(lab: Lab, index: int, asked: CommandFields, verb: Verb) -> str:
    """Return the road that `at` names: "own", or another name."""
    return "own" if verb.of == NO_ROAD else name_in(lab, index, asked.require("at"), verb.of)


def name_in(lab: Lab, index: int, at: Json, valid: frozenset[str]) -> str:
    """Return the name of a road, "own" for the seat's own. Raise `Refused` if it is not a valid one."""
    seat = lab.state.seats[index]
    meant = "own" if at == seat.at else at
    if type(meant) is not str or at == "own" or (VARIANT if meant.startswith(VARIANT) else meant) not in valid:
        said = [seat.at if one == "own" else f"{VARIANT}NAME" if one == VARIANT else one for one in sorted(valid)]
        raise Refused("NotYourReplica", "a tab can change only its own road, and query only that one, the shared road, the two roads of its "
                      "preview, its variants and the file's road: here a road must be " + " or ".join(f'"{one}"' for one in said))
    if meant.startswith(VARIANT):
        require_variant(seat, meant.removeprefix(VARIANT))
    return meant


# How fields are read

def no_fields(does: Handler) -> Reader:
    return lambda _asked: does


def reader_of_one_part(read: Callable[[CommandFields], T], does: Callable[[Call, T], Awaitable[Reply]]) -> Reader:
    """Return a reader that passes what `read` returns to `does`, as one argument."""
    def reader(asked: CommandFields) -> Handler:
        part = read(asked)
        return lambda call: does(call, part)
    return reader


def read_steps(asked: CommandFields) -> tuple[int, int]:
    return asked.whole("from"), asked.whole("to")


def read_comparison(asked: CommandFields) -> tuple[list[str], int, int]:
    """Return which roads a command compares, and the steps."""
    of = asked.texts("of", MOST_SIDES, LONGEST_NOTE)
    if len({*of}) < max(2, len(of)):
        raise not_a_command(f"`of` must name 2 to {MOST_SIDES} different roads")
    return (of, *read_steps(asked))


def require_shared(asked: CommandFields, field: str) -> None:
    if asked.require(field) != "shared":
        raise Refused("not a command", f"`{field}` must be \"shared\" here")


# Commands without a road

async def seats(call: Call) -> Reply:
    return {"seats": await call.lab.seating.list_saved_seats(call.index)}


def clock(asked: CommandFields) -> Handler:
    rate = asked.number("rate", FASTEST) if asked.has("rate") else None
    to = asked.whole("to") if rate is None else None
    return lambda call: call.lab.road_clock.set_clock(rate, to)


def admission(asked: CommandFields) -> Handler:
    """Read an inlet, the slow-to-start chance there, and the chances of the inlets upstream."""
    inlet = asked.whole("inlet")
    start = None if asked.is_null("start") else asked.whole("start", 0, 65_536)
    upstream = asked.pairs("before")

    async def reply(call: Call) -> Reply:
        inlets = len(call.lab.state.plan["inlets"])
        for index, chance in [(inlet, 0), *upstream]:
            if index >= inlets or chance > 65_536:
                raise Refused("Range", f"an inlet must be 0 to {inlets - 1}, and its chance 0 to 65536")
        cell, *cells = (call.lab.state.plan["inlets"][one][0] for one in (inlet, *(one for one, _ in upstream)))
        if len({*cells}) < len(cells) or max(cells, default=-1) >= cell:
            raise Refused("Range", "`before` must list inlets upstream of this one, each once")
        return await call.questions.admission(call.index, inlet, start, upstream)
    return reply


def capacity(asked: CommandFields) -> Handler:
    """Read the zones of works, the cars per hour that they leave, and their limit."""
    first, last, cars = (asked.whole(name) for name in ("first", "last", "cars"))
    limit = asked.whole("limit", 0, FASTEST_CAR)
    return lambda call: call.questions.capacity(call.index, call.replica.road, first, last, cars, limit)


# Commands that change, share or take

def making(asked: CommandFields, make: Callable[[Lab, Author], Operation], has_note: bool = True) -> Handler:
    """Read the key and the note of a command that makes an operation."""
    key, note = asked.key(), asked.text("note", LONGEST_NOTE, "") if has_note else ""
    return lambda call: call.lab.make(call.index, call.times, key, note, lambda by: make(call.lab, by))


def gesture(asked: CommandFields) -> Handler:
    """Read a gesture: a new shape, or a new shape or height for a line."""
    if not asked.has("layer"):
        new = asked.shape()
        demand = asked.demand(new)
        return making(asked, lambda lab, by: lab.put_shape(by, new, demand))
    line, top = asked.stamp_or_key("layer"), asked.flag("top")
    if not asked.has("shape"):
        if not top:
            raise not_a_command("a gesture with a `layer` needs a `shape` (which may be null) or `top`")
        return making(asked, lambda lab, by: lab.lift_line(by, line))
    shape = None if asked.is_null("shape") else asked.shape()
    said = None if shape is None else asked.demand(shape)
    return making(asked, lambda lab, by: lab.change_line(by, line, shape, top, said))


def undo(asked: CommandFields) -> Handler:
    stamp = asked.stamp_or_key("stamp")
    return making(asked, lambda lab, by: lab.undo(by, stamp))


def put_again(asked: CommandFields) -> Handler:
    stamp = asked.stamp_or_key("stamp")
    return making(asked, lambda lab, by: lab.put_again(by, stamp), has_note=False)


def exclude_site(asked: CommandFields) -> Handler:
    site, is_out = asked.site(), asked.flag("out")
    return making(asked, lambda lab, by: lab.exclude_site(by, site, is_out))


def share(asked: CommandFields) -> Handler:
    require_shared(asked, "name")
    stamps, title = asked.stamps(), asked.text("title", LONGEST_NOTE, "")
    return lambda call: call.lab.share(call.index, call.times, stamps=stamps, title=title)


def variant(asked: CommandFields) -> Handler:
    """Read the name under which the road is kept, or the name of the variant that is removed."""
    name, is_dropped = asked.text("name", LONGEST_NAME), asked.flag("drop")
    if not is_dropped and not is_name(name):
        raise Refused("NoName", NO_NAME)
    return lambda call: call.lab.name_variant(call.index, call.times, name, not is_dropped)


async def leave(call: Call) -> Reply:
    await call.lab.seating.release_seat(call.index)
    return {}


# Queries of roads

def forward(asked: CommandFields) -> Handler:
    """Forward a command to the program unchanged."""
    fields = asked.remaining()
    return lambda call: call.questions.ask_program(call.road, call.times, asked.verb, fields)


def diagram(asked: CommandFields) -> Handler:
    first, last = read_steps(asked)
    every, cells = asked.whole("every", 1, LAST_HORIZON, 1), asked.stretch()
    return lambda call: call.questions.diagram(call.road, call.times, first=first, last=last, every=every, cells=cells)


def counts(asked: CommandFields) -> Handler:
    first, last = read_steps(asked)
    each = asked.whole("each", 1, LAST_HORIZON) if asked.has("each") else None
    return lambda call: call.questions.counts(call.road, call.times, first=first, last=last, each=each)


# Lists and previews

def preview(asked: CommandFields) -> Handler:
    what = None if asked.is_null("what") else asked.require("what")
    if what not in (None, "share", "take"):
        raise not_a_command('`what` must be "share", "take" or null')
    stamps = asked.stamps()
    return lambda call: call.questions.preview(call.index, what, stamps)


def figures(asked: CommandFields) -> Handler:
    of, first, last = read_comparison(asked)
    return lambda call: call.questions.figures(call.index, call.names(of), first, last)


def days(asked: CommandFields) -> Handler:
    """Read a comparison over many days. If `of` is null, the command stops the one that is running."""
    if asked.is_null("of"):
        return lambda call: call.questions.stop_days(call.index)
    of, first, last = read_comparison(asked)
    return lambda call: call.questions.days(call.index, call.names(of), first, last)


def list_lines(call: Call, version: int) -> Awaitable[Reply]:
    """Return the list of the changes of a road."""
    if call.at in KEPT_ROADS:
        return call.questions.layers(call.index, call.replica, version)
    return call.questions.list_fixed(call.questions.roads.find_fixed(call.index, call.at), call.index, version)


# Files

def transcript(asked: CommandFields) -> Handler:
    first, last = asked.whole("from", default=0), asked.whole("to", 0, LAST_HORIZON)
    piece = asked.whole("next", default=0)
    return lambda call: call.questions.transcript(call.index, call.replica, first, last, piece)


def report(asked: CommandFields) -> Handler:
    """Read a comparison, the title of its report, sentences about the change, whether its diagrams show the approach, and its days."""
    of, first, last = read_comparison(asked)
    title, works, approach = asked.text("title", LONGEST_NOTE), asked.texts("works", MOST_SENTENCES, LONGEST_NOTE), asked.flag("approach")
    number = asked.whole("days") if asked.has("days") else None
    return lambda call: call.questions.report(call.index, call.names(of), first, last, title, works, approach, number)


def table_of_counts(asked: CommandFields) -> Handler:
    if asked.require("what") != "counts":
        raise not_a_command('`what` must be "counts"')
    first, last = read_steps(asked)
    each = asked.whole("each", 1, LAST_HORIZON)
    return lambda call: call.questions.table_of_counts(call.road, call.times, first, last, each)


VERBS: dict[str, Verb] = {
    # Commands without a road
    "seats": Verb(NO_ROAD, no_fields(seats)),
    "clock": Verb(NO_ROAD, clock, changes=True),
    "admission": Verb(NO_ROAD, admission),
    # Commands that change, share or take
    "gesture": Verb(OWN, gesture, changes=True),
    "undo": Verb(OWN, undo, changes=True),
    "again": Verb(OWN, put_again, changes=True),
    "site": Verb(OWN, exclude_site, changes=True),
    "send": Verb(OWN, share, changes=True),
    "take": Verb(OWN, reader_of_one_part(
        lambda asked: require_shared(asked, "message"), lambda call, _: call.lab.take(call.index, call.times)), changes=True),
    "variant": Verb(OWN, variant, changes=True),
    "leave": Verb(OWN, no_fields(leave), changes=True),
    # Queries of roads
    "advance": Verb(ROADS, reader_of_one_part(lambda asked: asked.whole("to"), lambda call, to: call.questions.advance(call.road, to))),
    "cells": Verb(ROADS, forward),
    "cars": Verb(ROADS, forward),
    "count": Verb(ROADS, forward),
    "scenario": Verb(KEPT_ROADS, forward),
    "diagram": Verb(ROADS, diagram),
    "sums": Verb(ROADS, reader_of_one_part(read_steps, lambda call, span: call.questions.sums(call.road, call.times, *span))),
    "counts": Verb(ROADS, counts),
    "capacity": Verb(KEPT_ROADS, capacity),
    # Lists and previews
    "layers": Verb(LISTED_ROADS, reader_of_one_part(lambda asked: asked.version("from"), list_lines), SHARED_ROAD),
    "operations": Verb(KEPT_ROADS, reader_of_one_part(
        lambda asked: asked.whole("from", default=0), lambda call, first: call.questions.operations(call.index, call.replica, first)),
        SHARED_ROAD),
    "preview": Verb(OWN, preview),  # (`Questions.preview` waits for the disk itself, before it keeps the two roads)
    "figures": Verb(OWN, figures, OWN),
    "days": Verb(OWN, days, OWN),
    # Files
    "transcript": Verb(KEPT_ROADS, transcript, SHARED_ROAD),
    "report": Verb(OWN, report, OWN),
    "script": Verb(LISTED_ROADS, no_fields(lambda call: call.questions.script(call.index, call.at)), SHARED_ROAD),
    "csv": Verb(KEPT_ROADS, table_of_counts, SHARED_ROAD),
}
