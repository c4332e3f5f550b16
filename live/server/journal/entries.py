"""Define the entries of the journal, form 4: their fields, how these are read, and how an entry changes a state.

    entry = read_entry("take", value, site)     raises `Malformed` if the value is not such an entry
    entry.apply(state)
    write_entry(entry, site)                    {"take": {..}}

An entry is a dataclass. `READERS` has the reader of each field. A field that has its default value is not written.
"""
from __future__ import annotations

import dataclasses
from dataclasses import dataclass
from typing import TYPE_CHECKING, Callable, ClassVar, Mapping, Sequence, TypeVar, cast

from zegdrut.base import METRES, Units
from zegdrut.base.wire import PlanLine
from zegdrut.program.grammar import PLAN, check_fields

from ..base.journal_lines import JOURNAL_FORM, CannotStart, JournalLine
from ..base.json_values import Json
from ..model.operations import SEATS, Operation, Stamp
from ..model.reading import Malformed, list_of, read_operation, read_row, read_site, read_stamp, read_time, whole

if TYPE_CHECKING:
    from .state import State

Fields = Mapping[str, Json]
J = TypeVar("J", bound="JsonObject")


class JsonObject:
    """A value that is written as a JSON object. Each subclass is a dataclass."""

    __dataclass_fields__: ClassVar[dict[str, dataclasses.Field[object]]]

    @classmethod
    def read(cls: type[J], value: Json) -> J:
        """Return the value that a JSON object describes. Raise `Malformed` or KeyError if it describes none."""
        if not isinstance(value, dict):
            raise Malformed(f"a JSON object was expected, not {str(value)[:40]}")
        return cls(**{part.name: READERS[name](value[name]) for name, part in parts_of(cls)
                      if part.default is dataclasses.MISSING or value.get(name) is not None})

    def fields(self) -> dict[str, Json]:
        values = ((name, part.default, getattr(self, part.name)) for name, part in parts_of(type(self)))
        return {name: write_value(value) for name, default, value in values if value != default}


class Entry(JsonObject):
    """An entry of a journal."""

    kind: ClassVar[str]

    def apply(self, state: State) -> None:
        """Change a state as the entry says."""
        raise NotImplementedError


def parts_of(kind: type[JsonObject]) -> list[tuple[str, dataclasses.Field[object]]]:
    """Return the fields of a class, by their names in the journal, which have no `is_`."""
    return [(part.name.removeprefix("is_"), part) for part in dataclasses.fields(kind)]


def write_value(value: object) -> Json:
    """Return the value of a field as JSON."""
    if isinstance(value, Operation):
        return value.written()
    if isinstance(value, JsonObject):
        return value.fields()
    return [*map(write_value, value)] if isinstance(value, (list, tuple)) else cast(Json, value)


# How fields are read

def read_string(value: Json) -> str:
    if not isinstance(value, str):
        raise Malformed(f"{str(value)[:40]} is not a string")
    return value


def read_plan_line(value: Json) -> PlanLine:
    """Return a plan line. Raise `Malformed` if its fields are not those of a plan line."""
    fault = next(check_fields(value, PLAN, "the plan"), None)
    if fault is not None:
        raise Malformed(fault)
    return cast(PlanLine, value)


def read_number(value: Json) -> float:
    if not isinstance(value, (int, float)):
        raise Malformed(f"{str(value)[:40]} is not a number")
    return value


def read_form(value: Json) -> int:
    """Return the form of a journal. Raise `CannotStart` if this server reads another one."""
    if value != JOURNAL_FORM:
        raise CannotStart(f"the journal has form {value}, and this server reads form {JOURNAL_FORM}. "
                          f"Use the {'older' if value in (1, 2, 3) else 'newer'} server that wrote it, or a new folder")
    return JOURNAL_FORM


def read_key(value: Json) -> tuple[str, Stamp]:
    """Return a key and the stamp of its operation."""
    key, stamp = read_row(value, 2, "a pair has two parts")
    return read_string(key), read_stamp(stamp)


def whole_to(most: int, what: str) -> Callable[[Json], int]:
    """Return the reader of a whole number of at most `most`."""
    return lambda value: whole(value, most, what)


# Entries

@dataclass(frozen=True)
class Folder(Entry):
    """The first entry: the form of the journal, the plan, and the name of the site; of a road with an approach the cell at km 0, and the
    step at minute 0 of its file, where the clock begins."""

    kind = "lab"
    form: int
    plan: PlanLine
    site: str
    origin: int = 0
    lead: int = 0

    def apply(self, state: State) -> None:
        state.plan, state.site, state.now = self.plan, self.site, self.lead
        state.units = Units(METRES, 1.0, self.origin, self.lead)


@dataclass(frozen=True)
class Clock(Entry):
    """The clock: the steps per second, the present step, and the step at which a fast clock stops."""

    kind = "clock"
    rate: float
    now: int
    stop: int | None = None

    def apply(self, state: State) -> None:
        state.rate, state.now, state.stop = self.rate, self.now, self.stop


@dataclass(frozen=True)
class SeatGrant(Entry):
    """A seat was given to somebody. `key` is the hash of the tab's key, `upto` how many shared operations it has taken."""

    kind = "seat"
    seat: int
    name: str
    key: str
    when: float
    upto: int = 0

    def apply(self, state: State) -> None:
        seat = state.seats[self.seat]
        seat.name, seat.key, seat.used = self.name, self.key, self.when
        state.take(seat, self.upto)


@dataclass(frozen=True)
class SeatUse(Entry):
    """A seat last had a tab at this time."""

    kind = "left"
    seat: int
    when: float

    def apply(self, state: State) -> None:
        state.seats[self.seat].used = self.when


@dataclass(frozen=True)
class SeatRelease(Entry):
    """A seat was freed."""

    kind = "free"
    seat: int

    def apply(self, state: State) -> None:
        state.free(self.seat)


@dataclass(frozen=True)
class OwnOperation(Entry):
    """A seat made an operation. If `is_shared`, it is on the shared road, too; if `is_unsent`, other sites may not have it. The journal
    leaves out the site of the operation where it is the folder's own."""

    kind = "made"
    seat: int
    operation: Operation
    key: str | None = None
    is_shared: bool = False
    is_unsent: bool = False
    title: str = ""

    def apply(self, state: State) -> None:
        seat, operation = state.seats[self.seat], state.intern(self.operation)
        if self.is_shared:
            state.hold_shared([operation], self.is_unsent, self.title)
        seat.own[operation], state.makers[operation] = None, seat.index
        seat.hold([operation])
        if self.key is not None:
            seat.done[self.key] = operation.stamp


@dataclass(frozen=True)
class Forgetting(Entry):
    """Private operations of a seat that had no effect any more were forgotten."""

    kind = "forgot"
    seat: int
    stamps: Sequence[Stamp]

    def apply(self, state: State) -> None:
        state.forget(state.seats[self.seat], self.stamps)


@dataclass(frozen=True)
class Share(Entry):
    """A seat shared private operations."""

    kind = "share"
    seat: int
    stamps: Sequence[Stamp]
    who: str = ""
    title: str = ""
    when: float = 0

    def apply(self, state: State) -> None:
        wanted = set(self.stamps)
        given = [one for one in state.private(state.seats[self.seat]) if one.stamp in wanted]
        state.hold_shared(given, is_unsent=True, title=self.title)
        state.add_news(News(state.shared.size, self.who, self.title, self.when, len(given)))


@dataclass(frozen=True)
class Arrival(Entry):
    """Operations came from other sites; or they are from this site, but their seat was freed."""

    kind = "came"
    operations: Sequence[Operation]
    who: str = ""
    title: str = ""
    when: float = 0
    is_unsent: bool = False

    def apply(self, state: State) -> None:
        fresh = state.hold_shared([*map(state.intern, self.operations)], self.is_unsent, self.title)
        state.add_news(News(state.shared.size, self.who, self.title, self.when, len(fresh)))


@dataclass(frozen=True)
class Take(Entry):
    """A seat took the first `upto` operations of the shared road."""

    kind = "take"
    seat: int
    upto: int

    def apply(self, state: State) -> None:
        state.take(state.seats[self.seat], self.upto)


@dataclass(frozen=True)
class Acknowledgement(Entry):
    """The broker returned these operations, so other sites get them."""

    kind = "back"
    stamps: Sequence[Stamp]

    def apply(self, state: State) -> None:
        back = set(self.stamps)
        state.unsent = {one: None for one in state.unsent if one.stamp not in back}


@dataclass(frozen=True)
class Keys(Entry):
    """The stamps of a seat's operations by their keys."""

    kind = "done"
    seat: int
    keys: Sequence[tuple[str, Stamp]]

    def apply(self, state: State) -> None:
        state.seats[self.seat].done.update(self.keys)


@dataclass(frozen=True)
class News(JsonObject):
    """Operations that were shared together: `size` is their number, `upto` how many the shared road had afterwards."""

    upto: int
    who: str
    title: str
    when: float
    size: int

    def reply_fields(self) -> dict[str, Json]:
        """Return the share in the form of a reply to a tab."""
        return {name: value for name, value in self.fields().items() if name != "upto"}


@dataclass(frozen=True)
class NewsList(Entry):
    """The latest shares."""

    kind = "shares"
    shares: Sequence[News]

    def apply(self, state: State) -> None:
        state.shares = [*self.shares]


@dataclass(frozen=True)
class NamedVariant(Entry):
    """A seat named what its road was made of: the first `upto` operations of the shared road, and operations of its own. Without `upto`,
    the seat has removed the variant of this name."""

    kind = "variant"
    seat: int
    name: str
    upto: int | None = None
    stamps: Sequence[Stamp] = ()

    def apply(self, state: State) -> None:
        state.seats[self.seat].name_variant(self.name, None if self.upto is None else (self.upto, self.stamps))


@dataclass(frozen=True)
class Works(Entry):
    """Every new seat starts with the first `upto` operations of the shared road: the roadworks of a freeway's file."""

    kind = "works"
    upto: int

    def apply(self, state: State) -> None:
        state.works = self.upto


ENTRY_KINDS: dict[str, type[Entry]] = {one.kind: one for one in Entry.__subclasses__()}
PLACE, STEP, TEXT = whole_to(1 << 40, "place"), whole_to(1 << 30, "step"), read_string
READERS: Mapping[str, Callable[[Json], object]] = {
    "form": read_form, "plan": read_plan_line, "site": read_site, "origin": PLACE, "lead": STEP,
    "rate": read_number, "now": STEP, "stop": STEP,
    "seat": whole_to(SEATS - 1, "seat"), "name": TEXT, "key": TEXT, "who": TEXT, "title": TEXT, "when": read_time, "upto": PLACE,
    "size": PLACE, "operation": read_operation, "operations": list_of(read_operation), "stamps": list_of(read_stamp),
    "keys": list_of(read_key), "shares": list_of(News.read), "shared": lambda value: value is True, "unsent": lambda value: value is True}
"""The readers of fields, by their names in the journal."""


def read_entry(kind: str, value: Fields, site: str) -> Entry:
    """Return an entry of the journal of a site. Raise `Malformed` if the fields are not those of such an entry."""
    if kind not in ENTRY_KINDS:
        raise Malformed(f"the journal's form {JOURNAL_FORM} has no entry `{kind}`")
    operation = value.get("operation")
    if isinstance(operation, dict) and "site" not in operation:
        value = {**value, "operation": {**operation, "site": site}}
    return ENTRY_KINDS[kind].read({**value})


def write_entry(entry: Entry, site: str) -> JournalLine:
    """Return an entry in the form of the journal of a site."""
    fields = entry.fields()
    operation = fields.get("operation")
    if isinstance(operation, dict) and operation.get("site") == site:
        del operation["site"]
    return {entry.kind: fields}
