"""Read the fields of a tab's command, one by one.

    with CommandFields(verb, fields) as asked:
        step = asked.whole("step")
    .. raises `Refused` if a field is malformed, or if there is a field that was not read
"""
from __future__ import annotations

from itertools import islice
from typing import Callable, Iterator, Mapping, TypeVar, cast

from zegdrut.program.grammar import GREATEST, Part, kind, list_of as faults_of_list, row_of, shown, value_of, whole

from ..base.json_values import to_json, Json
from ..base.refusals import Refused, not_a_command
from ..model.demands import INFLOW, MOST_DEMAND
from ..model.operations import CAPACITY, Capacity, Shape, Stamp, intern_int
from ..model.reading import Malformed, clean_text, list_of, read_site, read_stamp

LONGEST_KEY = 40  # characters
MOST_FAULTS_NAMED = 3  # faults of a list that a refusal names
LONG_FIELD = 2_000  # bytes of a field; in a longer one a refusal does not show numbers as they were written, since that takes long
T = TypeVar("T")


def whole_or_none(value: object) -> Iterator[str]:
    return iter(()) if value is None else whole(value)


def capacity_kind(value: object) -> Iterator[str]:
    return iter(() if value == CAPACITY else (f"{shown(value)} is not {CAPACITY}",))


PLACES = ("first index", whole), ("last index", whole), ("from", whole), ("to", whole_or_none)
SHAPE = row_of(("kind", kind), *PLACES, ("value", whole))
CAPACITY_SHAPE = row_of(("kind", capacity_kind), *PLACES, ("value", row_of(
    ("cars per hour", whole), ("limit", whole), ("slowing chance", whole), ("slow-to-start chance", whole))))
PAIR = row_of(("index", whole), ("chance", whole))


class CommandFields:
    """The fields of a command. As a context it refuses, at its end, a field that was not read."""

    def __init__(self, verb: str, fields: object) -> None:
        if not isinstance(fields, dict):
            raise not_a_command(f"the fields of `{verb}` must be a JSON object")
        self.verb, self._known = verb, set[str]()
        self._fields: dict[str, Json] = fields

    def __enter__(self) -> CommandFields:
        return self

    def __exit__(self, kind_of_fault: object, *_: object) -> None:
        if kind_of_fault is None:
            self.refuse_unknown()

    def refuse_unknown(self) -> None:
        unknown = [name for name in self._fields if name not in self._known]
        if unknown:
            raise not_a_command(f"`{self.verb}` has no field {shown(unknown[0])}")

    def has(self, name: str) -> bool:
        self._known.add(name)
        return name in self._fields

    def require(self, name: str) -> Json:
        if not self.has(name):
            raise not_a_command(f"`{self.verb}` requires the field `{name}`")
        return self._fields[name]

    def _checked(self, name: str, faults: Part) -> Json:
        value = self.require(name)
        named = list(islice(faults(value), MOST_FAULTS_NAMED))
        if named:
            text = to_json(value).encode()
            try:
                named = list(islice(faults(value_of(text)), MOST_FAULTS_NAMED)) if len(text) < LONG_FIELD else named  # numbers as they were written
            except ValueError as fault:
                named = [str(fault)]
            raise not_a_command(f"`{name}`: {'; '.join(named)}")
        return value

    def _read(self, name: str, read: Callable[[Json], T]) -> T:
        """Return a field as a reader of operations returns it."""
        try:
            return read(self.require(name))
        except Malformed as fault:
            raise not_a_command(f"`{name}`: {fault}") from None

    def whole(self, name: str, least: int = 0, most: int = GREATEST, default: int | None = None) -> int:
        if default is not None and not self.has(name):
            return default
        value = cast(int, self._checked(name, whole))
        if not least <= value <= most:
            raise Refused("Range", f"`{name}` must be {least} to {most}, not {value}")
        return value

    def version(self, name: str) -> int:
        """Return the version of a list, as the server gave it in `next`; 0 if the field is missing."""
        if not self.has(name):
            return 0
        value = self._fields[name]
        if type(value) is not int or not 0 <= value < 1 << 53:
            raise not_a_command(f"`{name}` must be the `next` of an earlier reply")
        return value

    def number(self, name: str, most: float) -> float:
        value = self.require(name)
        if not isinstance(value, (int, float)) or isinstance(value, bool) or not 0 <= value <= most:
            raise Refused("Range", f"`{name}` must be 0 to {most}")
        return float(value)

    def demand(self, shape: Shape) -> float | None:
        """Return the demand in cars per hour that the chance of a shape stands for; None if the command does not say."""
        if not self.has("demand") or self.is_null("demand"):
            return None
        if shape.kind != INFLOW:
            raise not_a_command(f"`demand` requires a shape of kind {INFLOW}, not {shape.kind}")
        return self.number("demand", MOST_DEMAND)

    def text(self, name: str, most: int, default: str | None = None) -> str:
        if default is not None and not self.has(name):
            return default
        value = self.require(name)
        if type(value) is not str:
            raise not_a_command(f"`{name}` must be a string, not {shown(value)[:60]}")
        return clean_text(value, most)

    def texts(self, name: str, most: int, longest: int) -> list[str]:
        """Return a list of texts, each fit for one line."""
        value = self.require(name)
        if not isinstance(value, list) or len(value) > most or any(type(one) is not str for one in value):
            raise not_a_command(f"`{name}` must be a list of at most {most} strings")
        return [clean_text(one, longest) for one in value]

    def key(self, name: str = "key") -> str:
        """Return the key of a gesture. A gesture that is sent again has the same key."""
        value = self.require(name)
        if type(value) is not str or not (1 <= len(value) <= LONGEST_KEY and value.isascii() and value.isprintable()):
            raise not_a_command(f"`{name}` must be a string of 1 to {LONGEST_KEY} ASCII characters, a new one for each gesture")
        return value

    def stamp_or_key(self, name: str) -> Stamp | str:
        """Return a stamp, or the key of a gesture whose stamp the tab may not know yet."""
        return self.key(name) if type(self.require(name)) is str else self._read(name, read_stamp)

    def stamps(self) -> set[Stamp] | None:
        return {*self._read("stamps", list_of(read_stamp))} if self.has("stamps") else None

    def site(self) -> str:
        """Return the name of a site."""
        return self._read("site", read_site)

    def pairs(self, name: str) -> list[tuple[int, int]]:
        """Return a field that is a list of pairs of whole numbers."""
        return [(one, other) for one, other in cast("list[list[int]]", self._checked(name, faults_of_list(PAIR, "pair")))]

    def shape(self) -> Shape:
        named = self.require("shape")
        is_capacity = isinstance(named, list) and named[:1] == [CAPACITY]
        kind_of, first, last, begin, end, value = cast("tuple[str, int, int, int, int | None, int | list[int]]", self._checked(
            "shape", CAPACITY_SHAPE if is_capacity else SHAPE))
        return Shape(kind_of, intern_int(first), intern_int(last), intern_int(begin), None if end is None else intern_int(end),
                     cast(Capacity, tuple(value)) if isinstance(value, list) else value)

    def is_null(self, name: str) -> bool:
        return self.has(name) and self._fields[name] is None

    def flag(self, name: str) -> bool:
        """Return the value of a boolean field; false if it is missing."""
        if self.has(name) and type(self._fields[name]) is not bool:
            raise not_a_command(f"`{name}` must be true or false")
        return bool(self.has(name) and self._fields[name])

    def stretch(self) -> tuple[int, int] | None:
        """Return the first and the last cell of `cells`; None if the field is missing, which means all cells."""
        if not self.has("cells"):
            return None
        first, last = cast("list[int]", self._checked("cells", row_of(("first cell", whole), ("last cell", whole))))
        return first, last

    def remaining(self) -> Mapping[str, Json]:
        """Return the fields that were not read so far, which then count as read."""
        rest = {name: value for name, value in self._fields.items() if name not in self._known}
        self._known.update(rest)
        return rest
