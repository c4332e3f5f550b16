"""Define operations, which are what people do to a road. An operation never changes.

    put(count, shape, about)               puts a new layer on top
    lift(count, line, about)               puts a line on top
    undo(count, operation, about)          undoes an operation, as if it had never been made; redo undoes an undo
    exclude(count, site, is_out, about)    ignores everything a site made or makes, or includes it again

`change` is in `road`, since it depends on the current layers.

An operation is named by its stamp: a count, and the hash of the operation's text. So a stamp stands for one operation, whoever made it.
A layer, which is a line of the list, is named by the stamp of the operation that put it.
"""
from __future__ import annotations

import base64
import hashlib
import json
from dataclasses import dataclass, field, replace
from types import MappingProxyType
from typing import Iterable, Mapping, NamedTuple

from ..base.json_values import Json

Stamp = tuple[int, str]
"""A count, and the hash of the operation's text."""
Capacity = tuple[int, int, int, int]
"""The value of a shape of kind `capacity`: cars per hour, and the limit, slowing chance and slow-to-start chance that admit them."""

CAPACITY = "capacity"
SEATS = 64  # replicas of a site; number 0 is the shared road
END = 1 << 20  # a step after all steps of a road
HASH = 16  # bytes of a hash
EMPTY = (None, "", 0)  # values of known fields that are not written
SMALL = tuple(range(1 << 14))


def intern_int(value: int) -> int:
    """Return the same object for equal small numbers, which saves memory: most indexes and steps are small."""
    return SMALL[value] if 0 <= value < len(SMALL) else value


class Shape(NamedTuple):
    """The objects `first` to `last` have a value from the step `begin` to before the step `end` (None: without end)."""

    kind: str
    first: int
    last: int
    begin: int
    end: int | None
    value: int | Capacity


NO_MORE: Mapping[str, Json] = MappingProxyType({})


@dataclass(frozen=True, slots=True)
class About:
    """The author of an operation, its note and time, and the site where it was made. `more` has all other fields, also those of later
    versions."""

    who: str = ""
    note: str = ""
    when: int = 0
    site: str = ""
    more: Mapping[str, Json] = field(default_factory=lambda: NO_MORE)


NOTHING = About()


@dataclass(frozen=True, eq=False, slots=True)
class Operation:
    """An operation. It changes one line at most."""

    stamp: Stamp
    line: Stamp | None = None  # the layer that it sets or puts on top
    shape: Shape | None = None  # the layer's new shape; without a shape and `top` the layer is withdrawn
    top: bool = False  # the layer is put on top
    undoes: Stamp | None = None
    excludes: tuple[str, bool] | None = None  # a site, and whether it is excluded
    seen: Stamp | None = None  # the latest change of the line that the author had seen
    about: About = NOTHING

    def __post_init__(self) -> None:
        older = (None if self.puts else self.line, self.undoes, self.seen)
        if any(one is not None and one[0] >= self.stamp[0] for one in older):
            raise ValueError("an operation must refer only to operations with a smaller count")

    def __lt__(self, other: Operation) -> bool:
        return self.stamp < other.stamp

    @property
    def site(self) -> str:
        return self.about.site

    @property
    def puts(self) -> bool:
        """Return whether the operation puts a new layer."""
        return self.line == self.stamp

    @property
    def sets(self) -> bool:
        """Return whether the operation gives its line a shape, or withdraws it."""
        return self.line is not None and (self.shape is not None or not self.top)

    @property
    def withdraws(self) -> bool:
        return self.line is not None and self.shape is None and not self.top

    def written(self) -> dict[str, Json]:
        """Return the operation as a JSON value, in the form of journals and messages. Leave out empty fields, and its own name."""
        about, shape = self.about, self.shape
        fields: dict[str, Json] = {
            "stamp": [*self.stamp], "site": about.site, "layer": None if self.puts else written_stamp(self.line),
            "shape": None if shape is None else [*shape[:5], [*shape.value] if isinstance(shape.value, tuple) else shape.value],
            "top": self.top,
            "undoes": written_stamp(self.undoes), "excludes": None if self.excludes is None else [*self.excludes],
            "seen": written_stamp(self.seen), "who": about.who, "note": about.note, "when": about.when}
        return {**{name: value for name, value in fields.items() if value not in EMPTY}, **about.more}

    def text(self) -> str:
        """Return the text that the operation's hash is made of."""
        return json.dumps({**self.written(), "stamp": self.stamp[0]}, ensure_ascii=False, separators=(",", ":"), sort_keys=True)


def name_of(operation: Operation) -> Stamp:
    """Return the stamp of an operation: its count, and the hash of its text. Raise UnicodeEncodeError if the text has a lone surrogate."""
    digest = hashlib.sha256(operation.text().encode()).digest()[:HASH]
    return operation.stamp[0], base64.urlsafe_b64encode(digest).decode().rstrip("=")


def named(operation: Operation) -> Operation:
    """Return an operation whose stamp has its count alone under the name that its text gives it."""
    stamp = name_of(operation)
    return replace(operation, stamp=stamp, line=stamp if operation.puts else operation.line)


def undo_chain(operation: Operation, held: Mapping[Stamp, Operation]) -> list[Operation]:
    """Return an operation, the operation that it undoes, the one that this undoes, and so on, as far as they are held."""
    found = [operation]
    while (undoes := found[-1].undoes) is not None and undoes in held:
        found.append(held[undoes])
    return found


def describe_act(operation: Operation, held: Mapping[Stamp, Operation]) -> str:
    """Return what an operation does, in a word of live/PROTOCOL.md. `held` has the operations that it may undo."""
    undos = sum(each.undoes is not None for each in undo_chain(operation, held))
    if undos:
        return "undo" if undos % 2 else "redo"
    if operation.excludes is not None:
        return "exclude" if operation.excludes[1] else "include"
    return "put" if operation.puts else "top" if operation.top else "withdraw" if operation.shape is None else "change"


def sort_by_stamp(operations: Iterable[Operation]) -> list[Operation]:
    return sorted(operations, key=lambda one: one.stamp)


def written_stamp(stamp: Stamp | None) -> Json:
    return None if stamp is None else [*stamp]


# What people do

def put(count: int, shape: Shape, about: About = NOTHING) -> Operation:
    """Put a new layer on top of all."""
    own = (count, "")
    return named(Operation(own, own, shape, about=about))


def lift(count: int, line: Stamp, about: About = NOTHING) -> Operation:
    """Put a line on top, with whatever shape it has now and later."""
    return named(Operation((count, ""), line, top=True, about=about))


def undo(count: int, undone: Operation, about: About = NOTHING) -> Operation:
    """Undo an operation, as if it had never been made. Redo is the undo of an undo."""
    return named(Operation((count, ""), undoes=undone.stamp, about=about))


def exclude(count: int, site: str, is_out: bool, about: About = NOTHING) -> Operation:
    """Ignore all past and future operations of a site if `is_out`; otherwise include them again."""
    return named(Operation((count, ""), excludes=(site, is_out), about=about))
