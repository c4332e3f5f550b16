"""Records of replies: stamps, edits, cars and counts."""
from __future__ import annotations

from typing import Iterable, Literal, NamedTuple, cast

from ..base.argument_checks import check_object, check_whole
from ..base.wire import WrittenEdit, WrittenHead

Kind = Literal["limit", "slow", "block", "inflow", "watch", "start"]
"""What an edit sets."""
Object = tuple[Kind, int]
"""The object that an edit sets: ("limit", zone), ("slow", zone), ("block", cell), ("inflow", inlet), ("watch", detector) or
("start", zone)."""


class Stamp(NamedTuple):
    """The stamp of an edit. The edit with the greater count wins; at equal counts the one with the greater number."""

    count: int  # type: ignore[assignment]  # (a tuple has a method of this name)
    number: int


class Car(NamedTuple):
    """A car: its number, its cell, and its speed in cells per step."""

    number: int
    cell: int
    speed: int


class Count(NamedTuple):
    """The cars that passed a detector in some steps, and the sum of their speeds in cells per step."""

    cars: int
    speeds: int

    def flow(self, steps: int) -> float:
        """Return the flow in cars per step, for a count over `steps` steps."""
        return self.cars / steps

    def mean_speed(self) -> float | None:
        """Return the time-mean speed in cells per step, or None if no car passed."""
        return self.speeds / self.cars if self.cars else None


class Edit(NamedTuple):
    """An edit: from `step` on the object has the value. None withdraws the value that was set at that step."""

    object: Object
    step: int
    stamp: Stamp
    value: int | None

    @classmethod
    def read(cls, written: WrittenEdit) -> Edit:
        """Read an edit as the program writes it: [kind, index, step, count, number, value]."""
        kind, index, step, count, number, value = written
        return cls((cast(Kind, kind), index), step, Stamp(count, number), value)

    def to_line(self) -> WrittenEdit:
        """Return the edit as the program reads it. TypeError, ValueError: a field is wrong; the message names it."""
        count, number = self.stamp
        return (*check_object("object", self.object), check_whole("step", self.step), check_whole("stamp.count", count),
                check_whole("stamp.number", number), None if self.value is None else check_whole("value", self.value))


class Head(NamedTuple):
    """The stamp of the edit that a replica has for an object and a step."""

    object: Object
    step: int
    stamp: Stamp

    @classmethod
    def read(cls, written: WrittenHead) -> Head:
        """Read a head as the program writes it: [kind, index, step, count, number]."""
        kind, index, step, count, number = written
        return cls((cast(Kind, kind), index), step, Stamp(count, number))


class Lost(NamedTuple):
    """An edit that won before, and the edit of somebody else that wins now."""

    edit: Edit
    to: Edit


def find_lost(before: Iterable[Edit], after: Iterable[Edit]) -> list[Lost]:
    """Return the edits that won in the first scenario of a replica and lost in the second, as before and after a message."""
    now = {(edit.object, edit.step): edit for edit in after}
    pairs = [Lost(edit, now[edit.object, edit.step]) for edit in before]
    return [pair for pair in pairs if pair.to.stamp.number != pair.edit.stamp.number]


class Crowd(NamedTuple):
    """The result of a crowd: the winning edits, the number of edits and advances that it made, and the last row."""

    edits: list[Edit]
    journal: int
    row: str
