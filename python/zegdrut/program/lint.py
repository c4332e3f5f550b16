"""Warn of lines that road_lab accepts but that are probably mistakes.

    linter = Linter(Units(metres=7.5, seconds=1))
    for line, reply in zip(script, replies):     # from the plan on, in their order
        sentence = linter.check(line, reply)      # None without a warning
    sentences = linter.finish()                     # by line number, from 1
"""
from __future__ import annotations

import json
from typing import Iterator, cast

from ..base.units import Units
from ..base.wire import CommandFields, Fields, PlanLine, ReplyFields
from .grammar import CHANCE, KINDS, shown, value_of
from .refusal_reasons import join_faults, list_edits

HOUR = 3_600
MOST_CARS = 3_600
"""The largest inflow that looks like cars per hour and not like a chance."""
FASTEST = 180
"""A limit above this many km/h is probably a mistake."""

Key = tuple[str, int, int]
"""What an edit sets: kind, index and step."""


class Linter:
    """Finds accepted lines that are probably mistakes. It takes the lines of a script in their order."""

    def __init__(self, units: Units = Units()) -> None:
        self._units = units
        self._line = 0
        self._keys: dict[str, set[Key]] = {}
        self._sent: dict[str, frozenset[Key]] = {}
        self._horizons: dict[str, int] = {}
        self._dated: list[tuple[int, str, int]] = []
        self._blocks: dict[int, dict[int, tuple[int, int]]] = {}

    def check(self, line: bytes, reply: Fields) -> str | None:
        """Take the next line with its reply. Return a warning, or None if nothing is unusual or the line was refused."""
        self._line += 1
        if "refused" in reply:
            return None
        said = [f"`{name}` appears twice: the last one counts" for name in find_duplicates(line)]
        value = value_of(line)
        if self._line == 1:
            said += self._check_plan(cast(PlanLine, value))
        else:
            (verb, given), = cast("dict[str, CommandFields]", value).items()
            for check in (self._check_values, self._check_withdrawal, self._check_crowd, self._check_advance):
                said += check(verb, given)
            self._remember(verb, given, reply)
        return join_faults(said) if said else None

    def finish(self) -> dict[int, str]:
        """Return warnings that need the whole script, by line number: an edit that no row shows, or a cell that is never opened."""
        said: dict[int, str] = {}
        horizon = max(self._horizons.values(), default=0)
        for line, kind, step in self._dated:
            if horizon and is_beyond(kind, step, horizon):
                said.setdefault(line, self._describe_unshown(step, horizon))
        for cell, dates in self._blocks.items():
            step = max(dates, default=0)
            line, value = dates.get(step, (0, 0))
            if value:
                said.setdefault(line, f"cell {cell}{self._units.km(cell)} is closed from step {step}{self._units.minutes(step)} on, "
                                "and never opened again")
        return said

    # Warnings about one line

    def _describe_unshown(self, step: int, last: int) -> str:
        minutes = self._units.minutes
        return (f"it applies from step {step}{minutes(step)} on, but the road is simulated only to step {last}{minutes(last)}, "
                "so no row shows it")

    def _check_plan(self, plan: PlanLine) -> Iterator[str]:
        for index, (limit, slow) in enumerate(plan["zones"]):
            yield from (f"zone {index}: {said}" for said in (*self._check_limit("limit", limit), *self._check_chance("slow", slow)))
        for index, (_, inflow) in enumerate(plan["inlets"]):
            yield from (f"inlet {index}: {said}" for said in self._check_chance("inflow", inflow))

    def _check_values(self, verb: str, given: CommandFields) -> Iterator[str]:
        for prefix, (kind, *_, value) in list_edits(verb, given):
            if value is not None:
                yield from (prefix + said for said in (*self._check_limit(kind, value), *self._check_chance(kind, value)))

    def _check_limit(self, kind: str, value: int) -> Iterator[str]:
        """Yield a warning if a limit is too high for a road."""
        if kind == "limit" and value * self._units.pace() > FASTEST:
            yield f"`limit` {value} is {self._units.kmh(value)}"

    def _check_chance(self, kind: str, value: int) -> Iterator[str]:
        """Yield a warning if a chance looks like a share of 1, a percentage or a flow."""
        if KINDS[kind] != CHANCE or not value:
            return
        is_chance = f"`{kind}` {value} is a chance of {value / CHANCE:.2g}, in 1/65,536"
        if value == 1:
            yield f"{is_chance}; {CHANCE} means always, and {CHANCE // 100} is 1 %"
        elif value <= 100:
            yield f"{is_chance}; {value} % is {round(value * CHANCE / 100)}"
        elif kind == "inflow" and value <= MOST_CARS:
            seconds = self._units.seconds or 1
            part = value / CHANCE
            yield (f"{is_chance}, about {part / (1 + part * part) * HOUR / seconds:.0f} cars per hour at {seconds:g} s a step; "
                   f"for {value} per hour see recipes/freeway/inflow")

    def _check_withdrawal(self, verb: str, given: CommandFields) -> Iterator[str]:
        if verb != "withdraw":
            return
        (kind, index), step = given["object"], given["step"]
        there = self._keys.get(given["at"], set())
        if (kind, index, step) not in there:
            others = sorted(date for one, at, date in there if (one, at) == (kind, index))
            elsewhere = f", but at {', '.join(f'{date}{self._units.minutes(date)}' for date in others[:3])}" if others else ""
            yield f"nothing was set for {shown([kind, index])} at step {step}{self._units.minutes(step)}{elsewhere}"

    def _check_crowd(self, verb: str, given: CommandFields) -> Iterator[str]:
        if verb == "crowd":
            for prefix, (kind, _, step, *_) in list_edits(verb, given):
                if is_beyond(kind, step, given["to"]):
                    yield prefix + self._describe_unshown(step, given["to"])

    def _check_advance(self, verb: str, given: CommandFields) -> Iterator[str]:
        if verb == "advance" and given["to"] < self._horizons.get(given["at"], 0):
            here, to, minutes = self._horizons[given["at"]], given["to"], self._units.minutes
            yield f"{shown(given['at'])} is already at step {here}{minutes(here)}: `advance` to {to}{minutes(to)} does nothing"

    # What later lines are compared with

    def _remember(self, verb: str, given: CommandFields, reply: Fields) -> None:
        if verb in ("edit", "import"):
            edits = [edit for _, edit in list_edits(verb, given)]
            self._keys_of(given["at"]).update((kind, index, step) for kind, index, step, *_, value in edits if value is not None)
            self._dated += [(self._line, kind, step) for kind, _, step, *_ in edits]
            for kind, index, step, *_, value in edits:
                self._remember_block(kind, index, step, value)
        elif verb == "withdraw":
            kind, index = given["object"]
            self._remember_block(kind, index, given["step"], None)
        elif verb == "advance":
            self._horizons[given["at"]] = cast(ReplyFields, reply)["horizon"]
        elif verb == "send":
            self._sent[given["name"]] = frozenset(self._keys_of(given["at"]))
        elif verb == "beyond":
            self._sent[given["name"]] = frozenset((kind, index, step) for kind, index, step, *_ in cast(ReplyFields, reply)["edits"])
        elif verb == "take":
            self._keys_of(given["at"]).update(self._sent.get(given["message"], ()))

    def _remember_block(self, kind: str, cell: int, step: int, value: int | None) -> None:
        """Remember the last value of a cell at each step, in any replica."""
        if kind == "block":
            dates = self._blocks.setdefault(cell, {})
            if value is None:
                dates.pop(step, None)
            else:
                dates[step] = self._line, value

    def _keys_of(self, at: str) -> set[Key]:
        return self._keys.setdefault(at, set())


def is_beyond(kind: str, step: int, horizon: int) -> bool:
    """Return whether an edit changes no row up to a horizon. (The last row shows the cells that are closed in its step.)"""
    return step > horizon or step == horizon and kind != "block"


def find_duplicates(line: bytes) -> list[str]:
    """Return the names of duplicate fields in the objects of a line."""
    found: list[str] = []

    def collect(pairs: list[tuple[str, object]]) -> dict[str, object]:
        names = [name for name, _ in pairs]
        found.extend(name for name in dict.fromkeys(names) if names.count(name) > 1)
        return dict(pairs)

    json.loads(line, object_pairs_hook=collect)
    return found
