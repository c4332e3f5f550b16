"""Explain why road_lab refused a line.

    reasons = Reasons(Units(metres=7.5, seconds=1))     # Reasons() uses cells and steps only
    for line, reply in zip(script, replies):            # from the plan on, in their order
        sentence = reasons.hear(line, reply)            # None if the line was not refused
"""
from __future__ import annotations

from typing import Callable, Sequence, cast

from ..base.units import Units
from ..base.wire import AnyEdit, CommandFields, Fields, PlanLine, ReplyFields
from .grammar import (CHANCE, COMMANDS, GREATEST_COUNT, KINDS, LAST_HORIZON, LAST_STEP, LONGEST_LINE, MOST_ROWS, PLAN, Faults,
                      NotWhole, find_closest, format_names, check_fields, name, shown, value_of)

MOST_SHOWN = 3
"""The number of faults of a line that are shown."""


# Faults of a plan whose fields are well-formed

def check_names(plan: PlanLine, units: Units) -> Faults:
    """Yield the faults of the replicas' names."""
    names = plan["replicas"]
    if not 1 <= len(names) <= 64:
        yield f"{len(names)} replicas: a plan has 1 to 64"
    for one in names:
        yield from name(one)
    for one in sorted({one for one in names if names.count(one) > 1}):
        yield f"two replicas are named {shown(one)}"


def check_length(plan: PlanLine, units: Units) -> Faults:
    """Yield the fault of the road's length."""
    yield f"a road must have 8 to 8,192 cells{units.km(8_192)}, not {plan['length']}{units.km(plan['length'])}"


def check_exit(plan: PlanLine, units: Units) -> Faults:
    """Yield the fault of the deleted zone."""
    yield f"the deleted zone must have 1 to {min(64, plan['length'] - 1)} cells, not {plan['exit']}{units.km(plan['exit'])}"


def check_zones(plan: PlanLine, units: Units) -> Faults:
    """Yield the faults of the zones' number and width."""
    count, width, length = len(plan["zones"]), plan["zone"], plan["length"]
    if not 1 <= count <= 64:
        yield f"{count} zones: a plan has 1 to 64"
    elif width == 0:
        yield "a zone of 0 cells"
    else:
        least = -(-length // count)
        yield (f"{count} zones of {width} cells{units.km(width)} make a road of {(count - 1) * width + 1} to "
               f"{count * width} cells{units.km(count * width)}, not {length}{units.km(length)}: `zone` must be "
               f"at least {least}{units.km(least)}")


def check_places(cells: Sequence[int], first: int, plan: PlanLine, what: str, units: Units) -> Faults:
    """Yield the faults of cells where an inlet or a detector cannot be."""
    last = plan["length"] - plan["exit"] - 1
    for index, cell in enumerate(cells):
        if not first <= cell <= last:
            yield (f"{what} {index} is at cell {cell}{units.km(cell)}: the cells before the deleted zone are {first} to "
                   f"{last}{units.km(last)}")


def check_inlets(plan: PlanLine, units: Units) -> Faults:
    """Yield the faults of the inlets' number and cells."""
    cells = [cell for cell, _ in plan["inlets"]]
    if not 1 <= len(cells) <= 16:
        yield f"{len(cells)} inlets: a plan has 1 to 16"
    for cell in sorted({cell for cell in cells if cells.count(cell) > 1}):
        yield f"two inlets are at cell {cell}{units.km(cell)}"
    yield from check_places(cells, 0, plan, "inlet", units)


def check_detectors(plan: PlanLine, units: Units) -> Faults:
    """Yield the faults of the detectors' number and cells."""
    if len(plan["detectors"]) > 64:
        yield f"{len(plan['detectors'])} detectors: a plan has at most 64"
    yield from check_places(plan["detectors"], 1, plan, "detector", units)


def check_default(plan: PlanLine, units: Units) -> Faults:
    """Yield the faults of the limits and chances of zones and inlets."""
    for index, (limit, slow) in enumerate(plan["zones"]):
        if limit > 9:
            yield f"zone {index}: the limit must be 0 to 9 cells a step, not {limit}{explain_kmh(limit, units)}"
        if slow > CHANCE:
            yield f"zone {index}: the slowing chance must be 0 to {CHANCE}, not {slow}"
    for index, (_, inflow) in enumerate(plan["inlets"]):
        if inflow > CHANCE:
            yield f"inlet {index}: the inflow chance must be 0 to {CHANCE}, not {inflow}"


def explain_kmh(limit: int, units: Units) -> str:
    """Return the nearest limit if a limit that is too great looks like one in km/h; otherwise an empty string."""
    nearest = round(limit / units.pace())
    return f"; {limit} km/h is about limit {nearest}, which is {units.kmh(nearest)}" if limit >= 20 and 1 <= nearest <= 9 else ""


PLAN_FAULTS: dict[str, Callable[[PlanLine, Units], Faults]] = {
    "Names": check_names, "Length": check_length, "Exit": check_exit, "Zones": check_zones,
    "Inlets": check_inlets, "Detectors": check_detectors, "Default": check_default,
}


# Faults of a command whose fields are well-formed

def list_edits(verb: str, given: CommandFields) -> list[tuple[str, AnyEdit]]:
    """Return the edits of a command, each with its name in a sentence."""
    if verb == "import":
        return [(f"edit {index}: ", edit) for index, edit in enumerate(given["edits"])]
    if verb == "crowd":
        return [(f"share {share}, edit {index}: ", edit)
                for share, edits in enumerate(given["shares"]) for index, edit in enumerate(edits)]
    if verb in ("edit", "withdraw"):
        kind, index = given["object"]
        return [("", (kind, index, given["step"], None, None, given.get("value")))]
    return []


def join_faults(faults: list[str]) -> str:
    """Join the first faults in one sentence."""
    more = f"; and {len(faults) - MOST_SHOWN} more" if len(faults) > MOST_SHOWN else ""
    return "; ".join(faults[:MOST_SHOWN]) + more


class Reasons:
    """Explains refused lines of a script, given the lines before."""

    def __init__(self, units: Units = Units()) -> None:
        self._units = units
        self._plan: PlanLine | None = None
        self._is_first = True
        self._horizons: dict[str, int] = {}
        self._messages: dict[str, str] = {}

    def hear(self, line: bytes, reply: Fields) -> str | None:
        """Take the next line with its reply. Return why it was refused, or None if it was not."""
        refusal = cast(ReplyFields, reply).get("refused")
        if refusal is None:
            self.accept(value_of(line), reply)
            return None
        is_plan, self._is_first = self._is_first, False
        try:
            faults = list(self._faults(is_plan, line, refusal))
        except (ValueError, RecursionError) as fault:
            faults = [str(fault)]
        return join_faults(faults)

    def accept(self, value: object, reply: Fields) -> None:
        """Take the value of the next line, which was accepted."""
        if self._is_first:
            self._plan, self._is_first = cast(PlanLine, value), False
            return
        (verb, given), = cast("dict[str, CommandFields]", value).items()
        if verb == "advance":
            self._horizons[given["at"]] = cast(ReplyFields, reply)["horizon"]
        elif verb in ("send", "heads", "beyond"):
            self._messages[given["name"]] = verb

    def _faults(self, is_plan: bool, line: bytes, refusal: str) -> Faults:
        if refusal == "no plan":
            return iter(["the script is empty"])
        if refusal == "line too long":
            return iter([f"it has {len(line)} bytes: the limit is {LONGEST_LINE}"])
        value = value_of(line)
        if is_plan:
            wrong = PLAN_FAULTS.get(refusal)
            return wrong(cast(PlanLine, value), self._units) if wrong else check_fields(value, PLAN, "the plan")
        return self._command_faults(value, refusal)

    def _command_faults(self, value: object, refusal: str) -> Faults:
        if type(value) is not dict or len(value) != 1:
            yield f"a command is an object with one field, the name of the command: {format_names(COMMANDS)}"
            return
        (verb, given), = value.items()
        if verb not in COMMANDS:
            meant = find_closest(verb, COMMANDS)
            known = f"use `{meant}`" if meant else f"the commands are {format_names(COMMANDS)}"
            yield f"unknown command `{verb}`: {known}"
        elif refusal == "not a command":
            yield from check_fields(given, COMMANDS[verb], f"`{verb}`")
            yield from self._indexes_in_km(verb, given)
            if given and type(given) is dict and given.get("form") == 1:
                yield "form 1 has no `start` edits: use form 2"
        elif refusal == "unknown form":
            yield f"`form` must be 1 or 2, not {given['form']}"
        else:
            yield from self._faults_by_name(verb, given, refusal)

    def _faults_by_name(self, verb: str, given: CommandFields, refusal: str) -> Faults:
        for called, edit in list_edits(verb, given):
            fault = self.edit_fault(edit)
            if fault and fault[0] == refusal:
                yield called + fault[1]
                return
        said = {"NoReplica": self._no_replica, "NoMessage": self._no_message,
                "NameTaken": self._name_taken, "CountsSpent": explain_counts_spent, "Horizon": self._past_horizon,
                "NoDetector": self._no_detector, "Range": self._bad_range,
                "NotSimulated": self._not_simulated}.get(refusal)
        if said:
            yield said(verb, given)

    def edit_fault(self, edit: AnyEdit) -> tuple[str, str] | None:
        """Return the first fault of an edit as its refusal and an explanation, or None."""
        kind, index, step, count, number, value = edit
        if self._plan is None:
            return None
        plan = self._plan
        noun, number_of = {"block": ("cell", plan["length"]), "inflow": ("inlet", len(plan["inlets"])),
                           "watch": ("detector", len(plan["detectors"]))}.get(kind, ("zone", len(plan["zones"])))
        if index >= number_of:
            km = self._units.km if kind == "block" else lambda cells: ""
            return "NoObject", f"the plan has no {noun} {index}{km(index)}: {format_count(noun, number_of)}{km(number_of)}"
        if step > LAST_STEP:
            minutes = self._units.minutes
            return "Step", f"the step of an edit must be at most {LAST_STEP}{minutes(LAST_STEP)}, not {step}{minutes(step)}"
        if value is not None and value > KINDS[kind]:
            unit, meant = (" cells a step", explain_kmh(value, self._units)) if kind == "limit" else ("", "")
            return "ValueOutOfRange", f"the value of `{kind}` must be 0 to {KINDS[kind]}{unit}, not {value}{meant}"
        if count is not None and not 1 <= count <= GREATEST_COUNT:
            return "Count", f"the count must be 1 to {GREATEST_COUNT}, not {count}"
        if number is not None and number < 64:
            return "Insider", f"the number {number} belongs to a replica: imported edits must have 64 to 65535"
        return None

    def _indexes_in_km(self, verb: str, given: object) -> Faults:
        """Yield explanations of indexes with a point, which look like km: what they count, and where that km is."""
        try:
            things: list[Sequence[object]] = [edit[:2] for _, edit in list_edits(verb, cast(CommandFields, given))]
        except (KeyError, TypeError, IndexError, ValueError):
            return
        for kind, index in things:
            if type(kind) is str and kind in KINDS and isinstance(index, NotWhole):
                what = {"block": "cell", "inflow": "inlet", "watch": "detector"}.get(kind, "zone")
                yield f"`{kind}` has the index of {'an' if what == 'inlet' else 'a'} {what}, counted from 0{self._at_km(index, what)}"

    def _at_km(self, km: str, what: str) -> str:
        """Return the cell and zone at a km."""
        if what not in ("cell", "zone") or km.startswith("-") or not self._plan:
            return ""
        cell, length = round(float(km) * 1_000 / (self._units.metres or 7.5)), self._plan["length"]
        known = "" if self._units.metres else " at 7.5 m a cell"
        if cell >= length:
            return f": km {km} would be cell {cell}{known}, but the last cell is {length - 1}"
        return f": km {km} is cell {cell}{known}" + f", in zone {cell // self._plan['zone']}" * (what == "zone")

    def _no_replica(self, verb: str, given: CommandFields) -> str:
        names = self._plan["replicas"] if self._plan else []
        return f"the plan has no replica {shown(given['at'])}: its replicas are {format_names(names)}"

    def _no_message(self, verb: str, given: CommandFields) -> str:
        wanted = given["message"] if verb == "take" else given["heads"]
        makers = ("send", "beyond") if verb == "take" else ("heads",)
        if wanted in self._messages:
            return (f"{shown(wanted)} was made by `{self._messages[wanted]}`, but `{verb}` needs "
                    f"a message made by {' or '.join(map('`{}`'.format, makers))}")
        there = [one for one, maker in self._messages.items() if maker in makers]
        has = f"the messages are {format_names(there[-8:])}" if there else "none was made"
        return f"there is no message {shown(wanted)}: {has}"

    def _name_taken(self, verb: str, given: CommandFields) -> str:
        return f"the name {shown(given['name'])} is taken: `{self._messages[given['name']]}` made a message of this name"

    def _no_detector(self, verb: str, given: CommandFields) -> str:
        there = format_count("detector", len(self._plan["detectors"]) if self._plan else 0)
        return f"the plan has no detector {given['detector']}: {there}"

    def _not_simulated(self, verb: str, given: CommandFields) -> str:
        reached, asked = self._horizons.get(given["at"], 0), given.get("to", given.get("step", 0))
        minutes = self._units.minutes
        return (f"{shown(given['at'])} is simulated only to step {reached}{minutes(reached)}, not to {asked}{minutes(asked)}: "
                "`advance` it first")

    def _past_horizon(self, verb: str, given: CommandFields) -> str:
        minutes = self._units.minutes
        return f"`to` must be at most {LAST_HORIZON}{minutes(LAST_HORIZON)}, not {given['to']}{minutes(given['to'])}"

    def _bad_range(self, verb: str, given: CommandFields) -> str:
        first, to, minutes = given["from"], given["to"], self._units.minutes
        if first > to:
            return f"`from` {first}{minutes(first)} is above `to` {to}{minutes(to)}"
        return f"a diagram can have at most {MOST_ROWS} rows, not {to - first + 1}"


def format_count(what: str, count: int) -> str:
    """Return the number of a plan's objects in words."""
    return f"it has {count} {what}{'s' * (count != 1)}, counted from 0"


def explain_counts_spent(verb: str, given: CommandFields) -> str:
    return f"an import brought the largest count, {GREATEST_COUNT}, so a new edit cannot have a larger one"
