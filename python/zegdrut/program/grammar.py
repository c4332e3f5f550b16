"""Check lines against the grammar: the fields of a plan and of each command, and the faults of a value."""
from __future__ import annotations

import difflib
import json
import re
from typing import Callable, Iterable, Iterator

LONGEST_NAME = 40
"""The length of a name above which it is not compared with known names."""
LONGEST_LINE, DEEPEST = 65_536, 127
GREATEST, GREATEST_LONG, GREATEST_NUMBER = 2 ** 32 - 1, 2 ** 64 - 1, 65_535
LAST_STEP, LAST_HORIZON, GREATEST_COUNT, MOST_ROWS = 1_048_575, 1_048_576, 2 ** 48, 1_024
CHANCE = 65_536
KINDS = {"limit": 9, "slow": CHANCE, "block": 1, "inflow": CHANCE, "watch": 1, "start": CHANCE}

Faults = Iterator[str]
Part = Callable[[object], Faults]
"""A check of a part of a line. It yields the faults as sentences."""


class NotWhole(str):
    """The text of a number with a sign, a point or an exponent."""


# Reading

def value_of(line: bytes) -> object:
    """Read the JSON value of a line. ValueError: it is not JSON; the message says why."""
    if line.startswith(b"\xef\xbb\xbf"):
        raise ValueError("the line begins with a byte order mark")
    try:
        text = line.decode()
    except UnicodeDecodeError as fault:
        raise ValueError(f"byte {fault.start} is not valid UTF-8") from None
    if not text.strip():
        raise ValueError("the line is empty")
    if text.lstrip()[0] in "#/":
        raise ValueError("comments are not allowed")
    deepest = count_depth(text)
    if deepest > DEEPEST:
        raise ValueError(f"it is nested {deepest} deep: the limit is {DEEPEST}")
    try:
        value = json.loads(text, parse_int=parse_whole, parse_float=parse_finite, parse_constant=refuse_constant)
    except json.JSONDecodeError as fault:
        raise ValueError(explain_json_error(text, fault)) from None
    try:
        # Lists of pairs also contain the fields that a later field of the same name hides.
        json.dumps(json.loads(text, object_pairs_hook=list), ensure_ascii=False).encode()
    except UnicodeEncodeError:
        raise ValueError("a string has half of a surrogate pair") from None
    return value


def explain_json_error(text: str, fault: json.JSONDecodeError) -> str:
    """Explain why a line is not JSON."""
    rest = text[fault.pos:].strip()
    digits = re.match(r"\d*", text[fault.pos:])
    zeros = re.search(r"(?<![\w.])-?0\d+$", text[:fault.pos] + (digits[0] if digits else ""))
    if zeros:
        return f"{zeros[0]} has a leading zero, at byte {len(text[:zeros.start()].encode())}: JSON writes {int(zeros[0])}"
    if not rest:
        return "it ends too early: a command must be on one line"
    said = {"Extra data": "there is something after the value"}.get(fault.msg, fault.msg)
    if rest[0] == "'" or text[max(fault.pos - 1, 0)] == "'":
        said = "strings need double quotes"
    elif rest[0] in "}]" and text[:fault.pos].rstrip().endswith(","):
        said = "there is an extra comma"
    else:
        for wrong, right in (("True", "true"), ("False", "false"), ("None", "null")):
            said = f"JSON writes {right}" if rest.startswith(wrong) else said
    return f"{said}, at byte {len(text[:fault.pos].encode())}: {rest[:20]}"


def parse_whole(text: str) -> int | NotWhole:
    """Read a whole number, or return its text if it has a sign."""
    return int(text) if text.isdigit() and parse_finite(text) else NotWhole(text)


def parse_finite(text: str) -> NotWhole:
    """Return the text of a number. ValueError: it is too great."""
    if float(text) in (float("inf"), float("-inf")):
        raise ValueError(f"{text} is too great")
    return NotWhole(text)


def refuse_constant(text: str) -> None:
    """Refuse NaN and infinities. ValueError: always."""
    raise ValueError(f"{text} is not a number in JSON")


def count_depth(text: str) -> int:
    """Return how deeply lists and objects are nested."""
    deepest = now = 0
    for sign in re.sub(r'"(\\.|[^"\\])*"', "", text):
        now += (sign in "[{") - (sign in "]}")
        deepest = max(deepest, now)
    return deepest


# Checks of the parts of a line: each yields the faults of a value

def shown(value: object) -> str:
    """Return a value as it is in the line, cut if it is long."""
    text = value if isinstance(value, NotWhole) else json.dumps(value, ensure_ascii=False)
    return text if len(text) <= 40 else text[:37] + ".."


def format_names(names: Iterable[str]) -> str:
    """Return names, each in backticks."""
    return " ".join(f"`{name}`" for name in names)


def find_closest(name: str, names: Iterable[str]) -> str | None:
    """Return the known name that is most similar to a name, or None."""
    if len(name) > LONGEST_NAME:
        return None  # (comparing would take long)
    found = difflib.get_close_matches(name.lower(), list(names), 1, 0.6)
    return found[0] if found else None


def whole(value: object, most: int = GREATEST) -> Faults:
    """Yield the faults of a whole number."""
    if isinstance(value, NotWhole) or type(value) is int and value < 0:
        yield f"{value} must be a whole number, written without sign, point and exponent"
    elif type(value) is int:
        if value > most:
            yield f"{value} is above {most}"
    elif type(value) is str and value.strip().isdigit():
        yield f"{shown(value)} is in quotes: write the number without them"
    else:
        yield f"{shown(value)} is not a number"


def long_whole(value: object) -> Faults:
    """Yield the faults of a whole number of 64 bits."""
    return whole(value, GREATEST_LONG)


def seed(value: object) -> Faults:
    """Yield the faults of a seed."""
    if value != "steady":
        for fault in long_whole(value):
            yield f'{fault} (or "steady")'


def chance(value: object) -> Faults:
    """Yield the faults of a chance in 1/65,536."""
    for fault in whole(value):
        if isinstance(value, NotWhole) and 0 < float(value) < 1:
            fault += f"; the chance {value} is {round(float(value) * CHANCE)}, in 1/65,536"
        yield fault


def text(value: object) -> Faults:
    """Yield the faults of a string."""
    if type(value) is not str or isinstance(value, NotWhole):
        yield f"{shown(value)} is not a string"


def name(value: object) -> Faults:
    """Yield the faults of a name."""
    yield from text(value)
    if type(value) is str and not 1 <= len(value.encode()) <= 64:
        yield f"a name must have 1 to 64 bytes, not {len(value.encode())}"


def list_of(part: Part, what: str, most: int | None = None) -> Part:
    """Return the check of a list; with `most`, of a list of 1 to `most` items."""
    def faults(value: object) -> Faults:
        if type(value) is not list:
            yield f"{shown(value)} is not a list"
            return
        if most and not 1 <= len(value) <= most:
            yield f"1 to {most} {what}s, not {len(value)}"
        for index, item in enumerate(value):
            for fault in part(item):
                yield f"{what} {index}: {fault}"
    return faults


def row_of(*parts: tuple[str, Part]) -> Part:
    """Return the check of a list with exactly these named parts."""
    def faults(value: object) -> Faults:
        if type(value) is not list or len(value) != len(parts):
            names = ",".join(named for named, _ in parts)
            yield f"{shown(value)} is not [{names}]"
            return
        for (named, part), item in zip(parts, value):
            for fault in part(item):
                yield f"{named} {fault}"
    return faults


def kind(value: object) -> Faults:
    """Yield the faults of the kind of an object."""
    if type(value) is str and value in KINDS and not isinstance(value, NotWhole):
        return
    meant = find_closest(str(value), KINDS)
    known = f"use `{meant}`" if meant else f"the kinds are {format_names(KINDS)}"
    yield f"{shown(value)} does not exist: {known}"


def put(value: object) -> Faults:
    """Yield the faults of a value in an import, where null is a withdrawal."""
    return iter(()) if value is None else chance(value)


def edit_value(value: object) -> Faults:
    """Yield the faults of a value in an edit."""
    if value is None:
        return iter(["null is not a value: use `withdraw` to withdraw an edit"])
    return chance(value)


EDIT = row_of(("kind", kind), ("index", whole), ("step", whole), ("count", long_whole),
              ("number", lambda value: whole(value, GREATEST_NUMBER)), ("value", put))
OBJECT = row_of(("kind", kind), ("index", whole))
PLAN: dict[str, Part] = {
    "length": whole, "exit": whole, "zone": whole,
    "zones": list_of(row_of(("limit", whole), ("slow", chance)), "zone"),
    "inlets": list_of(row_of(("cell", whole), ("inflow", chance)), "inlet"),
    "detectors": list_of(whole, "detector"), "words": seed,
    "replicas": list_of(text, "replica"),
}
COMMANDS: dict[str, dict[str, Part]] = {
    "edit": {"at": name, "object": OBJECT, "step": whole, "value": edit_value},
    "withdraw": {"at": name, "object": OBJECT, "step": whole},
    "advance": {"at": name, "to": whole},
    "cells": {"at": name, "step": whole},
    "cars": {"at": name, "step": whole},
    "count": {"at": name, "detector": whole, "from": whole, "to": whole},
    "diagram": {"at": name, "from": whole, "to": whole},
    "scenario": {"at": name},
    "import": {"at": name, "edits": list_of(EDIT, "edit"), "form": long_whole},
    "send": {"at": name, "name": name},
    "heads": {"at": name, "name": name},
    "beyond": {"at": name, "heads": name, "name": name},
    "take": {"at": name, "message": name},
    "crowd": {"form": long_whole, "shares": list_of(list_of(EDIT, "edit"), "share", 8), "to": whole},
}


def check_fields(value: object, parts: dict[str, Part], what: str) -> Faults:
    """Yield the faults of the fields of an object."""
    if type(value) is not dict:
        yield f"{what} must be an object with the fields {format_names(parts)}"
        return
    unknown = [field for field in value if field not in parts]
    missing = [field for field in parts if field not in value]
    for field in unknown:
        alone = missing[0] if len(unknown) == len(missing) == 1 else None
        meant = alone or find_closest(field, missing)
        yield f"{what} has no field `{field}`" + (f": use `{meant}`" if meant else "")
        if meant:
            missing.remove(meant)
    if missing:
        yield f"{what} lacks {format_names(missing)}"
    for field, part in parts.items():
        if field in value:
            for fault in part(value[field]):
                yield f"`{field}`: {fault}"
