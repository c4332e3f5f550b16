"""The grammar of lines: the meaning of a line, or why it is refused."""
import json
import re

LONGEST_LINE = 65_536
MOST_SHARES = 8
DEEPEST = 127
KINDS = ("limit", "slow", "block", "inflow", "watch", "start")


class Refused(Exception):
    """A line is refused, with this text."""


def split(script):
    """Return the lines of an input. A last piece without a newline is a line unless it is empty."""
    lines = script.split(b"\n")
    return lines if lines[-1] else lines[:-1]


def read_line(line, read_value):
    """Return the command or plan of a line, whose JSON value `read_value` reads. Raise Refused if there is none."""
    if len(line) > LONGEST_LINE:
        raise Refused("line too long")
    try:
        value = json_value(line.decode())
    except (ValueError, RecursionError):
        raise Refused("not json") from None
    return read_value(value)


# JSON, read strictly

def json_value(text):
    hooks = {"parse_int": whole, "parse_float": finite, "parse_constant": no_number}
    # Lists of pairs keep duplicate fields, so that a string with invalid Unicode is refused in them, too.
    json.dumps(json.loads(text, object_pairs_hook=list, **hooks), ensure_ascii=False).encode()
    if depth(text) > DEEPEST:
        raise ValueError("too deep")
    return json.loads(text, **hooks)


def whole(text):
    """Return a number that is written without point and exponent: an integer, or a float if it has a sign. Too large: ValueError."""
    number = finite(text)
    return int(text) if text.isdigit() else number


def finite(text):
    number = float(text)
    if abs(number) == float("inf"):
        raise ValueError("too large")
    return number


def no_number(text):
    raise ValueError(text)


def depth(text):
    """Return how deep the lists and objects of a JSON text are nested."""
    deepest = now = 0
    for letter in re.sub(r'"(\\.|[^"\\])*"', "", text):
        now += (letter in "[{") - (letter in "]}")
        deepest = max(deepest, now)
    return deepest


# The parts of plans and commands: each function returns the meaning of a JSON value, or raises Wrong

class Wrong(Exception):
    """A value is not valid here."""


def number(value, most=2 ** 32 - 1):
    if type(value) is not int or value > most:
        raise Wrong
    return value


def long_number(value):
    return number(value, 2 ** 64 - 1)


def string(value):
    if type(value) is not str:
        raise Wrong
    return value


def name(value):
    if not 1 <= len(string(value).encode()) <= 64:
        raise Wrong
    return value


def seed(value):
    return value if value == "steady" else long_number(value)


def list_of(part):
    def items(value):
        if type(value) is not list:
            raise Wrong
        return [part(item) for item in value]
    return items


def pair(value):
    if type(value) is not list or len(value) != 2:
        raise Wrong
    return tuple(map(number, value))


def thing(value):
    """Return an object, as (kind, index)."""
    if type(value) is not list or len(value) != 2 or value[0] not in KINDS:
        raise Wrong
    return value[0], number(value[1])


def edit(value):
    """Return an edit, as (kind, index, step, count, number, value). The value of a withdrawal is None."""
    if type(value) is not list or len(value) != 6:
        raise Wrong
    kind, index, step, count, replica, new = value
    return (*thing([kind, index]), number(step), long_number(count), number(replica, 65_535),
            None if new is None else number(new))


def shares(value):
    found = list_of(list_of(edit))(value)
    if not 1 <= len(found) <= MOST_SHARES:
        raise Wrong
    return found


def fields(value, parts):
    if type(value) is not dict or value.keys() != parts.keys():
        raise Wrong
    return {field: part(value[field]) for field, part in parts.items()}


PLAN = {"detectors": list_of(number), "exit": number, "inlets": list_of(pair), "length": number,
        "replicas": list_of(string), "words": seed, "zone": number, "zones": list_of(pair)}

COMMANDS = {
    "edit": {"at": name, "object": thing, "step": number, "value": number},
    "withdraw": {"at": name, "object": thing, "step": number},
    "advance": {"at": name, "to": number},
    "cells": {"at": name, "step": number},
    "cars": {"at": name, "step": number},
    "count": {"at": name, "detector": number, "from": number, "to": number},
    "diagram": {"at": name, "from": number, "to": number},
    "scenario": {"at": name},
    "import": {"at": name, "edits": list_of(edit), "form": long_number},
    "send": {"at": name, "name": name},
    "heads": {"at": name, "name": name},
    "beyond": {"at": name, "heads": name, "name": name},
    "take": {"at": name, "message": name},
    "crowd": {"shares": shares, "to": number, "form": long_number},
}


def plan(value):
    try:
        return fields(value, PLAN)
    except Wrong:
        raise Refused("not a plan") from None


def command(value):
    """Return the name of a command, and its fields."""
    try:
        if type(value) is not dict or len(value) != 1:
            raise Wrong
        (verb, given), = value.items()
        if verb not in COMMANDS:
            raise Wrong
        found = fields(given, COMMANDS[verb])
    except Wrong:
        raise Refused("not a command") from None
    form = found.pop("form", 2)
    edits = found.get("edits", []) + sum(found.get("shares", []), [])
    if form == 1 and any(kind == "start" for kind, *_ in edits):
        raise Refused("not a command")
    if form not in (1, 2):
        raise Refused("unknown form")
    return verb, found
