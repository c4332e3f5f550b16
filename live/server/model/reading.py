"""Read operations from JSON values, and check every field, so that all other modules can rely on them.

Operations of tabs, of other sites and of journals pass the same checks. Whether their objects and values exist on the road is checked
elsewhere, by `server.journal.checks`.
"""
from __future__ import annotations

import json
import re
import sys
import unicodedata
from typing import Callable, Mapping, Sequence, TypeVar

from ..base.json_values import Json
from .operations import CAPACITY, NO_MORE, About, Capacity, Operation, Shape, Stamp, intern_int, name_of

GREATEST_COUNT, GREATEST_VALUE = (1 << 53) - 1, (1 << 32) - 1
MOST_OBJECTS = 600  # objects of a shape
MOST_MORE = 1_000  # bytes of fields that this version does not know
LONGEST_NAME, LONGEST_NOTE = 64, 200  # characters
SITE = re.compile(r"[A-Za-z0-9.-]{1,31}-[0-9a-f]{8}")
HASH = re.compile(r"[A-Za-z0-9_-]{22}")
CONTROLS = frozenset({"Cc", "Cf", "Co", "Cs"})  # control characters, direction marks, private characters and lone surrogates
KNOWN = ("stamp", "site", "layer", "shape", "top", "undoes", "excludes", "seen", "who", "note", "when")
T = TypeVar("T")


class Malformed(ValueError):
    """A malformed operation, or a malformed entry of a journal. The text says what is wrong with it, `refusal` is the name of the refusal
    that a tab gets."""

    def __init__(self, why: str, refusal: str = "not a command") -> None:
        super().__init__(why)
        self.refusal = refusal


def read_operation(value: Json) -> Operation:
    """Return the operation that a JSON value describes. Raise `Malformed` if it describes none, or has another name than its text."""
    if not isinstance(value, dict):
        raise Malformed("an operation must be a JSON object")
    stamp = read_stamp(value.get("stamp"))
    shape, layer = read_optional(value, "shape", read_shape), read_optional(value, "layer", read_stamp)
    top = False if value.get("top") is None else value["top"]
    if type(top) is not bool:
        raise Malformed("`top` must be true or false")
    if layer == stamp:
        raise Malformed("an operation must refer only to operations with a smaller count: leave `layer` out to put a new one")
    about = About(read_text(value, "who", LONGEST_NAME), read_text(value, "note", LONGEST_NOTE), read_time(value.get("when")),
                  read_site(value.get("site")), read_more(value))
    try:
        operation = Operation(stamp, stamp if layer is None and shape is not None else layer, shape, top, read_optional(
            value, "undoes", read_stamp), read_optional(value, "excludes", read_exclusion), read_optional(value, "seen", read_stamp), about)
        name = name_of(operation)
    except UnicodeEncodeError:
        raise Malformed("the operation has a lone surrogate") from None
    except ValueError as fault:
        raise Malformed(str(fault)) from None
    wrong = why_no_operation(operation) or (None if name == stamp else f"the hash of its text is {name[1]}, not {stamp[1]}")
    if wrong is not None:
        raise Malformed(wrong)
    return operation


def why_no_operation(operation: Operation) -> str | None:
    """Return a sentence that says why an operation does nothing, or too much; None if it does one thing. An undo and an exclusion are
    listed only in the line of what they undo and of the site; and an exclusion counts although its site is excluded."""
    stamp = list(operation.stamp)
    does = [operation.line is not None, operation.undoes is not None, operation.excludes is not None]
    if not any(does):
        return f"the operation {stamp} does nothing"
    if sum(does) > 1 or operation.line is None and (operation.top or operation.seen is not None):
        return f"the operation {stamp} undoes another one or excludes a site, so it must do nothing else: make two operations of it"
    if operation.puts and operation.top:
        return f"the operation {stamp} puts a new layer, which is on top already: leave `top` out"
    if operation.excludes is not None and operation.excludes[0] == operation.site:
        return f"site {operation.site} cannot exclude or include itself: another site must do it"
    return None


def read_more(value: Mapping[str, Json]) -> Mapping[str, Json]:
    """Return the fields of an operation that this version does not know. Their numbers must be whole, since texts of others differ."""
    more = {name: one for name, one in value.items() if name not in KNOWN}
    if not more:
        return NO_MORE
    try:
        is_short = len(json.dumps(more)) <= MOST_MORE
    except RecursionError:  # lists in lists, very deep
        is_short = False
    if not is_short:
        raise Malformed(f"the fields that this version does not know must have at most {MOST_MORE} bytes")
    require_whole([*more.values()])
    return more


def require_whole(value: Json) -> None:
    """Raise `Malformed` if a number in a JSON value is not whole, or too large for all readers of JSON."""
    if isinstance(value, float) or type(value) is int and abs(value) > GREATEST_COUNT:
        raise Malformed(f"{value} is not a whole number of at most {GREATEST_COUNT} in size, as all numbers of an operation must be")
    for item in value.values() if isinstance(value, dict) else value if isinstance(value, list) else ():
        require_whole(item)


def read_optional(value: Mapping[str, Json], name: str, read: Callable[[Json], T]) -> T | None:
    return None if value.get(name) is None else read(value[name])


def read_stamp(value: Json) -> Stamp:
    """Return a stamp: a count and a hash."""
    count, name = read_row(value, 2, "a stamp must be a count and a hash")
    if not isinstance(name, str) or not HASH.fullmatch(name):
        raise Malformed("the hash of a stamp must be 22 characters of base64")
    return whole(count, GREATEST_COUNT, "count"), name


def read_site(value: Json) -> str:
    if not isinstance(value, str) or not SITE.fullmatch(value):
        raise Malformed("a site must be 1 to 31 characters of A-Z, a-z, 0-9, dot and hyphen, a hyphen and 8 hex digits")
    return sys.intern(value)


def read_shape(value: Json) -> Shape:
    """Return a shape: kind, first and last object, from, until (or null), value."""
    kind, first, last, begin, end, number = read_row(value, 6, "a shape must have six parts: kind, first, last, from, until, value")
    shape = Shape(word(kind), whole(first, GREATEST_VALUE, "object"), whole(last, GREATEST_VALUE, "object"),
                  whole(begin, GREATEST_VALUE, "step"), None if end is None else whole(end, GREATEST_VALUE, "step"),
                  read_capacity(number) if kind == CAPACITY else whole(number, GREATEST_VALUE, "value"))
    if shape.first > shape.last:
        raise Malformed(f"a shape's last {shape.kind}, {shape.last}, is before its first, {shape.first}", "NoObject")
    if shape.last - shape.first >= MOST_OBJECTS:
        raise Malformed(f"a shape can cover at most {MOST_OBJECTS} objects, not {shape.last - shape.first + 1}: make several "
                        "smaller shapes", "TooManyObjects")
    if shape.end is not None and shape.end <= shape.begin:
        raise Malformed(f"a shape must end after step {shape.begin}, where it begins, not at {shape.end}", "Range")
    return shape


def read_capacity(value: Json) -> Capacity:
    """Return the value of a capacity: cars per hour, limit, slowing chance and slow-to-start chance."""
    cars, limit, slow, start = (whole(one, GREATEST_VALUE, "value") for one in read_row(
        value, 4, "a capacity must have four parts: cars per hour, limit, slowing chance, slow-to-start chance"))
    return cars, limit, slow, start


def read_exclusion(value: Json) -> tuple[str, bool]:
    """Return a site and whether it is excluded."""
    site, is_out = read_row(value, 2, "an exclusion must be a site and true or false")
    if type(is_out) is not bool:
        raise Malformed("an exclusion must be a site and true or false")
    return read_site(site), is_out


def list_of(read: Callable[[Json], T]) -> Callable[[Json], Sequence[T]]:
    """Return the reader of a list whose items `read` reads."""
    def read_all(value: Json) -> Sequence[T]:
        if not isinstance(value, list):
            raise Malformed(f"a list was expected, not {str(value)[:40]}")
        return [*map(read, value)]
    return read_all


def read_row(value: Json, size: int, why: str) -> Sequence[Json]:
    if not isinstance(value, (list, tuple)) or len(value) != size:
        raise Malformed(why)
    return value


def whole(value: Json, most: int, what: str) -> int:
    """Return a whole number from 0 to `most`. Raise `Malformed` if it is not one; `what` says what it is."""
    if type(value) is not int or not 0 <= value <= most:
        raise Malformed(f"{what} {value!r:.40} is not a whole number from 0 to {most}")
    return intern_int(value)


def word(value: Json) -> str:
    if type(value) is not str or len(value) > 16:
        raise Malformed("a kind must be a string of at most 16 characters")
    return sys.intern(value)


def read_text(value: Mapping[str, Json], name: str, most: int) -> str:
    text = "" if value.get(name) is None else value[name]
    if type(text) is not str or clean_text(text, most) != text:
        raise Malformed(f"`{name}` must be a string of at most {most} characters for one line, without control characters")
    return sys.intern(text)


def clean_text(value: object, most: int) -> str:
    """Return a text of at most `most` characters for one line: words with single spaces between them, without control characters,
    direction marks and lone surrogates. A clean text stays as it is."""
    plain = "".join(sign for sign in str(value)[:8 * most] if sign.isspace() or unicodedata.category(sign) not in CONTROLS)
    return " ".join(plain.split())[:most].rstrip()


def read_time(value: Json) -> int:
    """Return a time in seconds since 1970; 0 if it is missing."""
    if value is None:
        return 0
    if type(value) is not int or not 0 <= value < 1 << 40:
        raise Malformed("`when` must be a time in whole seconds since 1970")
    return value
