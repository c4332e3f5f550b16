"""Parse messages of other sites, without their operations. A malformed one raises `InvalidMessage`."""
from __future__ import annotations

from typing import Mapping

from ..base.json_values import Json, read_json
from ..model.reading import Malformed, clean_text, read_row, read_site, read_stamp
from .sums import MOST_RANGES, Bound

LONGEST_HASH = 40
LONGEST_HOST = 64


class InvalidMessage(Exception):
    """A malformed message. The text says what is wrong."""


def read_message(body: bytes) -> Mapping[str, Json]:
    """Return the fields of a message; none if it is not a JSON object."""
    try:
        value = read_json(body.decode())
    except (ValueError, RecursionError):
        raise InvalidMessage(f"it is not JSON: {clean_text(body[:60].decode(errors='replace'), 60)}") from None
    return value if isinstance(value, dict) else {}


def site_of(value: Mapping[str, Json]) -> tuple[str, str, str, int]:
    """Return site, host, road and greatest count from an announcement."""
    said, host, road, count = map(value.get, ("site", "host", "road", "count"))
    try:
        site = read_site(said)
    except Malformed as fault:
        raise InvalidMessage(f"it does not say which site sent it: {fault}") from None
    if type(host) is not str or type(road) is not str or type(count) is not int or count < 0:
        raise InvalidMessage("it does not say which site sent it")
    return site, clean_text(host, LONGEST_HOST), clean_text(road, LONGEST_HASH), count


def sum_of(value: Mapping[str, Json]) -> tuple[str, list[tuple[Bound, str]]]:
    """Return the hash of all operations, and hashes by ranges of stamps, from a message."""
    theirs, written = value.get("sum"), value.get("ranges")
    if type(theirs) is not str or not isinstance(written, list) or not 1 <= len(written) <= MOST_RANGES:
        raise InvalidMessage("it has no valid hash of the site's operations")
    try:
        rows = [read_row(one, 2, "a range must be a stamp and a hash") for one in written]
        ranges = [(read_stamp(begin) if place else None, read_hash(one)) for place, (begin, one) in enumerate(rows)]
    except Malformed as fault:
        raise InvalidMessage(f"it has no valid hash of the site's operations: {fault}") from None
    begins = [begin for begin, _ in ranges if begin is not None]
    if rows[0][0] is not None or any(one >= other for one, other in zip(begins, begins[1:])):
        raise InvalidMessage("the ranges of its hashes are not in order")
    return clean_text(theirs, LONGEST_HASH), ranges


def read_hash(value: Json) -> str:
    if not isinstance(value, str) or len(value) > LONGEST_HASH:
        raise Malformed("a hash must be a short string")
    return value


def form_of(value: Mapping[str, Json]) -> int:
    """Return the form of a message; 0 if it does not say."""
    form = value.get("form")
    return form if type(form) is int else 0
