"""Define JSON values, read them from others, and write them."""
from __future__ import annotations

import json
import re
from typing import NoReturn, Union

Json = Union[None, bool, int, float, str, "list[Json]", "dict[str, Json]"]
HALF = re.compile(r"\\u[dD][89a-fA-F]")  # the escape of a half of a surrogate pair
STRING, BRACKET = re.compile(r'"(?:[^"\\]|\\.)*"', re.S), re.compile(r"[\[\]{}]")


def read_json(text: str) -> Json:
    """Return the value of a text from others. Raise `ValueError` or `RecursionError` if it is not JSON, or has a number that is not finite,
    or a lone surrogate."""
    value: Json = json.loads(text, parse_constant=refuse_constant, parse_float=parse_finite)
    if HALF.search(text):  # nothing else can write a lone surrogate
        to_json(value).encode()
    return value


def refuse_constant(text: str) -> NoReturn:
    raise ValueError(f"{text} is not a JSON number")


def parse_finite(text: str) -> float:
    if abs(float(text)) == float("inf"):
        raise ValueError(f"{text[:40]} is too large")
    return float(text)


def find_depth(text: str) -> int:
    """Return how deep lists and objects are nested in a JSON text, by the brackets outside of its strings."""
    depth = most = 0
    for bracket in BRACKET.findall(STRING.sub("", text)):
        depth += 1 if bracket in "[{" else -1
        most = max(most, depth)
    return most


def to_json(value: object) -> str:
    """Return a value as compact JSON in one line."""
    return json.dumps(value, separators=(",", ":"), ensure_ascii=False, allow_nan=False)
