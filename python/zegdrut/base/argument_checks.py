"""Check arguments. Each error message begins with the name of the field."""
from __future__ import annotations

import json
import math
import operator
from collections.abc import Iterable
from typing import SupportsIndex, TypeGuard

from .wire import Fields


def check_whole(name: str, value: object) -> int:
    """Return a whole number of at least 0, also for numpy's integers.

    TypeError: the value is not a whole number. ValueError: it is NaN or negative.
    """
    if isinstance(value, float) and math.isnan(value):
        raise ValueError(f"{name}: NaN is not a number")
    if isinstance(value, bool) or not isinstance(value, SupportsIndex):
        raise TypeError(f"{name}: {value!r} must be a whole number")
    number = operator.index(value)
    if number < 0:
        raise ValueError(f"{name}: {number} is negative: it must be 0 or more")
    return number


def is_number(value: object) -> TypeGuard[float]:
    """Return whether a JSON value is a finite number."""
    return isinstance(value, (int, float)) and not isinstance(value, bool) and math.isfinite(value)


def check_text(name: str, value: object) -> str:
    """Return a string. TypeError: the value is not a string."""
    if not isinstance(value, str):
        raise TypeError(f"{name}: {value!r} must be a string")
    return value


def check_list(name: str, value: object, what: str) -> list[object]:
    """Return a list, tuple or array as a list. TypeError: the value is something else."""
    if isinstance(value, (str, bytes, dict)) or not isinstance(value, Iterable):
        raise TypeError(f"{name}: {value!r} must be a list of {what}")
    return list(value)


def check_pair(name: str, value: object, first: str, second: str) -> tuple[int, int]:
    """Return two whole numbers, called `first` and `second`. TypeError, ValueError: the value is something else."""
    if isinstance(value, (str, bytes, dict)) or not isinstance(value, Iterable) or len(both := list(value)) != 2:
        raise TypeError(f"{name}: {value!r} must be ({first}, {second})")
    return check_whole(f"{name}.{first}", both[0]), check_whole(f"{name}.{second}", both[1])


def check_object(name: str, value: object) -> tuple[str, int]:
    """Return the kind and index of an object, such as ("block", 24). TypeError, ValueError: the value is something else."""
    if isinstance(value, (str, bytes, dict)) or not isinstance(value, Iterable) or len(both := list(value)) != 2:
        raise TypeError(f"{name}: {value!r} must be (kind, index)")
    return check_text(f"{name}.kind", both[0]), check_whole(f"{name}.index", both[1])


def encode_line(line: Fields) -> bytes:
    """Return a line of a script without its newline. ValueError, TypeError: a value is not JSON. The message names its place."""
    try:
        return json.dumps(line, separators=(",", ":"), ensure_ascii=False, allow_nan=False, default=to_int).encode()
    except UnicodeEncodeError:
        raise ValueError("a string has half of a surrogate pair") from None
    except (ValueError, TypeError) as fault:
        raise type(fault)(find_fault(line) or str(fault)) from None


def to_int(value: object) -> int:
    """Convert a whole number of another type, such as numpy's, to `int`."""
    if isinstance(value, SupportsIndex):
        return operator.index(value)
    raise TypeError(f"{value!r} must be a whole number")


def find_fault(value: object, name: str = "") -> str | None:
    """Return a sentence with the name and value of the first field that is not JSON, or None."""
    if isinstance(value, dict):
        parts = [(f"{name}.{key}" if name else str(key), part) for key, part in value.items()]
    elif isinstance(value, (list, tuple)):
        parts = [(f"{name}[{index}]", part) for index, part in enumerate(value)]
    elif isinstance(value, float) and not math.isfinite(value):
        return f"{name}: {'NaN' if math.isnan(value) else value} cannot be written in a script"
    elif value is None or isinstance(value, (str, int, float)) or isinstance(value, SupportsIndex):
        return None
    else:
        return f"{name}: {value!r} must be a whole number"
    return next((found for part_name, part in parts if (found := find_fault(part, part_name))), None)
