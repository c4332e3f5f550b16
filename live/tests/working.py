"""Limits of processor time that mean the same work on every machine.

    with takes_at_most(0.1):
        ..                          fails if this is more work than a quiet machine does in 0.1 s

A slow or shared machine takes longer for the same work. If a limit is exceeded, it is therefore scaled by the time that a fixed
piece of work takes at that moment, and doubled, since the other work of the machine comes in bursts.
"""
from __future__ import annotations

import contextlib
import json
import time
from typing import Iterator

QUIET = 0.011  # seconds of `work` on the machine on which the limits were set
MEASURED = 0.3  # seconds for which it is repeated
ALLOWED = 2.0  # times the limit, for bursts
VALUE = {"operations": [{"stamp": [number, 65], "sets": [[[number, 65], ["block", number, number + 20, 0, 600, 1]]], "who": "Ada"}
                        for number in range(100)]}


def work() -> None:
    """Do a fixed piece of work such as a server does."""
    for _ in range(40):
        found = {tuple(one["stamp"]): one for one in json.loads(json.dumps(VALUE))["operations"]}
        sorted(found, key=lambda name: -int(name[0]))


def slowness() -> float:
    """Return how many times longer than a quiet machine this one takes now; at least 1."""
    began, count = time.thread_time(), 0
    while time.thread_time() - began < MEASURED:
        work()
        count += 1
    return max(1.0, (time.thread_time() - began) / count / QUIET)


def is_too_long(seconds: float, limit: float, allowed: float = ALLOWED) -> bool:
    """Return whether seconds of processor time are more than `allowed` times the limit on a quiet machine."""
    return seconds > allowed * limit and seconds > allowed * limit * slowness()


@contextlib.contextmanager
def takes_at_most(limit: float, what: object = "") -> Iterator[None]:
    """Fail if this thread does more work than a quiet machine does in `limit` seconds."""
    began = time.thread_time()
    yield
    took = time.thread_time() - began
    if is_too_long(took, limit):
        raise AssertionError(f"this took {took:.2f} s of the processor, and {limit:g} s are the most on a quiet machine: {what}")
