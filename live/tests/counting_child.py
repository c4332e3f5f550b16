"""A child for tests. It counts to a number, and shows what goes wrong in a child: a fault, an exit, no answer."""
from __future__ import annotations

import os
import time
from typing import Iterator, TypedDict

from server.figures.child import serve
from zegdrut import Fault

Asked = TypedDict("Asked", {"to": int, "then": str})
Told = TypedDict("Told", {"number": int, "process": int})


def count(asked: Asked) -> Iterator[Told]:
    for number in range(1, asked["to"] + 1):
        yield {"number": number, "process": os.getpid()}
    if asked["then"] == "fault":
        raise Fault("the road has no cells")
    if asked["then"] == "exit":
        os._exit(3)
    if asked["then"] == "hang":
        time.sleep(1_000)


if __name__ == "__main__":
    serve(count)
