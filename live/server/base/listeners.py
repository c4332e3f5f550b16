"""Notify listeners when something has changed.

    listeners.shared.on(tell_tabs)
    listeners.shared.notify(step)
"""
from __future__ import annotations

from typing import Callable, Generic, ParamSpec

P = ParamSpec("P")


class Topic(Generic[P]):
    """One kind of news, and its listeners."""

    def __init__(self) -> None:
        self._listeners: list[Callable[P, object]] = []

    def on(self, listener: Callable[P, object]) -> None:
        self._listeners.append(listener)

    def notify(self, *news: P.args, **named: P.kwargs) -> None:
        for listener in self._listeners:
            listener(*news, **named)


class Listeners:
    """A topic for each kind of news."""

    def __init__(self) -> None:
        self.shared: Topic[[int | None]] = Topic()  # others shared: the first step that has changed, None if no step has
        self.seats: Topic[[]] = Topic()
        self.clock: Topic[[]] = Topic()
        self.trouble: Topic[[]] = Topic()  # the disk fails, or works again
        self.program: Topic[[]] = Topic()  # the program was replaced
        self.ended: Topic[[str]] = Topic()  # a task of the server has ended; the sentence says which
        self.days: Topic[[int, int, int]] = Topic()  # progress of a question over many days: its seat, the days done, and all days
