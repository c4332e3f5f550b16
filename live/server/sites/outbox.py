"""Send messages through the broker, none longer than it takes.

A broker names the longest packet that it takes, or refuses a message for its length. What is sent after such a refusal is half as long,
until the next connection. An operation that is too long by itself is named to the users.
"""
from __future__ import annotations

import itertools
from typing import Callable, Mapping, NamedTuple, Sequence

from ..base.json_values import to_json
from ..journal.state import SITE_FORM
from ..model.operations import Operation
from .brokers import HEADER, LONGEST_MESSAGE, REFUSED, TOO_LARGE, Client, name_of_receipt
from .message_limits import drop_oldest
from .seals import Seal
from .sums import Sums


class Part(NamedTuple):
    """The operations of a message."""

    operations: Sequence[Operation]
    size: int  # bytes of the operations alone
    length: int  # bytes of the whole packet


class Outbox:
    """The sender of a site's messages. While `client` is None, no connection is open, and nothing is sent."""

    def __init__(self, seal: Seal, titles: Callable[[], Mapping[Operation, str]], say: Callable[[str], None]) -> None:
        self._seal, self._titles, self._say = seal, titles, say
        self.client: Client | None = None
        self._longest = self._size = LONGEST_MESSAGE  # bytes: of a packet that the broker takes, and of operations of a message
        self._under_way: dict[int, Part] = {}  # by number of the message: operations that the broker has not received yet

    def open(self, client: Client, longest: int) -> None:
        """Send through a connection whose broker takes packets of this many bytes."""
        self.client, self._longest, self._size = client, longest, longest // 2

    def publish(self, topic: str, value: Mapping[str, object]) -> None:
        """Send a message that may be lost."""
        message = self._sealed(topic, value)
        length = HEADER + len(topic) + len(message)
        if length > self._longest:
            self._say(f"A message of {length} bytes was not sent, since the broker takes at most {self._longest}: raise the broker's "
                      "max_packet_size")
        else:
            self._publish(topic, message, 0)

    def send_sum(self, topic: str, value: Mapping[str, object], sums: Sums) -> None:
        """Send hashes of the operations that this site holds, with fewer ranges if the message would be too long."""
        ranges = sums.ranges()
        while len(to_json(ranges)) > self._size and len(ranges) > 1:
            ranges = sums.ranges(len(ranges) // 2)
        self.publish(topic, {"sum": sums.total, "ranges": ranges, **value})

    def send(self, topic: str, operations: Sequence[Operation]) -> None:
        """Send operations, in messages of limited size. All operations of a message have the same title."""
        titles = self._titles()
        for title, some in itertools.groupby(operations, lambda one: titles.get(one, "")):
            part, size = list[Operation](), 0
            for operation in some:
                length = len(to_json(operation.written()).encode())
                if part and size + length > self._size:
                    self._send_part(topic, part, size, title)
                    part, size = [], 0
                part.append(operation)
                size += length
            self._send_part(topic, part, size, title)

    def _send_part(self, topic: str, part: Sequence[Operation], size: int, title: str) -> None:
        message = self._sealed(topic, {"operations": [one.written() for one in part], **({"title": title} if title else {})})
        length = HEADER + len(topic) + len(message)
        if length > self._longest:
            self._send_shorter(topic, Part(part, size, length))
            return
        number = self._publish(topic, message, 1)
        if number is not None:
            self._under_way[number] = Part(part, size, length)
            drop_oldest(self._under_way)

    def _send_shorter(self, topic: str, part: Part) -> None:
        """Send the operations of a message that is too long in shorter ones; if there is only one, name it."""
        self._size = min(self._size, part.size // 2)
        if len(part.operations) > 1:
            self.send(topic, part.operations)
        else:
            self._say(f"{name_change(part.operations[0])} was not sent, since the broker takes no message of {part.length} bytes: raise the "
                      "broker's max_packet_size or message_size_limit")

    def note_receipt(self, topic: str, number: int, code: int) -> None:
        """Note that the broker has received a message with operations. If it refuses the message for its length, send shorter ones."""
        part = self._under_way.pop(number, None)
        if code == TOO_LARGE and part is not None:
            self._send_shorter(topic, part)
        elif code >= REFUSED:
            self._say(f"The broker refuses changes of this site: {name_of_receipt(code)}")

    def _sealed(self, topic: str, value: Mapping[str, object]) -> bytes:
        fields: Mapping[str, object] = {"form": SITE_FORM, **value}
        return self._seal.seal(topic, to_json(fields).encode())

    def _publish(self, topic: str, message: bytes, quality: int) -> int | None:
        """Return the number of the message; None if it was not sent."""
        if self.client is None:
            return None
        number: int = self.client.publish(topic, message, qos=quality).mid
        return number


def name_change(operation: Operation) -> str:
    """Return a phrase that names an operation to users."""
    about = operation.about
    return f"A change by {about.who or about.site}" + (f" ({about.note})" if about.note else "")
