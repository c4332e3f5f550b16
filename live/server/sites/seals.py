"""Seal the messages between sites with their shared key, and check the seals.

    seal = Seal(key)                       if `key` is None, messages have no MAC
    payload = seal.seal(topic, body)
    run, body = seal.open(topic, payload)

A payload is a line of JSON {"run","mac"}, followed by the body. The MAC (HMAC, SHA-256) covers the topic, the run and the body. A run is
a connection to the broker: 64 random bits, since a machine that is resumed from a snapshot must not go on under an old name. A message
that is played again has a valid seal; it changes nothing, since operations never change and sets of them merge.
"""
from __future__ import annotations

import hashlib
import hmac
import json
import re
import secrets
from pathlib import Path

from ..base.journal_lines import CannotStart
from ..base.json_values import to_json, Json

SHORTEST_KEY = 16  # bytes
RUN = re.compile("[0-9a-f]{16}")
UNKNOWN = ""  # the run of a message that does not say


class Unsealed(Exception):
    """A message without a valid seal. The text says why."""


def key_of(path: Path) -> bytes:
    """Return the shared key in a file, without white space around it. Raise `CannotStart` if it is too short."""
    key = path.read_bytes().strip()
    if len(key) < SHORTEST_KEY:
        raise CannotStart(f"{path} has {len(key)} bytes, but the key of the sites must have at least {SHORTEST_KEY}")
    return key


def road_of(reference: str, key: bytes | None) -> str:
    """Return the name of a road for the broker, given a hash of its plan and seed. Roads with different keys have different names."""
    told = reference if key is None else f"{reference} {hashlib.sha256(key).hexdigest()}"
    return hashlib.sha256(told.encode()).hexdigest()[:16]


class Seal:
    """Seals outgoing messages, and checks the seals of incoming ones. (The broker's thread uses it, too.)"""

    def __init__(self, key: bytes | None) -> None:
        self.key = key
        self.own = set[str]()  # all runs of this server since its start
        self.begin_run()

    def begin_run(self) -> None:
        """Draw a new run."""
        self.run = secrets.token_hex(8)
        self.own.add(self.run)

    def seal(self, topic: str, body: bytes) -> bytes:
        run = self.run
        return to_json({"run": run, "mac": self._mac(topic, run, body)}).encode() + b"\n" + body

    def open(self, topic: str, payload: bytes) -> tuple[str, bytes]:
        """Return the run that sent a message, `UNKNOWN` if the message does not say, and its body. Raise `Unsealed`."""
        line, _, body = payload.partition(b"\n")
        run, mac = head_of(line)
        if self.key is None:
            return (run, body) if run else (UNKNOWN, payload)
        if not run:
            raise Unsealed("it has no seal")
        if not hmac.compare_digest(self._mac(topic, run, body).encode(), mac.encode()):
            raise Unsealed("its seal does not match this site's key")
        return run, body

    def _mac(self, topic: str, run: str, body: bytes) -> str:
        return "" if self.key is None else hmac.new(self.key, f"{topic}\n{run}\n".encode() + body, hashlib.sha256).hexdigest()


def head_of(line: bytes) -> tuple[str, str]:
    """Return the run and the MAC in the first line of a message; two empty strings if it is malformed."""
    try:
        head: Json = json.loads(line) if len(line) < 200 else None
    except (ValueError, RecursionError):
        head = None
    run, mac = (head.get("run"), head.get("mac")) if isinstance(head, dict) else (None, None)
    return (run, mac) if isinstance(run, str) and RUN.fullmatch(run) and isinstance(mac, str) and mac.isascii() else (UNKNOWN, "")
