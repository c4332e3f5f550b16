#!/usr/bin/env python3
"""Reply to lines as a test requests: late, in pieces, with signals between them, twice, or not at all.

The first line is the plan; each later one is {"echo": {"text": .., ..}} with some of these fields:

    cut     the number of bytes of the reply that are written before the parent gets a SIGINT; the remaining bytes follow
    steps   the reply is written byte by byte
    late    seconds before the reply
    what    "twice": a second reply; "noise": a line that is not a reply; "exit": end with status 3; "session": reply with the process session;
            "count": reply with the number of lines after the plan
"""
import json
import os
import signal
import sys
import time

PAUSE = 0.002


def write(data: bytes) -> None:
    while data:
        data = data[os.write(1, data):]


def read_line(signals: int) -> bytes:
    """Read a line in pieces, and send the parent a SIGINT after each of the first N pieces."""
    found = b""
    while not found.endswith(b"\n"):
        piece = os.read(0, 4_096)
        if not piece:
            sys.exit(0)
        found += piece
        if signals > 0:
            signals -= 1
            os.kill(os.getppid(), signal.SIGINT)
            time.sleep(PAUSE)
    return found


def reply(text: object, asked: dict, count: int) -> None:
    data = json.dumps({"echo": text}).encode() + b"\n"
    time.sleep(asked.get("late", 0))
    what = asked.get("what")
    if what == "exit":
        print("no more", file=sys.stderr)
        sys.exit(3)
    if what == "session":
        data = json.dumps({"echo": os.getsid(0)}).encode() + b"\n"
    if what == "count":
        data = json.dumps({"echo": count}).encode() + b"\n"
    if what == "noise":
        data = b"Segmentation fault\n"
    cut = asked.get("cut")
    if cut is not None:
        write(data[:cut])
        os.kill(os.getppid(), signal.SIGINT)
        time.sleep(PAUSE)
        data = data[cut:]
    for part in ([data[at:at + 1] for at in range(len(data))] if asked.get("steps") else [data]):
        write(part)
    if what == "twice":
        write(data)


def main() -> None:
    signals = count = 0
    read_line(0)
    write(b'{"open":1}\n')
    while True:
        asked = json.loads(read_line(signals))["echo"]
        signals = asked.get("then_signals", 0)
        count += 1
        reply(asked["text"] if len(str(asked["text"])) < 100 else len(asked["text"]), asked, count)


if __name__ == "__main__":
    main()
