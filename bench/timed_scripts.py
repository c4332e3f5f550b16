"""The roads and scripts that are timed, and functions that the scripts of this folder share."""
import argparse
import json
import os
import subprocess
import sys
import time

HERE = os.path.dirname(os.path.abspath(__file__))
CRATES = os.path.join(HERE, "..", "crates")

# 12 cells; a car enters whenever the inlet is free.
FREE_ROAD = {
    "detectors": [5], "exit": 1, "inlets": [[0, 65536]], "length": 12, "replicas": ["A"],
    "words": 7, "zone": 12, "zones": [[2, 0]],
}
# 8,192 cells with one inlet and random slowing; the same with 64 detectors; and also with 16 inlets, which fill the road.
RANDOM_SLOWING = {
    "detectors": [], "exit": 64, "inlets": [[0, 32768]], "length": 8192, "replicas": ["A"],
    "words": 7, "zone": 128, "zones": [[5, 16384]] * 64,
}
WATCHED = dict(RANDOM_SLOWING, detectors=[125 * k for k in range(1, 65)])
DENSE = dict(WATCHED, inlets=[[508 * k, 20000] for k in range(16)], zones=[[9, 8192]] * 64)


def line(value):
    return json.dumps(value, separators=(",", ":"), sort_keys=True) + "\n"


def advance(to):
    return line({"advance": {"at": "A", "to": to}})


def cells(step):
    return line({"cells": {"at": "A", "step": step}})


def edit(kind, index, step, value):
    return line({"edit": {"at": "A", "object": [kind, index], "step": step, "value": value}})


def at_the_end(plan, step):
    return line(plan) + advance(step) + cells(step)


def random_words():
    """Yield random words of 64 bits, always the same ones: SplitMix64 (Steele, Lea and Flood, OOPSLA 2014) with seed 42."""
    mask, state = (1 << 64) - 1, 42
    while True:
        state = (state + 0x9E3779B97F4A7C15) & mask
        word = ((state ^ state >> 30) * 0xBF58476D1CE4E5B9) & mask
        word = ((word ^ word >> 27) * 0x94D049BB133111EB) & mask
        yield word ^ word >> 31


def late_blocks(plan, horizon, count):
    """Return the script of a run followed by edits that are dated 200 steps before its end: they close a random cell and open it again,
    in turn."""
    words, lines = random_words(), [line(plan), advance(horizon)]
    for number in range(count):
        if number % 2 == 0:
            cell = next(words) % plan["length"]
        lines.append(edit("block", cell, horizon - 200, 1 - number % 2))
    return "".join(lines) + cells(horizon)


def late_imports(plan, horizon, count, objects):
    """Return the script of a run followed by imports: `count` edits close and open `objects` cells at random steps, 1,200 edits a line."""
    words, lines = random_words(), [line(plan), advance(horizon)]
    closed = [next(words) % plan["length"] for _ in range(objects)]
    edits = [["block", closed[number % objects], next(words) % horizon, number + 1, 64, 1 - number // objects % 2]
             for number in range(count)]
    for first in range(0, count, 1200):
        lines.append(line({"import": {"at": "A", "edits": edits[first:first + 1200], "form": 1}}))
    return "".join(lines) + cells(horizon)


def random_queries(plan, horizon, count):
    """Return the script of a run followed by queries at random steps: a row and a count in turn."""
    words, lines = random_words(), [line(plan), advance(horizon)]
    for number in range(count):
        if number % 2 == 0:
            lines.append(cells(next(words) % (horizon + 1)))
        else:
            detector = next(words) % len(plan["detectors"])
            begin, end = sorted(next(words) % (horizon + 1) for _ in range(2))
            lines.append(line({"count": {"at": "A", "detector": detector, "from": begin, "to": end}}))
    return "".join(lines)


# name, script, number of simulated steps, SHA-256 of the answers (computed by a different program) or None
SCRIPTS = [
    ("12 cells, a car enters whenever it can, 65,536 steps", at_the_end(FREE_ROAD, 65536), 65536,
     "1eadcf01d772cafae252e445c8f5caf2c9adbcd7a067d1ce003fe4182c75bc33"),
    ("8,192 cells, random slowing, 2,000 steps", at_the_end(RANDOM_SLOWING, 2000), 2000,
     "a8fa2e1ddeac719ee0a0606001b0fde9588cbd8764147b2ab9a0fe31b7456dd0"),
    ("8,192 cells, random slowing, 64 detectors, 20,000 steps", at_the_end(WATCHED, 20000), 20000,
     "3738265f58ba181fe9563cb79ecfc92a97843ea6c6f4e5b10c5f5e6e56c89c9b"),
    ("8,192 cells, 16 inlets, dense, 20,000 steps", at_the_end(DENSE, 20000), 20000,
     "a9420509196dd6d5b81b3463fcbf0ebe5bedc2b50b2051ba94650c8f1c0cbdb8"),
    ("the third, and 1,000 late edits", late_blocks(WATCHED, 20000, 1000), 20000 + 224 * 1000,  # from 19,776
     "1e76446fa58fbc1fd3efe20a7921fa3e2ca9f280b2ad69e7ec62c9ad77bd8689"),
    ("the third, and 10,000 queries at random steps", random_queries(WATCHED, 20000, 10000), 20000,
     "32916fef17cebda9a4a4187d119ea2f6145ea1615ba87f4d3cf82a4c9c83e839"),
    ("8,192 cells, random slowing, 1,000 queries at rising steps to 2,000",
     line(RANDOM_SLOWING) + advance(2000) + "".join(cells(step) for step in range(2, 2001, 2)), 2000, None),
    ("12 cells, to step 0", at_the_end(FREE_ROAD, 0), 0, None),
    ("8,192 cells, to step 0", at_the_end(RANDOM_SLOWING, 0), 0, None),
]


def make_parser(description):
    """Return a parser of arguments with the common option --program. The description is a script's docstring."""
    parser = argparse.ArgumentParser(description=description, formatter_class=argparse.RawDescriptionHelpFormatter)
    parser.add_argument("--program", metavar="PATH")
    return parser


def build(name):
    """Prove and build the program of a crate, and return its path. `rt run` also runs it, on the file stdin of the crate if there is one."""
    crate = os.path.join(CRATES, name)
    lines = os.path.join(crate, "stdin")
    with open(lines if os.path.exists(lines) else os.devnull, "rb") as script:
        subprocess.run(["rt", "run"], cwd=crate, stdin=script, stdout=subprocess.DEVNULL, check=True)
    return os.path.join(crate, "out", name)


def build_hand_written():
    """Compile the hand-written program, and return its path."""
    path = os.path.join(HERE, "out", "hand_written")
    os.makedirs(os.path.dirname(path), exist_ok=True)
    subprocess.run(["rustc", "--edition", "2024", "-O", os.path.join(HERE, "hand_written.rs"), "-o", path], check=True)
    return path


def time_script(program, script):
    """Return the seconds from the start of a program to its exit, and its answers to a script."""
    begin = time.perf_counter()
    ended = subprocess.run([program], input=script.encode(), stdout=subprocess.PIPE)
    spent = time.perf_counter() - begin
    if ended.returncode != 0:
        sys.exit(f"status {ended.returncode}")
    return spent, ended.stdout


def time_with_memory(program, script):
    """Return the seconds that a program takes for a script, its answers, and its maximum memory in MiB."""
    begin = time.perf_counter()
    ended = subprocess.run(["/usr/bin/time", "-f", "%M", program], input=script.encode(), capture_output=True, check=True)
    return time.perf_counter() - begin, ended.stdout, int(ended.stderr.split()[-1]) / 1024


def load():
    return f"load {os.getloadavg()[0]:.1f}"
