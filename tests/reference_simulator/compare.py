#!/usr/bin/env python3
"""Compare the program with the simulator of this folder, line by line, on the stored scripts and on random ones.

    tests/reference_simulator/compare.py --program P --scripts 300 --seed 0

Status 1: the answers to a script differ.
"""
import argparse
import collections
import json
import os
import subprocess
import sys

sys.dont_write_bytecode = True
from scripts import plan_line, script
from simulator import replies

TOP = os.path.join(os.path.dirname(os.path.abspath(__file__)), "..", "..")
PROGRAM = os.path.join(TOP, "crates", "road_lab", "out", "road_lab")
FOLDERS = os.path.join(TOP, "examples"), os.path.join(TOP, "tests", "scripts")
# The seconds after which a program is killed.
PATIENCE = 120
SHOWN = 300


def answers_of_program(program, given):
    """Return the program's answers to a script, line by line, and its status as the last line."""
    try:
        ended = subprocess.run([program], input=given, stdout=subprocess.PIPE, stderr=subprocess.PIPE, timeout=PATIENCE)
    except subprocess.TimeoutExpired:
        return [b"(the program did not end)"]
    return ended.stdout.splitlines(True) + [b"status %d %s" % (ended.returncode, ended.stderr)]


def answers_of_simulator(given):
    """Return the simulator's answers to a script, line by line, and the expected status as the last line."""
    answers = list(replies(given))
    refused = len(answers) == 1 and answers[0].startswith(b'{"refused":')
    return answers + [b"status 2 bad plan\n" if refused else b"status 0 "]


def first_difference(program, given):
    """Return the number of the first line with different answers, and both answers; or None if all answers are equal."""
    theirs, ours = answers_of_program(program, given), answers_of_simulator(given)
    for place, pair in enumerate(zip(theirs, ours), 1):
        if pair[0] != pair[1]:
            return place, *pair
    return None if len(theirs) == len(ours) else (min(len(theirs), len(ours)), b"(fewer or more lines)", b"(fewer or more lines)")


def shrink(program, given):
    """Remove lines from a script as long as the answers still differ. Return the shorter script."""
    kept, place = given.split(b"\n"), 1
    while place < len(kept):
        fewer = kept[:place] + kept[place + 1:]
        if first_difference(program, b"\n".join(fewer)):
            kept = fewer
        else:
            place += 1
    return b"\n".join(kept)


def kind_of(answer):
    """Return the kind of an answer, as the final table names it."""
    reply = json.loads(answer)
    return "refused: " + reply["refused"] if "refused" in reply else " ".join(reply)


def cases(scripts, seed):
    """Yield the name and the text of each script: the stored scripts, then for each seed a plan line alone and a script."""
    for folder in FOLDERS:
        for name in sorted(os.listdir(folder)):
            if name.endswith(".jsonl"):
                with open(os.path.join(folder, name), "rb") as stored:
                    yield name, stored.read()
    for number in range(seed, seed + scripts):
        yield f"plan line of seed {number}", plan_line(number)
        yield f"script of seed {number}", script(number)


def main():
    parser = argparse.ArgumentParser(description=__doc__, formatter_class=argparse.RawDescriptionHelpFormatter)
    parser.add_argument("--program", metavar="P", default=PROGRAM)
    parser.add_argument("--scripts", type=int, metavar="N", default=300)
    parser.add_argument("--seed", type=int, metavar="S", default=0)
    options = parser.parse_args()
    if not os.path.exists(options.program):
        parser.error(f"there is no program at {options.program}: `rt run` in the folder of its crate builds it")
    kinds, alike, differing = collections.Counter(), 0, 0
    for name, text in cases(options.scripts, options.seed):
        difference = first_difference(options.program, text)
        if difference is None:
            alike += 1
            kinds.update(map(kind_of, answers_of_simulator(text)[:-1]))
            continue
        differing += 1
        place, theirs, ours = difference
        print(f"{name}: the answer to line {place} is {theirs[:SHOWN]}, not {ours[:SHOWN]}. A shorter script that still shows a difference:")
        sys.stdout.flush()
        sys.stdout.buffer.write(shrink(options.program, text) + b"\n")
        sys.stdout.flush()
    for kind, times in sorted(kinds.items()):
        print(f"{times:7} {kind}")
    print(f"{alike} scripts with equal answers, {differing} with different answers")
    sys.exit(1 if differing else 0)


if __name__ == "__main__":
    main()
