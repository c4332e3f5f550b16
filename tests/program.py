"""Find the program for the scripts of this folder, and report the outcome of each case."""
import argparse
import os
import subprocess
import sys

HERE = os.path.dirname(os.path.abspath(__file__))
EXAMPLES = os.path.join(HERE, "..", "examples")
CRATE = os.path.join(HERE, "..", "crates", "road_lab")


def build():
    """Prove and build the program. Return its path."""
    with open(os.path.join(CRATE, "stdin")) as script:
        subprocess.run(["rt", "run"], cwd=CRATE, stdin=script, stdout=subprocess.DEVNULL, check=True)
    return os.path.join(CRATE, "out", "road_lab")


def has_checks(program):
    """Return whether a program has the compiler's run-time checks in it. A program that was made without a proof may have them."""
    with open(program, "rb") as file:
        return b"AddressSanitizer" in file.read()


def first_difference(answers, wanted):
    """Return a text with the number of the first line that differs, counted from 1, and both lines."""
    ours, theirs = answers.splitlines() + [b"(nothing)"], wanted.splitlines() + [b"(nothing)"]
    for number, (our, their) in enumerate(zip(ours, theirs), 1):
        if our != their:
            at = max(len(os.path.commonprefix([our, their])) - 100, 0)
            return f"line {number} is {excerpt(our, at)}, not {excerpt(their, at)}"
    return "the last newlines differ"


def excerpt(line, at):
    """Return at most 200 bytes of a line, from byte `at` on."""
    piece = line[at:at + 200].decode(errors="backslashreplace")
    return ("" if at == 0 else "..") + piece + ("" if at + 200 >= len(line) else "..")


def run_cases(description, cases):
    """Run cases and end the script. A case is a name and a function that takes the program's path and returns what is wrong, or None."""
    parser = argparse.ArgumentParser(description=description, formatter_class=argparse.RawDescriptionHelpFormatter)
    parser.add_argument("--program", metavar="P")
    program = os.path.abspath(parser.parse_args().program or build())
    failed = 0
    for name, fault_of in cases:
        fault = fault_of(program)
        print(f"{name}: {fault or 'as expected'}", flush=True)
        failed += fault is not None
    print(f"{len(cases) - failed} as expected, {failed} not")
    sys.exit(1 if failed else 0)
