#!/usr/bin/env python3
"""Run the simulator in place of the program: it answers each line before it reads the next one, and runs the road only once for
each set of edits. It computes the file `expected` of a recipe:

    ROAD_LAB=tests/reference_simulator/line_by_line.py recipes/NAME/run > recipes/NAME/expected

Status 2: the plan line is refused.
"""
import functools
import itertools
import sys

sys.dont_write_bytecode = True
import lines
from simulator import LAST_HORIZON, Laboratory, Plan, Refused, reply_line, require, run, winners

# The number of runs of a road that are kept.
KEPT = 4


class Course:
    """The states of the road under one list of edits, from step zero to the last step that was queried."""

    def __init__(self, plan, edits):
        self.steps, self.states = run(plan, edits, 0, LAST_HORIZON), []

    def state(self, step):
        """Return the result of `run` for a step."""
        self.states += itertools.islice(self.steps, max(step + 1 - len(self.states), 0))
        return self.states[step][1:]


class KeptLaboratory(Laboratory):
    """A laboratory that keeps the courses that were queried last."""

    def __init__(self, plan):
        super().__init__(plan)
        self.course = functools.lru_cache(KEPT)(lambda listed: Course(plan, listed))

    def states(self, replica, first, last):
        require(last <= replica.horizon, "NotSimulated")
        course = self.course(tuple(winners(replica.edits)))
        return [course.state(step) for step in range(first, last + 1)]

    def answer_count(self, replica, detector, first, to):
        require(detector < len(self.plan.detectors), "NoDetector")
        require(first <= to, "Range")
        require(to <= replica.horizon, "NotSimulated")
        course = self.course(tuple(winners(replica.edits)))
        counts = [course.state(step)[2][detector] for step in range(first, to)]
        return {"cars": sum(cars for cars, _ in counts), "speeds": sum(speeds for _, speeds in counts)}


def write(reply):
    sys.stdout.buffer.write(reply_line(reply))
    sys.stdout.buffer.flush()


def main():
    """Answer the lines of standard input. Return the status."""
    answer = None
    for line in sys.stdin.buffer:
        try:
            if answer is None:
                plan = Plan(lines.read_line(line.rstrip(b"\n"), lines.plan))
                answer, reply = KeptLaboratory(plan).answer, {"open": len(plan.names)}
            else:
                reply = answer(*lines.read_line(line.rstrip(b"\n"), lines.command))
        except Refused as why:
            reply = {"refused": str(why)}
        write(reply)
        if answer is None:
            return 2
    if answer is None:
        write({"refused": "no plan"})
        return 2
    return 0


if __name__ == "__main__":
    sys.exit(main())
