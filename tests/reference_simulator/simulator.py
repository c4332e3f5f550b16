#!/usr/bin/env python3
"""Simulate the laboratory as plainly as possible: each replica is a set of edits, and each query runs the road from step zero.
There is one shortcut: steps that nobody queries are skipped if no car is on the road and no car can enter.

    tests/reference_simulator/simulator.py < SCRIPT
"""
import json
import sys

import lines
from lines import KINDS, Refused
from words import word

LAST_STEP = 1_048_575
LAST_HORIZON = 1_048_576
GREATEST_COUNT = 2 ** 48
MOST_REPLICAS = 64
MOST_ROWS = 1_024
ALWAYS = 65_536
GREATEST = {"limit": 9, "slow": ALWAYS, "block": 1, "inflow": ALWAYS, "watch": 1, "start": ALWAYS}


# The plan

class Plan:
    """The road that all replicas share, and the values of its objects if no edit is in force."""

    def __init__(self, given):
        self.length, self.exit, self.zone_width = given["length"], given["exit"], given["zone"]
        self.zones, self.inlets, self.detectors = given["zones"], given["inlets"], given["detectors"]
        self.seed, self.names = given["words"], given["replicas"]
        for fault, applies in self.faults():
            if applies:
                raise Refused(fault)
        self.defaults = {
            **{("limit", zone): limit for zone, (limit, _) in enumerate(self.zones)},
            **{("slow", zone): chance for zone, (_, chance) in enumerate(self.zones)},
            **{("block", cell): 0 for cell in range(self.length)},
            **{("inflow", inlet): chance for inlet, (_, chance) in enumerate(self.inlets)},
            **{("watch", detector): 1 for detector in range(len(self.detectors))},
            **{("start", zone): None for zone in range(len(self.zones))}}

    def faults(self):
        """Yield each cause of refusal, in order, and whether it applies to this plan."""
        cells = [cell for cell, _ in self.inlets]
        yield "Names", not (1 <= len(self.names) <= MOST_REPLICAS and len(set(self.names)) == len(self.names)
                            and all(1 <= len(name.encode()) <= 64 for name in self.names))
        yield "Length", not 8 <= self.length <= 8_192
        yield "Exit", not 1 <= self.exit <= min(64, self.length - 1)
        yield "Zones", not (1 <= len(self.zones) <= 64
                            and (len(self.zones) - 1) * self.zone_width < self.length <= len(self.zones) * self.zone_width)
        yield "Inlets", not (1 <= len(cells) <= 16 and len(set(cells)) == len(cells) and max(cells) < self.first_deleted())
        yield "Detectors", not (len(self.detectors) <= 64
                                and all(1 <= site < self.first_deleted() for site in self.detectors))
        yield "Default", not (all(limit <= 9 and chance <= ALWAYS for limit, chance in self.zones)
                              and all(chance <= ALWAYS for _, chance in self.inlets))

    def first_deleted(self):
        return self.length - self.exit

    def happens(self, chance, stream, step):
        """Return whether an event of this chance happens, according to the word of the stream at the step."""
        return word(self.seed, stream, step) >> 16 < chance


# Edits: (kind, index, step, count, number, value); the value of a withdrawal is None

def place_of(edit):
    """Return the key that determines the order of lists: kind, index and step."""
    kind, index, step = edit[:3]
    return KINDS.index(kind), index, step


def strength_of(edit):
    """Return the key that decides which edit wins: the stamp, then the value, where a withdrawal is below every number."""
    *_, count, number, value = edit
    return count, number, -1 if value is None else value


def winners(edits):
    """Return the edit that wins for each object and step, in the order of lists."""
    best = {}
    for edit in sorted(edits, key=strength_of):
        best[place_of(edit)] = edit
    return [best[place] for place in sorted(best)]


def head_of(edit):
    return edit[:5]


def beyond(edits, heads):
    """Return the winners that have no head, or a head whose stamp is not greater."""
    stamps = {place_of(head): head[3:5] for head in heads}
    return [edit for edit in winners(edits) if stamps.get(place_of(edit), (0, 0)) <= edit[3:5]]


def values_set(edits):
    """Return the value that is set for each object and step."""
    return {place_of(edit): edit[5] for edit in winners(edits) if edit[5] is not None}


def touched(before, after):
    """Return the first step at which a set value differs, or None."""
    changed = set(values_set(before).items()) ^ set(values_set(after).items())
    return min((step for (_, _, step), _ in changed), default=None)


def settings_at(plan, listed, step):
    """Return the value of each object at a step: the latest value set up to this step, or the plan's. (Winners are listed by step.)"""
    numbers = dict(plan.defaults)
    for kind, index, date, _, _, value in listed:
        if date <= step and value is not None:
            numbers[kind, index] = value
    for zone in range(len(plan.zones)):
        if numbers["start", zone] is None:
            numbers["start", zone] = numbers["slow", zone]
    return numbers


# The road: each cell has None, or a car's number and speed

def run(plan, edits, first, to):
    """Yield, for each step from zero up to `to`, the step, the road, the settings, and what each detector counts in this step. Before `first`,
    steps are skipped in which no car is on the road and no car can enter: this remains so until the next edit."""
    road, listed, step = [None] * plan.length, winners(edits), 0
    while step <= to:
        numbers = settings_at(plan, listed, step)
        if step < first and not any(road) and is_closed(plan, numbers):
            step = min([first] + [edit[2] for edit in listed if edit[2] > step])
            continue
        after, counts = one_step(plan, numbers, step, road)
        yield step, road, numbers, counts
        road, step = after, step + 1


def is_closed(plan, numbers):
    """Return whether no car can enter at any inlet."""
    return all(numbers["block", cell] or not numbers["inflow", inlet] for inlet, (cell, _) in enumerate(plan.inlets))


def one_step(plan, numbers, step, road):
    """Return the road after a step, and the cars that passed each detector with the sum of their speeds."""
    road = let_cars_enter(plan, numbers, step, road)
    after, counts = [None] * plan.length, [(0, 0)] * len(plan.detectors)
    for cell, car in enumerate(road):
        if car is None:
            continue
        number, _ = car
        speed = new_speed(plan, numbers, step, road, cell)
        for detector, site in enumerate(plan.detectors):
            if numbers["watch", detector] and cell < site <= cell + speed:
                cars, speeds = counts[detector]
                counts[detector] = cars + 1, speeds + speed
        if cell + speed < plan.first_deleted():
            after[cell + speed] = number, speed
    return after, counts


def let_cars_enter(plan, numbers, step, road):
    """Return the road with the cars that enter in a step."""
    road = list(road)
    for inlet, (cell, _) in enumerate(plan.inlets):
        if is_free(numbers, road, cell) and plan.happens(numbers["inflow", inlet], 2 ** 63 + inlet, step):
            road[cell] = step * 16 + inlet, 0
    return road


def is_free(numbers, road, cell):
    """Return whether a cell has no car and is not blocked. Cells past the end of the road are free, too."""
    return cell >= len(road) or road[cell] is None and not numbers["block", cell]


def new_speed(plan, numbers, step, road, cell):
    """Return the speed of the car at the cell in a step."""
    number, speed = road[cell]
    zone = cell // plan.zone_width
    chance = numbers["start" if speed == 0 else "slow", zone]
    speed = min(speed + 1, numbers["limit", zone])
    for ahead in range(speed):
        if not is_free(numbers, road, cell + 1 + ahead):
            speed = ahead
            break
    if speed > 0 and plan.happens(chance, number, step):
        speed -= 1
    return speed


def row_of(road, numbers):
    return "".join(str(car[1]) if car else "#" if numbers["block", cell] else "." for cell, car in enumerate(road))


# Replicas and messages, and answers about them

class Replica:
    """A replica: all edits that reached it, and its horizon."""

    def __init__(self, number):
        self.number, self.edits, self.horizon = number, frozenset(), 0


class Laboratory:
    """The replicas of a plan, and the messages between them: `sent` has edits, `asked` has heads."""

    def __init__(self, plan):
        self.plan = plan
        self.replicas = {name: Replica(number) for number, name in enumerate(plan.names)}
        self.sent, self.asked = {}, {}

    def answer(self, verb, fields):
        """Return the reply to a command, with its fields in the order of the grammar."""
        if verb == "crowd":
            return self.answer_crowd(**fields)
        replica = self.replicas.get(fields.pop("at"))
        require(replica, "NoReplica")
        return getattr(self, "answer_" + verb)(replica, *fields.values())

    # Writes

    def answer_edit(self, replica, thing, step, value):
        return self.own_edit(replica, thing, step, value)

    def answer_withdraw(self, replica, thing, step):
        return self.own_edit(replica, thing, step, None)

    def own_edit(self, replica, thing, step, value):
        count = 1 + max((edit[3] for edit in replica.edits), default=0)
        edit = (*thing, step, count, replica.number, value)
        self.require_in_plan(edit)
        require(count <= GREATEST_COUNT, "CountsSpent")
        replica.edits |= {edit}
        return {"stamp": [count, replica.number]}

    def answer_import(self, replica, edits):
        self.require_from_outside(edits)
        return self.grow(replica, edits)

    def require_from_outside(self, edits):
        for edit in edits:
            self.require_in_plan(edit)
            require(1 <= edit[3] <= GREATEST_COUNT, "Count")
            require(edit[4] >= MOST_REPLICAS, "Insider")

    def answer_take(self, replica, message):
        require(message in self.sent, "NoMessage")
        return self.grow(replica, self.sent[message])

    def grow(self, replica, edits):
        before = replica.edits
        replica.edits = before | set(edits)
        return {"touched": touched(before, replica.edits)}

    def require_in_plan(self, edit):
        kind, index, step, _, _, value = edit
        require((kind, index) in self.plan.defaults, "NoObject")
        require(step <= LAST_STEP, "Step")
        require(value is None or value <= GREATEST[kind], "ValueOutOfRange")

    def answer_advance(self, replica, to):
        require(to <= LAST_HORIZON, "Horizon")
        replica.horizon = max(replica.horizon, to)
        return {"horizon": replica.horizon}

    # Messages

    def require_new(self, name):
        require(name not in self.sent and name not in self.asked, "NameTaken")

    def answer_send(self, replica, name):
        self.require_new(name)
        self.sent[name] = replica.edits
        return {"message": name, "size": len(winners(replica.edits))}

    def answer_heads(self, replica, name):
        self.require_new(name)
        self.asked[name] = [head_of(edit) for edit in winners(replica.edits)]
        return {"form": 2, "heads": self.asked[name], "message": name}

    def answer_beyond(self, replica, heads, name):
        require(heads in self.asked, "NoMessage")
        self.require_new(name)
        self.sent[name] = beyond(replica.edits, self.asked[heads])
        return {"edits": self.sent[name], "form": 2, "message": name}

    # Crowds, which do not change replicas

    def answer_crowd(self, shares, to):
        edits = [edit for share in shares for edit in share]
        self.require_from_outside(edits)
        require(to <= LAST_HORIZON, "Horizon")
        row, = [row_of(road, numbers) for step, road, numbers, _ in run(self.plan, edits, to, to) if step == to]
        return {"edits": winners(edits), "form": 2, "journal": len(edits) + len(shares), "row": row}

    # Queries

    def answer_scenario(self, replica):
        return {"edits": winners(replica.edits), "form": 2}

    def answer_cells(self, replica, step):
        return {"cells": self.rows(replica, step, step)[0]}

    def answer_diagram(self, replica, first, to):
        require(first <= to < first + MOST_ROWS, "Range")
        return {"rows": self.rows(replica, first, to)}

    def answer_cars(self, replica, step):
        (road, _, _), = self.states(replica, step, step)
        return {"cars": [[car[0], cell, car[1]] for cell, car in enumerate(road) if car]}

    def answer_count(self, replica, detector, first, to):
        require(detector < len(self.plan.detectors), "NoDetector")
        require(first <= to, "Range")
        require(to <= replica.horizon, "NotSimulated")
        counts = [counts[detector] for step, _, _, counts in run(self.plan, replica.edits, to, to) if first <= step < to]
        return {"cars": sum(cars for cars, _ in counts), "speeds": sum(speeds for _, speeds in counts)}

    def rows(self, replica, first, last):
        return [row_of(road, numbers) for road, numbers, _ in self.states(replica, first, last)]

    def states(self, replica, first, last):
        """Return the results of `run` for the steps `first` to `last`, without the step."""
        require(last <= replica.horizon, "NotSimulated")
        return [state for step, *state in run(self.plan, replica.edits, first, last) if step >= first]


def require(condition, refusal):
    if not condition:
        raise Refused(refusal)


# From bytes to bytes

def reply_line(reply):
    return json.dumps(reply, ensure_ascii=False, separators=(",", ":"), sort_keys=True).encode() + b"\n"


def replies(script):
    """Yield the reply to each line of an input that has at most a million lines. After a refused plan line there are no more replies."""
    first, *others = lines.split(script) or [None]
    try:
        require(first is not None, "no plan")
        plan = Plan(lines.read_line(first, lines.plan))
    except Refused as why:
        yield reply_line({"refused": str(why)})
        return
    yield reply_line({"open": len(plan.names)})
    laboratory = Laboratory(plan)
    for line in others:
        try:
            yield reply_line(laboratory.answer(*lines.read_line(line, lines.command)))
        except Refused as why:
            yield reply_line({"refused": str(why)})


if __name__ == "__main__":
    sys.stdout.buffer.writelines(replies(sys.stdin.buffer.read()))
