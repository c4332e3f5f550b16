#!/usr/bin/env python3
"""Write random scripts: a plan, commands at its replicas (most are accepted), and lines that are usually refused.

    tests/reference_simulator/scripts.py --seed S        writes the script of a seed
"""
import argparse
import json
import random
import sys

LONGEST_LINE = 65_536
LAST_STEP, LAST_HORIZON = 1_048_575, 1_048_576
ALWAYS = 65_536
GREATEST_COUNT = 2 ** 48
KINDS = ("limit", "slow", "block", "inflow", "watch", "start")
NAMES = ("A", "B", "C", "north ramp", "Ä", "\u8eca", "q\"\\\t\u0001/", "\b\f\n\r\x1f", "\U0001f697", "\x7f", "n" * 64, "\u8eca" * 21 + "n")
BAD_NAMES = ("", "n" * 65, "\u8eca" * 22)
# Texts, JSON values or not, that are nowhere accepted as a number; and texts that are accepted as a number in some fields.
NO_NUMBERS = ("1.0", "1e2", "-0", "-1", "0.0", "1E+2", "18446744073709551616", "1" + "0" * 300, "true", "null", '"1"', "[]", "{}",
              "1e999", "-1e999", "1" + "0" * 400, "01", "+1", "1.", ".5", "NaN", "Infinity", "0x1", "1_0", "", "1e-999", "0e999")
NUMERAL = "a placeholder for the text of a number"
LARGE_NUMBERS = ("4294967295", "4294967296", "18446744073709551615", "281474976710656", "281474976710657", "65535", "65536", "65537", "1048575",
                 "1048576", "1048577")


class Writer:
    """Writes one script, and records what its replicas can answer: their horizons, messages and edits."""

    def __init__(self, seed):
        self.random = random.Random(seed)
        self.plan = self.new_plan()
        self.horizons = dict.fromkeys(self.plan["replicas"][:2] + self.plan["replicas"][-1:], 0)
        self.furthest = self.random.choice((40, 100, 200)) if self.plan["length"] < 32 else 60
        # One script in eight is about the last steps of the longest run: no car enters before them.
        self.begin = LAST_HORIZON - self.furthest if self.chance(12) else 0
        if self.begin:
            self.furthest = LAST_HORIZON
            self.plan["inlets"] = [[cell, 0] for cell, _ in self.plan["inlets"]]
        self.sent, self.asked, self.places, self.outer = [], [], [], []

    def chance(self, percent):
        return self.random.randrange(100) < percent

    def some(self, least, most, make):
        return [make() for _ in range(self.random.randint(least, most))]

    # Plans

    def new_plan(self):
        draw = self.random
        length = draw.choice((8, 12, draw.randint(8, 30), draw.randint(8, 30), draw.randint(30, 120), draw.randint(30, 120)))
        exit = draw.choice((1, 1, draw.randint(1, min(length - 1, 64)), draw.randint(1, 6)))
        width = draw.choice((length, length + 5, -(-length // 2), -(-length // 3), -(-length // 64), draw.randint(4, length)))
        zones = -(-length // width)
        cells = draw.sample(range(length - exit), min(length - exit, draw.choice((1, 1, 2, 3, 16))))
        sites = range(1, length - exit)
        detectors = self.some(0, draw.choice((2, 4, 64)), lambda: draw.choice(sites)) if sites else []
        return {
            "length": length, "exit": exit, "zone": width,
            "zones": [[draw.choice((2, 3, 5, 9, 9, draw.randint(0, 9))), self.new_chance((0, 0, 8192))] for _ in range(zones)],
            "inlets": [[cell, self.new_chance((ALWAYS, ALWAYS, 30000))] for cell in cells],
            "detectors": detectors,
            "words": draw.choice(("steady", 0, 7, draw.randrange(2 ** 32), draw.randrange(2 ** 64), 2 ** 64 - 1)),
            "replicas": draw.choice((["A", "B", "C"], ["A", "B", "C"], draw.sample(NAMES, 3), [f"r{n}" for n in range(64)]))}

    def new_chance(self, often):
        return self.random.choice((*often, self.random.randint(0, ALWAYS), 16384, 32768))

    def spoil_plan(self):
        draw, plan = self.random, self.plan
        length, kept = plan["length"], plan["length"] - plan["exit"]
        for _ in range(draw.randint(1, 2)):
            plan.update(draw.choice((
                {"length": draw.choice((0, 7, 8193, 2 ** 32 - 1))}, {"exit": draw.choice((0, 65, length, length + 1))},
                {"zone": draw.choice((0, plan["zone"] - 1, 2 * length, 2 ** 32 - 1))}, {"zones": []}, {"zones": [[2, 0]] * 65},
                {"zones": plan["zones"] + [[2, 0]]}, {"zones": [[10, 0]] * len(plan["zones"])},
                {"zones": [[2, ALWAYS + 1]] * len(plan["zones"])}, {"inlets": []}, {"inlets": [[0, 1], [0, 1]]},
                {"inlets": [[kept, 1]]}, {"inlets": [[0, ALWAYS + 1]]}, {"inlets": [[cell, 1] for cell in range(17)]},
                {"detectors": [0]}, {"detectors": [kept]}, {"detectors": [kept - 1]}, {"detectors": [1] * 65},
                {"replicas": []}, {"replicas": ["A", "A"]}, {"replicas": ["A", draw.choice(BAD_NAMES)]},
                {"replicas": [f"r{n}" for n in range(65)]}, {"words": draw.choice(("Steady", None, 2 ** 64, "7"))},
                {"length": 8192, "exit": 64, "zone": 128, "zones": [[9, 0]] * 64})))

    # The parts of commands

    def at(self):
        return self.random.choice(list(self.horizons))

    def object(self):
        plan = self.plan
        sizes = {"limit": len(plan["zones"]), "slow": len(plan["zones"]), "block": plan["length"], "inflow": len(plan["inlets"]),
                 "watch": len(plan["detectors"]), "start": len(plan["zones"])}
        kind = self.random.choice([kind for kind in KINDS if sizes[kind]])
        return [kind, self.random.randrange(sizes[kind])]

    def place(self):
        """Return an object and a step, often one that was edited before."""
        if not self.places or self.chance(65):
            last = min(max(self.begin, *self.horizons.values()) + 3, LAST_STEP)
            step = self.random.choice((self.begin, LAST_STEP, *[self.random.randint(self.begin, last) for _ in range(12)]))
            self.places.append((self.object(), step))
        return self.random.choice(self.places[-12:])

    def value(self, kind):
        draw = self.random
        return {"limit": draw.choice((0, 1, 2, 3, 5, 8, 9)), "slow": self.new_chance((0, ALWAYS)), "block": draw.choice((0, 1, 1)),
                "inflow": self.new_chance((0, ALWAYS)), "watch": draw.choice((0, 0, 1)), "start": self.new_chance((0, ALWAYS))}[kind]

    def outer_edit(self):
        """Return an edit from outside, sometimes an earlier one with a different value."""
        draw = self.random
        if self.outer and self.chance(25):
            edit = draw.choice(self.outer[-6:])
        else:
            (kind, index), step = self.place()
            count = GREATEST_COUNT if self.chance(1) else draw.choice((1, 2, *[draw.randint(1, 60) for _ in range(4)]))
            edit = [kind, index, step, count, draw.choice((64, 64, 65, 65535)), None]
            self.outer.append(edit)
        return [*edit[:5], None if self.chance(20) else self.value(edit[0])]

    def message(self, names):
        return self.random.choice(names) if names else "nobody's"

    def new_name(self):
        name = self.random.choice(NAMES)
        taken = self.sent + self.asked
        return name if name not in taken or self.chance(2) else f"m{len(taken)}"

    def steps(self, at):
        """Return the first and the last of some steps up to the horizon, sometimes of all of them."""
        horizon = self.horizons[at]
        begin = min(self.begin, horizon)
        return [begin, horizon] if self.chance(30) else sorted(self.some(2, 2, lambda: self.random.randint(begin, horizon)))

    # Commands

    def command(self):
        """Return a command that is usually accepted."""
        draw = self.random
        weights = {"edit": 24, "withdraw": 7, "advance": 8, "cells": 6, "cars": 6, "count": 7, "diagram": 6, "scenario": 4,
                   "import": 6, "send": 7, "heads": 5, "beyond": 6, "take": 12, "crowd": 5}
        verb, = draw.choices(list(weights), list(weights.values()))
        if verb == "take" and not self.sent or verb == "beyond" and not self.asked:
            verb = draw.choice(("send", "heads", "scenario"))
        if verb == "count" and not self.plan["detectors"] and self.chance(80):
            verb = "cars"
        if verb == "crowd":
            return verb, self.new_crowd()
        at = self.at()
        return verb, {"at": at, **getattr(self, "new_" + verb)(at)}

    def new_edit(self, at):
        thing, step = self.place()
        return {"object": thing, "step": step, "value": self.value(thing[0])}

    def new_withdraw(self, at):
        thing, step = self.place()
        return {"object": thing, "step": step}

    def new_advance(self, at):
        to = self.random.randint(self.begin, self.furthest)
        self.horizons[at] = max(self.horizons[at], to)
        return {"to": to}

    def new_cells(self, at):
        return {"step": self.steps(at)[1]}

    new_cars = new_cells

    def new_count(self, at):
        first, to = self.steps(at)
        if self.begin and self.chance(30):
            first = 0
        return {"detector": self.random.randrange(max(1, len(self.plan["detectors"]))), "from": first, "to": to}

    def new_diagram(self, at):
        first, to = self.steps(at)
        return {"from": first, "to": to}

    def new_scenario(self, at):
        return {}

    def new_import(self, at):
        edits = self.some(0, 6, self.outer_edit)
        if self.chance(20):
            edits.insert(self.random.randint(0, len(edits)), self.spoilt_edit())
        return {"edits": edits, "form": self.random.choice((1, 2, 2))}

    def new_crowd(self):
        draw = self.random
        shares = self.some(*draw.choice(((1, 3), (1, 8), (0, 9))), lambda: self.some(0, 5, self.outer_edit))
        if self.chance(20) and shares:
            draw.choice(shares).append(self.spoilt_edit())
        return {"form": draw.choice((1, 2, 2)), "shares": shares, "to": draw.randint(0, 60)}

    def new_send(self, at):
        self.sent.append(self.new_name())
        return {"name": self.sent[-1]}

    def new_heads(self, at):
        self.asked.append(self.new_name())
        return {"name": self.asked[-1]}

    def new_beyond(self, at):
        heads = self.message(self.asked)
        return {"heads": heads, **self.new_send(at)}

    def new_take(self, at):
        return {"message": self.message(self.sent)}

    def spoil(self, fields):
        """Replace some fields of a command with values that are refused in this command or in others."""
        draw = self.random
        refused = {
            "at": ("nobody", "D"), "object": ([draw.choice(KINDS), draw.choice((64, 8192, 2 ** 32 - 1))],),
            "step": (LAST_STEP, LAST_STEP + 1, LAST_STEP + 2, 2 ** 32 - 1), "value": (1, 2, 9, 10, ALWAYS, ALWAYS + 1, 2 ** 32 - 1),
            "to": (0, LAST_HORIZON + 1, 2 ** 32 - 1, self.furthest + 1), "from": (0, LAST_HORIZON + 1, 2 ** 32 - 1),
            "detector": (63, 64, 2 ** 32 - 1),
            "name": ("m1", "m2", *self.sent[-3:], *self.asked[-3:], *BAD_NAMES), "message": ("m1", "m2", *self.asked[-3:], "A"),
            "heads": ("m1", "m2", *self.sent[-3:], *BAD_NAMES), "form": (0, 3, 2 ** 32, 2 ** 64 - 1)}
        for field in draw.sample(list(fields), draw.randint(1, len(fields))):
            if field == "edits":
                fields["edits"] = self.spoilt_edits()
            elif field == "shares":
                fields["shares"] = self.some(1, 3, self.spoilt_edits)
            elif field not in ("at", "form") or self.chance(30):
                fields[field] = draw.choice(refused[field])

    def spoilt_edits(self):
        return self.some(1, 4, lambda: self.spoilt_edit() if self.chance(40) else self.outer_edit())

    def spoilt_edit(self):
        draw, edit = self.random, self.outer_edit()
        for place in draw.sample(range(1, 6), draw.choice((1, 1, 1, 2, 3))):
            edit[place] = draw.choice(((), (64, 8192), (LAST_STEP + 1, 2 ** 32 - 1), (0, GREATEST_COUNT + 1, 2 ** 64 - 1),
                                       (0, 2, 63), (10, ALWAYS + 1))[place])
        return edit

    # Lines

    def line(self, value):
        """Return a JSON value in one of the ways to write it."""
        if type(value) is dict:
            value = dict(self.random.sample(list(value.items()), len(value)))
        separators = self.random.choice(((",", ":"), (",", ":"), (", ", ": "), (" ,\t", "\r: ")))
        text = json.dumps(value, ensure_ascii=self.chance(50), separators=separators)
        return text.encode()

    def hostile(self, value):
        """Return a line that differs a little from the line of a value. Some of these lines are accepted nevertheless."""
        draw = self.random
        line = self.line(value)
        cut = draw.randrange(len(line) + 1)
        texts = [place for place in range(len(line)) if line[place:place + 1] == b'"']
        within = draw.choice(texts) + 1
        depth = draw.choice((1, 120, 124, 125, 126, 127, 128, 129, 2000))
        deep = b"[" * depth + b"]" * depth
        blanks = draw.choice((LONGEST_LINE, LONGEST_LINE, LONGEST_LINE + 1, LONGEST_LINE + 1, 70_000))
        return draw.choice((
            lambda: line[:cut], lambda: line + draw.choice((b"}", b",", b" 1", b"\x00", b"#", b" \t\r ", b"\r")),
            lambda: draw.choice((b" ", b"\t\r", b"\xef\xbb\xbf", b"\x0b", b"\xc2\xa0")) + line,
            lambda: line.ljust(blanks), lambda: line.ljust(blanks, b"\r"), lambda: b" " * blanks,
            lambda: line[:within] + draw.choice((b"\xff", b"\xc0\x80", b"\xed\xa0\x80", b"\\ud800", b"\\ud800\\u0041", b"\\udc00",
                                                 b"\\ud83d\\ude97", b"\\x", b"\x01", b"\t", b"\\/", b"\\u00", b"\x7f")) + line[within:],
            lambda: draw.choice((b"", b" ", b"null", b"[]", b"{}", b"0", b'""', b"advance", b"{\"cells\"}", b"[" * 40_000, b"\xff",
                                 b'{"form":1}', b"1e999", b"1.0", deep, b'{"scenario":' + deep + b"}")),
            lambda: self.with_change(value, lambda fields: fields.update({"more": 1})),
            lambda: self.with_change(value, lambda fields: fields.pop(draw.choice(list(fields)))),
            lambda: self.with_change(value, lambda fields: fields.update({draw.choice(list(fields)): draw.choice(
                ([], {}, None, True, "A", 0, -1, [["limit", 0]], ["limit"], ["exit", 0], ["limit", 0, 0], *BAD_NAMES))})),
            lambda: self.with_change(value, lambda fields: fields.update({"form": draw.choice((0, 1, 2, 3))})),
            lambda: self.renumbered(value), lambda: self.renumbered(value), lambda: self.renumbered(value),
            lambda: self.doubled(value), lambda: self.doubled(value), lambda: self.doubled(value, deep),
            lambda: self.line({**value, "more": 1}), lambda: self.line([value]),
            lambda: self.line({verb.upper(): fields for verb, fields in value.items()}),
        ))()

    def fields_of(self, value):
        """Return a copy of a command or plan, and the fields in this copy."""
        copy = json.loads(json.dumps(value))
        return copy, copy if "zones" in copy else next(iter(copy.values()))

    def with_change(self, value, change):
        """Return a line in which the fields of a value are changed."""
        copy, fields = self.fields_of(value)
        change(fields)
        return self.line(copy)

    def renumbered(self, value):
        """Return a line in which one number is replaced with something that is not a number, or with a large number."""
        copy, fields = self.fields_of(value)
        places = []

        def walk(parts, keys):
            for key in keys:
                if type(parts[key]) is int:
                    places.append((parts, key))
                elif type(parts[key]) in (list, dict):
                    inner = parts[key]
                    walk(inner, list(inner) if type(inner) is dict else range(len(inner)))

        walk(fields, list(fields))
        if places:
            parts, key = self.random.choice(places)
            parts[key] = NUMERAL
        written = self.random.choice((*NO_NUMBERS, *LARGE_NUMBERS))
        return self.line(copy).replace(json.dumps(NUMERAL).encode(), written.encode())

    def doubled(self, value, before=None):
        """Return a line with a duplicate field. (The last field with a name counts.)"""
        copy, fields = self.fields_of(value)
        if not fields:
            return self.line(copy)
        field = self.random.choice(list(fields))
        line = json.dumps(copy, separators=(",", ":")).encode()
        name = json.dumps(field).encode() + b":"
        other = before or self.random.choice((b"null", b"0", b"1", b'"A"', b"[]", b'"\\ud800"', b"1e999", b"1.0"))
        once = line.index(name)
        if before or self.chance(60):
            return line[:once] + name + other + b"," + line[once:]
        return line[:-1 if copy is fields else -2] + b"," + name + other + line[-1 if copy is fields else -2:]

    def plan_line(self):
        """Return a plan line that is usually refused."""
        if self.chance(60):
            self.spoil_plan()
        return self.line(self.plan) if self.chance(60) else self.hostile(self.plan)

    def script(self):
        """Return the bytes of the script."""
        advances = [self.line({"advance": {"at": at, **self.new_advance(at)}}) for at in self.horizons if self.chance(70)]
        written = [self.line(self.plan), *advances, *self.openings(), *self.some(20, 150, self.next_line)]
        return b"\n".join(written) + self.random.choice((b"\n", b"\n", b"\n", b"", b"\n\n", b"\r\n", b"\n "))

    def openings(self):
        """Return edits that open inlets later, for plans without inflow."""
        inlets = range(len(self.plan["inlets"])) if self.begin else ()
        return [self.line({"edit": {"at": at, "object": ["inflow", inlet], "step": self.begin, "value": ALWAYS}})
                for at in self.horizons for inlet in inlets if self.chance(60)]

    def next_line(self):
        verb, fields = self.command()
        if self.chance(10):
            self.spoil(fields)
        line = self.line({verb: fields})
        return self.hostile({verb: fields}) if not self.begin and self.chance(10) else line


def script(seed):
    return Writer(seed).script()


def plan_line(seed):
    return Writer(seed).plan_line()


if __name__ == "__main__":
    parser = argparse.ArgumentParser(description=__doc__, formatter_class=argparse.RawDescriptionHelpFormatter)
    parser.add_argument("--seed", type=int, required=True)
    sys.stdout.buffer.write(script(parser.parse_args().seed))
