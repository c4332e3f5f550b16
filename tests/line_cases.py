"""Lines and their expected answers, written by hand: the road of the cases, plan lines and long lines."""
import functools
import json

# A car enters at the first cell of this road whenever the cell is free. The speed limit is 2, and there is no random slowing.
ROAD = {"detectors": [5], "exit": 1, "inlets": [[0, 65536]], "length": 12, "replicas": ["A", "B", "C"], "words": 7,
        "zone": 12, "zones": [[2, 0]]}
LONGEST_LINE = 65_536


def line(value):
    return json.dumps(value, separators=(",", ":")).encode() + b"\n"


def command(verb, /, **fields):
    return line({verb: {"at": "A", **fields}})


def refused(why):
    return line({"refused": why})


def pad_line(text, length):
    """Return a line of `length` bytes and a newline: the text with spaces behind it."""
    return text.rstrip(b"\n").ljust(length) + b"\n"


def script(road, *lines):
    """Return the lines and the answers of a script: the plan line of a road, and pairs of a command and its answer."""
    commands, answers = zip((line(road), line({"open": len(road["replicas"])})), *lines)
    return list(commands), b"".join(answers)


PLAN, OPEN = line(ROAD), line({"open": 3})

MAX_U32 = 2 ** 32 - 1
FREE_ZONE = [2, 0]
# Plan lines: the fields that differ from the road above, and why the line is refused (None: it is accepted).
PLANS = [
    # The lengths of the road, of its deleted zone and of its zones.
    ({}, None),
    ({"length": 8}, None),
    ({"length": 7}, "Length"),
    ({"length": 0}, "Length"),
    ({"length": 8192, "zone": 8193}, None),
    ({"length": 8193, "zone": 8193}, "Length"),
    ({"length": MAX_U32}, "Length"),
    ({"exit": 3}, None),
    ({"exit": 0}, "Exit"),
    ({"exit": 12}, "Exit"),
    ({"length": 100, "exit": 64, "zone": 100}, None),
    ({"length": 100, "exit": 65, "zone": 100}, "Exit"),
    ({"exit": MAX_U32}, "Exit"),
    # The last zone may have one cell, or be wider than the road.
    ({"zone": 11}, "Zones"),
    ({"zone": 11, "zones": [FREE_ZONE] * 2}, None),
    ({"zone": 6, "zones": [FREE_ZONE] * 2}, None),
    ({"zone": 6, "zones": [FREE_ZONE] * 3}, "Zones"),
    ({"zones": []}, "Zones"),
    ({"zone": 0}, "Zones"),
    ({"zone": MAX_U32}, None),
    # There may be 64 zones and no more.
    ({"length": 64, "zone": 1, "zones": [FREE_ZONE] * 64}, None),
    ({"length": 65, "zone": 1, "zones": [FREE_ZONE] * 65}, "Zones"),
    ({"length": 8192, "exit": 64, "zone": 128, "zones": [FREE_ZONE] * 64}, None),
    # Everything at its maximum.
    ({"length": 8192, "exit": 64, "zone": 128, "zones": [[9, 65536]] * 64, "inlets": [[8127, 65536]],
      "detectors": [8127] * 64, "words": "steady"}, None),
    # Inlets: 1 to 16, at different cells before the deleted zone.
    ({"inlets": [[10, 0]]}, None),
    ({"inlets": [[11, 0]]}, "Inlets"),
    ({"inlets": [[11, 65536]]}, "Inlets"),
    ({"inlets": [[MAX_U32, 0]]}, "Inlets"),
    ({"inlets": []}, "Inlets"),
    ({"inlets": [[3, 0], [0, 0]]}, None),
    ({"inlets": [[3, 1], [3, 0]]}, "Inlets"),
    ({"inlets": [[0, 0], [1, 0], [2, 0], [1, 0]]}, "Inlets"),
    ({"length": 32, "zone": 32, "inlets": [[cell, 0] for cell in range(16)]}, None),
    ({"length": 32, "zone": 32, "inlets": [[cell, 0] for cell in range(17)]}, "Inlets"),
    ({"length": 32, "zone": 32, "inlets": [[0, 0]] * 17}, "Inlets"),
    # Detectors: 64 at most, between the first cell and the deleted zone.
    ({"detectors": []}, None),
    ({"detectors": [10, 1, 1, 10]}, None),
    ({"detectors": [0]}, "Detectors"),
    ({"detectors": [11]}, "Detectors"),
    ({"detectors": [5, 11]}, "Detectors"),
    ({"detectors": [5] * 64}, None),
    ({"detectors": [5] * 65}, "Detectors"),
    # Limits and chances.
    ({"zones": [[9, 65536]]}, None),
    ({"zones": [[0, 0]]}, None),
    ({"zones": [[10, 0]]}, "Default"),
    ({"zones": [[2, 65537]]}, "Default"),
    ({"inlets": [[0, 65537]]}, "Default"),
    # Names: 1 to 64 different names of 1 to 64 bytes.
    ({"replicas": ["A", "B", "A"]}, "Names"),
    ({"replicas": ["A", "B", "B"]}, "Names"),
    ({"replicas": ["A", "A"]}, "Names"),
    ({"replicas": []}, "Names"),
    ({"replicas": [""]}, "Names"),
    ({"replicas": ["A", "\u00e9" * 32]}, None),
    ({"replicas": ["A", "\u00e9" * 33]}, "Names"),
    ({"replicas": [str(number) for number in range(64)]}, None),
    ({"replicas": [str(number) for number in range(65)]}, "Names"),
    ({"words": 0}, None),
    ({"words": 2 ** 64 - 1}, None),
    # If there are several faults, the first in a fixed order is named: each line has one fault fewer than the line before it.
    ({"length": 7, "exit": 12, "zone": 0, "zones": [[10, 0]], "inlets": [[11, 0]], "detectors": [0], "replicas": []}, "Names"),
    ({"length": 7, "exit": 12, "zone": 0, "zones": [[10, 0]], "inlets": [[11, 0]], "detectors": [0]}, "Length"),
    ({"exit": 12, "zone": 0, "zones": [[10, 0]], "inlets": [[11, 0]], "detectors": [0]}, "Exit"),
    ({"zone": 0, "zones": [[10, 0]], "inlets": [[11, 0]], "detectors": [0]}, "Zones"),
    ({"zones": [[10, 0]], "inlets": [[11, 0]], "detectors": [0]}, "Inlets"),
    ({"zones": [[10, 0]], "detectors": [0]}, "Detectors"),
    ({"zones": [[10, 0]]}, "Default"),
]

# Changed plan lines: a text of the plan line above, its replacement, and why the line is refused.
NO_PLANS = [
    ('"A","B","C"', '"A","B","\\u0041"', "Names"),
    ('"A","B","C"', '"A",1', "not a plan"),
    ('"length":12,', "", "not a plan"),
    ('"length":12', '"length":12,"lanes":1', "not a plan"),
    ('"length":12', '"length":12.0', "not a plan"),
    ('"length":12', '"length":4294967296', "not a plan"),
    ('"words":7', '"words":"random"', "not a plan"),
    ('"words":7', '"words":18446744073709551616', "not a plan"),
    ("[[2,0]]", "[[2,0,0]]", "not a plan"),
    ("[[2,0]]", "[[2]]", "not a plan"),
    ("[[2,0]]", "[2,0]", "not a plan"),
    # A line that is not a plan is refused before its road is examined.
    ('"exit":1,"inlets":[[0,65536]],"length":12', '"exits":1,"inlets":[[0,65536]],"length":7', "not a plan"),
    ("}", "", "not json"),
    ('"exit":1,"inlets":[[0,65536]],"length":12', '"exits":1,"inlets":[[0,65536]],"length":7,', "not json"),
]


def replace_text(old, new):
    """Return the plan line with a text replaced; the text must occur once."""
    text = PLAN.decode()
    assert text.count(old) == 1, old
    return text.replace(old, new).encode()


def plan_lines():
    """Return the cases of plan lines: a name, the line, the number of replicas that it opens, and why it is refused (None: accepted)."""
    of_parts = [(json.dumps(parts), line({**ROAD, **parts}), len({**ROAD, **parts}["replicas"]), why) for parts, why in PLANS]
    of_texts = [(f"{new or 'nothing'} for {old}", replace_text(old, new), 0, why) for old, new, why in NO_PLANS]
    return of_parts + of_texts


@functools.cache
def long_import():
    """Return a script with an import that fills a line, and a query of the scenario after it. Each edit has a different step."""
    fields = {"edits": [], "form": 1}
    size = len(command("import", **fields))
    while True:
        edit = ["limit", 0, len(fields["edits"]), 1, 64, len(fields["edits"]) % 10]
        size += len(line(edit))
        if size > LONGEST_LINE:
            break
        fields["edits"].append(edit)
    held = line({"edits": fields["edits"], "form": 2})
    return script(ROAD, (command("import", **fields), line({"touched": 0})), (command("scenario"), held))


def long_crowd():
    """Return a script with a crowd of as many shares as fit into a line."""
    shares = [[]] * 21_800 + [[["limit", 0, 0, 1, 64, 3]]]
    crowd = line({"crowd": {"form": 1, "shares": shares, "to": 6}})
    assert len(crowd) <= LONGEST_LINE + 1
    return script(ROAD, (crowd, refused("not a command")))


@functools.cache
def half_of_many_edits():
    """Return a script in which two replicas exchange edits by heads. The first has a newer limit at even steps, the second at odd steps."""
    held = [["limit", 0, step, 3 if step % 2 == 0 else 1, 64, 1] for step in range(2_600)]
    others = [[*edit[:3], 2, *edit[4:]] for edit in held]
    sent = [edit for edit in others if edit[2] % 2 == 1]
    return script(
        ROAD,
        (command("import", edits=held, form=1), line({"touched": 0})),
        (line({"import": {"at": "B", "edits": others, "form": 1}}), line({"touched": 0})),
        (command("heads", name="h"), line({"form": 2, "heads": [edit[:5] for edit in held], "message": "h"})),
        (line({"beyond": {"at": "B", "heads": "h", "name": "d"}}), line({"edits": sent, "form": 2, "message": "d"})),
        (command("take", message="d"), line({"touched": None})))
