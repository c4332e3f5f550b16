"""Compare rows, counts and saved files with the answers to single questions."""
from __future__ import annotations

import csv
import io
import json
import subprocess
import unittest
from typing import Any, Sequence

from server.figures import files
from server.program.program import LONG_ROAD, command_of
from server.shell.client import RefusedReply
from running import SMALL, Case, program

LAST = 150


class Programs(unittest.TestCase):
    def test_only_long_roads_are_run_by_threads(self) -> None:
        self.assertEqual(command_of("p", {"length": LONG_ROAD - 1}), ["p"])
        self.assertIn(command_of("p", {"length": LONG_ROAD})[1:2], ([], ["--workers"]))


class Pictures(Case):
    async def asyncSetUp(self) -> None:
        self.a6 = self.server()
        self.ada = await self.enterAsyncContext(self.a6.seat("Ada"))
        await self.ada.say("clock", to=LAST)
        await self.ada.ask("gesture", key="1", note="=1+1", shape=["block", 60, 60, 30, 80, 1])
        await self.ada.ask("gesture", key="2", shape=["limit", 1, 1, 40, None, 2])
        await self.ada.ask("advance", to=LAST)
        self.picture = [(await self.ada.ask("cells", step=step))["cells"] for step in range(LAST + 1)]

    async def diagram(self, **fields: Any) -> Sequence[str]:
        return (await self.ada.ask("diagram", **fields))["rows"]

    async def counts(self, **fields: int) -> Any:
        """Return the counts of detectors: a pair for each, in each span if there are spans."""
        return (await self.ada.ask("counts", **fields))["counts"]

    async def test_every_nth_row_of_a_stretch_is_that_of_the_whole_picture(self) -> None:
        self.assertEqual(await self.diagram(**{"from": 0, "to": LAST}), self.picture)
        for every, first, last in ((2, 0, LAST), (3, 10, 99), (7, 5, 5), (8, 0, LAST), (100, 3, LAST)):
            for left, right in ((0, 119), (50, 70), (119, 119)):
                found = await self.diagram(**{"from": first, "to": last, "every": every, "cells": [left, right]})
                self.assertEqual(found, [row[left:right + 1] for row in self.picture[first:last + 1:every]], (every, first))

    async def test_sums_are_the_cars_in_the_rows_of_each_minute(self) -> None:
        """The first minute has the rows of the steps 1 to 60: those to which its steps lead."""
        wanted = [sum(cell.isdigit() for row in self.picture[first + 1:first + 61] for cell in row) for first in (0, 60)]
        self.assertEqual((await self.ada.ask("sums", **{"from": 0, "to": 120}))["sums"], wanted)
        self.assertEqual((await self.ada.ask("sums", **{"from": 60, "to": 120}))["sums"], wanted[1:])

    async def test_counts_of_spans_equal_those_of_single_questions(self) -> None:
        found = await self.counts(**{"from": 10, "to": 130, "each": 50})
        for span, (first, last) in zip(found, ((10, 60), (60, 110), (110, 130))):
            for detector, pair in enumerate(span):
                one = await self.ada.ask("count", detector=detector, **{"from": first, "to": last})
                self.assertEqual(pair, [one["cars"], one["speeds"]])
        whole = await self.counts(**{"from": 10, "to": 130})
        self.assertEqual(whole, [[sum(part) for part in zip(*pairs)] for pairs in zip(*found)])

    async def test_a_transcript_is_run_again_by_the_program(self) -> None:
        text, piece = "", 0
        while piece is not None:
            said = await self.ada.ask("transcript", **{"from": 20, "to": LAST, "next": piece})
            text, piece = text + said["lines"], said["next"]
        lines = text.splitlines()
        ran = subprocess.run([program()], input="\n".join(lines[::2]) + "\n", capture_output=True, text=True, check=True)
        self.assertEqual(ran.stdout.splitlines(), lines[1::2])
        shown = [row for line in lines[1::2] for row in json.loads(line).get("rows", [])]
        self.assertEqual(shown, self.picture[20:])

    async def test_saved_tables_have_units_and_the_counted_values(self) -> None:
        said = await self.ada.ask("csv", what="counts", each=50, **{"from": 0, "to": 100})
        table = list(csv.reader(io.StringIO(said["csv"])))
        counts = await self.counts(**{"from": 0, "to": 100, "each": 50})
        self.assertEqual(table[0], ["# counts of the road of Ada", " plan.json", " 0:00:00 to 0:01:40", " per lane"])
        self.assertEqual(table[1], ["from", "to", "detector", "km", "cars", "flow in cars/h", "time-mean speed in km/h", "seconds on"])
        wanted = [(f"0:0{50 * span // 60}:{50 * span % 60:02}", f"0:0{(50 * span + 50) // 60}:{(50 * span + 50) % 60:02}",
                   detector, SMALL["detectors"][detector] * 7.5 / 1_000, cars, float(cars * 72),
                   round(speeds / cars * 27, 1) if cars else "", 50)
                  for span, pairs in enumerate(counts) for detector, (cars, speeds) in enumerate(pairs)]
        self.assertEqual(table[2:], [[str(cell) for cell in line] for line in wanted])
        for text in ("=a", "+a", "-a", "@a", " =a", "\t=a"):
            self.assertEqual(files.escape_formula(text), "'" + text)
        self.assertEqual([files.escape_formula(cell) for cell in ("a=", 7, "")], ["a=", 7, ""])
        with self.assertRaises(RefusedReply):
            await self.ada.ask("csv", what="all")
