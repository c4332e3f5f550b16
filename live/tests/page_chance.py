"""Test comparisons over many days in two browsers: is a difference due to the change, or to chance? Here they have 3 days instead
of 20."""
from __future__ import annotations

import contextlib
import os
import subprocess
from typing import Any
from unittest import mock

from browsers import FREE_ROAD, TOP, BrowserCase, Tab, preview_rows
from chances import PROGRAM_OF_DAYS
from running import new_folder, program

# 1.5 km, with a car in some three steps, and drivers who are slowed at random, by a seed.
SEEDED = {**FREE_ROAD, "length": 200, "zone": 200, "words": 1, "zones": [[3, 6_554]], "inlets": [[0, 30_000]]}


def over_days(tab: Tab, within: str) -> dict[str, list[str]]:
    """Return the table over many days, once it is there: each cell with its interval."""
    def is_there() -> bool:
        return bool(tab.script("return document.querySelector(`${arguments[0]} .figures`) !== null", within))
    for _ in range(3):  # programs of low priority are late if the machine has other work
        with contextlib.suppress(AssertionError):
            tab.until(is_there, "the days")
            break
    assert is_there(), tab.truth()
    rows = tab.script("""
        const text = (one) => (one ? [...one.childNodes].filter(({nodeType}) => nodeType === 3).map(({data}) => data).join("") : "");
        return [...document.querySelectorAll(`${arguments[0]} .figures tbody tr`)].map((line) =>
          [...line.children].map((one) => `${text(one)} ${text(one.querySelector("small"))}`.trim()));""", within)
    return {name: cells for name, *cells in rows}


def numbers(cell: str) -> list[float]:
    """Return a mean and the half-width of its interval."""
    mean, _, half = cell.split(",")[0].partition(" ± ") if "may" in cell else cell.replace(",", "").partition(" ± ")
    return [float(part.replace("−", "-").replace("+", "").replace(",", "")) for part in (mean, half)]


class TwoTabs(BrowserCase):
    """Two browsers."""

    def over_three(self, plan: dict[str, Any], *more: str) -> list[Tab]:
        with mock.patch.dict(os.environ, {"LIVE_DAYS": "3"}):
            return self.open(plan, None, *more)

    def run_a_quarter(self, tab: Tab) -> None:
        tab.script("ask({clock: {to: 900}})")
        tab.until(lambda: tab.text("clock") == "0:15:00", "the clock")
        tab.show(900)

    def closed(self, tab: Tab, until: str = "0:07") -> None:
        tab.tool("block")
        tab.type_and_apply(kmFrom="0.18", kmTo="0.19", timeFrom="0:05", timeTo=until)

    def test_many_days_compare_mine_with_shared_and_a_preview(self) -> None:
        ada, _ = self.over_three(SEEDED)
        self.run_a_quarter(ada)
        self.closed(ada)
        ada.press("Over 3 days")
        ada.until(lambda: " of 3 days" in ada.text("days"), "how far it is")
        found = over_days(ada, "#over")
        self.assertFalse(ada.part("oneDay").is_displayed())
        self.assertEqual(list(found), ["delay, vehicle hours", "vehicle hours on the road", "vehicle hours waiting before km 0", "longest queue before km 0, cars",
                                       "end of the queue before km 0, min after the begin", "vehicle hours on the road and before it", "lost demand, cars",
                                       "travel time from km 0 to the end, s", "cars at km 0.21"])
        # Below the cars is their travel time from the inlet, with its interval.
        trips = ada.script("return [...document.querySelectorAll('#over tbody .seconds')].map((one) => one.textContent)")
        self.assertEqual(len(trips), 3)
        for trip in trips:
            self.assertRegex(trip, r"^[+\u2212]?\d+\.\d s \u00b1 \d+\.\d")
        self.assertIn("Over 3 days, 0:00:00 to 0:15:00", ada.text("over"))
        mine, shared, more = map(numbers, found["vehicle hours on the road"])
        self.assertAlmostEqual(more[0], mine[0] - shared[0], delta=0.011)
        # Some 0.4 cars arrive in a second, 50 in two minutes, apart from those that fit into the queue. They wait, and none is lost.
        longest = numbers(found["longest queue before km 0, cars"][2])
        self.assertTrue(5 < longest[0] < 60 and longest[1] < longest[0], longest)
        self.assertEqual(found["lost demand, cars"][0].split()[0], "0")
        # Both roads have the same drivers on a day, and all of them pass in the end.
        self.assertGreater(numbers(found["cars at km 0.21"][1])[1], 0)
        self.assertEqual(found["cars at km 0.21"][2], "0 the same each day")
        ada.press("Share…: Closed")
        preview_rows(ada)
        ada.press("Over 3 days", "#preview")
        before = over_days(ada, "#previewOver")
        self.assertEqual(before["vehicle hours on the road"], [found["vehicle hours on the road"][place] for place in (1, 0, 2)])
        ada.press("One day", "#preview")
        self.assertTrue(ada.part("previewFigures").is_displayed())
        ada.press("Not now")
        self.closed(ada)  # the road changes, so the answer is out of date
        ada.until(lambda: ada.part("oneDay").is_displayed(), "one day")
        self.assertEqual(ada.lines("own"), ["Closed 0.18–0.188 km, 0:05:00–0:07:00 private"] * 2)

    def test_a_comparison_can_be_stopped_and_a_refusal_names_who_asks(self) -> None:
        """Stop the comparison while its third day waits for a file to be removed."""
        folder = new_folder()
        path, file = folder / "road_lab", folder / "wait"
        path.write_text("#!/bin/sh\n" + PROGRAM_OF_DAYS.format(days=2, program=program()).replace(
            "sleep 600", f'while [ -e "{file}" ]; do sleep 0.05; done'), encoding="utf-8")
        path.chmod(0o755)
        file.touch()
        ada, ben = self.over_three(SEEDED, "--program", str(path))
        for tab in (ada, ben):
            self.run_a_quarter(tab)
        ada.press("Over 3 days")
        ada.until(lambda: " of 3 days" in ada.text("days"), "it runs")
        ben.press("Over 3 days")
        ben.until(lambda: "3 days are being simulated for Ada" in ben.text("said"), "he sees who asks")
        self.assertEqual(ben.text("days"), "Over 3 days")
        ada.press("Stop")
        ada.until(lambda: ada.text("days") in ("Over 3 days", "One day"), "it is stopped")  # one may be done
        self.assertNotIn("stopped", ada.text("said"))
        file.unlink()
        ben.press("Over 3 days")
        self.assertEqual(over_days(ben, "#over")["vehicle hours on the road"][2], "0 the same each day")

    def test_stopping_shows_the_days_that_are_done(self) -> None:
        """The third day never ends."""
        path = new_folder() / "road_lab"
        path.write_text("#!/bin/sh\n" + PROGRAM_OF_DAYS.format(days=2, program=program()), encoding="utf-8")
        path.chmod(0o755)
        ada, _ = self.over_three(SEEDED, "--program", str(path))
        self.run_a_quarter(ada)
        self.closed(ada)
        ada.press("Over 3 days")
        ada.until(lambda: "2 of 3 days" in ada.text("days"), "two are done")
        ada.press("Stop")
        mine, shared, more = map(numbers, over_days(ada, "#over")["vehicle hours on the road"])
        self.assertAlmostEqual(more[0], mine[0] - shared[0], delta=0.011)
        self.assertIn("Over 2 of 3 days, stopped, 0:00:00 to 0:15:00", ada.text("over"))
        self.assertIn("Means of 2 days: ", ada.text("over"))
        self.assertIn(" 2 days are few: \u00b1 is then 12.7 standard errors of the mean (2.0 for many days). Use 5 days or more. All figures are per "
                      "lane: for the whole road multiply cars, flows and vehicle hours by the number of lanes.", ada.text("over"))
        self.assertTrue("\nmean of 2 days,unit,mine," in ada.save("Figures", "figures-2-days.csv").read_text(encoding="utf-8"))
        ada.press("One day", "#days")
        self.assertTrue(ada.part("oneDay").is_displayed())

    def test_saved_scripts_of_both_roads_are_compared_unchanged(self) -> None:
        """Compare a closure that is so short that no car has to wait before the road."""
        ada, = self.over_three(SEEDED)[:1]
        self.run_a_quarter(ada)
        self.closed(ada, until="0:05:08")
        saved = ada.save_both("Script", "script.jsonl")
        hours = ada.script("return [...document.querySelectorAll('#figures tbody tr')].find((line) => "
                           "line.firstChild.textContent === 'vehicle hours on the road').lastChild.textContent")
        choices: list[list[str]] = [[], ["--days", "2"]]
        for words in choices:
            ran = subprocess.run([TOP / "recipes" / "delay" / "run", *words, "--out", new_folder(), *reversed(saved)],
                                 stdout=subprocess.PIPE, stderr=subprocess.PIPE, text=True, check=False)
            self.assertEqual(ran.returncode, 0, ran.stderr)
            if "--days" not in words:
                rows = dict(line.rsplit(",", 1) for line in ran.stdout.splitlines() if line.startswith("check: cars in all rows"))
                self.assertEqual([f"{float(value):+.2f}" for value in rows.values()], [hours.replace("−", "-")])

    def test_a_road_with_fixed_random_numbers_is_not_run_over_days(self) -> None:
        ada, = self.over_three(FREE_ROAD)[:1]
        self.run_a_quarter(ada)
        ada.press("Over 3 days")
        ada.until(lambda: "so all days are the same" in ada.text("said"), "the page says so")
        self.assertEqual(ada.text("days"), "Over 3 days")
