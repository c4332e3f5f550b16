"""Test what the page says about a program that hangs, and about a disk that does not answer."""
from __future__ import annotations

import os
import signal
import time
from unittest import mock

from browsers import FREE_ROAD, LIVE, BrowserCase, Tab
from running import Server
from selenium.webdriver.common.keys import Keys

HANGS, STALLS = 10, 5  # seconds, as live/README says them
SOONER = """
    const later = setTimeout;
    window.setTimeout = (does, wait, ...more) => later(does, wait >= 30_000 ? 12_000 : wait, ...more);"""


class OneTab(BrowserCase):
    """One tab on a short road."""

    names = ("Ada",)

    def begin_limit(self, tab: Tab, limit: str, begin: str = "0:20", end: str = "0:30") -> None:
        """Put a limit on the whole road, without waiting for it."""
        tab.tool("limit")
        tab.choose("limit", limit)
        tab.fill(kmFrom="0", kmTo="0.3", timeFrom=begin, timeTo=end)
        tab.press_in("#apply")

    def test_a_replaced_program_is_reported_with_the_reason_for_a_while(self) -> None:
        ada, = self.open(FREE_ROAD)
        ada.run_an_hour()
        began = time.monotonic()
        os.kill(self.server.program, signal.SIGSTOP)
        self.begin_limit(ada, "1")
        sentence = f"The program was restarted: the program did not answer and used no processor time for {HANGS} seconds"
        ada.until(lambda: ada.text("said").endswith(": done."), "it is confirmed, whatever the program does")
        ada.until(lambda: sentence in ada.text("stays"), "the page says so")
        self.assertGreater(time.monotonic() - began, HANGS * 0.8)
        ada.until(lambda: ada.lines("own") == ["27 km/h, 0–0.3 km, 0:20:00–0:30:00 private"], "done by the next program")
        ada.settled()
        self.assertIn(sentence, ada.text("stays"))
        ada.script(SOONER)
        os.kill(self.server.program, signal.SIGKILL)
        self.begin_limit(ada, "2")
        ada.until(lambda: "The program was restarted: the program ended with status -9" in ada.text("stays"), "the next one, too")
        self.assertNotIn(sentence, ada.text("stays"))
        ada.until(lambda: "restarted" not in ada.text("stays"), "it has been read")

    def test_a_disk_that_does_not_answer_is_reported_until_it_does(self) -> None:
        with mock.patch.object(Server, "serve", LIVE / "tests" / "stalling.py"):
            ada, = self.open(FREE_ROAD)
        ada.run_an_hour()
        stalled = self.server.folder / "stalled"
        stalled.touch()
        began = time.monotonic()
        self.begin_limit(ada, "1")
        ada.until(lambda: "the disk has not answered for 5 seconds: new changes are pending" in ada.text("stays"), "the page says so")
        self.assertGreater(time.monotonic() - began, STALLS)
        self.assertEqual(ada.lines("own"), ["27 km/h, 0–0.3 km, 0:20:00–0:30:00 pending"])
        ada.choose("span", "60")
        ada.keys(Keys.HOME)
        ada.until(lambda: "?" not in "".join(ada.characters(0, 30, 40)), "what was confirmed can be looked at")
        stalled.unlink()
        ada.until(lambda: ada.lines("own") == ["27 km/h, 0–0.3 km, 0:20:00–0:30:00 private"], "it is confirmed")
        ada.until(lambda: "disk" not in ada.text("stays"), "the trouble is over")

    def test_a_change_that_the_disk_refuses_is_neither_listed_nor_drawn(self) -> None:
        """It is not, even if the page was reloaded while the change was pending."""
        with mock.patch.object(Server, "serve", LIVE / "tests" / "stalling.py"):
            ada, = self.open(FREE_ROAD)
        ada.run_an_hour()
        stalled, failing = (self.server.folder / name for name in ("stalled", "failing"))
        stalled.touch()
        self.begin_limit(ada, "1", "0:00:20", "0:00:40")
        ada.driver.refresh()
        ada.until(lambda: ada.lines("own") and "1" in self.signs_at_35(ada), "it is seen")
        failing.touch()
        stalled.unlink()
        ada.until(lambda: "the disk does not accept writes" in ada.text("stays"), "the page says so")
        ada.until(lambda: not ada.lines("own") and set(self.signs_at_35(ada)) == {"3", "."}, "it is gone")
        failing.unlink()
        ada.until(lambda: "disk" not in ada.text("stays"), "the trouble is over")
        self.assertEqual((ada.lines("own"), set(self.signs_at_35(ada))), ([], {"3", "."}))

    def signs_at_35(self, tab: Tab) -> str:
        """Return what is drawn of step 35 after the inlet, where cars drive at the limit."""
        tab.choose("span", "60")
        tab.keys(Keys.HOME)
        return tab.characters(35, 1, 40)[0][10:]
