"""Test two and three browsers on one road: with a shell and other sites, with the keyboard alone, and with a server that ends."""
from __future__ import annotations

import asyncio

from brokers import reference
from browsers import FREE_ROAD, FREEWAY, BrowserCase, Tab, operations_of, shapes_of
from running import Broker, Server
from selenium.webdriver.common.action_chains import ActionChains
from selenium.webdriver.common.by import By
from selenium.webdriver.common.keys import Keys


ACTIVE = "const one = document.activeElement; return one.getAttribute('aria-label') || one.textContent.trim() || one.id"


def tab_to(tab: Tab, name: str) -> None:
    """Press Tab until the focus is on the element whose name begins so."""
    for _ in range(80):
        if tab.script(ACTIVE).startswith(name):
            return
        ActionChains(tab.driver, duration=0).send_keys(Keys.TAB).perform()
    raise AssertionError(f"no way to {name}")


def type_in(tab: Tab, *keys: str) -> None:
    for key in keys:
        ActionChains(tab.driver, duration=0).send_keys(key).perform()


class TwoTabs(BrowserCase):
    """Two browsers, or one browser and somebody without one."""

    def test_changes_from_the_shell_are_described(self) -> None:
        ada, = self.open(FREEWAY, ("Ada",))
        asyncio.run(self.at_night())
        ada.until(lambda: ada.text("news").startswith("Cron shared 3 changes: “night”, “works”."), "news")
        ada.press("Look first")
        ada.settled()
        lines = ("return [...document.querySelectorAll('#previewBody > p, #previewBody > ul')].slice(0, 2).flatMap((one) => "
                 "one.children.length ? [...one.children].map((line) => line.firstChild.data) : [one.textContent])")
        ada.until(lambda: "cars/h" in str(ada.script(lines)), "what the inlet admits is measured")
        title, *said = ada.script(lines)
        self.assertEqual(title, "“night”, “works”")
        closed, demand, limit = sorted(said)
        self.assertEqual((closed, limit), ("Closed 0.75–0.765 km, 0:10:00–0:11:40", "Limit withdrawn"))
        # With a slowing chance of 0.1 an inflow chance of 0.588 admits 1,500 cars an hour, within half a per cent.
        self.assertRegex(demand, r"^Demand 1,(49[3-9]|50[0-7]) cars/h, at 0 km, from 0:10:00 on$")

    async def at_night(self) -> None:
        async with self.server.seat("Cron") as cron:
            await cron.ask("gesture", key="limit", shape=["limit", 11, 11, 5400, None, 2])
            await cron.ask("send", name="shared", title="night")
            await cron.ask("gesture", key="gone", layer="limit", shape=None)
            await cron.ask("gesture", key="demand", shape=["inflow", 0, 0, 600, None, 38535])
            await cron.ask("gesture", key="closed", shape=["block", 100, 101, 600, 700, 1])
            await cron.ask("send", name="shared", title="works")

    def test_changes_from_the_shell_can_be_changed(self) -> None:
        ada, = self.open(FREEWAY, ("Ada",))
        asyncio.run(self.by_a_script())
        ada.take()
        names = ada.script("return [...document.querySelectorAll('#held button')].map((one) => one.ariaLabel)")
        self.assertEqual([name for name in names if name.startswith("Change")],
                         ["Change: Capacity 900 cars/h: limit 54 km/h, slowing 0.14, 0.75–1.5 km, 0:10:00–0:11:40",
                          "Change: Closed 0.75–0.765 km, 0:10:00–0:11:40",
                          "Change: 54 km/h, 4.125–4.5 km, from 1:30:00 on"])
        ada.press("Change: 54 km/h")
        values = [ada.part(name).get_attribute("value") for name in ("limit", "kmFrom", "kmTo", "timeFrom", "timeTo")]
        self.assertEqual(values, ["2", "4.125", "4.5", "1:30:00", ""])
        ada.choose("limit", "3")
        ada.type_and_apply(timeTo="1:40")
        self.assertEqual(shapes_of(operations_of(self.server)[-1]), [["limit", 11, 11, 5400, 6000, 3]])
        self.assertEqual(ada.lines("own"), ["81 km/h, 4.125–4.5 km, 1:30:00–1:40:00 private"])
        ada.press("Change: Closed")
        values = [ada.part(name).get_attribute("value") for name in ("kmFrom", "kmTo", "timeFrom", "timeTo")]
        self.assertEqual(values, ["0.75", "0.765", "0:10:00", "0:11:40"])

    async def by_a_script(self) -> None:
        async with self.server.seat("Cron") as cron:
            await cron.ask("gesture", key="limit", shape=["limit", 11, 11, 5400, None, 2])
            await cron.ask("gesture", key="closed", shape=["block", 100, 101, 600, 700, 1])
            await cron.ask("gesture", key="works", shape=["capacity", 2, 3, 600, 700, [900, 2, 9_000, 20_000]])
            await cron.ask("send", name="shared")

    def test_everybody_who_joins_sees_how_to_begin(self) -> None:
        ada, ben = self.open(FREE_ROAD)
        ben.until(lambda: ben.part("emptyHint").is_displayed(), "the road is empty")
        ada.run_an_hour()
        for tab in (ada, ben):
            tab.until(lambda: not tab.part("emptyHint").is_displayed(), "the road is not empty")
            tab.until(lambda: tab.part("hint").is_displayed(), "how to begin")
            self.assertTrue(tab.text("hint").endswith("Nobody else sees it until you share it."))
        ben.driver.refresh()
        ben.until(lambda: ben.text("clock") == "1:00:00", "the same seat")
        ben.settled()
        self.assertFalse(ben.part("emptyHint").is_displayed())

    def test_figures_of_both_roads_are_next_to_each_other(self) -> None:
        ada, ben = self.open(FREE_ROAD)
        ada.run_an_hour()
        ada.show(3600)
        ada.tool("block")
        ada.type_and_apply(kmFrom="0.18", kmTo="0.19", timeFrom="0:10", timeTo="")
        ada.until(lambda: "…" not in ada.text("figures"), "what is counted car by car")
        cells = ada.script("return [...document.querySelectorAll('#figures tbody tr:last-child > *')].map((one) => one.innerText)")
        # A car enters every two steps (0..2...., .1......, by the example's rows), and drives at 3 cells a step. The first one
        # passes cell 28 at about step 10, and the last one of mine some steps after 0:10:00.
        name, mine, shared, change = cells
        self.assertEqual(name, "cars at km 0.21")
        self.assertRegex(shared, r"^1,79[4-6]\n1[01]\.\d s\n1,79[4-6]/h, 81\.0 km/h$")
        self.assertRegex(mine, r"^29[5-7]\n1[01]\.\d s\n29[5-7]/h, 81\.0 km/h$")
        passed = [int(text.split()[0].replace(",", "")) for text in (mine, shared)]
        self.assertRegex(change, rf"^−{passed[1] - passed[0]:,}\n[−+]?0(\.\d)? s$")

    def test_everything_can_be_done_with_the_keyboard_alone(self) -> None:
        ada, ben = self.open(FREE_ROAD)
        tab_to(ada, "Run an hour")
        type_in(ada, Keys.ENTER)
        ada.until(lambda: ada.text("clock") == "1:00:00", "the clock")
        tab_to(ada, "Space-time diagram")
        type_in(ada, Keys.HOME, "c", " ", *[Keys.ARROW_RIGHT] * 2, *[Keys.ARROW_DOWN] * 3)
        said = ada.text("readout")
        self.assertTrue(said.startswith("Closed, "), said)
        type_in(ada, Keys.ENTER)
        ada.settled()
        self.assertEqual(len(ada.lines("own")), 1)
        tab_to(ada, "Share all")
        type_in(ada, Keys.ENTER)
        tab_to(ada, "Share now")
        type_in(ada, Keys.ENTER)
        ben.until(lambda: ben.part("news").is_displayed(), "news")
        tab_to(ben, "Take")
        type_in(ben, Keys.ENTER)
        ben.until(lambda: len(ben.lines("held")) == 1, "taken")
        tab_to(ada, "Space-time diagram")
        type_in(ada, "z")
        ada.until(lambda: "Undone: Closed" in "".join(ada.lines("own")), "taken back, in private")
        ada.settled()
        tab_to(ada, "Redo")
        type_in(ada, Keys.ENTER)
        ada.until(lambda: "Undone" not in "".join(ada.lines("own")), "put again")
        tab_to(ada, "Withdraw: Closed")
        type_in(ada, Keys.ENTER)
        ada.until(lambda: "Withdrew: Closed" in "".join(ada.lines("own")), "withdrawn")

    def test_withdrawing_the_last_change_moves_the_focus_to_the_diagram(self) -> None:
        ada, = self.open(FREE_ROAD, ("Ada",))
        ada.limit("2", "0:10", "0:20")
        ada.press("Withdraw: 54 km/h")
        ada.settled()
        self.assertEqual((ada.lines("own"), ada.script("return document.activeElement.id")), ([], "diagram"))

    def test_opening_the_same_view_again_draws_nothing(self) -> None:
        ada, = self.open(FREE_ROAD, ("Ada",))
        ada.run_an_hour()
        ada.keys(Keys.HOME, "c", " ", Keys.ARROW_RIGHT, Keys.ARROW_DOWN)
        self.assertTrue(ada.text("readout").startswith("Closed, "), ada.text("readout"))
        ada.keys("v", Keys.ARROW_RIGHT)
        self.assertRegex(ada.text("readout"), r"^0\.\d\d km, \d:\d\d:\d\d: ")
        ada.keys(Keys.ENTER)
        ada.settled()
        self.assertEqual((ada.lines("own"), ada.faults()), ([], []))

    def test_after_a_withdrawal_a_second_press_does_no_harm(self) -> None:
        ada, = self.open(FREE_ROAD, ("Ada",))
        ada.limit("2", "0:10", "0:20")
        ada.limit("1", "0:30", "0:40")
        ada.share_all()
        tab_to(ada, "Withdraw: 27 km/h")
        for held in (["54 km/h, 0–0.3 km, 0:10:00–0:20:00 shared"], []):
            type_in(ada, Keys.ENTER)
            ada.until(lambda: ada.lines("held") == held, "withdrawn")
            ada.settled()
            focus = ada.script("const {id, parentElement: list} = document.activeElement; return [id, list.id]")
            self.assertEqual(focus, ["", "held"] if held else ["own", focus[1]])
            type_in(ada, Keys.ENTER)
            ada.settled()
            self.assertEqual(ada.lines("held"), held)
            if held:
                tab_to(ada, "Withdraw: 54 km/h")

    def test_changes_are_pending_while_the_server_is_down(self) -> None:
        ada, _ = self.open(FREE_ROAD)
        ada.run_an_hour()
        self.server.kill()
        ada.until(lambda: ada.text("line") == "no connection, retrying", "the page says so")
        ada.tool("limit")
        ada.part("timeFrom").send_keys("0:20")
        ada.part("kmFrom").send_keys("0")
        ada.part("kmTo").send_keys("0.3")
        ada.press_in("#apply")
        ada.until(lambda: ada.lines("own") == ["54 km/h, 0–0.3 km, from 0:20:00 on pending"], "pending")
        for limit in ("0", "1", "3", "4", "5", "6", "7"):  # more than are sent at a time
            ada.choose("limit", limit)
            ada.press_in("#apply")
        ada.keys("z", "z")
        self.server.start()
        ada.until(lambda: len(ada.lines("own")) == 6 and "pending" not in ada.text("own"), "confirmed")
        self.assertEqual([operation["shape"][5] for operation in operations_of(self.server)[:8]], [2, 0, 1, 3, 4, 5, 6, 7])
        self.assertEqual(ada.lines("own")[0], "135 km/h, 0–0.3 km, from 0:20:00 on private")
        self.assertEqual(ada.value_at("limit", 0, 1200), [5])
        ada.settled()
        self.server.restart()
        ada.until(lambda: ada.text("said") == "The connection is back.", "what was said is over")
        self.assertEqual(ada.text("line"), "connected")

    def test_undone_and_redone_changes_are_reported_and_drawn(self) -> None:
        ada, _ = self.open(FREE_ROAD)
        ada.run_an_hour()
        ada.limit("1", "0:20", "0:30")
        said = "27 km/h, 0–0.3 km, 0:20:00–0:30:00."
        for name, wanted in (("Undo", f"Undone: {said}"), ("Redo", f"Redone: {said}"), ("Undo", f"Undone: {said}")):
            ada.press(name)
            ada.settled()
            self.assertEqual(ada.text("said"), wanted)
        self.server.kill()
        ada.until(lambda: ada.text("line") == "no connection, retrying", "the page says so")
        ada.fill(kmFrom="0", kmTo="0.3", timeFrom="0:40", timeTo="0:50")
        ada.press_in("#apply")
        shapes = "return framesShown().map(({from, to, pending}) => [from, to, pending])"
        for name, drawn, last in (("", True, "27 km/h, 0–0.3 km, 0:40:00–0:50:00 pending"),
                                  ("Undo", False, "Undone: 27 km/h, 0–0.3 km, 0:40:00–0:50:00 pending"),
                                  ("Redo", True, "Redone: 27 km/h, 0–0.3 km, 0:40:00–0:50:00 pending")):
            if name:
                ada.press(name)
            self.assertEqual((ada.script(shapes), ada.lines("own")[0]), ([[2400, 3000, True]] if drawn else [], last))
        self.server.start()
        ada.until(lambda: ada.lines("own") == ["27 km/h, 0–0.3 km, 0:40:00–0:50:00 private"], "confirmed")

    def test_undo_and_redo_name_what_they_undo_and_redo(self) -> None:
        """The undo of *put on top* names that, and not the change; the undo of a change names the shape that comes back."""
        ada, _ = self.open(FREE_ROAD)
        ada.run_an_hour()
        ada.limit("1", "0:20", "0:30")
        ada.limit("2", "0:20", "0:30")
        ada.press("Put on top: 27 km/h")
        ada.settled()
        first = "27 km/h, 0–0.3 km, 0:20:00–0:30:00"
        said = [f"{done}: the place on top of {first}." for done in ("Undone", "Redone")]
        for name, wanted in zip(("Undo", "Redo"), said):
            ada.press(name)
            ada.settled()
            self.assertEqual(ada.text("said"), wanted)
        ada.press("Change: 27 km/h")
        ada.type_and_apply(timeTo="0:40")
        for name, wanted in (("Undo", "Undone"), ("Redo", "Redone")):
            ada.press(name)
            ada.settled()
            self.assertEqual(ada.text("said"), f"{wanted}: 27 km/h, 0–0.3 km, 0:20:00–0:40:00.")

    def test_what_needs_the_connection_is_refused_and_not_done_later(self) -> None:
        ada, ben = self.open(FREE_ROAD)
        ada.run_an_hour()
        ada.limit("1", "0:20", "0:30")
        ben.limit("2", "0:20", "0:30")
        ben.share_all()
        ada.until(lambda: ada.part("news").is_displayed(), "news")
        ada.press("Share all")
        ada.settled()
        self.server.kill()
        ada.until(lambda: ada.text("line") == "no connection, retrying", "the page says so")
        for name, said in (("Share now", "Nothing was shared: there is no connection. Share again once it is back."),
                           ("Run an hour", "The clock was not set: there is no connection. Try again once it is back."),
                           ("Take", "Nothing was taken: there is no connection. Take again once it is back.")):
            ada.press(name)
            ada.until(lambda: ada.text("said") == said, said)
        self.server.start()
        ada.until(lambda: ada.text("said") == "The connection is back.", "it is back")
        ada.settled()
        self.assertEqual((ada.lines("own"), ada.lines("held"), ada.text("clock")),
                         (["27 km/h, 0–0.3 km, 0:20:00–0:30:00 private"], [], "1:00:00"))

    def test_pending_changes_are_kept_in_the_tab(self) -> None:
        ada, _ = self.open(FREE_ROAD)
        ada.run_an_hour()
        ada.script("store.connection.connect = () => {}")  # so that the page does not reconnect until it is reloaded
        self.server.kill()
        ada.until(lambda: "are stored in this tab, and sent once the connection is back" in ada.text("said"), "the page says so")
        ada.tool("limit")
        for limit in ("1", "2"):
            ada.choose("limit", limit)
            for ident, text in (("kmFrom", "0"), ("kmTo", "0.3"), ("timeFrom", "0:20")):
                ada.part(ident).clear()
                ada.part(ident).send_keys(text)
            ada.press_in("#apply")
        self.server.start()
        ada.driver.refresh()
        wanted = [f"{speed} km/h, 0–0.3 km, from 0:20:00 on private" for speed in (54, 27)]
        ada.until(lambda: ada.lines("own") == wanted, "what was pending")
        ada.settled()
        # If pending changes cannot be stored, the page does not claim that they are.
        ada.script("Storage.prototype.setItem = () => { throw new Error('full') }; store.connection.connect = () => {}")
        self.server.kill()
        ada.until(lambda: "unless you close or reload this tab" in ada.text("said"), "the page says so")
        ada.tool("limit")
        for ident, text in (("kmFrom", "0"), ("kmTo", "0.3"), ("timeFrom", "0:20")):
            ada.part(ident).send_keys(text)
        ada.press_in("#apply")
        self.assertIn("Pending changes are not stored in this tab.", ada.text("said"))
        ada.driver.get("about:blank")

    def test_the_state_of_the_broker_is_shown(self) -> None:
        broker = Broker()
        self.addCleanup(broker.kill)
        ada, = self.open(FREE_ROAD, ("Ada",), "--broker", broker.address)
        there = Server(None, FREE_ROAD, "--broker", broker.address, "--site", "south")
        self.addCleanup(there.kill)
        ada.until(lambda: ada.text("line") == "connected, with 1 other site (messages are not authenticated)", "the other site")
        ada.open_part("sites")
        site = there.journal()[0]["lab"]["site"]
        ada.press(f"Exclude: site {site}")
        ada.until(lambda: ada.lines("own") == [f"Site {site} is excluded private"], "the other site is excluded")
        ada.press(f"Withdraw: Site {site}")
        ada.until(lambda: ada.lines("own") == [], "and let in again")
        ada.settled()
        broker.kill()
        ada.limit("1", "0:20", "0:30")
        ada.share_all()
        ada.until(lambda: ada.text("line") == "connected; the broker is unreachable, 1 change not sent yet", "it is away")
        self.assertEqual(ada.part("line").get_attribute("class"), "away")
        broker.start()
        ada.until(lambda: ada.text("line") == "connected, with 1 other site (messages are not authenticated)", "it is back")
        broker.say(f"road/{reference(self.server)}/operations", "good morning")
        ada.until(lambda: ada.text("said") == "A message from the broker was ignored: it is not JSON: good morning",
                  "the page reports garbage")

    def test_a_browser_that_is_opened_again_has_its_seat_again(self) -> None:
        """Another tab of the same browser asks for a name, and so does `Not you?`."""
        ada, ben = self.open(FREE_ROAD)
        ada.limit("1", "0:20", "0:30")
        ada.script("sessionStorage.clear()")  # as a browser does that is closed
        ada.driver.get("about:blank")
        ben.until(lambda: ben.text("others") == "", "she has left")
        ada.driver.get(self.server.address)
        ada.until(lambda: ada.lines("own") == ["27 km/h, 0–0.3 km, 0:20:00–0:30:00 private"], "her changes")
        self.assertEqual(ada.text("me"), "Ada (seat 1)")
        first = ada.driver.current_window_handle
        ada.driver.switch_to.new_window("tab")
        ada.driver.get(self.server.address)
        ada.until(lambda: ada.part("hello").get_attribute("open") is not None, "asks for a name")
        ada.driver.close()
        ada.driver.switch_to.window(first)
        ada.press("Not you?")
        ada.until(lambda: ada.script("return $('hello').open && $('seatList').children.length"), "asks for a name")
        self.assertEqual([entry["seat"]["seat"] for entry in self.server.journal() if "seat" in entry], [1, 2])

    def test_a_seat_can_be_taken_over(self) -> None:
        ada, ben = self.open(FREE_ROAD)
        ada.limit("1", "0:20", "0:30")
        ada.script("sessionStorage.clear(), localStorage.clear()")
        ada.driver.get("about:blank")
        ada.driver.get(self.server.address)
        ada.until(lambda: ada.part("seats").is_displayed(), "the seats")
        self.assertEqual([one.text for one in ada.part("seatList").find_elements(By.TAG_NAME, "button")],
                         ["Ada, seat 1, 1 change not shared"])
        ada.press("Ada, seat 1")
        ada.until(lambda: "is using the seat of Ada, a person or a script, will lose it" in ada.text("seatList"), "it asks first")
        self.assertEqual([entry["seat"]["seat"] for entry in self.server.journal() if "seat" in entry], [1, 2])
        ada.press("Take over Ada, seat 1")
        ada.until(lambda: ada.lines("own") == ["27 km/h, 0–0.3 km, 0:20:00–0:30:00 private"], "her changes")
        ben.until(lambda: ben.text("others") == ", with Ada", "she is here")


class ThreeTabs(BrowserCase):
    """Three browsers at once."""

    names = ("Ada", "Ben", "Cleo")

    def test_three_who_edit_at_once_get_the_same_road(self) -> None:
        tabs = self.open(FREEWAY)
        tabs[0].run_an_hour()
        for index, tab in enumerate(tabs):
            tab.tool("limit")
            tab.choose("limit", str(index + 1))
            for name, text in (("kmFrom", str(index)), ("kmTo", str(index + 2)), ("timeFrom", "0:20"), ("timeTo", "0:40")):
                tab.part(name).send_keys(text)
        for tab in tabs:
            tab.press_in("#apply")
        for tab in tabs:
            tab.settled()
            tab.share_all()
        for tab in tabs:
            tab.take()
        held = [tab.script("return [...store.layers.mine.changes.values()].map(({name, shape, shown}) => "
                           "JSON.stringify([name, shape, shown])).sort()") for tab in tabs]
        self.assertEqual(held[0], held[1])
        self.assertEqual(held[0], held[2])
        self.assertEqual(len(operations_of(self.server)), 3)
        rows = [tab.script("return store.roads.mine.level(everyShown()).rows.filter(Boolean)") for tab in tabs]
        self.assertEqual(rows[0], rows[1])
        self.assertEqual(rows[0], rows[2])
