"""Test that a server confirms only what its next start reads and what every other site takes.

Random gestures of every verb, with hostile texts, shapes, times and sizes, go through a real tab. After each 20 of them the server is
killed and started again, and a second site must hold what was shared: as many gestures as the gate has time for, with `--all` 20,000.
"""
from __future__ import annotations

import base64
import collections
import hmac
import itertools
import json
import random
import shutil
from typing import Any, Iterator, Sequence

from faulty import Bus, Here
from running import ALL, Broker, Case, Server, end, until
from server.base.journal_lines import CorruptJournal, journal_line
from server.base.json_values import to_json
from server.model.reading import LONGEST_NAME, LONGEST_NOTE, clean_text
from server.shell.client import RefusedReply, Seat
from server.base.refusals import Refused

MOST, EACH, FOLDER = 20_000 if ALL else 300, 20, 1_000  # gestures: in all, before each restart, in a folder
LEAST = 0.5  # the part of the gestures of a verb that must be confirmed, else they try nothing
TEXTS = ["", "works", "x" * 199 + " y", "x" * 200, "a \u200b b", "\u202eabc", " a ", "a\tb\nc", "\ufeff", "é" * 300, "\u2066a\u2069", "\x00a",
         "a\u00a0b", "\u3000", "👩‍💻", "a" * 63 + " b", "\ufffe", "\ue000", "x" * 70, "\u2028a", "\U000e0041", '"\\', "\ud7ff"]
KINDS = {"block": (120, 1), "limit": (6, 9), "slow": (6, 65_536), "start": (6, 65_536), "inflow": (2, 65_536), "watch": (3, 1),
         "capacity": (6, 9)}
HOSTILE: list[Any] = [None, -1, 0, 1, 5, 1 << 20, (1 << 20) + 1, 1 << 31, 1 << 32, 1 << 53, 10 ** 30, 0.5, True, "", "x", [], {},
                      [1, "x" * 22]]
SITES: list[Any] = ["a-00000001", "b.c-0123abcd", "x" * 31 + "-ffffffff", "D-deadbeef", "-5-00000000", "--11111111", "e-1234567", "f-1234567G",
                    "x" * 32 + "-ffffffff", 7]
Command = tuple[str, dict[str, Any]]


async def operations_of(tab: Seat, at: str) -> list[str]:
    """Return the operations of a road as texts, which can be compared. A reply has a megabyte at most."""
    found: list[Any] = []
    place, more = 0, True
    while more:
        reply = await tab.say("operations", at=at, **{"from": place})
        found, place, more = [*found, *reply["operations"]], reply["next"], reply["more"]
    return sorted(json.dumps({name: value for name, value in one.items() if name not in ("shared", "seat")}, sort_keys=True)
                  for one in found)


class Hand:
    """Makes random commands: most of them valid, the others with a hostile part."""

    def __init__(self, seed: int) -> None:
        self.draw = random.Random(seed)
        self.keys: list[str] = []  # of changes that may be changed or undone
        self.sites = [*SITES]  # those that it excludes; some names cannot be those of a site
        self.out: set[str] = set()  # excluded sites
        self.numbers = itertools.count(seed * 1_000_000)
        self.variants: Sequence[str] = []  # the names that the server has confirmed

    def shape(self, faults: float = 0.2) -> list[Any]:
        """Return a shape; as many as `faults` says have a hostile part, or end before they begin."""
        draw, kind = self.draw, self.draw.choice([*KINDS])
        objects, most = KINDS[kind]
        first, begin = draw.randrange(objects), draw.randrange(3_000)
        made: list[Any] = [kind, first, min(objects - 1, first + draw.randrange(4)), begin, draw.choice([None, begin + draw.randint(1, 900)]),
                           draw.randint(0, most)]
        if kind == "capacity":
            made[5] = [draw.randint(0, 3_000), made[5], draw.randint(0, 65_536), draw.randint(0, 65_536)]
            if draw.random() < faults / 4:
                made[5][draw.randrange(4)] = draw.choice(HOSTILE)
        fault = draw.random()
        if fault < faults / 2:
            made[draw.randrange(6)] = draw.choice(HOSTILE)
        elif fault < faults:
            made[1:3], made[3:5] = draw.choice([(made[2:0:-1], made[3:5]), (made[1:3], [begin + 1, begin]), (made[1:3], [begin, begin])])
        return made

    def commands(self) -> Iterator[Command]:
        """Yield commands without end, each verb as often as the others."""
        while True:
            for make in (self.put, self.change, self.lift, self.undo, self.again, self.site, self.variant):
                yield make()

    def key(self) -> dict[str, Any]:
        return {"key": f"k{next(self.numbers)}", "note": self.draw.choice(TEXTS)}

    def made(self) -> str:
        """Return the key of an operation that this tab has made, mostly a late one."""
        return self.draw.choice(self.keys[-12:] or ["none"])

    def confirm(self, verb: str, fields: dict[str, Any]) -> None:
        """Note a command that was confirmed."""
        if verb in ("put", "change"):
            self.keys.append(fields["key"])
        elif verb in ("undo", "lift") and fields.get("stamp", fields.get("layer")) in self.keys:
            self.keys.remove(fields.get("stamp", fields.get("layer")))
        elif verb == "site":
            self.out ^= {fields["site"]}

    def put(self) -> Command:
        shape = self.shape()
        demand = {"demand": self.draw.choice([0, 700.25, 1e4, 0.1, *HOSTILE[-3:]])} if shape[0] == "inflow" else {}
        return "put", {**self.key(), "shape": shape, **demand}

    def change(self) -> Command:
        shape = None if self.draw.random() < 0.2 else self.shape()
        return "change", {**self.key(), "layer": self.made(), "shape": shape, "top": self.draw.random() < 0.5}

    def lift(self) -> Command:
        return "lift", {**self.key(), "layer": self.made(), "top": True}

    def undo(self) -> Command:
        return "undo", {**self.key(), "stamp": self.keys[-1] if self.keys else "none"}

    def again(self) -> Command:
        return "again", {"key": self.key()["key"], "stamp": self.made()}

    def site(self) -> Command:
        site = self.draw.choice(self.sites)
        return "site", {**self.key(), "site": site, "out": site not in self.out}

    def variant(self) -> Command:
        """Name the present road, or remove the name again if it is there."""
        name = self.draw.choice([*TEXTS[1:], "x", "y", "z"])
        return "variant", {"name": name, "drop": name in self.variants}


class Gate(Case):
    def sites(self, broker: Broker) -> tuple[Server, Server]:
        first, second = (self.server("--broker", broker.address, "--site", site) for site in ("north", "south"))
        return first, second

    async def test_what_is_confirmed_is_read_by_the_next_start_and_by_every_site(self) -> None:
        tried, confirmed = collections.Counter[str](), collections.Counter[str]()
        for seed in range(0, -(-MOST // FOLDER)):
            broker = self.broker()
            first, second = self.sites(broker)
            await self.try_gestures(first, second, Hand(seed), min(MOST, FOLDER), tried, confirmed)
            for process, folder in ((one.process, one.folder) for one in [first, second]):
                end(process)
                shutil.rmtree(folder)
            end(broker.process)
        for verb, count in tried.items():
            self.assertGreaterEqual(confirmed[verb], LEAST * count, (verb, confirmed, tried))

    async def try_gestures(self, first: Server, second: Server, hand: Hand, most: int, tried: collections.Counter[str],
                           confirmed: collections.Counter[str]) -> None:
        commands = hand.commands()
        async with second.seat("Sam") as sam:
            seat = first.seat(f"{hand.draw.choice(TEXTS)} Ada \u200b \u202e")
            for _ in range(most // EACH):
                async with seat as tab:
                    hand.sites[-1] = tab.welcome["site"]  # which cannot exclude itself
                    for verb, fields in itertools.islice(commands, EACH):
                        tried[verb] += 1
                        reply = await tab.reply("gesture" if verb in ("put", "change", "lift") else verb, at=tab.at, **fields)
                        if "refused" not in reply:
                            confirmed[verb] += 1
                            hand.confirm(verb, fields)
                            hand.variants = reply.get("variants", hand.variants)
                    own = await operations_of(tab, tab.at)
                    await tab.ask("send", name="shared", title=hand.draw.choice(TEXTS))
                    shared = await operations_of(tab, "shared")
                first.restart()
                seat = first.seat(key=tab.key)
                async with seat as tab:
                    self.assertIsNone(tab.welcome["trouble"])  # else it would say what cannot be read
                    self.assertEqual(tab.welcome["variants"], hand.variants)
                    self.assertLessEqual({*await operations_of(tab, tab.at)}, {*own})  # a start forgets some
                    self.assertEqual(await operations_of(tab, "shared"), shared)
                seat = first.seat(key=tab.key)

                async def holds() -> bool:
                    return await operations_of(sam, "shared") == shared
                await until(holds, "the second site takes what was confirmed at the first")

    async def test_a_shape_that_no_site_reads_is_refused(self) -> None:
        async with Here() as here:
            await here.join("Ada")
            for shape in (["block", 3, 3, 30, 20, 1], ["block", 4, 3, 20, 30, 1], ["block", 3, 3, 20, 20, 1]):
                with self.assertRaises(Refused) as refused:
                    await here.ask(1, "gesture", key="k", shape=shape)
                self.assertIn(refused.exception.text, ("Range", "NoObject"), shape)
            self.assertEqual([kind for entry in here.entries() for kind in entry], ["lab", "seat"])

    async def test_texts_are_cleaned_once_for_all(self) -> None:
        """A clean text stays as it is, so each site reads it."""
        bus = Bus()
        one, two = [await self.enterAsyncContext(Here(site=name)) for name in ("north", "south")]
        bus.site(one), bus.site(two)
        await one.join("Ada")
        cases = {"x" * 199 + " y": "x" * 199, "a \u200b b": "a b", "\u202eabc": "abc", "a\tb\nc": "a b c", "\ufeff": "", "é" * 300: "é" * 200}
        for step, note in enumerate(cases):
            await one.ask(1, "gesture", key=f"k{step}", note=note, shape=["limit", 2, 2, step, None, 3])
        await one.share(1)
        await bus.carry()
        self.assertEqual([(each.about.who, each.about.note) for each in two.lab.state.shared.operations()],
                         [("Ada", note) for note in cases.values()])
        for text in TEXTS:
            for most in (LONGEST_NAME, LONGEST_NOTE):
                self.assertEqual(clean_text(clean_text(text, most), most), clean_text(text, most), ascii(text))

    async def test_nobody_can_sign_a_key(self) -> None:
        """A key that somebody signed with the token gives no seat; and one that the server signed gives none for a name that `hello`
        would refuse."""
        server = self.server()
        for secret, long in ((server.address.partition("/#")[2].encode(), "Ada"), ((server.folder / "secret").read_bytes(), "x" * 71)):
            said = f"1.{long}"
            seal = base64.urlsafe_b64encode(hmac.digest(secret, f"abcdefgh.{said}".encode(), "sha256")[:12]).decode()
            with self.assertRaises(RefusedReply) as refused:
                await self.enterAsyncContext(server.seat(key=f"abcdefgh{seal}.{said}"))
            self.assertEqual(refused.exception.reply["refused"], "UnknownKey", long)
        async with server.seat("\u2066Ada \u200b Byron\u2069") as ada:
            self.assertEqual(ada.welcome["name"], "Ada Byron")
