"""Test `live/road`, the command for the shell: in scripts, six at once, and its error messages."""
from __future__ import annotations

import asyncio
import contextlib
import hashlib
import io
import json
import os
import random
import re
import sqlite3
import subprocess
import sys
import time
import unittest
from importlib.machinery import SourceFileLoader
from typing import Any
from unittest import mock

from oracle import by_rows, oracle_of
from brokers import reference
from faulty import written
from running import ALL, LIVE, PATIENCE, SMALL, Broker, Case, Server, end, new_folder, patience, started, until
from server import explain_missing
from server.figures.admission import Curve
from server.journal.entries import read_plan_line
from server.model.reading import read_operation
from server.shell.put import HOW, InvalidWords, find_chance, find_state, read_change
from works import admits
from zegdrut.base import METRES, Units
from zegdrut.base.wire import WrittenEdit
from zegdrut.roads import Clock

PLAN = read_plan_line(SMALL)
UNITS = Units(METRES, 1.0)
ODD = ["", " ", "-", "--", "-1", "0", "00", "1.5", "1,5", "1.5.2", "nan", "NaN", "inf", "-inf", "1e400", "-1e-400", "9" * 20, "9" * 5_000, "-" + "9" * 400,
       "." * 9, "0x10", "1_000", "\u0663", "\u00bd", "\u00b2", "7:00", "25:99", "7:00:00:00", ":", "9" * 400 + ":00", "1" + "." + "a" * 22, "9" * 5_000 + ".x",
       "\u202ex", "\udcff", "{}", "[]", "null", '{"gesture":NaN}', '{"gesture":1}', '{"x":{"y":1e999}}', "[" * 3_000, '{"x":' * 3_000,
       "/", "/nowhere/x", ".", "limit", "x" * 300, "e" + "\u0301" * 63]


class Missing(unittest.TestCase):
    """A Python without the modules of Debian's packages."""

    def test_the_python_is_named_that_lacks_a_module(self) -> None:
        fault = ModuleNotFoundError("No module named 'aiohttp'", name="aiohttp")
        self.assertEqual(explain_missing(fault), "python3-aiohttp is not installed: apt-get install python3-aiohttp")
        with mock.patch("sys.executable", "/usr/bin/env"), mock.patch("sys.argv", ["live/road", "Cron", "seats"]):
            self.assertEqual(explain_missing(fault), "/usr/bin/env does not have the module aiohttp. /usr/bin/python3 has it, with the package "
                             "python3-aiohttp: /usr/bin/python3 live/road ..")

    def test_a_module_of_ones_own_is_not_a_package(self) -> None:
        with self.assertRaises(ModuleNotFoundError):
            explain_missing(ModuleNotFoundError("No module named 'server.words'", name="server.words"))


class Written(unittest.TestCase):
    """Changes as words of a command. Zones of this road have 20 cells, 150 m."""

    def test_changes_in_km_and_clock_times(self) -> None:
        clock = Clock.read("06:30")
        for words, shape, said in (
                (("close", "0.45", "0.5", "7:00", "07:10"), ["block", 60, 66, 1_800, 2_400, 1], "closed, km 0.45 to 0.5025, 07:00 to 07:10"),
                (("slowing", "25", "0.3", "0.31", "10", "20.5"), ["slow", 2, 2, 600, 1_230, 16_384],
                 "slowing 25 %, km 0.3 to 0.45, 06:40 to 06:50:30"),
                (("slow-to-start", "50", "0", "0.9", "6:31", "6:32"), ["start", 0, 5, 60, 120, 32_768],
                 "slow-to-start 50 %, km 0 to 0.9, 06:31 to 06:32"),
                (("capacity", "900", "50", "0.2", "0.45", "7:00"), ["capacity", 1, 2, 1_800, None, (900, 2, 0, 0)],
                 "capacity 900 cars/h, limit 54 km/h, km 0.15 to 0.45, from 07:00 on"),
                (("detector", "off", "0.5", "06:45"), ["watch", 1, 1, 900, None, 0], "detector off, at km 0.525, from 06:45 on"),
                (("demand", "1200.5", "0.2", "06:45"), ["inflow", 1, 1, 900, None, 0], "1200.5 cars/h, at km 0.3, from 06:45 on")):
            written = read_change(words, PLAN, UNITS, clock)
            self.assertEqual(([*written.shape], written.sentence), (shape, said))
        self.assertEqual(written.demand, 1_200.5)

    def test_a_wrong_change_is_refused_with_a_reason(self) -> None:
        for words, why in ((("jump", "1"), "'jump' is not a kind of change: write one of close, capacity, limit"), (("limit", "54", "0"), "write limit KMH"),
                           (("limit", "300", "0", "0.1", "1"), "0 to 243 km/h, not 300"), (("close", "2", "3", "1"), "0 to 0.9 km"),
                           (("close", "0.2", "0.1", "1"), "the smaller first"), (("slowing", "101", "0", "0.1", "1"), "0 to 100 %"),
                           (("detector", "1", "0", "1"), "on or off"), (("close", "a", "0.1", "1"), "'a' is not a number of km"),
                           (("capacity", "many", "54", "0", "0.1", "1"), "'many' is not a number of cars per hour"),
                           (("close", "0", "0.1", "soon"), "BEGIN: 'soon' is not a time"), (("close", "0", "0.1", "9", "8"), "not later than"),
                           ((), "'' is not a kind of change")):
            with self.assertRaisesRegex(InvalidWords, re.escape(why)):
                read_change(words, PLAN, UNITS, Clock())

    def test_a_curve_is_read_back(self) -> None:
        curve: Curve = {"points": [(0, 0.0), (1_000, 100.0), (2_000, 150.0), (3_000, 150.0)], "capacity": 150.0}
        self.assertEqual([find_chance(curve, cars) for cars in (0, 50, 100, 125, 150)], [0, 500, 1_000, 1_500, 2_000])
        with self.assertRaisesRegex(InvalidWords, "admits 0 to 150 cars"):
            find_chance(curve, 151)
        edits: list[WrittenEdit] = [("inflow", 0, 60, 1, 64, 7), ("inflow", 0, 90, 1, 64, None), ("start", 2, 0, 1, 64, 99),
                                    ("start", 2, 5, 1, 64, 98)]
        self.assertEqual(find_state(PLAN, edits, 1, 59), {"inlet": 1, "start": 99, "before": [(0, 27_918)]})
        self.assertEqual(find_state(PLAN, edits, 1, 90), {"inlet": 1, "start": 99, "before": [(0, 7)]})


class Shell(Case):
    def setUp(self) -> None:
        self.here = Broker()
        self.addCleanup(lambda: self.here.kill())
        self.a6: Server = self.server("--broker", self.here.address)

    async def road(self, *words: str, **environment: str) -> tuple[int, str, str]:
        process = await asyncio.create_subprocess_exec(
            sys.executable, str(LIVE / "road"), *words, stdout=asyncio.subprocess.PIPE, stderr=asyncio.subprocess.PIPE,
            env={**os.environ, "LIVE": str(self.a6.folder), **environment})
        out, said = await asyncio.wait_for(process.communicate(), PATIENCE)
        self.assertNotIn("Traceback", said.decode())
        return process.returncode or 0, out.decode().strip(), said.decode().strip()

    async def stamp(self, *words: str) -> str:
        """Return the stamp that a command prints."""
        status, out, said = await self.road(*words)
        self.assertRegex(out, "^[0-9]+[.][A-Za-z0-9_-]{22}$", (words, said))
        self.assertEqual((status, said), (0, ""))
        return out

    async def edits(self, at: str) -> list[list[Any]]:
        """Return the edits in force on a road of the seat `cron`."""
        held = json.loads((await self.road("cron", "ask", f'{{"scenario":{{"at":"{at}"}}}}'))[1])["edits"]
        return [[*one[:3], one[5]] for one in held if one[5] is not None]

    async def test_names_of_64_characters_in_any_script_have_their_own_seats(self) -> None:
        names = ["a b", "a_b", "a/b", "../a", "\U00013000" * 64, "\U00013000" * 63 + "b", "語" * 64]
        for _ in range(2):  # the second time with the stored key
            said = await asyncio.gather(*(self.road(name, "ask", '{"scenario":{}}') for name in names))
            self.assertEqual([status for status, _, _ in said], [0] * len(names))
        self.assertEqual([path.is_file() for path in (self.a6.folder / "keys").iterdir()], [True] * len(names))
        async with self.a6.seat("Ada") as ada:
            self.assertEqual({one["name"] for one in (await ada.say("seats"))["seats"]}, {*names, "Ada"})
        async with self.a6.seat("é" * 65) as long:
            self.assertEqual(long.welcome["name"], "é" * 64)
            lines = (await long.ask("transcript", **{"from": 0, "to": 0}))["lines"]
            self.assertNotIn("refused", lines)

    async def test_a_script_takes_part(self) -> None:
        first = await self.stamp("cron", "edit", "limit", "2", "50", "1")
        self.assertEqual((await self.road("cron", "share", "night"))[:2], (0, "shared 1 change"))
        await self.stamp("Ada", "edit", "limit", "0", "50", "4", "80")
        over = await self.stamp("Ada", "edit", "limit", "2", "60", "4")
        self.assertEqual((await self.road("Ada", "share"))[1], "shared 2 changes")
        self.assertEqual((await self.road("cron", "take"))[1], "took 2 changes\ncovered: limit 2, 1, from step 60 on, by Ada")
        self.assertEqual(await self.edits("seat1"), [["limit", 0, 50, 4], ["limit", 0, 80, 5], ["limit", 2, 50, 1], ["limit", 2, 60, 4]])
        await self.stamp("cron", "withdraw", over)
        self.assertEqual(await self.edits("seat1"), [["limit", 0, 50, 4], ["limit", 0, 80, 5], ["limit", 2, 50, 1]])
        await self.road("cron", "share")
        async with self.a6.seat("Ben") as ben:
            await ben.ask("take", message="shared")
            count, name = first.split(".")
            await ben.ask("gesture", key="k", layer=[int(count), name], shape=["limit", 2, 2, 50, None, 3])
            await ben.ask("send", name="shared")
        self.assertEqual((await self.road("cron", "take"))[1], f"took 1 change\nchanged: limit with stamp {first}, by Ben")
        site = json.loads((self.a6.folder / "journal.jsonl").read_text().splitlines()[0])["lab"]["site"]
        for words in (("out", "south-00000000"), ("in", "south-00000000")):
            await self.stamp("cron", *words)
        self.assertEqual((await self.road("cron", "out", site))[0], 1)
        self.assertIn("cannot exclude itself", (await self.road("cron", "out", site))[2])
        await self.stamp("cron", "edit", "limit", "4", "50", "4")
        await self.road("cron", "share")
        self.assertEqual((await self.road("cron", "tell"))[:2], (0, "all shared changes came back from the broker"))
        self.here.kill()
        await self.stamp("cron", "edit", "limit", "5", "50", "4")
        await self.road("cron", "share")
        status, _, why = await self.road("cron", "tell", PATIENCE="1")
        self.assertEqual((status, why.strip()), (1, "1 change has not come back from the broker, which is away"))

    async def test_no_command_ends_in_a_traceback(self) -> None:
        """Each of them is tried with each odd argument in all places."""
        self.elsewhere = new_folder()  # the exports have odd names
        script: Any = SourceFileLoader("road_script", str(LIVE / "road")).load_module()  # pylint: disable=deprecated-method, no-value-for-parameter
        commands = [(verb, most) for verb, (*_, most) in script.ARGUMENTS.items() if most and verb not in ("tell", "clock")] + [("clock", 1)]
        commands += [(f"put {kind}", 5 if kind in ("capacity", "limit", "slowing", "slow-to-start") else 4) for kind in HOW]
        for odd in ODD if ALL else random.Random(time.time_ns()).sample(ODD, 12):
            for verb, count in commands:
                await self.ends_well(script, "cron", *verb.split(), *[odd] * count)
            for words in (("mend", odd, odd), ("new-site", odd), (odd, "seats"), ("cron", odd), (odd,)):
                await self.ends_well(script, *words)


    async def ends_well(self, script: Any, *words: str) -> None:
        """Call the script. It ends by itself, or with a status and a sentence."""
        def call() -> object:
            try:
                asyncio.run(script.main())
            except SystemExit as ended:
                return ended.code
            except Exception as fault:  # pylint: disable=broad-except
                return fault
            return 0
        said = io.StringIO()
        with mock.patch.object(sys, "argv", ["road", *words]), mock.patch.dict(os.environ, {"LIVE": str(self.a6.folder)}), \
                contextlib.chdir(self.elsewhere), contextlib.redirect_stdout(io.StringIO()), contextlib.redirect_stderr(said):
            status = await asyncio.wait_for(asyncio.to_thread(call), patience(30))
        self.assertIn(status, (0, 1, 2, 3), [one[:60] for one in words])
        self.assertEqual(bool(said.getvalue()), status != 0, [one[:60] for one in words])

    async def test_the_export_takes_each_operation_that_a_site_takes(self) -> None:
        """Also one of the year 36812, and one with fields that are called as those of a table."""
        late = written(4, shape=["limit", 1, 1, 9, None, 2], when=(1 << 40) - 1, who="Eve")
        named = written(5, shape=["limit", 2, 2, 9, None, 2], seat="x", shared=7, makers=[1])
        async def have_come() -> bool:
            self.here.say(f"road/{reference(self.a6)}/operations", json.dumps({"form": 4, "operations": [late, named]}))
            return len(json.loads((await self.road("cron", "ask", '{"operations":{"at":"shared"}}'))[1])["operations"]) == 2
        await until(have_come, "they have come")
        path = new_folder() / "a.db"
        self.assertEqual((await self.road("cron", "export", str(path)))[0::2], (0, ""))
        self.a6.kill()
        again = new_folder() / "b.db"
        self.assertEqual((await self.road("cron", "export", str(again)))[0::2], (0, ""))
        for each in (path, again):
            with contextlib.closing(sqlite3.connect(each)) as database:
                rows = database.execute("SELECT made, who, json FROM operations ORDER BY count").fetchall()
            self.assertEqual([row[:2] for row in rows], [("36812-02-20 00:36:15", "Eve"), (None, "")])
            self.assertEqual([json.loads(row[2]) for row in rows], [late, named])
        status, _, why = await self.road("cron", "export", "/nowhere/a.db")
        self.assertEqual((status, "/nowhere/a.db cannot be written" in why), (1, True))

    async def test_a_robot_gets_its_seat_back_from_somebody_who_took_it_over(self) -> None:
        """While that person has it open, the robot gets a sentence of its own."""
        self.assertEqual((await self.road("cron", "seats"))[1], "seat 1: cron, here")
        async with self.a6.seat(take=1):
            status, said, why = await self.road("cron", "seats")
            self.assertEqual((status, said), (1, ""))
            self.assertEqual(why.strip(), "cron: somebody has taken over this seat and has it open: close that tab, or use another NAME")
        self.assertEqual((await self.road("cron", "seats"))[:2], (0, "seat 1: cron, here"))
        self.assertEqual((await self.road("cron", "seats"))[:2], (0, "seat 1: cron, here"))

    async def test_only_the_owner_may_read_a_folder_and_its_keys_whatever_the_umask(self) -> None:
        plan = self.a6.folder / "plan.json"
        for umask in (0, 0o177):
            folder = new_folder() / "above" / "folder"
            before = os.umask(umask)
            try:
                server = started([sys.executable, str(LIVE / "serve"), "--folder", str(folder), "--port", "0", str(plan)],
                                 stdout=subprocess.PIPE, text=True)
                self.addCleanup(end, server)
                assert server.stdout is not None
                address = (await asyncio.to_thread(server.stdout.readline)).strip()
                said = await self.road("cron", "seats", LIVE=str(folder / "robots"), LIVE_ADDRESS=address)
            finally:
                os.umask(before)
            self.assertEqual(said[:2], (0, "seat 1: cron, here"))
            paths = (folder.parent, folder, folder / "robots", folder / "robots" / "keys", folder / "robots" / "keys" / "cron")
            self.assertEqual([path.stat().st_mode & 0o777 for path in paths], [0o700] * 4 + [0o600])
            paths[-1].chmod(0o644)  # as a copy of the folder may have it
            await self.road("cron", "seats", LIVE=str(folder / "robots"), LIVE_ADDRESS=address)
            self.assertEqual(paths[-1].stat().st_mode & 0o777, 0o600)

    async def test_changes_are_written_in_km_and_clock_times(self) -> None:
        """A demand agrees with the package's curve, within half a car per hour. The chances of a capacity leave its cars."""
        (self.a6.folder / "freeway.json").write_text('{"begin": "06:30"}', encoding="utf-8")
        said = [await self.road("cron", "put", *words) for words in (
            ("limit", "50", "0.2", "0.45", "6:40"), ("capacity", "900", "54", "0.6", "0.9", "6:50"), ("demand", "1200", "0", "06:45", "07:00"), ("demand", "1900", "0", "1"))]
        self.assertEqual([(status, out.partition(" ")[2]) for status, out, _ in said], [
            (0, "limit 54 km/h, km 0.15 to 0.45, from 06:40 on"),
            (0, "capacity 900 cars/h, limit 54 km/h, km 0.6 to 0.9, from 06:50 on"), (0, "1200 cars/h, at km 0, 06:45 to 07:00"), (2, "")])
        self.assertIn("this inlet admits 0 to 1,7", said[3][2])
        async with self.a6.seat("Ada") as ada:
            await self.road("cron", "share")
            shapes: dict[str | None, Any] = {line["kind"]: line["shape"] for line in (await ada.ask("layers", at="shared", **{"from": 0}))["layers"]}
        chance, (*where, value) = shapes.pop("inflow")[5], shapes.pop("capacity")
        self.assertEqual((where, value[:2]), (["capacity", 4, 5, 1_200, None], [900, 2]))
        admits(self, value, (5, 0.1, 0.1), 40)
        self.assertEqual(shapes, {"limit": ["limit", 1, 2, 600, None, 2]})
        from zegdrut.roads import Drivers, measure_admission
        self.assertAlmostEqual(measure_admission(Drivers(5, 6_554)).admitted(chance), 1_200, delta=0.5)

    async def test_changes_are_exported_as_tables(self) -> None:
        """Those of the shared road and the seat's own while a server runs, otherwise all. The painter gets the road from them, and no
        table has a key, the token or a secret."""
        (self.a6.folder / "freeway.json").write_text('{"begin": "06:30", "date": "2026-03-02"}', encoding="utf-8")
        async with self.a6.seat("Ada") as ada, self.a6.seat("Ben") as ben:
            await ada.ask("gesture", key="gesture-key-1", shape=["limit", 1, 2, 600, 1_200, 2], note="works")
            await ada.ask("gesture", key="gesture-key-2", shape=["block", 60, 66, 1_800, None, 1])
            await ada.ask("gesture", key="gesture-key-3", layer="gesture-key-1", shape=["limit", 1, 3, 600, 1_200, 2])
            await ada.ask("send", name="shared", title="night works")
            await ada.ask("gesture", key="gesture-key-4", layer="gesture-key-2", shape=None)
            undo = await ada.ask("undo", key="gesture-key-5", stamp="gesture-key-4")
            await ada.ask("undo", key="gesture-key-6", stamp=undo["stamp"])
            await ben.ask("gesture", key="gesture-key-7", shape=["watch", 1, 1, 90, None, 0])
            await ben.ask("gesture", key="gesture-key-8", shape=["inflow", 1, 1, 0, None, 30_000], demand=900)
            values = {at: by_rows((await seat.ask("scenario", at=at))["edits"]) for seat, at in ((ada, "shared"), (ada, ada.at), (ben, ben.at))}
            private = [(one["seat"], one["name"], one["private"]) for one in (await ada.say("seats"))["seats"]]
        keys = [ada.key, ben.key]
        (self.a6.folder / "keys").mkdir()
        (self.a6.folder / "keys" / "Ada").write_text(ada.key)
        adas: list[Any] = [
            ("Ada", "put", "limit 54 km/h", 0.15, 0.45, "2026-03-02 06:40", "2026-03-02 06:50", "works", 1),
            ("Ada", "put", "closed", 0.45, 0.5025, "2026-03-02 07:00", None, "", 1),
            ("Ada", "change", "limit 54 km/h", 0.15, 0.6, "2026-03-02 06:40", "2026-03-02 06:50", "", 1),
            ("Ada", "withdraw", "withdrawn", None, None, None, None, "", 0),
            ("Ada", "undo", None, None, None, None, None, "", 0), ("Ada", "redo", None, None, None, None, None, "", 0)]
        bens: list[Any] = [("Ben", "put", "detector off", 0.525, 0.525, "2026-03-02 06:31:30", None, "", 0),
                           ("Ben", "put", "900 cars/h", 0.3, 0.3, "2026-03-02 06:30", None, "", 0)]
        files = [new_folder() / f"{name}.db" for name in ("one", "all")]
        for file, expected in zip(files, (adas, adas + bens)):
            status, said, _ = await self.road("Ada", "export", str(file), LIVE=str(self.a6.folder))
            self.assertEqual((status, said), (0, f"wrote {len(expected)} operations to {file}"))
            with contextlib.closing(sqlite3.connect(file)) as tables:
                changes = tables.execute("SELECT who, does, what, round(from_km, 6), round(to_km, 6), from_time, to_time, note, shared FROM changes"
                                         ).fetchall()
                self.assertEqual(sorted(map(repr, changes)), sorted(map(repr, expected)))
                self.assertLess(abs(time.time() - tables.execute("SELECT max(strftime('%s', made)) + 0 FROM changes").fetchone()[0]), 300)
                written = [(seat, shared, read_operation(json.loads(text))) for seat, shared, text in
                           tables.execute("SELECT seat, shared, json FROM operations")]
                seats = tables.execute("SELECT seat, name, private FROM seats ORDER BY seat").fetchall()
                if file is files[1]:
                    self.assertEqual(tables.execute("SELECT who, title, size FROM shares").fetchall(), [("Ada", "night works", 3)])
            oracle = oracle_of(SMALL, 2_000)
            for at, number in (("shared", 0), ("seat1", 1), *([("seat2", 2)] if file is files[1] else [])):
                own = [one for seat, shared, one in written if (shared and not number) or (number and seat == number)]
                self.assertEqual(oracle.by_the_program(values[at]), oracle.painted(own), at)
            self.assertEqual(seats, private)
            data = file.read_bytes()
            secrets = [self.a6.folder.joinpath(name).read_text().strip() for name in ("token", "secret") if (self.a6.folder / name).exists()]
            hashes = [hashlib.sha256(key.encode()).hexdigest() for key in keys]
            for secret in (*secrets, *keys, *hashes, "gesture-key"):
                self.assertNotIn(secret.encode(), data)
            self.assertEqual(file.stat().st_mode & 0o777, 0o600)
            self.a6.kill()
        status, _, why = await self.road("Ada", "export", str(files[0]), LIVE=str(self.a6.folder))
        self.assertEqual((status, why), (1, f"{files[0]} exists already: remove it, or give another file"))

    async def test_a_copied_folder_gets_a_site_of_its_own_while_no_server_runs_there(self) -> None:
        folder = self.a6.folder
        site = json.loads((folder / "journal.jsonl").read_text().splitlines()[0])["lab"]["site"]
        stamp = await self.stamp("cron", "edit", "limit", "2", "50", "1")
        status, _, why = await self.road("new-site", str(folder))
        self.assertEqual((status, "another server is running" in why), (1, True))
        self.a6.kill()
        status, said, _ = await self.road("new-site", str(folder))
        self.assertRegex(said, "^the site of this folder is now ")
        moved = said.rpartition(" ")[2]
        self.assertEqual((status, moved.rpartition("-")[0], moved == site), (0, site.rpartition("-")[0], False))
        self.assertEqual((await self.road("new-site", str(new_folder())))[0], 1)
        self.a6.start()
        async with self.a6.seat("Ada") as ada:
            self.assertEqual(ada.welcome["site"], moved)
        await self.stamp("cron", "withdraw", stamp)

    async def test_the_clock_is_set_and_seats_are_listed(self) -> None:
        self.assertEqual(await self.road("cron", "clock", "0:10"), (0, "the clock is at 00:10", ""))
        self.assertEqual((await self.road("cron", "ask", '{"clock":{"to":700}}'))[0], 0)
        self.assertEqual((await self.road("cron", "seats"))[1], "seat 1: cron, here")
        async with self.a6.seat("Ada") as ada:
            self.assertEqual(ada.welcome["now"], 700)
        (self.a6.folder / "freeway.json").write_text('{"begin": "06:30"}', encoding="utf-8")
        for time_of_day in ("06:40", "16:42", "06:29"):
            self.assertEqual(await self.road("cron", "clock", time_of_day), (2, "", "cron: the clock goes forward only, and by at most 10 hours "
                             f"at a time: give a time from 06:41:40 to 16:41:40, not {time_of_day}"))
        self.assertEqual((await self.road("cron", "clock", "16:41:40"))[:2], (0, "the clock is at 16:41:40"))

    async def test_six_commands_at_once_get_six_stamps(self) -> None:
        said = await asyncio.gather(*(self.road("cron", "edit", "limit", "2", str(step), "1") for step in range(6)))
        self.assertEqual(sorted(int(out.partition(".")[0]) for _, out, _ in said), [*range(1, 7)])

    async def test_two_hundred_edits_after_an_advance_take_seconds(self) -> None:
        """The program does not run a long log again for each command."""
        await self.road("cron", "ask", '{"clock":{"to":200}}')
        await self.road("cron", "ask", '{"advance":{"to":200}}')
        async with self.a6.seat("Ada") as ada:
            await ada.ask("advance", to=200)
            for number in range(200):
                shape = ["limit", number % 6, number % 6, number, None, number // 6 % 5]
                await ada.ask("gesture", key=f"{number}", shape=shape)
            self.assertEqual(len((await ada.ask("scenario"))["edits"]), 200)

    async def test_faults_are_reported(self) -> None:
        for words, status, why in (
                (("cron", "edit", "limit", "99", "50", "1"), 1, "no zone 99"),
                (("cron", "edit", "limt", "2", "50", "1"), 1, "use `limit`"),
                (("cron", "edit", "limit", "2", "50"), 2, "unknown command or wrong arguments"),
                (("cron", "edit", "limit", "2", "x", "1"), 2, "is not a whole number"),
                (("cron", "edit", "limit", "2", "50", "1", "60", "70"), 2, "unknown command or wrong arguments"),
                (("cron", "edit", "limit", "2", "50", "1", "50"), 1, "a shape must end after step 50"), (("cron", "withdraw", "5"), 2, "write COUNT.HASH"),
                (("cron", "withdraw", "5.M47dx6_hno3g_1R9IF57TQ"), 1, "holds no change"), (("cron", "withdraw", "5.x"), 1, "layer"),
                (("cron", "out", "2"), 1, "site"), (("cron", "numbers"), 2, "unknown command or wrong arguments"),
                (("cron", "ask", "nonsense"), 2, "write JSON"),
                (("cron", "ask", '{"scenario":{"at":"cron"}}'), 1, 'here a road must be "seat1" or "shared"'),
                (("cron", "ask", '{"take":{"at":"shared","message":"shared"}}'), 1, 'here a road must be "seat1"'),
                (("cron", "ask", '{"crowd":{}}'), 1, "there is no command `crowd`"),
                (("cron",), 2, "NAME of a seat and a command"), (("cron",), 2, "live/road Cron edit limit 11 5400 2"),
                (("cron", "dance"), 2, "unknown command or wrong arguments")):
            ended, _, said = await self.road(*words)
            self.assertEqual(ended, status, words)
            self.assertIn(why, said)
        async with self.a6.seat("Ada"):
            ended, _, said = await self.road("Ada", "edit", "limit", "2", "50", "1")
            self.assertEqual((ended, "there is a seat of Ada" in said), (1, True))
        self.a6.kill()
        self.assertEqual((await self.road("cron", "take"))[0], 3)
        self.assertEqual((await self.road("cron", "take", LIVE=str(new_folder())))[0], 3)
