"""Test journals with a damaged line: the start is refused, and `live/road mend` makes a folder with everything else."""
from __future__ import annotations

import json
import subprocess
import sys
from pathlib import Path
from typing import Any, Callable

from faulty import Bus, Here, written
from running import LIVE, SMALL, Case, new_folder
from server.base.journal_lines import SUM, CannotStart, CorruptJournal, journal_line
from server.base.json_values import to_json
from server.journal.entries import ENTRY_KINDS
from server.shell.mend import mend, read_damaged
from server.shell.new_site import move_to_new_site


def line_of(entry: Any) -> bytes:
    return journal_line(to_json(entry), True)


class Damaged(Case):
    async def history(self) -> tuple[Here, Here]:
        """Return a site whose journal has each kind of line, and another one that holds what is shared."""
        north, south = [await self.enterAsyncContext(Here(site=name, plan=SMALL)) for name in ("north", "south")]
        bus = Bus()
        bus.site(north), bus.site(south)
        await south.join("Sam")
        await north.join("Ada", "Ben", "Cem")
        for step in (10, 20):
            await north.put(1, ["limit", 1, step, 3], f"a{step}")
        await north.share(1)
        await north.ask(1, "variant", name="before noon")
        await bus.carry()
        await north.keeper.compact()  # writes `done` and `shares`
        await south.put(1, ["limit", 2, 30, 4])
        await south.share(1)
        await bus.carry()
        for seat, step in ((1, 40), (2, 50), (2, 60)):
            await north.put(seat, ["limit", 3, step, 2], f"p{step}")
        await north.share(2)
        await bus.carry()  # writes `back`
        await north.take(1)
        north.keeper.record(ENTRY_KINDS["works"].read({"upto": 1}))
        north.keeper.record(ENTRY_KINDS["left"].read({"seat": 1, "when": 7}))
        north.keeper.record(ENTRY_KINDS["clock"].read({"rate": 0, "now": 70}))
        await north.put(3, ["limit", 4, 70, 2], "c")
        await north.ask(3, "undo", key="u", stamp="c")
        north.keeper.record(ENTRY_KINDS["forgot"].read({"seat": 3, "stamps": [[*one.stamp] for one in north.lab.state.seats[3].own]}))
        await north.ask(3, "leave")
        await north.keeper.journal.wait_until_written()
        await north.keeper.close()
        self.bus, self.south = bus, south
        return north, south

    def damaged(self, here: Here, number: int, change: Callable[[bytes], bytes]) -> Path:
        """Return a copy of a folder in which a line of the journal is changed."""
        folder = new_folder()
        lines = (here.folder / "journal.jsonl").read_bytes().splitlines(keepends=True)
        lines[number] = change(lines[number])
        (folder / "journal.jsonl").write_bytes(b"".join(lines))
        (folder / "token").write_text("a token of 16 characters or more")
        return folder

    async def test_each_kind_of_line_may_be_lost(self) -> None:
        """A seat keeps what it has not lost, and what was shared comes back from the other site."""
        north, south = await self.history()
        entries = north.entries()
        last = {next(iter(entry)): number for number, entry in enumerate(entries)}
        self.assertEqual(last.keys(), ENTRY_KINDS.keys())
        held = {*north.lab.state.by_stamp}
        for kind, number in sorted(last.items()):
            folder, new = self.damaged(north, number, lambda line: line.replace(b":", b";", 1)), new_folder() / "new"
            with self.assertRaisesRegex(CorruptJournal, f"line {number + 1}, is malformed .*: live/road mend {folder} NEW_FOLDER"):
                await self.enterAsyncContext(Here(folder))
            if kind == "lab":
                with self.assertRaisesRegex(CannotStart, "with the plan and the site, cannot be read.*live/serve --folder NEW_FOLDER --broker"):
                    mend(folder, new)
                continue
            site, left_out = mend(folder, new)
            self.assertEqual((site, len(left_out), (new / "token").read_text()), (north.lab.state.site, 1, "a token of 16 characters or more"))
            self.assertIn(f"line {number + 1} is left out: it is malformed", left_out[0])
            async with Here(new) as again:
                own = {one.stamp for one in again.lab.state.by_stamp.values()}
                self.assertLessEqual(held - own, {*stamps_in(entries[number])}, kind)
                bus = Bus()
                sites = [bus.site(again), bus.site(south)]
                await bus.rounds(4)
                self.assertEqual(*[(await one._sum_up()).total for one in sites])
                self.assertEqual(again.lab.state.shared.road.layers, south.lab.state.shared.road.layers, kind)
                names = [seat.name for seat in again.lab.state.seats if seat.key]
                self.assertEqual(names[:2], ["Ada", "Ben"], kind)
                self.assertEqual(again.lab.state.site, north.lab.state.site)

    async def test_a_seat_without_its_line_has_a_new_key(self) -> None:
        north, _ = await self.history()
        lines = [entry for entry in north.entries() if entry.get("seat", {}).get("name") != "Ada"]
        folder, new = new_folder(), new_folder() / "new"
        (folder / "journal.jsonl").write_bytes(b"".join(map(line_of, lines)))
        mend(folder, new)
        async with Here(new) as again:
            ada = again.lab.state.seats[1]
            self.assertEqual((ada.name, len(ada.own)), ("Ada", 3))
            self.assertNotEqual(ada.key, north.lab.state.seats[1].key)

    async def test_nobody_has_taken_what_he_has_not_seen(self) -> None:
        """The places of the shared road are counted without the lost operations."""
        async with Here(plan=SMALL) as here:
            await here.join("Ada", "Ben")
            for step in range(6):
                await here.put(1, ["limit", 1, step, 3])
                await here.share(1)
                if step == 3:
                    await here.take(2)
            await here.keeper.compact()
            places = [number for number, entry in enumerate(here.entries()) if "made" in entry]
        state, left_out = read_damaged(self.damaged(here, places[1], lambda line: line[:5] + b"?" + line[6:]))
        self.assertEqual((len(left_out), state.seats[2].upto, state.shared.size), (1, 3, 5))

    async def test_a_line_without_a_checksum_or_with_a_wrong_operation_refuses_the_start(self) -> None:
        """A checksum taken out and a name changed is not believed; nor an operation whose text is not that of its hash."""
        north, _ = await self.history()
        number = next(place for place, entry in enumerate(north.entries()) if "seat" in entry)
        made = next(place for place, entry in enumerate(north.entries()) if "made" in entry)

        def renamed(line: bytes) -> bytes:
            return line[:-SUM - 1].replace(b'"Ada"', b'"Eva"') + b"}\n"

        def altered(line: bytes) -> bytes:
            entry = json.loads(line[:-SUM - 1] + b"}")
            entry["made"]["operation"]["shape"][5] = 1
            return line_of(entry)
        for place, change, why in ((number, renamed, "it has no checksum"), (made, altered, "the hash of its text is"),
                                   (made, lambda _: line_of({"made": {"seat": 64}}), "malformed entry `made`"),
                                   (made, lambda _: line_of({"mode": {"seat": 6}}), "has no entry `mode`"),
                                   (made, lambda _: line_of({"made": {}, "take": {}}), "it is not an entry")):
            folder = self.damaged(north, place, change)
            before = (folder / "journal.jsonl").read_bytes()
            with self.assertRaisesRegex(CorruptJournal, f"line {place + 1}, .*{why}"):
                await self.enterAsyncContext(Here(folder))
            with self.assertRaisesRegex(CannotStart, f"line {place + 1} is left out: .*{why}.*live/road mend"):
                move_to_new_site(folder)
            self.assertEqual((folder / "journal.jsonl").read_bytes(), before)
            _, left_out = read_damaged(folder)
            self.assertEqual(len(left_out), 1)

    async def test_what_a_tab_may_not_send_is_read_from_a_journal_and_from_sites(self) -> None:
        """Values nested 480 deep in a field that this version does not know, and a layer that an exclusion names."""
        deep: Any = 1
        for _ in range(480):
            deep = [deep]
        out = written(6, excludes=["west-00000000", True])
        odd = [written(5, shape=["limit", 1, 1, 9, None, 2], x=deep), out, written(7, layer=out["stamp"], shape=["block", 3, 4, 9, None, 1], who="Eve")]
        async with Here(plan=SMALL) as here:
            site = Bus().site(here)
            await site._receive(site._operations_topic, "f", json.dumps({"form": 4, "operations": odd}).encode())
            await here.join("Ada")
            await here.take(1)
            total = (await site._sum_up()).total
        for _ in range(2):
            async with Here(here.folder) as again:
                self.assertEqual((await Bus().site(again)._sum_up()).total, total)
                self.assertEqual([*again.lab.state.shared.road.layers], [tuple(odd[0]["stamp"])])
                site_line = next(line for line in (await again.ask(1, "layers"))["layers"] if line.get("site") == "west-00000000")
                self.assertEqual([(one["who"], one.get("void", False)) for one in site_line["operations"]], [("", False), ("Eve", True)])
                await again.keeper.compact()

    async def test_from_the_shell(self) -> None:
        """The export of a damaged folder names the lines that it leaves out, too."""
        north, _ = await self.history()
        number = next(place for place, entry in enumerate(north.entries()) if "made" in entry)
        folder, new = self.damaged(north, number, lambda line: line[:9] + b"?" + line[10:]), new_folder() / "new"

        def road(*words: object) -> subprocess.CompletedProcess[str]:
            return subprocess.run([sys.executable, str(LIVE / "road"), *map(str, words)], capture_output=True, text=True, check=False,
                                  env={"PATH": "/usr/bin:/bin", "LIVE": str(folder)})
        wrote = road("Ada", "export", new_folder() / "a.db")
        self.assertEqual((wrote.returncode, wrote.stderr.count("\n")), (0, 1), wrote.stderr)
        self.assertIn(f"line {number + 1} is left out: it is malformed", wrote.stderr)
        self.assertIn("wrote 5 operations to", wrote.stdout)
        made = road("mend", folder, new)
        self.assertEqual((made.returncode, made.stderr), (0, ""))
        self.assertRegex(made.stdout, f"line {number + 1} is left out: .*\n{new} has everything else of {folder}, and its site north-[0-9a-f]{{8}}: "
                         "do not run servers in both")
        again = road("mend", folder, new)
        self.assertEqual((again.returncode, again.stderr), (1, f"{new} exists already: remove it, or give another folder\n"))
        self.assertEqual(road("mend", new_folder(), new_folder() / "x").returncode, 1)


def stamps_in(entry: Any) -> list[tuple[int, str]]:
    """Return the stamps of the operations that an entry brings."""
    (_, fields), = entry.items()
    written = [fields["operation"]] if "operation" in fields else fields.get("operations", [])
    return [(one["stamp"][0], one["stamp"][1]) for one in written]
