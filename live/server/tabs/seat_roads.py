"""Find the roads that a seat can query and compare: its own, the shared one, those of its preview, its variants, and the file's.

    road = roads.find(seat, "variant:night")                  to query
    await roads.compare(seat, ["shared", "variant:night"])    their edits and demands

A road is named as in PROTOCOL.md, but the seat's own road is called "own". `verbs.road_name` checks these names.
"""
from __future__ import annotations

import asyncio
import functools
from typing import Mapping, Sequence

from zegdrut.base.wire import WrittenEdit

from ..base.refusals import Refused
from ..figures.figures import ComparedRoad
from ..journal.state import Variant
from ..lab.fixed_roads import FILE, SIDES, VARIANT, FixedRoad, FixedRoads, KeptRoads, KnownRoad
from ..lab.keeper import SHARED, Keeper
from ..lab.roads import QueryRoad, ReplicaRoad
from ..model.demands import asked_demands
from ..model.operations import Operation
from ..model.road import Road
from ..program.simulated_roads import MOST_INLINE, rows_of

PREVIEW, VARIANTS = "preview", "variants"  # what fixed roads of a seat are


class SeatRoads:
    """The roads of all seats."""

    def __init__(self, keeper: Keeper) -> None:
        self._keeper, self._kept = keeper, KeptRoads()

    def close(self) -> None:
        self._kept.close()

    def drop_seat(self, index: int) -> None:
        """Drop the roads of a seat that do not change."""
        for what in (PREVIEW, VARIANTS):
            self._kept.put((index, what), None)

    def find(self, index: int, at: str) -> QueryRoad:
        """Return a road of a seat."""
        if at in ("own", "shared"):
            return ReplicaRoad(self._keeper, index, SHARED if at == "shared" else index)
        return self.find_fixed(index, at)

    async def edits_of(self, road: Road) -> list[WrittenEdit]:
        """Return all edits of a road, as rows of an import."""
        return rows_of(await self._keeper.differences.between(self._keeper.state.empty, road))

    async def compare(self, index: int, of: Sequence[str]) -> list[ComparedRoad]:
        """Return some roads of a seat. Those that change are of the same moment."""
        state = self._keeper.state
        changing = {at: state.replica(SHARED if at == "shared" else index) for at in of if at in ("own", "shared")}

        async def body() -> dict[str, KnownRoad]:
            return {at: await self._know(replica.road) for at, replica in changing.items()}
        known = {at: await self.find_fixed(index, at).know() for at in of if at not in changing}
        known.update(await self._keeper.ask(index, tuple(replica.index for replica in changing.values()), body))
        return [{"name": call_road(at), "edits": known[at].edits, "demands": known[at].demands, "capacities": list_capacities(known[at].road)}
                for at in of]

    async def _know(self, road: Road) -> KnownRoad:
        """Return a road with all its edits, and the demands that were asked for."""
        return KnownRoad(road, await self.edits_of(road), asked_demands(road, len(self._keeper.state.plan["inlets"])))

    # Roads that do not change

    def put_preview(self, index: int, *sides: Road) -> None:
        """Keep the two roads of a preview, and drop those of the last one. Without roads only drop these."""
        self._kept.put((index, PREVIEW), FixedRoads(
            self._keeper, SIDES, lambda side: self._know(sides[SIDES.index(side)]), no_preview()) if sides else None)

    def find_fixed(self, index: int, at: str) -> FixedRoad:
        """Return a road of the preview of a seat, one of its variants, or the road of the folder's file."""
        if at not in SIDES:
            return FixedRoad(self._find_variants(index), at)
        preview = self._kept.get((index, PREVIEW))
        if preview is None:
            raise no_preview()
        return FixedRoad(preview, at)

    def _find_variants(self, index: int) -> FixedRoads:
        """Return the roads of a seat's variants, and the road of the folder's file."""
        variants = self._keeper.state.seats[index].variants
        kept = self._kept.get((index, VARIANTS))
        if kept is None or kept.source is not variants:
            kept = FixedRoads(self._keeper, [FILE, *(VARIANT + name for name in variants)], functools.partial(self._find_variant, variants),
                              Refused("Busy", "this road was dropped: ask for it again"), variants)
            self._kept.put((index, VARIANTS), kept)
        return kept

    async def _find_variant(self, variants: Mapping[str, Variant], at: str) -> KnownRoad:
        state = self._keeper.state
        return await self._know(await self._make_road(state.operations_of(
            (state.works, ()) if at == FILE else variants[at.removeprefix(VARIANT)])))

    async def _make_road(self, operations: Sequence[Operation]) -> Road:
        """Return the road of some operations. If they are many, make it in a thread."""
        make = functools.partial(self._keeper.state.empty.adding, operations)
        return make() if len(operations) <= MOST_INLINE else await asyncio.get_running_loop().run_in_executor(None, make)


def no_preview() -> Refused:
    return Refused("NoPreview", "the two roads of the preview are no longer kept: request a new preview")


def list_capacities(road: Road) -> list[int]:
    """Return the capacities of works on a road, in cars per hour."""
    return [layer.value[0] for layer in road.layers.values() if not isinstance(layer.value, int)]


def call_road(at: str) -> str:
    """Return what a road is called in figures."""
    return f"“{at.removeprefix(VARIANT)}”" if at.startswith(VARIANT) else "mine" if at == "own" else at
