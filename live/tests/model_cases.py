"""Test surprising cases of the model. Each test is named after the rule that decides its case."""
from __future__ import annotations

import base64
import hashlib
import itertools
import json
import random
import unittest

from oracle import all_edits
from painted import EMPTY, ORACLE, STEPS, made_by
from working import takes_at_most
from server.model import choices, lines, visibility
from server.model.operations import About, Operation, Shape, describe_act, exclude, lift, named, put, undo
from server.base.json_values import Json
from server.model.projection import difference, first_change
from server.model.reading import GREATEST_COUNT, Malformed, read_operation
from server.model.road import Road, change, repeat

ADA, BEN, CLEO = (About(name, site=f"{name.lower()}-0000000{number}") for number, name in enumerate(("Ada", "Ben", "Cleo"), 1))
SHAPE, LONGER, WIDE = Shape("block", 2, 4, 5, 15, 1), Shape("block", 2, 4, 5, 25, 1), Shape("block", 1, 6, 5, 15, 1)
CLOSURE = put(1, SHAPE, ADA)
LINE = CLOSURE.stamp
BASE = EMPTY.adding([CLOSURE])


def in_every_order(operations: list[Operation]) -> Road:
    """Return the road of these operations, after checking that every order gives the same."""
    roads = [EMPTY]
    for order in itertools.islice(itertools.permutations(operations), 24):
        road = EMPTY
        for one in order:
            road = road.adding([one])
        roads.append(road)
    assert all(road.layers == roads[1].layers and road.operations.excluded == roads[1].operations.excluded for road in roads[1:])
    return roads[1]


def renamed(value: dict[str, Json], **more: Json) -> dict[str, Json]:
    """Return an operation with other fields, under the name that live/PROTOCOL.md gives it."""
    fields: dict[str, Json] = {**value, **more}
    assert isinstance(fields["stamp"], list)
    count = fields["stamp"][0]
    known = {"site", "layer", "shape", "top", "undoes", "excludes", "seen", "who", "note", "when"}
    text = json.dumps({"stamp": count, **{name: one for name, one in fields.items() if name != "stamp" and (
        name not in known or one not in (None, "", 0))}}, sort_keys=True, separators=(",", ":"), ensure_ascii=False)
    digest = hashlib.sha256(text.encode()).digest()[:16]
    return {**fields, "stamp": [count, base64.b64encode(digest, b"-_").decode()[:22]]}


class Cases(unittest.TestCase):
    def test_a_withdrawal_that_is_undone_does_not_beat_a_change_made_meanwhile(self) -> None:
        for withdrawn, changed, undone in ((2, 3, 4), (2, 4, 3), (3, 2, 4), (4, 2, 5)):
            withdrawal = change(BASE, withdrawn, LINE, None, about=ADA)
            back = undo(undone, withdrawal, ADA)
            bens = change(BASE, changed, LINE, LONGER, about=BEN)
            road = in_every_order([CLOSURE, withdrawal, back, bens])
            self.assertEqual(road.layers, BASE.adding([bens]).layers)
            self.assertEqual(visibility.find_overruled(road, LINE), {})

    def test_a_private_undone_pair_is_not_shared_and_has_no_effect(self) -> None:
        withdrawal = change(BASE, 2, LINE, None, about=ADA)
        road = BASE.adding([withdrawal, undo(3, withdrawal, ADA)])
        self.assertEqual(choices.shareable(road, BASE, made_by(road, ADA)), [])
        self.assertEqual(road.layers, BASE.layers)

    def test_a_change_without_its_put_is_in_force(self) -> None:
        bens = change(BASE, 2, LINE, LONGER, about=BEN)
        alone = EMPTY.adding([bens])
        self.assertEqual(alone.layers[LINE].end, 25)
        self.assertEqual(alone.layers, alone.adding([CLOSURE]).layers)

    def test_the_undo_of_a_put_leaves_anothers_change_and_names_its_author(self) -> None:
        bens = change(BASE, 2, LINE, LONGER, about=BEN)
        road = BASE.adding([bens])
        self.assertFalse(choices.would_change(road, CLOSURE))
        self.assertEqual(choices.find_overruling(road, CLOSURE), [bens])
        self.assertEqual(road.layers, road.adding([undo(3, CLOSURE, ADA)]).layers)

    def test_a_change_that_is_undone_while_another_builds_on_it_leaves_his_shape(self) -> None:
        adas = change(BASE, 2, LINE, WIDE, about=ADA)
        taken, on_it = undo(3, adas, ADA), change(BASE.adding([adas]), 4, LINE, SHAPE, about=BEN)
        road = in_every_order([CLOSURE, adas, taken, on_it])
        self.assertEqual(road.layers[LINE].end, 15)
        self.assertEqual(visibility.find_overruled(road, LINE), {taken: on_it})

    def test_an_undo_that_the_author_of_a_change_had_seen_has_not_lost_to_it(self) -> None:
        taken = undo(2, CLOSURE, BEN)
        again = change(BASE.adding([taken]), 3, LINE, LONGER, about=ADA)
        road = in_every_order([CLOSURE, taken, again])
        self.assertEqual((road.layers[LINE].end, visibility.find_overruled(road, LINE)), (25, {}))
        at_once = change(BASE, 3, LINE, LONGER, about=ADA)
        self.assertEqual(visibility.find_overruled(in_every_order([CLOSURE, taken, at_once]), LINE), {taken: at_once})

    def test_the_winner_is_the_first_change_that_counts_and_did_not_know_of_the_loser(self) -> None:
        """Ada and Ben change a line at once, and Cleo changes it after Ben. If Ben's is undone, Ada lost to Cleo's."""
        adas, bens = change(BASE, 2, LINE, WIDE, about=ADA), change(BASE, 3, LINE, SHAPE, about=BEN)
        cleos = change(BASE.adding([bens]), 4, LINE, LONGER, about=CLEO)
        last = change(BASE.adding([bens, cleos]), 6, LINE, SHAPE, about=CLEO)
        gone = undo(5, bens, BEN)
        self.assertEqual(visibility.find_overruled(in_every_order([CLOSURE, adas, bens, cleos]), LINE), {adas: bens})
        for more in (list[Operation](), [last]):
            road = in_every_order([CLOSURE, adas, bens, cleos, gone, *more])
            self.assertEqual(visibility.find_overruled(road, LINE), {adas: cleos, gone: cleos})
        taken = undo(3, adas, ADA)
        on_it = change(BASE.adding([adas]), 4, LINE, SHAPE, about=BEN)
        above = change(BASE.adding([adas, on_it]), 5, LINE, LONGER, about=CLEO)
        both = [CLOSURE, adas, taken, on_it, above]
        self.assertEqual(visibility.find_overruled(in_every_order(both), LINE), {taken: on_it})
        late = undo(6, on_it, BEN)
        self.assertEqual(visibility.find_overruled(in_every_order([*both, late]), LINE), {taken: above, late: above})

    def test_behind_a_gap_only_what_is_later_than_the_gap_has_lost(self) -> None:
        """The author of the last change had seen one that is missing here, so he may have seen all older ones."""
        older, missing = change(BASE, 2, LINE, WIDE, about=ADA), change(BASE, 3, LINE, SHAPE, about=BEN)
        later = change(BASE, 4, LINE, SHAPE, about=ADA)
        last = change(BASE.adding([missing]), 5, LINE, LONGER, about=BEN)
        self.assertEqual(visibility.find_overruled(in_every_order([CLOSURE, older, last]), LINE), {})
        self.assertEqual(visibility.find_overruled(in_every_order([CLOSURE, older, later, last]), LINE), {later: last})

    def test_a_new_act_ends_redo(self) -> None:
        taken = undo(2, CLOSURE, ADA)
        road = BASE.adding([taken])
        self.assertEqual(choices.find_undoable(road, made_by(road, ADA)).redo, taken)
        road = road.adding([put(3, Shape("limit", 1, 1, 5, 15, 3), ADA)])
        self.assertIsNone(choices.find_undoable(road, made_by(road, ADA)).redo)

    def test_the_undo_of_a_redo_takes_back_what_the_redo_brought_back(self) -> None:
        """The page sends it if somebody presses Undo before the redo is confirmed."""
        other = put(2, Shape("limit", 1, 1, 5, 15, 3), ADA)
        taken = undo(3, other, ADA)
        redone = undo(4, taken, ADA)
        again = undo(5, redone, ADA)
        road = BASE.adding([other, taken, redone, again])
        self.assertEqual([describe_act(one, road.operations.held) for one in (other, taken, redone, again)], ["put", "undo", "redo", "undo"])
        self.assertEqual([describe_act(one, {}) for one in (taken, redone)], ["undo", "undo"])  # what they undo is not known
        found = choices.find_undoable(road, made_by(road, ADA))
        self.assertEqual((found.undo, found.redo), (CLOSURE, again))
        road = road.adding([undo(6, again, ADA)])
        found = choices.find_undoable(road, made_by(road, ADA))
        self.assertEqual((found.undo, found.redo), (other, None))

    def test_one_of_two_changes_at_once_wins_and_its_undo_shows_the_other(self) -> None:
        adas, bens = change(BASE, 2, LINE, WIDE, about=ADA), change(BASE, 3, LINE, LONGER, about=BEN)
        road = in_every_order([CLOSURE, adas, bens])
        self.assertEqual((visibility.find_overruled(road, LINE), road.layers[LINE].end), ({adas: bens}, 25))
        self.assertEqual(road.adding([undo(4, bens, BEN)]).layers, BASE.adding([adas]).layers)

    def test_a_change_and_put_on_top_at_once_both_take_effect(self) -> None:
        bens, adas = change(BASE, 2, LINE, LONGER, about=BEN), lift(2, LINE, ADA)
        road = in_every_order([CLOSURE, bens, adas])
        self.assertEqual((road.layers[LINE].end, road.layers[LINE].height), (25, adas.stamp))
        self.assertEqual(visibility.find_overruled(road, LINE), {})

    def test_z_goes_back_and_redo_goes_forward(self) -> None:
        road, past = BASE, [{}, BASE.layers]
        for count, shape in ((2, LONGER), (3, None), (4, WIDE)):
            road = road.adding([change(road, count, LINE, shape, about=ADA)])
            past.append(road.layers)
        for count in range(5, 9):
            past.pop()
            undone = choices.find_undoable(road, made_by(road, ADA)).undo
            assert undone is not None
            road = road.adding([undo(count, undone, ADA)])
            self.assertEqual(road.layers, past[-1])
        self.assertIsNone(choices.find_undoable(road, made_by(road, ADA)).undo)
        for count in range(9, 13):
            redone = choices.find_undoable(road, made_by(road, ADA)).redo
            assert redone is not None
            road = road.adding([undo(count, redone, ADA)])
        self.assertIsNone(choices.find_undoable(road, made_by(road, ADA)).redo)
        self.assertEqual((road.layers[LINE].first, road.layers[LINE].last), (1, 6))

    def test_z_names_who_has_changed_the_last_own_change(self) -> None:
        """Z does not silently undo the change before it."""
        other = put(1, WIDE, BEN)
        first, bens = change(BASE, 2, LINE, LONGER, about=ADA), None
        road = BASE.adding([first, other])
        bens = change(road, 3, LINE, SHAPE, about=BEN)
        found = choices.find_undoable(road.adding([bens]), made_by(road.adding([bens]), ADA))
        self.assertEqual((found.undo, found.blocked), (None, [first, CLOSURE]))
        self.assertEqual(choices.find_overruling(road.adding([bens]), first), [bens])

    def test_z_does_not_undo_an_older_change_by_somebody_else(self) -> None:
        """Z restores the shape of the other's change, which is not undone itself."""
        bens = change(BASE, 2, LINE, WIDE, about=BEN)
        last = change(BASE, 3, LINE, LONGER, about=ADA)
        road = BASE.adding([last, bens])
        self.assertEqual(choices.find_undoable(road, made_by(road, ADA)).undo, last)
        road = road.adding([undo(4, last, ADA)])
        self.assertEqual(road.layers, BASE.adding([bens]).layers)
        found = choices.find_undoable(road, made_by(road, ADA))
        self.assertEqual((found.undo, found.blocked), (None, [CLOSURE]))

    def test_two_who_undo_one_operation_must_both_redo(self) -> None:
        adas, bens = undo(2, CLOSURE, ADA), undo(2, CLOSURE, BEN)
        road = BASE.adding([adas, bens])
        self.assertIsNone(choices.find_undoable(road, made_by(road, ADA)).redo)
        road = road.adding([undo(3, bens, BEN)])
        self.assertEqual((road.layers, choices.find_undoable(road, made_by(road, ADA)).redo), ({}, adas))

    def test_of_two_withdrawals_at_once_undoing_one_restores_nothing(self) -> None:
        """The closure stays withdrawn, since the other withdrawal is still active; Z says so."""
        adas, bens = change(BASE, 2, LINE, None, about=ADA), change(BASE, 3, LINE, None, about=BEN)
        road = in_every_order([CLOSURE, adas, bens])
        self.assertEqual(visibility.find_overruled(road, LINE), {adas: bens})
        self.assertEqual(choices.find_undoable(road, made_by(road, ADA)).blocked, [adas, CLOSURE])
        self.assertEqual(road.adding([undo(4, adas, ADA)]).layers, {})

    def test_a_late_undo_of_an_old_operation_changes_the_old_road(self) -> None:
        lid = put(2, Shape("block", 3, 3, 0, None, 0), BEN)
        road = BASE.adding([lid])
        self.assertEqual(road.adding([undo(3, CLOSURE, ADA)]).layers, EMPTY.adding([lid]).layers)

    def test_a_change_of_a_withdrawn_line_puts_it_on_top(self) -> None:
        lid = put(2, WIDE, BEN)
        road = BASE.adding([lid, change(BASE, 3, LINE, None, about=ADA)])
        road = road.adding([change(road, 4, LINE, LONGER, about=ADA)])
        self.assertGreater(road.layers[LINE].height, road.layers[lid.stamp].height)

    def test_of_equal_counts_the_greater_hash_is_the_later_one(self) -> None:
        ones = sorted((put(2, shape, ADA) for shape in (SHAPE, LONGER, WIDE)), key=lambda one: one.stamp[1])
        road = in_every_order(ones)
        self.assertEqual([layer.name for layer in road.on_object("block", 3)], [one.stamp for one in reversed(ones)])
        changed = sorted((change(BASE, 2, LINE, shape, about=ADA) for shape in (LONGER, WIDE)), key=lambda one: one.stamp[1])
        self.assertEqual(in_every_order([CLOSURE, *changed]).setter(LINE), changed[1])

    def test_a_layer_named_by_an_operation_that_puts_none_lies_in_one_order_with_the_others(self) -> None:
        """It has the same height as the layer that this operation put on top. The greater name lies on top."""
        lifted = lift(2, LINE, ADA)
        hostile = named(Operation((3, ""), lifted.stamp, LONGER, about=BEN))
        road = in_every_order([CLOSURE, lifted, hostile])
        self.assertEqual({layer.height for layer in road.layers.values()}, {lifted.stamp})
        edits = []
        for order in itertools.permutations([CLOSURE, lifted, hostile]):
            other = EMPTY
            for one in order:
                other = other.adding([one])
            self.assertEqual([layer.name for layer in other.on_object("block", 3)], [lifted.stamp, LINE])
            self.assertEqual([one.by for one in visibility.visible_rectangles(other, LINE)], [lifted.stamp])
            edits.append(all_edits(other))
        self.assertTrue(all(one == edits[0] for one in edits))

    def test_a_layer_named_by_an_undo_or_an_exclusion_is_none(self) -> None:
        """In whatever order they arrive. The list shows what sets it as void, and undoing that changes nothing."""
        lifted = lift(2, LINE, ADA)
        for base, void in ((exclude(3, "west-00000003", True, ADA), set[Operation]()), (undo(3, lifted, ADA), {lifted})):
            for hostile in (named(Operation((4, ""), base.stamp, LONGER, about=BEN)), named(Operation((4, ""), base.stamp, top=True, about=BEN))):
                held = [CLOSURE, lifted, base, hostile]
                road = in_every_order(held)
                self.assertNotIn(base.stamp, road.layers)
                self.assertEqual({one for one in road.operations if not road.operations.counts(one)}, {hostile, *void})
                self.assertEqual(len([*road.operations]), 4)
                self.assertIn(hostile, lines.operations_on(road, base.stamp))
                self.assertEqual(road.operations.flipped_by_undo(hostile), set())
                again = undo(5, hostile, BEN)
                self.assertEqual(in_every_order([*held, again]).layers, road.layers)
                self.assertEqual(in_every_order([*held, again, undo(6, again, BEN)]).layers, road.layers)

    def test_an_undo_that_names_a_layer_is_not_forgotten_before_what_sets_that(self) -> None:
        """Otherwise the layer would come into force."""
        gone = undo(2, CLOSURE, ADA)
        hostile = named(Operation((3, ""), gone.stamp, LONGER, about=BEN))
        road = EMPTY.adding([CLOSURE, gone])
        self.assertEqual(choices.find_forgettable(road, EMPTY, [CLOSURE, gone], 0), {CLOSURE, gone})
        held = road.adding([hostile])
        self.assertEqual(choices.find_forgettable(held, EMPTY.adding([hostile]), [CLOSURE, gone], 0), set())
        self.assertEqual(choices.find_forgettable(held, EMPTY, [CLOSURE, gone, hostile], 0), {CLOSURE, gone, hostile})

    def test_a_lost_own_change_stays_private_and_counts_again_when_the_winner_is_undone(self) -> None:
        adas, bens = change(BASE, 2, LINE, WIDE, about=ADA), change(BASE, 3, LINE, LONGER, about=BEN)
        shared = BASE.adding([bens])
        road = shared.adding([adas])
        self.assertEqual(choices.shareable(road, shared, made_by(road, ADA)), [])
        taken_back = undo(4, bens, BEN)
        self.assertEqual(choices.shareable(road.adding([taken_back]), shared.adding([taken_back]), made_by(road, ADA)), [adas])

    def test_what_has_an_effect_only_beside_an_exclusion_is_shared_with_it(self) -> None:
        """Ben withdrew Cleo's closure. Ada excludes his site, so that the closure is there again, and undoes the closure."""
        closure = put(1, SHAPE, CLEO)
        shared = EMPTY.adding([closure])
        shared = shared.adding([change(shared, 2, closure.stamp, None, about=BEN)])
        some = [exclude(3, BEN.site, True, ADA), undo(4, closure, ADA)]
        road = shared.adding(some)
        self.assertEqual(choices.shareable(road, shared, made_by(road, ADA)), some)
        self.assertEqual((road.layers, shared.adding(some[:1]).layers.keys()), ({}, {closure.stamp}))

    def test_an_undo_of_what_an_exclusion_removes_is_shared_with_it(self) -> None:
        """Ada excludes Ben's site and undoes his closure. Either of them removes it. It stays away when the site is included again."""
        closure = put(1, SHAPE, BEN)
        shared = EMPTY.adding([closure])
        some = [exclude(2, BEN.site, True, ADA), undo(3, closure, ADA)]
        road = shared.adding(some)
        self.assertEqual(choices.shareable(road, shared, made_by(road, ADA)), some)
        back = exclude(4, BEN.site, False, CLEO)
        self.assertEqual((shared.adding([*some, back]).layers, shared.adding([some[0], back]).layers.keys()), ({}, {closure.stamp}))

    def test_an_undo_of_what_others_never_had_is_not_shared_and_neither_is_its_redo(self) -> None:
        change_of_it = change(BASE, 2, LINE, None, about=ADA)
        back = undo(3, change_of_it, ADA)
        again = undo(4, back, ADA)
        road = BASE.adding([change_of_it, back, again])
        self.assertEqual(choices.sendable(road, BASE, made_by(road, ADA)), [change_of_it])
        self.assertEqual(BASE.adding([change_of_it]).layers, road.layers)

    def test_a_very_long_chain_of_undos_is_worked_out(self) -> None:
        chain = [CLOSURE]
        for count in range(2, 5_002):
            chain.append(undo(count, chain[-1], ADA))
        self.assertEqual(EMPTY.adding(chain).layers, BASE.layers)
        self.assertEqual(EMPTY.adding(chain[:-1]).layers, {})
        road = EMPTY
        for size, one in enumerate(chain[:200], 1):
            road = road.adding([one])
            self.assertEqual(bool(road.layers), size % 2 == 1)

    def test_a_line_that_was_changed_very_often_is_shown_just_as_fast(self) -> None:
        many = [CLOSURE]
        for count in range(2, 20_002):
            many.append(named(Operation((count, ""), LINE, LONGER, seen=many[-1].stamp, about=ADA)))
        with takes_at_most(5):
            self.assertEqual(visibility.find_overruled(BASE.adding(many), LINE), {})

    def test_the_first_change_is_that_of_a_value_in_force(self) -> None:
        """A slow-to-start chance may be the slowing chance of its zone, which changes later."""
        chance, found = random.Random(4), [0, 0]
        for _ in range(400):
            roads = [EMPTY, EMPTY]
            for count in range(1, chance.randrange(3, 9)):
                kind, begin = chance.choice(["start", "start", "slow", "limit"]), chance.randrange(STEPS)
                zone = chance.randrange(2)
                one = put(count, Shape(kind, zone, zone, begin, chance.choice([None, begin + 1 + chance.randrange(9)]), chance.randrange(2)), ADA)
                for place in (0, 1) if chance.random() < 0.6 else (1,):
                    roads[place] = roads[place].adding([one])
            values = [ORACLE.painted(road.operations) for road in roads]
            steps = [step for thing, line in values[0].items() for step, (old, new) in enumerate(zip(line, values[1][thing])) if old != new]
            edits = difference(roads[0], roads[1])
            self.assertEqual(first_change(roads[0], roads[1], edits), min(steps, default=None))
            found[0] += bool(edits) and not steps
            found[1] += bool(steps) and min(steps) > min(step for _, _, step in edits)
        self.assertTrue(min(found) > 3, found)

    def test_the_difference_of_two_roads_is_that_of_all_their_operations(self) -> None:
        road = BASE.adding([put(2, WIDE, ADA)])
        self.assertEqual(difference(BASE, road), difference(BASE, EMPTY.adding(road.operations)))
        self.assertEqual(difference(road, road), {})


class Exclusions(unittest.TestCase):
    def test_an_excluded_site_stays_out_unless_its_excluder_undoes_that(self) -> None:
        out, bens = exclude(2, BEN.site, True, ADA), put(1, SHAPE, BEN)
        road = in_every_order([bens, out, undo(3, out, BEN)])
        self.assertEqual((road.operations.excluded, road.layers), ({BEN.site}, {}))
        self.assertEqual(road.adding([undo(5, out, ADA)]).layers.keys(), {bens.stamp})

    def test_another_site_includes_an_excluded_one_without_undoing_the_exclusion(self) -> None:
        out, bens = exclude(2, BEN.site, True, ADA), put(1, SHAPE, BEN)
        road = EMPTY.adding([bens, out])
        self.assertEqual(road.adding([undo(3, out, CLEO)]).operations.excluded, {BEN.site})
        self.assertEqual(road.adding([exclude(3, BEN.site, False, CLEO)]).layers.keys(), {bens.stamp})

    def test_an_exclusion_may_arrive_after_its_undo(self) -> None:
        late = exclude(2, ADA.site, True, BEN)
        some = [undo(3, late, BEN), exclude(4, BEN.site, True, CLEO)]
        self.assertEqual(EMPTY.adding(some).adding([late]).operations.excluded, EMPTY.adding([late, *some]).operations.excluded)
        self.assertEqual(EMPTY.adding([late, *some]).operations.excluded, {BEN.site})

    def test_if_two_sites_exclude_each_other_the_newer_exclusion_counts(self) -> None:
        """So a site that somebody has excluded, with the greatest counts of all, can still be excluded by each other one."""
        bens = exclude(2, ADA.site, True, BEN)
        road = in_every_order([bens, CLOSURE, exclude(3, BEN.site, True, ADA)])
        self.assertEqual((road.operations.excluded, road.layers), ({BEN.site}, BASE.layers))
        self.assertEqual(road.adding([exclude(4, ADA.site, True, BEN)]).operations.excluded, {ADA.site})

    def test_an_older_exclusion_of_a_site_that_is_excluded_since_does_not_count(self) -> None:
        """Ben excludes two sites with small counts and is excluded: both are in again. Once he is included, they are out."""
        some = [exclude(1, ADA.site, True, BEN), exclude(2, CLEO.site, True, BEN), exclude(3, BEN.site, True, ADA)]
        road = in_every_order(some)
        self.assertEqual(road.operations.excluded, {BEN.site})
        back = undo(4, some[-1], ADA)
        self.assertEqual(road.adding([back]).operations.excluded, {ADA.site, CLEO.site})

    def test_an_exclusion_counts_again_once_its_site_is_included_again(self) -> None:
        out, back = exclude(2, BEN.site, True, ADA), exclude(3, BEN.site, False, CLEO)
        bens = exclude(1, ADA.site, True, BEN)
        self.assertEqual(in_every_order([bens, out, back]).operations.excluded, {ADA.site})
        elsewhere = exclude(1, "elsewhere-00000000", True, BEN)
        self.assertEqual(in_every_order([elsewhere, out, back]).operations.excluded, {"elsewhere-00000000"})
        self.assertEqual(in_every_order([elsewhere, out]).operations.excluded, {BEN.site})

    def test_of_a_site_the_newest_exclusion_holds(self) -> None:
        out, back = exclude(2, BEN.site, True, ADA), exclude(3, BEN.site, False, CLEO)
        self.assertEqual(in_every_order([out, back]).operations.excluded, frozenset())
        self.assertEqual(in_every_order([out, back, exclude(4, CLEO.site, True, ADA)]).operations.excluded, {CLEO.site, BEN.site})

    def test_very_many_exclusions_are_worked_out_quickly(self) -> None:
        road = EMPTY
        flips = [exclude(count, BEN.site, count % 2 == 0, ADA) for count in range(2, 2_002)]
        with takes_at_most(5):
            for one in flips:
                road = road.adding([one])
            self.assertEqual(EMPTY.adding(flips).operations.excluded, road.operations.excluded)


class Capacities(unittest.TestCase):
    """A capacity is one layer that gives its zones a limit, a slowing chance and a slow-to-start chance."""

    WORKS = put(2, Shape("capacity", 1, 2, 5, 15, (900, 2, 20_000, 30_000)), ADA)

    def values(self, road: Road, index: int) -> list[tuple[str, int, int | None]]:
        return [(kind, step, value) for (kind, at, step), value in sorted(all_edits(road).items()) if at == index]

    def test_it_sets_three_kinds_at_once(self) -> None:
        road = EMPTY.adding([self.WORKS])
        self.assertEqual(self.values(road, 2), [("limit", 5, 2), ("limit", 15, 5), ("slow", 5, 20_000), ("slow", 15, 1),
                                                ("start", 5, 30_000), ("start", 15, 1)])
        self.assertEqual(visibility.covered_rectangles(road, self.WORKS.stamp), [])

    def test_what_lies_on_top_holds_kind_by_kind(self) -> None:
        lower, upper = put(1, Shape("limit", 1, 1, 0, None, 4), BEN), put(3, Shape("slow", 2, 2, 7, 9, 5), BEN)
        road = in_every_order([lower, self.WORKS, upper])
        self.assertEqual(self.values(road, 1)[:3], [("limit", 0, 4), ("limit", 5, 2), ("limit", 15, 4)])
        self.assertEqual([one for one in self.values(road, 2) if one[0] == "slow"],
                         [("slow", 5, 20_000), ("slow", 7, 5), ("slow", 9, 20_000), ("slow", 15, 1)])
        self.assertEqual([one[1:5] for one in visibility.covered_rectangles(road, self.WORKS.stamp)], [(2, 2, 7, 9)])
        self.assertEqual([one.by for one in visibility.visible_rectangles(road, lower.stamp)], [None, self.WORKS.stamp, None])
        on_top = road.adding([lift(4, self.WORKS.stamp, ADA)])
        self.assertEqual(visibility.covered_rectangles(on_top, self.WORKS.stamp), [])
        self.assertEqual([one for one in self.values(on_top, 2) if one[0] == "slow"], [("slow", 5, 20_000), ("slow", 15, 1)])

    def test_it_no_longer_holds_where_its_slow_to_start_chance_alone_is_covered(self) -> None:
        road, start = EMPTY.adding([self.WORKS]), put(3, Shape("start", 2, 2, 7, 9, 5), BEN)
        then = road.adding([start])
        self.assertEqual([one[1:5] for one in visibility.covered_rectangles(then, self.WORKS.stamp)], [(2, 2, 7, 9)])
        self.assertIn(self.WORKS.stamp, lines.find_altered_lines(road, then))
        self.assertEqual([one for one in self.values(then, 2) if one[0] == "start"],
                         [("start", 5, 30_000), ("start", 7, 5), ("start", 9, 30_000), ("start", 15, 1)])
        self.assertEqual(visibility.covered_rectangles(then.adding([undo(4, start, BEN)]), self.WORKS.stamp), [])

    def test_a_line_may_become_a_capacity_and_a_limit_again(self) -> None:
        limit = put(1, Shape("limit", 1, 2, 5, 15, 4), BEN)
        road = EMPTY.adding([limit])
        became = road.adding([change(road, 2, limit.stamp, Shape("capacity", 1, 2, 5, 15, (900, 2, 20_000, 30_000)), about=BEN)])
        self.assertEqual(difference(EMPTY, became), difference(EMPTY, EMPTY.adding([self.WORKS])))
        again = became.adding([change(became, 3, limit.stamp, Shape("limit", 1, 2, 5, 15, 4), about=BEN)])
        self.assertEqual({**difference(EMPTY, became), **difference(became, again)}, {
            **dict.fromkeys(difference(EMPTY, became)), **difference(EMPTY, road)})

    def test_its_value_has_four_whole_numbers(self) -> None:
        written = json.loads(json.dumps(self.WORKS.written()))
        strange: list[Json] = [900, [900, 2, 3], [900, 2, 3, 4, 5], [900, 2, 3, 0.5], [900, 2, 3, -1], [900, 2, 3, None], "x", None]
        for value in strange:
            with self.assertRaises(Malformed, msg=value):
                read_operation({**written, "shape": [*written["shape"][:5], value]})
            with self.assertRaises(Malformed, msg=value):
                read_operation({**written, "shape": ["limit", *written["shape"][1:]]})


class Lists(unittest.TestCase):
    def test_a_line_is_listed_again_when_a_change_of_its_cover_uncovers_it(self) -> None:
        """A puts P on top and shares; B, who has not taken that, withdraws P and shares: Q is no longer covered."""
        below, above = put(1, SHAPE, ADA), put(2, WIDE, ADA)
        base = EMPTY.adding([below, above])
        lifted, withdrawn = lift(3, above.stamp, ADA), change(base, 3, above.stamp, None, about=BEN)
        road = base.adding([lifted])
        self.assertEqual([one.by for one in visibility.visible_rectangles(road, below.stamp)], [above.stamp])
        then = road.adding([withdrawn])
        self.assertIn(below.stamp, lines.find_altered_lines(road, then))
        self.assertEqual([one.by for one in visibility.visible_rectangles(then, below.stamp)], [None])

    def test_an_undo_belongs_to_the_line_of_what_it_undoes_once_that_is_there(self) -> None:
        changed = change(BASE, 2, LINE, LONGER, about=BEN)
        back = undo(3, changed, ADA)
        alone = EMPTY.adding([back])
        self.assertEqual((lines.all_lines(alone), lines.operations_on(alone, back.stamp)), ({back.stamp}, [back]))
        then = alone.adding([changed])
        self.assertEqual((lines.all_lines(then), lines.operations_on(then, back.stamp)), ({LINE}, []))
        self.assertEqual(lines.find_altered_lines(alone, then), {LINE, back.stamp})

    def test_a_redo_that_lost_is_told_instead_of_what_it_brought_back(self) -> None:
        """Ben had taken Ada's undo and her redo when he built on the closure; that the redo was undone at that time he had not seen."""
        taken = undo(2, CLOSURE, ADA)
        redone = undo(3, taken, ADA)
        bens, again = change(BASE.adding([taken, redone]), 5, LINE, LONGER, about=BEN), undo(4, redone, ADA)
        road = in_every_order([CLOSURE, taken, redone, bens, again])
        self.assertEqual((road.layers[LINE].end, visibility.find_overruled(road, LINE)), (25, {again: bens}))

    def test_an_older_exclusion_of_a_site_renames_its_line(self) -> None:
        """The line of the site is named after the older exclusion, and no longer after the newer one."""
        newer, older = exclude(8, BEN.site, False, ADA), exclude(4, BEN.site, False, CLEO)
        before = EMPTY.adding([newer])
        after = before.adding([older])
        self.assertEqual((lines.all_lines(before), lines.all_lines(after)), ({newer.stamp}, {older.stamp}))
        self.assertEqual(lines.find_altered_lines(before, after), {newer.stamp, older.stamp})
        self.assertEqual(lines.operations_on(after, newer.stamp), [])
        self.assertEqual(lines.operations_on(after, older.stamp), [older, newer])


class Reading(unittest.TestCase):
    """Written operations are read, and everything else is refused with a sentence."""

    def some(self) -> list[Operation]:
        return [CLOSURE, change(BASE, 2, LINE, None, about=ADA), lift(3, LINE, ADA), undo(4, CLOSURE, BEN),
                exclude(5, ADA.site, True, CLEO), change(BASE, 6, LINE, LONGER, True, About("Ada", "note", 1_760_000_000, ADA.site)),
                Capacities.WORKS]

    def test_written_operations_are_read_back(self) -> None:
        for one in self.some():
            again = read_operation(json.loads(json.dumps(one.written())))
            self.assertEqual((again.written(), again.text(), again.stamp), (one.written(), one.text(), one.stamp))

    def test_the_name_is_the_hash_of_the_text(self) -> None:
        """These texts and hashes were written by hand and by `openssl dgst -sha256 -binary`, after the rules of live/PROTOCOL.md."""
        about = About("Ada", "closed \"A7\" \u00e9\t\U0001f6a7", 1_760_000_000, "north-1f2e3d4c", {"zeta": [1, {"b": None, "a": False}]})
        one = put(5, Shape("block", 60, 69, 30, None, 1), about)
        self.assertEqual(one.text(), '{"note":"closed \\"A7\\" \u00e9\\t\U0001f6a7","shape":["block",60,69,30,null,1],"site":"north-1f2e3d4c",'
                         '"stamp":5,"when":1760000000,"who":"Ada","zeta":[1,{"a":false,"b":null}]}')
        self.assertEqual(one.stamp, (5, "JHptrDWX4pn0Js8CCZe2fA"))
        gone = change(EMPTY.adding([one]), 6, one.stamp, None, about=About(site="north-1f2e3d4c"))
        self.assertEqual(gone.text(), '{"layer":[5,"JHptrDWX4pn0Js8CCZe2fA"],"seen":[5,"JHptrDWX4pn0Js8CCZe2fA"],"site":"north-1f2e3d4c","stamp":6}')
        self.assertEqual(gone.stamp, (6, "VL8ATBwVrPQvUZ_khAK08A"))

    def test_a_forged_name_is_refused(self) -> None:
        """An operation with another field, count or site has another name."""
        for one in self.some():
            value: dict[str, Json] = json.loads(json.dumps(one.written()))
            other: list[dict[str, Json]] = [{"who": "Eve"}, {"note": "x"}, {"when": 7}, {"site": "other-00000000"}, {"colour": "red"},
                                            {"stamp": [one.stamp[0] + 1, one.stamp[1]]}]
            for more in other:
                with self.assertRaisesRegex(Malformed, "the hash of its text", msg=more):
                    read_operation({**value, **more})

    def test_empty_fields_may_be_written_and_change_no_name(self) -> None:
        value: dict[str, Json] = {**CLOSURE.written(), "note": "", "when": 0, "top": False, "layer": None, "undoes": None, "seen": None, "excludes": None}
        self.assertEqual(read_operation(value).written(), CLOSURE.written())

    def test_fields_of_later_versions_are_kept_up_to_a_kilobyte(self) -> None:
        value = CLOSURE.written()
        one = read_operation(renamed(value, colour="red"))
        self.assertEqual(one.written()["colour"], "red")
        self.assertNotEqual(one.stamp, CLOSURE.stamp)
        with self.assertRaisesRegex(Malformed, "at most 1000 bytes"):
            read_operation(renamed(value, colour="r" * 1_000))
        deep, nested = list[Json](), list[Json]()
        for _ in range(50_000):
            nested = [nested]
        for _ in range(480):
            deep = [deep]
        with self.assertRaisesRegex(Malformed, "at most 1000 bytes"):
            read_operation({**value, "colour": nested})
        self.assertEqual(read_operation(renamed(value, colour=deep)).written()["colour"], deep)

    def test_all_numbers_are_whole_and_small_enough_for_all_readers(self) -> None:
        value = CLOSURE.written()
        fine: list[Json] = [GREATEST_COUNT, -GREATEST_COUNT, [1, {"a": 2}], None, True]
        for number in fine:
            self.assertEqual(read_operation(renamed(value, demand=number)).about.more, {"demand": number})
        wrong: list[Json] = [0.5, 1.0, GREATEST_COUNT + 1, [1, [2.5]], {"a": {"b": 1e3}}, -(1 << 53)]
        for number in wrong:
            with self.assertRaisesRegex(Malformed, "whole number", msg=number):
                read_operation(renamed(value, demand=number))
        with self.assertRaisesRegex(Malformed, "whole seconds"):
            read_operation(renamed(value, when=0.5))

    def test_a_lone_surrogate_is_refused(self) -> None:
        with self.assertRaisesRegex(Malformed, "surrogate"):
            read_operation({**CLOSURE.written(), "colour": "\ud800"})

    def test_a_changed_operation_is_read_or_refused_whatever_was_changed(self) -> None:
        strange: list[Json] = [None, True, -1, 1 << 60, "x", "x" * 300, [], [1], {}, 0.5, [[1, 2], 3], [[1, "x" * 22], "x"], [1, "x" * 22]]
        for one in self.some():
            value = json.loads(json.dumps(one.written()))
            for name in [*value, "layer", "shape", "top", "undoes", "seen", "excludes", "who", "note", "when", "site"]:
                for other in strange:
                    try:
                        found = read_operation(renamed(value, **{name: other}) if name != "stamp" else {**value, name: other})
                    except Malformed as fault:
                        self.assertTrue(str(fault))
                    else:
                        all_edits(EMPTY.adding([found]) if name == "who" else EMPTY)

    def test_an_operation_refers_only_to_smaller_counts(self) -> None:
        name = "x" * 22
        cases: list[dict[str, Json]] = [{"undoes": [2, name]}, {"layer": [1, name], "seen": [3, name]}, {"layer": [2, name], "top": True}]
        for more in cases:
            with self.assertRaisesRegex(Malformed, "smaller count"):
                read_operation({"stamp": [2, name], "site": ADA.site, **more})

    def test_an_exclusion_and_an_undo_do_nothing_else(self) -> None:
        out, back = exclude(9, BEN.site, True, ADA).written(), undo(9, CLOSURE, ADA).written()
        more: list[dict[str, Json]] = [{"shape": CLOSURE.written()["shape"]}, {"layer": [*LINE], "top": True}, {"layer": [*LINE]}, {"undoes": [*LINE]},
                                       {"seen": [*LINE]}, {"top": True}]
        for fields in more:
            with self.assertRaisesRegex(Malformed, "must do nothing else", msg=fields):
                read_operation({**out, **fields})
        more[3] = {"excludes": [BEN.site, True]}
        for fields in more:
            with self.assertRaisesRegex(Malformed, "must do nothing else", msg=fields):
                read_operation({**back, **fields})
        self.assertEqual(read_operation(renamed(out, note="why")).excludes, (BEN.site, True))
        with self.assertRaisesRegex(Malformed, "cannot exclude or include itself"):
            read_operation(exclude(9, ADA.site, False, ADA).written())

    def test_an_operation_without_effect_is_refused(self) -> None:
        with self.assertRaisesRegex(Malformed, "nothing"):
            read_operation({"stamp": [2, "x" * 22], "site": ADA.site, "note": "?"})
