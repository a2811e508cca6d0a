"""What runs and recordings can show, by rows that are written by hand."""

import unittest

from egasim_tools.evidence.conclusive_runs import Shown, recording_shown, where
from test_judgement import REPLAY
from test_verdicts import row_of

WHOLE = row_of("a", "none", stretch="2", last_on="99")


def lapse_of(onset, after, every=0, resets=()):
    row = WHOLE | {"class": "lapse", "onset": str(onset), "acted": "1"}
    return Shown(row, {}, 100, resets, run={"faults": [{"class": "lapse", "onset": onset, "after": after, "every": every}]})


class Showing(unittest.TestCase):
    def test_what_shows_nothing_of_a_drive(self):
        for row, ticks, run, why in (
                ({}, 100, {}, None), ({}, 2, {}, None), ({}, 1, {}, "it has a single tick"), ({"last_on": ""}, 100, {}, "its stages are on at no tick"),
                ({"trap": "fetch", "trap_at": "4"}, 100, {}, "its level 1 traps at 4"), ({}, 100, {"slices": [[0] * 9]}, "its level 1 executes nothing"),
                ({}, 100, {"slices": [[0] * 9, [0] * 8 + [1]]}, None), ({}, 2, {"slices": [[0] * 9] * 2 + [[1] * 9]}, "its level 1 executes nothing")):
            self.assertEqual(Shown(WHOLE | row, {}, ticks, run=run).idle(), why)
        self.assertIsNone(Shown(WHOLE | {"trap": "fetch", "trap_at": "4"}, {}, 100).idle(stops=False))
        self.assertEqual(recording_shown(REPLAY.replace("ticks 2000", "ticks 1")).idle(), "it has a single tick")
        self.assertIsNone(recording_shown(REPLAY).idle())

    def test_a_fault_that_no_tick_follows(self):
        """A fault, or each missed tick of a lapse, at the last tick of a power cycle."""
        said = "no tick of the power cycle follows its fault"
        for kind, onset, resets, why in (("halt", 99, (), said), ("halt", 98, (), None), ("halt", 49, (50,), None), ("flip", 49, (50,), said),
                                         ("flip", 48, (50,), None), ("halt", 98, (99,), said)):
            self.assertEqual(Shown(WHOLE | {"class": kind, "onset": str(onset), "acted": "1"}, {}, 100, resets).unseen(), why)
        for shown, why in ((lapse_of(99, [0]), said), (lapse_of(98, [0]), None), (lapse_of(90, [9]), said), (lapse_of(90, [8, 9]), None),
                           (lapse_of(9, [0], 90), None), (lapse_of(39, [0], 60, (40,)), said), (lapse_of(39, [0], 60, (41,)), None)):
            self.assertEqual(shown.unseen(), why)
        self.assertEqual(Shown(WHOLE | {"class": "halt", "onset": "100", "acted": "0"}, {}, 100).unseen(), "its fault never acts")
        self.assertIsNone(Shown(WHOLE, {}, 100).unseen())

    def test_a_drive_that_ends_too_soon(self):
        for row, resets, excess, why in (
                ({}, (), {98}, None), ({}, (), {99}, "it ends too soon: at 99, its last tick, there is an excess"),
                ({}, (0, 40), {39}, "it ends too soon: at 39, right before a reset, there is an excess"), ({"settled": "0"}, (), (), "it ends too soon"),
                ({"last_on": "98"}, (), {99}, None), ({"stretch": "0"}, (), {99}, None)):
            self.assertEqual(Shown(WHOLE | row, {}, 100, resets, lambda excess=excess: excess).too_soon(), why)

    def test_a_drive_that_ends_in_a_start_up_test(self):
        row, said = WHOLE | {"class": "bus", "onset": "0", "acted": "1"}, "it ends too soon: a start-up test is running at its last tick"
        for resets, why in (((69,), said), ((68,), None), ((60, 80), said), ((), None)):
            self.assertEqual(Shown(row, {}, 100, resets, test=30).too_soon(), why)
            self.assertIsNone(Shown(WHOLE, {}, 100, resets, test=30).too_soon())

    def test_ticks_of_values(self):
        self.assertEqual(where([False, True, True, False, True]), {1, 2, 4})


if __name__ == "__main__":
    unittest.main()
