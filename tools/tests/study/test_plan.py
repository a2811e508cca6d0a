"""Plans, and the runs that they come to."""

import random
import unittest

from egasim_tools.study.plan import (FAULTS, PARAMETERS, checked_plan, choices, drawn, drawn_from, drawn_runs, faults_of,
    faults_on, groups_of, missed_runs, numbers_of)
from in_folder import InFolder
from notes import note_of

CLASSES = ("none, script, offset, bus, plate, skip, disturb, flip, halt, timing, wild, path1-closed, path2-closed, "
           "path-open, lapse")


class Counted:
    """A generator of numbers that gives these, one after the other."""

    def __init__(self, *numbers):
        self.numbers = list(numbers)

    def random(self):
        return self.numbers.pop(0)


def note_of_fault(**fault):
    return note_of(lambda: list(faults_of("p", 1, fault)))


class Checked(InFolder):
    def plan(self, text):
        self.put("p.toml", text)
        return checked_plan("p.toml")

    def test_what_a_plan_leaves_out_is_filled_in(self):
        plan = self.plan('drives = ["d"]\nimages = ["i"]\n[[fault]]\nclass = ["halt"]\nonset = 1\n')
        self.assertEqual(plan, {"drives": ["d"], "images": ["i"], "engines": ["gasoline"], "slices": [None], "seed": 1,
                                "calibration": None, "fault": [{"class": "halt", "onset": 1}]})

    def test_what_no_plan_has_is_refused(self):
        good = 'drives = ["d"]\nimages = ["i"]\n[[fault]]\nclass = "none"\n'
        for text, note in (("x = 1\n" + good, "there is no key x; the keys are drives, images, engines, slices, calibration, seed, fault"),
                           (good.replace('["d"]', "[]"), "drives must be a list, and not an empty one"),
                           (good.replace('["i"]', '"i"'), "images must be a list, and not an empty one"),
                           ("fault = []\n" + good.partition("[[")[0], "fault must be a list, and not an empty one"),
                           ("seed = true\n" + good, "seed must be a whole number, calibration the name of a file"),
                           ("calibration = 1\n" + good, "seed must be a whole number, calibration the name of a file")):
            self.assertEqual(note_of(self.plan, text), f"p.toml: {note}")


class Faults(unittest.TestCase):
    def test_each_class_has_its_own_fault_with_the_numbers_of_a_sweep(self):
        self.assertEqual(list(faults_of("p", 1, {"class": ["bus", "lapse"], "onset": 5})),
                         [{"class": "bus", "mask": 1, "onset": 5}, {"class": "lapse", "after": [0], "onset": 5}])
        self.assertEqual(list(faults_of("p", 1, {"class": "bus", "onset": 5, "mask": 2, "draw": 3})),
                         [{"class": "bus", "mask": 2, "onset": 5, "draw": 3}])

    def test_unknown_class_is_told_with_those_that_there_are(self):
        for kind in ("track", "", 7, [1]):
            self.assertEqual(note_of_fault(**{"class": [kind]}), f"p: fault 1: no class {kind}; the classes are {CLASSES}")

    def test_keys_are_those_of_the_class(self):
        for fault, note in (({}, "fault 1 has no class"), ({"class": []}, "fault 1 has no class"),
                            ({"class": "halt"}, "fault 1 has no onset"),
                            ({"class": "halt", "onset": 1, "mask": 1}, "fault 1: halt has no key mask"),
                            ({"class": "none", "onset": 1}, "fault 1: none has no key onset"),
                            ({"class": "bus", "onset": 1, "every": 2}, "fault 1: bus has no key every")):
            self.assertEqual(note_of_fault(**fault), f"p: {note}")
        self.assertIsNone(note_of_fault(**{"class": "lapse", "onset": 1, "every": 2}))

    def test_number_that_is_drawn_is_one_for_each_class(self):
        for draw in (0, -1, 1000001, True, 1.0, "1", [1]):
            self.assertEqual(note_of_fault(**{"class": "halt", "onset": 1, "draw": draw}),
                             "p: fault 1: draw, for each class, must be a whole number from 1 to 1000000")
        plan = {"fault": list(faults_of("p", 1, {"class": ["halt", "path1-closed"], "onset": [1, 2], "draw": 4}))}
        self.assertEqual([(kind, keys, list(values)) for kind, keys, values in faults_on(plan, Counted(*[0.5] * 8), 10)],
                         [("halt", ["onset"], [[2]] * 4), ("path1-closed", ["onset"], [[2]] * 4)])

    def test_share_of_missed_ticks_is_drawn(self):
        for fault in ({"share": 5}, {"share": 5, "draw": 2, "onset": 0}, {"share": 5, "draw": 2, "after": [0]}, {"share": 5, "draw": 2, "every": 9}):
            self.assertEqual(note_of_fault(**{"class": "lapse", **fault}),
                             "p: fault 1: a share of ticks is drawn: it needs draw, and has no onset, after, every")
        for share in (0, 1001, True, 1.0, "5", [5, 0], {"to": 2}):
            self.assertEqual(note_of_fault(**{"class": "lapse", "share": share, "draw": 2}),
                             "p: fault 1: a share is a whole number from 1 to 1000, so many of 1000 ticks")
        self.assertEqual(note_of_fault(**{"class": "halt", "onset": 0, "share": 5, "draw": 2}), "p: fault 1: halt has no key share")
        plan = {"fault": list(faults_of("p", 1, {"class": "lapse", "share": [100, 200], "draw": 1}))}
        self.assertEqual([(kind, keys, list(values)) for kind, keys, values in faults_on(plan, Counted(0.5, 0.0, 0.0, 0.99), 10)],
                         [("lapse", ["onset", "after", "every", "share"], [(0, [5], 0, 100), (0, [0, 9], 0, 200)])])

    def test_share_of_a_longer_drive_comes_again(self):
        """A lapse names 64 ticks at most, each once, in as many ticks as have that share."""
        for share, ticks, span in ((1000, 64, 64), (1000, 65, 64), (500, 200, 128), (10, 6400, 6400), (10, 6401, 6400), (3, 20000, 20000)):
            for onset, after, every, told in missed_runs(random.Random(1), [share], 3, ticks):
                self.assertEqual((onset, every, told, len(after)), (0, 0 if span == ticks else span, share, (span * share + 500) // 1000))
                self.assertTrue(after == sorted(set(after)) and 0 <= after[0] and after[-1] < span)
        self.assertEqual(note_of(list, missed_runs(random.Random(1), [4], 1, 124)),
                         "lapse: share 4: so many of 1000 ticks are less than one of 124")

    def test_parameters_are_those_of_all_classes(self):
        self.assertEqual(PARAMETERS, ["add", "after", "at", "every", "mask", "module", "offset", "opens", "path", "questions",
                                      "share", "track", "values", "word"])
        self.assertEqual(len(FAULTS), 14)


class Numbers(unittest.TestCase):
    def test_range_goes_to_its_end(self):
        self.assertEqual(list(numbers_of({"from": 2, "to": 8, "step": 3}, None)), [2, 5, 8])
        self.assertEqual(list(numbers_of({"from": 2, "to": 7, "step": 3}, None)), [2, 5])
        self.assertEqual(list(numbers_of({}, 2)), [0, 1, 2])
        self.assertEqual(list(numbers_of({"from": -65535, "to": -65535}, None)), [-65535])
        self.assertEqual(numbers_of({"from": 65535, "to": 65535}, None)[-1], 65535)

    def test_what_is_no_range_is_refused(self):
        for value in ({"from": 1}, {"from": 1, "to": 0}, {"to": 1, "step": 0}, {"to": 1.0}, {"to": True}, {"to": 65536},
                      {"from": -65536, "to": 0}, {"to": 1, "by": 1}, {"from": "0", "to": 1}):
            self.assertRegex(note_of(numbers_of, value, None), "^the plan has a range that is none: ")

    def test_choices_are_lists_of_what_the_key_takes(self):
        self.assertEqual(choices("halt", "onset", 5, 9), [5])
        self.assertEqual(choices("halt", "onset", [5, 7], 9), [5, 7])
        self.assertEqual(list(choices("halt", "onset", {"from": 8}, 9)), [8, 9])
        self.assertEqual(choices("script", "values", [1, 2], 9), [[1, 2]])
        self.assertEqual(choices("script", "values", [[1], [2]], 9), [[1], [2]])
        self.assertEqual(note_of(choices, "halt", "onset", [], 9), "halt: onset is an empty list")
        for value in ({"from": 0, "to": 1}, {"length": 3}):
            self.assertEqual(note_of(choices, "script", "values", value, 9),
                             "script: a list of values is drawn: its range needs length, and the fault draw")


def drawn_one(draws, kind, key, value, last):
    return drawn(draws, key, *drawn_from(kind, key, value, last))


class Drawn(unittest.TestCase):
    def test_lists_have_the_length_that_is_asked(self):
        three = {"from": 10, "to": 19, "length": 3}
        self.assertEqual(drawn_one(Counted(0.0, 0.5, 0.99), "script", "values", three, 9), [10, 15, 19])
        self.assertEqual(drawn_one(Counted(0.9, 0.1, 0.9), "lapse", "after", three, 9), [11, 19])  # rising, each once
        self.assertEqual(drawn_one(Counted(0.9, 0.1), "wild", "opens", {"length": 2}, 9), [True, False])
        self.assertEqual(len(drawn_one(Counted(*[0.0] * 64), "script", "values", {"to": 1, "length": 64}, 9)), 64)

    def test_length_is_a_whole_number(self):
        for length in (0, -1, 65, 3.0, True, "3", 10**400):
            self.assertEqual(note_of(drawn_from, "script", "values", {"from": 0, "to": 1, "length": length}, 9),
                             "script: the length of values isn't a whole number from 1 to 64")

    def test_single_values_are_those_of_the_choices(self):
        self.assertEqual(drawn_one(Counted(0.5), "halt", "onset", {"from": 0}, 9), 5)
        self.assertEqual(drawn_one(Counted(0.99), "halt", "onset", [3, 7], 9), 7)

    def test_runs_are_drawn_one_after_the_other_and_key_by_key(self):
        allowed = [("values", range(10), 2), ("onset", range(100, 110), None)]
        runs = drawn_runs(Counted(0.0, 0.1, 0.2, 0.3, 0.4, 0.5), allowed, 2)
        self.assertEqual(list(runs), [[[0, 1], 102], [[3, 4], 105]])


class Runs(unittest.TestCase):
    def test_each_combination_is_played(self):
        plan = {"drives": ["a", "b"], "images": ["i"], "slices": [None, [[1]]], "engines": ["gasoline", "diesel"],
                "seed": 1, "fault": [{"class": "none"}, {"class": "bus", "mask": [1, 2], "onset": {"from": 0}}]}
        groups = [(*group, [(*fault, list(values)) for *fault, values in faults])
                  for *group, faults in groups_of(plan, {"a": 1, "b": 3})]
        self.assertEqual([group[:4] for group in groups], [(drive, "i", number, engine) for drive in ("a", "b")
                                                           for number in (0, 1) for engine in ("gasoline", "diesel")])
        self.assertEqual(groups[0][4], [("none", [], [()]), ("bus", ["mask", "onset"], [(1, 0), (2, 0)])])
        self.assertEqual(groups[4][4][1][2], [(mask, onset) for mask in (1, 2) for onset in (0, 1, 2)])

    def test_seed_decides_what_is_drawn(self):
        plan = {"drives": ["a"], "images": ["i"], "slices": [None], "engines": ["gasoline"], "seed": 1,
                "fault": [{"class": "halt", "onset": {"from": 0}, "draw": 50}]}

        def onsets(seed):
            for *_, faults in groups_of({**plan, "seed": seed}, {"a": 1000}):
                return [onset for _, _, values in faults for onset, in values]

        draws = random.Random(1)
        self.assertEqual(onsets(1), [int(1000 * draws.random()) for _ in range(50)])
        self.assertNotEqual(onsets(1), onsets(2))
