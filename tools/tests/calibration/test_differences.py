"""In what calibrations differ."""

import copy
import random
import unittest

from egasim_tools.base.files import TOP
from egasim_tools.base.toml import toml_of
from egasim_tools.calibration.differences import differences, scales_of
from units import drawn_calibration

REFERENCE = toml_of(f"{TOP}/examples/calibration/reference.toml")


class Differing(unittest.TestCase):
    def lines(self, change, scales=None):
        new = copy.deepcopy(REFERENCE)
        change(new)
        return list(differences(REFERENCE, new, scales or scales_of([])))

    def test_the_same_has_no_difference(self):
        self.assertEqual(self.lines(lambda new: None), [])

    def test_each_kind_of_key(self):
        def change(new):
            new["version"], new["permit"]["brake"] = 2, False
            new["permit"]["threshold"], new["torque"]["limit"] = 205, 6
            new["permit"]["table"][1][2] += 1
            new["plant"]["angle"][1] = 201
            new["question"][2]["pedal"][1] = 3
            new["question"][0]["answer"] = 1

        self.assertEqual(self.lines(change), [
            "version: 1 is now 2", "permit.table, pedal 500 (50 %), speed 6000 rpm: 900 is now 901 (90 Nm is now 90.1 Nm)",
            "permit.threshold: 200 is now 205 (20 Nm is now 20.5 Nm)", "permit.brake: absent is now false", "torque.limit: 5 is now 6",
            "plant.angle, point 1: 200 is now 201 (20 % is now 20.1 %)",
            "question 0, answer: 8842 is now 1", "question 2, pedal, track 2: 700 is now 3 (70 % is now 0.3 %)"])

    def test_a_ramp_comes_and_goes(self):
        ramped = copy.deepcopy(REFERENCE)
        ramped["permit"]["fall"] = 50
        for old, new, told in ((REFERENCE, ramped, "absent is now 50"), (ramped, REFERENCE, "50 is now absent")):
            self.assertEqual(list(differences(old, new, scales_of([]))), [f"permit.fall: {told} (5 Nm)"])

    def test_other_axes_make_places_numbers(self):
        def change(new):
            new["permit"]["speed"][0] = 700
            new["permit"]["table"][1][2] += 1

        self.assertEqual(self.lines(change), [
            "permit.speed, point 0: 800 is now 700 (800 rpm is now 700 rpm)",
            "permit.table, number 2 of row 1: 900 is now 901 (90 Nm is now 90.1 Nm)"])

    def test_other_lengths_are_told_whole(self):
        def change(new):
            new["plant"]["angle"], new["plant"]["charge"] = [0, 1000], [40, 1000]
            del new["question"][3]

        self.assertEqual(self.lines(change), ["plant.angle: [0, 200, 1000] is now [0, 1000]", "plant.charge: [40, 300, 1000] is now [40, 1000]",
                                              "questions: 4 are now 3"])

    def test_there_is_a_line_for_each_number(self):
        draws = random.Random(4)
        for _ in range(200):
            old = {"version": 1, **drawn_calibration(draws)}
            new, changed = copy.deepcopy(old), set()
            for _ in range(draws.randint(0, 9)):
                table = new[draws.choice(["permit", "pairs", "plant", "question"])]
                table, place = (draws.choice(table), "question") if isinstance(table, list) else (table, "")
                key = draws.choice(list(table))
                holder, at = table, key
                while isinstance(holder[at], list):
                    holder, at = holder[at], draws.randrange(len(holder[at]))
                holder[at] += 1
                changed.add((id(holder), at, place))
            lines = list(differences(old, new, scales_of([])))
            self.assertEqual(len(lines), len(changed), lines)
