"""Questions that exercise everything."""

import random
import unittest

from units import Unit, drawn_calibration, wrong_units

from egasim_tools.calibration.parameters import calibration_of
from egasim_tools.calibration.question_coverage import cover_of, missing
from egasim_tools.calibration.question_design import Loads, couple_of, filled, inverted_pair, put_raise, turned


def numbers_in(question):
    return [number for value in question.values() for number in (value if isinstance(value, list) else [value])]


class Filling(unittest.TestCase):
    def test_every_wrong_unit_answers_otherwise_to_some_filled_question(self):
        draws = random.Random(3)
        for calibration in (drawn_calibration(draws) for _ in range(12)):
            old, calibration["question"] = calibration["question"], filled(calibration)
            new = calibration["question"]
            self.assertEqual([(question["seed"], question["answer"], list(question)) for question in old],
                             [(question["seed"], question["answer"], list(question)) for question in new])
            self.assertTrue(all(0 <= number <= 65535 for question in new for number in numbers_in(question)))
            self.assertEqual(list(missing(cover_of(calibration))), [])
            right = Unit(calibration).answers(new)
            for thing, unit in wrong_units(calibration):
                self.assertNotEqual(unit.answers(new), right, thing)

    def test_threshold_and_tolerances_that_are_wrong_by_one_are_found(self):
        reference = calibration_of(None)
        reference["question"] = filled(reference)
        right = Unit(reference).answers(reference["question"])
        for table, key in (("permit", "threshold"), *(("pairs", pair) for pair in ("pedal", "plate", "load", "speed"))):
            for more in (-1, 1):
                wrong = {**reference, table: {**reference[table], key: reference[table][key] + more}}
                self.assertNotEqual(Unit(wrong).answers(reference["question"]), right, (key, more))

    def test_readings_of_inverted_pairs(self):
        self.assertEqual([inverted_pair(500, 50, False), inverted_pair(500, 50, True), inverted_pair(1000, 1, True)],
                         [[550, 500], [500, 450], [1001, 0]])
        self.assertEqual([turned([1, 2], False), turned([1, 2], True)], [[1, 2], [2, 1]])

    def test_loads_have_complementary_estimates(self):
        loads = Loads(calibration_of(None))
        within, beyond = loads.near(300)
        self.assertEqual(-(-within * 25 // 10) ^ -(-beyond * 25 // 10), 4095)
        self.assertLessEqual(max(within, beyond), 1000)
        self.assertEqual([loads.pair((600, 700), False), loads.pair((600, 700), True)], [[550, 600], [649, 700]])

    def test_a_couple_stands_at_a_point_of_the_permit_table(self):
        reference = calibration_of(None)
        first, second = couple_of(reference, 0, 4, Loads(reference))  # pedal 500 and speed 3000: 1200
        self.assertEqual([first[key] for key in ("used", "speed", "allowed", "estimate")], [500, [3000, 3050], 1200, 1400])
        self.assertEqual([second[key] for key in ("used", "speed", "allowed", "estimate")], [500, [3051, 3000], 1200, 1401])

    def test_one_of_a_couple_has_the_raise_with_its_check_word(self):
        permit = calibration_of(None)["permit"]
        for is_turned in (False, True):
            couple = [{"used": 0, "speed": [800, 800]}, {"used": 1000, "speed": [800, 800]}]
            put_raise(permit, couple, is_turned)
            good, bad = reversed(couple) if is_turned else couple
            self.assertEqual(good["raise"], 16383 - (200 if is_turned else 2000))
            self.assertEqual((bad["raise"], good["check"]), (good["raise"], 65535 - good["raise"]))
            self.assertEqual(bin(bad["check"] ^ good["check"]).count("1"), 1)

    def test_a_raise_is_above_what_both_of_a_couple_permit(self):
        permit = {"pedal": [0, 1000], "speed": [0, 1], "table": [[7000, 7000], [9383, 9383]]}
        couple = [{"used": 1000, "speed": [0, 0]}, {"used": 0, "speed": [0, 0]}]
        put_raise(permit, couple, False)
        self.assertEqual(couple[0]["raise"], 9383 + 16384)  # 16383 less 7000 is 9383, as the table permits


if __name__ == "__main__":
    unittest.main()
