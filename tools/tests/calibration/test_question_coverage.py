"""What questions exercise: just what a wrong unit answers otherwise to."""

import random
import unittest

from units import Unit, drawn_calibration, wrong_units

from egasim_tools.calibration.parameters import calibration_of
from egasim_tools.calibration.question_coverage import (bits_of, cover_of, exercised_by, masks_of, missing, ranges_said,
    things_of, told)


class Covering(unittest.TestCase):
    def test_a_thing_is_exercised_by_the_questions_to_which_a_wrong_unit_answers_otherwise(self):
        draws = random.Random(2)
        for calibration in (drawn_calibration(draws) for _ in range(12)):
            questions, cover = calibration["question"], cover_of(calibration)
            right, wrong = Unit(calibration).answers(questions), dict(wrong_units(calibration))
            self.assertEqual(set(cover), set(wrong))
            for thing, unit in wrong.items():
                differ = [number for number, answer in enumerate(unit.answers(questions)) if answer != right[number]]
                self.assertEqual(cover[thing], differ, thing)

    def test_bits_that_a_drive_may_have(self):
        self.assertEqual(masks_of({"torque": {"kt": 2500}}), (1023, 16383, 4095))
        self.assertEqual(masks_of({"torque": {"kt": 10000}})[2], 0b11111111111110)  # tens up to 10000
        self.assertEqual(masks_of({"torque": {"kt": 1}})[2], 1)
        self.assertEqual(masks_of({"torque": {"kt": 1024}})[2], 2047)  # 1023 by a load of 999, 1024 by one of 1000
        self.assertEqual([bits_of(0), bits_of(5), bits_of(65535)], [[], [0, 2], list(range(16))])

    def test_all_things_are_named_once(self):
        things = list(things_of(calibration_of(None)))
        self.assertEqual((len(things), len(set(things))), (2 * (10 + 14 + 12) + 4 + 8 + 2,) * 2)

    def test_a_tie_and_a_good_check_word(self):
        reference = calibration_of(None)
        question = {**reference["question"][0], "estimate": 1200, "raise": 1000, "check": 64535}
        self.assertTrue({"tie", "comparison 0"} < set(exercised_by(reference, question)))
        self.assertNotIn("good check word", exercised_by(reference, question))  # the table permits 1000
        question.update({"estimate": 1201, "raise": 1001, "check": 64534})
        self.assertTrue({"tie plus one", "comparison 1", "good check word"} < set(exercised_by(reference, question)))

    def test_numbers_in_words(self):
        self.assertEqual([ranges_said(numbers) for numbers in ([], [3], [3, 4], [0, 1, 2, 5, 7, 8])],
                         ["", "3", "3, 4", "0 to 2, 5, 7, 8"])

    def test_what_is_missing(self):
        calibration = calibration_of(None)
        calibration["permit"]["threshold"], calibration["pairs"]["load"] = 500, 80
        lacking = list(missing(cover_of(calibration)))
        for words in ("no 1 in bit 0 of the pedal", "no result 1 of the comparison", "no tie of the comparison",
                      "no tie plus one of the comparison", "no pair of the load beyond its tolerance",
                      "no bad check word that keeps a raise from counting"):
            self.assertIn(words, lacking)
        nothing = {thing: [] for thing in things_of(calibration)}
        self.assertEqual(list(missing(nothing))[:2], ["no 1 in bits 0 to 9 of the pedal", "no 0 in bits 0 to 9 of the pedal"])
        self.assertEqual(len(list(missing(nothing))), 6 + 4 + 8 + 2)
        self.assertEqual(list(missing({thing: [1] for thing in nothing})), [])

    def test_what_is_told(self):
        lines = list(told(cover_of(calibration_of(None))))
        self.assertEqual(lines[0], "the pedal: 0 and 1 in bits 1 to 4, 6 to 9")
        self.assertEqual(lines[3:5], [
            "the comparison: result 0 in 1, 3; result 1 in 0, 2; a tie in 1; a tie plus one in 2",
            "the pair of the pedal: within in 0 to 2; beyond in 3"])
        self.assertEqual(lines[-1], "the check word: good in 2; bad in none")
        self.assertEqual(next(told({thing: [] for thing in things_of(calibration_of(None))})), "the pedal: no bit that is 0 and 1")


if __name__ == "__main__":
    unittest.main()
