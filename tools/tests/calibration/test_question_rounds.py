"""When path 2 opens if only some questions get wrong answers."""

import unittest

from egasim_tools.calibration.parameters import calibration_of
from egasim_tools.calibration.question_coverage import cover_of
from egasim_tools.calibration.question_rounds import latest_told, openings_told


class Rounds(unittest.TestCase):
    def test_what_is_told(self):
        calibration = calibration_of(None)
        cover = cover_of(calibration)
        lines = list(openings_told(calibration, cover))
        self.assertEqual([line.partition(":")[0] for line in lines], [
            "by 4 of 4 questions, path 2 opens within 34 ticks", "by 3 of 4 questions, path 2 opens within 54 ticks",
            "by 2 of 4 questions, path 2 opens within 84 ticks", "by 2 of 4 questions, path 2 opens within 94 ticks",
            "by 1 of 4 questions, path 2 never opens"])
        self.assertIn("result 1 of the comparison", lines[2])
        latest = "if just one thing that is exercised is wrong, path 2 {} (R is 34)"
        self.assertEqual(latest_told(calibration, cover), latest.format("may never open"))
        calibration["answers"]["down"] = 0
        self.assertEqual(latest_told(calibration, cover), latest.format("opens within 124 ticks"))


if __name__ == "__main__":
    unittest.main()
