"""Noise on answers: its size, what it leaves alone, and where the laws cut it off."""

import random
import statistics
import unittest

from egasim_tools.base.command_line import Refused
from egasim_tools.engine.noise import SENSED, Noise, numbers_in
from egasim_tools.engine.partner_words import noise_in

MIDDLE = [500, 4000, 0, 0, 0, 500, 30000, 30000, 100]  # far from all ranges, and from the law of loads


def line_of(numbers):
    return ",".join(map(str, numbers)) + "\n"


class Noisy(unittest.TestCase):
    def test_none_changes_nothing(self):
        noise = Noise("7,0", 2500)
        for numbers in (MIDDLE, [0] * 9, [1000, 8000, 10000, 1, 1, 1000, 65535, 65535, 65535]):
            self.assertEqual(noise.added(line_of(numbers)), line_of(numbers))
        self.assertEqual(noise.note(), "the noise was cut off by the laws 0 times")

    def test_what_is_not_taken_stays_as_it_is(self):
        noise = Noise("7,100", 2500)
        for line in ("", "\n", "x\n", "1,2,3\n", "0,800,0,0,0,0,40,40,0,\n", "0,800,0,2,0,0,40,40,0\n", "0,800,0,0,0,0,40,40.0,0\n",
                     "1001,800,0,0,0,0,40,40,0\n", "0,8001,0,0,0,0,40,40,0\n", "0,800,0,0,0,1001,40,40,0\n",
                     "0,800,0,0,0,0,40,40,65536\n", "0,800,0,0,0,0,39,40,100\n", "0,800,0,0,0,0,40,39,100\n", "0,800,0,0,0,0,00040,40,000100\n"):
            self.assertEqual(noise.added(line), line)

    def test_its_mean_and_its_deviation(self):
        noise = Noise("3,2.5", 2500)
        drawn = [numbers_in(noise.added(line_of(MIDDLE))) for _ in range(4000)]
        for place, _ in SENSED.values():
            column = [numbers[place] - MIDDLE[place] for numbers in drawn]
            self.assertAlmostEqual(statistics.mean(column), 0, delta=0.15)
            self.assertAlmostEqual(statistics.stdev(column), 2.5, delta=0.15)
            self.assertLessEqual(max(map(abs, column)), 15)
        self.assertNotEqual([numbers[6] for numbers in drawn], [numbers[7] for numbers in drawn])
        for place in (2, 3, 4, 8):
            self.assertEqual({numbers[place] for numbers in drawn}, {MIDDLE[place]})

    def test_laws_cut_it_off_where_it_would_break_them(self):
        """The noise is told by a line on which nothing is cut off; what it comes to on any other one is worked out of that."""
        chance = random.Random(1)
        noise, free, cut = Noise("9,30", 1700), Noise("9,30", 1700), dict.fromkeys(SENSED, 0)
        for _ in range(500):
            torque = chance.choice([0, chance.randint(0, 3000)])
            least = min(load for load in range(2000) if -(-load * 1700 // 1000) >= torque)
            told = [chance.choice([0, 1000, 480]), chance.choice([0, 8000, 1500]), 0, 0, 0, chance.choice([0, 1000, 20]),
                    least + chance.randint(0, 60), least + chance.randint(0, 60), torque]
            numbers, more = numbers_in(noise.added(line_of(told))), numbers_in(free.added(line_of(MIDDLE)))
            for column, (place, last) in SENSED.items():
                low = least if column.startswith("load") else 0
                wanted = told[place] + more[place] - MIDDLE[place]
                self.assertEqual(numbers[place], sorted((low, wanted, last))[1])
                cut[column] += not low <= wanted <= last
        self.assertEqual(noise.cut, cut)
        self.assertGreater(min(cut.values()), 20)

    def test_words_that_are_none(self):
        for word in ("", "1", "1,", ",1", "1,2,3", "1,-2", "-1,2", "1,2.", "1,1.2345", "1,123456", "x,1", "1, 2"):
            self.assertRaisesRegex(Refused, "is no SEED,SIGMA, as 1,2.5$", noise_in, word)
