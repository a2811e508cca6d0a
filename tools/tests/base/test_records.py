"""Records, and the curves of their columns."""

import random
import unittest

from notes import note_of

from egasim_tools.base.records import check_end, corners, part_of, record_of, stretches, thinned

HEADER = "tick,torque,limit,path1,path2,on,found\n"


def lines_of(*ticks):
    return [HEADER, *(f"{tick},{10 * tick},200,1,1,1,-\n" for tick in ticks)]


class Records(unittest.TestCase):
    def test_columns_are_numbers_by_name(self):
        record = record_of("r", [HEADER, "0,0,200,1,1,1,-\n", "1,900,705,0,1,0,torque+load\n"])
        self.assertEqual(record, {"tick": [0, 1], "torque": [0, 900], "limit": [200, 705], "path1": [1, 0],
                                  "path2": [1, 1], "on": [1, 0], "found": ["-", "torque+load"]})

    def test_row_without_a_tick_is_left_out(self):
        lines = [HEADER, "-,-,-,-,-,-,-\n", "0,0,200,1,1,1,-\n"]
        self.assertEqual(record_of("r", lines)["tick"], [0])

    def test_ticks_are_those_that_stand_there(self):
        self.assertEqual(record_of("r", lines_of(588, 589, 590))["tick"], [588, 589, 590])

    def test_ticks_follow_one_another(self):
        for ticks, note in (((3, 5), "tick 5 stands below tick 3"), ((3, 3), "tick 3 stands below tick 3"),
                            ((0, 1, 0), "tick 0 stands below tick 1")):
            self.assertEqual(note_of(record_of, "r", lines_of(*ticks)), f"r is no whole record: {note}")

    def test_what_is_no_record_is_refused(self):
        for lines, note in (
                ([], "r is empty: was the run refused?"), (["tick,torque\n"], "r is no record: was the run refused?"),
                ([HEADER], "r has no tick below its header"),
                ([HEADER, "0,x,200,1,1,1,-\n"], "r is no record: line 2 has no numbers of a tick"),
                ([HEADER, "0\n"], "r is no record: line 2 has no numbers of a tick"),
                ([HEADER, "7,1000001,200,1,1,1,-\n"], "r is no record: tick 7 has a number out of range"),
                ([HEADER, "-1,0,200,1,1,1,-\n"], "r is no record: tick -1 has a number out of range"),
                ([HEADER, "0,0\r1,200,1,1,1,-\n"], "r is no record: line 2 isn't one of CSV")):
            self.assertEqual(note_of(record_of, "r", lines), note)

    def test_a_row_is_as_long_as_the_header(self):
        lines = lines_of(0, 1)
        for row, more in (("2,20,200,1,1,1\n", "fewer"), ("2,20,200,1,1,1", "fewer"), ("2,20,200,1,1,1,-,0\n", "more")):
            self.assertEqual(note_of(record_of, "r", [*lines, row]), f"r is no whole record: line 4 has {more} columns than the header")

    def test_a_text_that_is_cut_anywhere_in_its_last_row_is_refused(self):
        text = "".join(lines_of(*range(12)))
        for end in range(text.rindex("\n", 0, -1) + 2, len(text)):
            self.assertEqual(note_of(check_end, "r", text[:end]), "r is cut: its last line has no end")
        for whole in (text, ""):
            self.assertIsNone(note_of(check_end, "r", whole))


class Parts(unittest.TestCase):
    RECORD = {"tick": [5, 6, 7, 8], "torque": [50, 60, 70, 80]}

    def test_part_has_both_ends(self):
        self.assertEqual(part_of("r", self.RECORD, 6, 7), {"tick": [6, 7], "torque": [60, 70]})

    def test_part_is_what_is_there(self):
        for first, last, ticks in (
                (None, None, [5, 6, 7, 8]), (0, 5, [5]), (8, 99, [8]), (None, 6, [5, 6]), (7, None, [7, 8])):
            self.assertEqual(part_of("r", self.RECORD, first, last)["tick"], ticks)

    def test_part_without_a_tick_is_refused(self):
        for first, last in ((9, None), (None, 4), (7, 6)):
            self.assertEqual(note_of(part_of, "r", self.RECORD, first, last),
                             "r has ticks 5 to 8, and none of those that are asked for")



class Curves(unittest.TestCase):
    def test_stretches_have_the_tick_behind_them(self):
        for values, places in (([], []), ([0], []), ([1], [(0, 1)]), ([0, 1, 1, 0, 1], [(1, 3), (4, 5)])):
            self.assertEqual(list(stretches(values)), places)
        self.assertEqual(list(stretches([1, 0, 1], 40)), [(40, 41), (42, 43)])

    def test_corners_stand_where_the_value_changes(self):
        self.assertEqual(list(corners([7])), [(0, 7), (1, 7)])
        self.assertEqual(list(corners([7, 7, 9])), [(0, 7), (2, 7), (2, 9), (3, 9)])
        self.assertEqual(list(corners([7, 9], 588)), [(588, 7), (589, 7), (589, 9), (590, 9)])

    def test_points_of_a_place_keep_their_order(self):
        points = [(0, 5), (1, 9), (2, 1), (3, 4), (4, 6), (5, 6)]
        self.assertEqual(list(thinned(points, lambda _: 0)), [(0, 5), (1, 9), (2, 1), (5, 6)])
        self.assertEqual(list(thinned(points, lambda point: point[0])), points)

    def test_last_point_stays_behind_the_highest(self):
        points = [(0, 1400), (1, 1500), (2, 2250), (3, 1400), (4, 593)]
        self.assertEqual(list(thinned(points, lambda _: 0)), [(0, 1400), (2, 2250), (4, 593)])


class ThinnedCurves(unittest.TestCase):
    """A drawn curve over drawn and long records. What it covers is told without its code, by the ticks of a place."""

    def covered_by_record(self, values, place_of):
        """The least and greatest value at each place: tick t has its value from place_of(t) to place_of(t + 1)."""
        covered = {}
        for tick, value in enumerate(values):
            for place in range(place_of(tick), place_of(tick + 1) + 1):
                least, greatest = covered.get(place, (value, value))
                covered[place] = min(least, value), max(greatest, value)
        return covered

    def covered_by_curve(self, points, place_of):
        covered = {}
        for (one, low), (other, high) in zip(points, points[1:]):
            self.assertLessEqual(one, other, "the curve runs backwards")
            if place_of(one) != place_of(other):
                self.assertEqual(low, high, "there is a slope from one place to another")
            for place in range(place_of(one), place_of(other) + 1):
                least, greatest = covered.get(place, (low, low))
                covered[place] = min(least, low, high), max(greatest, low, high)
        return covered

    def hold(self, values, places):
        def place_of(tick):
            return tick * places // len(values)

        points = list(thinned(corners(values), lambda point: place_of(point[0])))
        self.assertEqual(points[0], (0, values[0]))
        self.assertEqual(points[-1], (len(values), values[-1]))
        self.assertEqual(self.covered_by_curve(points, place_of), self.covered_by_record(values, place_of))

    def test_drawn_records(self):
        draw = random.Random(20261130)
        for _ in range(2000):
            size = draw.choice((1, 2, 3, 5, 20, 200))
            level = [draw.choice((0, 593, 1400, 2250)) for _ in range(draw.randint(1, 5))]
            values = [level[draw.randrange(len(level))] if draw.random() < 0.5 else draw.randint(0, 2500)
                      for _ in range(size)]
            self.hold(values, draw.choice((1, 2, 3, 7, 50, 700)))

    def test_long_records(self):
        draw = random.Random(7)
        for size in (3000, 20000):
            steady = [2250] * size
            bursts = [2250 if tick // 4 % 2 else 0 for tick in range(size)]
            last_falls = [1400 if tick < size - 1 else 593 for tick in range(size)]
            moves, value = [], 1000
            for _ in range(size):
                value = min(2500, max(0, value + draw.randint(-50, 50)))
                moves.append(value)
            for values in (steady, bursts, last_falls, moves):
                self.hold(values, 684)


if __name__ == "__main__":
    unittest.main()
