"""What finds the faults of runs first, and how long that takes."""

import unittest
from collections import Counter

from egasim_tools.base.unit_rules import spans_of
from egasim_tools.evidence.detection import HEADS, first_of, matrix, sure_row, taken_by_class, ticks_taken

COVERAGE = [{"class": kind, "finds": finds, "within": within, "hidden": hidden} for kind, finds, within, hidden in (
    ("halt", "answers", "34", "0"), ("flip", "mirror", "1", "0"), ("timing", "answers", "34", "0"), ("timing", "-", "-", "1"),
    ("script", "pedal", "5", "0"), ("script", "load", "5", "0"), ("bus", "-", "-", "1"), ("path1-closed", "-", "-", "1"),
    ("path1-closed", "start", "31", "0"), ("lapse", "answers", "34", "0"))]
ONE = [(0, 100, False)]


def row_of(kind, onset, first="", at="", **others):
    return {"run": f"{kind}-{onset}", "class": kind, "onset": str(onset), "acted": "1", "first": first, "first_at": str(at), "fault": "",
            "confirmed": "", **others}


def ticks_of(row, spans):
    return ticks_taken(row, sure_row(COVERAGE, row["class"]), spans)


class Firsts(unittest.TestCase):
    def test_each_row_counts_once(self):
        rows = [row_of("halt", 3, "torque", 9), row_of("halt", 4, "start", 9), row_of("bus", 3), row_of("bus", 4, confirmed="7"),
                row_of("halt", 5, "torque", 9)]
        told = list(matrix(Counter((row["class"], first_of(row)) for row in rows)))
        self.assertEqual(told, [["halt", 0, 0, 0, 0, 0, 2, 0, 1, 0, 0], ["bus", 0, 0, 0, 0, 0, 0, 0, 0, 1, 1]])
        self.assertEqual(HEADS, ("class", "mirror", "pedal", "plate", "load", "speed", "torque", "answers", "start",
                                 "nothing, no excess", "nothing, excess"))


class Taken(unittest.TestCase):
    def test_both_ticks_count(self):
        self.assertEqual(ticks_of(row_of("flip", 7, "mirror", 7), ONE), 1)
        self.assertEqual(ticks_of(row_of("halt", 6, "answers", 39), ONE), 34)
        self.assertIsNone(ticks_of(row_of("halt", 6, "torque", 5), ONE))
        self.assertIsNone(ticks_of(row_of("halt", 6, "torque", 9, acted="0"), ONE))

    def test_a_later_span_counts_from_its_begin(self):
        spans = list(spans_of([50], 200, 30))
        self.assertEqual(ticks_of(row_of("halt", 40, "answers", 110), spans), 30)
        self.assertEqual(ticks_of(row_of("path1-closed", 40, "start", 80), spans), 31)
        self.assertIsNone(ticks_of(row_of("path1-closed", 40, "torque", 45), spans))

    def test_where_nothing_is_found_in_time_it_takes_longer(self):
        self.assertIsNone(ticks_of(row_of("halt", 67), ONE))
        self.assertEqual(ticks_of(row_of("halt", 66), ONE), 35)
        self.assertEqual([ticks_of(row_of("path1-closed", onset), [(0, 50, False), (50, 81, True), (81, 100, False)])
                          for onset in (50, 51, 81)], [32, None, None])
        self.assertIsNone(ticks_of(row_of("path1-closed", 0), ONE))
        self.assertIsNone(ticks_of(row_of("bus", 0), ONE))
        self.assertIsNone(ticks_of(row_of("lapse", 0), ONE))  # it may have missed its first tick at the end
        spans = list(spans_of([50], 200, 30))  # found, but not in the span before
        self.assertEqual([ticks_of(row_of("halt", onset, "answers", 110), spans) for onset in (16, 17)], [35, 30])

    def test_classes_have_the_most_and_a_bound_where_one_row_says_it(self):
        rows = [row_of("halt", 6, "answers", 39), row_of("halt", 20), row_of("halt", 70, "answers", 80), row_of("bus", 1, "torque", 60),
                row_of("script", 3, "load", 7), row_of("timing", 3, fault="offset 4"), row_of("none", "")]
        taken = taken_by_class(rows, COVERAGE, (4, 6), {row["run"]: ONE for row in rows})
        self.assertEqual([(kind, one.most, one.run, one.within, one.beyond) for kind, one in taken.items()],
                         [("halt", 81, "halt-20", 34, ["halt-20"]), ("bus", 60, "bus-1", None, []), ("script", 5, "script-3", None, [])])
        rows[-2]["fault"] = "offset 7"
        self.assertEqual(taken_by_class(rows, COVERAGE, (4, 6), {row["run"]: ONE for row in rows})["timing"].beyond, ["timing-3"])


if __name__ == "__main__":
    unittest.main()
