"""The pictures of a run, and bars of classes of faults. What they look like as a whole, read_back compares."""

import unittest
import xml.etree.ElementTree

from egasim_tools.base.units import Units
from egasim_tools.report.run_pictures import (LEFT, MOST_ROWS, RIGHT, WIDTH, Scale, curve, placed, record_picture, spans,
    sweep_picture, taken_picture)

RECORD = {"tick": [588, 589, 590], "torque": [0, 900, 900], "limit": [200] * 3, "path1": [1] * 3, "path2": [1] * 3,
          "on": [1, 1, 0], "found": ["-", "-", "torque"]}


def texts_of(lines):
    """The root of a picture, and its texts."""
    root = xml.etree.ElementTree.fromstring("\n".join(lines))
    return root, [element.text for element in root.iter("{http://www.w3.org/2000/svg}text")]


class Scales(unittest.TestCase):
    def test_ticks_go_from_side_to_side(self):
        scale = Scale(588, 3, 1000, 20)
        self.assertEqual([scale.x(588), scale.x(591)], [LEFT, WIDTH - RIGHT])
        self.assertEqual([scale.y(0), scale.y(1000)], [scale.bottom, 20])

    def test_curve_stands_at_its_ticks(self):
        scale = Scale(588, 3, 900, 0)
        self.assertEqual(list(curve([0, 900, 900], scale)),
                         [(LEFT, 180), (LEFT + 114, 180), (LEFT + 114, 0), (WIDTH - RIGHT, 0)])

    def test_spans_are_joined_where_no_gap_is_seen(self):
        self.assertEqual(spans([1, 0, 1], Scale(0, 3, 1, 0)), [[LEFT, LEFT + 114], [LEFT + 228, WIDTH - RIGHT]])
        many = Scale(0, 34200, 1, 0)  # a hundred ticks are a point
        self.assertEqual(spans([1, 0] * 17100, many), [[LEFT, WIDTH - RIGHT - 0.01]])
        self.assertEqual(spans([0, 0], Scale(0, 2, 1, 0)), [])


class Marks(unittest.TestCase):
    def test_words_that_would_touch_stand_in_rows(self):
        rows = [row for *_, row in placed([(10, "torque 10"), (11, "start 11"), (90, "answers 90")], Scale(0, 100, 1, 0))]
        self.assertEqual(rows, [0, 1, 0])

    def test_words_stay_within_the_picture(self):
        for tick in (0, 99):
            [(_, words, x, _)] = placed([(tick, f"torque {tick}")], Scale(0, 100, 1, 0))
            half = 0.62 * 10 * len(words) / 2
            self.assertTrue(half <= x <= WIDTH - half)

    def test_of_too_many_rows_no_words_are_left(self):
        rows = [row for *_, row in placed([(50, f"torque {number}") for number in range(8)], Scale(0, 100, 1, 0))]
        self.assertEqual(rows, [*range(MOST_ROWS), None, None])


class Pictures(unittest.TestCase):
    def test_record_is_a_picture_with_its_name(self):
        root, texts = texts_of(record_picture("r", "A run", "words", RECORD, 200, [(590, "torque 590")]))
        for word in ("588", "591", "torque", "permitted", "permitted and threshold", "excess", "stages on", "torque 590"):
            self.assertIn(word, texts)
        self.assertEqual(root.get("aria-describedby"), "r-about")

    def test_units_stand_at_the_axes(self):
        _, texts = texts_of(record_picture("r", "A run", "words", RECORD, 200, [], Units(10**7)))
        for word in ("588", "5880", "tick, and in ms", "torque, Nm", "80"):
            self.assertIn(word, texts)
        _, texts = texts_of(sweep_picture("s", "A sweep", "words", {"halt": 29, "bus": None}, 34, Units(10**7)))
        for word in ("29 (290 ms)", "none", "R 34 (340 ms)", "200", "greatest reaction, ticks, and in ms"):
            self.assertIn(word, texts)

    def test_sweep_tells_each_reaction(self):
        _, texts = texts_of(sweep_picture("s", "A sweep", "words", {"halt": 29, "bus": None, "lapse": 0}, 34))
        for word in ("halt", "29", "bus", "none", "lapse", "0", "R 34"):
            self.assertIn(word, texts)

    def test_each_class_has_its_own_bound(self):
        root, texts = texts_of(taken_picture("t", "Taken", "words", {"halt": (30, 34), "flip": (1, 1), "bus": (9, None), "skip": (None, 34)},
                                             Units(10**7)))
        for word in ("halt", "30 (300 ms)", "bus", "9 (90 ms)", "skip", "none", "most ticks until something is found, and in ms"):
            self.assertIn(word, texts)
        bounds = [line.get("points") for line in root.iter("{http://www.w3.org/2000/svg}polyline") if line.get("stroke-width") == "2"]
        self.assertEqual(bounds, ["300.0,24.0 300.0,42.0", "94.2,42.0 94.2,60.0", "300.0,78.0 300.0,96.0"])
        fills = [box.get("fill") for box in root.iter("{http://www.w3.org/2000/svg}rect") if box.get("x")]
        self.assertEqual(fills, ["#5f7f9f", "#5f7f9f", "white"])


if __name__ == "__main__":
    unittest.main()
