"""Shapes of SVG."""

import unittest
import xml.etree.ElementTree

from egasim_tools.report.svg import box, escaped, line, picture, shape, step_of, text, width_of


class Shapes(unittest.TestCase):
    def test_text_is_escaped_and_shows_what_cannot_be_seen(self):
        self.assertEqual(escaped('<b>&"\''), "&lt;b&gt;&amp;&quot;&#x27;")
        self.assertEqual(escaped("a\x1b\u202eb"), "a\\u001b\\u202eb")
        self.assertEqual(escaped(7), "7")

    def test_step_divides_a_span_into_at_most_so_many_parts(self):
        for span, most, step in ((0, 5, 1), (5, 5, 1), (6, 5, 2), (10, 5, 2), (11, 5, 5), (25, 5, 5), (26, 5, 10),
                                 (100, 8, 20), (20000, 8, 5000), (2500, 6, 500), (1000000, 5, 200000)):
            self.assertEqual(step_of(span, most), step)

    def test_shapes_have_a_tenth_of_a_point(self):
        self.assertIn('x="1.2" y="3.0"', text(1.23, 3, "a"))
        self.assertEqual(line([(0, 0.26), (1, 2)], "red"),
                         '<polyline points="0.0,0.3 1.0,2.0" fill="none" stroke="red" stroke-width="1"/>')
        self.assertIn('stroke-dasharray="2 2"', line([(0, 0)], dashes="2 2"))
        self.assertEqual(shape([(0, 0), (1, 1)], "red"), '<polygon points="0.0,0.0 1.0,1.0" fill="red"/>')

    def test_box_can_be_seen(self):
        self.assertIn('width="0.5"', box(0, 0, 0, 9, "red"))
        self.assertIn('width="3.0"', box(0, 0, 3, 9, "red"))

    def test_longer_text_is_wider(self):
        self.assertEqual(width_of(""), 0)
        self.assertAlmostEqual(width_of("abcd", 10), 24.8)

    def test_picture_is_a_document_with_a_title_and_a_text(self):
        source = "\n".join(picture("run", 40, 20, "<A>", 'is "so"', [text(1, 2, "&")]))
        root = xml.etree.ElementTree.fromstring(source)
        self.assertEqual([root.get(name) for name in ("width", "viewBox", "aria-describedby")],
                         ["40", "0 0 40 20", "run-about"])
        self.assertEqual([element.text for element in root[:2]], ["<A>", 'is "so"'])


if __name__ == "__main__":
    unittest.main()
