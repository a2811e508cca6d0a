"""What gnuplot is told, and how it is called."""

import os
import tempfile
import unittest
from unittest import mock

from notes import note_of

from egasim_tools.base.units import Units
from egasim_tools.report.gnuplot import block, curves, draw, looks_of, named_places, quoted, terminal, tick_axis, torque_scale


class Words(unittest.TestCase):
    def test_signs_of_gnuplot_are_numbers_and_what_cannot_be_seen_is_no_text(self):
        self.assertEqual(quoted("a b.csv"), '"a b.csv"')
        self.assertEqual(quoted("'it''s \"so\""), '"\\047it\\047\\047s \\042so\\042"')
        self.assertEqual(quoted("`\\n@a"), '"\\140\\134n\\100a"')
        self.assertEqual(quoted("a\nb\x1b\u00e9"), '"a?b?\u00e9"')

    def test_data_stand_under_their_name(self):
        self.assertEqual(block("a", [(1, 2), (3, 4.5)]), "$a << END_OF_DATA\n1 2\n3 4.5\nEND_OF_DATA\n")
        self.assertEqual(block("a", []), "$a << END_OF_DATA\nEND_OF_DATA\n")

    def test_names_stand_at_places(self):
        self.assertEqual(named_places(["a", "b'c"]), '("a" 0, "b\\047c" 1)')
        self.assertEqual(named_places(["a"], 1), '("a" 1)')

    def test_looks(self):
        self.assertEqual(looks_of("#123456", 2), "lw 2 lc rgb '#123456' notitle")
        self.assertEqual(looks_of("#123456", 1, 2, "R", second=True), "axes x1y2 lw 1 dashtype 2 lc rgb '#123456' title \"R\"")

    def test_curve_stands_at_its_ticks(self):
        data, drawn = curves("a", [([7, 9], "lw 1"), ([0, 0], "lw 2")], 588)
        self.assertEqual(data, "$a0 << END_OF_DATA\n588 7\n589 7\n589 9\n590 9\nEND_OF_DATA\n"
                               "$a1 << END_OF_DATA\n588 0\n590 0\nEND_OF_DATA\n")
        self.assertEqual(drawn, ["$a0 with lines lw 1", "$a1 with lines lw 2"])

    def test_signs_stand_above_the_torque(self):
        told = "".join(torque_scale(1100, ("on", "off", "it's")))
        self.assertIn("set yrange [0:1800.0]", told)
        self.assertIn('("on" 1.0, "off" 3.5, "it\\047s" 6.0)', told)

    def test_axes_tell_units_where_they_are_asked_for(self):
        units = Units(10**7)
        self.assertEqual(tick_axis("x", "tick", 588, 600, Units()), "set xlabel 'tick'\n")
        self.assertEqual(tick_axis("x", "tick", 588, 600, units), "set xlabel 'tick (ms)'\nset xtics nomirror "
                         '("590 (5900)" 590, "595 (5950)" 595, "600 (6000)" 600)\n')
        self.assertEqual(tick_axis("y", "ticks", 0, 2000, units, 2), "set ylabel 'ticks (s)'\nset ytics nomirror "
                         '("0 (0)" 0, "1000 (10)" 1000, "2000 (20)" 2000)\n')
        told = "".join(torque_scale(600, ("on", "off", "x"), units))
        self.assertIn('("0" 0, "10" 100, "20" 200, "30" 300, "40" 400, "50" 500, "60" 600)', told)
        self.assertIn("set ylabel 'torque, Nm'", told)

    def test_kind_of_picture_is_that_of_its_name(self):
        self.assertIn("set terminal pngcairo size 640,400 font 'Sans,11.0'", terminal("a.png", 400))
        self.assertIn("set terminal svg size 640,400 font 'Sans,14.7'", terminal("a.svg", 400))


class Calls(unittest.TestCase):
    def setUp(self):
        self.folder = self.enterContext(tempfile.TemporaryDirectory())
        self.enterContext(mock.patch.dict(os.environ, {"PATH": f"{self.folder}:/usr/bin:/bin"}))
        self.picture = os.path.join(self.folder, "a.png")

    def stand_in(self, text):
        """A gnuplot that does this."""
        path = os.path.join(self.folder, "gnuplot")
        with open(path, "w", encoding="utf-8") as file:
            file.write(f"#!/bin/sh\n{text}\n")
        os.chmod(path, 0o755)

    def test_settings_of_the_user_are_not_read(self):
        self.stand_in('echo "$@"; cat')
        draw(self.picture, 9, ["plot x\n"])
        with open(self.picture, encoding="utf-8") as file:
            told = file.read()
        self.assertTrue(told.startswith("-d -\nset terminal pngcairo") and told.endswith("plot x\n"))

    def test_what_fails_is_told(self):
        self.stand_in("cat >/dev/null; echo 'line 3:  no such' >&2; exit 1")
        self.assertEqual(note_of(draw, self.picture, 9, []), "gnuplot ends with 1: line 3: no such")
        self.stand_in("cat >/dev/null")
        self.assertEqual(note_of(draw, self.picture, 9, []), "gnuplot ends with 0: ")
        self.stand_in("cat")
        self.assertEqual(note_of(draw, "/nowhere/a.png", 9, []), "cannot write /nowhere/a.png: No such file or directory")
        self.assertFalse(os.path.exists(self.picture))

    def test_without_gnuplot_another_tool_is_named(self):
        with mock.patch.dict(os.environ, {"PATH": self.folder}):
            self.assertEqual(note_of(draw, self.picture, 9, [], "; so"), "needs gnuplot (the package gnuplot-nox); so")


if __name__ == "__main__":
    unittest.main()
