"""Numbers told in units, and how long a tick is."""

import os
import random
import re
import unittest
from decimal import Decimal
from fractions import Fraction

from in_folder import InFolder
from egasim_tools.base.files import TOP
from egasim_tools.base.units import Units, decimal, tick_of, ticks_of, time_of, time_told, units_of
from notes import note_of

MS = 10**6  # nanoseconds


class Times(unittest.TestCase):
    def test_times_are_exact(self):
        for said, time in (("10ms", 10 * MS), ("2.5ms", 2500000), ("0.01s", 10 * MS), ("10 ms", 10 * MS), ("100us", 100000),
                           ("0.0005us", None), ("0ms", 0), ("999999999s", 999999999 * 1000 * MS)):
            self.assertEqual(time_of(said), time)

    def test_what_is_no_time(self):
        for said in ("", "10", "ms", "-1ms", "1e3ms", "10min", "1,5ms", "10ms ", ".5ms", "\u0661ms", 10, None, "1" * 10 + "s"):
            self.assertIsNone(time_of(said))

    def test_tick_has_a_length(self):
        self.assertEqual((tick_of("--tick", "0.001us"), tick_of("--tick", "10s")), (1, 10000 * MS))
        for said in ("0ms", "10.001s", "ten"):
            self.assertRegex(note_of(tick_of, "--tick", said), f"^--tick {said} is no length of a tick, such as 10ms, ")

    def test_times_told(self):
        for time, told in ((0, "0 ms"), (1, "0.000001 ms"), (120 * MS, "120 ms"), (2500000, "2.5 ms"), (9999 * MS, "9999 ms"),
                           (10000 * MS, "10 s"), (12340 * MS, "12.34 s"), (-30 * MS, "-30 ms")):
            self.assertEqual(time_told(time), told)

    def test_told_times_are_read_back(self):
        draw = random.Random(72)
        for _ in range(2000):
            time = draw.choice((1, 1000, MS)) * draw.randint(0, 10**draw.randint(1, 7))
            self.assertEqual(time_of(time_told(time)), time)
            shift = draw.randint(0, 9)
            self.assertEqual(Decimal(decimal(Decimal(-time).scaleb(-shift))), Decimal(-time).scaleb(-shift))


    def test_decimals_that_have_no_end(self):
        self.assertEqual((decimal(Fraction(-1, 8)), decimal(0), decimal(Fraction(1000, 4000))), ("-0.125", "0", "0.25"))
        for fraction in (Fraction(1, 3), Fraction(1000, 4095)):
            self.assertRaises(ValueError, decimal, fraction)


class Told(unittest.TestCase):
    def test_without_a_tick_numbers_stand_as_they_are(self):
        units = Units()
        self.assertFalse(units)
        for told in (units.ticks, units.torque, units.share):
            self.assertEqual((told(12), told("-7")), ("12", "-7"))
        self.assertEqual((units.cell("reaction", "34"), units.cell("reaction", 34)), ("34", 34))

    def test_with_a_tick_the_units_stand_behind(self):
        units = Units(10 * MS)
        self.assertEqual(units.ticks(12), "12 (120 ms)")
        self.assertEqual((units.torque("705"), units.torque(-70), units.torque(-5)), ("705 (70.5 Nm)", "-70 (-7 Nm)", "-5 (-0.5 Nm)"))
        self.assertEqual((units.share(305), units.share(1000)), ("305 (30.5 %)", "1000 (100 %)"))

    def test_cells_by_what_they_count(self):
        units = Units(10 * MS)
        for column, said, told in (("reaction", "34", "34 (340 ms)"), ("peak", "2119", "2119 (211.9 Nm)"), ("surplus", "-3", "-3 (-0.3 Nm)"),
                                   ("torque", "5", "5"), ("verdicts", "3", "3"), ("lapse", "none", "none"), ("onset", "", "")):
            self.assertEqual(units.cell(column, said), told)

    def test_no_column_of_ticks_is_missing(self):
        with open(os.path.join(TOP, "docs", "FORMATS.md"), encoding="utf-8") as file:
            said = file.read()
        rows = said.partition("## The rows of `table`")[2].partition("\n## ")[0]
        columns = re.search("^    (run,.*)$", rows, re.M)[1].split(",")
        self.assertEqual([name for name in columns if Units(MS).cell(name, "1") != "1"],
                         ["onset", "first_at", "cut_at", "off_at", "last_on", "confirmed", "stretch", "peak", "reaction", "bound", "trap_at"])


class Beside(InFolder):
    def test_units_stand_beside_the_calibration(self):
        self.put("a/units.toml", 'tick = "10ms"\n')
        self.put("b/units.toml", 'tick = "5ms"\n')
        self.assertEqual(units_of(None, ["a/c.toml", "a/d.toml"]).tick, 10 * MS)
        self.assertEqual(units_of("5ms", ["b/c.toml", "c.toml"], ("e.toml: tick", "5 ms")).tick, 5 * MS)
        for calibrations in ([], [None], ["c.toml"]):
            self.assertFalse(units_of(None, calibrations))
        self.assertEqual(units_of(None, ["a/c.toml", None]).tick, 10 * MS)
        self.assertEqual(note_of(units_of, None, ["a/c.toml", "c.toml"]), "a/units.toml says how long a tick is, and none stands "
                         "beside another calibration: --tick says it for all")

    def test_a_tick_has_one_length_wherever_it_is_said(self):
        self.put("a/units.toml", 'tick = "10ms"\n')
        self.put("b/units.toml", 'tick = "5ms"\n')
        own = ("e.toml: tick", "0.02 s")
        for said, calibrations, file, words in (
                ("20ms", ["a/c.toml"], None, "--tick says 20 ms, a/units.toml 10 ms"), ("20ms", ["c.toml"], own, None),
                ("10ms", ["c.toml"], own, "--tick says 10 ms, e.toml: tick 20 ms"), (None, ["b/c.toml"], own, "e.toml: tick says 20 ms, b/units.toml 5 ms"),
                (None, ["a/c.toml", "b/c.toml"], None, "a/units.toml says 10 ms, b/units.toml 5 ms")):
            self.assertEqual(note_of(units_of, said, calibrations, file), words and f"a tick has one length, and {words}")

    def test_a_time_of_the_call_is_told_in_ticks(self):
        self.assertEqual([ticks_of("--falls", said, Units(10 * MS)) for said in ("30", "300ms", "0.3s", "255ms")],
                         [30, 30, 30, Fraction(51, 2)])
        self.assertEqual(ticks_of("--falls", "30", Units()), 30)
        self.assertEqual(note_of(ticks_of, "--falls", "300ms", Units()), "--falls 300ms: how long a tick is has to be said (--tick 10ms)")

    def test_units_have_one_key(self):
        for text in ("", 'tick = "10ms"\nms = 1\n', 'tack = "10ms"\n'):
            self.put("units.toml", text)
            self.assertEqual(note_of(units_of, None, ["own.toml"]), 'units.toml: units have one key, such as tick = "10ms"')
        for text in ("10", '"10"', "[1]"):
            self.put("units.toml", f"tick = {text}\n")
            self.assertRegex(note_of(units_of, None, ["own.toml"]), "^units.toml: tick .* is no length of a tick")


if __name__ == "__main__":
    unittest.main()
