"""What a report says around its numbers and pictures."""

import re
import unittest
from types import SimpleNamespace

from egasim_tools.base.documents import section_of
from egasim_tools.base.units import Units
from egasim_tools.evidence.detection import Taken
from egasim_tools.report.asking import DOCUMENTS, document
from egasim_tools.report.program_results import drawn_runs
from egasim_tools.report.sections import (about, claims, coverage, greatest, not_drawn, pair, summary, sweeps, swept_most,
    warnings)


def played_of(**parts):
    return SimpleNamespace(**{"units": Units(), "campaign": "c.toml", "calibration": None, "date": "2026-01-02 03:04 UTC", "version": ["egasim 9", "x"],
                              "rows": [], "taken": {}, "sweeps": [], "not_asked": [], "left": 0, "limits": {"reaction": "34"},
                              "documents": {name: document(name) for name in DOCUMENTS}, **parts})


class Drawn(unittest.TestCase):
    def test_named_cut_and_nearest_runs_are_drawn_and_the_others_are_told(self):
        names = [f"r{number}" for number in range(200)]
        cut = set(names[100:130])
        rows = [{"run": name, "cut": "torque" if name in cut else "", "off_at": "", "first": "-"} for name in names]
        margins = [{"run": name, "torque": str(number % 97)} for number, name in enumerate(names)]
        played = SimpleNamespace(rows=rows, margins=margins, weights={"torque": 97}, sound=["r1"], calibration="own.toml", campaign="c.toml")
        drawn = drawn_runs(played)
        self.assertTrue({"r1", *cut} <= set(drawn))
        self.assertEqual((len(drawn), [name for name in drawn if name not in {"r1", *cut}]),
                         (41, [f"r{number}" for number in range(200) if number % 97 >= 92 and f"r{number}" not in cut]))
        played.drawn = drawn
        told = "\n".join(not_drawn(played))
        self.assertEqual(told.count("egasim draw --cal own.toml"), 159)
        played.sound = names
        self.assertEqual(len(drawn_runs(played)), 50)


class Telling(unittest.TestCase):
    def test_what_stands_below_the_title(self):
        asked = SimpleNamespace(project=None, author='A <b> & "c"')
        self.assertEqual(list(about(played_of(), asked)), [
            '<ul class="about">', "<li>Author: A &lt;b&gt; &amp; &quot;c&quot;</li>", "<li>Date: <time>2026-01-02 03:04 UTC</time></li>",
            "<li>Version: egasim 9</li>", "</ul>", "<p>Campaign <code>c.toml</code>, by the reference calibration.</p>"])
        lines = list(about(played_of(calibration="own.toml"), SimpleNamespace(project="P", author=None)))
        self.assertEqual((lines[1], lines[-1]), ("<li>Project: P</li>",
                                                 "<p>Campaign <code>c.toml</code>, by calibration <code>own.toml</code>.</p>"))

    def test_a_program_of_ones_own_is_told(self):
        self.assertFalse(any("warning own" in line for line in warnings(played_of())))
        own = played_of(version=["egasim 9, by a program of your own", "x"])
        self.assertTrue(any("warning own" in line for line in warnings(own)))

    def test_each_claim_has_a_row_or_its_number_in_a_line(self):
        text = "\n".join(claims(played_of()))
        rows = [int(number) for number in re.findall(r'<th scope="row">(\d+)\. ', text)]
        lines = re.findall(r"claims ([0-9, to]+) \(", text)
        ranges = re.findall(r"(\d+)(?: to (\d+))?", ", ".join(lines))
        folded = [number for first, last in ranges for number in range(int(first), int(last or first) + 1)]
        written = [int(number) for number in re.findall(r"^\| (\d+)\. ", section_of(document("PROVED.md"), "The claims"), re.M)]
        self.assertEqual(sorted(rows + folded), sorted(written))
        self.assertIn("(files and texts)", text)
        self.assertEqual(text.count("Not shown here"), 1)

    def test_sweeps_that_were_not_made_are_told(self):
        text = "\n".join(sweeps(played_of(not_asked=["sound"], left=2)))
        self.assertIn("Not swept, for they are sound drives: sound (--sweep-sound sweeps them too).", text)
        self.assertIn("2 more drives", text)
        self.assertIn("<code>none</code> is the number of runs in which no watch finds anything.", text)
        self.assertNotIn("Not swept", "\n".join(sweeps(played_of())))

    def test_what_finds_a_fault_is_told_in_units(self):
        rows = [{"class": "halt", "within": "34", "off": "confirmed + 34", "hidden": "0"}, {"class": "bus", "within": "-", "off": "-", "hidden": "1"}]
        halt = Taken(34)
        halt.add("halt-3", 30)
        text = "\n".join(coverage(played_of(coverage=rows, taken={"halt": halt, "bus": Taken(None)}, units=Units(10**7))))
        self.assertIn('<th scope="row">halt</th><td>34 (340 ms)</td><td>confirmed + 34 (340 ms)</td><td class="number">0</td>', text)
        self.assertIn('<th scope="row">bus</th><td>-</td><td>-</td><td class="number">1</td>', text)
        self.assertIn(">halt 30 (300 ms) in halt-3, within 34 (340 ms); bus none.</desc>", text)
        self.assertIn("there is no picture", "\n".join(coverage(played_of(coverage=rows))))

    def test_greatest_numbers_and_their_runs(self):
        rows = [{"run": "a", "reaction": ""}, {"run": "b", "reaction": "9"}, {"run": "c", "reaction": "29"}, {"run": "d", "reaction": "29"}]
        self.assertEqual([greatest(rows, "reaction"), greatest(rows[:1], "reaction"), greatest([], "reaction")], ["29 (c)", "none", "none"])
        kinds = [SimpleNamespace(reactions={"halt": 3, "lapse": 99, "bus": None}), SimpleNamespace(reactions={"halt": 5})]
        self.assertEqual([swept_most(kinds), swept_most([])], [5, "none"])
        units = Units(10**7)
        self.assertEqual((greatest(rows, "reaction", units), pair({"cut": "torque", "cut_at": "9"}, "cut", units)),
                         ("29 (290 ms, c)", "torque at 9 (90 ms)"))
        self.assertEqual([pair({"cut": "torque", "cut_at": "9"}, "cut"), pair({"cut": ""}, "cut")], ["torque at 9", ""])

    def test_the_summary_counts_kinds_of_runs(self):
        empty = dict.fromkeys(("reaction", "stretch", "peak", "cut"), "")
        rows = [{**empty, "run": "a", "class": "none", "cut": "torque"}, {**empty, "run": "b", "class": "none"},
                {**empty, "run": "c", "class": "lapse", "cut": "load"}, {**empty, "run": "d", "class": "halt", "cut": "load"}]
        lines = list(summary(played_of(rows=rows, limits={"reaction": "34", "stretch": "38", "peak": "1"})))
        self.assertEqual(lines[1], "<li>Runs: 4; without a fault 2, under a listed fault 1, under a lapse 1.</li>")
        self.assertEqual(lines[-2], "<li>Runs without a fault that were cut: a.</li>")


if __name__ == "__main__":
    unittest.main()
