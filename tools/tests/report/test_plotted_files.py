"""How files are read that tools/plot draws. What is drawn of them, bench/plots compares."""

import unittest

from notes import note_of

from egasim_tools.report import plot_margins, plot_records, plot_signals, plot_sweeps, plot_table
from egasim_tools.report.plot_tool import shown_of

WATCHES = "pedal,plate,load,speed,torque,answers"
LIMITS = dict.fromkeys(WATCHES.split(","), 10)


def script_of(picture):
    height, lines = picture
    return height, "".join(lines)


class Records(unittest.TestCase):
    LINES = ["tick,torque,limit,path1,path2,on,found", *(f"{tick},{tick},200,1,1,1,-" for tick in range(10))]

    def test_part_is_drawn_at_its_ticks(self):
        height, script = script_of(plot_records.picture([plot_records.read("it's", self.LINES, None)] * 2, 3, 5))
        self.assertEqual(height, 2 * plot_records.HEIGHT)
        self.assertEqual(script.count("set xrange [3:6]\n"), 2)
        self.assertEqual(script.count('set title "it\\047s" noenhanced\n'), 2)
        self.assertIn("3 3\n4 3\n4 4\n5 4\n5 5\n6 5\n", script)


class Sweeps(unittest.TestCase):
    LINES = ["halt: runs 7; none 0; reaction 29", "bus: runs 7; none 7; reaction none", "greatest reaction 29"]

    def test_reactions_by_class(self):
        self.assertEqual(plot_sweeps.sweep_of("s", self.LINES), {"halt": 29, "bus": None})

    def test_cut_table_is_refused(self):
        for lines in (self.LINES[:2], self.LINES[2:], ["", *self.LINES], [*self.LINES, ""]):
            self.assertEqual(note_of(plot_sweeps.sweep_of, "s", lines), "s is no whole table of sweep")

    def test_other_classes_are_refused(self):
        files = [plot_sweeps.read(name, lines, None) for name, lines in (("a", self.LINES), ("b", self.LINES[1:]))]
        self.assertEqual(note_of(plot_sweeps.picture, files), "the sweeps have other classes than the first one")

    def test_bars_stand_side_by_side(self):
        data, drawn, numbers = plot_sweeps.bars([plot_sweeps.Sweep("a", None, {"halt": 29}, 34),
                                                 plot_sweeps.Sweep("b", "c.toml", {"halt": None}, 34)])
        self.assertEqual(data, ["$sweep0 << END_OF_DATA\n-0.23 29 0.46 29\nEND_OF_DATA\n",
                                "$sweep1 << END_OF_DATA\n0.23 0 0.46 none\nEND_OF_DATA\n"])
        self.assertIn('title "b by c.toml"', drawn[1])
        self.assertEqual(len(numbers), 2)


class Tables(unittest.TestCase):
    HEADER = "run,class,onset,reaction,bound"

    def test_greatest_reaction_of_an_onset_counts(self):
        lines = [self.HEADER, "a,halt,7,3,34", "b,halt,7,5,34", "c,halt,7,4,34", "d,bus,0,,34", "e,none,,1,34",
                 "f,lapse,9,0,34"]
        self.assertEqual(plot_table.points_of("t", lines), ({"halt": {7: 5}, "lapse": {9: 0}}, 34))

    def test_what_is_no_table_is_refused(self):
        for lines, note in (
                ([self.HEADER], "t has no run with a reaction under a fault"),
                ([self.HEADER, "a,halt,7,3,x"], "t is no table: line 2 has no such row"),
                ([self.HEADER, "a,halt,7"], "t is no table: line 2 has no such row"),
                (["run,class", "a,halt"], "t is no table: line 2 has no such row"),
                ([self.HEADER, "a\r1,halt,7,3,34"], "t is no table: line 2 isn't one of CSV"),
                ([self.HEADER, "a,halt,7,3,34", "b,halt,7,3,19"],
                 "t is by several calibrations: its rows have the bounds 19, 34")):
            self.assertEqual(note_of(plot_table.points_of, "t", lines), note)

    def test_axis_is_over_the_onsets_that_are_there(self):
        lines = [self.HEADER, "a,halt,500,3,34", "b,bus,530,1,34", "c,lapse,515,60,34"]
        height, script = script_of(plot_table.picture([plot_table.read("t", lines, None)]))
        self.assertIn("set xrange [499.0:531.0]", script)
        self.assertIn("layout 2,2", script)
        self.assertEqual(height, plot_table.HEAD + 2 * plot_table.PANEL)
        self.assertEqual(script.count("\nplot "), 3)
        self.assertEqual(script.count("34 with lines"), 2)  # none under lapses
        self.assertEqual(note_of(shown_of, plot_table, [("t", lines, None)] * 2), "one table makes a picture")


class Margins(unittest.TestCase):
    HEADER = f"run,{WATCHES},surplus"

    def test_weights_in_per_cent_of_watches_that_were_fed(self):
        lines = [self.HEADER, "a,0,5,0,0,10,0,0", "b,0,0,0,0,1,0,0"]
        self.assertEqual(plot_margins.weights_of("m", lines, LIMITS),
                         (["a", "b"], {"plate": [50, 0], "torque": [100, 10]}))

    def test_what_has_no_margins_is_refused(self):
        for lines, note in (([self.HEADER, "a,0,0,0,0,11,0,0"], "m is by another calibration: torque has 11 of 10"),
                            ([self.HEADER, "a,0"], "m has no margins: line 2 has no such row"),
                            ([self.HEADER, "a,0\r1"], "m has no margins: line 2 isn't one of CSV")):
            self.assertEqual(note_of(plot_margins.weights_of, "m", lines, LIMITS), note)
        self.assertEqual(note_of(plot_margins.read, "m", [self.HEADER, "a,0,0,0,0,0,0,0"], None),
                         "m has no weight above 0: nothing bad was seen in a run")

    def test_many_runs_have_numbers(self):
        self.assertIn('"run24" 24)', plot_margins.axis_of([f"run{number}" for number in range(1, 25)])[0])
        self.assertIn("set xlabel 'run'", plot_margins.axis_of(["run"] * 25)[0])


class Signals(unittest.TestCase):
    HEADER = "tick,used,permitted,actual,excess,pairs,pedal,plate,load,speed,torque,found"
    LINES = [HEADER, "0,300,705,700,0,0,0,0,0,0,0,-", "1,300,705,999,1,0,10,0,0,0,4,pedal",
             "2,300,705,999,1,0,10,0,0,0,5,torque", "3,0,0,0,0,0,10,0,0,0,5,-"]

    def test_signals_end_at_the_trip(self):
        whole = plot_signals.signals_of("s", self.LINES)
        self.assertEqual([plot_signals.up_to_trip(whole)[name] for name in ("tick", "found")],
                         [[0, 1, 2], ["-", "pedal", "torque"]])
        self.assertEqual(plot_signals.up_to_trip(plot_signals.signals_of("s", self.LINES[:3]))["tick"], [0, 1])

    def test_title_says_which_trip_is_drawn(self):
        for first, last, title in (
                (None, None, "s, up to the trip at 2"), (0, 1, "s"), (2, 3, "s, up to the trip at 2")):
            shown = [plot_signals.read("s", self.LINES, None)]
            self.assertIn(f'set title "{title}" ', script_of(plot_signals.picture(shown, first, last))[1])
        self.assertEqual(note_of(plot_signals.picture, [plot_signals.read("s", self.LINES, None)], 3, 3),
                         "s, up to its trip, has ticks 0 to 2, and none of those that are asked for")

    def test_signals_that_were_cut_out_have_their_ticks(self):
        self.assertEqual(plot_signals.signals_of("s", [self.HEADER, *self.LINES[3:]])["tick"], [2, 3])

    def test_what_has_no_signals_is_refused(self):
        for lines, note in (
                (self.LINES[:1], "s has no tick below its header"),
                ([*self.LINES[:2], self.LINES[3]], "s has no signals: tick 1 isn't there, or has a number out of range"),
                ([self.HEADER, self.LINES[1].replace("705", "-1")],
                 "s has no signals: tick 0 isn't there, or has a number out of range"),
                ([self.HEADER, "0,x"], "s has no signals: line 2 has no such row"),
                ([self.HEADER, "0\r1"], "s has no signals: line 2 isn't one of CSV")):
            self.assertEqual(note_of(plot_signals.signals_of, "s", lines), note)

    def test_weights_in_per_cent(self):
        signals = plot_signals.signals_of("s", self.LINES)
        self.assertEqual(plot_signals.shares_of("s", signals, LIMITS),
                         {"pedal": [0, 100, 100, 100], "torque": [0, 40, 50, 50]})
        self.assertEqual(note_of(plot_signals.shares_of, "s", signals, {**LIMITS, "torque": 4}),
                         "s is by another calibration: torque has 5 of 4")

    def test_marks_stay_within_the_frame(self):
        signals = plot_signals.signals_of("s", self.LINES)
        told = list(plot_signals.marks(signals, signals["tick"]))
        self.assertIn('"pedal 1" at 1, graph 1 left offset 0,0.6', told[1])
        self.assertIn('"torque 2" at 2, graph 1 right offset 0,1.6', told[3])


if __name__ == "__main__":
    unittest.main()
