"""What a report says beside and above the pictures of runs."""

import unittest

from egasim_tools.report.sections import MOST_CUTS, MOST_EVENTS, MOST_MARKS, cut_figures, event_table, marks_of, most_marks

QUIET = {"torque": [0] * 3000, "limit": [200] * 3000, "path1": [1] * 3000, "path2": [1] * 3000, "on": [1] * 3000,
         "found": ["-"] * 3000, "tick": list(range(3000))}


class Marks(unittest.TestCase):
    def test_confirmed_excess_is_first_and_resets_are_last(self):
        record = {**QUIET, "found": ["-", "torque", *["-"] * 2998]}
        given = [(0, "reset"), (7, "the fault begins"), (9, "an excess is confirmed"), (43, "R has passed since"),
                 (5, "level 1 traps: word")]
        self.assertEqual(marks_of(record, given), [(9, "confirmed 9"), (7, "fault 7"), (43, "R passed 43"), (5, "trap 5"),
                                                   (1, "torque 1"), (0, "reset 0")])

    def test_no_confirmed_excess_is_left_out(self):
        marks = [*((tick, f"confirmed {tick}") for tick in range(20)), (30, "torque 30")]
        self.assertEqual(most_marks(marks), marks[:20])
        self.assertEqual(most_marks(marks[15:]), marks[15:])
        self.assertEqual(len(most_marks([(tick, f"torque {tick}") for tick in range(20)])), MOST_MARKS)


class Tables(unittest.TestCase):
    def test_nothing_happens(self):
        self.assertEqual(list(event_table(QUIET, 200, [])), ["<p>Nothing happens.</p>"])

    def test_what_happens_at_a_tick_stands_in_a_row(self):
        text = "".join(event_table(QUIET, 200, [(7, "reset"), (7, "an excess begins")]))
        self.assertIn('<th scope="row" class="number">7</th><td>reset; an excess begins</td><td class="number">0</td>'
                      '<td class="number">400</td><td>on</td>', text)

    def test_of_many_ticks_those_of_excess_are_left_out(self):
        told = [*((tick, "an excess begins") for tick in range(MOST_EVENTS)), (2000, "reset")]
        text = "".join(event_table(QUIET, 200, told))
        self.assertEqual(text.count("<tr>"), 2)  # the heads and the reset
        self.assertIn(f"{MOST_EVENTS} more ticks at which something happens", text)


class Cuts(unittest.TestCase):
    def titles(self, around, record=QUIET):
        lines = list(cut_figures("run0", "Run late", record, 200, [(5, "torque 5")], around))
        return [line for line in lines if "<title>" in line], "".join(lines)

    def test_ticks_around_a_cut_are_drawn_in_a_long_run(self):
        titles, text = self.titles([(0, 60), (2000, 2080)])
        self.assertEqual(len(titles), 2)
        self.assertIn("Run late, ticks 2000 to 2080: ", titles[1])
        self.assertEqual(text.count(">torque 5</text>"), 1)

    def test_in_a_short_run_the_whole_shows_as_much(self):
        short = {name: values[:100] for name, values in QUIET.items()}
        self.assertEqual(self.titles([(10, 60)], short), ([], ""))
        self.assertEqual(len(self.titles([(10, 59)], short)[0]), 1)

    def test_of_many_cuts_the_next_is_told(self):
        titles, text = self.titles([(tick, tick + 80) for tick in range(0, 1500, 100)])
        self.assertEqual(len(titles), MOST_CUTS)
        self.assertIn("3 more such stretches of ticks aren't drawn; the next begins at 1200.", text.replace("&#x27;", "'"))


if __name__ == "__main__":
    unittest.main()
