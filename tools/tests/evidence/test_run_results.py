"""What a run shows."""

import random
import unittest

from egasim_tools.evidence.run_results import (about_run, confirmed_of, cuts_of, events, excess_of, finds, given_ticks, lacking,
    ticks_said, windows)


def record_of(torque, limit=200, on=None, found=None, first=0):
    ticks = len(torque)
    return {"tick": list(range(first, first + ticks)), "torque": torque, "limit": [limit] * ticks, "path1": [1] * ticks,
            "path2": [1] * ticks, "on": on or [1] * ticks, "found": found or ["-"] * ticks}


ROW = {"class": "halt", "onset": "7", "acted": "1", "confirmed": "9", "settled": "1", "reaction": "3", "bound": "34",
       "trap": "", "trap_at": ""}


class Facts(unittest.TestCase):
    def test_a_watch_finds_from_its_first_tick_to_its_last(self):
        record = record_of([0] * 5, found=["-", "pedal", "pedal+torque", "-", "torque"])
        self.assertEqual(finds(record), [(1, 2, "pedal"), (2, 2, "torque"), (4, 4, "torque")])
        self.assertEqual(finds(record_of([0] * 2, found=["-", "load"], first=588)), [(589, 589, "load")])

    def test_a_tie_is_no_excess(self):
        self.assertEqual(excess_of(record_of([399, 400, 401]), 200), [False, False, True])

    def test_stretches_in_words(self):
        self.assertEqual(ticks_said([]), "none")
        self.assertEqual(ticks_said([(3, 4), (6, 9)]), "3, 6 to 8")
        self.assertEqual(ticks_said([(tick, tick + 1) for tick in range(0, 18, 2)]), "0, 2, 4, 6, 8, 10, 12, 14, and so on")

    def test_text_tells_the_ticks_of_the_record(self):
        record = record_of([0, 500, 500, 0], on=[1, 1, 1, 0], found=["-", "-", "torque", "-"], first=588)
        self.assertEqual(about_run(record, 200),
                         "4 ticks, 588 to 591. Greatest torque: 500 tenths of Nm. Ticks with more than permitted torque and "
                         "threshold: 589 to 590. Found: torque at 590. Ticks with the power stages off: 591.")

    def test_what_happens_stands_in_the_order_of_ticks(self):
        record = record_of([0, 500, 0, 0], on=[0, 1, 1, 0], found=["-", "torque", "-", "-"])
        record["path1"] = [1, 1, 0, 0]
        self.assertEqual(events(record, 200, [(1, "an excess is confirmed"), (1, "reset")]),
                         [(0, "the stages are off"), (1, "reset"), (1, "an excess begins"), (1, "the stages are on"),
                          (1, "torque finds something"), (1, "an excess is confirmed"), (2, "no excess any more"),
                          (2, "path 1 is open"), (3, "the stages are off")])

    def test_given_ticks_lie_in_the_run_and_R_in_its_power_cycle(self):
        self.assertEqual(given_ticks(ROW, 100, [0, 60], [9, 70]),
                         [(0, "reset"), (60, "reset"), (7, "the fault begins"), (9, "an excess is confirmed"),
                          (43, "R has passed since"), (70, "an excess is confirmed")])
        # 30 and 34 are 64: a reset is before it. 70 and 34 are 104, beyond the end.
        self.assertEqual(given_ticks({**ROW, "onset": ""}, 100, [60], [30, 70])[1:],
                         [(30, "an excess is confirmed"), (70, "an excess is confirmed")])
        self.assertEqual(given_ticks({**ROW, "class": "lapse", "trap": "word", "trap_at": "5", "onset": "100"}, 100, [], [9]),
                         [(5, "level 1 traps: word"), (9, "an excess is confirmed")])

    def test_why_a_row_shows_nothing(self):
        self.assertIsNone(lacking(ROW))
        for change, reason in (({"class": "none"}, "there is no fault"), ({"class": "lapse"}, "R is no bound for lapses"),
                               ({"acted": "0"}, "the fault never acts"), ({"confirmed": ""}, "no excess is confirmed"),
                               ({"settled": "0"}, "it ends too soon"), ({"reaction": ""}, "the stages are on at the end"),
                               ({"onset": "12"}, "the fault comes after the cut"),
                               ({"reaction": "35"}, "the reaction is above its bound, against what is proved")):
            self.assertEqual(lacking({**ROW, **change}), reason)
        self.assertIsNone(lacking({**ROW, "onset": "11"}))
        self.assertIsNone(lacking({**ROW, "reaction": "34"}))


class Confirmed(unittest.TestCase):
    def test_fed_by_hand(self):
        # The example of docs/CONCEPT.md, "Debouncing": the last of 1 1 1 1 0 1 1 reaches the limit.
        self.assertEqual(list(confirmed_of([1, 1, 1, 1, 0, 1, 1, 1], (1, 1, 5), set())), [6])
        self.assertEqual(list(confirmed_of([1, 1, 1, 1], (1, 1, 5), set())), [])
        self.assertEqual(list(confirmed_of([1] * 20, (3, 1, 5), {0, 10})), [1, 11])
        self.assertEqual(list(confirmed_of([1] * 8, (1, 1, 5), {4})), [])

    def confirmed_by_windows(self, excess, weights, resets):
        """The rule of the concept: some window of its power cycle that ends there weighs the limit."""
        up, down, limit = weights
        begins = sorted({0, *resets})
        for begin, end in zip(begins, [*begins[1:], len(excess)]):
            for tick in range(begin, end):
                windows_there = (excess[first:tick + 1] for first in range(begin, tick + 1))
                if any(sum(up if bad else -down for bad in window) >= limit for window in windows_there):
                    yield tick
                    break

    def test_drawn_excess(self):
        draw = random.Random(65)
        for _ in range(500):
            excess = [draw.random() < 0.6 for _ in range(draw.randint(1, 40))]
            resets = {tick for tick in range(len(excess)) if draw.random() < 0.05}
            weights = draw.randint(1, 3), draw.randint(0, 3), draw.randint(1, 8)
            self.assertEqual(list(confirmed_of(excess, weights, resets)),
                             list(self.confirmed_by_windows(excess, weights, resets)))


class Windows(unittest.TestCase):
    def test_a_cut_is_no_reset_and_no_beginning(self):
        self.assertEqual(cuts_of(record_of([0] * 8, on=[0, 1, 0, 1, 1, 0, 0, 1]), {2}), [5])

    def test_window_has_the_excess_before_the_cut(self):
        torque = [0] * 3000
        torque[1000:1020] = [900] * 20
        record = record_of(torque)
        self.assertEqual(windows(record, 200, {1020}), [(960, 1060)])
        self.assertEqual(windows(record, 200, {1004, 1020}), [(960, 1060)])
        self.assertEqual(windows(record, 200, {10, 2990, 500}), [(0, 50), (460, 540), (2950, 2999)])
        self.assertEqual(windows(record, 200, set()), [])

    def test_windows_that_meet_are_one_up_to_a_size(self):
        record = record_of([0] * 3000)
        self.assertEqual(windows(record, 200, {500, 580}), [(460, 620)])
        self.assertEqual(windows(record, 200, {500, 581}), [(460, 540), (541, 621)])
        self.assertEqual(windows(record, 200, {500, 560, 620, 680}), [(460, 660), (640, 720)])


if __name__ == "__main__":
    unittest.main()
