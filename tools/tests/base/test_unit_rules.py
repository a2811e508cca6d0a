"""What the tools work out of the unit themselves, by hand, by units that were written apart, and against the program."""

import csv
import io
import json
import os
import random
import subprocess
import unittest

from in_folder import InFolder
from played import TOP, egasim
from units import Unit, drawn_calibration

from egasim_tools.base.ranges import WORD
from egasim_tools.base.unit_rules import (answer_of, between, beyond_tie, distance, estimate, is_good_check, least_load,
    least_permitted, readings_of, results_of, spans_of, table_value, ticks_to_open, values_of, verdicts_to_confirm)
from egasim_tools.calibration.parameters import calibration_of
from egasim_tools.measurement.recordings import HEADER

IDLE = f"{TOP}/examples/level_1/idle.hex"
PROGRAM = os.path.realpath(os.environ.get("EGASIM_PROGRAM") or f"{TOP}/release/egasim")


def weighed(verdicts, weights):
    """The most that a window at the end weighs (docs/CONCEPT.md, C9)."""
    most = total = 0
    for wrong in reversed(verdicts):
        total += weights["up"] if wrong else -weights["down"]
        most = max(most, total)
    return most


def played(numbers, count, times, onset):
    """How many ticks after the onset path 2 is open, tick by tick; None if it isn't after many rounds."""
    verdicts = []
    for tick in range(60 * count * times["period"]):
        if tick % times["period"] == times["send"]:
            verdicts.append(tick >= onset and len(verdicts) % count in numbers)
        if tick % times["period"] == times["period"] - 1 and weighed(verdicts, times) >= times["limit"]:
            return tick + 1 - onset
    return None


class Questions(unittest.TestCase):
    def test_a_table_rounds_down_and_keeps_its_ends(self):
        self.assertEqual([between([10, 20], [0, 9], x) for x in (0, 10, 15, 19, 20, 99)], [0, 0, 4, 8, 9, 9])
        self.assertEqual([between([10, 20], [9, 0], x) for x in (9, 11, 15, 20, 21)], [9, 8, 4, 0, 0])
        self.assertEqual(between([0, 1, 3], [5, 6, 9], 1), 6)

    def test_a_permit_table_rounds_along_its_rows_first(self):
        # Along the rows 3 of 0 to 7 at 1 of 2, and 4 of 1 to 8; then 3 of 3 to 4 at 1 of 2.
        permit = {"pedal": [0, 2], "speed": [0, 2], "table": [[0, 7], [1, 8]]}
        self.assertEqual(table_value(permit, 1, 1), 3)
        self.assertEqual(least_permitted(permit, {"used": 2, "speed": [2, 0]}), 1)

    def test_an_estimate_rounds_up_to_a_word(self):
        self.assertEqual([estimate(kt, load) for kt, load in ((1, 0), (1, 1), (1, 1001), (2500, 999), (10000, 65535))],
                         [0, 1, 2, 2498, 65535])

    def test_second_tracks_of_pedal_and_plate_read_the_rest(self):
        self.assertEqual([values_of("pedal", [3, 450]), values_of("plate", [3, 1001]), values_of("load", [3, 450])],
                         [(3, 550), (3, 0), (3, 450)])
        self.assertEqual([distance("plate", {"plate": [500, 449]}), distance("speed", {"speed": [800, 850]})], [51, 50])

    def test_check_words_and_ties(self):
        self.assertTrue(is_good_check({"raise": 600, "check": 64935}))
        self.assertFalse(is_good_check({"raise": 600, "check": 64934}))
        self.assertEqual([beyond_tie({"permit": {"threshold": 200}}, {"estimate": most, "allowed": 200}) for most in (399, 400, 401)],
                         [-1, 0, 1])

    def test_the_example_of_the_documents(self):
        reference = calibration_of(None)
        self.assertEqual(results_of(reference, reference["question"][0]), (500, 1000, 750, 1, 0))
        self.assertEqual(answer_of(reference, reference["question"][0]), 0x228a)
        self.assertEqual([answer_of(reference, question) for question in reference["question"]],
                         [question["answer"] for question in reference["question"]])

    def test_answers_are_those_of_a_unit_that_was_written_apart(self):
        draws = random.Random(1)
        for calibration in (drawn_calibration(draws) for _ in range(60)):
            self.assertEqual([answer_of(calibration, question) for question in calibration["question"]],
                             Unit(calibration).answers(calibration["question"]))


class Rounds(unittest.TestCase):
    def test_ticks_are_those_of_the_worst_onset(self):
        draws = random.Random(5)
        for _ in range(60):
            period, count = draws.randint(2, 4), draws.randint(2, 4)
            times = {"period": period, "send": draws.randrange(period), "up": draws.randint(1, 4),
                     "down": draws.randint(0, 3), "limit": draws.randint(1, 14)}
            numbers = [number for number in range(count) if draws.random() < 0.6]
            delays = [played(numbers, count, times, onset) for onset in range(count * period)]
            worst = None if None in delays else max(delays)
            self.assertEqual(ticks_to_open(numbers, count, times), worst, (numbers, count, times))

    def test_rounds_that_are_skipped_change_no_count(self):
        draws = random.Random(6)
        for _ in range(300):
            weights = {"up": draws.randint(1, 9), "down": draws.randint(0, 9), "limit": draws.randint(1, 400)}
            verdicts = [draws.random() < 0.6 for _ in range(draws.randint(1, 6))]
            counter = count = 0
            while counter < weights["limit"] and count < 5000:
                wrong = verdicts[count % len(verdicts)]
                counter, count = counter + weights["up"] if wrong else max(0, counter - weights["down"]), count + 1
            self.assertEqual(verdicts_to_confirm(verdicts, weights), count if counter >= weights["limit"] else None)
        slow = {"up": 100, "down": 100, "limit": 10000}
        self.assertEqual(verdicts_to_confirm([True, False] * 31 + [True], slow), 99 * 63 + 1)

    def test_all_wrong_is_the_reaction(self):
        times = calibration_of(None)["answers"]
        self.assertEqual([ticks_to_open(range(count), count, times) for count in (2, 4, 64)], [34] * 3)
        self.assertEqual(ticks_to_open([], 4, times), None)


class Spans(unittest.TestCase):
    def test_a_test_has_one_tick_more_than_it_waits(self):
        self.assertEqual(list(spans_of([], 100, 30)), [(0, 100, False)])
        self.assertEqual(list(spans_of([0, 20, 60], 100, 30)),
                         [(0, 20, True), (20, 51, True), (51, 60, False), (60, 91, True), (91, 100, False)])
        self.assertEqual(list(spans_of([90], 100, 30)), [(0, 90, False), (90, 100, True)])


def toml_of(calibration):
    """A calibration as a file has it: its tables, then its questions."""
    lines = [f"version = {calibration['version']}"]
    for name, table in calibration.items():
        for one in table if name == "question" else [table] if isinstance(table, dict) else []:
            lines.append("[[question]]" if name == "question" else f"[{name}]")
            lines.extend(f"{key} = {json.dumps(value)}" for key, value in one.items())
    return "\n".join([*lines, ""])


def with_times(draws):
    """The reference calibration with other times and weights of the answers."""
    calibration, period = calibration_of(None), draws.randint(2, 6)
    first, send, last = sorted(draws.randrange(period) for _ in "abc")
    times = {"period": period, "first": first, "last": last, "send": send, "up": draws.randint(1, 4), "down": draws.randint(0, 3),
             "limit": draws.randint(1, 14)}
    return {**calibration, "answers": times}


def run_text(fault=None):
    said = ", ".join(f"{key} = {json.dumps(value)}" for key, value in (fault or {}).items())
    return f'[[run]]\nname = "a"\ntrace = "drive.csv"\nimage = "{IDLE}"\nfaults = [{f"{{ {said} }}" if fault else ""}]\n'


class Program(InFolder):
    """What the program prints of the same."""

    def rows(self, *words, text=""):
        return list(csv.DictReader(io.StringIO(egasim(".", *words, text=text))))

    def test_right_answers(self):
        draws = random.Random(11)
        for _ in range(40):
            drawn, whole = drawn_calibration(draws), calibration_of(None)
            calibration = {name: {**table, **drawn.get(name, {})} if isinstance(table, dict) else table for name, table in whole.items()}
            calibration["question"] = drawn["question"]
            self.put("drawn.toml", toml_of(calibration))
            told = [int(line.split(": ")[1]) for line in egasim(".", "answers", None, "drawn.toml").splitlines()]
            self.assertEqual([answer_of(calibration, question) for question in calibration["question"]], told)

    def test_the_least_load_of_a_torque(self):
        draws = random.Random(12)
        self.put("run.toml", run_text())
        for kt, torque in ((draws.randint(1, 10000), draws.randint(1, 60000)) for _ in range(60)):
            load, whole = least_load(kt, torque), calibration_of(None)
            if load <= WORD:
                whole["torque"]["kt"] = kt
                whole["question"] = [{**question, "answer": answer_of(whole, question)} for question in whole["question"]]
                self.put("drawn.toml", toml_of(whole))
                self.assertEqual([self.takes(one, torque) for one in (load, load - 1)], [True, False], (kt, torque))
        self.assertEqual(least_load(2500, 0), 0)

    def takes(self, load, torque):
        """Whether `couple` takes an answer with this load on both tracks, and this torque."""
        words = [PROGRAM, "couple", "--cal", "drawn.toml", "run.toml", "a"]
        line = f"0,800,0,0,0,0,{load},{load},{torque}\n"
        return not subprocess.run(words, input=line, stdout=subprocess.DEVNULL, stderr=subprocess.DEVNULL, text=True, check=False).returncode

    def test_the_worst_reaction(self):
        draws = random.Random(13)
        for calibration in (with_times(draws) for _ in range(40)):
            self.put("drawn.toml", toml_of(calibration))
            told = dict(line.split() for line in egasim(".", "limits", "drawn.toml").splitlines())
            self.assertEqual(ticks_to_open(range(4), 4, calibration["answers"]), int(told["reaction"]))

    def test_wrong_answers_in_rounds(self):
        """A tick that level 2 misses right before it sends spoils the answer of its period alone."""
        draws = random.Random(14)
        self.put("drive.csv", "pedal,speed,raise,reset\n" + "0,800,0,0\n" * 2000)
        for _ in range(40):
            calibration, verdicts = with_times(draws), [draws.random() < 0.6 for _ in range(draws.randint(1, 8))]
            times = calibration["answers"]
            period, send = times["period"], times["send"]
            missed = [place * period for place, wrong in enumerate(verdicts) if wrong] or [19999]
            fault = {"class": "lapse", "onset": period + send - 1, "after": missed, "every": len(verdicts) * period if any(verdicts) else 0}
            self.put("drawn.toml", toml_of(calibration))
            self.put("run.toml", run_text(fault))
            count = verdicts_to_confirm(verdicts, times)
            found = "" if count is None or (count + 1) * period > 2000 else str(count * period + period - 1)
            row = self.rows("table", "drawn.toml", "run.toml")[0]
            self.assertEqual((row["first"], row["first_at"]), ("answers" if found else "", found), (times, verdicts))

    def test_spans_whose_tests_are_passed(self):
        draws = random.Random(15)
        for _ in range(20):
            ticks = draws.randint(1, 300)
            resets = sorted(draws.sample(range(ticks), min(ticks, draws.randint(0, 6))))
            self.put("drive.csv", "pedal,speed,raise,reset\n" + "".join(f"0,800,0,{int(tick in resets)}\n" for tick in range(ticks)))
            self.put("run.toml", run_text())
            driven = [tick for first, end, is_test in spans_of(resets, ticks, 30) if not is_test for tick in range(first, end)]
            shown = [int(row["tick"]) for row in self.rows("record", None, "run.toml", "a") if row["on"] == "1"]
            self.assertEqual(driven, shown, resets)

    def test_what_tracks_read_under_a_fault(self):
        """Level 2 tells of these readings what it tells in a coupled run with the same answers."""
        draws = random.Random(16)
        for _ in range(40):
            fault = draws.choice([{"class": "script", "track": draws.randrange(10), "values": [draws.choice([0, 400, 1000, 65535])] * 2},
                                  {"class": "offset", "track": draws.randrange(10), "add": draws.choice([-65535, -60, -1, 1, 60, 700])},
                                  {"class": "bus", "mask": draws.randrange(1, 65536)}])
            fault["onset"] = draws.randrange(4)
            self.put("run.toml", run_text(fault))
            answers = [[draws.choice([0, 300, 1000]), 1500, draws.choice([0, 250]), 0, draws.randrange(2), 0, 40, 50, 0] for _ in range(9)]
            coupled = self.rows("couple", None, "run.toml", "a", text="".join(f"{','.join(map(str, one))}\n" for one in answers))[1:]
            lines = [",".join(map(str, readings_of(one, fault, tick))) for tick, one in enumerate(answers)]
            signals = self.rows("signals", None, text="\n".join([HEADER.strip(), *lines, ""]))
            for name in ("used", "permitted", "actual", "excess", "pairs"):
                self.assertEqual([row[name] for row in signals], [row[name] for row in coupled], (name, fault))


if __name__ == "__main__":
    unittest.main()
