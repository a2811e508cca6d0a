"""Verdicts on rows that are written by hand, and on what a stand-in for the program prints."""

from unittest import mock

from egasim_tools.base.units import Units
from egasim_tools.evidence import expected_runs
from egasim_tools.evidence.conclusive_runs import Shown, recording_shown
from egasim_tools.evidence.expectations import Check, Expected
from egasim_tools.evidence.expected_runs import Asking, inputs_of
from egasim_tools.evidence.judgement import verdict, verdicts
from in_folder import InFolder
from notes import note_of
from test_verdicts import row_of

LIMITS = {"pedal": 10, "plate": 10, "load": 10, "speed": 10, "torque": 5, "answers": 9}
ANY = ["plate", "torque", "answers", "start"]
SOUND = row_of("a", "none", stretch="2", last_on="99")
# Confirmed at 31 and off for good at 60, since path 1 is stuck.
CUT = row_of("b", "path1-closed", onset="0", acted="1", first="torque", first_at="31", cut="torque", cut_at="31", off_at="60",
             last_on="59", confirmed="31", reaction="29", stretch="33", settled="1")
REPLAY = """ticks 2000
pedal none; greatest 8 of 10
plate at 40; greatest 10 of 10
load none; greatest 7 of 10
speed none; greatest 5 of 10
torque at 30; greatest 5 of 5
trip at 30
stretch 5
surplus -474
"""


def shown_by(row, resets=(), ticks=100, excess=frozenset, test=30, run=None, **weights):
    weights = {watch: (weights.get(watch, 0), limit) for watch, limit in LIMITS.items()}
    return Shown(row, weights, ticks, resets, excess, run=run or {}, test=test)


class Judging(InFolder):
    def judged(self, key, value, row, **others):
        return verdict("a", Check(key, "?", value), shown_by(row, **others), Units(10**7))

    def holds(self, key, value, row, words=None, **others):
        told = self.judged(key, value, row, **others)
        self.assertIs(told.is_so, True, told)
        if words:
            self.assertEqual(told.words, words)

    def fails(self, key, value, row, words, **others):
        told = self.judged(key, value, row, **others)
        self.assertIs(told.is_so, False, told)
        self.assertEqual(told.words, words)

    def test_sound(self):
        self.holds("sound", True, SOUND, "no watch finds anything")
        self.holds("sound", True, SOUND | {"class": "lapse", "onset": "3", "acted": "1"})
        self.fails("sound", True, SOUND | {"class": "halt", "onset": "3", "acted": "1"}, "it has a fault, halt")
        self.fails("sound", True, SOUND | {"cut": "torque", "cut_at": "9", "first": "torque"}, "it is cut by torque at 9")
        self.fails("sound", True, SOUND | {"first": "pedal", "first_at": "9"}, "it is limited by pedal at 9")
        self.fails("sound", True, SOUND | {"first": "start", "first_at": "30", "off_at": "31"}, "it is off at 31")
        self.fails("sound", True, SOUND | {"trap": "fetch", "trap_at": "4"},
                   "it shows nothing: its level 1 traps at 4")
        self.fails("sound", True, SOUND | {"last_on": ""}, "it shows nothing: its stages are on at no tick")

    def test_a_fault_that_never_acts_shows_nothing(self):
        row = CUT | {"acted": "0"}
        for key, value in (("sound", True), ("room", 0), ("cut", ANY), ("cut", []), ("latest.after_fault", 99),
                           ("latest.after_excess", 99), ("stretch", 99)):
            self.fails(key, value, row, "its fault never acts, so nothing is shown of it")

    def test_room_is_that_of_the_watch_that_comes_nearest(self):
        self.holds("room", 20, SOUND, "torque weighs 4 of 5, which leaves 20 %", torque=4, pedal=7)
        self.fails("room", 21, SOUND, "torque weighs 4 of 5, which leaves 20 %", torque=4, pedal=7)
        self.fails("room", 12, SOUND, "answers weighs 8 of 9, which leaves 11 %", answers=8)
        self.holds("room", 100, SOUND)
        self.holds("room", 0, SOUND | {"first": "pedal", "first_at": "9"}, pedal=10)
        self.fails("room", 0, SOUND | {"last_on": ""}, "it shows nothing: its stages are on at no tick")
        self.fails("room", 0, CUT, "it is cut by torque at 31", torque=5)

    def test_cut(self):
        self.holds("cut", ["torque"], CUT, "it is cut by torque at 31")
        self.holds("cut", ANY, CUT)
        self.fails("cut", ["answers"], CUT, "it is cut by torque at 31")
        self.fails("cut", ANY, SOUND, "it isn't cut")
        self.fails("cut", ANY, SOUND | {"off_at": "40"}, "it is off at 40, and no watch cuts it")
        self.fails("cut", ANY, CUT | {"off_at": ""}, "torque finds something at 31, and the stages don't go off")
        self.fails("cut", ANY, CUT | {"onset": "60"}, "its fault comes at 60, after the cut by torque at 31")
        self.holds("cut", ANY, CUT | {"onset": "59"})
        failed = SOUND | {"first": "start", "first_at": "30", "off_at": "31", "class": "path1-closed", "acted": "1", "onset": "0"}
        self.holds("cut", ["start"], failed, "it is cut by start at 30")
        self.fails("cut", ["torque"], failed, "it is cut by start at 30")

    def test_mirror_in_a_test_cuts_nothing(self):
        row = SOUND | {"class": "flip", "onset": "7", "acted": "1", "cut": "mirror", "cut_at": "7"}
        words = "it isn't shown: mirror finds something in a start-up test, at 7, and hides what comes later"
        # The test is at the ticks 0 to 30, or 70 to 100.
        for tick, resets in ((7, (0,)), (7, (0, 50)), (30, (0,)), (30, (0, 50)), (95, (0, 70))):
            found = row | {"onset": str(tick), "cut_at": str(tick)}
            said = words.replace("at 7", f"at {tick}")
            self.fails("cut", ["mirror"], found, said, resets=resets)
            self.fails("cut", ["mirror"], found | {"off_at": "61"}, said, resets=resets)
            self.fails("cut", [], found | {"off_at": "61"}, "it is off at 61", resets=resets)
        self.holds("cut", [], row, "it isn't cut", resets=(0,))
        self.fails("cut", ["mirror"], row | {"off_at": "61"}, "no tick of the power cycle follows its fault, so nothing is shown of it", resets=(0, 8))
        self.holds("cut", ["mirror"], row | {"off_at": "8"})
        self.holds("cut", ["mirror"], row | {"cut_at": "31", "onset": "31", "off_at": "32"}, resets=(0,))

    def test_a_failed_start_up_test_cuts(self):
        """Also where the run ends before its stages are seen to be off."""
        failed = SOUND | {"class": "path1-closed", "onset": "0", "acted": "1", "first": "start", "first_at": "99", "last_on": "68"}
        self.fails("cut", [], failed, "it is kept off by start at 99", resets=(69,))
        self.fails("room", 0, failed, "it is kept off by start at 99", resets=(69,))
        self.fails("cut", ["start"], failed, "start finds something at 99, and the stages don't go off", resets=(69,))

    def test_a_running_start_up_test_leaves_it_open_what_comes_of_a_fault(self):
        row = SOUND | {"class": "path1-closed", "onset": "80", "acted": "1", "last_on": "68"}
        words = "it ends too soon: a start-up test is running at its last tick"
        for key, value in (("cut", []), ("room", 0)):
            self.fails(key, value, row, words, resets=(69,))
            self.holds(key, value, row, resets=(68,))
            self.holds(key, value, SOUND | {"last_on": "68"}, resets=(69,))
        self.fails("sound", True, row | {"class": "lapse"}, words, resets=(69,))
        self.fails("stretch", 9, row, f"{words}; its longest excess has 2 ticks (20 ms)", resets=(69,))
        self.fails("latest.after_fault", 99, row, "it isn't shown: a start-up test is running at its last tick", resets=(69,))
        self.holds("latest.after_fault", 0, row, resets=(68,))

    def test_a_fault_in_a_later_power_cycle_than_the_cut_shows_nothing(self):
        later = CUT | {"onset": "70", "cut_at": "31", "off_at": "32", "last_on": "99", "reaction": "1"}
        self.fails("cut", ["torque"], later, "its fault comes at 70, after the cut by torque at 31", resets=(0, 65))
        self.holds("cut", ["torque"], later, resets=(0, 71))
        self.fails("latest.after_excess", 99, later, "it isn't shown: of several power cycles the table doesn't show whether the fault, after "
                   "the first excess, came before a cut", resets=(0, 65))
        self.holds("latest.after_excess", 99, later | {"onset": "31"}, resets=(0, 65))

    def test_what_can_show_nothing(self):
        """A fault or a lapse at the last tick, a single tick, slices of zeros."""
        zeros, words = {"slices": [[0] * 9]}, "no tick of the power cycle follows its fault, so nothing is shown of it"
        for key, value in (("sound", True), ("room", 0), ("cut", []), ("stretch", 99)):
            self.assertFalse(self.judged(key, value, SOUND, run=zeros).is_so)
            self.assertFalse(self.judged(key, value, SOUND | {"last_on": "0"}, ticks=1).is_so)
            for kind, fault in (("lapse", {"after": [0]}), ("halt", {})):
                run = {"faults": [{"class": kind, "onset": 99, **fault}]}
                self.fails(key, value, SOUND | {"class": kind, "onset": "99", "acted": "1"}, words, run=run)

    def test_not_cut(self):
        self.holds("cut", [], SOUND, "it isn't cut")
        self.holds("cut", [], SOUND | {"first": "pedal", "first_at": "9", "trap": "store", "trap_at": "0"},
                   "it isn't cut, and level 1 traps at 0")
        self.fails("cut", [], CUT, "it is cut by torque at 31")
        self.fails("cut", [], SOUND | {"off_at": "40"}, "it is off at 40")
        self.fails("cut", [], SOUND | {"last_on": ""}, "it shows nothing: its stages are on at no tick")

    def test_latest_after_the_excess(self):
        key = "latest.after_excess"
        self.holds(key, 29, CUT, "the stages are off for good 29 ticks (290 ms) after the excess is confirmed, at 31")
        self.fails(key, 28, CUT, "the stages are off for good 29 ticks (290 ms) after the excess is confirmed, at 31")
        for columns, why in (({"confirmed": "", "settled": "", "reaction": ""}, "no excess is confirmed"),
                             ({"settled": "0"}, "it ends too soon"), ({"reaction": ""}, "the stages are on at the end"),
                             ({"onset": "60"}, "the fault comes after the cut")):
            self.fails(key, 99, CUT | columns, f"it isn't shown: {why}")
        lapse = CUT | {"class": "lapse"}
        self.holds(key, 29, lapse, resets=(0,))
        self.fails(key, 29, lapse, "it isn't shown: of lapses in several power cycles the table doesn't show it", resets=(0, 50))
        self.holds(key, 29, CUT, resets=(0, 50))

    def test_latest_after_the_fault(self):
        key, halt = "latest.after_fault", row_of("h", "halt", onset="20", acted="1", cut="answers", cut_at="29", first="answers",
                                                 off_at="30", last_on="29")
        self.holds(key, 10, halt, "the stages are off for good 10 ticks (100 ms) after the fault")
        self.fails(key, 9, halt, "the stages are off for good 10 ticks (100 ms) after the fault")
        self.fails(key, 99, halt, "it isn't shown: the stages are on at the end", ticks=30)
        self.fails(key, 99, SOUND, "it isn't shown: there is no fault")
        self.fails(key, 99, halt, "it isn't shown: a reset at 50 begins another power cycle after the fault", resets=(0, 50))
        self.holds(key, 10, halt, resets=(0, 20))
        self.fails(key, 99, halt | {"onset": "30"}, "it isn't shown: the fault comes after the cut")
        # A fault that opens a path itself, at its onset; and one that is found by a test, with the stages off before it.
        self.holds(key, 0, halt | {"onset": "30", "cut": "", "cut_at": "", "first": ""})
        failed = {"class": "path1-closed", "onset": "110", "first": "start", "cut": "", "cut_at": ""}
        self.holds(key, 0, halt | failed, "the stages are off for good from 30 on, and the fault comes at 110", ticks=200, resets=(100,))
        self.holds(key, 0, halt | failed | {"last_on": ""}, ticks=200)

    def test_stretch(self):
        self.holds("stretch", 33, CUT, "its longest excess has 33 ticks (330 ms)")
        self.fails("stretch", 32, CUT, "its longest excess has 33 ticks (330 ms)")
        self.holds("stretch", 1, SOUND | {"stretch": "1"}, "its longest excess has 1 tick (10 ms)")
        self.fails("stretch", 99, CUT | {"onset": "60"},
                   "it isn't shown: its fault comes at 60, after the cut; its longest excess has 33 ticks (330 ms)")
        trapped = {"trap": "fetch", "trap_at": "4"}
        self.holds("stretch", 33, CUT | trapped)
        self.fails("stretch", 99, SOUND | trapped,
                   "it shows nothing: its level 1 traps at 4; its longest excess has 2 ticks (20 ms)")
        self.fails("stretch", 99, SOUND | {"last_on": "", "stretch": "0"},
                   "it shows nothing: its stages are on at no tick; its longest excess has 0 ticks (0 ms)")
        self.fails("stretch", 99, CUT | {"settled": "0"}, "it ends too soon; its longest excess has 33 ticks (330 ms)")

    def test_an_excess_at_the_end_leaves_it_open_what_comes_of_it(self):
        last, before = {99}, {49}
        for key, value in (("sound", True), ("room", 0), ("cut", []), ("stretch", 99)):
            for ticks, resets, words in ((last, (), "at 99, its last tick, there is"), (before, (50,), "at 49, right before a reset, there is"),
                                         (before, (), None), (before, (49,), None), (set(), (), None)):
                told = self.judged(key, value, SOUND, excess=lambda ticks=ticks: ticks, resets=resets)
                self.assertEqual((told.is_so, words or "") == (words is None, words or "") and (words or "") in told.words, True, told)
        # Off at the end, or without any excess, nothing has to be asked.
        self.holds("stretch", 33, CUT, excess=None)
        self.holds("sound", True, SOUND | {"stretch": "0"}, excess=None)

    def test_a_recording_that_trips_or_ends_within_an_excess_does_not_show_its_stretch(self):
        told = verdict("m.csv", Check("stretch", "?", 99), recording_shown(REPLAY, None), Units())
        self.assertEqual((told.is_so, told.words), (False, "it isn't shown: torque trips at 30, and from there on a replay tells no "
                                                    "excess; its longest excess has 5 ticks"))
        open_end = recording_shown(REPLAY.replace("torque at 30", "torque none").replace("trip at 30", "trip never")
                                   .replace("plate at 40", "plate none"), lambda: {1999})
        self.assertEqual([verdict("m.csv", Check(key, "?", value), open_end, Units()).is_so for key, value in (
            ("stretch", 99), ("sound", True), ("cut", []), ("room", 0))], [False] * 4)

    def test_what_a_recording_shows(self):
        shown = recording_shown(REPLAY)
        self.assertEqual({key: shown.row[key] for key in ("first", "first_at", "cut", "cut_at", "stretch")},
                         {"first": "torque", "first_at": "30", "cut": "torque", "cut_at": "30", "stretch": "5"})
        self.assertEqual(shown.weights["load"], (7, 10))
        limited = recording_shown(REPLAY.replace("torque at 30", "torque none").replace("trip at 30", "trip never")
                                  .replace("plate at 40", "plate none").replace("pedal none", "pedal at 12"))
        self.assertEqual((limited.row["first"], limited.row["cut"], limited.row["off_at"]), ("pedal", "", ""))
        for key, value, is_so in (("cut", [], True), ("cut", ANY, False), ("sound", True, False), ("room", 0, True), ("room", 1, False),
                                  ("stretch", 5, True), ("stretch", 4, False)):
            self.assertIs(verdict("m.csv", Check(key, "?", value), limited, Units()).is_so, is_so, (key, value))
        for key, value, is_so in (("cut", ["torque"], True), ("cut", ["plate"], False), ("cut", [], False), ("sound", True, False),
                                  ("room", 0, False)):
            self.assertIs(verdict("m.csv", Check(key, "?", value), shown, Units()).is_so, is_so, (key, value))
        both = recording_shown(REPLAY.replace("plate at 40", "plate at 30").replace("pedal none", "pedal at 30"))
        self.assertEqual((both.row["first"], both.row["cut"]), ("pedal", "plate"))


PRINTED = {"limits": "reaction 34\nlapse none\nverdicts 3\nexcess 5\ntest 30\nspacing 80\nstretch 38\npeak 2300\n"
           "ramp none\nmissed 38\n",
           "replay": REPLAY.replace("torque at 30", "torque none").replace("trip at 30", "trip never").replace("plate at 40", "plate none"),
           "signals": "excess\n" + "1\n" * 5 + "0\n" * 1995,
           "record": "tick,torque,limit,path1,path2,on,found\n" + "".join(f"{tick},300,0,1,1,1,-\n" for tick in range(99)) + "99,200,0,1,1,1,-\n"}


class Files(InFolder):
    def setUp(self):
        super().setUp()
        self.calls = []
        self.put("cal.toml", "permit.threshold = 200\n")
        self.put("d.csv", "pedal,speed,raise,reset\n" + "0,0,0,0\n" * 100)
        self.put("c.toml", "".join(f'[[run]]\nname = "{name}"\ntrace = "d.csv"\nimage = "i.hex"\n' for name in ("b", "a", "a-2")))
        self.rows = [CUT, SOUND, SOUND | {"run": "a-2"}]
        self.enterContext(mock.patch.object(expected_runs, "printed_by", self.printed))

    def printed(self, command, *words, readings=None):
        self.calls.append((command, *words, *([readings] if readings else [])))
        weights = [{"run": row["run"], **dict.fromkeys(LIMITS, "1")} for row in self.rows]
        rows = {"table": self.rows, "margins": weights}.get(command)
        return PRINTED.get(command) or "".join(",".join(line) + "\n" for line in [rows[0], *(row.values() for row in rows)])

    def judged(self, text, is_strict=False):
        self.put("e.toml", f'calibration = "cal.toml"\n{text}' if "calibration" not in text else text)
        expected = Expected("e.toml", None)
        told = list(verdicts(expected, Asking(expected), is_strict))
        return [(one.subject, one.name, one.is_so) for one in told]

    def test_limits(self):
        told = self.judged("[limits]\nreaction = 34\nlapse = 99\nspacing = { least = 80, most = 79 }\npeak = 2299\nramp = 9999\nmissed = 37")
        self.assertEqual(told, [("limits", "reaction = 34", True), ("limits", "lapse = 99", False), ("limits", "spacing.least = 80", True),
                                ("limits", "spacing.most = 79", False), ("limits", "peak = 2299", False),
                                ("limits", "ramp = 9999", False), ("limits", "missed = 37", False)])
        self.assertEqual(self.calls, [("limits", "--cal", "cal.toml")])

    def test_runs_are_named_by_patterns_in_the_order_of_the_campaign(self):
        told = self.judged('campaign = "c.toml"\n[[expect]]\nrun = ["a*", "?"]\nstretch = 33')
        self.assertEqual(told, [(name, "stretch = 33", True) for name in ("a", "a-2", "b", "a")])

    def test_a_name_without_a_run_fails(self):
        told = self.judged('campaign = "c.toml"\n[[expect]]\nrun = ["b", "A", "x*"]\nstretch = 33')
        self.assertEqual(told[1:3], [("A", "names a run", False), ("x*", "names a run", False)])

    def test_a_run_that_no_line_names_is_told(self):
        text = 'campaign = "c.toml"\n[[expect]]\nrun = "b"\nstretch = 33'
        self.assertEqual(self.judged(text)[1:], [("a", "is named", None), ("a-2", "is named", None)])
        self.assertEqual(self.judged(text, True)[1:], [("a", "is named", False), ("a-2", "is named", False)])

    def test_calls_are_few_and_by_the_calibration(self):
        self.put("own.toml", "permit.threshold = 200\n" + "".join(f"{key}.limit = 10\n" for key in ("pairs", "torque", "answers")))
        text = 'calibration = "own.toml"\ncampaign = "c.toml"\n[[expect]]\nrun = "a"\nroom = 90\n[[recording]]\nfile = ["m.csv", "n.csv"]\nstretch = 5'
        self.assertEqual([told[2] for told in self.judged(text)], [True, None, None, True, True])
        cal = ("--cal", "own.toml")
        self.assertEqual(self.calls, [("table", *cal, "c.toml"), ("margins", *cal, "c.toml"), ("record", *cal, "c.toml", "a"), ("replay", *cal, "m.csv"),
                                      ("signals", *cal, "m.csv"), ("replay", *cal, "n.csv"), ("signals", *cal, "n.csv")])

    def test_a_run_that_ends_within_an_excess_shows_nothing(self):
        text = 'calibration = "own.toml"\ncampaign = "c.toml"\n[[expect]]\nrun = "a"\nstretch = 9\ncut = false\nsound = true'
        self.put("own.toml", "permit.threshold = 199\n")
        self.assertEqual([told[2] for told in self.judged(text)][:3], [False, False, False])
        self.assertEqual([call[0] for call in self.calls], ["table", "record"])
        self.put("own.toml", "permit.threshold = 200\n")
        self.assertEqual([told[2] for told in self.judged(text)][:3], [True, True, True])

    def test_inputs_are_the_files_that_are_read(self):
        self.put("own.toml", "")
        self.put("units.toml", 'tick = "10 ms"')
        self.put("e.toml", 'calibration = "own.toml"\ncampaign = "c.toml"\n[[expect]]\nrun = "a"\nsound = true\n[[recording]]\nfile = ["m.csv", "n.csv"]\nstretch = 5')
        self.assertEqual(set(inputs_of(Expected("e.toml", None))), {"e.toml", "own.toml", "c.toml", "d.csv", "i.hex", "units.toml", "m.csv", "n.csv"})

    def test_campaign_that_changes_meanwhile_is_told(self):
        self.rows = self.rows[:2]
        self.put("e.toml", 'campaign = "c.toml"\n[[expect]]\nrun = "a"\nsound = true')
        self.assertEqual(note_of(Asking(Expected("e.toml", None)).runs), "c.toml changed meanwhile")
