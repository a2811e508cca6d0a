"""The points of a verdict."""

import unittest
from collections import defaultdict
from types import SimpleNamespace

from egasim_tools.base.units import Units
from egasim_tools.evidence.conclusive_runs import Shown, recording_shown
from egasim_tools.report.verdicts import (FAILS, FITS, OPEN, beyond_point, cut_by, cut_point, evidence_point, held_of,
    is_on_first_ramp, lapse_point, listed_point, misses_point, named, pairs_point, peak_point, points, questions_point,
    room_point, sentence, time_point, verdict)

COVERAGE = [{"class": kind} for kind in ("script offset bus plate skip disturb flip halt timing wild path1-closed path1-closed "
                                         "path2-closed path-open lapse").split()]
LIMITS = {"reaction": "34", "lapse": "50", "verdicts": "3", "excess": "5", "spacing": "80", "stretch": "38", "peak": "2300", "ramp": "0",
          "missed": "38"}
PAIRS = {"pedal": 50, "plate": 50, "load": 50, "speed": 50, "up": 2, "down": 1, "limit": 10}
WEIGHTS = {"pedal": 10, "plate": 10, "load": 10, "speed": 10, "torque": 5, "answers": 9}


def row_of(name, kind, **columns):
    columns_without = ("first", "first_at", "cut", "cut_at", "off_at", "confirmed", "reaction", "stretch", "peak", "settled",
                       "onset", "acted", "trap", "trap_at")
    return {**dict.fromkeys(columns_without, ""), "run": name, "class": kind, "bound": "34", "last_on": "99", **columns}


def shown_by(name, kind):
    """A row that shows that R is kept: confirmed at 31, off for good at 60."""
    return row_of(name, kind, onset="0", acted="1", confirmed="31", reaction="29", settled="1", cut="torque", cut_at="31")


def drive_of(row, weights=(), ticks=100, **others):
    """A sound drive, of which each watch but these weighs nothing."""
    return {row["run"]: Shown(row, {watch: (dict(weights).get(watch, 0), limit) for watch, limit in WEIGHTS.items()}, ticks, **others)}


def played_of(**parts):
    rows = [row_of("sound", "none"), shown_by("halt-0", "halt")]
    return SimpleNamespace(**{"units": Units(), "limits": LIMITS, "coverage": COVERAGE, "has_ramp": False, "rows": rows, "taken": {}, "sweeps": [], "sound": ["sound"],
                              "drives": drive_of(rows[0], {"torque": 4}), "blind": [], "resets": defaultdict(list), "pairs": PAIRS,
                              "groups": lambda: [[row["run"] for row in parts.get("rows", rows)]], **parts})


def judged_of(*drives, **parts):
    """What is played with these sound drives."""
    together = {name: shown for drive in drives for name, shown in drive.items()}
    return played_of(drives=together, sound=list(together), **parts)


def asked_of(tolerant=40, falls=1, room=20, said=()):
    return SimpleNamespace(tolerant=tolerant, falls=falls, room=room, said=said)


def limits_of(**numbers):
    return {**LIMITS, **numbers}


class Verdicts(unittest.TestCase):
    def test_a_tick_and_the_fall_are_taken_off(self):
        for tolerant, falls, state in ((40, 1, FITS), (39, 0, FITS), (40, 2, FAILS), (38, 0, FAILS), (0, 0, FAILS), (39, None, OPEN),
                                       (38, None, FAILS), (None, 1, OPEN), (None, None, OPEN)):
            self.assertEqual(time_point("Here", 38, asked_of(tolerant, falls))[0], state, (tolerant, falls))
        self.assertEqual(time_point("Here", 38, asked_of())[1], "Here an excess lasts 38 ticks in a row at the most, and 38 are tolerated: "
                         "40 less 1, since it may begin between two ticks, and less 1 for the torque to fall after the cut.")

    def test_the_bound_for_lapses(self):
        """It is `missed`, whatever `lapse` says; with the ticks of a ramp, if N is 1."""
        for limits, has_ramp, tolerant, state in ((limits_of(lapse="none"), False, 39, FITS), (LIMITS, False, 38, FAILS),
                                                  (limits_of(missed="47"), False, 47, FAILS), (limits_of(missed="47"), False, 48, FITS),
                                                  (limits_of(ramp="48"), True, 86, FITS), (limits_of(ramp="48"), True, 85, FAILS),
                                                  (limits_of(ramp="none"), True, 39, FITS), (limits_of(missed="none"), True, 999, FAILS)):
            self.assertEqual(lapse_point(played_of(limits=limits, has_ramp=has_ramp), asked_of(tolerant, 0))[0], state, (limits, tolerant))

    def test_the_ramp_counts_from_the_fall_of_the_demand(self):
        self.assertEqual([held_of({"ramp": ramp}) for ramp in ("0", "1", "48", "none")], [0, 0, 47, None])
        self.assertEqual([held_of({"ramp": ramp}, ["--without-held-torque"]) for ramp in ("48", "none")], [0, None])
        played = played_of(limits=limits_of(ramp="48"), has_ramp=True)
        for tolerant, said, state in ((86, (), FITS), (85, (), FAILS), (39, ("--without-held-torque",), FITS), (38, ("--without-held-torque",), FAILS)):
            self.assertEqual(listed_point(played, asked_of(tolerant, 0, said=said))[0], state)
        self.assertIn("the fall of the demand 85 ticks, of which 47 on the ramp (if no raise is above the permit table), and 85 are tolerated",
                      listed_point(played, asked_of(86, 0))[1])
        self.assertIn("(--without-held-torque), an excess lasts 38 ticks in a row at the most, and 38",
                      listed_point(played, asked_of(39, 0, said=["--without-held-torque"]))[1])
        for said in ((), ("--without-held-torque",)):
            never = listed_point(played_of(limits=limits_of(ramp="none"), has_ramp=True), asked_of(said=said))
            self.assertEqual((never[0], "(ramp none)" in never[1]), (FAILS, True))

    def test_a_word_says_that_there_are_no_lapses(self):
        for has_ramp in (False, True):
            played = played_of(has_ramp=has_ramp, limits=limits_of(missed="none" if has_ramp else "38"))
            self.assertEqual([lapse_point(played, asked_of(said=said))[0] for said in ((), ("--without-lapses",))], [FAILS if has_ramp else FITS, FITS])
            self.assertIn("as was said (--without-lapses)", lapse_point(played, asked_of(said=["--without-lapses"]))[1])

    def test_a_recording_may_begin_on_a_ramp(self):
        self.assertEqual([is_on_first_ramp(7, {"ramp": ramp}) for ramp in ("0", "7", "8", "none")], [False, False, True, True])

    def test_why_there_is_no_bound_for_lapses(self):
        reason = "no bound holds for how long an excess lasts, but for those of claim 93: with a ramp (permit.fall)"
        told = [words for _, words in points(played_of(limits=limits_of(missed="none"), has_ramp=True), asked_of())]
        self.assertEqual([words.startswith(f"Under lapses, which aren't listed, {reason}") for words in told].count(True), 1)

    def test_sound_drives_are_those_that_are_declared(self):
        self.assertEqual(cut_point(played_of())[0], FITS)
        self.assertEqual(cut_point(played_of(sound=[], drives={}))[0], OPEN)
        cut = [row_of("sound", "none", first="pedal", cut="torque", cut_at="34"), row_of("test", "none", off_at="40"),
               row_of("limp", "lapse", first="pedal", first_at="9"), row_of("good", "none")]
        self.assertEqual(cut_point(judged_of(*map(drive_of, cut))), (
            FAILS, "Sound drives are cut, 3 of 4: sound by torque at 34, test off at 40, limp limited by pedal at 9."))

    def test_a_sound_drive_that_shows_nothing_is_not_judged(self):
        drives = [drive_of(row_of("never", "none", last_on="")), drive_of(row_of("trapped", "none", trap="fetch", trap_at="1")), drive_of(row_of("good", "none"))]
        self.assertEqual(cut_point(judged_of(*drives)), (
            OPEN, "Sound drives that don't show whether they are cut: never (its stages are on at no tick), trapped (its level 1 traps at 1)."))
        self.assertEqual(cut_point(judged_of(drives[2]))[0], FITS)
        cut = row_of("cut", "none", trap="fetch", trap_at="1", cut="torque", cut_at="2")
        self.assertEqual(cut_point(judged_of(drive_of(cut)))[0], FAILS)

    def test_a_sound_drive_that_shows_too_little_is_not_judged(self):
        """As in judge and find: it ends within an excess, here or right before a reset; it has a single tick; its lapse comes
        at its last tick; its level 1 executes nothing."""
        lapse = {"faults": [{"class": "lapse", "onset": 99, "after": [0]}]}
        for drive, why in (
                (drive_of(row_of("a", "none", stretch="3"), excess=lambda: {97, 98, 99}), "it ends too soon: at 99, its last tick, there is an excess"),
                (drive_of(row_of("a", "none", stretch="3"), resets=(0, 40), excess=lambda: {39}),
                 "it ends too soon: at 39, right before a reset, there is an excess"),
                (drive_of(row_of("a", "none", last_on="0"), ticks=1), "it has a single tick"),
                (drive_of(row_of("a", "lapse", onset="99", acted="1"), run=lapse), "no tick of the power cycle follows its fault"),
                (drive_of(row_of("a", "lapse", onset="99", acted="0"), run=lapse), "its fault never acts"),
                (drive_of(row_of("a", "none"), run={"slices": [[0] * 9]}), "its level 1 executes nothing")):
            said = f"Sound drives that don't show whether they are cut: a ({why})."
            self.assertEqual(cut_point(judged_of(drive)), (OPEN, said))
            self.assertEqual(room_point(judged_of(drive), asked_of(room=0)), (OPEN, f"Room of 0 % is wanted. {said}"))
            self.assertEqual(sentence([state for state, _ in points(judged_of(drive), asked_of())])[:10], "Not judged")

    def test_a_recording_counts_as_a_sound_drive(self):
        """Its weights are those that judge compares with the wanted room."""
        lines = ["ticks 2000", *(f"{pair} none; greatest 8 of 10" for pair in ("pedal", "plate", "load", "speed")), "torque none; greatest 2 of 5",
                 "trip never", "stretch 0", "surplus 1"]
        recording = {"m.csv": recording_shown("\n".join(lines))}
        played = played_of(drives={**drive_of(row_of("sound", "none")), **recording})
        self.assertEqual([room_point(played, asked_of(room=room))[0] for room in (20, 21)], [FITS, FAILS])
        self.assertIn("m.csv comes nearest to a limit: pedal weighs 8 of 10, which leaves 20 %", room_point(played, asked_of())[1])
        self.assertEqual(cut_point(played), (FITS, "None of the sound drives is cut (sound, m.csv)."))
        lines[5:7] = "torque at 30; greatest 5 of 5", "trip at 30"
        cut = played_of(drives={**drive_of(row_of("sound", "none")), "m.csv": recording_shown("\n".join(lines))})
        self.assertEqual(cut_point(cut), (FAILS, "Sound drives are cut, 1 of 2: m.csv by torque at 30."))

    def test_room_of_a_sound_drive_that_shows_nothing_is_not_judged(self):
        never, good = drive_of(row_of("never", "none", last_on="")), drive_of(row_of("good", "none"), {"torque": 4})
        trapped = drive_of(row_of("trapped", "none", trap="fetch", trap_at="1"))
        for drives, room, state in (([never], 20, OPEN), ([trapped, good], 20, OPEN), ([trapped, good], 21, FAILS), ([good], 20, FITS)):
            told = room_point(judged_of(*drives), asked_of(room=room))
            self.assertEqual(told[0], state)
            self.assertEqual("don't show" in told[1], state == OPEN)

    def test_room_is_that_of_the_nearest_limit(self):
        self.assertEqual([room_point(played_of(), asked_of(room=room))[0] for room in (0, 20, 21, None)], [FITS, FITS, FAILS, OPEN])
        self.assertEqual(room_point(played_of(sound=[], drives={}), asked_of())[0], OPEN)
        third = played_of(drives={"sound": Shown(row_of("sound", "none"), {"pedal": (0, 10), "torque": (2, 3)}, 100)})
        self.assertEqual([room_point(third, asked_of(room=room))[0] for room in (33, 34)], [FITS, FAILS])
        self.assertIn("sound comes nearest to a limit: torque weighs 2 of 3, which leaves 33 %", room_point(third, asked_of())[1])

    def test_pairs(self):
        """A pair finds a track that is off by all that it can be, within what is tolerated."""
        for changes, tolerant, state, words in (
                ({}, 40, FITS, "by more than its tolerance is found within 5 ticks: pedal 50 of 1000, plate 50 of 1000, load 50 of 1000, speed 50 of 8000."),
                ({"pedal": 999, "speed": 7999}, 40, FITS, "pedal 999 of 1000"), ({}, None, OPEN, "(--tolerant TIME)"),
                ({"pedal": 1000, "speed": 8000}, 40, FAILS, "as great as the range of a reading: pedal (1000 of 1000), speed (8000 of 8000)."),
                ({"limit": 76}, 40, FITS, "within 38 ticks"), ({"limit": 77}, 40, FAILS, "within 39 ticks, and only 38 are left"),
                ({"limit": 10000}, None, OPEN, "within 5000 ticks"), ({"limit": 10000}, 40, FAILS, "within 5000 ticks")):
            told = pairs_point(played_of(pairs=PAIRS | changes), asked_of(tolerant))
            self.assertEqual(told[0], state)
            self.assertIn(words, told[1])

    def test_units_stand_beside_the_numbers(self):
        units = Units(10**7)
        self.assertEqual(time_point("Here", 38, asked_of(40, 1), units)[1],
                         "Here an excess lasts 38 ticks (380 ms) in a row at the most, and 38 (380 ms) are tolerated: 40 (400 ms) "
                         "less 1, since it may begin between two ticks, and less 1 (10 ms) for the torque to fall after the cut.")
        self.assertIn("by 2300 tenths of Nm (230 Nm) at the most", peak_point(played_of(units=units))[1])
        self.assertIn("80 (800 ms) or more apart", misses_point(played_of(units=units))[1])
        self.assertEqual([misses_point(played_of(has_ramp=ramp))[1].endswith("at a missed tick.") for ramp in (False, True)], [False, True])
        self.assertEqual(cut_by({"cut": "torque", "cut_at": "9"}, units), "by torque at 9 (90 ms)")

    def test_missed_ticks(self):
        for wrong, spacing, state, words in (("3", "80", FITS, "80 or more apart"), ("1", "none", FAILS, "each missed tick"),
                                             ("2", "none", FAILS, "N = 2"), ("4", "none", FAILS, "however far apart")):
            point = misses_point(played_of(limits=limits_of(verdicts=wrong, spacing=spacing)))
            self.assertEqual(point[0], state)
            self.assertIn(words, point[1])

    def test_peak_and_questions(self):
        self.assertEqual([peak_point(played_of(limits=limits_of(peak=peak)))[0] for peak in ("0", "1")], [FAILS, FITS])
        self.assertEqual(questions_point(played_of())[0], FITS)
        self.assertEqual(questions_point(played_of(blind=["no a", "no b"])), (FAILS, "The questions are blind: no a; no b."))

    def test_each_class_of_listed_faults_needs_a_run_that_shows_something(self):
        self.assertEqual(evidence_point(played_of(rows=[row_of("sound", "none"), row_of("l", "lapse")]))[0], OPEN)
        late = {**shown_by("halt-90", "halt"), "onset": "60"}
        self.assertEqual(evidence_point(played_of(rows=[shown_by("halt-0", "halt"), late])),
                         (FITS, "1 of 2 runs under a listed fault show that R is kept, at least one of each class that the campaign has, 1 of the 12 that can show it. "
                          "(A fault that acts may change nothing of its run.)"))
        self.assertEqual(evidence_point(played_of(rows=[shown_by("halt-0", "halt"), {**late, "class": "skip"}])),
                         (FAILS, "Reactions without evidence: 1 of 2 runs under a listed fault show that R is kept, and none under skip. "
                          "A run may show it if its fault begins at the tick at which its excess is confirmed: skip at 31."))

    def test_a_class_that_switches_the_stages_off_itself_is_left_out(self):
        off = row_of("off", "path-open", onset="0", acted="1")
        left = " Left out, since such a fault switches the stages off itself: path-open."
        told = evidence_point(played_of(rows=[shown_by("halt-0", "halt"), off]))
        self.assertEqual((told[0], told[1].endswith(left), "1 of 1 runs" in told[1]), (FITS, True, True))
        told = evidence_point(played_of(rows=[row_of("sound", "none"), off]))
        self.assertEqual((told[0], told[1].endswith(left)), (OPEN, True))

    def test_a_class_without_evidence_is_told_an_onset_that_may_show_it(self):
        """The tick at which the excess is confirmed, of a run of the same drive in which no fault begins before."""
        flip = row_of("flip-3", "flip", onset="3", acted="1", cut="mirror", cut_at="3")
        for confirmed, onset in ((row_of("a", "none", confirmed="31", settled="1"), 31), (row_of("a", "none", confirmed="31", settled="0"), None),
                                 (row_of("a", "none"), None), ({**shown_by("a", "bus"), "onset": "32"}, 31), (shown_by("a", "bus"), None)):
            told = evidence_point(played_of(rows=[confirmed, flip]))
            self.assertEqual(told[0], FAILS)
            self.assertEqual("confirmed: flip at 31." in told[1], onset is not None, told)
        other = [row_of("a", "none", confirmed="31", settled="1"), flip]
        self.assertNotIn("flip at", evidence_point(played_of(rows=other, groups=lambda: [["a"], ["flip-3"]]))[1])
        self.assertNotIn("flip at", evidence_point(played_of(rows=other, resets=defaultdict(lambda: [0, 9])))[1])

    def test_a_run_of_several_power_cycles_shows_nothing(self):
        for resets, state in (([], FITS), ([0], FITS), ([0, 50], FAILS), ([1], FAILS)):
            self.assertEqual(evidence_point(played_of(resets=defaultdict(lambda resets=resets: resets)))[0], state)
        rows = [shown_by("a", "halt"), shown_by("b", "halt")]
        point = evidence_point(played_of(rows=rows, resets={"a": [], "b": [9]}))
        self.assertEqual(point, (FITS, "1 of 2 runs under a listed fault show that R is kept, at least one of each class that the campaign has, 1 of the 12 that can show it. "
                                 "(A fault that acts may change nothing of its run.) "
                                 "Of several power cycles, and so not counted: 1; see the pictures."))

    def test_more_than_what_is_proved_is_told_first(self):
        self.assertEqual(beyond_point(played_of()), [])
        rows = [{**shown_by("a", "halt"), "reaction": "35"}, row_of("l", "lapse", reaction="35", stretch="39", peak="2300")]
        swept = SimpleNamespace(runs=["s"], reactions={"halt": 35, "lapse": 99, "bus": None})
        self.assertEqual(beyond_point(played_of(rows=rows, sweeps=[swept])), [
            (FAILS, "Against what is proved, more than limits allow: reaction of a, reaction of halt in the sweep of s.")])
        self.assertEqual(points(played_of(rows=rows), asked_of())[0][1][:7], "Against")
        self.assertEqual(beyond_point(played_of(taken={"halt": SimpleNamespace(beyond=["b"]), "bus": SimpleNamespace(beyond=[])})), [
            (FAILS, "Against what is proved, more than limits allow: ticks until b is found.")])

    def test_it_fits_only_where_all_does(self):
        self.assertEqual({state for state, _ in points(played_of(), asked_of())}, {FITS})
        played = played_of(blind=["no tie of the comparison"], limits=limits_of(peak="0"))
        states = [state for state, _ in points(played, asked_of(tolerant=None))]
        self.assertEqual(states, [FAILS] * 2 + [OPEN] * 3 + [FITS] * 4)
        self.assertEqual(sentence(states), "It doesn't fit, in 2 of 9 points; 3 more aren't judged.")
        self.assertEqual(sentence([FAILS, FITS]), "It doesn't fit, in 1 of 2 points.")
        self.assertEqual(sentence([FAILS, OPEN]), "It doesn't fit, in 1 of 2 points; 1 more isn't judged.")
        self.assertEqual(sentence([OPEN, FITS]), "Not judged, in 1 of 2 points.")
        self.assertEqual(sentence([FITS, FITS]), "It fits, in all 2 points.")

    def test_lines_stand_as_html(self):
        lines = list(verdict(played_of(blind=["no <b>"]), asked_of()))
        self.assertEqual(lines[0], '<div class="verdict"><p><strong>It doesn\'t fit, in 1 of 9 points.</strong></p><ul>')
        self.assertEqual(lines[1], "<li><strong>Doesn't fit:</strong> The questions are blind: no &lt;b&gt;.</li>")
        self.assertEqual((len(lines), lines[-1]), (11, "</ul></div>"))

    def test_many_names_are_cut(self):
        self.assertEqual(named(map(str, range(10))), "0, 1, 2, 3, 4, 5, 6, 7, 8, 9")
        self.assertEqual(named(map(str, range(12))), "0, 1, 2, 3, 4, 5, 6, 7, 8, 9 and 2 more")


if __name__ == "__main__":
    unittest.main()
