"""Recorded readings of a coupled run, worked out by hand of docs/CONCEPT.md."""

import unittest

from in_folder import InFolder
from egasim_tools.base.unit_rules import readings_of
from egasim_tools.measurement.recordings import HEADER, Recording, Spans, pieces_of

ANSWER = [300, 1500, 250, 0, 1, 450, 160, 170, 0]  # pedal, speed, raise, reset, brake, position, loads, torque
SOUND = [300, 700, 450, 550, 160, 170, 1500, 1500, 250, 65285, 1, 0]


def fault(kind, **keys):
    return {"class": kind, "onset": 5, **keys}


class Readings(unittest.TestCase):
    def test_sound_tracks(self):
        self.assertEqual(readings_of(ANSWER, None, 0), SOUND)
        self.assertEqual(readings_of([0, 0, 0, 1, 0, 1000, 0, 65535, 0], None, 9), [0, 1000, 1000, 0, 0, 65535, 0, 0, 0, 65535, 0, 1])

    def test_a_fault_changes_its_track_from_its_onset_on(self):
        for one, track, place in ((7, 0, 0), (8, 3, 3), (9, 5, 5), (65535, 7, 7), (0, 8, 10), (1, 9, 11)):
            script = fault("script", track=track, values=[one])
            self.assertEqual(readings_of(ANSWER, script, 4), SOUND)
            self.assertEqual(readings_of(ANSWER, script, 5), [*SOUND[:place], one, *SOUND[place + 1:]])
        turns = [readings_of(ANSWER, fault("script", track=4, values=[1, 2, 3]), tick)[4] for tick in range(4, 10)]
        self.assertEqual(turns, [160, 1, 2, 3, 1, 2])

    def test_an_offset_is_cut_at_both_ends_and_a_mask_spares_the_check_word(self):
        for add, wanted in ((-160, 0), (-161, 0), (-159, 1), (100, 260), (65375, 65535), (65535, 65535)):
            self.assertEqual(readings_of(ANSWER, fault("offset", track=4, add=add), 5)[4], wanted)
        self.assertEqual(readings_of(ANSWER, fault("bus", mask=65535), 5)[8:10], [65285, 65285])

    def test_other_classes_change_no_reading(self):
        for kind in ("plate", "skip", "disturb", "flip", "halt", "timing", "wild", "path1-closed", "path2-closed", "path-open", "lapse"):
            self.assertEqual(readings_of(ANSWER, fault(kind), 5), SOUND)


def spans_of(ticks, resets, closed=(), test=3):
    """The drive spans of a run, as lists of ticks. At the ticks `closed` a path conducts, as at all that aren't read back."""
    spans, told = Spans(test), []
    for tick in range(ticks):
        if spans.begins(tick, tick in resets, tick in closed or tick - max([-99, *(r for r in resets if r <= tick)]) != test):
            told.append([])
        if spans.is_driven:
            told[-1].append(tick)
    return told


class DriveSpans(unittest.TestCase):
    def test_a_drive_span_begins_at_tick_0_and_behind_a_passed_test(self):
        self.assertEqual(spans_of(4, []), [[0, 1, 2, 3]])
        self.assertEqual(spans_of(10, [3]), [[0, 1, 2], [7, 8, 9]])
        self.assertEqual(spans_of(6, [0]), [[4, 5]])
        self.assertEqual(spans_of(14, [0, 6]), [[4, 5], [10, 11, 12, 13]])

    def test_none_begins_behind_a_failed_or_broken_test(self):
        self.assertEqual(spans_of(10, [3], closed=[6]), [[0, 1, 2]])
        self.assertEqual(spans_of(12, [3], closed=[7, 8]), [[0, 1, 2], [7, 8, 9, 10, 11]])
        self.assertEqual(spans_of(12, [3, 5]), [[0, 1, 2], [9, 10, 11]])
        self.assertEqual(spans_of(12, [3, 6]), [[0, 1, 2], [10, 11]])
        self.assertEqual(spans_of(12, [3, 7]), [[0, 1, 2], [11]])  # the tick behind the passed test resets
        self.assertEqual(spans_of(4, [0]), [])


class Recordings(InFolder):
    def recorded(self, name, resets, fault_said=None, ticks=12):
        recording = Recording(name, fault_said, 3)
        for tick in range(ticks):
            conducts = "0" if tick - max([-99, *(r for r in resets if r <= tick)]) == 3 else "1"
            recording.add(tick, [tick, 0, 0, int(tick in resets), 0, 0, 0, 0, 0], {"path1": conducts, "path2": conducts})
        return dict(recording.files()), list(recording.notes(ticks))

    def test_a_file_for_each_drive_span(self):
        files, notes = self.recorded("my.v1.csv", [2, 8])
        self.assertEqual({name: [line.split(",")[0] for line in text.splitlines()[1:]] for name, text in files.items()},
                         {"my.v1.csv": ["0", "1"], "my.v1-2.csv": ["6", "7"]})
        self.assertTrue(all(text.startswith(HEADER) for text in files.values()))
        self.assertEqual(notes, ["my.v1.csv has the ticks 0 to 1 of the run, a drive span",
                                 "my.v1-2.csv has the ticks 6 to 7 of the run, a drive span"])

    def test_pieces_of_an_earlier_call_are_told(self):
        for name in ("r-1.csv", "r-2.csv", "r-3.csv", "r-4.csv", "r-6.csv", "r-x.csv", "or-2.csv", "r-2", "d/r-2.csv"):
            self.put(name, "old")
        self.assertEqual(pieces_of("r.csv"), ["r-2.csv", "r-3.csv", "r-4.csv"])
        self.assertEqual((pieces_of("d//r.csv"), pieces_of("gone/r.csv")), (["d//r-2.csv"], []))
        told = [f"r-{number}.csv was there before, and is no part of this recording" for number in (2, 3, 4)]
        self.assertEqual(self.recorded("r.csv", [])[1], told)
        self.assertEqual(self.recorded("r.csv", [2, 8])[1][2:], told[1:])
        self.assertEqual(self.recorded("r.csv", [0], ticks=3)[1], ["r.csv wasn't written: the run has no drive span", *told])
        self.assertEqual(self.recorded("r.csv", [0])[1], ["r.csv has the ticks 4 to 11 of the run, a drive span", *told])

    def test_notes_tell_where_a_replay_may_differ(self):
        self.assertEqual(self.recorded("r", [])[1], [])
        self.assertEqual(self.recorded("r", [], fault("halt"))[1],
                         ["halt touches level 2: from tick 5 of the run on a replay may tell what level 2 doesn't"])
        self.assertEqual(self.recorded("r", [], fault("halt"), 5)[1], [])
        self.assertEqual(self.recorded("r", [], fault("wild"))[1], [])
        self.assertEqual(self.recorded("r", [0], ticks=3), ({}, ["r wasn't written: the run has no drive span"]))
