"""The words of `egasim study faults`."""

import unittest

from egasim_tools.base.command_line import Refused
from egasim_tools.study.plan import FAULTS
from egasim_tools.study.study_tool import classes_of, onsets_of


class Words(unittest.TestCase):
    def test_onsets(self):
        for word, onsets in (("7", [7]), ("5,7", [5, 7]), ("0-3", [0, 1, 2, 3]), ("0-9/4", [0, 4, 8]), ("19999", [19999]),
                             ("3-3", [3]), ("1,8-9", [1, 8, 9]), ("2,0-2", [2, 0, 1])):
            self.assertEqual(onsets_of(word), onsets)

    def test_what_are_no_onsets(self):
        for word in ("", "9-1", "0-20000", "20000", "-1", "1-", "0-9/0", "1,,2", "a", "٣", "1" * 400):
            self.assertRaisesRegex(Refused, "^no onsets: ", onsets_of, word)

    def test_classes(self):
        self.assertEqual((classes_of("lapse,bus"), classes_of("all")), (["lapse", "bus"], list(FAULTS)))

    def test_unknown_class_is_told_with_those_that_there_are(self):
        told = "^no class track; the classes are script, offset, .*, lapse; all stands for each of them$"
        self.assertRaisesRegex(Refused, told, classes_of, "bus,track")
