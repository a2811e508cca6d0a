"""Numbers that are put into the text of a calibration file."""

import unittest

from notes import note_of

from egasim_tools.calibration.number_edits import changed_numbers, numbers_of, parsed, places_of, replaced, with_questions

TEXT = """\ufeff# answer = 1, and pedal = [1, 2]\r
[permit]
pedal = [0, 500, 1000] # raise = 3
text = "answer = 9"
[[question]]
pedal = [ 0x1F, # the first
  4_0, ]
raise=+7
"answer"\t= 9   # answer = 9
[[question]]
pedal = [5,6]
'raise' = 1
answer = 2
"""


class Putting(unittest.TestCase):
    def test_numbers_alone_change(self):
        questions = parsed("c", TEXT)["question"]
        questions[0].update({"pedal": [31, 41], "raise": 8, "answer": 10})
        questions[1].update({"pedal": [65535, 0], "answer": 3})
        self.assertEqual(with_questions("c", TEXT, questions), TEXT.replace("4_0", "41").replace("raise=+7", "raise=8")
                         .replace('"answer"\t= 9 ', '"answer"\t= 10 ').replace("[5,6]", "[65535,0]").replace("answer = 2", "answer = 3"))

    def test_nothing_changes_if_no_number_does(self):
        self.assertEqual(with_questions("c", TEXT, parsed("c", TEXT)["question"]), TEXT)
        self.assertEqual(changed_numbers("c", TEXT, parsed("c", TEXT)["question"]), {})

    def test_places(self):
        places = places_of("c", TEXT)
        self.assertEqual({key: TEXT[slice(*span)] for key, span in places.items()},
                         {(0, "pedal", 0): "0x1F", (0, "pedal", 1): "4_0", (0, "raise", 0): "+7", (0, "answer", 0): "9",
                          (1, "pedal", 0): "5", (1, "pedal", 1): "6", (1, "raise", 0): "1", (1, "answer", 0): "2"})

    def test_words_are_replaced_in_their_order(self):
        self.assertEqual(replaced("abcdef", {(4, 6): 12, (0, 1): "X"}), "Xbcd12")
        self.assertEqual(replaced("abc", {}), "abc")

    def test_numbers_have_their_places(self):
        self.assertEqual(list(numbers_of([{"raise": 3, "load": [4, 5]}])),
                         [((0, "raise", 0), 3), ((0, "load", 0), 4), ((0, "load", 1), 5)])

    def test_what_is_written_otherwise_is_told(self):
        text = '[[question]]\n"\\u0061nswer" = 5\n"lo\\u0061d" = [1, 2]\n'
        self.assertEqual(note_of(with_questions, "c", text, [{"answer": 6, "load": [1, 2]}]),
                         "c: an answer isn't written as `answer = N`; put the numbers in by hand")
        self.assertEqual(note_of(with_questions, "c", text, [{"answer": 5, "load": [1, 3]}]),
                         "c: a question isn't written as expected; put the numbers in by hand")
        self.assertEqual(note_of(parsed, "c", "a = "), "c: Python's tomllib, of TOML 1.0, doesn't read it; put the numbers in by hand")


if __name__ == "__main__":
    unittest.main()
