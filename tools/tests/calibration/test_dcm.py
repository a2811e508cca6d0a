"""DCM files: what is read, what is refused, and what is written."""

import unittest
from fractions import Fraction

from egasim_tools.calibration.dcm import Label, labels_in, number_text, written_label
from notes import note_of

HEAD = "* a comment\n\nKONSERVIERUNG_FORMAT 2.0\n"
FULL = HEAD + '''
FUNKTIONEN
   FKT EGM "1.0" "END is no end here"
END

! another comment
. and one more
MODULKOPF egm
FESTWERT A
   LANGNAME "it has 'words'"
   FUNKTION EGM
   EINHEIT_W "Nm"
   WERT -1.25e1
END
FESTWERT B
   TEXT "true"
END
STUETZSTELLENVERTEILUNG S 7
*SST
   EINHEIT_X "%"
   ST/X 0 10 20 30 40 50
   ST/X 60.5
END
KENNLINIE L 2
   EINHEIT_X "1/min"
   ST/X 1 2
   WERT .5
   WERT 6.
END
GRUPPENKENNFELD G 2 3
*SSTX S
*SSTY T
   ST/X 1 2
   ST/Y 10
   WERT 1 2
   ST/Y 20
   WERT 3
   WERT 4
   ST/Y 30
   WERT 5 6
END
FESTWERTEBLOCK K 2 @ 2
   WERT 1 2 3 4
END
TEXTSTRING T
   TEXT "words of it"
END
'''


class Dcm(unittest.TestCase):
    def label(self, text):
        [[label]] = labels_in("a.dcm", HEAD + text).values()
        return label

    def test_labels_of_each_kind_are_read(self):
        labels = labels_in("a.dcm", FULL.replace("\n", "\r\n"))
        self.assertEqual(list(labels), ["A", "B", "S", "L", "G", "K", "T"])
        a, b, s, curve, group = (labels[name][0] for name in "ABSLG")
        self.assertEqual((a.rows, a.units, a.line), ([[Fraction(-25, 2)]], {"W": "Nm"}, 12))
        self.assertEqual((b.texts, b.rows), (["true"], [[]]))
        self.assertEqual((s.points["X"][-2:], s.units), ([50, Fraction(121, 2)], {"X": "%"}))
        self.assertEqual((curve.points["X"], curve.rows), ([1, 2], [[Fraction(1, 2), 6]]))
        self.assertEqual((group.points, group.rows), ({"X": [1, 2], "Y": [10, 20, 30]}, [[1, 2], [3, 4], [5, 6]]))
        self.assertEqual(group.shared, {"X": "S", "Y": "T"})

    def test_variants_of_a_name_are_all_there(self):
        labels = labels_in("a.dcm", HEAD + "FESTWERT A\nWERT 1\nEND\nFESTWERT A\nVAR V=1\nWERT 2\nEND\n")
        self.assertEqual([label.rows for label in labels["A"]], [[[1]], [[2]]])

    def test_what_is_no_dcm_is_refused_by_its_line(self):
        for text, words in (
                ("", "a.dcm has no KONSERVIERUNG_FORMAT 2.0"),
                ("* KONSERVIERUNG_FORMAT 2.0\n", "a.dcm has no KONSERVIERUNG_FORMAT 2.0"),
                ("KONSERVIERUNG_FORMAT 1.0\n", "a.dcm: line 1: KONSERVIERUNG_FORMAT 2.0 must stand first"),
                ("FESTWERT A\nWERT 1\nEND\n", "a.dcm: line 1: KONSERVIERUNG_FORMAT 2.0 must stand first"),
                (HEAD + "FESTWERD A\n", "a.dcm: line 4: FESTWERD is no label of this format"),
                (HEAD + "END\n", "a.dcm: line 4: END is no label of this format"),
                (HEAD + "FESTWERT\nWERT 1\nEND\n", "a.dcm: line 4: FESTWERT needs a name"),
                (HEAD + "KENNLINIE A\nEND\n", "a.dcm: line 4: KENNLINIE needs a name and how many points it has"),
                (HEAD + "KENNFELD A 2\nEND\n", "a.dcm: line 4: KENNFELD needs a name and how many points it has"),
                (HEAD + "KENNLINIE A 0\nEND\n", "a.dcm: line 4: KENNLINIE needs a name and how many points it has"),
                (HEAD + "FESTWERT A\nWERT 1\n", "a.dcm: line 4: A has no END"),
                (HEAD + "FESTWERT A\nWERT 1\nFESTWERT B\nWERT 1\nEND\n", "a.dcm: line 4: A has no END"),
                (HEAD + "FUNKTIONEN\nFKT A\n", "a.dcm: line 4 begins what has no END"),
                (HEAD + "FESTWERT A\nWERT 1,5\nEND\n", "a.dcm: line 5: 1,5 is no number"),
                (HEAD + "FESTWERT A\nWERT nan\nEND\n", "a.dcm: line 5: nan is no number"),
                (HEAD + "FESTWERT A\nWERT 1e999\nEND\n", "a.dcm: line 5: 1e999 is no number"),
                (HEAD + "FESTWERT A\nEND\n", "a.dcm: line 4: A has 0 numbers where 1 are wanted"),
                (HEAD + "FESTWERT A\nWERT 1 2\nEND\n", "a.dcm: line 4: A has 2 numbers where 1 are wanted"),
                (HEAD + "KENNLINIE A 2\nST/X 1\nWERT 1 2\nEND\n", "a.dcm: line 4: A says 2 points of X, and has 1"),
                (HEAD + "KENNLINIE A 2\nST/X 1 2\nWERT 1\nEND\n", "a.dcm: line 4: A has 1 numbers where 2 are wanted"),
                (HEAD + "KENNFELD A 1 2\nST/X 1\nST/Y 1\nWERT 1\nEND\n", "a.dcm: line 4: A says 2 points of Y, and has 1"),
                (HEAD + "KENNFELD A 1 2\nST/X 1\nST/Y 1\nWERT 1\nST/Y 2\nEND\n", "a.dcm: line 4: A has 0 numbers where 1 are wanted"),
                (HEAD + "KENNFELD A 1 1\nST/X 1\nWERT 1\nST/Y 1\nEND\n", "a.dcm: line 6: the numbers of a KENNFELD stand below an ST/Y")):
            self.assertEqual(note_of(labels_in, "a.dcm", text), words, text)

    def test_a_label_is_written_as_it_is_read(self):
        label = Label("GRUPPENKENNFELD", "G", 4, [7, 2], {"X": [Fraction(number, 10) for number in range(7)], "Y": [1, 2]},
                      [[Fraction(number, 4) for number in range(7)], [0] * 7], {"X": "1/min", "Y": "%", "W": ""}, {"Y": "T"})
        lines = list(written_label(label, "what it is"))
        self.assertEqual(lines[:3], ["GRUPPENKENNFELD G 7 2", "*SSTY T", '   LANGNAME "what it is"'])
        self.assertIn("   ST/X 0.0 0.1 0.2 0.3 0.4 0.5", lines)
        self.assertEqual(self.label("\n".join(lines)), label)

    def test_numbers_are_written_exactly(self):
        for number, text in ((5, "5.0"), (Fraction(1, 8), "0.125"), (Fraction(-3, 10), "-0.3"), (10**6, "1000000.0")):
            self.assertEqual(number_text(number), text)
