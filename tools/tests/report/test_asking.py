"""What a page is made of, as far as no program is called."""

import os
import tempfile
import unittest
from unittest import mock

from notes import note_of

from egasim_tools.base.files import TOP
from egasim_tools.report import asking
from egasim_tools.calibration.parameters import calibration_of
from egasim_tools.report.asking import Asking, blind_for, declared, document, own_files
from egasim_tools.report.program_results import Swept, groups_of, sounds_in


class Playing(unittest.TestCase):
    def test_comments_declare_runs_sound(self):
        self.assertEqual(sounds_in("# sound: a b\n[[run]]\n  #sound:c\nname = 'x' # sound: d\n# sounds: e\n#sound:\n"), ["a", "b", "c"])
        self.assertEqual(sounds_in(""), [])

    def test_a_sound_run_has_no_fault_but_a_lapse(self):
        runs = {"a": {}, "b": {"faults": []}, "c": {"faults": [{"class": "lapse"}]}, "d": {"faults": [{"class": "bus"}]}}
        self.assertEqual(declared("c.toml", runs, ["c", "a", "c"]), ["a", "c"])
        self.assertEqual(declared("c.toml", runs, []), [])
        self.assertEqual(note_of(declared, "c.toml", runs, ["b", "d"]), "d is declared sound, and has a fault")
        self.assertEqual(note_of(declared, "c.toml", runs, ["e"]), "c.toml has no run e, which is declared sound")

    def test_runs_that_differ_in_their_faults_alone_are_swept_once(self):
        base = {"trace": "t", "image": "i"}
        runs = {"a": base, "b": {**base, "faults": [{}]}, "c": {**base, "engine": "diesel"}, "d": {**base, "slices": [[1]]},
                "e": {**base, "engine": "gasoline"}}
        self.assertEqual(list(groups_of(runs)), [["a", "b", "e"], ["c"], ["d"]])

    def test_the_reference_is_blind_for_some_things(self):
        self.assertEqual(blind_for(calibration_of(None))[0], "no 1 in bit 0 of the pedal")
        with open(os.path.join(TOP, "examples", "calibration", "reference.toml"), encoding="utf-8") as file:
            text = file.read()
        with tempfile.NamedTemporaryFile("w", suffix=".toml") as file:
            file.write(text.replace("answer = 55753", "answer = 55754"))
            file.flush()
            self.assertEqual(note_of(blind_for, calibration_of(file.name)), "answer 1 isn't what this tool works out")

    def test_lines_of_a_sweep(self):
        swept = Swept(["a"], 2, ["halt: runs 3; none 1; torque 2; reaction 29", "path-open: runs 3; none 3; torque 0; reaction none",
                                 "greatest reaction 29"])
        self.assertEqual(swept.counts, {"halt": {"runs": "3", "none": "1", "torque": "2"},
                                        "path-open": {"runs": "3", "none": "3", "torque": "0"}})
        self.assertEqual(swept.reactions, {"halt": 29, "path-open": None})

    def test_the_files_of_the_call(self):
        sums = {"/bin/p": (1, "a", "/bin/p"), "c.toml": (1, "b", "c.toml"), "docs/PROVED.md": (1, "c", "/top/docs/PROVED.md")}
        with mock.patch.object(asking, "program", lambda: "/bin/p"):
            asked = Asking("c.toml", None)
            asked.sums = sums
            self.assertEqual(asked.files(), ["c.toml"])

    def test_what_a_page_is_made_from(self):
        names = own_files("own.toml")
        self.assertNotIn("examples/calibration/reference.toml", names)
        self.assertEqual(own_files(None), ["examples/calibration/reference.toml", *names])
        self.assertTrue({"docs/PROVED.md", "tools/egasim_tools/report/asking.py", "tools/egasim_tools/calibration/question_coverage.py", "tools/report_files/page.css"} <= set(names))
        self.assertTrue(all(os.path.isfile(os.path.join(TOP, name)) for name in names))
        self.assertTrue(document("SAFETY.md").startswith("# For a safety case"))
        with open(os.path.join(TOP, "VERSION"), encoding="utf-8") as file:
            self.assertIn(f"`egasim` {file.read().strip()}, ", document("SAFETY.md").split("\n## ")[0])


if __name__ == "__main__":
    unittest.main()
