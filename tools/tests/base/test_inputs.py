"""Files that change between a tool's calls of the program: report, judge and find end, and say which."""

import contextlib
import os
from unittest import mock

from in_folder import InFolder
from egasim_tools.base.inputs import Inputs
from egasim_tools.calibration import find_tool
from egasim_tools.evidence import judge_tool
from notes import note_of

READ = ("c.toml", "d.csv", "i.hex", "m.csv", "own.toml", "units.toml")


class InputsThatChange(InFolder):
    def setUp(self):
        super().setUp()
        self.put("c.toml", '[[run]]\nname = "a"\ntrace = "d.csv"\nimage = "i.hex"\n')
        self.put("e.toml", 'campaign = "c.toml"\ncalibration = "own.toml"\n[[expect]]\nrun = "a"\nsound = true\n[[recording]]\nfile = "m.csv"\nsound = true\n')
        self.put("units.toml", 'tick = "10 ms"')
        for name in ("d.csv", "i.hex", "m.csv", "own.toml", "program"):
            self.put(name, name)

    def change(self, name):
        with open(name, "a", encoding="utf-8") as file:
            file.write("# another byte\n")

    def test_the_first_content_counts(self):
        inputs = Inputs(["d.csv", "gone.csv"])
        self.assertEqual((list(inputs.sums), inputs.sums["d.csv"][0]), (["d.csv"], 5))
        inputs.add_sum("other name", "i.hex")
        self.assertIsNone(note_of(inputs.refuse_changes))
        self.change("d.csv")
        inputs.add_sum("d.csv")
        self.assertEqual(note_of(inputs.refuse_changes), "d.csv changed meanwhile")
        os.unlink("d.csv")
        self.assertEqual(note_of(inputs.refuse_changes), "cannot read d.csv: No such file or directory")

    def ends(self, tool, declared, words, called, name):
        """With which note a tool ends if a file changes while it calls the program."""
        def changed(*_):
            if name:
                self.change(name)
            return []

        with contextlib.ExitStack() as stack:
            stack.enter_context(mock.patch.object(tool, "program", lambda: "program"))
            stack.enter_context(mock.patch.object(tool, called, changed if called == "verdicts" else lambda *_: mock.Mock(rows=changed)))
            return note_of(declared.call, words)

    def test_judge(self):
        for name in (*READ, "e.toml", "program"):
            self.assertEqual(self.ends(judge_tool, judge_tool.JUDGE, ["e.toml"], "verdicts", name), f"{name} changed meanwhile")

    def test_find(self):
        for name in (*READ, "program"):
            words = ["c.toml", "--cal", "own.toml", "--tolerant", "30", "--tick", "10ms", "--recording", "m.csv"]
            with mock.patch.object(find_tool, "units_of", lambda *_: find_tool.SimpleNamespace(ticks=str)):
                self.assertEqual(self.ends(find_tool, find_tool.FIND, words, "Search", name), f"{name} changed meanwhile")
