"""The folder of a study. The program's part is taken by a stand-in; cases/examples/study.sh has the real one."""

import csv
import os
import subprocess
import threading
from unittest import mock

from egasim_tools.base.files import read, sum_of
from egasim_tools.base.program import program
from egasim_tools.evidence.kept_calls import sums_of
from egasim_tools.study import study_folder as studies
from egasim_tools.study.campaigns import run_text
from egasim_tools.study.plan import PARAMETERS
from egasim_tools.study.study_folder import (Folder, called, campaigns_of, cell, copied, line_of, name_cell, program_of,
    runs_of, ticks_of_drives, words_of, write_study)
from in_folder import InFolder
from notes import note_of

PLAN = """drives = ["=1+1.csv", "b.csv"]
images = ["i.hex"]
[[fault]]
class = "none"
[[fault]]
class = "wild"
onset = { from = 0 }
questions = [1, 2]
opens = [true]
"""


def answered(refused=()):
    """A stand-in for the program in a study: each drive has three ticks, and what is named so is refused."""
    def called(path, command, *words):
        text = read(os.path.join(path, words[0])).decode()
        note = next((f"{name}: record 3" for name in refused if name in text), "")
        if words[1] == "no-such-run":
            return subprocess.CompletedProcess(words, 7, b"", (note or "no such run").encode() + b"\n")
        return subprocess.CompletedProcess(words, 4 if note else 0, b"header\n0\n1\n2\n", note.encode())
    return called


class Studies(InFolder):
    def setUp(self):
        super().setUp()
        self.put("p.toml", PLAN)
        for name in ("=1+1.csv", "b.csv", "i.hex"):
            self.put(name, name)
        self.put("program", b"\x7fELF", 0o755)
        self.enterContext(mock.patch.object(studies, "program", lambda: "program"))
        self.play()

    def play(self, refused=()):
        self.enterContext(mock.patch.object(studies, "called", answered(refused)))

    def rows(self, name):
        with open(name, encoding="utf-8", newline="") as file:
            return list(csv.DictReader(file))

    def test_folder_has_campaigns_inputs_program_and_their_checksums(self):
        self.assertEqual(write_study("p.toml", "s"), (8, 1, 0))
        self.assertEqual(sorted(os.listdir("s")), ["MANIFEST", "Makefile", "campaigns", "egasim", "inputs", "machines",
                                                   "plan.toml", "slurm", "work"])
        self.assertEqual(read("s/inputs/drive-1.csv"), b"=1+1.csv")
        sums = dict(reversed(line.split("  ")) for line in read("s/MANIFEST").decode().splitlines())
        self.assertEqual(sums, {name: sum_of(read(f"s/{name}")) for name in sums})
        self.assertEqual(len(sums), 12)
        used = [line.split("  ")[1] for line in read("s/campaigns/00001.sum").decode().splitlines()]
        self.assertEqual(used, ["egasim", "campaigns/00001.toml", "inputs/drive-1.csv", "inputs/image-1.hex", "inputs/drive-2.csv"])
        self.assertEqual(sorted(os.listdir()), ["=1+1.csv", "b.csv", "i.hex", "p.toml", "program", "s"])

    def test_a_campaign_has_the_checksums_that_are_kept_of_its_table(self):
        self.put("cal.toml", "x = 1")
        self.put("c.toml", f'calibration = "cal.toml"\n{PLAN}')
        for plan, folder in (("p.toml", "s"), ("c.toml", "t")):
            write_study(plan, folder)
            own, _, sums = read(f"{folder}/campaigns/00001.sum").decode().partition("\n")
            self.assertEqual(own, f"{sum_of(read('program'))}  egasim")
            self.assertEqual(sums, sums_of(words_of(folder, "table", "campaigns/00001.toml"), True, folder))
        self.assertEqual(words_of("t", "limits"), ["limits", "--cal", "inputs/calibration.toml"])

    def test_rows_say_what_each_run_is(self):
        write_study("p.toml", "s")
        rows = self.rows("s/campaigns/00001.csv")
        self.assertEqual([row["run"] for row in rows], [f"r{number:07}" for number in range(1, 9)])
        self.assertEqual([row["drive"] for row in rows], ["./=1+1.csv"] * 4 + ["b.csv"] * 4)
        self.assertEqual({name: rows[1][name] for name in ("slices", "engine", "questions", "opens", "mask")},
                         {"slices": "0", "engine": "gasoline", "questions": "1 2", "opens": "true", "mask": ""})

    def test_name_in_a_row_names_the_file(self):
        for name in ("=1+1.csv", "+a", "-a", "@a", "\ta", "\ra", "＝a"):
            self.put(name, b"1")
            self.assertEqual(name_cell(name), f"./{name}")
            self.assertTrue(os.path.samefile(name, name_cell(name)))
        for name in ("a=1", "./=1", "/tmp/=1", "'a", "1"):
            self.assertEqual(name_cell(name), name)

    def test_numbers_in_a_row(self):
        self.assertEqual([cell(value) for value in (-5, True, [1, False], "", [])], ["-5", "true", "1 false", "", ""])

    def test_names_in_a_row_are_quoted_where_they_must_be(self):
        for name, quoted in (("a b", "a b"), ("a,b", '"a,b"'), ('"', '""""'), ("\n", '"\n"'), ("\r", '"\r"'), ("\u2028", "\u2028")):
            self.assertEqual(line_of([name, 1, ""]), f"{quoted},1,\n")

    def test_runs_of_a_fault_are_written_as_each_by_itself(self):
        keys = {"track": [0, 3], "values": [[0], [5, -7]], "onset": [1, 2]}
        plan = {"drives": ["a,%s.csv"], "images": ["100%"], "slices": [[["%d"]]], "engines": ["%"], "seed": 1,
                "fault": [{"class": "none"}, {"class": "script", **keys}]}
        runs = list(runs_of(plan, {"a,%s.csv": "d%"}, {"100%": "i"}, {"a,%s.csv": 9}))
        faults = [[], *([{"class": "script", "track": track, "values": values, "onset": onset}]
                        for track in keys["track"] for values in keys["values"] for onset in keys["onset"])]
        alike = {"trace": "d%", "image": "i", "slices": [["%d"]], "engine": "%"}
        self.assertEqual([run[0] for run in runs], [run_text({"name": f"r{number:07}", **alike, "faults": fault or None})
                                                    for number, fault in enumerate(faults, 1)])
        names = ["drive", "image", "slices", "engine", *PARAMETERS]
        rows = [dict(zip(["run", *names], row)) for row in csv.reader(run[1] for run in runs)]
        self.assertEqual([row["run"] for row in rows], [f"r{number:07}" for number in range(1, 10)])
        self.assertEqual(rows[8], {**dict.fromkeys(names, ""), "run": "r0000009", "drive": "a,%s.csv", "image": "100%",
                                   "slices": "0", "engine": "%", "track": "3", "values": "5 -7"})
        self.assertEqual({(tuple(inputs), ticks) for *_, inputs, ticks in runs}, {(("d%", "i"), 9)})

    def test_campaigns_are_as_full_as_their_limits_allow(self):
        for ticks, counts in ((1, [1000, 1000, 1]), (1000, [1000, 1000, 1]), (1001, [999, 999, 3])):
            runs = ((f"t{number}", f"r{number}", ["d"], ticks) for number in range(2001))
            campaigns = list(campaigns_of(runs))
            self.assertEqual([len(campaign.texts) for campaign in campaigns], counts)
            self.assertEqual([row for campaign in campaigns for row in campaign.rows], [f"r{number}" for number in range(2001)])

    def test_first_campaign_that_is_refused_is_told(self):
        self.put("p.toml", PLAN.split("[[")[0] + '[[fault]]\nclass = "bus"\nonset = 0\nmask = { from = 1, to = 1500 }\n')
        self.assertEqual(write_study("p.toml", "s"), (3000, 3, 0))
        self.play(refused=["mask = 501,", "mask = 1400,"])  # of the first and the second
        for processors in (1, 4, None):
            with mock.patch.object(studies.os, "cpu_count", return_value=processors):
                self.assertRegex(note_of(write_study, "p.toml", "t"), "^the plan makes a campaign that is refused: mask = 501,: record 3: ")

    def test_second_call_finds_the_folder(self):
        write_study("p.toml", "s")
        self.put("s/tables/00001.csv")
        self.put("s/tables/.00002.abcdef")
        self.assertEqual(write_study("p.toml", "s"), (8, 1, 1))

    def test_folder_that_is_something_else_stays(self):
        wrong = "s is there, and isn't of this plan, these inputs, this program and these tools"
        os.mkdir("s")
        self.assertEqual((note_of(write_study, "p.toml", "s"), os.listdir("s")), (wrong, []))
        os.rmdir("s")
        write_study("p.toml", "s")
        self.put("b.csv", b"other")
        self.assertEqual(note_of(write_study, "p.toml", "s"), wrong)
        self.assertEqual(note_of(write_study, "p.toml", "gone/s"), "there is no folder for gone/s")

    def test_two_calls_at_once_write_one_folder(self):
        results = []
        threads = [threading.Thread(target=lambda: results.append(write_study("p.toml", "s"))) for _ in range(4)]
        for thread in threads:
            thread.start()
        for thread in threads:
            thread.join()
        self.assertEqual(results, [(8, 1, 0)] * 4)
        self.assertEqual(sorted(os.listdir()), ["=1+1.csv", "b.csv", "i.hex", "p.toml", "program", "s"])

    def test_input_that_is_refused_is_told_by_its_own_name(self):
        self.play(refused=["inputs/drive-2.csv"])
        self.assertEqual(note_of(write_study, "p.toml", "s"), "an input is refused: b.csv: record 3")
        self.assertFalse(os.path.exists("s"))
        self.play(refused=["[1, 2]"])
        self.assertRegex(note_of(write_study, "p.toml", "s"),
                         r"^the plan makes a campaign that is refused: \[1, 2\]: record 3: ")

    def test_each_input_is_tried(self):
        os.mkdir("f")
        tried = []
        folder = Folder("f")
        with mock.patch.object(folder, "ticks_of", lambda drive, image: (tried.append((drive, image)) or 3, "")):
            ticks = ticks_of_drives(folder, {"a": "d1", "b": "d2"}, {"i": "i1", "j": "i2"}, None)
        self.assertEqual(ticks, {"a": 3, "b": 3})
        self.assertEqual(tried, [("d1", "i1"), ("d2", "i1"), ("d1", "i1"), ("d1", "i2")])

    def test_program_is_called_in_the_folder_by_the_calibration_of_the_study(self):
        self.put("p", '#!/bin/sh\necho "$@"; pwd; cat\n', 0o755)
        os.mkdir("f")
        here = os.path.realpath("f").encode()
        with mock.patch("egasim_tools.base.program.program", lambda: os.path.abspath("p")):
            self.assertEqual(called("f", "table", "a b").stdout, b"table a b\n" + here + b"\n")
            self.put("f/inputs/calibration.toml")
            self.assertEqual(called("f", "limits").stdout, b"limits --cal inputs/calibration.toml\n" + here + b"\n")

    def test_another_program_of_a_folder_is_run_only_where_it_is_named(self):
        self.put("own", b"\x7fELF own", 0o755)
        self.put("f/egasim", b"\x7fELF own", 0o755)
        self.enterContext(mock.patch.object(studies, "program", program))
        with mock.patch.dict(os.environ, EGASIM_PROGRAM="own"):
            self.assertEqual(program_of("f"), os.path.realpath("own"))
            for content in (b"\x7fELF other", b"#!/bin/sh\n"):
                self.put("f/egasim", content, 0o755)
                self.assertEqual(note_of(program_of, "f"), "f/egasim isn't the program of these tools, and isn't run; if you trust it, "
                                 "say EGASIM_PROGRAM=f/egasim")
            os.unlink("f/egasim")
            self.assertRegex(note_of(program_of, "f"), "^f/egasim isn't the program of these tools")
        self.put("f/egasim", b"\x7fELF other", 0o755)
        with mock.patch.dict(os.environ, EGASIM_PROGRAM="f/egasim"):
            self.assertEqual(program_of("f"), os.path.realpath("f/egasim"))

    def test_ticks_are_those_of_the_record(self):
        os.mkdir("f")
        folder = Folder("f")
        self.assertEqual(folder.ticks_of("drive", "image"), (3, ""))
        self.play(refused=["drive"])
        self.assertEqual(folder.ticks_of("drive", "image"), (None, "drive: record 3"))
        self.assertEqual((folder.manifest(), sorted(os.listdir("f"))), ("", ["campaigns", "inputs"]))

    def test_disk_that_is_full_is_told_with_its_reason(self):
        os.mkdir("f")
        folder = Folder("f")
        os.symlink("/dev/full", "f/inputs/drive-1.csv")
        self.assertEqual(note_of(copied, folder, "drive", ["b.csv"], "csv"),
                         "cannot write inputs/drive-1.csv of the study: No space left on device")

    def test_inputs_are_names_of_files(self):
        os.mkdir("f")
        self.assertEqual(note_of(copied, Folder("f"), "drive", [1], "csv"), "drives must be names of files")
