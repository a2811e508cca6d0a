"""Tables that are joined, and what they come to. The study is written by hand; cases/examples/study.sh has a real one."""

import contextlib
import io
import os
import subprocess
import time
from unittest import mock

from egasim_tools.base.files import read, sum_of
from egasim_tools.base.units import Units
from egasim_tools.study import joined_tables as joining
from egasim_tools.study.joined_tables import (Summary, limits_of, fault_of_table, join, print_summary, refuse_changes, rows_of,
    write_joined)
from in_folder import InFolder
from notes import note_of

HEAD = "run,class,onset,acted,first,confirmed,stretch,reaction,settled,bound"
PLANNED = {"00001": 'run,drive,image\nr1,a.csv,i.hex\nr2,"./=1,""b""\n\r.csv",i.hex\n', "00002": "run,drive,image\nr3,a.csv,i.hex\n"}
PLAYED = {"00001": f"{HEAD}\nr1,none,,,torque,9,5,1,1,34\nr2,halt,3,1,,9,30,20,1,34\n",
          "00002": f"{HEAD}\nr3,halt,90,0,,,0,,,34\n"}
STAMP = "0a  egasim\n0b  campaigns/{0}.toml\n"


def limits(status=0, out=b"reaction 34\nstretch 38\nspacing 71\nmissed 38\n", err=b""):
    return mock.patch.object(joining, "called", lambda path, command: subprocess.CompletedProcess([], status, out, err))


def said_by(call, *words):
    out, err = io.StringIO(), io.StringIO()
    with contextlib.redirect_stdout(out), contextlib.redirect_stderr(err):
        note = note_of(call, *words)
    return out.getvalue(), err.getvalue(), note


class Joining(InFolder):
    def setUp(self):
        super().setUp()
        self.put("s/plan.toml", "fault = []\n")
        self.put("s/MANIFEST", f"{sum_of(read('s/plan.toml'))}  plan.toml\n")
        for number in PLANNED:
            self.put(f"s/campaigns/{number}.toml")
            self.put(f"s/campaigns/{number}.sum", STAMP.format(number))
            self.put(f"s/campaigns/{number}.csv", PLANNED[number])
            self.play(number, PLAYED[number])
        self.put("s/egasim", b"\x7fELF", 0o755)
        self.enterContext(mock.patch.dict(os.environ, EGASIM_PROGRAM="s/egasim"))
        self.enterContext(limits())

    def play(self, number, table):
        self.put(f"s/tables/{number}.csv", table)
        self.put(f"s/tables/{number}.sum", f"{STAMP.format(number)}{sum_of(table.encode())}  -\n")

    def test_table_has_what_was_planned_and_what_was_played(self):
        out, err, note = said_by(join, "s")
        self.assertEqual((err, note), ("", None))
        self.assertEqual(read("s/study.csv").decode(), f"""run,drive,image,{HEAD.removeprefix("run,")}
r1,a.csv,i.hex,none,,,torque,9,5,1,1,34
r2,"./=1,""b""\n\r.csv",i.hex,halt,3,1,,9,30,20,1,34
r3,a.csv,i.hex,halt,90,0,,,0,,,34
""")
        self.assertEqual([line.split() for line in out.splitlines()[1:]],
                         [["none", "1", "0", "0", "0", "0", "1", "34", "5", "38"],
                          ["halt", "2", "1", "1", "0", "1", "20", "34", "30", "38"]])
        self.assertEqual(read("s/matrix.csv").decode(), 'class,mirror,pedal,plate,load,speed,torque,answers,start,"nothing, no excess",'
                         '"nothing, excess"\nnone,0,0,0,0,0,1,0,0,0,0\nhalt,0,0,0,0,0,0,0,0,1,1\n')

    def test_a_study_that_has_all_tables_is_kept(self):
        out, _, note = said_by(join, "s", None, "k")
        self.assertEqual((note, out.splitlines()[-1]), (None, f"kept in k, whose kept.sum has the SHA-256 {sum_of(read('k/kept.sum'))}"))
        self.assertEqual([read(f"k/00002/{name}").decode() for name in ("command", "output", "notes", "status", "read.sum")],
                         ["egasim table campaigns/00002.toml\n", PLAYED["00002"], "", "0\n", "0b  campaigns/00002.toml\n"])
        self.assertEqual((read("k/place"), read("k/tool.sum").decode()), (b"s\n", "".join(
            f"{sum_of(read(f's/{name}'))}  {name}\n" for name in ("MANIFEST", "study.csv", "matrix.csv"))))
        self.assertIn(f"program {sum_of(read('s/egasim'))}", read("k/version").decode().splitlines())
        self.assertEqual(said_by(join, "s", None, "k")[2], "k is there already")
        for name in ("s/campaigns/00002.sum", "s/tables/00002.sum"):
            self.put(name, read(name).replace(b"egasim\n", b"egasim\n0c  inputs/drive-1.csv\n"))
        self.assertEqual(said_by(join, "s", None, "m")[2], "s is of older tools; to keep it, write the study anew")
        os.unlink("s/tables/00002.csv")
        self.assertEqual((said_by(join, "s", None, "m")[2], os.path.exists("m")), ("s/study.csv has 1 of 2 campaigns", False))

    def test_plan_without_ends_of_lines_is_refused_at_once(self):
        for text in ("run,a\r" * 100000, "run\nr1," + '"a"' * 200000, "run\nr1," + '"a' * 200001):
            self.put("s/campaigns/00001.csv", text)
            begin = time.monotonic()
            self.assertEqual(note_of(rows_of, "s", "00001"), "campaign 00001: the table has other runs than the plan")
            self.assertLess(time.monotonic() - begin, 5)

    def test_study_with_another_program_is_refused(self):
        self.put("own", b"\x7fELF own", 0o755)
        with mock.patch.dict(os.environ, EGASIM_PROGRAM="own"):
            self.assertEqual(said_by(join, "s")[2], "s/egasim isn't the program of these tools, and isn't run; if you trust it, say "
                             "EGASIM_PROGRAM=s/egasim")
        self.assertFalse(os.path.exists("s/study.csv"))

    def test_two_at_once_write_what_one_writes(self):
        # So many rows that most of them are on the disk when the second call begins, which is through before the first.
        runs = [f"r{number}" for number in range(5000)]
        self.put("s/campaigns/00001.csv", "run,drive,image\n" + "".join(f"{run},a.csv,i.hex\n" for run in runs))
        self.play("00001", f"{HEAD}\n" + "".join(f"{run},none,,,torque,9,5,1,1,34\n" for run in runs))
        write_joined("s", list(PLANNED))
        whole, others = read("s/study.csv"), []

        def rows_with_another_call(path, number):
            if number == "00002" and not others:
                others.append("begun")
                write_joined("s", list(PLANNED))
                others.append(read("s/study.csv"))
            return rows_of(path, number)

        with mock.patch.object(joining, "rows_of", rows_with_another_call):
            write_joined("s", list(PLANNED))
        self.assertEqual(others[1], whole)
        self.assertEqual(read("s/study.csv"), whole)
        self.assertEqual(sorted(os.listdir("s")), ["MANIFEST", "campaigns", "egasim", "matrix.csv", "plan.toml", "study.csv", "tables"])

    def test_table_that_does_not_count_is_told(self):
        wrong = "its table isn't of this program and these inputs; once it is removed, it can be made again"
        self.assertIsNone(fault_of_table("s", "00001"))
        self.put("s/tables/00002.csv")
        self.assertEqual(fault_of_table("s", "00002"), wrong)
        self.play("00002", PLAYED["00002"])
        self.put("s/tables/00002.sum", "other\n")
        self.assertEqual(fault_of_table("s", "00002"), wrong)
        self.assertEqual(fault_of_table("s", "00003"), "not made")
        self.put("s/tables/00003.note")  # as a full disk leaves it
        self.assertEqual(fault_of_table("s", "00003"), "not made")
        self.put("s/tables/00003.note", "a.csv: record 3\n")
        self.assertEqual(fault_of_table("s", "00003"), "a.csv: record 3")

    def test_what_is_there_is_joined_and_what_lacks_is_told(self):
        self.put("s/tables/00001.csv")
        out, err, note = said_by(join, "s")
        self.assertEqual(len(out.splitlines()), 2)
        self.assertRegex(err, "^campaign 00001: its table isn't of this program")
        self.assertEqual(note, "s/study.csv has 1 of 2 campaigns")
        self.put("s/tables/00002.csv")
        self.assertEqual(said_by(join, "s")[2], "no campaign has a table")

    def test_changed_study_is_refused(self):
        refuse_changes("s")
        self.put("s/plan.toml", "another plan")
        self.assertEqual(note_of(refuse_changes, "s"), "s/plan.toml isn't as the study was made")
        self.assertEqual(note_of(refuse_changes, "gone"), "cannot read gone/MANIFEST: No such file or directory")

    def test_program_that_has_no_limits_is_told(self):
        self.assertEqual(limits_of("s"), {"reaction": "34", "stretch": "38", "spacing": "71", "missed": "38"})
        for words, note in (((4, b"", b"my.toml: answer 2\n"), "egasim limits: my.toml: answer 2"),
                            ((139, b""), "egasim limits: status 139"),
                            ((0, b"reaction 34\nstretch 38\n"), "the program of s is of an older version; write the study anew")):
            with limits(*words):
                self.assertEqual(note_of(join, "s"), note)

    def test_rows_belong_together(self):
        lines, alike = rows_of("s", "00001")
        self.assertEqual(([line[:7] for line in lines], [(row["class"], count) for row, count in alike]),
                         (["run,dri", "r1,a.cs", 'r2,"./='], [("none", 1), ("halt", 1)]))
        more = PLAYED["00001"] + "r9,none,,,torque,9,5,1,1,34\n"
        for table in ("", f"{HEAD}\n", more, more.replace("r9", ""), PLAYED["00001"].replace("r2", "r9"),
                      PLAYED["00001"].replace("r2,", "r2,,"), PLAYED["00001"].replace("r2,", "r2\n"), f"{PLAYED['00001']}\n"):
            self.play("00001", table)
            self.assertEqual(note_of(rows_of, "s", "00001"), "campaign 00001: the table has other runs than the plan")

    def test_rows_that_are_alike_are_counted(self):
        runs = [f"r{number}" for number in range(7)]
        self.put("s/campaigns/00001.csv", "run,drive,image\n" + "".join(f"{run},{run}.csv,i.hex\n" for run in runs))
        self.play("00001", f"{HEAD}\n" + "".join(f"{run},halt,{int(run[1]) % 2},1,,9,30,20,1,34\n" for run in runs))
        self.assertEqual([(row["onset"], count) for row, count in rows_of("s", "00001")[1]], [("0", 4), ("1", 3)])
        self.assertEqual(vars(write_joined("s", ["00001"])["halt"]), {"runs": 7, "unacted": 0, "without": 0, "unsettled": 0,
                                                                      "before_cut": 7, "stretch": 30, "reaction": 20})
        self.assertEqual(read("s/matrix.csv").decode().splitlines()[1], "halt,0,0,0,0,0,0,0,0,0,7")

    def test_summary_counts_by_class_and_tells_what_is_against_the_proof(self):
        halt, lapse = Summary(), Summary()
        row = {"class": "halt", "onset": "3", "acted": "1", "confirmed": "9", "stretch": "30", "reaction": "35",
               "settled": "1", "bound": "34"}
        for one in (row, row | {"reaction": "", "settled": "0", "stretch": "39"}, row | {"reaction": "34"}):
            halt.add(one, 1)
        lapse.add(row | {"class": "lapse"}, 1)
        self.assertEqual((halt.runs, halt.unacted, halt.without, halt.unsettled), (3, 0, 0, 1))
        self.assertEqual((halt.before_cut, halt.stretch, halt.reaction), (1, 39, 35))
        out, err, _ = said_by(print_summary, {"halt": halt, "lapse": lapse}, (34, 38))
        self.assertEqual(out.splitlines()[2].split(), ["lapse", "1", "0", "0", "0", "0", "35", "30"])
        self.assertEqual(err, "halt: a reaction or stretch is greater than its bound, against what is proved\n")
        out, _, _ = said_by(print_summary, {"halt": halt, "lapse": lapse}, (34, 38), Units(10**7))
        self.assertRegex(out.splitlines()[1], r"^halt .* 35 \(350 ms\) +34 \(340 ms\) +39 \(390 ms\) +38 \(380 ms\)$")
        self.assertRegex(out.splitlines()[2], r"^lapse .* 35 \(350 ms\) +30 \(300 ms\)$")
