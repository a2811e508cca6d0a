"""What plays a study, in its folder: work, Makefile and slurm. The program is a stand-in."""

import os
import shutil
import subprocess
import time
import unittest

from egasim_tools.base.files import TOOLS, read, sum_of
from in_folder import InFolder

TABLE = '#!/bin/sh\necho "table of $2"\n'
STUB = '#!/bin/sh\necho "$1" >>played\nmkdir -p tables\necho made >"tables/$1.csv"\n'


class Study(InFolder):
    """A study of so many campaigns, by hand."""

    def study(self, count, program=TABLE, work=None):
        for name in os.listdir(f"{TOOLS}/study_files"):
            shutil.copy(f"{TOOLS}/study_files/{name}", name)
        self.put("egasim", program, 0o755)
        if work:
            self.put("work", work, 0o755)
        self.numbers = [f"{number:05}" for number in range(1, count + 1)]
        for number in self.numbers:
            self.put(f"campaigns/{number}.toml", number)
            names = ("egasim", f"campaigns/{number}.toml")
            self.put(f"campaigns/{number}.sum", "".join(f"{sum_of(read(name))}  {name}\n" for name in names))

    def call(self, *words, **variables):
        variables = {"PATH": os.environ["PATH"], **variables}
        done = subprocess.run(words, capture_output=True, text=True, check=False, env=variables)
        return done.returncode, done.stdout, done.stderr

    def played(self):
        """The campaigns that were played since this was asked last."""
        numbers = read("played").decode().split() if os.path.exists("played") else []
        self.put("played")
        return numbers


class Work(Study):
    def test_table_stands_beside_the_checksums_of_all_that_it_is_of(self):
        self.study(1)
        self.assertEqual(self.call("./work", "00001"), (0, "", ""))
        table = b"table of campaigns/00001.toml\n"
        self.assertEqual(read("tables/00001.csv"), table)
        self.assertEqual(read("tables/00001.sum"), read("campaigns/00001.sum") + f"{sum_of(table)}  -\n".encode())
        self.assertEqual(sorted(os.listdir("tables")), ["00001.csv", "00001.sum"])

    def test_calibration_of_the_study_is_that_of_the_table(self):
        self.study(1, '#!/bin/sh\necho "$@"\n')
        self.put("inputs/calibration.toml")
        self.call("./work", "00001")
        self.assertEqual(read("tables/00001.csv"), b"table --cal inputs/calibration.toml campaigns/00001.toml\n")

    def test_refusal_is_told_and_kept_until_there_is_a_table(self):
        self.study(1, "#!/bin/sh\n[ ! -e bad ] || { echo d.csv: record 3 >&2; exit 4; }\n")
        self.put("bad")
        self.assertEqual(self.call("./work", "00001"), (1, "", "campaign 00001: d.csv: record 3\n"))
        self.assertEqual((os.listdir("tables"), read("tables/00001.note")), (["00001.note"], b"d.csv: record 3\n"))
        os.unlink("bad")
        self.assertEqual(self.call("./work", "00001"), (0, "", ""))
        self.assertEqual(sorted(os.listdir("tables")), ["00001.csv", "00001.sum"])

    def test_program_that_dies_is_told_by_its_status(self):
        self.study(1, "#!/bin/sh\nexit 7\n")
        self.assertEqual(self.call("./work", "00001"), (1, "", "campaign 00001: the program ended with the status 7\n"))

    def test_disk_that_is_full_is_told_with_its_reason(self):
        self.study(1, "#!/bin/sh\necho cannot write >&2\nexit 5\n")
        # A `dd` that writes to a full device, whatever file it is given.
        self.put("bin/dd", '#!/bin/sh\nexec %s if=/dev/zero of=/dev/full bs=1048576 count=1\n' % shutil.which("dd"), 0o755)
        self.assertEqual(self.call("./work", "00001", PATH=f"{os.getcwd()}/bin:{os.environ['PATH']}"),
                         (1, "", "campaign 00001: cannot write its table: No space left on device\n"))
        self.assertEqual(self.call("./work", "00001"), (1, "", "campaign 00001: cannot write its table\n"))
        self.assertEqual(os.listdir("tables"), ["00001.note"])

    def test_other_program_or_input_is_refused(self):
        self.study(1)
        self.put("egasim", TABLE + "\n", 0o755)
        self.assertEqual(self.call("./work", "00001"),
                         (1, "", "campaign 00001: program or inputs aren't those of the study\n"))
        self.assertEqual(self.call("./work", "7"), (1, "", "work: there is no campaign 7\n"))

    def test_what_a_killed_call_left_is_removed_an_hour_later(self):
        self.study(1)
        for name, age in (("tables/.00001.aaaaaa", 3700), ("tables/.00001.bbbbbb", 3500), ("tables/.00002.cccccc", 3700)):
            self.put(name)
            os.utime(name, (time.time() - age,) * 2)
        self.call("./work", "00001")
        self.assertEqual(sorted(os.listdir("tables")), [".00001.bbbbbb", ".00002.cccccc", "00001.csv", "00001.sum"])


@unittest.skipUnless(shutil.which("make"), "there is no make")
class Makefile(Study):
    def test_tables_are_made_once_and_emptied_ones_again(self):
        self.study(3, work=STUB)
        self.assertEqual(self.call("make", "-s", "missing"), (0, "00001\n00002\n00003\n", ""))
        self.assertEqual(self.call("make", "-s")[0], 0)
        self.assertEqual(sorted(self.played()), self.numbers)
        self.assertEqual((self.call("make", "-s", "missing"), self.call("make", "-s")), ((0, "", ""), (0, "", "")))
        self.assertEqual(self.played(), [])
        self.put("tables/00002.csv")
        self.assertEqual(self.call("make", "-s", "missing"), (0, "00002\n", ""))
        self.assertEqual((self.call("make", "-s", "-j2")[0], self.played()), (0, ["00002"]))
        self.assertEqual(read("tables/00002.csv"), b"made\n")

    def test_campaign_that_fails_keeps_none_from_being_played(self):
        self.study(3, work=STUB + '[ "$1" != 00001 ]\n')
        self.assertEqual(self.call("make", "-s")[0], 2)
        self.assertEqual(sorted(self.played()), self.numbers)


class Slurm(Study):
    def tasks(self, tasks, first, last, step):
        """What each task of an array plays."""
        played = []
        for task in tasks:
            words = {"ID": task, "MIN": first, "MAX": last, "STEP": step, "COUNT": len(tasks)}
            status = self.call("./slurm", **{f"SLURM_ARRAY_TASK_{name}": str(value) for name, value in words.items()})[0]
            played.append((status, self.played()))
        return played

    def test_tasks_of_any_range_share_all_campaigns(self):
        self.study(30, work=STUB)
        for tasks in (range(1, 14), range(0, 100), range(5, 6), range(0, 11, 2), range(3, 30, 9), range(1, 2)):
            shutil.rmtree("tables", ignore_errors=True)
            played = self.tasks(tasks, tasks[0], tasks[-1], tasks.step)
            self.assertEqual(sorted(number for _, numbers in played for number in numbers), self.numbers)
            self.assertEqual({status for status, _ in played}, {0})
            counts = [len(numbers) for _, numbers in played]
            self.assertLessEqual(max(counts) - min(counts), 1)

    def test_tasks_that_are_no_range_are_refused(self):
        self.study(3, work=STUB)
        self.assertEqual(self.tasks([1, 3, 7], 1, 7, 1), [(1, [])] * 3)

    def test_without_slurm_all_are_played_and_emptied_ones_again(self):
        self.study(3, work=STUB)
        self.put("tables/00001.csv", "made\n")
        self.put("tables/00002.csv")
        self.assertEqual((self.call("./slurm"), self.played()), ((0, "", ""), ["00002", "00003"]))

    def test_campaign_that_fails_is_told_by_the_status(self):
        self.study(3, work=STUB + '[ "$1" != 00001 ]\n')
        self.assertEqual((self.call("./slurm")[0], self.played()), (1, self.numbers))
