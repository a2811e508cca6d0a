"""The greatest numbers of files, and one more of each, as the program takes them."""

import os
import subprocess
import unittest

from in_folder import InFolder
from played import TOP

from egasim_tools.base.ranges import CAMPAIGN_TICKS, FULL, LIST_LENGTH, RAISE, RUNS, SPEED, TRACE_TICKS, WORD

PROGRAM = os.path.realpath(os.environ.get("EGASIM_PROGRAM") or f"{TOP}/release/egasim")
IDLE = f"{TOP}/examples/level_1/idle.hex"


def run_text(number=0, fault=""):
    return f'[[run]]\nname = "r{number}"\ntrace = "drive.csv"\nimage = "{IDLE}"\nfaults = [{fault}]\n'


class Ranges(InFolder):
    def taken(self, *words, text=""):
        """Whether the program doesn't refuse this call."""
        return subprocess.run([PROGRAM, *words], input=text, stdout=subprocess.DEVNULL, stderr=subprocess.DEVNULL, text=True,
                              check=False).returncode == 0

    def takes_drive(self, rows, campaign=run_text()):
        self.put("drive.csv", "\n".join(["pedal,speed,raise,reset", *rows, ""]))
        self.put("run.toml", campaign)
        return self.taken("table", "run.toml")

    def test_fields_of_a_drive(self):
        for more, is_taken in ((0, True), (1, False)):
            for row in (f"{FULL + more},0,0,0", f"0,{SPEED + more},0,0", f"0,0,{RAISE + more},0"):
                self.assertEqual(self.takes_drive([row]), is_taken, row)

    def test_readings_are_words(self):
        for more, is_taken in ((0, True), (1, False)):
            row = ",".join(["0"] * 9 + [str(WORD + more)])
            lines = f"pedal1,pedal2,plate1,plate2,load1,load2,speed1,speed2,raise,check\n{row}\n"
            self.assertEqual(self.taken("replay", text=lines), is_taken)

    def test_answers_of_a_partner(self):
        self.put("run.toml", run_text())
        for more, is_taken in ((0, True), (1, False)):
            for answer in (f"0,0,0,0,0,{FULL + more},0,0,0", f"0,0,0,0,0,0,{WORD + more},{WORD},0"):
                self.assertEqual(self.taken("couple", "run.toml", "r0", text=answer + "\n"), is_taken, answer)

    def test_ticks_and_runs(self):
        for more, is_taken in ((0, True), (1, False)):
            self.assertEqual(self.takes_drive(["0,0,0,0"] * (TRACE_TICKS + more)), is_taken)
            self.assertEqual(self.takes_drive(["0,0,0,0"], "".join(map(run_text, range(RUNS + more)))), is_taken)
            runs = CAMPAIGN_TICKS // 4000 + more
            self.assertEqual(self.takes_drive(["0,0,0,0"] * 4000, "".join(map(run_text, range(runs)))), is_taken)

    def test_lists_of_a_fault(self):
        for more, is_taken in ((0, True), (1, False)):
            fault = f'{{ class = "script", onset = {TRACE_TICKS - 1}, track = 0, values = {[WORD] * (LIST_LENGTH + more)} }}'
            self.assertEqual(self.takes_drive(["0,0,0,0"], run_text(0, fault)), is_taken)
            fault = f'{{ class = "script", onset = {TRACE_TICKS - 1 + more}, track = 0, values = [{WORD}] }}'
            self.assertEqual(self.takes_drive(["0,0,0,0"], run_text(0, fault)), is_taken)


if __name__ == "__main__":
    unittest.main()
