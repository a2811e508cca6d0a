"""What a validation plays and tells. Scripts of a few lines take the place of the checkout's."""

import os
import subprocess
import sys
import time

from in_folder import InFolder
from egasim_tools.base.files import TOP, sum_of

DIST = os.path.join(TOP, "dist")
sys.path.append(DIST)
from validating import (FAILED, GATE, LEFT_OUT, PASSED, SMALL, WHOLE, Outcome, Plays, Step, checkout, others, quoted,  # noqa: E402
                        report, shortages, steps_of)

VERSION = ["egasim 9.8.7", "commit abc", "sources with kit 12", "program 34, kit K"]


class Validating(InFolder):
    def script(self, name, text):
        self.put(name, f"#!/bin/sh\n{text}\n", 0o755)

    def played(self, *steps, jobs=1):
        os.makedirs("kept", exist_ok=True)
        return Plays(os.path.abspath("kept"), "/the/program", os.getcwd()).outcomes(steps, jobs)

    def test_the_steps_of_a_whole_validation(self):
        self.assertEqual([" ".join(step.words) for step in steps_of(WHOLE, 7, 3)], [
            ".ci/run", "cases/run", "cases/streams", "cases/examples/run", "bench/edits", "bench/compare 7 667", "bench/compare 8 667",
            "bench/compare 9 666", "bench/fuzz 7 20000 3", "bench/refuse --part 1/1", "bench/escape", "bench/escape 7 20000"])
        for jobs in range(1, 30):
            shares = [int(step.words[2]) for step in steps_of(SMALL, 1, jobs) if step.name.startswith("compare")]
            self.assertEqual((sum(shares), min(shares) > 0), (SMALL["campaigns"], True))

    def test_each_step_is_a_script_of_the_checkout(self):
        for step in steps_of(WHOLE, 1, 1):
            self.assertTrue(os.access(os.path.join(TOP, step.words[0]), os.X_OK), step.words[0])

    def test_what_a_step_says_is_kept_and_told(self):
        self.script("bench/good", "echo first; echo 3 of them; echo; echo x: skipped: no cc >&2; echo y skipped >&2")
        self.script("bench/bad", "echo one is wrong; exit 3")
        self.script("bench/silent", "exit 0")
        good, bad, silent = self.played(Step("a", ["bench/good"]), Step("b", ["bench/bad"]), Step("c", ["bench/silent"]), jobs=2)
        self.assertEqual((good.status, good.told, good.skipped), (PASSED, ["3 of them"], ("x: skipped: no cc",)))
        self.assertEqual((bad.status, bad.told, silent.told), (FAILED, ["one is wrong"], ["status 0"]))
        with open("kept/a.out", encoding="ascii") as file:
            self.assertEqual(file.read(), "first\n3 of them\n\n")
        plays = Plays(os.path.abspath("kept"), "/the/program", os.getcwd())
        for _ in range(2):
            self.assertEqual(plays.outcomes([Step("a", ["bench/good"], lines=3)], 1)[0].told, ["first", "3 of them"])

    def test_all_play_the_same_program(self):
        self.script("bench/which", 'echo "$EGASIM_PROGRAM $*"')
        self.assertEqual(self.played(Step("a", ["bench/which", "7", "8"]))[0].told, ["/the/program 7 8"])

    def test_a_step_that_cannot_be_tried_is_left_out(self):
        self.assertEqual([(one.status, one.told) for one in self.played(Step("a", ["bench/gone"], ("sh", "no-such-command")))],
                         [(LEFT_OUT, ["there is no command no-such-command"])])

    def test_no_step_goes_on_behind_the_end(self):
        self.script("bench/long", "sleep 60 & wait")
        begin = time.monotonic()
        with self.assertRaises(OSError):
            self.played(Step("a", ["bench/gone"]), Step("b", ["bench/long"]), jobs=2)
        self.assertLess(time.monotonic() - begin, 30)

    def test_the_gate_tells_each_count(self):
        self.put("log", "proves\n40 passed, 0 failed\nsays\n2398 passed, 1 failed, 2 left out\nrt: it failed\n")
        one = quoted("log")
        with open("log", "rb") as file:
            self.assertEqual(one.step.words, [f"log with checksum {sum_of(file.read())}"])
        self.assertEqual(one.told, ["40 passed, 0 failed", "2398 passed, 1 failed, 2 left out"])
        self.script(GATE, "cat log")
        self.assertEqual(self.played(Step("gate", [GATE]))[0].told, one.told)

    def test_what_was_left_out_is_told(self):
        outcomes = [Outcome(Step("gate", [GATE]), LEFT_OUT, ["it isn't run here"]),
                    Outcome(Step("a", ["bench/a"]), PASSED, ["1"], 2.6, ("z: skipped: b|c",))]
        self.assertEqual(list(shortages(WHOLE | {"inputs": 5}, outcomes)),
                         ["gate: it isn't run here", "numbers of a whole validation are others: inputs 5 for 20000",
                          "z: skipped: b|c"])
        self.assertEqual(list(shortages(WHOLE, [Outcome(Step("a", ["x"]), PASSED, ["1"])])), [])

    def test_the_report(self):
        for name in ("a", "b"):
            self.script(f"bench/{name}", "")
        self.put("bench/c.py")
        played = Outcome(Step("a", ["bench/a", "7"]), PASSED, ["1 | 2", "3"], 2.6)
        lines = list(report(VERSION, "abc", 0, WHOLE, [played], os.getcwd()))
        self.assertEqual(lines[0], "## egasim 9.8.7, 1970-01-01: passed")
        self.assertIn("- `bench/a 7` passed in 3 s: 1 | 2; 3", lines)
        self.assertIn("- Checkout: commit abc", lines)
        self.assertEqual(checkout(os.getcwd()), "none")
        self.assertIn("- Program 34, kit K", lines)
        self.assertEqual(lines[-1], "- of `bench/`: b")
        self.assertEqual(others([played], os.getcwd()), ["b"])
        parts = [Outcome(Step(f"c-{seed}", ["bench/c", str(seed)]), PASSED, ["5 equal"], seconds) for seed, seconds in ((1, 9), (2, 7))]
        self.assertIn("- `bench/c 1`, `bench/c 2` passed in 9 s, each: 5 equal", list(report(VERSION, "abc", 0, WHOLE, parts, os.getcwd())))
        bad = Outcome(Step("b", ["bench/b"]), FAILED, ["x"])
        self.assertEqual(next(report(VERSION, "abc", 0, SMALL, [played, bad], os.getcwd())), "## egasim 9.8.7, 1970-01-01: failed: b")
        self.assertTrue(next(report(VERSION, "abc", 0, SMALL, [played], os.getcwd())).endswith(": passed, but for what was left out"))

    def test_words_that_are_none(self):
        os.mkdir("there")
        more = "; --help tells the words"
        for words, note in (("there", "there is there already"), ("a b", f"unrecognized arguments: b{more}"),
                            ("a --gate --gate-log l", f"--gate and --gate-log are two calls{more}"),
                            ("a --jobs 0", f"--jobs: 0 is no whole number from 1 to 999999999{more}"),
                            ("a --odd", f"unrecognized arguments: --odd{more}"),
                            ("a --without gate", "--without: gate is none of cases, streams, examples, edits, compare, fuzz, refuse, addresses, "
                                                 f"images{more}"),
                            ("a --gate-log gone", "cannot read gone: No such file or directory")):
            done = subprocess.run([sys.executable, f"{DIST}/validate", *words.split()], capture_output=True, text=True,
                                  check=False, env=os.environ | {"EGASIM_PROGRAM": "/bin/true"})
            self.assertEqual((done.returncode, done.stdout, done.stderr), (2, "", f"validate: {note}\n"))
            self.assertFalse(os.path.exists("a"))
