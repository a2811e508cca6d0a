"""bench/edits, over a stand-in for rt."""

import os
import shutil
import subprocess

from egasim_tools.base.files import TOP
from in_folder import InFolder

SAYS = "echo 'rt: must-fail %s.edit: %s'; "


class Edits(InFolder):
    def setUp(self):
        super().setUp()
        for name in ("top/HANDLES", "top/crates.txt", "top/crates/a/src/lib.rt", "top/crates/a/must-fail/x.edit",
                     "top/crates/a/wrong-bodies/y.edit", "top/crates/a/wrong-bodies/z.edit"):
            self.put(name)
        os.mkdir("top/bench")
        shutil.copy(f"{TOP}/bench/edits", "top/bench/edits")

    def call(self, says):
        """Calls it with an rt that says this: status, lines of both streams."""
        self.put("bin/rt", f"#!/bin/sh\n[ \"$*\" = 'ci a' ] || exit 9\n{says}\n", 0o755)
        done = subprocess.run(["top/bench/edits"], capture_output=True, text=True, check=False,
                              env={**os.environ, "PATH": f"{os.getcwd()}/bin:{os.environ['PATH']}"})
        return done.returncode, done.stdout.splitlines(), done.stderr

    def test_each_edit_is_told_with_what_came_of_it(self):
        refused = SAYS % ("a/y", "refused, as it must be (3 s)")
        self.assertEqual(self.call(refused + SAYS % ("a/z", "refused, as it must be")),
                         (0, ["a/y: refused, as it must be (3 s)", "a/z: refused, as it must be", "2 wrong bodies: 2 refused, 0 not"], ""))
        self.assertEqual(self.call(refused + SAYS % ("a/z", "PASSED"))[:2],
                         (1, ["a/y: refused, as it must be (3 s)", "a/z: PASSED", "2 wrong bodies: 1 refused, 1 not"]))
        status, lines, _ = self.call("echo the crates are broken; exit 1")
        self.assertEqual((status, lines[-1]), (1, "2 wrong bodies: 0 refused, 2 not"))

    def test_kit_that_cannot_be_asked_so_is_told(self):
        status, lines, note = self.call("echo 'rt: proves, builds and tests'; echo 'usage: rt new FOLDER'; exit 2")
        log = f"{os.path.realpath('top')}/out/edits.log"
        self.assertEqual((status, lines), (3, []))
        self.assertEqual(note, f"edits: nothing was tried: the rt of this kit has no `rt ci NAME`; {log} has what it says\n")
        with open(log, encoding="utf-8") as file:
            self.assertIn("usage: rt new FOLDER", file.read())
