"""Which program is called, and what is told of it."""

import os
import shutil
import sys
from unittest import mock

from egasim_tools.base import program as module
from egasim_tools.base.files import sum_of
from egasim_tools.base.program import (OWN, is_executable, is_own, is_program, own_warning, printed_by, program, reaction_bound,
    version_lines)
from in_folder import InFolder
from notes import note_of

ELF = b"\x7fELF, or so"
TOTAL = f"program {sum_of(ELF)}"


class Program(InFolder):
    """A checkout in top/, and a folder my/ with links to its tools and another program."""

    def setUp(self):
        super().setUp()
        self.here = os.getcwd()
        for name in ("my/egasim", "top/release/egasim"):
            self.put(name, ELF, 0o755)
        self.put("script", b"#!/bin/sh\n", 0o755)
        os.makedirs("top/tools")
        os.symlink(f"{self.here}/top/tools", "my/tools")
        self.environment = self.enterContext(mock.patch.dict(os.environ))
        self.environment.pop("EGASIM_PROGRAM", None)
        self.enterContext(mock.patch.object(sys, "argv", ["my/tools/report"]))
        self.enterContext(mock.patch.multiple(module, TOP=f"{self.here}/top", TOOLS=f"{self.here}/top/tools"))

    def version(self, lines):
        self.put("top/tools/version", "#!/bin/sh\n" + lines, 0o755)

    def test_program_that_is_named_comes_first(self):
        os.environ["EGASIM_PROGRAM"] = "my/egasim"
        self.assertEqual(program(), f"{self.here}/my/egasim")

    def test_what_is_named_and_is_no_program_is_refused(self):
        self.put("not_executable", ELF)
        self.put("empty", b"", 0o755)
        for name in ("script", "not_executable", "empty", "gone", "."):
            os.environ["EGASIM_PROGRAM"] = name
            self.assertEqual(note_of(program), f"{name}, which EGASIM_PROGRAM names, is no program (a script isn't one)")

    def test_tools_by_a_link_take_the_program_of_their_checkout(self):
        self.assertEqual(program(), f"{self.here}/top/release/egasim")
        os.unlink("top/release/egasim")
        self.assertEqual(note_of(program), f"{self.here}/top/release/egasim is no program that may be run")

    def test_program_runs_by_itself(self):
        self.assertEqual([is_program(name) for name in ("my/egasim", "script", ".", "gone", sys.executable)],
                         [True, False, False, False, True])
        self.assertEqual([is_executable(name) for name in ("script", ".", "gone")], [True, False, False])

    def test_version_is_that_of_the_checkout_for_its_own_program(self):
        self.version(f'printf "%s\\n" "egasim 9.9" "commit abc" "{TOTAL}"\n')
        self.assertEqual(version_lines(), ["egasim 9.9", "commit abc", TOTAL])
        self.assertFalse(is_own(version_lines()))

    def test_version_tells_of_another_program_alone(self):
        self.version('printf "%s\\n" "egasim 9.9" "commit abc" "program 0"\n')
        self.assertEqual(version_lines(), [f"egasim 9.9{OWN}", TOTAL])
        self.assertTrue(is_own(version_lines()))
        self.assertRegex(own_warning("page"), "^The program was named by whoever made this page")

    def test_what_a_command_prints_and_why_it_is_refused(self):
        with mock.patch.object(module, "program", lambda: f"{self.here}/stand_in"):
            self.put("stand_in", '#!/bin/sh\necho "reaction $#"\n', 0o755)
            self.assertEqual(printed_by("bound", "a", "b"), "reaction 3\n")
            self.assertEqual((reaction_bound(None), reaction_bound("my.toml")), (1, 3))
            self.put("stand_in", "#!/bin/sh\necho my.toml: answer 2 >&2; exit 3\n", 0o755)
            self.assertEqual(note_of(printed_by, "bound"), "egasim bound: my.toml: answer 2")
            self.put("stand_in", "#!/bin/sh\nexit 3\n", 0o755)
            self.assertEqual(note_of(printed_by, "bound"), "egasim bound: status 3")

    def test_name_that_is_not_utf8_is_told(self):
        self.put("stand_in", "#!/bin/sh\necho $0 $1\n", 0o755)
        odd = os.fsdecode(b"odd\xff")
        os.mkdir(odd)
        shutil.copy("stand_in", f"{odd}/stand_in")
        with mock.patch.object(module, "program", lambda: f"{self.here}/{odd}/stand_in"):
            self.assertEqual(note_of(printed_by, "table", f"{odd}.toml"), r"odd\xff.toml isn't UTF-8, and the program takes no such name")
            self.assertEqual(module.run(["bound"]).stdout, os.fsencode(f"{self.here}/{odd}/stand_in bound\n"))

    def test_program_has_its_own_name_wherever_it_is(self):
        with mock.patch.object(module, "program", lambda: shutil.which("sh")):
            self.assertEqual(module.run(["-c", "cat /proc/$$/cmdline"]).stdout, b"egasim\0-c\0cat /proc/$$/cmdline\0")
