"""How tools are called, and how they end."""

import contextlib
import errno
import io
import os
import resource
import shutil
import signal
import subprocess
import sys
import unittest
from unittest import mock

from egasim_tools.base.files import TOOLS
from egasim_tools.base.tool import as_noted, fail, guarded
from in_folder import InFolder
from notes import note_of


def raises(error):
    def main():
        raise error
    return main


class Tool(unittest.TestCase):
    def test_control_characters_are_written_as_in_notes(self):
        self.assertEqual(as_noted("a\nb\x1b[2J\x7f"), r"a\x0ab\x1b[2J\x7f")
        self.assertEqual(as_noted("\x85"), r"\xc2\x85")  # its two bytes
        self.assertEqual(as_noted("plain ü \\"), "plain ü \\")
        self.assertEqual(as_noted(os.fsdecode(b"a\xff.csv")), r"a\xff.csv")

    def test_end_is_one_line(self):
        self.assertEqual(note_of(fail, "a\nb: c"), r"a\x0ab: c")

    def test_what_the_system_refuses_is_told_in_a_line(self):
        full, named = OSError(errno.ENOSPC, os.strerror(errno.ENOSPC)), OSError(errno.EACCES, "Permission denied", "x.csv")
        for error, note in ((full, "output: No space left on device"), (named, "x.csv: Permission denied"),
                            (MemoryError(), "no memory"), (RecursionError("deep"), "a file is too deep"),
                            (OverflowError("int too large to convert to float"), "a number is out of range"),
                            (ValueError("odd"), "a file can't be read: odd")):
            self.assertEqual(note_of(guarded, raises(error)), note)

    def test_a_tool_of_verdicts_has_another_status_for_a_refusal(self):
        error = io.StringIO()
        with contextlib.redirect_stderr(error), self.assertRaises(SystemExit) as end:
            guarded(lambda: fail("no such words"), refused=2)
        self.assertEqual((end.exception.code, error.getvalue().split(": ", 1)[1]), (2, "no such words\n"))
        for code in (0, 1):
            with self.assertRaises(SystemExit) as end:
                guarded(lambda: sys.exit(code), refused=2)
            self.assertEqual(end.exception.code, code)

    def test_closed_output_is_told(self):
        with mock.patch.object(sys, "stdout", None):
            self.assertEqual(note_of(guarded, lambda: None), "standard output is closed")


class Ends(InFolder):
    """A tool in a process of its own."""

    def ended(self, words, output=subprocess.PIPE, **variables):
        """How a tool of these words ends: its status, and what it has on standard error."""
        head = f"import os, signal, sys\nsys.path.insert(0, {TOOLS!r})\nimport egasim_tools\nfrom egasim_tools.base.tool import fail, guarded\n"
        done = subprocess.run([sys.executable, "-Bc", head + words], stdout=output, stderr=subprocess.PIPE, text=True, check=False,
                              env={**os.environ, **variables}, timeout=60)
        return done.returncode, done.stderr

    def test_output_is_written_whole_or_the_tool_fails(self):
        ways = ("print('x' * 99999)", "print('x' * 99999); sys.exit(0)", "print('x' * 99999); fail('a note')",
                "sys.stdout.buffer.write(b'x' * 99999)", "[print('x' * 999) for _ in range(99)]")
        for variables in ({"PYTHONUNBUFFERED": ""}, {"PYTHONUNBUFFERED": "1"}):
            for words in ways:
                call = f"def main():\n    {words}\n"
                with open("/dev/full", "wb") as full:
                    self.assertEqual(self.ended(f"{call}guarded(main)", full, **variables),
                                     (1, "-c: output: No space left on device\n"))
                    self.assertEqual(self.ended(f"{call}guarded(main, refused=2)", full, **variables),
                                     (2, "-c: output: No space left on device\n"))
                limit = f"import resource; resource.setrlimit(resource.RLIMIT_FSIZE, (8192, 8192))\n{call}guarded(main)"
                with open("out", "wb") as file:
                    self.assertEqual(self.ended(limit, file, **variables), (1, "-c: output: File too large\n"))
        self.assertNotEqual(resource.getrlimit(resource.RLIMIT_FSIZE)[0], 8192)

    def test_what_is_printed_stands_there_with_each_status(self):
        for end, status in (("None", 0), ("sys.exit(1)", 1), ("fail('a note')", 1), ("{}['a']", 1)):
            with open("out", "wb") as file:
                self.assertEqual(self.ended(f"guarded(lambda: [print('told'), {end}])", file, PYTHONUNBUFFERED="1")[0], status)
            self.assertEqual(self.text("out"), "told\n")

    def test_reader_that_goes_ends_it_without_a_note(self):
        read, write = os.pipe()
        os.close(read)
        with open(write, "wb") as gone:
            self.assertEqual(self.ended("guarded(lambda: print('told'))", gone), (1, ""))

    def test_signal_ends_it_without_a_word(self):
        for name in ("SIGHUP", "SIGINT", "SIGTERM"):
            number, kill = getattr(signal, name), f"os.kill(os.getpid(), signal.{name})"
            self.assertEqual(self.ended(f"guarded(lambda: {kill})"), (128 + number, ""))
            self.assertEqual(self.ended(kill), (-number, ""))  # while modules are imported
            ignored = f"signal.signal(signal.{name}, signal.SIG_IGN)"
            self.assertEqual(self.ended(f"{ignored}\nguarded(lambda: {kill})"), (0, ""))

    def test_second_signal_leaves_nothing_behind(self):
        kill = "os.kill(os.getpid(), signal.SIGTERM)"
        for first, second in ((kill, kill), ("pass", kill), (kill, "pass")):
            words = f"""import shutil
from egasim_tools.base import files
rmtree = shutil.rmtree
def removes(*words, **more):
    {second}
    rmtree(*words, **more)
def main():
    with files.room_in("."), files.written("a"):
        files.shutil.rmtree = removes
        {first}
guarded(main)"""
            self.assertEqual(self.ended(words), (143, ""))
            self.assertEqual(os.listdir(), [] if first == kill else ["a"])
            self.put("a")
            os.unlink("a")

    def test_older_python_is_refused_before_all_else(self):
        words = f"import sys; sys.path.insert(0, {TOOLS!r}); sys.version_info = (3, 10, 9); import egasim_tools"
        done = subprocess.run([sys.executable, "-Bc", words], capture_output=True, text=True, check=False)
        self.assertEqual((done.returncode, done.stderr), (1, "-c: Python 3.11 or later is needed\n"))

    def test_what_python_compiles_is_kept_in_a_checkout_alone(self):
        os.makedirs("top/crates")
        shutil.copytree(TOOLS, "top/tools", ignore=shutil.ignore_patterns("__pycache__", "tests"))
        compiled = "top/tools/egasim_tools/base/__pycache__"
        variables = {"PATH": os.environ["PATH"]}
        for is_checkout in (True, False):
            for kept, more in ((False, {"PYTHONDONTWRITEBYTECODE": "1"}), (is_checkout, {})):
                subprocess.run(["top/tools/draw", "--help"], stdout=subprocess.DEVNULL, check=True, env=variables | more)
                self.assertEqual(os.path.isdir(compiled), kept)
            shutil.rmtree(compiled, ignore_errors=True)
            shutil.rmtree("top/crates", ignore_errors=True)

    def test_each_tool_finds_its_modules_also_where_python_keeps_its_folder_out(self):
        tools = [name for name in os.listdir(TOOLS) if self.text(f"{TOOLS}/{name}").startswith("#!/usr/bin/env python3\n")]
        self.assertIn("report", tools)
        os.mkdir("links")
        for name in tools:
            os.symlink(f"{TOOLS}/{name}", f"links/{name}")
            for path in (f"{TOOLS}/{name}", f"links/{name}"):
                done = subprocess.run([path, "--help"], capture_output=True, text=True, check=False,
                                      env={**os.environ, "PYTHONSAFEPATH": "1"})
                self.assertEqual((done.returncode, done.stderr), (0, ""), name)

    def text(self, name):
        if not os.path.isfile(name):
            return ""
        with open(name, encoding="utf-8") as file:
            return file.read()
