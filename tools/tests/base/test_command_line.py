"""How the words of a call are declared, read and told."""

import contextlib
import io
import os
import re
import subprocess
import unittest
from unittest import mock

from egasim_tools.base.command_line import (NAME, PER_CENT, TICK_LENGTH, TIME, WIDTH, Form, Tool, Word, file, whole)
from egasim_tools.base.completion import completion
from egasim_tools.base.files import TOOLS, TOP, text_of
from egasim_tools.tools import TOOLS as DECLARED
from in_folder import InFolder

SHELL = {"help", "prove", "version"}  # scripts in tools/ that are no tools


def tool_with(run):
    words = (Word("FILE", "a file", file("toml"), is_needed=True), Word("OTHER", "another one", NAME),
             Word("--room", "a share", PER_CENT, "PERCENT", default=7), Word("--falls", "a time", TIME, "TIME"), TICK_LENGTH,
             Word("--offset", "a number", whole(-9, 9), "NUMBER"), Word("--sound", "a run", NAME, "NAME", is_several=True),
             Word("--strict", "a flag"))
    return Tool("mend", "mends a file", (Form("mends it", run, words, rest="[-- REST ..]"),
                                         Form("joins two", run, (Word("ONE", "a file", NAME, is_needed=True),), "join")))


class CommandLine(unittest.TestCase):
    def values(self, *words):
        """What a call gives, or its line on standard error, with its status."""
        held, told = [], io.StringIO()
        try:
            with contextlib.redirect_stderr(told):
                tool_with(held.append).call(list(words))
        except SystemExit as end:
            self.assertEqual((end.code, told.getvalue().count("\n")), (2, 1), words)
            return told.getvalue().partition(": ")[2].strip()
        return held[0]

    def test_words_are_read(self):
        values = self.values("--room", "9", "a.toml", "--sound", "x", "--offset", "-3", "b", "--sound=y", "--strict")
        self.assertEqual((values.file, values.other, values.room, values.sound, values.offset, values.strict, values.falls),
                         ("a.toml", "b", 9, ["x", "y"], -3, True, None))
        values = self.values("a.toml", "--", "egasim", "--room")
        self.assertEqual((values.rest, values.room, values.other), (["egasim", "--room"], 7, None))
        self.assertEqual(self.values("join", "a").one, "a")

    def test_refused_words_are_told_in_a_line(self):
        for words, told in ((["a", "--roo", "3"], "unrecognized arguments: --roo 3"), (["a", "--room"], "expected one argument"),
                            (["a", "--room", "101"], "101 is no whole number from 0 to 100"), (["a", "--room", ""], "no whole number"),
                            (["a", "--falls", "1x"], "1x is no time"), (["a", "--tick", "0ms"], "0ms is no length of a tick"),
                            (["a", "b", "c"], "unrecognized arguments: c"), ([""], "an empty word is no name"),
                            (["a", "--room", "3", "--room", "4"], "--room: stands twice"),
                            (["a", "--room", "7", "--room", "4"], "--room: stands twice"),  # 7 is what it is without the word
                            (["join"], "required: ONE"), (["join", "a", "--strict"], "unrecognized arguments: --strict")):
            self.assertIn(told, str(self.values(*words)), words)

    def test_help_is_the_same_at_any_width_and_names_each_word(self):
        for tool in DECLARED:
            with mock.patch.dict(os.environ, {"COLUMNS": "40"}):
                told = tool.help()
            self.assertEqual(told, tool.help())
            self.assertLessEqual(max(map(len, told.split("\n"))), WIDTH)
            for word in tool.words():
                self.assertIn(f"\n  {word.said()}", told)

    def test_egasim_help_tells_what_each_tool_does(self):
        told = subprocess.run([os.path.join(TOOLS, "help")], stdout=subprocess.PIPE, text=True, check=True).stdout
        tools = [" ".join(lines.split()) for lines in re.split(r"\n  (?=[a-z])", told.partition("Python 3.11:\n")[2].partition("\n\n  help")[0])]
        self.assertEqual([line for line in tools if line], [f"{tool.name} {tool.does}" for tool in DECLARED])

    def test_declared_tools_are_the_scripts(self):
        scripts = {entry.name for entry in os.scandir(TOOLS) if entry.is_file() and os.access(entry.path, os.X_OK)} - SHELL
        self.assertEqual({tool.name for tool in DECLARED}, scripts)
        named = re.findall(r"^## egasim ([a-z]+)$", text_of(os.path.join(TOP, "docs", "TOOLS.md")), re.M)
        self.assertEqual(named, [tool.name for tool in DECLARED if tool.name in named or tool.name != "draw"])
        for name in scripts - {"partner"}:
            self.assertLessEqual(len(text_of(os.path.join(TOOLS, name)).splitlines()), 10, name)


class Completion(InFolder):
    def completed(self, *words):
        text = completion(DECLARED) + text_of(os.path.join(TOP, "dist", "completion.bash"))
        call = 'eval "$0"; COMP_WORDS=("$@"); COMP_CWORD=$(($# - 1)); _egasim; echo "${COMPREPLY[@]}"'
        return subprocess.run(["bash", "-c", call, text, "egasim", *words], stdout=subprocess.PIPE, text=True, check=True).stdout.split()

    def test_tools_options_and_files_are_completed(self):
        for name in ("a.toml", "a.csv", "a.dcm"):
            self.put(name)
        os.mkdir("b")
        for words, told in ((["stu"], ["study"]), (["report", "--s"], ["--sound", "--sweep-sound"]), (["report", ""], ["a.toml", "b"]),
                            (["report", "--recording", ""], ["a.csv", "b"]), (["calibration", "read", ""], ["a.dcm", "a.toml", "b"]),
                            (["judge", "--ju"], ["--junit"])):
            self.assertEqual(self.completed(*words), told, words)
