"""What is kept of a command, and what is told where something is otherwise. Programs of the system take the program's part."""

import hashlib
import os
import shutil
import subprocess
import sys
from unittest import mock

from in_folder import InFolder
from egasim_tools.base.files import TOOLS, TOP, read, sum_of
from egasim_tools.base.program import CALLS, printed_by
from egasim_tools.evidence.kept_calls import calls_kept, differences, differing, names_of
from notes import note_of

CAMPAIGN = """[[run]]
name = "a"
trace = "a.csv"
image = "i.hex"
[[run]]
name = "b"
trace = "b.csv"
image = "i.hex"
"""


class Keeping(InFolder):
    def setUp(self):
        super().setUp()
        self.put("c.toml", CAMPAIGN)
        self.put("cal.toml", "")
        self.put("a.csv", "a")
        self.put("b.csv", "b")
        self.put("i.hex", "i")

    def keep(self, *words, program="echo", given=""):
        environment = os.environ | {"EGASIM_PROGRAM": shutil.which(program)}
        done = subprocess.run([sys.executable, f"{TOOLS}/keep", *words], input=given, capture_output=True, text=True, check=False,
                              env=environment)
        return done.returncode, done.stdout, done.stderr.removeprefix("keep: ")

    def content(self, name):
        with open(name, encoding="utf-8") as file:
            return file.read()

    def test_the_files_that_a_command_reads(self):
        for words, wanted in (("run c.toml", "c.toml a.csv i.hex b.csv i.hex"), ("table --cal cal.toml c.toml", "cal.toml c.toml a.csv i.hex b.csv i.hex"),
                              ("record c.toml b", "c.toml b.csv i.hex"), ("couple c.toml b", "c.toml i.hex"), ("sweep c.toml a 5", "c.toml a.csv i.hex"),
                              ("record c.toml none", "c.toml"), ("soak 1 2", ""), ("limits --cal cal.toml", "cal.toml"), ("replay", ""),
                              ("asm x.asm", "x.asm"), ("check --cal cal.toml x.csv", "cal.toml x.csv"), ("run gone.toml", "gone.toml")):
            self.assertEqual(" ".join(names_of(words.split(), True)), wanted, words)

    def test_what_is_kept(self):
        self.assertEqual(self.keep("k", "--", "egasim", "record", "c.toml", "a"), (0, "k: egasim record c.toml a: status 0\n", ""))
        self.assertEqual(sorted(os.listdir("k")), ["command", "date", "kept.sum", "notes", "output", "read.sum", "status", "version"])
        self.assertEqual((self.content("k/command"), self.content("k/output"), self.content("k/status"), self.content("k/notes")),
                         ("egasim record c.toml a\n", "record c.toml a\n", "0\n", ""))
        self.assertEqual(self.content("k/read.sum"), "".join(
            f"{hashlib.sha256(content.encode()).hexdigest()}  {name}\n" for name, content in (("c.toml", CAMPAIGN), ("a.csv", "a"), ("i.hex", "i"))))
        subprocess.run(["sha256sum", "--quiet", "-c", "kept.sum"], cwd="k", check=True)
        self.assertEqual(self.keep("--again", "k"), (0, "k: egasim record c.toml a: the same\n", ""))
        self.assertEqual(self.keep("k", "--", "egasim", "bound"), (2, "", "k is there already\n"))

    def test_a_refusal_and_standard_input_are_kept_too(self):
        self.assertEqual(self.keep("k", "--", "egasim", "run", "gone.toml", program="false")[:2], (0, "k: egasim run gone.toml: status 1\n"))
        self.assertEqual(self.content("k/read.sum"), "no file  gone.toml\n")
        self.assertEqual(self.keep("m", "--", "egasim", "replay", given="1,2\n")[0], 0)
        self.assertEqual(self.content("m/input"), "1,2\n")
        self.put("c.toml", "[[run")
        self.assertEqual(self.keep("n", "--", "egasim", "run", "c.toml", program="false")[0], 0)
        self.assertEqual(self.keep("o", "--", "egasim", "run", "c.toml")[0], 2)

    def test_each_difference_is_told(self):
        self.keep("k", "--", "egasim", "run", "c.toml")
        self.put("b.csv", "otherwise")
        status, told, _ = self.keep("--again", "k")
        self.assertEqual((status, told.splitlines()[0], len(told.splitlines())), (1, "k: egasim run c.toml: otherwise", 2))
        self.assertRegex(told, r"read.sum: line 4 was '[0-9a-f]{64}  b.csv', and is '[0-9a-f]{64}  b.csv'")
        status, told, _ = self.keep("--again", "k", program="false")
        self.assertEqual((status, [line.split(":")[0] for line in told.splitlines()[1:]]), (1, ["version", "read.sum", "status", "output"]))
        self.assertIn("output: line 1 was 'run c.toml', and is ''", told)

    def test_what_was_changed_in_the_folder_is_refused(self):
        self.keep("k", "--", "egasim", "run", "c.toml")
        self.put("k/output", "better\n")
        self.assertEqual(self.keep("--again", "k"), (2, "", "k/output isn't as it was made\n"))
        self.put("k/kept.sum", "")
        self.assertEqual(self.keep("--again", "k"), (2, "", "k/kept.sum lacks command\n"))
        self.assertEqual(self.keep("--again", "gone"), (2, "", "cannot read gone/kept.sum: No such file or directory\n"))

    def again_with(self, **changed):
        """Makes a folder again in which files were changed, and the checksums with them."""
        for name, text in changed.items():
            self.put(f"k/{name}", text)
        names = [line.partition("  ")[2] for line in self.content("k/kept.sum").splitlines()]
        self.put("k/kept.sum", "".join(f"{sum_of(read(f'k/{name}'))}  {name}\n" for name in names))
        return self.keep("--again", "k")

    def test_what_an_earlier_version_kept_differs_by_that_alone(self):
        self.keep("k", "--", "egasim", "run", "c.toml")
        status, told, _ = self.again_with(version="egasim 2.4.4\nprogram 00\n")
        said = "k: egasim run c.toml: version and program alone are otherwise"
        self.assertEqual((status, told.splitlines()[0], len(told.splitlines())), (1, said, 2))
        status, told, _ = self.again_with(output="run c\n")
        self.assertEqual((status, told.splitlines()[0], len(told.splitlines())), (1, "k: egasim run c.toml: otherwise", 3))

    def test_what_is_no_command_of_the_program_is_not_run(self):
        self.keep("k", "--", "egasim", "run", "c.toml")
        for command in ("./evil run c.toml", "k/egasim run c.toml", "egasim", "", "'egasim run'"):
            self.assertEqual(self.again_with(command=f"{command}\n"),
                             (2, "", f"k/command has {command}, which is no command of egasim\n"))

    def test_each_call_of_a_tool_is_kept_and_each_difference_told(self):
        self.assertEqual(self.kept_by_tool("k", "r.csv"), f"k, whose kept.sum has the SHA-256 {sum_of(read('k/kept.sum'))}")
        self.assertEqual(sorted(os.listdir("k")), ["00001", "00002", "date", "kept.sum", "tool", "tool.sum", "version"])
        self.assertEqual((self.content("k/00001/output"), self.content("k/00002/command"), self.content("k/00002/input")),
                         ("table c.toml\n", "egasim replay\n", "1,2\n"))
        subprocess.run(["sha256sum", "--quiet", "-c", "kept.sum"], cwd="k", check=True)
        said = f"k: 2 calls of {self.content('k/tool').strip()}: "
        self.assertEqual(self.keep("--again", "k"), (0, f"{said}the same\n", ""))
        self.put("b.csv", "otherwise")
        self.put("r.csv", "otherwise")
        status, told, _ = self.keep("--again", "k")
        self.assertEqual((status, told.splitlines()[0], len(told.splitlines())), (1, f"{said}otherwise", 3))
        self.assertRegex(told, r"\ntool.sum: line 1 was '[0-9a-f]{64}  r.csv', and is '[0-9a-f]{64}  r.csv'")
        self.assertRegex(told, r"\n00001: egasim table c.toml: read.sum: line 4 was '[0-9a-f]{64}  b.csv', and is ")
        _, told, _ = self.keep("--again", "k", program="false")
        self.assertEqual([line.partition(": line")[0] for line in told.splitlines()[1:]], [
            "version", "tool.sum", *(f"00001: egasim table c.toml: {name}" for name in ("read.sum", "status", "output")),
            *(f"00002: egasim replay: {name}" for name in ("status", "output"))])
        self.put("k/00002/output", "better\n")
        self.assertEqual(self.keep("--again", "k"), (2, "", "k/00002/output isn't as it was made\n"))
        for line, note in (("00  ../c.toml", "k/kept.sum isn't as it was made"), (f"{sum_of(b'')}  00001/notes", "k/kept.sum lacks 00001/command")):
            self.put("k/kept.sum", f"{line}\n")
            self.assertEqual(self.keep("--again", "k"), (2, "", f"{note}\n"))

    def test_nothing_is_kept_of_a_tool_that_fails(self):
        self.assertRaises(SystemExit, self.kept_by_tool, "k", "r.csv", "false")
        self.assertEqual((os.path.exists("k"), CALLS["kept"]), (False, None))
        self.kept_by_tool(None, "r.csv")

    def test_a_folder_that_another_call_makes_meanwhile_stays(self):
        with mock.patch.dict(os.environ, EGASIM_PROGRAM=shutil.which("echo")):
            self.assertEqual(note_of(self.calls_beside_another), "k is there already")
        self.assertEqual(sorted(os.listdir("k")), ["other"])
        self.assertEqual([name for name in os.listdir() if name.startswith(".egasim-")], [])

    def calls_beside_another(self):
        with calls_kept("k"):
            printed_by("table", "c.toml")
            self.put("k/other")

    def test_a_program_that_changes_meanwhile_is_told(self):
        shutil.copy(shutil.which("echo"), "p")
        with mock.patch.dict(os.environ, EGASIM_PROGRAM="p"):
            self.assertEqual(note_of(self.calls_of_changed_program), "the program changed meanwhile")
        self.assertFalse(os.path.exists("k"))

    def calls_of_changed_program(self):
        with calls_kept("k"):
            printed_by("table", "c.toml")
            with open("p", "ab") as file:
                file.write(b"otherwise")

    def kept_by_tool(self, name, recording, program="echo"):
        """Keeps two calls of a tool, this one; what it says of the folder."""
        self.put(recording, "1,2\n")
        with mock.patch.dict(os.environ, EGASIM_PROGRAM=shutil.which(program)), calls_kept(name) as kept:
            printed_by("table", "c.toml")
            printed_by("replay", readings=recording)
            return kept and kept.sealed([recording])

    def test_words_that_are_none(self):
        for words in (["k"], ["k", "egasim", "run"], ["k", "--", "run"], ["k", "--", "egasim"], ["--again"], ["--again", ""], ["", "--", "egasim", "run"]):
            status, output, note = self.keep(*words)
            self.assertEqual((status, output, note.count("\n"), note.endswith("; --help tells the words\n")), (2, "", 1, True), words)

    def test_a_path_to_the_program_is_taken_and_one_to_another_is_not(self):
        self.put("d/egasim", "#!/bin/sh\n", 0o755)
        os.symlink(shutil.which("echo"), "egasim")
        os.symlink(f"{TOP}/egasim", "l-egasim")
        for name, way in (("k", "./egasim"), ("m", os.path.abspath("egasim")), ("n", f"{TOP}/egasim")):
            self.assertEqual(self.keep(name, "--", way, "bound"), (0, f"{name}: egasim bound: status 0\n", ""))
            self.assertEqual((self.content(f"{name}/output"), self.keep("--again", name)[0]), ("bound\n", 0))
        self.put("p/bin/egasim", "#!/bin/sh\n", 0o755)
        os.makedirs("p/lib/egasim")
        shutil.copy(shutil.which("echo"), "p/lib/egasim/egasim")
        self.assertEqual(self.keep("p/k", "--", "p/bin/egasim", "bound", program="./p/lib/egasim/egasim")[0], 0)
        for way in ("d/egasim", "./gone/egasim", "p/bin/egasim"):
            self.assertEqual(self.keep("o", "--", way, "bound"),
                             (2, "", f"{way} isn't the program that would be run, {os.path.realpath(shutil.which('echo'))}; --help tells the words\n"))
        for way in ("l-egasim", "echo", "", "egasim/", "/"):
            self.assertEqual(self.keep("o", "--", way, "bound")[0], 2)

    def test_lines_that_differ(self):
        for old, new, lines in ((b"a\nb\n", b"a\nc\n", ["line 2 was 'b', and is 'c'"]), (b"a\n", b"a\nc\n", ["line 2 was '', and is 'c'"]),
                                (b"a", b"a\n", ["an end of a line is otherwise"]), (b"a\n", b"a\n", []),
                                (b"a\nb\nc\n", b"d\nb\n", ["line 1 was 'a', and is 'd'", "line 3 was 'c', and is ''"])):
            self.assertEqual(list(differing(old, new)), lines)
        self.put("k/x.sum", "a\nb\nc\n")
        self.put("k/output", "a\nb\nc\n")
        told = list(differences("k", {"x.sum": b"d\nb\ne\n", "output": b"d\nb\ne\n"}))
        self.assertEqual([line.partition(" was")[0] for line in told], ["x.sum: line 1", "x.sum: line 3", "output: line 1"])
