"""Files that are read within bounds, and written whole."""

import fcntl
import os
import resource
import subprocess
import sys
import threading
from unittest import mock

from egasim_tools.base import files
from egasim_tools.base.files import (read, refuse_input, remove_left, renamed, room_in, sum_of, sum_of_file, text_in, text_of,
    text_on_standard_input, write, written)
from in_folder import InFolder
from notes import note_of

EMPTY = "e3b0c44298fc1c149afbf4c8996fb92427ae41e4649b934ca495991b7852b855"  # as sha256sum prints of nothing
LEFT = ".egasim-abcdefg7"


class Reading(InFolder):
    def test_bytes_are_those_of_the_file(self):
        self.put("a", b"\x00\xff\r\n")
        self.assertEqual(read("a"), b"\x00\xff\r\n")

    def test_what_has_no_end_is_refused(self):
        os.mkfifo("pipe")
        for name, note in (("/dev/zero", "/dev/zero is no file"), ("pipe", "pipe is no file"),
                           (".", "cannot read .: Is a directory"), ("gone", "cannot read gone: No such file or directory"),
                           ("a\0b", r"cannot read a\x00b: no file has such a name")):
            self.assertEqual(note_of(read, name), note)

    def test_longest_file_is_read_and_a_longer_one_refused(self):
        self.put("a", b"12345")
        with mock.patch.object(files, "MOST_BYTES", 5):
            self.assertEqual(read("a"), b"12345")
        with mock.patch.object(files, "MOST_BYTES", 4):
            self.assertEqual(note_of(read, "a"), "a: longer than 4 bytes")

    def test_text_is_utf8_without_its_mark(self):
        self.put("a", b"\xef\xbb\xbf\xc3\xa4\r\n")
        self.assertEqual(text_of("a"), "ä\r\n")
        self.assertEqual(note_of(text_in, "b", b"\xff"), "b isn't UTF-8")

    def test_standard_input_is_read_like_a_file(self):
        self.put("a", b"one\n")
        with open("a", encoding="utf-8") as file, mock.patch.object(sys, "stdin", file):
            self.assertEqual(text_on_standard_input(), "one\n")
        with mock.patch.object(sys, "stdin", None):
            self.assertEqual(note_of(text_on_standard_input), "standard input is closed")

    def test_checksums_are_those_of_sha256sum(self):
        self.put("a")
        self.assertEqual((sum_of(b""), sum_of_file("a")), (EMPTY, EMPTY))


class Writing(InFolder):
    def names(self):
        return sorted(os.listdir())

    def mode(self, name):
        return os.stat(name).st_mode & 0o7777

    def test_new_file_has_the_mode_that_the_system_gives(self):
        for mask, mode in ((0o022, 0o644), (0o077, 0o600), (0o002, 0o664)):
            os.umask(mask)
            write(f"new{mask}", b"a")
            self.assertEqual((read(f"new{mask}"), self.mode(f"new{mask}")), (b"a", mode))
        self.assertEqual(os.umask(0o002), 0o002)

    def test_replaced_file_keeps_its_mode_and_owner(self):
        self.put("a", b"old", 0o640)
        if os.geteuid() == 0:
            os.chown("a", 1234, 2345)
        owner = os.stat("a").st_uid, os.stat("a").st_gid
        write("a", b"new")
        self.assertEqual((read("a"), self.mode("a")), (b"new", 0o640))
        self.assertEqual((os.stat("a").st_uid, os.stat("a").st_gid), owner)

    def test_mode_that_is_asked_for_stands_above_umask_and_old_mode(self):
        os.umask(0o077)
        self.put("a", b"old", 0o600)
        if os.geteuid() == 0:
            os.chown("a", 1234, 2345)
        for name in ("a", "b"):
            write(name, b"new", 0o755)
            self.assertEqual((self.mode(name), os.stat(name).st_uid), (0o755, os.geteuid()))

    def test_owner_that_cannot_be_kept_is_a_refusal(self):
        self.put("a", b"old")
        other = os.stat_result([0o100644, 0, 0, 1, 1234, 2345, 0, 0, 0, 0])
        with (mock.patch.object(files.os, "lstat", return_value=other),
              mock.patch.object(files.os, "fchown", side_effect=PermissionError(1, "Operation not permitted"))):
            self.assertEqual(note_of(write, "a", b"new"), "cannot write a: its owner and group can't be kept")
        self.assertEqual((read("a"), self.names()), (b"old", ["a"]))

    def test_file_that_may_not_be_written_stays(self):
        self.put("a", b"old", 0o444)
        with mock.patch.object(files.os, "access", return_value=False):  # of root it would be True
            self.assertEqual(note_of(write, "a", b"new"), "cannot write a: its mode doesn't allow that")
        self.assertEqual((read("a"), self.names()), (b"old", ["a"]))

    def test_nothing_gets_the_name_where_writing_ends_before_its_end(self):
        self.put("a", b"old")
        with self.assertRaises(KeyError), written("a") as file:
            file.write(b"half")
            raise KeyError
        self.assertEqual((read("a"), self.names()), (b"old", ["a"]))

    def test_old_file_is_there_until_the_new_one_is_whole(self):
        self.put("a", b"old")
        with written("a") as file:
            file.write(b"new")
            file.flush()
            self.assertEqual(read("a"), b"old")
        self.assertEqual(read("a"), b"new")

    def test_output_that_is_read_is_refused_by_each_of_its_names(self):
        self.put("d/a", b"in")
        os.link("d/a", "hard")
        os.symlink("d/a", "soft")
        os.symlink("gone", "dangling")
        self.put("b", b"in")
        self.assertEqual(note_of(refuse_input, "d/a", ["b", "d/a"]), "d/a would be written over, and is read")
        for name in ("hard", "soft", "./d/../d/a", os.path.abspath("d/a")):
            self.assertEqual(note_of(refuse_input, name, ["gone", "b", "d/a"]), f"{name} would be written over, and is read as d/a")
            self.assertEqual(note_of(refuse_input, "d/a", [name]), f"d/a would be written over, and is read as {name}")
        for name in ("new", "d/b", "dangling", "gone/b"):
            self.assertIsNone(note_of(refuse_input, name, ["gone", "b", "d/a"]))

    def test_place_that_is_not_there_is_a_refusal(self):
        self.put("a", b"old")
        os.mkdir("d")
        os.mkfifo("pipe")
        for name, reason in (("gone/b", "No such file or directory"), ("a/b", "Not a directory"), ("d", "it is no file"),
                             ("pipe", "it is no file")):
            self.assertEqual(note_of(write, name, b"new"), f"cannot write {name}: {reason}")
        self.assertEqual((read("a"), self.names()), (b"old", ["a", "d", "pipe"]))

    def test_what_the_caller_reads_meanwhile_is_told_as_that(self):
        with self.assertRaises(FileNotFoundError) as error, written("a"), open("gone", "rb"):
            pass
        self.assertEqual((error.exception.filename, self.names()), ("gone", []))

    def test_link_is_replaced_and_not_its_target(self):
        self.put("a", b"old")
        os.symlink("a", "link")
        write("link", b"new")
        self.assertEqual((read("a"), read("link"), os.path.islink("link")), (b"old", b"new", False))

    def test_disk_that_takes_no_more_is_told_with_its_reason(self):
        self.put("a", b"old")
        words = f"""import resource, sys; sys.path.insert(0, {files.TOOLS!r}); from egasim_tools.base.files import write
resource.setrlimit(resource.RLIMIT_FSIZE, (1000, 1000)); write("a", bytes(5000))"""
        done = subprocess.run([sys.executable, "-Bc", words], capture_output=True, text=True, check=False)
        self.assertEqual((done.returncode, done.stderr), (1, "-c: cannot write a: File too large\n"))
        self.assertEqual((read("a"), self.names()), (b"old", ["a"]))
        self.assertNotEqual(resource.getrlimit(resource.RLIMIT_FSIZE)[0], 1000)

    def test_folder_gets_its_name_once(self):
        for name in ("a", "b", "full/inner", "empty"):
            os.makedirs(name)
        self.assertEqual((renamed("a", "c"), renamed("b", "c"), renamed("b", "full"), renamed("b", "empty")),
                         (True, False, False, False))
        with mock.patch.object(files.os.path, "lexists", return_value=False):  # another call comes in between
            self.assertFalse(renamed("b", "full"))
        self.assertRaises(FileNotFoundError, renamed, "gone", "d")

    def test_two_at_once_each_write_a_whole_file(self):
        def writes(letter):
            for _ in range(20):
                with written("a") as file:
                    for _ in range(50):
                        file.write(letter * 1000)

        letters = (b"x", b"y", b"z")
        threads = [threading.Thread(target=writes, args=(letter,)) for letter in letters]
        for thread in threads:
            thread.start()
        while any(thread.is_alive() for thread in threads):
            self.assertIn(read("a") if os.path.exists("a") else b"x" * 50000, [letter * 50000 for letter in letters])
        self.assertIn(read("a"), [letter * 50000 for letter in letters])
        self.assertEqual(self.names(), ["a"])


class Left(InFolder):
    def test_what_nobody_locks_is_removed(self):
        self.put(LEFT)
        os.mkdir(".egasim-aaaaaaaa")
        self.put(".egasim-aaaaaaaa/inner")
        for name in (".egasim-", ".egasim-abc", ".egasim-abcdefgh.csv", "egasim-abcdefgh", ".egasim-ABCDEFGH"):
            self.put(name)
        os.symlink("gone", ".egasim-bbbbbbbb")
        remove_left(".")
        self.assertEqual(sorted(os.listdir()), [".egasim-", ".egasim-ABCDEFGH", ".egasim-abc", ".egasim-abcdefgh.csv",
                                                ".egasim-bbbbbbbb", "egasim-abcdefgh"])

    def test_what_another_call_goes_on_with_stays(self):
        self.put(LEFT)
        with open(LEFT, "rb") as file:
            fcntl.flock(file, fcntl.LOCK_EX)
            write("a", b"")
            self.assertEqual(sorted(os.listdir()), [LEFT, "a"])
        write("a", b"")
        self.assertEqual(os.listdir(), ["a"])

    def test_killed_call_is_cleaned_up_by_the_next(self):
        words = f"""import os, signal, sys; sys.path.insert(0, {files.TOOLS!r}); from egasim_tools.base.files import room_in, written
with room_in(".") as room, written("a") as file:
    open(room + "/b", "w").close(); os.kill(os.getpid(), signal.SIGKILL)"""
        subprocess.run([sys.executable, "-Bc", words], check=False)
        self.assertEqual(len(os.listdir()), 2)
        write("a", b"new")
        self.assertEqual(os.listdir(), ["a"])

    def test_where_there_are_no_locks_it_is_told(self):
        self.put(LEFT)
        with mock.patch.object(files.fcntl, "flock", side_effect=OSError(37, "No locks available")):
            with mock.patch.object(sys, "stderr") as err:
                write("a", b"new")
        told = "".join(call.args[0] for call in err.write.call_args_list)
        self.assertRegex(told, r"/\.egasim-abcdefg7 was left by a call that was killed, unless one goes on\n$")
        self.assertEqual((sorted(os.listdir()), read("a")), ([LEFT, "a"], b"new"))

    def test_room_that_another_call_removes_at_once_is_made_anew(self):
        os.mkdir("kept")
        with mock.patch.object(files.tempfile, "mkdtemp", side_effect=["./gone", "./kept"]), room_in(".") as room:
            self.assertEqual(room, "./kept")

    def test_room_is_there_as_long_as_it_is_used(self):
        with room_in(".") as room:
            self.assertRegex(room, r"^\./\.egasim-[a-z0-9_]{8}$")
            self.put(os.path.join(room, "inner"))
            remove_left(".")
            self.assertTrue(os.path.exists(os.path.join(room, "inner")))
        self.assertEqual(os.listdir(), [])
