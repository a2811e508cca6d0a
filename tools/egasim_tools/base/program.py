"""The program: which one it is, what is told of it, and what its commands print."""

import os
import re
import shlex
import subprocess
import sys
import tempfile

from egasim_tools.base.files import TOOLS, TOP, read, room_in, sum_of
from egasim_tools.base.tool import TOOL, as_noted, fail

CALLS = {"shown": False, "kept": None}  # whether each call is shown; the folder in which each is kept (egasim_tools/evidence/kept_calls.py), if any
NOT_UTF8 = re.compile("[\udc80-\udcff]")  # what Python makes of such bytes
OWN = ", by a program of your own"  # what a version has behind it if the program is another one


def program():
    """The program: the one that EGASIM_PROGRAM names, or release/egasim of the checkout or installation that the tools are
    of, also where they are called by links."""
    named = os.environ.get("EGASIM_PROGRAM")
    if named and not is_program(named):
        fail(f"{named}, which EGASIM_PROGRAM names, is no program (a script isn't one)")
    path = named or os.path.join(TOP, "release", "egasim")
    return os.path.realpath(path) if is_program(path) else fail(f"{path} is no program that may be run")


def is_executable(path):
    return os.path.isfile(path) and os.access(path, os.X_OK)


def is_program(path):
    """Whether a file is a program of Linux, which runs by itself, and not by another one as a script does."""
    if not is_executable(path):
        return False
    with open(path, "rb") as file:
        return file.read(4) == b"\x7fELF"


def asked_version():
    """A call of `egasim --version`, which reads all sources, while the tool goes on."""
    return subprocess.Popen([os.path.join(TOOLS, "version")], stdin=subprocess.DEVNULL, stdout=subprocess.PIPE,
                            stderr=subprocess.DEVNULL)


def version_lines(way=None, asked=None):
    """What --version tells of the program that is called, or of the one at `way`; of one that the caller brings that alone,
    and its checksum. `asked` is the call that asked_version began."""
    total = f"program {sum_of(read(way or program()))}"
    lines = (asked or asked_version()).communicate()[0].decode().splitlines()
    if tells_of(lines, total):
        return lines
    return [*(f"{line.removesuffix(OWN)}{OWN}" for line in lines[:1]), total]


def tells_of(lines, total):
    """Whether one of these lines is of this program; it has the kit's name behind it."""
    return any(line == total or line.startswith(f"{total}, kit ") for line in lines)


def is_own(lines):
    """Whether the program isn't the one that was proved and built with the tools, by its version_lines."""
    return lines[0].endswith(OWN) or len(lines) == 1


def own_warning(place):
    """What is said of a program that the caller brings, in a page or wherever else it speaks of what is proved."""
    return (f"The program was named by whoever made this {place}. What is said here to be proved is proved of the program that "
            "is built with the sources, and not of this one.")


def run(words, given=b"", way=None, place=None):
    """Runs a command of the program, or of the one at `way`, in the folder of the call or in another one. The program takes
    no word that isn't UTF-8, its own name included, and doesn't say which word that is."""
    for word in filter(NOT_UTF8.search, words):
        fail(f"{word} isn't UTF-8, and the program takes no such name")
    return subprocess.run(["egasim", *words], executable=way or program(), input=given, cwd=place or None, capture_output=True,
                          check=False)


def call(words, given=b"", way=None, place=None):
    """Runs a command as `run` does. Where calls are kept it is kept too, by the folder's program and in its place."""
    return CALLS["kept"].call(words, given) if CALLS["kept"] else run(words, given, way, place)


def printed_by(*words, readings=None, shown=None):
    """What a command of the program prints, with this file on standard input. If it is refused, its note is told, where
    `shown` may have other names for those that the program was given."""
    show_call(words, readings)
    done = call(words, read(readings) if readings else b"")
    if done.returncode:
        fail(f"egasim {words[0]}: {note_in(done, {**(shown or {}), **({'standard input': readings} if readings else {})})}")
    return done.stdout.decode()


def note_in(done, shown):
    """Why a command was refused, where `shown` has other names for those that the program was given."""
    note = done.stderr.decode(errors="replace").strip()
    for name, other in shown.items():
        note = note.replace(name, other)
    return note or f"status {done.returncode}"


def printed_of(command, *words, text, name="calibration.toml"):
    """What a command prints of a file that has this text; it is told by this name."""
    with room_in(tempfile.gettempdir()) as folder:
        path = os.path.join(folder, "file")
        with open(path, "wb") as file:
            file.write(text.encode())
        return printed_by(command, *words, path, shown={path: name})


def show_call(words, readings=None):
    """Shows a call on standard error, if that is asked for by --verbose."""
    if CALLS["shown"]:
        print(as_noted(f"{TOOL}: egasim {shlex.join(words)}{f' <{shlex.quote(readings)}' if readings else ''}"), file=sys.stderr)


def reaction_bound(calibration):
    """R of a calibration file, or of the reference calibration."""
    return int(printed_by("bound", *(["--cal", calibration] if calibration else [])).split()[1])
