"""What is kept of calls of the program, of one by egasim keep or of all those of a tool by its --keep, and how they are made
again."""

import contextlib
import datetime
import functools
import itertools
import os
import re
import shlex
import sys

from egasim_tools.base.files import read, renamed, room_in, sum_of, sum_of_file, text_in, within_bounds
from egasim_tools.base.program import CALLS, program, run, version_lines
from egasim_tools.base.toml import toml_in
from egasim_tools.base.tool import TOOL, as_noted, fail

ON_INPUT = ("replay", "signals", "couple")  # commands that read standard input
# What a command reads of the runs of its campaign: of all, or of the one that it names.
OF_ALL, OF_ONE = ("run", "table", "margins"), ("record", "sweep", "couple")
COMPARED = ("read.sum", "status", "notes", "output")  # of each call, behind the version
PROGRAM = "egasim"  # the first word of each command that is kept
SUMS, NAME = "kept.sum", re.compile(r"(?:[0-9]{5,}/)?[a-z]+(?:\.sum)?")  # a name that stands there


# Made


class Kept:
    """A folder that is kept, while it is made. `way` is the program, `place` the folder in which it is called."""

    def __init__(self, name, room, way, place):
        self.name, self.room, self.way, self.place, self.sums, self.calls = name, room, way, place, {}, 0

    def put(self, name, content):
        with open(os.path.join(self.room, name), "wb") as file:
            file.write(content)
        self.sums[name] = sum_of(content)

    def call(self, words, given=b""):
        """Calls the program, and keeps that in a folder of its own."""
        done, files = made(words, given, self.way, self.place)
        self.add(files)
        return done

    def add(self, files):
        """Keeps the files of a call in a folder of its own."""
        self.calls += 1
        os.mkdir(os.path.join(self.room, f"{self.calls:05}"))
        for name, content in files.items():
            self.put(f"{self.calls:05}/{name}", content)

    def sealed(self, names=()):
        """The folder and its checksum, that of its checksums of all files, as a page or a verdict tells them. The names are of
        files that the tool reads itself. Nothing more is kept from there on."""
        if names:
            self.put("tool.sum", lines_of(names, self.place).encode())
        self.put(SUMS, "".join(f"{total}  {name}\n" for name, total in self.sums.items()).encode())
        return f"{self.name}, whose {SUMS} has the SHA-256 {self.sums[SUMS]}"


@contextlib.contextmanager
def keeping(name, way=None, place=""):
    """A folder that has version and date, and gets its name when all else is there."""
    if os.path.lexists(name):
        fail(f"{name} is there already")
    way = way or program()
    total = sum_of_file(way)
    with room_in(os.path.dirname(os.path.abspath(name))) as room:
        kept = Kept(name, os.path.join(room, "kept"), way, place)
        os.mkdir(kept.room)
        kept.put("version", version(way))
        kept.put("date", datetime.datetime.now(datetime.timezone.utc).strftime("%Y-%m-%d %H:%M:%S UTC\n").encode())
        yield kept
        if SUMS not in kept.sums:
            kept.sealed()
        if sum_of_file(way) != total:
            fail("the program changed meanwhile")
        if not renamed(kept.room, name):
            fail(f"{name} is there already")


@contextlib.contextmanager
def calls_kept(name, way=None, place=""):
    """A folder with each call of the program that the tool makes meanwhile (program.call); None where none is named."""
    if name is None:
        yield None
        return
    with keeping(name, way, place) as kept:
        kept.put("tool", os.fsencode(shlex.join([TOOL, *sys.argv[1:]]) + "\n"))
        if place:
            kept.put("place", os.fsencode(f"{place}\n"))
        CALLS["kept"] = kept
        try:
            yield kept
        finally:
            CALLS["kept"] = None


def keep(folder, words):
    """Runs a command, and makes the folder."""
    with keeping(folder) as kept:
        given = b""
        if words[0] in ON_INPUT:
            given = within_bounds("standard input", sys.stdin.buffer) if sys.stdin else fail("standard input is closed")
        done, files = made(words, given, kept.way)
        for name, content in files.items():
            kept.put(name, content)
    print(as_noted(f"{folder}: {shlex.join([PROGRAM, *words])}: status {done.returncode}"))


def version(way):
    return "".join(f"{line}\n" for line in version_lines(way)).encode()


def made(words, given, way, place=""):
    """Runs a command: how that ended, and what is kept of it, by the names of the files."""
    sums = sums_of(words, False, place)
    done = run(words, given, way, place)
    if sums_of(words, done.returncode == 0, place) != sums:
        fail("a file that the command reads changed meanwhile")
    return done, files_of(words, sums, done.stdout, done.stderr, done.returncode, given)


def files_of(words, sums, output, notes=b"", status=0, given=b""):
    """What is kept of a command that was run, by the names of the files."""
    files = {"command": (shlex.join([PROGRAM, *words]) + "\n").encode(), "read.sum": sums.encode(),
             "status": f"{status}\n".encode(), "output": output, "notes": notes}
    return files | ({"input": given} if words[0] in ON_INPUT else {})


# What a command reads


def sums_of(words, is_taken, place=""):
    """The lines of the files that a command reads. `is_taken` says that the program took all of them."""
    return lines_of(names_of(words, is_taken, place), place)


def lines_of(names, place):
    """A line for each file, which has its checksum, or says that there is none."""
    lines = []
    for name in dict.fromkeys(names):
        path = os.path.join(place, name)
        total = sum_of(read(path)) if os.path.isfile(path) else "no file"
        lines.append(as_noted(f"{total}  {name}") + "\n")
    return "".join(lines)


def names_of(words, is_taken, place=""):
    """The files that a command reads: those of its words, and then those that the campaign names."""
    command, *rest = words
    if rest[:1] == ["--cal"]:
        yield from rest[1:2]
        rest = rest[2:]
    if not rest or command == "soak":
        return
    yield rest[0]
    if command in OF_ALL or command in OF_ONE:
        for run_of in runs_of(os.path.join(place, rest[0]), is_taken):
            if command in OF_ALL or [run_of.get("name")] == rest[1:2]:
                keys = ("image",) if command == "couple" else ("trace", "image")
                yield from (run_of[key] for key in keys if isinstance(run_of.get(key), str))


def runs_of(campaign, is_taken):
    """The runs of a campaign. One that is refused may have none, or others."""
    try:
        runs = runs_in(campaign, read(campaign)) if os.path.isfile(campaign) else None
    except SystemExit:
        if is_taken:
            raise
        runs = None
    return [one for one in runs if isinstance(one, dict)] if isinstance(runs, list) else []


@functools.lru_cache(maxsize=1)
def runs_in(campaign, content):
    """What a campaign of this content has for its runs. The next call mostly reads the same one."""
    return toml_in(campaign, text_in(campaign, content)).get("run")


# Made again


def again(folder):
    """Makes what is kept in a folder again, and tells what is otherwise."""
    calls, way = calls_in(folder), program()
    top = calls[""]
    place = os.fsdecode(read(os.path.join(folder, "place"))).removesuffix("\n") if "place" in top else ""
    new = {"version": version(way)}
    if "tool.sum" in top:
        lines = read(os.path.join(folder, "tool.sum")).decode().splitlines()
        new["tool.sum"] = lines_of((line.partition("  ")[2] for line in lines), place).encode()
    told = list(differences(folder, new))
    parts = sorted(filter(None, calls)) or [""]
    for part in parts:
        path = os.path.join(folder, part)
        command = read(os.path.join(path, "command")).decode().strip()
        words = shlex.split(command)
        if words[:1] != [PROGRAM] or len(words) < 2:
            fail(f"{os.path.join(path, 'command')} has {command}, which is no command of {PROGRAM}")
        given = read(os.path.join(path, "input")) if "input" in calls[part] else b""
        _, new = made(words[1:], given, way, place)
        found = differences(path, {name: new[name] for name in COMPARED})
        told += [f"{part}: {command}: {line}" if part else line for line in found]
    said = f"{len(parts)} calls of {os.fsdecode(read(os.path.join(folder, 'tool'))).strip()}" if "tool" in top else command
    print(as_noted(f"{folder}: {said}: {verdict_on(told)}"))
    for line in told:
        print(as_noted(line))
    if told:
        sys.exit(1)


def verdict_on(told):
    """In a word what is otherwise, by the lines that tell each difference."""
    is_version = [line.startswith("version: ") for line in told]
    return "version and program alone are otherwise" if told and all(is_version) else "otherwise" if told else "the same"


def calls_in(folder):
    """The files of a kept folder, if all are as they were made: by the folder of each call, and "" for what stands above."""
    calls, sums = {"": set()}, os.path.join(folder, SUMS)
    for line in read(sums).decode().splitlines():
        total, _, name = line.partition("  ")
        if not NAME.fullmatch(name):
            fail(f"{sums} isn't as it was made")
        if sum_of(read(os.path.join(folder, name))) != total:
            fail(f"{os.path.join(folder, name)} isn't as it was made")
        calls.setdefault(os.path.dirname(name), set()).add(os.path.basename(name))
    wanted = [os.path.join(part, name) for part in sorted(filter(None, calls)) or [""] for name in ("command", *COMPARED)]
    for name in [*wanted, "version"]:
        if os.path.basename(name) not in calls[os.path.dirname(name)]:
            fail(f"{sums} lacks {name}")
    return calls


def differences(folder, new):
    """What is otherwise of these files of a folder: of checksums each line, of others the first."""
    for name, content in new.items():
        lines = differing(read(os.path.join(folder, name)), content)
        yield from (f"{name}: {line}" for line in (lines if name.endswith(".sum") else itertools.islice(lines, 1)))


def differing(old, new):
    """The lines that are otherwise, of both."""
    pairs, is_told = itertools.zip_longest(old.splitlines(), new.splitlines(), fillvalue=b""), False
    for number, (one, other) in enumerate(pairs, 1):
        if one != other:
            yield f"line {number} was {one.decode(errors='replace')!r}, and is {other.decode(errors='replace')!r}"
            is_told = True
    if old != new and not is_told:
        yield "an end of a line is otherwise"
