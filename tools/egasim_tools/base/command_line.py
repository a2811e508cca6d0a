"""The words of tools, declared once. argparse reads them; --help, manual pages and completion for bash are printed from them,
at one width, since what argparse prints depends on its version and on the terminal."""

import argparse
import re
import sys
import textwrap
from collections.abc import Callable
from dataclasses import dataclass
from types import SimpleNamespace

from egasim_tools.base.program import CALLS
from egasim_tools.base.tool import TOOL, guarded, refuse_word
from egasim_tools.base.units import tick_of, time_of

WIDTH, BESIDE = 100, 26  # columns of a help, and from which on it says what a word is


class Refused(argparse.ArgumentTypeError):
    """What is wrong with the text of a word."""


@dataclass(frozen=True)
class Kind:
    """What the text of a word may be: what makes a value of it, its range with its unit, and the ending of files proposed."""
    value: Callable
    range: str = ""
    ending: str | None = None


@dataclass(frozen=True)
class Word:
    """A word of a call: an option or, without dashes, one that stands in its place. An option without a kind has nothing behind it."""
    name: str
    help: str
    kind: Kind | None = None
    shown: str = ""  # for what stands behind an option
    is_needed: bool = False
    is_several: bool = False
    default: object = None

    def is_option(self):
        return self.name.startswith("-")

    def said(self):
        """How the word stands in a help."""
        return f"{self.name} {self.shown}".rstrip() if self.is_option() else self.name

    def about(self):
        """What it is, with its range and whether it may stand again."""
        again = "once for each" if self.is_several and self.is_option() else ""
        return "; ".join(filter(None, [self.help, self.kind and self.kind.range, again]))

    def added_to(self, parser):
        if self.kind is None:
            parser.add_argument(self.name, action="store_true")
        elif self.is_option():
            parser.add_argument(self.name, type=self.kind.value, metavar=self.shown, required=self.is_needed,
                                action="append" if self.is_several else Once, default=[] if self.is_several else self.default)
        else:
            number = ("+" if self.is_several else None) if self.is_needed else ("*" if self.is_several else "?")
            parser.add_argument(self.name, type=self.kind.value, nargs=number)


@dataclass(frozen=True)
class Form:
    """A way to call a tool: `run` takes the values. Its command is the first word, and `rest` stands behind --, as it is."""
    does: str
    run: Callable
    words: tuple
    command: str = ""
    rest: str = ""

    def usage(self, tool):
        """How it is called, where `tool` is how the tool is."""
        placed = [word.said() + " .." * (word.is_several and not word.is_option()) for word in self.words if word.is_needed]
        placed += [f"[{word.said()}]" for word in self.words if not word.is_option() and not word.is_needed]
        options = ["[OPTIONS]"] * any(word.is_option() and not word.is_needed for word in self.words)
        return " ".join(filter(None, [tool, self.command, *options, *placed, self.rest]))

    def values(self, words):
        """What the words of a call say, by the names of the declared ones in small letters."""
        rest, parser = [], Parser(prog=TOOL, add_help=False, allow_abbrev=False)
        if self.rest and "--" in words:
            rest, words = words[words.index("--") + 1:], words[:words.index("--")]
        for word in self.words:
            word.added_to(parser)
        values = {name.lower(): value for name, value in vars(parser.parse_intermixed_args(words)).items()}
        CALLS["shown"] = values.get("verbose", False)
        return SimpleNamespace(**values, all=words, rest=rest)


@dataclass(frozen=True)
class Tool:
    """A tool: what it does, its forms, what a user has to know before the first call, and its status for what it refuses
    beside words. `place` says more."""
    name: str
    does: str
    forms: tuple
    told: str = ""
    refused: int = 1
    needs_words: bool = True
    place: str = "docs/TOOLS.md"  # where more is said
    folder: str = "egasim "  # what stands before its name in a call

    def usages(self):
        return [form.usage(f"{self.folder}{self.name}") for form in self.forms]

    def words(self):
        return list({word.name: word for form in self.forms for word in form.words}.values())

    def run(self):
        guarded(lambda: self.call(sys.argv[1:]), self.refused)

    def call(self, words):
        """Calls the form that the words have; with --help, or without any, tells what the tool is for."""
        if words[:1] in (["-h"], ["--help"]):
            print(self.help())
        elif not words and self.needs_words:
            print(self.help(), file=sys.stderr)
            sys.exit(2)
        else:
            forms = {form.command: form for form in self.forms}
            form = forms.get(words[0] if words else "") or forms.get("") or Parser(prog=TOOL).error(f"no command {words[0]}")
            form.run(form.values(words[1:] if form.command else words))

    def help(self):
        """What --help prints."""
        lines = [*wrapped(f"{self.does[:1].upper()}{self.does[1:]}."), ""]
        for form, usage in zip(self.forms, self.usages()):
            lines += [*wrapped(usage, "  ", 10), *wrapped(form.does, " " * 6)]
        lines.append("")
        for word in self.words():
            first, about = f"  {word.said()}", wrapped(word.about(), " " * BESIDE)
            lines += [first, *about] if len(first) + 2 > BESIDE else [first + about[0][len(first):], *about[1:]]
        return "\n".join([*lines, "", *wrapped(self.more())])

    def more(self):
        return f"{self.told} A refused word has the status 2. More: {self.place}.".lstrip()


class Once(argparse.Action):
    """An option that stands once. The declared words of a call are read by one parser, which is made for it."""
    has_stood = False

    def __call__(self, parser, values, value, option_string=None):
        if self.has_stood:
            raise argparse.ArgumentError(self, "stands twice")
        self.has_stood = True
        setattr(values, self.dest, value)


class Parser(argparse.ArgumentParser):
    """One that tells what is wrong in a line."""

    def error(self, message):
        refuse_word(message.removeprefix("argument "))


def wrapped(text, blanks="", more=0):
    return textwrap.wrap(text, WIDTH, initial_indent=blanks, subsequent_indent=blanks + " " * more, break_long_words=False,
                         break_on_hyphens=False)


def refuse(text):
    raise Refused(text)


def name_in(text):
    """A name of a file, of a run or of a class."""
    return refuse(f"{text or 'an empty word'} is no name") if not text or text.startswith("-") else text


def text_in(text):
    return text or refuse("an empty text says nothing")


def tick_length(text):
    """The length of a tick as it is said, such as 10ms."""
    tick_of("", text, lambda told: refuse(told.strip()))
    return text


def time_or_ticks(text):
    if not re.fullmatch("[0-9]{1,9}", text) and time_of(text) is None:
        refuse(f"{text or 'an empty word'} is no time, such as 300ms or 0.3s, and no number of ticks")
    return text


def whole(least, most, unit=""):
    """Whole numbers of a range."""
    def value(text):
        if not re.fullmatch("-?[0-9]{1,9}", text) or not least <= int(text) <= most:
            refuse(f"{text or 'an empty word'} is no whole number from {least} to {most}")
        return int(text)
    return Kind(value, f"{least} to {most}{unit and f' {unit}'}")


def file(ending):
    """A file with this ending."""
    return Kind(name_in, ending=ending)


NAME, TEXT, TIME = Kind(name_in), Kind(text_in), Kind(time_or_ticks)
TICK, PER_CENT = whole(0, 999999999), whole(0, 100, "per cent")
VERBOSE = Word("--verbose", "shows each call of the program on standard error")
TICK_LENGTH = Word("--tick", "how long a tick is, such as 10ms; else units.toml beside the calibration may say it",
                   Kind(tick_length, "up to 10s"), "TIME")
CAL = Word("--cal", "a calibration; else the reference calibration", file("toml"), "NAME")
