"""Files of calibrations in the form that ETAS' and other tools exchange: DCM, KONSERVIERUNG_FORMAT 2.0."""

import re
from dataclasses import dataclass, field
from fractions import Fraction

from egasim_tools.base.tool import fail
from egasim_tools.base.units import decimal

FORMAT = "KONSERVIERUNG_FORMAT 2.0"
SIZES = {"FESTWERT": 0, "TEXTSTRING": 0, "FESTWERTEBLOCK": 1, "STUETZSTELLENVERTEILUNG": 1, "KENNLINIE": 1, "FESTKENNLINIE": 1,
         "GRUPPENKENNLINIE": 1, "KENNFELD": 2, "FESTKENNFELD": 2, "GRUPPENKENNFELD": 2}  # how many sizes stand behind a name
PASSED = ("FUNKTIONEN", "VARIANTENKODIERUNG")  # blocks without values
NUMBER, WORD = re.compile(r"[+-]?(?:\d{1,40}\.?\d{0,40}|\.\d{1,40})(?:[eE][+-]?\d{1,2})?"), re.compile(r'"[^"]*"|\S+')
WIDTH = 6  # numbers in a line


@dataclass
class Label:
    """A value, curve or map of a file: its points by axis, its numbers in rows, one for each point of Y, its units by what
    they are of, and the names of the axes that it shares with others."""
    kind: str
    name: str
    line: int
    sizes: list
    points: dict = field(default_factory=lambda: {"X": [], "Y": []})
    rows: list = field(default_factory=lambda: [[]])
    units: dict = field(default_factory=dict)
    shared: dict = field(default_factory=dict)
    texts: list = field(default_factory=list)


# Read


def labels_in(name, text):
    """The labels of a file, by their names. One that stands several times, as variants do, has several."""
    lines, labels, is_begun = iter(enumerate(text.splitlines(), 1)), {}, False
    for number, line in lines:
        words = words_of(line)
        if not words:
            continue
        if not is_begun:
            if words != FORMAT.split():
                fail(f"{name}: line {number}: {FORMAT} must stand first")
            is_begun = True
        elif words[0] in SIZES:
            label = label_of(f"{name}: line {number}", words, number)
            fill(name, label, lines)
            labels.setdefault(label.name, []).append(label)
        elif words[0] in PASSED:
            pass_by(name, number, lines)
        elif words[0] != "MODULKOPF":
            fail(f"{name}: line {number}: {words[0]} is no label of this format")
    return labels if is_begun else fail(f"{name} has no {FORMAT}")


def words_of(line):
    """The words and texts of a line. A comment has none, but for the names of shared axes, which stand behind a star."""
    return [] if line[:1] in ("*", "!", ".") and not line.startswith("*SST") else WORD.findall(line)


def label_of(place, words, number):
    """The label that a line begins."""
    sizes = [word for word in words[2:] if word != "@"]
    if len(words) < 2 or len(sizes) < SIZES[words[0]] or not all(re.fullmatch("[1-9][0-9]{0,4}", size) for size in sizes):
        fail(f"{place}: {words[0]} needs a name{' and how many points it has' if SIZES[words[0]] else ''}")
    return Label(words[0], words[1], number, list(map(int, sizes)))


def fill(name, label, lines):
    """Reads the lines of a label up to its END."""
    for number, line in lines:
        words, place = words_of(line), f"{name}: line {number}"
        if words == ["END"]:
            return check_sizes(f"{name}: line {label.line}: {label.name}", label)
        if words and words[0] in SIZES:
            break
        if words:
            take(place, label, words[0], words[1:])
    return fail(f"{name}: line {label.line}: {label.name} has no END")


def take(place, label, key, words):
    """Takes what a line says of a label: points, numbers, texts, units, shared axes. What else there is has no numbers."""
    if key in ("ST/X", "ST/Y"):
        points = [number_of(place, word) for word in words]
        if key == "ST/Y" and label.kind.endswith("KENNFELD"):
            label.rows += [[] for _ in points] if label.points["Y"] else [[] for _ in points[1:]]
        label.points[key[-1]] += points
    elif key == "WERT" and label.kind.endswith("KENNFELD") and not label.points["Y"]:
        fail(f"{place}: the numbers of a {label.kind} stand below an ST/Y")
    elif key == "WERT":
        label.rows[-1] += [number_of(place, word) for word in words]
    elif key in ("TEXT", "ST_TX/X", "ST_TX/Y"):
        label.texts += [word.strip('"') for word in words]
    elif key.startswith("EINHEIT_"):
        label.units[key[8:]] = " ".join(words).strip('"')
    elif key in ("*SSTX", "*SSTY", "*SST"):
        label.shared[key[4:]] = " ".join(words)


def number_of(place, word):
    return Fraction(word) if NUMBER.fullmatch(word) else fail(f"{place}: {word} is no number")


def check_sizes(place, label):
    """Refuses a label that has more or fewer points or numbers than it says."""
    if label.texts or label.kind in ("TEXTSTRING", "FESTWERTEBLOCK"):
        return
    sizes = label.sizes[:SIZES[label.kind]]
    for axis, size in zip("XY", sizes):
        if len(label.points[axis]) != size:
            fail(f"{place} says {size} points of {axis}, and has {len(label.points[axis])}")
    wanted = {"FESTWERT": 1, "STUETZSTELLENVERTEILUNG": 0}.get(label.kind, sizes[0] if sizes else 1)
    for row in label.rows:
        if len(row) != wanted:
            fail(f"{place} has {len(row)} numbers where {wanted} are wanted")


def pass_by(name, number, lines):
    if not any(words_of(line) == ["END"] for _, line in lines):
        fail(f"{name}: line {number} begins what has no END")


# Written


def written_label(label, meaning):
    """The lines of a label."""
    yield f"{label.kind} {' '.join(map(str, [label.name, *label.sizes]))}"
    yield from (f"*SST{axis} {name}" for axis, name in label.shared.items())
    yield f"   LANGNAME {quoted(meaning)}"
    yield from (f"   EINHEIT_{of} {quoted(unit)}" for of, unit in label.units.items())
    yield from in_lines("ST/X", label.points["X"])
    if label.points["Y"]:
        for point, row in zip(label.points["Y"], label.rows):
            yield from in_lines("ST/Y", [point])
            yield from in_lines("WERT", row)
    else:
        yield from in_lines("WERT", label.rows[0])
    yield from ("END", "")


def quoted(text):
    return f'"{text}"'


def in_lines(key, numbers):
    """Numbers, some in a line."""
    for first in range(0, len(numbers), WIDTH):
        yield f"   {key} {' '.join(map(number_text, numbers[first:first + WIDTH]))}"


def number_text(number):
    text = decimal(number)
    return text if "." in text else f"{text}.0"
