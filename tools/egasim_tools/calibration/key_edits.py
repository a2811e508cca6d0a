"""Other numbers for the keys of a calibration file, and a ramp, put into its text. Every other byte stays as it is."""

import re

from egasim_tools.base.files import text_of
from egasim_tools.base.toml import toml_text
from egasim_tools.base.tool import fail
from egasim_tools.calibration.number_edits import NUMBER, parsed, replaced

PLACE = re.compile(r"^[ \t]*(?:\[+[ \t]*(?P<heading>[A-Za-z0-9_.-]+)[ \t]*\]+|(?P<key>[A-Za-z0-9_.-]+)[ \t]*=[ \t]*)", re.M)
LIST_PART, TOKEN, SCALAR = re.compile(r"#[^\n]*|[\[\]]"), re.compile(rf"#[^\n]*|({NUMBER})"), re.compile(r"[^\s#,\]}]*")


def with_values(name, values):
    """The text of a calibration file with these values by key, such as permit.threshold."""
    text = text_of(name)
    held, places, words = parsed(name, text), dict(spans(text)), {}
    for key, value in values.items():
        table, inner = key.split(".")
        if not isinstance(held.get(table), dict) or inner not in held[table]:
            fail(f"{name} has no key {key}")
        words |= placed(text, places.get(key), held[table][inner], value)
        held[table][inner] = value
    new = replaced(text, words)
    return new if parsed(name, new) == held else fail(f"{name}: a key isn't written as expected; put the values in by hand")


def with_ramp(name, text, fall):
    """The text of a calibration file with this permit.fall, by version 3 of the format; with 0 one without a ramp."""
    held, places, words = parsed(name, text), dict(spans(text)), {}
    keys = {"brake": held["permit"].get("brake", False), "fall": fall}
    if not {"version", "permit.threshold", *(f"permit.{key}" for key in keys if key in held["permit"])} <= set(places):
        fail(f"{name}: a key isn't written as expected; put permit.fall in by hand")
    if fall:
        held["version"], held["permit"] = 3, {**held["permit"], **keys}
        missing = [key for key in keys if f"permit.{key}" not in places]
        words = {line_behind(text, places["permit.threshold"]): new_lines(text, places["permit.threshold"], keys, missing)}
        words |= {places[f"permit.{key}"]: toml_text(value) for key, value in keys.items() if key not in missing}
    elif "fall" in held["permit"]:
        del held["permit"]["fall"]
        held["version"], words = 2, {whole_line(text, places["permit.fall"]): ""}
    new = replaced(text, {**words, places["version"]: held["version"]})
    return new if parsed(name, new) == held else fail(f"{name}: a key isn't written as expected; put permit.fall in by hand")


def whole_line(text, span):
    """Where the line of a value begins, and where the next one does."""
    return text.rfind("\n", 0, span[0]) + 1, text.find("\n", span[1]) + 1 or len(text)


def line_behind(text, span):
    """The place behind the line of a value."""
    return (whole_line(text, span)[1],) * 2


def new_lines(text, span, values, keys):
    """Lines for more keys of the table in which the line of the threshold stands, written as that line is."""
    first, last = whole_line(text, span)
    head, end = text[first:span[0]], "\r\n" if text[first:last].endswith("\r\n") else "\n"
    lines = "".join(f"{head.replace('threshold', key)}{toml_text(values[key])}{end}" for key in keys)
    return lines if text[first:last].endswith("\n") else end + lines


def spans(text):
    """Where the value of each key stands: (key, (first, last)). Of a key that stands twice the last counts."""
    heading, match = "", PLACE.search(text)
    while match:
        end = match.end()
        if match["heading"]:
            heading = f"{match['heading']}."
        else:
            end = end_of_value(text, end)
            yield heading + match["key"], (match.end(), end)
        match = PLACE.search(text, end)


def end_of_value(text, first):
    """Where a number, a truth value or a list ends."""
    if text[first:first + 1] != "[":
        return SCALAR.match(text, first).end()
    depth = 0
    for match in LIST_PART.finditer(text, first):
        depth += {"[": 1, "]": -1}.get(match[0], 0)
        if not depth:
            return match.end()
    return len(text)


def placed(text, span, old, new):
    """What has to be written where, so that a value becomes another one. Of a list of the same form the numbers alone are
    replaced, so that comments and line ends stay."""
    if not span:
        return {}
    numbers = [match.span(1) for match in TOKEN.finditer(text, *span) if match[1]]
    before, after = list(flat(old)), list(flat(new))
    if shape(old) != shape(new) or len(numbers) != len(after):
        return {span: toml_text(new)}
    return {place: number for place, was, number in zip(numbers, before, after) if was != number}


def flat(value):
    if isinstance(value, list):
        for one in value:
            yield from flat(one)
    else:
        yield value


def shape(value):
    return [shape(one) for one in value] if isinstance(value, list) else isinstance(value, bool)
