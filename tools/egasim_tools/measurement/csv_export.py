"""Measurements as measuring tools export them: CSV with names, perhaps units, and times at which each channel has values."""

import codecs
import csv
import io
import re
from decimal import ROUND_HALF_UP, Context, Decimal

from egasim_tools.base.files import read
from egasim_tools.base.tool import fail

MOST_ABOVE, MOST_BELOW, MOST_NAMED = 200, 20, 20  # lines above the names, and of units below them; names that are told
NUMBER = re.compile(r"[+-]?(?:[0-9]{1,40}(?:\.[0-9]{0,40})?|\.[0-9]{1,40})(?:[eE][+-]?[0-9]{1,2})?")
LONG_NUMBER = re.compile(r"[+-]?(?:[0-9]+(?:\.[0-9]*)?|\.[0-9]+)(?:[eE][+-]?[0-9]+)?")
UNITS_OF_TIME = {"s": "s", "sec": "s", "ms": "ms", "msec": "ms", "us": "us", "\u00b5s": "us", "\u03bcs": "us", "ns": "ns"}
NAME_OF_TIME = re.compile(r"(t|time|timestamps?)([_ ]?[0-9].*)?", re.I)
WITH_SIGN = re.compile(r"[+-]?[0-9]*([.,])[0-9]+(?:[eE][+-]?[0-9]+)?")
NO_NUMBER = re.compile(r"[+-]?(nan(\(\w*\))?|1\.#(qnan|snan|ind|inf)\d*|inf|infinity|#?n/a|null)", re.I)
DELIMITERS, DECIMALS = {",": "comma", ";": "semicolon", "\t": "tab"}, {".": "point", ",": "comma"}
MOST_TIME = 10**18  # nanoseconds
EXACT = Context(prec=100)


class Measurement:
    """A measurement: where its columns are, and its rows. What nobody has said of its form is found."""

    def __init__(self, name, form, channels):
        self.name, self.form = name, form
        self.content = read(name)
        self.encoding = encoding_of(name, self.content, form.encoding)
        self.delimiter, self.names = self.found(list(dict.fromkeys(channels)))
        self.decimal, self.rows_of_units, self.units = form.decimal, 0, {}

    def lines(self, delimiter, most=None):
        """The lines of the file, as CSV has them: (number, cells)."""
        text = io.TextIOWrapper(io.BytesIO(self.content), self.encoding, newline="")
        if text.read(1) != "\ufeff":
            text.seek(0)
        rows = csv.reader(text, delimiter=delimiter)
        try:
            for row in rows:
                yield rows.line_num, row
                if rows.line_num == most:
                    return
        except csv.Error as error:
            fail(f"{self.name}: line {rows.line_num} isn't one of CSV: {error}")

    def found(self, channels):
        """The delimiter, and the names of the first line that has all channels: (line, cells)."""
        texts = {channel for channel in channels if isinstance(channel, str)}
        best = (0, 0, 0, ",", [])
        for delimiter in [self.form.delimiter] if self.form.delimiter else DELIMITERS:
            for number, row in self.lines(delimiter, MOST_ABOVE):
                names = [cell.strip() for cell in row]
                count = len(texts & set(names))
                best = max(best, (count, 0 if count else like_names(names), -number, delimiter, names), key=lambda one: one[:3])
        count, words, number, delimiter, names = best
        if not texts:
            fail(f"{self.name}: a channel must be said by its name, so that the line of names is found")
        if count < len(texts):
            lacking = next(channel for channel in channels if isinstance(channel, str) and channel not in names)
            there = f"its names are {names_told(names)}" if count else "no line has one"
            there += f"; line {-number} has {names_told(names)}" if words else ""
            fail(f"{self.name} has no channel {lacking} in one line with the others; {there}")
        return delimiter, (-number, names)

    def column(self, channel):
        """The place of a channel among the cells of a line."""
        line, names = self.names
        if isinstance(channel, int):
            if channel > len(names):
                fail(f"{self.name}: line {line} has {len(names)} columns, and no {channel}")
            return channel - 1
        places = [place for place, name in enumerate(names, 1) if name == channel]
        if len(places) > 1:
            fail(f"{self.name}: line {line} has {channel} in the columns {', '.join(map(str, places))}; say one by its number")
        return places[0] - 1

    def rows(self, times, said=None):
        """The lines below the names and units: (number, cells), without blanks around them. `times` are the columns of
        time: a line of units is one of the first in which none of these has a number. If it has another unit of time there
        than was said, it is refused."""
        above, has_begun, self.rows_of_units = self.names[0], False, 0
        for number, row in self.lines(self.delimiter):
            if number <= above or not any(row):
                continue
            cells = [cell.strip() for cell in row]
            if not has_begun and not any(map(self.number_like, (cells[place] for place in times if place < len(cells)))):
                self.rows_of_units += 1
                self.take_units(number, cells, times if said else (), said)
                if self.rows_of_units > MOST_BELOW:
                    fail(f"{self.name}: none of the first {MOST_BELOW} lines below the names has a number as its time")
                continue
            if any(cells[len(self.names[1]):]):
                fail(f"{self.name}: line {number} has more cells than line {above} has names; is the sign between them also "
                     "that of decimals?")
            has_begun = True
            yield number, cells + [""] * (len(self.names[1]) - len(cells))

    def take_units(self, line, cells, times, said):
        """Keeps which columns have a unit of time, by what a line of units says."""
        units = {place: UNITS_OF_TIME.get(cell.strip("[]()").lower()) for place, cell in enumerate(cells)}
        self.units.update({place: unit for place, unit in units.items() if unit})
        for place in times:
            if units.get(place) not in (None, said.said):
                fail(f"{self.name}: line {line} has {cells[place]} as the unit of {self.names[1][place]}, and time.unit is {said.said}"
                     f"{', as it is if none is said' * (said.said == 's')}")

    def other_times(self, times, used):
        """The names of columns beside the used ones that look like times: by their unit or name, and since they never fall."""
        names = {place: name for place, name in enumerate(self.names[1]) if place not in used and name}
        found = [place for place in names if place in self.units or not self.units and NAME_OF_TIME.fullmatch(names[place])]
        latest = {place: [] for place in found}
        for _, cells in self.rows(times) if found else ():
            for place in [place for place in latest if cells[place]]:
                said = cells[place].replace(",", ".", 1)
                time = Decimal(said) if NUMBER.fullmatch(said) else None
                if time is None or latest[place] and time < latest[place][-1]:
                    del latest[place]
                elif time not in latest[place][-1:]:
                    latest[place] = [*latest[place][:1], time]
        return [names[place] for place, times in latest.items() if len(times) > 1]

    def number_like(self, text):
        """Whether a text is a number with either decimal sign."""
        return NUMBER.fullmatch(text.replace(",", ".", 1)) is not None

    def number(self, line, channel, text):
        """The digits of a cell, with a point; None if the cell says that there is no sample, or no number ("nan")."""
        if self.decimal is None and (match := WITH_SIGN.fullmatch(text)):
            self.decimal = match[1]
        said = text.replace(",", ".", 1) if self.decimal == "," and "." not in text else text
        if NUMBER.fullmatch(said) and not (self.decimal == "," and "." in text):
            return said
        if NO_NUMBER.fullmatch(text.replace(",", ".", 1)):
            return "nan"
        if not text or text in self.form.empty:
            return None
        if LONG_NUMBER.fullmatch(said) and not NUMBER.fullmatch(said):
            fail(f"{self.name}: line {line}: {channel} has {text[:40]}, which is out of range: at most 40 digits before and behind the "
                 "decimal sign, and 2 of an exponent")
        sign = self.decimal or "."
        return fail(f"{self.name}: line {line}: {channel} has {text[:40]}, which is no number with the decimal sign {sign}")

    def time(self, line, channel, text, unit):
        """The time of a cell in whole nanoseconds, rounded half away from zero; None if there is none."""
        said = self.number(line, channel, text)
        if said in (None, "nan"):
            return None
        time = int(EXACT.multiply(Decimal(said), Decimal(unit)).to_integral_value(ROUND_HALF_UP, EXACT))
        return time if abs(time) < MOST_TIME else fail(
            f"{self.name}: line {line}: {channel} has {text}, which is out of range: times are below 10^9 s; is time.unit right, or "
            "is it a date? Then count from the first one")


def encoding_of(name, content, encoding):
    """How a file is encoded: what was said, what a byte order mark says, UTF-8, or else Latin-1."""
    marks = {codecs.BOM_UTF16_LE: "utf-16", codecs.BOM_UTF16_BE: "utf-16"}
    tried = [encoding] if encoding else [marks.get(content[:2], "utf-8"), "latin-1"]
    for one in tried:
        try:
            content.decode(one)
            return one
        except UnicodeDecodeError:
            continue
    return fail(f"{name} isn't {tried[0].upper()}")


def like_names(cells):
    """How many of these cells may be names of channels."""
    return len({cell for cell in cells if cell and not NUMBER.fullmatch(cell.replace(",", ".", 1))})


def names_told(names):
    """The names of a measurement in words."""
    more = f" and {len(names) - MOST_NAMED} more" if len(names) > MOST_NAMED else ""
    return f"{', '.join(names[:MOST_NAMED])}{more}"
