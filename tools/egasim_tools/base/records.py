"""What commands print: limits, tables, and records with the curves that are drawn of their columns; and drives."""

import contextlib
import csv
import io

from egasim_tools.base.files import text_of
from egasim_tools.base.tool import fail
from egasim_tools.calibration.parameters import MOST_NUMBER

COLUMNS = ("tick", "torque", "limit", "path1", "path2", "on")


def limits_in(text):
    """The lines of `limits`, by their names."""
    return dict(line.split() for line in text.splitlines())


def rows_in(text):
    """The rows of a table that a command printed."""
    return list(csv.DictReader(io.StringIO(text)))


@contextlib.contextmanager
def rows_looked_at(name, rows, lacking="has no such row"):
    """Ends if a row of CSV that is read here isn't one, or lacks what is looked for; `name` says also what the file isn't."""
    reader = getattr(rows, "reader", rows)
    try:
        yield
    except csv.Error:
        fail(f"{name}: line {reader.line_num} isn't one of CSV")
    except (AttributeError, LookupError, TypeError, ValueError):
        fail(f"{name}: line {reader.line_num} {lacking}")


def record_of(name, lines):
    """The columns of a record that a picture needs, by their names: numbers, and what is found."""
    rows = csv.DictReader(lines)
    with rows_looked_at(f"{name} is no record", rows, "has no numbers of a tick"):
        if not set(COLUMNS) <= set(rows.fieldnames or ()):
            fail(f"{name} is {'no record' if rows.fieldnames else 'empty'}: was the run refused?")
        # The first row of a record by `couple` has no tick: it only tells what is commanded.
        ticks = [[*(int(row[column]) for column in COLUMNS), whole(name, rows.line_num, row).get("found") or "-"]
                 for row in rows if row["torque"] != "-"]
    if not ticks:
        fail(f"{name} has no tick below its header")
    for place, tick in enumerate(ticks):
        if not all(0 <= number <= MOST_NUMBER for number in tick[:-1]):
            fail(f"{name} is no record: tick {tick[0]} has a number out of range")
        if place and tick[0] != ticks[place - 1][0] + 1:
            fail(f"{name} is no whole record: tick {tick[0]} stands below tick {ticks[place - 1][0]}")
    return dict(zip([*COLUMNS, "found"], map(list, zip(*ticks))))


def whole(name, line, row):
    """A row, if it has as many columns as the header."""
    if None in row or None in row.values():
        fail(f"{name} is no whole record: line {line} has {'more' if None in row else 'fewer'} columns than the header")
    return row


def check_end(name, text):
    """Ends if the last line of what a command printed has no end, so that it may have been longer."""
    if text and not text.endswith("\n"):
        fail(f"{name} is cut: its last line has no end")


def drive_of(trace):
    """How many ticks a trace has, and those at which it resets the unit."""
    rows = list(csv.DictReader(io.StringIO(text_of(trace), newline="")))
    return len(rows), [tick for tick, row in enumerate(rows) if row.get("reset") == "1"]


def part_of(name, columns, first, last):
    """The ticks from `first` to `last` of a record or of signals. None stands for its own first or last tick."""
    begin, end = columns["tick"][0], columns["tick"][-1]
    first, last = begin if first is None else max(first, begin), end if last is None else min(last, end)
    if first > last:
        fail(f"{name} has ticks {begin} to {end}, and none of those that are asked for")
    return {column: values[first - begin:last + 1 - begin] for column, values in columns.items()}


def stretches(values, first=0):
    """Where the values of the ticks from `first` on are true: (first tick, tick behind the last)."""
    begin = None
    for tick, value in enumerate([*values, False], first):
        if value and begin is None:
            begin = tick
        elif not value and begin is not None:
            yield begin, tick
            begin = None


def corners(values, first=0):
    """The corners of a curve that keeps the value of each tick, from `first` on, to the next one: (tick, value)."""
    for tick, value in enumerate(values):
        if tick == 0 or value != values[tick - 1]:
            yield from [(first + tick, values[tick - 1]), (first + tick, value)] if tick else [(first, value)]
    yield first + len(values), values[-1]


def thinned(points, place_of):
    """The points of a curve that can be told apart, in their order: of those at one place of a picture the first, a
    lowest, a highest and the last. So the curve covers there what it covered before, and goes on from where it ended."""
    places = {}
    for point in points:
        places.setdefault(place_of(point), []).append(point)
    for near in places.values():
        values = [value for _, value in near]
        kept = {0, values.index(min(values)), values.index(max(values)), len(near) - 1}
        yield from (near[place] for place in sorted(kept))
