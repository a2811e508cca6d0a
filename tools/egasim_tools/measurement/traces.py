"""Drive traces, as the tools read them."""

import csv
import io
import re

from egasim_tools.base.files import read, text_in
from egasim_tools.base.tool import fail

COLUMNS = ("pedal", "speed", "raise", "reset", "brake")
NUMBER = re.compile("[0-9]{1,5}")


def drive_of(name):
    """The rows of a trace, with `reset` and `brake` also where it doesn't have them. Ranges are the program's to check."""
    try:
        records = [record for record in csv.reader(io.StringIO(text_in(name, read(name)), newline="")) if record]
    except csv.Error as error:
        fail(f"{name}: no CSV: {error}")
    heads = [list(COLUMNS[:count]) for count in (3, 4, 5)]
    if not records or records[0] not in heads:
        fail(f"{name}: header: {', or '.join(','.join(head) for head in heads)} is wanted")
    for place, record in enumerate(records[1:], 2):
        if len(record) != len(records[0]) or not all(map(NUMBER.fullmatch, record)):
            fail(f"{name}: record {place}")
    if len(records) == 1:
        fail(f"{name}: no records")
    return [[*map(int, record), *[0] * (len(COLUMNS) - len(record))] for record in records[1:]]
