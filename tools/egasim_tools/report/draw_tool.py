"""`egasim draw`: a record as an SVG."""

import io

from egasim_tools.base.command_line import TICK, TICK_LENGTH, Form, Tool, Word, file, whole
from egasim_tools.base.files import text_on_standard_input
from egasim_tools.base.records import check_end, part_of, record_of
from egasim_tools.base.units import units_of
from egasim_tools.calibration.parameters import threshold_of
from egasim_tools.evidence.run_results import about_run, finds
from egasim_tools.report.run_pictures import record_picture

INPUT = "standard input"


def drawn(values):
    units = units_of(values.tick, [values.cal])
    text = text_on_standard_input()
    whole = record_of(INPUT, io.StringIO(text, newline="\n"))
    check_end(INPUT, text)
    record, threshold = part_of(INPUT, whole, getattr(values, "from"), values.to), threshold_of(values.cal)
    marks = [(tick, f"{watch} {tick}") for tick, _, watch in finds(whole)
             if record["tick"][0] <= tick <= record["tick"][-1]]
    print("\n".join(record_picture("record", "A run", about_run(record, threshold), record, threshold, marks, units)))


DRAW = Tool(
    "draw", "draws any record as an SVG",
    (Form("draws the record on standard input", drawn,
          (Word("--cal", "the calibration whose threshold is drawn; else the reference calibration", file("toml"), "NAME"),
           Word("--from", "the first tick that is drawn", TICK, "TICK"), Word("--to", "the last tick that is drawn", TICK, "TICK"),
           TICK_LENGTH)),), needs_words=False)
