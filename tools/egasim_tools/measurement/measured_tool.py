"""`egasim measured`: a trace or a recording of a measurement."""

import os
import re

from egasim_tools.base.command_line import Form, Tool, Word, file
from egasim_tools.base.files import refuse_input, write
from egasim_tools.base.tool import as_noted, refuse_word
from egasim_tools.measurement.conversion import Drive, campaigns_of
from egasim_tools.measurement.mapping import mapping_of


def stem_of(out, inputs):
    """The name of what is written, without its ending."""
    if not out.endswith(".csv") or os.path.basename(out) in (".csv", "") or out.startswith("-"):
        refuse_word(f"{out} isn't the name of what is to be written, NAME.csv")
    refuse_input(out, inputs)
    return out.removesuffix(".csv")


def left_beside(stem, written, inputs, endings):
    """What has the name of a piece or a campaign of an earlier call, and is neither written now nor read."""
    folder, base = os.path.split(stem)
    form = re.compile(re.escape(base) + rf"(-[1-9][0-9]*)?\.({endings})")
    for name in sorted(filter(form.fullmatch, os.listdir(folder or "."))):
        path = os.path.join(folder, name)
        if path not in written and not any(os.path.samefile(path, read) for read in inputs if os.path.exists(path)):
            yield f"{path} stands there still, and is not of this call"


def put(drive, stem, names, inputs):
    """Writes the pieces and their campaigns, and returns what is told of these and of what stands there still."""
    campaigns = dict(campaigns_of(drive, stem, names)) if drive.mapping.run else {}
    for name in [*names, *campaigns]:
        refuse_input(name, inputs)
    for place, name in enumerate(names):
        drive.write(name, place)
    for name, text in campaigns.items():
        write(name, text.encode())
    return [*(f"{name}: runs {text.count('[[run]]')}" for name, text in campaigns.items()),
            *left_beside(stem, {*names, *campaigns}, inputs, "csv|toml" if campaigns else "csv")]


def made(values):
    inputs = [values.mapping, values.measurement]
    if values.check == bool(values.out):
        refuse_word("OUT.csv or --check is needed, and not both")
    mapping = mapping_of(values.mapping)
    stem = stem_of(values.out, inputs) if values.out else None
    drive = Drive(mapping, values.measurement)
    several = len(drive.pieces) > 1
    names = [f"{stem or mapping.makes}{f'-{place + 1}' * several}{'.csv' if stem else ''}" for place in range(len(drive.pieces))]
    lines = list(drive.told(names))
    if stem:
        lines += put(drive, stem, names, inputs)
    for line in lines:
        print(as_noted(line))


MEASURED = Tool(
    "measured", "makes a trace or a recording of a measurement, as INCA, CANape or asammdf export it in CSV",
    (Form("at each tick stands the value of the last sample at or before the tick's time", made,
          (Word("MAPPING", "from which channels the columns come", file("toml"), is_needed=True),
           Word("MEASUREMENT", "the exported measurement", file("csv"), is_needed=True),
           Word("OUT", "what is written, OUT.csv, or of several pieces OUT-1.csv and so on; with [run] also OUT.toml", file("csv")),
           Word("--check", "tells the same, and writes nothing"))),),
    "Whatever is left out, rounded, clipped, or held for longer than it may be, is counted and told.")
