"""`egasim plot`: pictures by gnuplot."""

import csv

from egasim_tools.base.command_line import NAME, TICK, TICK_LENGTH, Form, Tool, Word, file
from egasim_tools.base.files import refuse_input, text_of
from egasim_tools.base.records import check_end
from egasim_tools.base.tool import fail, refuse_word
from egasim_tools.base.units import units_of
from egasim_tools.calibration.parameters import WATCHES
from egasim_tools.report import plot_margins, plot_records, plot_signals, plot_sweeps, plot_table
from egasim_tools.report.gnuplot import draw


# What the header of a file has, and how such files are drawn: the first one counts.
KINDS = [({"run", "class", "onset", "reaction"}, plot_table), ({"run", *WATCHES, "surplus"}, plot_margins),
         (set(plot_signals.SIGNALS), plot_signals), ({"tick", "torque"}, plot_records)]
OF_TICKS = (plot_records, plot_signals)


def kind_of(name, lines):
    """How a file is drawn, by its first line."""
    if not lines:
        fail(f"{name} is empty: was the command refused?")
    if plot_sweeps.SWEPT.fullmatch(lines[0]):
        return plot_sweeps
    try:
        names = set(next(csv.reader(lines[:1])))
    except csv.Error:
        names = set()
    return next((kind for columns, kind in KINDS if columns <= names),
                None) or fail(f"{name} is no record, sweep, table, margins or signals")


def shown_of(kind, files):
    """What a picture of this kind shows of (name, lines, calibration) of each file."""
    if len(files) > 1 and kind.ALONE:
        fail(kind.ALONE)
    return [kind.read(*one) for one in files]


def files_of(words):
    """(name, lines, calibration) of each file. argparse doesn't say which options stand before a file, so the words, which it has
    taken, are gone through again; each of these options has something behind it."""
    words, calibration, behind, files = iter(words), None, [], []
    for word in words:
        option, is_joined, value = word.partition("=")
        if not word.startswith("--"):
            files.append((word, calibration))
        else:
            value = value if is_joined else next(words)
            calibration = value if option == "--cal" else calibration
            behind += [value] * (option == "--cal")
    for unused in set(behind) - {calibration for _, calibration in files[1:]}:
        refuse_word(f"{unused} has no file behind it: a calibration stands before its files")
    for name, calibration in files[1:]:
        text = text_of(name)
        check_end(name, text)
        yield name, text.splitlines(), calibration


def plotted(values):
    picture = values.picture
    if not picture.endswith((".png", ".svg")):
        refuse_word(f"{picture} isn't the name of a picture, NAME.png or NAME.svg")
    files = list(files_of(values.all))
    units = units_of(values.tick, [calibration for *_, calibration in files])
    refuse_input(picture, [read for name, _, calibration in files for read in (name, calibration) if read])
    kinds = {kind_of(name, lines) for name, lines, _ in files}
    if len(kinds) > 1:
        fail("the files are of several kinds")
    kind, first, last = kinds.pop(), getattr(values, "from"), values.to
    if kind not in OF_TICKS and (first, last) != (None, None):
        refuse_word("--from and --to are for records and signals")
    instead = "; egasim draw draws a record without it" * (kind is plot_records)
    draw(picture, *kind.picture(shown_of(kind, files), first, last, units=units), instead)


PLOT = Tool(
    "plot", "draws a picture by gnuplot of records, sweeps, signals, a table or margins, whichever the files are",
    (Form("draws files of one kind", plotted,
          (Word("PICTURE", "what is written, NAME.png or NAME.svg", file("png"), is_needed=True),
           Word("FILE", "what a command of the program printed", NAME, is_needed=True, is_several=True),
           Word("--cal", "a calibration, which belongs to the files that follow it, and gives their threshold, limits or R; else the "
                "reference calibration", file("toml"), "NAME", is_several=True),
           Word("--from", "the first tick of records and signals that is drawn", TICK, "TICK"),
           Word("--to", "the last tick of records and signals that is drawn", TICK, "TICK"),
           TICK_LENGTH)),))
