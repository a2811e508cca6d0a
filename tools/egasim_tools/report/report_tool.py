"""`egasim report`: a page on a campaign."""

import os
import sys

from egasim_tools.base.command_line import CAL, NAME, PER_CENT, TEXT, TICK_LENGTH, TIME, Form, Tool, Word, file
from egasim_tools.base.tool import refuse_word
from egasim_tools.base.units import ticks_of, units_of
from egasim_tools.evidence.kept_calls import calls_kept
from egasim_tools.report.asking import Asking
from egasim_tools.report.html_parts import page
from egasim_tools.report.sections import parts
from egasim_tools.report.verdicts import SAYS, said_in


def asked(values):
    """The values of the call. Times are whole ticks, so that what is tolerated is never more than was said."""
    for name in ("sound", "recording", "coupled"):
        said = getattr(values, name)
        if len(set(said)) < len(said):
            refuse_word(f"--{name}: the same stands twice")
    units = units_of(values.tick, [values.cal])
    if values.tolerant is not None:
        values.tolerant = ticks_of("--tolerant", values.tolerant, units) // 1
    if values.falls is not None:
        values.falls = -(-ticks_of("--falls", values.falls, units) // 1)
    values.said = said_in(values)
    return values


def written(values):
    words = asked(values)
    with calls_kept(words.keep) as kept:
        asking = Asking(words.campaign, words.cal)
        played = asking.played(words.sound, words.sweep_sound, words.tick)
        asking.add_others(played, words.coupled, words.recording)
        played.kept = kept and kept.sealed(asking.files())
        title = words.title or f"Report on {os.path.basename(words.campaign)}"
        text = "\n".join(page(title, parts(played, words))) + "\n"
        asking.refuse_changes()
    sys.stdout.buffer.write(text.encode())


REPORT = Tool(
    "report", "writes a page of HTML on a campaign, for whoever has to accept it: the verdict, all numbers, pictures, and what they rest on",
    (Form("prints the page", written, (
        Word("CAMPAIGN", "a campaign", file("toml"), is_needed=True), CAL,
        Word("--tolerant", "how long an excess of torque may last in your engine, from the moment at which it begins to the moment at "
             "which it ends: 300ms, or a number of ticks; the page takes off a tick and the time of --falls", TIME, "TIME"),
        Word("--falls", "how long your torque takes to fall after the cut (0 on the bench), and, added to that, what your paths take "
             'beyond a tick, how old your oldest reading is, and the rest of docs/CALIBRATING.md, "Step by step", 1', TIME, "TIME"),
        Word("--sound", "a run whose drive is sound, and mustn't be cut; a comment `# sound: NAME ..` in the campaign says the same",
             TEXT, "NAME", is_several=True),
        Word("--room", "how much of each limit the weights of the sound drives have to leave", PER_CENT, "PERCENT"),
        *SAYS,
        Word("--title", "stands at the top", TEXT, "TEXT"), Word("--project", "stands at the top", TEXT, "TEXT"),
        Word("--author", "stands at the top", TEXT, "TEXT"),
        Word("--sweep-sound", "sweeps the sound drives too"),
        Word("--keep", "keeps each call of the program that the page is made of, for egasim keep --again; the page names FOLDER, which "
             "mustn't be there, with its checksum", NAME, "FOLDER"),
        Word("--recording", "recorded readings of a drive that mustn't be cut: they count as a sound drive", file("csv"), "FILE",
             is_several=True),
        Word("--coupled", "a record that egasim partner printed; it has no share in the verdict", file("csv"), "FILE", is_several=True),
        TICK_LENGTH)),),
    'The verdict says "It fits" only if all of it does, and needs --tolerant and --falls for this. The status is 0 also if it doesn\'t '
    "fit; egasim judge tells verdicts by its status.")
