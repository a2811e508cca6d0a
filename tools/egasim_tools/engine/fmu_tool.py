"""`egasim fmu`: an engine that is an FMU."""

import csv
import os
import sys
import tempfile

from egasim_tools.base.command_line import Form, Tool, Word, file
from egasim_tools.base.tool import TOOL, as_noted
from egasim_tools.engine.child_process import in_child
from egasim_tools.engine.fmi import Instance
from egasim_tools.engine.fmu_description import listed, unpacked
from egasim_tools.engine.fmu_engine import Engine, commands


def play(engine, is_verbose, says):
    """Answers the lines on standard input. What the library prints goes to standard error."""
    answers = os.fdopen(os.dup(sys.stdout.fileno()), "w", encoding="ascii")
    os.dup2(sys.stderr.fileno(), sys.stdout.fileno())
    at = "at the start"

    def say(text):
        if text and is_verbose:
            print(as_noted(f"{TOOL}: {text} {at}"), file=sys.stderr, flush=True)
        says(f"{text} {at}" if text else "")

    instance = Instance(engine.description, say)
    engine.begin(instance)
    for (tick, drive), told in zip(enumerate(engine.drive), csv.DictReader(sys.stdin)):
        at = f"at tick {tick}"
        shown = engine.step(instance, tick, drive, *commands(drive, told))
        print(*drive, *shown, sep=",", file=answers, flush=True)
    at = "at the end"
    instance.end()
    for note in engine.notes():
        print(as_noted(f"{TOOL}: {note}"), file=sys.stderr)


def played(values):
    with tempfile.TemporaryDirectory(prefix="egasim-fmu-") as room:
        if values.variables:
            print("\n".join(map(as_noted, listed(unpacked(values.engine, room)))))
            return
        engine = Engine(values.engine, room)
        in_child(lambda says: play(engine, values.verbose, says))


FMU = Tool(
    "fmu", "is an engine that is an FMU for co-simulation (FMI 2.0, for Linux on x86-64), as a partner of couple",
    (Form("answers the lines of couple on standard input: egasim partner 'egasim fmu ENGINE.toml' CAMPAIGN RUN >record.csv", played,
          (Word("ENGINE", "what joins the FMU to the unit; with --variables the FMU", file("toml"), is_needed=True),
           Word("--variables", "lists the FMU's variables, with units and starts"),
           Word("--verbose", "tells each call of the FMU's library"))),))
