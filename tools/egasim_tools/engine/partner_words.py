"""The words of `egasim partner`, a script of the shell, which needs no Python where it has no options.

    partner_words.py TOOL WORDS ..

prints for the shell what the words say, in the name of TOOL; or the help."""

import os
import shlex
import sys

if __name__ == "__main__":
    sys.dont_write_bytecode = True
    sys.argv[0] = sys.argv.pop(1)  # the tool, in whose name is told what goes wrong
    sys.path.insert(0, os.path.dirname(os.path.dirname(os.path.dirname(os.path.realpath(__file__)))))

from egasim_tools.base.command_line import NAME, TEXT, Form, Kind, Tool, Word, file, refuse  # noqa: E402
from egasim_tools.engine.noise import SEED_AND_SIGMA  # noqa: E402


def noise_in(text):
    return text if SEED_AND_SIGMA.fullmatch(text) else refuse(f"{text or 'an empty word'} is no SEED,SIGMA, as 1,2.5")


def said(values):
    """Prints the options as variables of the shell, and the other words as those of its call."""
    calibration = ["--cal", values.cal] if values.cal else []
    options = f"noise={shlex.quote(values.noise or '')} recording={shlex.quote(values.recording or '')}"
    words = shlex.join([values.partner, *calibration, values.campaign, values.run])
    sys.stdout.buffer.write(os.fsencode(f"{options}\nset -- {words}\n"))  # also a name that isn't UTF-8


PARTNER = Tool(
    "partner", "couples the unit with a partner, a driver and an engine of your own, by FIFOs, and prints the record",
    (Form("prints the record of the run; the options stand before PARTNER", said,
          (Word("--noise", "SEED,SIGMA, such as 1,2.5: adds noise of the standard deviation SIGMA, drawn from the whole number SEED, to "
                "position and loads (per mille), pedal (per mille) and speed (rpm) that the partner answers", Kind(noise_in), "SEED,SIGMA"),
           Word("--recording", "writes what the tracks read at each tick, as replay and signals take it", file("csv"), "FILE"),
           Word("PARTNER", "a command of the shell, such as 'python3 mine.py', which answers the lines of couple", TEXT, is_needed=True),
           Word("--cal", "a calibration, which stands behind PARTNER; else the reference calibration", file("toml"), "NAME"),
           Word("CAMPAIGN", "a campaign", file("toml"), is_needed=True), Word("RUN", "the name of one of its runs", NAME, is_needed=True))),),
    "The status is that of egasim couple, or 1 where that is 0 and the partner's isn't; it is 5 where the record can't be copied.")

if __name__ == "__main__":
    PARTNER.run()
