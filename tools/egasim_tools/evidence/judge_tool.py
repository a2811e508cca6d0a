"""`egasim judge`: what is so beside what is expected, as a test of a build server."""

import contextlib
import os
import sys

from egasim_tools.base.command_line import NAME, TICK_LENGTH, VERBOSE, Form, Tool, Word, file
from egasim_tools.base.files import read, refuse_input, write
from egasim_tools.base.inputs import Inputs
from egasim_tools.base.program import program
from egasim_tools.base.tool import TOOL, as_noted
from egasim_tools.evidence.expectations import Expected
from egasim_tools.evidence.expected_runs import Asking, inputs_of
from egasim_tools.evidence.judgement import verdicts
from egasim_tools.evidence.kept_calls import calls_kept
from egasim_tools.evidence.tap_junit import junit, tap


def lines_of(lines):
    return "".join(f"{line}\n" for line in lines).encode()


@contextlib.contextmanager
def no_old(output):
    """Where nothing can be judged, removes the JUnit file that an earlier call has written, so that nobody takes it for this
    one's. No other file is removed."""
    try:
        yield
    except BaseException:
        head = lines_of(list(junit("", []))[:2])
        if output and os.path.isfile(output) and read(output).startswith(head):
            os.unlink(output)
            print(as_noted(f"{TOOL}: {output}, which an earlier call wrote, is removed: nothing is judged"), file=sys.stderr)
        raise


def judged(values):
    name, output = values.expect, values.junit
    if output:
        refuse_input(output, [name])
    with no_old(output), calls_kept(values.keep) as kept:
        inputs = Inputs([program(), name])
        expected = Expected(name, values.tick)
        inputs.add_sums(inputs_of(expected))
        told = list(dict.fromkeys(verdicts(expected, Asking(expected), values.strict)))
        inputs.refuse_changes()
        said = kept and kept.sealed(inputs_of(expected))
        if output:
            refuse_input(output, inputs_of(expected))
            write(output, lines_of(junit(name, told, said)))
    print("\n".join(tap(told, said)))
    sys.exit(1 if any(verdict.is_so is False for verdict in told) else 0)


JUDGE = Tool(
    "judge", "judges whether a campaign, recordings and a calibration are as a file says that they must be, as a test of a build server",
    (Form("prints a line of TAP for each thing that is expected, ok or not ok, with what is so", judged,
          (Word("EXPECT", "what is expected", file("toml"), is_needed=True),
           Word("--junit", "writes the same as JUnit's XML, over no file that is read; with the status 2 the one that an earlier call "
                "wrote is removed", file("xml"), "FILE"),
           Word("--strict", "a run that no line names is not ok; else it is skipped"),
           TICK_LENGTH,
           Word("--keep", "makes FOLDER, which mustn't be there, with each call of the program that the verdicts are drawn from, for "
                "egasim keep --again; lines of TAP and JUnit's XML name it with its checksum", NAME, "FOLDER"),
           VERBOSE)),),
    "The status is 1 if one isn't as expected, and 2 if nothing can be judged. Names of files are relative to the folder of the call.",
    refused=2)
