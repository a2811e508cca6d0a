"""`egasim calibration`: calibrations as labels of a DCM, and the differences of two."""

import os
import sys

from egasim_tools.base.command_line import VERBOSE, Form, Tool, Word, file
from egasim_tools.base.files import TOP, read, text_of
from egasim_tools.base.program import printed_by, printed_of
from egasim_tools.base.tool import TOOL, as_noted, fail
from egasim_tools.calibration.dcm import labels_in
from egasim_tools.calibration.differences import differences, scales_of
from egasim_tools.calibration.key_edits import with_values
from egasim_tools.calibration.label_map import lines_of, numbers_of_labels, values_of_map
from egasim_tools.calibration.number_edits import parsed

REFERENCE = os.path.join(TOP, "examples", "calibration", "reference.toml")


def accepted(name):
    """A calibration that the program accepts, but for its answers; without a name the reference calibration."""
    if name:
        printed_by("answers", name)
    return parsed(name, text_of(name or REFERENCE))


def text_of_dcm(name):
    """The text of a DCM, which is UTF-8, or else Latin 1 as older tools write it."""
    content = read(name)
    try:
        return content.decode("utf-8-sig")
    except UnicodeDecodeError:
        return content.decode("latin-1")


def read_labels(is_partial, map_name, name, base):
    accepted(base)
    told = []
    numbers = numbers_of_labels(values_of_map(map_name), labels_in(name, text_of_dcm(name)), name, told, is_partial)
    text = with_values(base, numbers)
    answers = [int(line.split(": ")[1]) for line in printed_of("answers", text=text, name=f"what {name} says").splitlines()]
    wrong = [str(number) for number, question in enumerate(parsed(base, text)["question"]) if question["answer"] != answers[number]]
    if wrong:
        told.append(f"answers {', '.join(wrong)} aren't right any more; egasim questions puts them in")
    for line in dict.fromkeys(told):
        print(as_noted(f"{TOOL}: {line}"), file=sys.stderr)
    sys.stdout.buffer.write(text.encode())


def write_labels(map_name, name):
    lines = lines_of(values_of_map(map_name), accepted(name),
                     f"{os.path.basename(name) if name else 'the reference calibration'} by {os.path.basename(map_name)}")
    text = "".join(f"{line}\n" for line in lines)
    try:
        sys.stdout.buffer.write(text.encode("latin-1"))
    except UnicodeEncodeError as error:
        fail(f"{map_name}: {text[error.start]} can't be written in Latin 1")


def tell_differences(old, new, map_name):
    scales = scales_of(values_of_map(map_name) if map_name else [])
    lines = list(differences(accepted(old), accepted(new), scales))
    print("\n".join([*lines, f"{len(lines) or 'no'} difference{'' if len(lines) == 1 else 's'}"]))
    sys.exit(1 if lines else 0)


MAP = Word("MAP", "which label has which key of a calibration", file("toml"), is_needed=True)
PARTIAL = Word("--partial", "a label that isn't there is told, and its key stays as in BASE; else it is refused")
CALIBRATION = Tool(
    "calibration", "takes a calibration from a DCM and makes one of it, and tells in what two calibrations differ",
    (Form("prints BASE with the values of FILE; all other bytes stay", lambda values: read_labels(
        values.partial, values.map, values.file, values.base),
          (MAP, Word("FILE", "a DCM (KONSERVIERUNG_FORMAT 2.0)", file("dcm"), is_needed=True),
           Word("BASE", "a calibration", file("toml"), is_needed=True), PARTIAL, VERBOSE), "read"),
     Form("prints a DCM with the labels of a calibration", lambda values: write_labels(values.map, values.cal),
          (MAP, Word("CAL", "a calibration; else the reference calibration", file("toml")), VERBOSE), "write"),
     Form("prints a line for each number that differs, in both units", lambda values: tell_differences(
         values.old, values.new, values.units),
          (Word("OLD", "a calibration", file("toml"), is_needed=True), Word("NEW", "another one", file("toml"), is_needed=True),
           Word("UNITS", "a map, whose units are taken; else %, rpm and Nm", file("toml")), VERBOSE), "diff")),
    "The status of diff is 0 if nothing differs, 1 if something does; whatever is refused has the status 2.", refused=2)
