"""`egasim questions`: the right answers of a calibration, and its questions."""

import os

from egasim_tools.base.command_line import Form, Tool, Word, file
from egasim_tools.base.files import read, write
from egasim_tools.base.program import printed_by, printed_of
from egasim_tools.base.records import limits_in
from egasim_tools.base.tool import as_noted, fail, refuse_word
from egasim_tools.calibration.number_edits import changed_numbers, parsed, with_questions
from egasim_tools.calibration.question_coverage import cover_of, missing, told
from egasim_tools.calibration.question_design import filled
from egasim_tools.calibration.question_rounds import latest_told, openings_told
from egasim_tools.calibration.right_answers import with_answers


def changes_told(name, before, after):
    """Each answer that changed, and how many other numbers of its question did."""
    changed = changed_numbers(name, before, parsed(name, after)["question"])
    for number, question in enumerate(parsed(name, before)["question"]):
        others = sum(key[0] == number and key[1] != "answer" for key in changed)
        others = f"question {number}: {others} numbers changed; " if others else ""
        if (number, "answer", 0) in changed:
            yield f"{others}answer {number}: {question['answer']} is now {changed[(number, 'answer', 0)]}"
        elif others:
            yield f"{others}answer {number} is still {question['answer']}"


def without_excess(name, text):
    """What is told of a calibration by which no torque is an excess."""
    limits = limits_in(printed_of("limits", "--cal", text=text))
    return [f"{name}: no torque of the bench's engines is an excess (peak 0)"] if limits["peak"] == "0" else []


def cover_told(name, calibration):
    cover = cover_of(calibration)
    lacking = list(missing(cover))
    return [*told(cover), *openings_told(calibration, cover), *(f"missing: {words}" for words in lacking),
            f"{name}: {len(lacking) or 'nothing'} missing; {latest_told(calibration, cover)}"]


def put_in(values):
    if values.cover and values.fill:
        refuse_word("--cover and --fill are two calls")
    name = values.file
    content = read(name)
    printed_by("answers", name)  # so that whatever is wrong with the file is told by its name
    before = content.decode()
    if values.fill:
        after = with_answers(name, with_questions(name, before, filled(parsed(name, before))))
    else:
        after = with_answers(name, before)
    lines = cover_told(name, parsed(name, after)) if values.cover else list(changes_told(name, before, after))
    if read(name) != content:
        fail(f"{name} changed meanwhile")
    if not values.cover:
        if lines:
            write(os.path.realpath(name), after.encode())
            lines.append(f"{name}: {len(lines)} changed; work out each by hand too, since a script is no check")
        else:
            lines = [f"{name}: all answers are right"]
    print("\n".join(map(as_noted, [*lines, *without_excess(name, after)])))


QUESTIONS = Tool(
    "questions", "puts the right answers into a calibration file, and tells which it changed",
    (Form("every other byte stays as it is", put_in,
          (Word("FILE", "a calibration", file("toml"), is_needed=True),
           Word("--cover", "prints what the questions exercise, and what they don't; the file stays as it is"),
           Word("--fill", "writes questions that exercise everything, with their answers; the seeds stay"))),),
    'Answers that are put in check nothing: work out each changed answer by hand too (docs/CALIBRATING.md, "Step by step").')
