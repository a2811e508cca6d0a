"""The right answers of a calibration, worked out by the program and by the tools, and put into its text."""

from egasim_tools.base.program import printed_of
from egasim_tools.base.tool import fail
from egasim_tools.calibration.number_edits import parsed, with_questions
from egasim_tools.base.unit_rules import answer_of


def with_answers(name, text, printed=None):
    """The text with the right answers, as the program works them out and as it is done here. `printed` makes what
    `answers` prints of a text, where the caller has a way of its own."""
    calibration = parsed(name, text)
    lines = (printed(text) if printed else printed_of("answers", text=text)).splitlines()
    right = [int(line.split(": ")[1]) for line in lines]
    if right != [answer_of(calibration, question) for question in calibration["question"]]:
        fail(f"{name}: the program works out other answers than this tool")
    questions = [{**question, "answer": answer} for question, answer in zip(calibration["question"], right)]
    return with_questions(name, text, questions)
