"""How late path 2 opens if the questions come in rounds, and only some of them get wrong answers.

Right verdicts take back what wrong ones added (docs/CONCEPT.md, "Debouncing"). So path 2 may open later than R, or never."""

from egasim_tools.base.unit_rules import ticks_to_open
from egasim_tools.calibration.question_coverage import in_words


def openings_of(calibration, cover):
    """{(ticks until path 2 opens, how many questions show it): what is exercised so}, the soonest first."""
    count, openings = len(calibration["question"]), {}
    ticks_of = {numbers: ticks_to_open(numbers, count, calibration["answers"]) for numbers in map(tuple, cover.values())}
    for thing, numbers in cover.items():
        if numbers:
            openings.setdefault((ticks_of[tuple(numbers)], len(numbers)), []).append(thing)
    return dict(sorted(openings.items(), key=lambda opening: (opening[0][0] is None, opening[0])))


def openings_told(calibration, cover):
    """When path 2 opens if just one thing is wrong, a line for each time and number of questions."""
    for (ticks, shown), things in openings_of(calibration, cover).items():
        opens = "never opens" if ticks is None else f"opens within {ticks} ticks"
        yield f"by {shown} of {len(calibration['question'])} questions, path 2 {opens}: {'; '.join(in_words(things))}"


def latest_told(calibration, cover):
    """The latest of these openings, beside R."""
    count = len(calibration["question"])
    ticks, _ = list(openings_of(calibration, cover))[-1]
    opens = "may never open" if ticks is None else f"opens within {ticks} ticks"
    reaction = ticks_to_open(range(count), count, calibration["answers"])
    return f"if just one thing that is exercised is wrong, path 2 {opens} (R is {reaction})"
