"""Other numbers for a calibration file, put into its text. Every other byte stays as it is."""

import re
import tomllib

from egasim_tools.base.tool import fail

NUMBER, GAP = "[+-]?[0-9][0-9A-Za-z_]*", r"(?:[ \t\r\n]|#[^\n]*\n)*"
SCALAR = re.compile(rf"""\b(?:raise|check|used|estimate|allowed|answer)["']?[ \t]*=[ \t]*({NUMBER})""")
PAIR = re.compile(rf"""\b(?:pedal|plate|load|speed)["']?[ \t]*=[ \t]*\[{GAP}({NUMBER}){GAP},{GAP}({NUMBER})""")
FIRST = 100000  # above each number of a question


def parsed(name, text):
    """What the text of a calibration file holds."""
    try:
        return tomllib.loads(text.removeprefix("\ufeff"))
    except (ValueError, RecursionError):
        fail(f"{name}: Python's tomllib, of TOML 1.0, doesn't read it; put the numbers in by hand")


def replaced(text, words):
    """The text with other words at some places, (first, last)."""
    parts, end = [], 0
    for (first, last), word in sorted(words.items()):
        parts += [text[end:first], str(word)]
        end = last
    return "".join(parts) + text[end:]


def places_of(name, text):
    """Where each number of the questions stands, by question, key and place in a pair. Each number that may be one becomes
    another, and the questions of that file show which number is whose: in a comment or a text there may be others."""
    spans = [match.span(1) for match in SCALAR.finditer(text)]
    spans += [match.span(side) for match in PAIR.finditer(text) for side in (1, 2)]
    numbered = replaced(text, {span: FIRST + place for place, span in enumerate(spans)})
    return {key: spans[number - FIRST] for key, number in numbers_of(parsed(name, numbered)["question"])
            if FIRST <= number < FIRST + len(spans)}


def numbers_of(questions):
    """The numbers of questions: ((question, key, place in a pair or 0), number)."""
    for number, question in enumerate(questions):
        for key, value in question.items():
            yield from (((number, key, place), one) for place, one in enumerate(value if isinstance(value, list) else [value]))


def changed_numbers(name, text, questions):
    """The numbers in which these questions aren't those of the text, as numbers_of has them."""
    old = dict(numbers_of(parsed(name, text)["question"]))
    return {key: number for key, number in numbers_of(questions) if old[key] != number}


def with_questions(name, text, questions):
    """The text with other numbers in its questions."""
    changed = changed_numbers(name, text, questions)
    places = places_of(name, text) if changed else {}
    for key in changed:
        if key not in places:
            by_hand = "an answer isn't written as `answer = N`" if key[1] == "answer" else "a question isn't written as expected"
            fail(f"{name}: {by_hand}; put the numbers in by hand")
    new = replaced(text, {places[key]: number for key, number in changed.items()})
    return new if parsed(name, new)["question"] == questions else fail(f"{name}: put the numbers in by hand")


def with_numbers(name, text, numbers):
    """The text with other numbers at keys of its tables, which `numbers` has by table and key. As places_of does it, each
    number that may be meant becomes another, and the file shows which is whose."""
    keys = "|".join(sorted({re.escape(key) for _, key in numbers}))
    spans = [match.span(1) for match in re.finditer(rf"""\b(?:{keys})["']?[ \t]*=[ \t]*({NUMBER})""", text)]
    numbered = parsed(name, replaced(text, {span: FIRST + place for place, span in enumerate(spans)}))
    words = {}
    for (table, key), number in numbers.items():
        place = numbered[table][key] - FIRST
        if not 0 <= place < len(spans):
            fail(f"{name}: {table}.{key} isn't written as `{key} = N`; put the number in by hand")
        words[spans[place]] = number
    new = replaced(text, words)
    held = parsed(name, new)
    if any(held[table][key] != number for (table, key), number in numbers.items()):
        fail(f"{name}: put the numbers in by hand")
    return new
