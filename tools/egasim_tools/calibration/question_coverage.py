"""What the questions of a calibration exercise, and what they don't.

A question exercises a thing if the answers of a right unit and of one that gets just this thing wrong differ on it: a bit
of a result that is stuck, a pair that is never or always said to disagree, a tie that is taken for an excess, a threshold
that is one too great, a raise that never counts, a check word that nobody looks at. So a bad check word is one that keeps a
raise from counting which would."""

from egasim_tools.base.ranges import FULL, RAISE, WORD
from egasim_tools.base.unit_rules import (PAIRS, beyond_tie, distance, estimate, is_good_check,
    least_permitted, results_of)

NUMBERS = ("the pedal", "the permitted torque", "the estimate of the load")  # what the first three results are


def masks_of(calibration):
    """The bits that each of the first three results may have in a drive."""
    kt, loads = calibration["torque"]["kt"], 0
    for load in range(FULL + 1):
        loads |= estimate(kt, load)
    return (1 << FULL.bit_length()) - 1, (1 << RAISE.bit_length()) - 1, loads


def bits_of(mask):
    return [bit for bit in range(WORD.bit_length()) if mask >> bit & 1]


def things_of(calibration):
    """All that questions can exercise. A bit of the first three results is (its result, the bit, 0 or 1)."""
    for result, mask in enumerate(masks_of(calibration)):
        yield from ((result, bit, value) for value in (0, 1) for bit in bits_of(mask))
    yield from ("comparison 0", "comparison 1", "tie", "tie plus one")
    yield from (f"{pair} {where}" for pair in PAIRS for where in ("within", "beyond"))
    yield from ("good check word", "bad check word")


def exercised_by(calibration, question):
    """What one question exercises."""
    results, above = results_of(calibration, question), beyond_tie(calibration, question)
    for result, mask in enumerate(masks_of(calibration)):
        yield from ((result, bit, results[result] >> bit & 1) for bit in bits_of(mask))
    yield f"comparison {results[3]}"
    yield from {0: ["tie"], 1: ["tie plus one"]}.get(above, [])
    for pair in PAIRS:
        yield f"{pair} {'beyond' if distance(pair, question) > calibration['pairs'][pair] else 'within'}"
    if question["raise"] > least_permitted(calibration["permit"], question):
        yield f"{'good' if is_good_check(question) else 'bad'} check word"


def cover_of(calibration):
    """The numbers of the questions that exercise each thing."""
    cover = {thing: [] for thing in things_of(calibration)}
    for number, question in enumerate(calibration["question"]):
        for thing in exercised_by(calibration, question):
            cover[thing].append(number)
    return cover


def ranges_said(numbers):
    """Rising numbers in words: 0 to 9, 12, 13."""
    ranges = []
    for number in numbers:
        if ranges and ranges[-1][1] == number - 1:
            ranges[-1][1] = number
        else:
            ranges.append([number, number])
    return ", ".join(f"{first} to {last}" if last > first + 1 else ", ".join(map(str, range(first, last + 1)))
                     for first, last in ranges)


def in_words(things):
    """Things that questions exercise, in words."""
    things = set(things)
    for result, what in enumerate(NUMBERS):
        for value in (1, 0):
            bits = sorted(thing[1] for thing in things if thing[0] == result and thing[2] == value)
            if bits:
                yield f"{value} in {'bit' if len(bits) == 1 else 'bits'} {ranges_said(bits)} of {what}"
    yield from (f"result {value} of the comparison" for value in (1, 0) if f"comparison {value}" in things)
    yield from (f"{thing} of the comparison" for thing in ("tie", "tie plus one") if thing in things)
    for pair in PAIRS:
        yield from (f"pair of the {pair} {where} its tolerance"
                    for where in ("within", "beyond") if f"{pair} {where}" in things)
    if "good check word" in things:
        yield "good check word by which a raise counts"
    if "bad check word" in things:
        yield "bad check word that keeps a raise from counting"


def missing(cover):
    """What no question exercises, in words."""
    yield from (f"no {words}" for words in in_words(thing for thing, numbers in cover.items() if not numbers))


def told(cover):
    """What the questions exercise, a line for each kind of it."""
    def where(thing):
        return f"in {ranges_said(cover[thing])}" if cover[thing] else "in none"

    for result, what in enumerate(NUMBERS):
        both = [thing[1] for thing in cover if thing[0] == result and thing[2] == 0
                and cover[thing] and cover[(result, thing[1], 1)]]
        yield f"{what}: {f'0 and 1 in bits {ranges_said(both)}' if both else 'no bit that is 0 and 1'}"
    yield ("the comparison: " + "; ".join(f"{words} {where(thing)}" for words, thing in (
        ("result 0", "comparison 0"), ("result 1", "comparison 1"), ("a tie", "tie"), ("a tie plus one", "tie plus one"))))
    for pair in PAIRS:
        yield f"the pair of the {pair}: within {where(f'{pair} within')}; beyond {where(f'{pair} beyond')}"
    yield f"the check word: good {where('good check word')}; bad {where('bad check word')}"
