"""What the tools work out of the unit themselves, since no command of the program tells it: what level 2 makes of a question,
the least load of a torque, what tracks read under a fault, when verdicts confirm, and the spans of a run.
tools/tests/base/test_unit_rules.py compares each with the program (docs/TESTING.md, "Formulas of the tools")."""

from bisect import bisect_right

from egasim_tools.base.ranges import FULL, WORD

PAIRS = ("pedal", "plate", "load", "speed")  # their bits in the fifth result: 1, 2, 4, 8
INVERTED = ("pedal", "plate")  # pairs whose second track reads 1000 less the first
TRACKS, RAISE = (*range(8), 10, 11), 8  # the places of the tracks 0 to 9, and of the raise, in a line of readings


def between(axis, values, x):
    """The value of a table with one axis."""
    place = bisect_right(axis, x)
    if place in (0, len(axis)):
        return values[min(place, len(axis) - 1)]
    (x0, x1), (y0, y1) = axis[place - 1:place + 1], values[place - 1:place + 1]
    return (y0 * (x1 - x) + y1 * (x - x0)) // (x1 - x0)


def table_value(permit, pedal, speed):
    """What the permit table gives for a pedal and a speed."""
    return between(permit["pedal"], [between(permit["speed"], row, speed) for row in permit["table"]], pedal)


def least_permitted(permit, question):
    """What the table permits in a question, by the lower of its two speeds' values."""
    return min(table_value(permit, question["used"], speed) for speed in question["speed"])


def estimate(kt, load):
    return min(WORD, -(-load * kt // 1000))


def least_load(kt, torque):
    """The least load whose estimate isn't below this torque."""
    return max(0, (torque - 1) * 1000 // kt + 1)


def values_of(pair, readings):
    """The values that the two readings of a pair stand for."""
    first, second = readings
    return first, max(0, FULL - second) if pair in INVERTED else second


def distance(pair, question):
    first, second = values_of(pair, question[pair])
    return abs(first - second)


def is_good_check(question):
    return question["raise"] + question["check"] == WORD


def beyond_tie(calibration, question):
    """By how much the estimate of the comparison lies above its tie: 0 at a tie, 1 at the least excess."""
    return question["estimate"] - question["allowed"] - calibration["permit"]["threshold"]


def results_of(calibration, question):
    """The five results of a question."""
    raised = question["raise"] if is_good_check(question) else 0
    return (min(values_of("pedal", question["pedal"])),
            max(raised, least_permitted(calibration["permit"], question)),
            estimate(calibration["torque"]["kt"], max(question["load"])),
            int(beyond_tie(calibration, question) > 0),
            sum(1 << place for place, pair in enumerate(PAIRS)
                if distance(pair, question) > calibration["pairs"][pair]))


def answer_of(calibration, question):
    """The right answer: the results folded into 16 bits."""
    fold = question["seed"]
    for result in results_of(calibration, question):
        fold = ((fold << 3 | fold >> 13) & WORD) ^ result
    return fold


def readings_of(answer, fault, tick):
    """What is read at a tick of which these nine numbers were answered, under a fault or None."""
    pedal, speed, demand, _, brake, position, load1, load2, _ = answer
    read = [pedal, FULL - pedal, position, FULL - position, load1, load2, speed, speed, demand, WORD - demand, brake, 1 - brake]
    if not fault or tick < fault["onset"]:
        return read
    if fault["class"] == "script":
        read[TRACKS[fault["track"]]] = fault["values"][(tick - fault["onset"]) % len(fault["values"])]
    elif fault["class"] == "offset":
        place = TRACKS[fault["track"]]
        read[place] = max(0, min(WORD, read[place] + fault["add"]))
    elif fault["class"] == "bus":
        read[RAISE] ^= fault["mask"]
    return read


def verdicts_to_confirm(round_of_verdicts, weights):
    """How many verdicts of a round that comes again and again confirm, true for a wrong one (C10); None if they never do."""
    up, down, limit = (weights[key] for key in ("up", "down", "limit"))
    gain = sum(up if wrong else -down for wrong in round_of_verdicts)  # of each round in which the counter isn't held at 0
    counter = count = 0
    while True:
        before, greatest = counter, 0
        for wrong in round_of_verdicts:
            counter = counter + up if wrong else max(0, counter - down)
            count, greatest = count + 1, max(greatest, counter)
            if counter >= limit:
                return count
        if counter == before:
            return None
        skipped = (limit - 1 - greatest) // gain if counter - before == gain else 0
        counter, count = counter + skipped * gain, count + skipped * len(round_of_verdicts)


def ticks_to_open(numbers, count, times):
    """The most ticks from a tick on until path 2 is open, if from this tick on just the questions of these numbers, of
    `count`, get wrong answers; None if it never opens. If all do, this is R (C35)."""
    verdicts = [number in numbers for number in range(count)]
    most = [verdicts_to_confirm(verdicts[first:] + verdicts[:first], times) for first in range(count)]
    return None if None in most else (max(most) + 1) * times["period"] - times["send"] - 1


def spans_of(resets, ticks, test):
    """The spans of a run whose start-up tests are passed: (first tick, the tick behind the last, whether it is a test)."""
    if 0 not in resets:
        yield 0, min([*resets, ticks]), False
    for begin, end in zip(resets, [*resets[1:], ticks]):
        drive = min(begin + test + 1, end)
        yield begin, drive, True
        if drive < end:
            yield drive, end, False
