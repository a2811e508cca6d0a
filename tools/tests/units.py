"""Units that answer questions, right and wrong ones, written from docs/CONCEPT.md without the tools' modules; and
calibrations that are drawn."""

from fractions import Fraction
from math import ceil, floor

PAIRS = ("pedal", "plate", "load", "speed")


def value_at(points, x):
    """The value at x of a table of (point, value)."""
    if x <= points[0][0]:
        return points[0][1]
    for (x0, y0), (x1, y1) in zip(points, points[1:]):
        if x <= x1:
            return floor(y0 + Fraction((y1 - y0) * (x - x0), x1 - x0))
    return points[-1][1]


def permitted_at(permit, pedal, speed):
    column = [value_at(list(zip(permit["speed"], row)), speed) for row in permit["table"]]
    return value_at(list(zip(permit["pedal"], column)), pedal)


def estimate_of(kt, load):
    return min(65535, ceil(Fraction(load * kt, 1000)))


class Unit:
    """What a unit computes. A wrong one has another `answers`, of the results, or other numbers or habits."""

    def __init__(self, calibration, wrong=lambda results: results, more=0, takes_ties=False, raises=None):
        self.calibration, self.wrong, self.more, self.takes_ties, self.raises = calibration, wrong, more, takes_ties, raises

    def answer(self, question):
        permit = self.calibration["permit"]
        pedal = min(question["pedal"][0], max(0, 1000 - question["pedal"][1]))
        counts = question["check"] == 65535 - question["raise"] if self.raises is None else self.raises
        permitted = min(permitted_at(permit, question["used"], speed) for speed in question["speed"])
        permitted = max(permitted, question["raise"]) if counts else permitted
        load = estimate_of(self.calibration["torque"]["kt"], max(question["load"]))
        most = question["allowed"] + permit["threshold"] + self.more
        excess = question["estimate"] >= most if self.takes_ties else question["estimate"] > most
        bits = "".join("1" if self.disagrees(pair, *question[pair]) else "0" for pair in reversed(PAIRS))
        fold = f"{question['seed']:016b}"
        for result in self.wrong([pedal, permitted, load, int(excess), int(bits, 2)]):
            fold = f"{int(fold[3:] + fold[:3], 2) ^ result:016b}"
        return int(fold, 2)

    def disagrees(self, pair, first, second):
        second = max(0, 1000 - second) if pair in ("pedal", "plate") else second
        return not -self.calibration["pairs"][pair] <= first - second <= self.calibration["pairs"][pair]

    def answers(self, questions):
        return [self.answer(question) for question in questions]


def stuck(result, bit, value):
    """A unit's results if a bit of one is stuck."""
    def wrong(results):
        return [number & ~(1 << bit) | value << bit if place == result else number for place, number in enumerate(results)]
    return wrong


def wrong_units(calibration):
    """(what a unit gets wrong, by the name that tools/egasim_tools/calibration/question_coverage.py gives the thing which shows it; the unit)."""
    kt = calibration["torque"]["kt"]
    for result, values in enumerate((range(1001), range(10001), [estimate_of(kt, load) for load in range(1001)])):
        for bit in range(16):
            if any(value >> bit & 1 for value in values):
                yield (result, bit, 0), Unit(calibration, stuck(result, bit, 1))
                yield (result, bit, 1), Unit(calibration, stuck(result, bit, 0))
    yield "comparison 0", Unit(calibration, stuck(3, 0, 1))
    yield "comparison 1", Unit(calibration, stuck(3, 0, 0))
    yield "tie", Unit(calibration, takes_ties=True)
    yield "tie plus one", Unit(calibration, more=1)
    for place, pair in enumerate(PAIRS):
        yield f"{pair} within", Unit(calibration, stuck(4, place, 1))
        yield f"{pair} beyond", Unit(calibration, stuck(4, place, 0))
    yield "good check word", Unit(calibration, raises=False)
    yield "bad check word", Unit(calibration, raises=True)


def drawn_axis(draws, most, count):
    return sorted(draws.sample(range(most + 1), count))


def drawn_question(draws, calibration):
    def near(number):
        return max(0, min(65535, number + draws.choice([-1, 0, 1])))

    raised, allowed = draws.choice([0, 300, 9000, draws.randrange(65536)]), draws.randrange(30000)
    numbers = {pair: [draws.choice([0, 500, 1000, draws.randrange(1001), draws.randrange(65536)]) for _ in "ab"] for pair in PAIRS}
    return {"seed": draws.randrange(65536), **numbers, "raise": raised, "used": draws.randrange(1200), "allowed": allowed,
            "check": draws.choice([65535 - raised, near(65535 - raised), draws.randrange(65536)]),
            "estimate": near(allowed + calibration["permit"]["threshold"]), "answer": 0}


def drawn_calibration(draws):
    """A calibration, as far as questions need it, with extreme numbers now and then."""
    rows, columns, angles = (draws.randint(2, 5) for _ in "abc")
    most = draws.choice([5, 2400, 10000])
    table = zip(*(sorted(draws.randint(0, most) for _ in range(rows)) for _ in range(columns)))
    calibration = {
        "permit": {"pedal": drawn_axis(draws, 1000, rows), "speed": drawn_axis(draws, 8000, columns),
                   "table": [list(row) for row in table], "threshold": draws.choice([0, 200, 10000])},
        "torque": {"kt": draws.choice([1, 2, 999, 1000, 1001, 2500, 10000, draws.randint(1, 10000)])},
        "pairs": {pair: draws.choice([0, 1, 50, 1000, 10000]) for pair in PAIRS},
        "plant": {"angle": drawn_axis(draws, 1000, angles), "charge": [draws.randint(0, 1000) for _ in range(angles)]}}
    count = draws.choice([2, 3, 4, 5, 64])
    return {**calibration, "question": [drawn_question(draws, calibration) for _ in range(count)]}
