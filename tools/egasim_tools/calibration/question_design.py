"""Questions that exercise everything (egasim_tools/calibration/question_coverage.py), by a calibration's own numbers.

They come in couples, of which one is within a tolerance where the other is just beyond it, a tie where the other is a tie
plus one, and has those bits of its results that the other hasn't. So two questions exercise everything; more of them go
through the points of the permit table."""

from egasim_tools.base.ranges import FULL, RAISE, WORD
from egasim_tools.base.unit_rules import PAIRS, estimate, least_permitted
from egasim_tools.calibration.question_coverage import masks_of

BEYOND = (0b0101, 0b0011, 0b0110)  # the pairs that are beyond their tolerances in the first of a couple
PEDAL_BITS = 1023  # of a pedal, which is at most 1000; so its complement is one from 23 on


def turned(readings, is_turned):
    return readings[::-1] if is_turned else readings


def inverted_pair(value, distance, is_first):
    """Readings of pedal or plate that stand for this value and for a higher one; where it can be, the first for this."""
    if is_first and value + distance <= FULL:
        return [value, FULL - value - distance]
    return [value + distance, FULL - value]


class Loads:
    """Loads whose estimates have no bit in common, and together all that an estimate may have: (the higher of a pair within
    the tolerance, the higher of one beyond it). Where it can be, the first pair differs by just the tolerance."""

    def __init__(self, calibration):
        self.kt, self.tolerance = calibration["torque"]["kt"], calibration["pairs"]["load"]
        *_, self.mask = masks_of(calibration)
        beyond = self.least_from(self.tolerance + 1)
        self.couples = next(filter(None, (self.couples_of(self.least_from(first), beyond) for first in (self.tolerance, 0))))

    def least_from(self, first):
        """The least load from `first` on with an estimate of these bits, by the bits."""
        return {estimate(self.kt, load) & self.mask: load for load in range(WORD, first - 1, -1)}

    def couples_of(self, within, beyond):
        return [(load, beyond[self.mask & ~bits]) for bits, load in within.items() if self.mask & ~bits in beyond]

    def near(self, charge):
        """The couple near a charge; where it can be, both are loads of a drive."""
        return min(self.couples, key=lambda couple: (max(couple) > FULL, abs(couple[0] - charge)))

    def pair(self, couple, is_beyond):
        return [max(0, couple[is_beyond] - self.tolerance - is_beyond), couple[is_beyond]]


def couple_of(calibration, number, point, loads):
    """Two questions, without seeds and answers, at a point of the permit table."""
    permit, bits = calibration["permit"], BEYOND[number % len(BEYOND)]
    row, column = divmod(point, len(permit["speed"]))
    used, speed, allowed = permit["pedal"][row], permit["speed"][column], permit["table"][row][column]
    number %= len(calibration["plant"]["angle"])
    angle, couple = calibration["plant"]["angle"][number], []
    pedal, higher = max(used, PEDAL_BITS - FULL), loads.near(calibration["plant"]["charge"][number])
    for second in (False, True):
        beyond = {pair: bool(bits >> place & 1) != second for place, pair in enumerate(PAIRS)}
        distance = {pair: calibration["pairs"][pair] + beyond[pair] for pair in PAIRS}
        couple.append({
            "pedal": inverted_pair(PEDAL_BITS - pedal if second else pedal, distance["pedal"], second),
            "plate": inverted_pair(angle, distance["plate"], second),
            "load": turned(loads.pair(higher, beyond["load"]), second),
            "speed": turned([speed, speed + distance["speed"]], second),
            "used": used, "estimate": allowed + permit["threshold"] + second, "allowed": allowed})
    return couple


def put_raise(permit, couple, is_turned):
    """Gives both questions one raise, above what the table permits: to one with its check word, to the other with one that
    is wrong in a bit. What the other's table permits has the bits that the raise hasn't."""
    good, bad = reversed(couple) if is_turned else couple
    bits = (1 << RAISE.bit_length()) - 1
    raised = bits - least_permitted(permit, bad)
    if raised <= max(least_permitted(permit, question) for question in couple):
        raised += bits + 1
    good.update({"raise": raised, "check": WORD - raised})
    bad.update({"raise": raised, "check": WORD - raised ^ 1})


def filled(calibration):
    """The questions of a calibration with other numbers, and with their seeds and answers as they are."""
    old, permit, loads = calibration["question"], calibration["permit"], Loads(calibration)
    points, couples, new = len(permit["pedal"]) * len(permit["speed"]), (len(old) + 1) // 2, []
    for number in range(couples):
        couple = couple_of(calibration, number, number * points // couples, loads)
        put_raise(permit, couple, number % 2 == 1)
        new += couple
    return [{**question, **numbers} for question, numbers in zip(old, new)]
