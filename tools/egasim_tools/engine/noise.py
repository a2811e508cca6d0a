"""Noise on what a partner of `couple` answers, as far as the unit's laws allow."""

import re
from random import Random

from egasim_tools.base.ranges import FULL, RAISE, SPEED, WORD
from egasim_tools.base.unit_rules import least_load

# The columns of an answer that are sensed, their places in it, and the greatest number of each.
SENSED = {"pedal": (0, FULL), "speed": (1, SPEED), "position": (5, FULL), "load1": (6, WORD), "load2": (7, WORD)}
LAST = (FULL, SPEED, RAISE, 1, 1, FULL, WORD, WORD, WORD)  # the greatest number of each field of an answer
TORQUE = 8
SEED_AND_SIGMA = re.compile(r"(\d{1,10}),(\d{1,5})(?:\.(\d{1,3}))?", re.A)
ANSWER = re.compile(r"\d{1,5},\d{1,5},\d{1,5},[01],[01],\d{1,5},\d{1,5},\d{1,5},\d{1,5}", re.A)


def numbers_in(line):
    """The nine numbers of an answer, or None where it isn't of that form and these ranges."""
    line = line.removesuffix("\n").removesuffix("\r")
    numbers = list(map(int, line.split(","))) if ANSWER.fullmatch(line) else None
    return numbers if numbers and all(one <= last for one, last in zip(numbers, LAST)) else None


class Noise:
    """Draws noise of the standard deviation SIGMA from SEED: a sum of twelve numbers that are as likely each, so at most
    six times SIGMA, and the same on each computer."""

    def __init__(self, word, kt):
        match = SEED_AND_SIGMA.fullmatch(word)
        self.draws, self.thousandths = Random(int(match[1])), int(match[2] + (match[3] or "").ljust(3, "0"))
        self.kt, self.cut = kt, dict.fromkeys(SENSED, 0)

    def drawn(self):
        total = sum(int(self.draws.random() * 65536) for _ in range(12))
        return ((2 * total - 12 * 65535) * self.thousandths + 65536000) // 131072000

    def added(self, line):
        """The answer with noise. One that isn't taken stays as it is, so that the unit refuses it."""
        numbers, draws = numbers_in(line), [self.drawn() for _ in SENSED]
        least = least_load(self.kt, numbers[TORQUE]) if numbers else 0
        if not numbers or min(numbers[place] for place in (6, 7)) < least:
            return line
        for (column, (place, last)), more in zip(SENSED.items(), draws):
            wanted = numbers[place] + more
            numbers[place] = min(last, max(least if column.startswith("load") else 0, wanted))
            self.cut[column] += numbers[place] != wanted
        return ",".join(map(str, numbers)) + "\n"

    def note(self):
        """How often the noise was cut off."""
        cut = [f"{column} {count}" for column, count in self.cut.items() if count]
        return f"the noise was cut off by the laws {sum(self.cut.values())} times{': ' if cut else ''}{', '.join(cut)}"
