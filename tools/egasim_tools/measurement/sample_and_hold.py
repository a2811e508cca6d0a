"""Sample and hold: of a channel the value of the last sample at or before the time of each tick, and what was done to it."""

from array import array
from fractions import Fraction
from types import SimpleNamespace

# What may become of samples and of values at ticks, in the order in which it is told.
NO_NUMBER, FALLING, SAME_TIME = "no number", "time falls", "same time"
BEFORE, BETWEEN, BEHIND = "before", "between", "behind"
TOO_OLD, ROUNDED, TOO_LOW, TOO_HIGH = "too old", "rounded", "too low", "too high"
NUMBERS = "H"  # what arrays of values hold: numbers from 0 to 65535, the most that a column takes
DISAGREE, NO_COMPLEMENT = "disagree", "no complement"


class Counts:
    """How often something was done, when it was done first, and how much of it was the most."""

    def __init__(self):
        self.of = {}

    def add(self, what, time, count=1, most=0):
        one = self.of.setdefault(what, SimpleNamespace(count=0, first=time, most=most))
        one.count, one.most = one.count + count, max(one.most, most)


class Grid:
    """The times of ticks, in nanoseconds: `start` is that of tick 0, and none is later than `last`, if there is one."""

    def __init__(self, start, tick, last=None):
        self.start, self.tick, self.last = start, tick, last

    def time(self, number):
        return self.start + number * self.tick

    def before(self, time):
        """How many ticks there are before this time."""
        if self.last is not None:
            time = min(time, self.last + 1)
        return max(0, -((self.start - time) // self.tick))


class Held:
    """A channel on the ticks of a grid."""

    def __init__(self, source, grid):
        self.source, self.grid, self.counts = source, grid, Counts()
        self.values, self.samples, self.last, self.said = array(NUMBERS), 0, None, {}
        self.gaps = []  # (first tick, tick behind the last) that were held too long

    def add(self, time, said):
        """A sample, at the time of the one before or later."""
        self.samples += 1
        if self.last is not None:
            self.hold(self.grid.before(time))
            self.count_unheld(time)
        self.last = time, said, len(self.values)

    def count_unheld(self, time):
        """Counts the last sample if no tick has it, since this one stands at `time`."""
        last, _, begin = self.last
        if len(self.values) > begin:
            return
        if time == last:
            self.counts.add(SAME_TIME, last)
        elif self.grid.last is not None and last > self.grid.last:
            self.counts.add(BEHIND, last)
        else:
            self.counts.add(BEFORE if time <= self.grid.start else BETWEEN, last)

    def hold(self, end):
        """Gives the ticks before `end` the value of the last sample."""
        begin, (time, said, _) = len(self.values), self.last
        if end <= begin:
            return
        value, error, beyond = self.taken(said)
        at, count = self.grid.time(begin), end - begin
        self.values.extend(array(NUMBERS, [value]) * count)
        if error:
            self.counts.add(ROUNDED, at, count, error)
        if beyond:
            self.counts.add(TOO_LOW if beyond < 0 else TOO_HIGH, at, count, abs(beyond))
        old = max(begin, self.grid.before(time + self.source.age + 1))
        if old < end:
            self.gaps.append((old, end))
            self.counts.add(TOO_OLD, self.grid.time(old), end - old, self.grid.time(end - 1) - time)

    def taken(self, said):
        """What a sample says, as it is written: the value, by how much it was rounded, and by how much it was clipped."""
        if said not in self.said:
            if len(self.said) > 100000:
                self.said.clear()
            self.said[said] = taken(self.source, said)
        return self.said[said]

    def finish(self, ticks):
        """Holds the last sample to the last tick, if it doesn't lie behind that."""
        self.hold(ticks)
        if len(self.values) == self.last[2]:
            self.counts.add(BEHIND, self.last[0])
        if self.source.is_edge:
            before = self.values[:1] + self.values[:-1]
            self.values = array(NUMBERS, [int(one > 0 and other <= 0) for one, other in zip(self.values, before)])


def taken(source, said):
    """The whole number of a sample, by how much it was rounded, and by how much it lies below 0 (negative) or above the
    most that the column takes."""
    exact = Fraction(said) * source.factor + source.offset
    if source.most is None:
        return int(exact <= source.at_most), 0, 0
    value = rounded(exact, source.round)
    kept = min(max(value, 0), source.most)
    return kept, abs(value - exact), value - kept


def rounded(exact, how):
    """A fraction as a whole number: down, up, or to the nearest one, and from the middle away from zero."""
    if how != "nearest":
        return exact.__floor__() if how == "down" else exact.__ceil__()
    nearest = (abs(exact) + Fraction(1, 2)).__floor__()
    return nearest if exact >= 0 else -nearest
