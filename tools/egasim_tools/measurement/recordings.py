"""Recorded readings of a coupled run: what the tracks read at each tick, under the run's fault too."""

import itertools
import os

from egasim_tools.base.unit_rules import readings_of

HEADER = "pedal1,pedal2,plate1,plate2,load1,load2,speed1,speed2,raise,check,brake1,brake2\n"
ON_LEVEL_2 = ("skip", "disturb", "flip", "halt", "lapse")  # classes under which a replay doesn't tell what level 2 told


def pieces_of(name):
    """The files NAME-2.csv, NAME-3.csv and so on, as far as they are there beside NAME.csv."""
    return list(itertools.takewhile(os.path.lexists, (piece_of(name, number) for number in itertools.count(2))))


def piece_of(name, number):
    """The name of the file of the drive span of this number, from 1 on."""
    root, ending = os.path.splitext(name)
    return name if number == 1 else f"{root}-{number}{ending}"


class Spans:
    """The drive spans of a run, by its rows: tick 0 and a passed test begin one, a reset ends it. A test is passed if no
    path conducts at its tick `test`."""

    def __init__(self, test):
        self.test, self.begin, self.is_driven, self.has_passed = test, 0, True, False

    def begins(self, tick, is_reset, conducts):
        """Whether a drive span begins at this tick, the next one; `is_driven` then says whether it is of one."""
        begins = tick == 0 and not is_reset or self.has_passed and not is_reset
        if is_reset:
            self.begin = tick
        self.is_driven = begins or self.is_driven and not is_reset
        self.has_passed = not self.is_driven and tick == self.begin + self.test and not conducts
        return begins


class Recording:
    """The readings of each drive span, a file for each: NAME.csv, NAME-2.csv and so on."""

    def __init__(self, name, fault, test):
        self.name, self.fault, self.spans = name, fault, Spans(test)
        self.ticks, self.texts = [], []

    def add(self, tick, answer, row):
        """Takes a tick: its answer, and the row that the unit made of it."""
        if self.spans.begins(tick, answer[3] == 1, row["path1"] == "1" or row["path2"] == "1"):
            self.ticks.append([tick, tick])
            self.texts.append([HEADER])
        if self.spans.is_driven:
            self.ticks[-1][1] = tick
            self.texts[-1].append(",".join(map(str, readings_of(answer, self.fault, tick))) + "\n")

    def files(self):
        """The name and the text of each file."""
        for number, text in enumerate(self.texts, 1):
            yield piece_of(self.name, number), "".join(text)

    def notes(self, ticks):
        """What a file has, if that isn't each tick of the run; and from where on a replay may tell something else."""
        for (name, _), (first, last) in zip(self.files(), self.ticks):
            if (first, last) != (0, ticks - 1):
                yield f"{name} has the ticks {first} to {last} of the run, a drive span"
        if not self.texts:
            yield f"{self.name} wasn't written: the run has no drive span"
        for piece in pieces_of(self.name)[max(len(self.texts) - 1, 0):]:
            yield f"{piece} was there before, and is no part of this recording"
        if self.fault and self.fault["class"] in ON_LEVEL_2 and self.fault["onset"] < ticks:
            yield (f"{self.fault['class']} touches level 2: from tick {self.fault['onset']} of the run on a replay may tell what "
                   "level 2 doesn't")
