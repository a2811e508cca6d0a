"""Which runs and recordings can show what a verdict of report, find or judge rests on, and why others can't."""

import re
from dataclasses import dataclass, field

from egasim_tools.base.records import rows_in
from egasim_tools.base.unit_rules import spans_of
from egasim_tools.base.units import Units

FOUND = re.compile(r"(pedal|plate|load|speed|torque) (?:none|at (\d+)); greatest (\d+) of (\d+)")


def cut_by(row, units=Units()):
    """What cuts a run of `table`, or limits its pedal; None if nothing does."""
    if row["cut"]:
        return f"by {row['cut']} at {units.ticks(row['cut_at'])}"
    if row["off_at"]:
        return f"off at {units.ticks(row['off_at'])}"
    limits = "kept off" if row["first"] == "start" else "limited"
    return f"{limits} by {row['first']} at {units.ticks(row['first_at'])}" if row["first"] else None


@dataclass
class Shown:
    """What a run or a recording shows: its row of `table`, what each watch weighs, of which limit; the ticks of its drive,
    those at which that resets the unit, those with an excess, and why it doesn't show how long its longest excess lasts;
    the run as its campaign has it, and the tick of a start-up test at which that is passed or has failed."""
    row: dict
    weights: dict = field(default_factory=dict)
    ticks: int = 0
    resets: tuple = ()
    excess: object = frozenset  # is called only where the row leaves it open whether an excess stands at an end
    hidden: str = ""
    run: dict = field(default_factory=dict)
    test: int = 0

    # Whether it shows anything

    def idle(self, stops=True):
        """Why it shows nothing of a drive; None if it shows something. A level 1 that traps may count or not."""
        if self.row["trap"] and stops:
            return f"its level 1 traps at {self.row['trap_at']}"
        if not self.row["last_on"]:
            return "its stages are on at no tick"
        if self.ticks == 1:
            return "it has a single tick"
        return None if self.executes() else "its level 1 executes nothing"

    def executes(self):
        """Whether level 1 may execute an instruction at some tick, by the run's slices."""
        slices = self.run.get("slices")
        return not slices or any(map(any, slices[:self.ticks]))

    def unseen(self):
        """Why nothing is shown of its fault; None if something is, or if it has none."""
        if self.row["acted"] == "0":
            return "its fault never acts"
        ends = {tick - 1 for tick in (*self.resets, self.ticks)}
        if self.row["class"] != "none" and all(tick in ends for tick in self.acting()):
            return "no tick of the power cycle follows its fault"
        return None

    def acting(self):
        """The ticks at which its fault acts (docs/CONCEPT.md, "Faults")."""
        fault, onset = (self.run.get("faults") or [{}])[0], int(self.row["onset"])
        if "after" not in fault:
            return range(onset, onset + 1 if self.row["class"] == "flip" else self.ticks)
        every, after = fault.get("every", 0), set(fault["after"])
        return (tick for tick in range(onset, self.ticks) if ((tick - onset) % every if every else tick - onset) in after)

    def too_soon(self):
        """Why it ends too soon to show what comes of its last excess, or of its fault; None if it doesn't."""
        said, within = "it ends too soon", self.within()
        if self.row["settled"] == "0":
            return said
        if within is not None:
            where = "its last tick" if within == self.ticks - 1 else "right before a reset"
            return f"{said}: at {within}, {where}, there is an excess"
        if self.row["class"] != "none" and self.is_in_test(self.ticks - 1):
            return f"{said}: a start-up test is running at its last tick"
        return None

    def within(self):
        """The first tick with an excess that is the last of a power cycle with the stages on; None if there is none."""
        ends = [tick - 1 for tick in (*self.resets, self.ticks) if 0 < tick <= int(self.row["last_on"] or -1) + 1]
        excess = self.excess() if ends and self.row["stretch"] != "0" else ()
        return next((tick for tick in ends if tick in excess), None)

    def unfit(self):
        """Why it shows nothing of a drive that mustn't be cut, or too little; None if it shows that."""
        return self.idle() or self.unseen() or self.too_soon()

    # What cuts it, and when

    def is_in_test(self, tick):
        """Whether a start-up test is running at a tick."""
        return any(first <= tick < end and is_test for first, end, is_test in spans_of(self.resets, self.ticks, self.test))

    def is_late(self):
        """Whether the fault comes when the stages are off for good, so that the run shows nothing of it."""
        return bool(self.row["onset"] and self.row["cut"]
                    and max(int(self.row["cut_at"]), int(self.row["last_on"] or -1)) < int(self.row["onset"]))

    def is_after_the_cut(self):
        """Whether the fault comes after the first cut: for good, or in a later power cycle."""
        cut_at, onset = int(self.row["cut_at"] or 0), int(self.row["onset"] or 0)
        return self.is_late() or bool(self.row["cut"]) and any(cut_at < reset <= onset for reset in self.resets)

    def mirrors_in_test(self):
        """Whether what the table has for the first cut is a mirror in a start-up test, which cuts no drive."""
        return self.row["cut"] == "mirror" and self.is_in_test(int(self.row["cut_at"]))

    def cut_said(self):
        """What cuts it, whatever limits its pedal; None if nothing does."""
        first = self.row["first"] if self.row["first"] == "start" else ""
        return cut_said({**self.row, "first": first, **({"cut": ""} if self.mirrors_in_test() else {})})


def cut_said(row):
    """What cuts a run, or limits its pedal."""
    why = cut_by(row)
    return f"it is {'cut ' if row['cut'] else ''}{why}" if why else None


def recording_shown(text, excess=frozenset):
    """What `replay` tells of a recording, in columns of `table`. In the unit the stages would go off a tick after the trip."""
    lines = text.splitlines()
    ticks = int(lines[0].split()[1])
    matches = [FOUND.fullmatch(line) for line in lines[1:6]]
    found = sorted((int(match[2]), place, match[1]) for place, match in enumerate(matches) if match[2])
    trip = lines[6].split()[-1]
    cut = next((watch for tick, _, watch in found if watch != "pedal" and str(tick) == trip), "")
    row = dict.fromkeys(("acted", "onset", "first", "first_at", "cut", "cut_at", "off_at", "confirmed", "settled", "trap"), "")
    row |= {"class": "none", "last_on": str(ticks - 1), "stretch": lines[7].split()[1]}
    row |= {"cut": cut, "cut_at": trip, "off_at": str(int(trip) + 1)} if cut else {}
    row |= {"first": found[0][2], "first_at": str(found[0][0])} if found else {}
    weights = {match[1]: (int(match[3]), int(match[4])) for match in matches}
    return Shown(row, weights, ticks, (), excess, f"{cut} trips at {trip}, and from there on a replay tells no excess" if cut else "")


def where(values):
    """The ticks, from 0 on, at which values are true."""
    return {tick for tick, value in enumerate(values) if value}


def excess_in_signals(text):
    """The ticks of a recording with an excess."""
    return where(row["excess"] == "1" for row in rows_in(text))
