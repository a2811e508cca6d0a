"""The least limits by which no drive of a campaign, and no recording, is cut, for each threshold and each ramp; and times
that fit.

What the limits come to isn't tried out: with limits that are never reached the program tells the greatest weight of each
run, and a watch finds something exactly if its weight reaches its limit. So one more than the greatest weight is the least
limit, of each threshold and ramp that is played."""

import io
import itertools
import os
import sys
from concurrent.futures import ThreadPoolExecutor
from dataclasses import dataclass, field

from egasim_tools.base.files import read
from egasim_tools.base.program import note_in, run
from egasim_tools.base.records import drive_of, limits_in, record_of, rows_in
from egasim_tools.base.tool import TOOL, as_noted, fail
from egasim_tools.calibration.key_edits import with_ramp
from egasim_tools.calibration.number_edits import parsed, with_numbers
from egasim_tools.calibration.parameters import WATCHES
from egasim_tools.calibration.right_answers import with_answers
from egasim_tools.evidence.conclusive_runs import Shown, recording_shown, where
from egasim_tools.report.verdicts import WITHOUT_LAPSES, held_of, is_on_first_ramp
from egasim_tools.study.campaigns import runs_of_campaign

OPEN = 10000  # a limit that is never reached, and the greatest that a file may have
PAIRS = [watch for watch, table in WATCHES.items() if table == "pairs"]
LEAST_PERIOD, MOST_PERIOD = 2, 100
TIMES = ("period", "first", "last", "send", "limit")  # keys of the table `answers`
NO_BOUND = f"under lapses no bound holds with a ramp ({WITHOUT_LAPSES})"


@dataclass
class Row:
    """What one threshold comes to, with a ramp or without."""

    threshold: int
    fall: int | None = None  # 0 without a ramp; None where there is no ramp to name
    held: int = 0  # the ramp's ticks that count, before a held torque is an excess
    weight: int = 0  # the greatest of the torque
    pairs: int = 0  # the greatest of a pair
    binds: str = ""  # the drive that has it
    limit: int = 0
    pairs_limit: int = 0
    tick: int | None = None  # by the limit `weight` the drive would be cut there
    weights: dict = field(default_factory=dict)  # of each drive
    times: dict = field(default_factory=dict)  # keys of the table `answers`
    limits: dict = field(default_factory=dict)  # what `limits` tells by this row's calibration
    hindrance: str = ""  # why no times fit
    far: tuple = ()  # by how much they don't; the least is the nearest
    within: str = ""  # the drive that ends within an excess, and where, so that its greatest weight isn't known

    def said(self):
        return f"threshold {self.threshold}{f', fall {self.fall}' if self.fall else ''}"

    def lasts(self):
        """The ticks that are compared with those that are left: an excess, and with a ramp those from the fall of the demand on."""
        return int(self.limits["stretch"]) + self.held

    def judged(self):
        return self.hindrance or "fits"


class Search:
    """A calibration to start from, and what is to be let through, with all that is asked of the result."""

    def __init__(self, asked, room):
        self.asked, self.room, self.name, self.is_ended = asked, room, asked.cal, False
        self.test = int(self.limits_by(asked.cal)["test"])  # so that whatever is wrong with the file is told by its name
        self.text = read(asked.cal).decode()
        self.start, self.numbers = parsed(asked.cal, self.text), itertools.count(1)
        self.drives, self.traces, self.beyond = asked.drives, {}, {}
        if self.start["permit"].get("fall") == 0:
            fail(f"{asked.cal}: by permit.fall = 0 the permitted torque never falls: the opposite of no ramp, by which it falls at once "
                 "(version = 2, without that key)")

    # The program

    def put(self, text):
        """A file of this text, by a name of its own."""
        path = os.path.join(self.room, f"{next(self.numbers)}.toml")
        with open(path, "w", encoding="utf-8", newline="") as file:
            file.write(text)
        return path

    def call(self, *words, given=None):
        """What a command prints, whether or not the drives are cut. With --verbose it is told as it could be typed."""
        if self.asked.verbose:
            print(as_noted(f"{TOOL}: egasim {' '.join(words)}{f' <{given}' if given else ''}"), file=sys.stderr)
        if self.is_ended:
            fail("the search has ended")
        done = run(words, read(given) if given else b"")
        if done.returncode:
            fail(f"egasim {words[0]}: {note_in(done, {'standard input': given} if given else {})}")
        return done.stdout.decode()

    def limits_by(self, path):
        return limits_in(self.call("limits", "--cal", path))

    def weights_by(self, path):
        """The greatest weights of each run and each recording by a calibration: {name: {watch: weight}}."""
        told = {}
        if self.drives:
            for row in rows_in(self.call("margins", "--cal", path, self.drives)):
                if row["class"] not in ("none", "lapse"):
                    fail(f"{self.drives}: {row['run']} has a fault; drives that are to be let through have none, or a lapse")
                told[row["run"]] = {watch: int(row[watch]) for watch in [*PAIRS, "torque"]}
        told |= {name: {watch: weight for watch, (weight, _) in shown.weights.items()} for name, shown in self.recordings_by(path).items()}
        return told

    def recordings_by(self, path):
        return {name: recording_shown(self.call("replay", "--cal", path, given=name)) for name in self.asked.recordings}

    def shown_by(self, path):
        """What each run and each recording shows by a calibration. One that shows nothing of its drive ends the search."""
        rows = rows_in(self.call("table", "--cal", path, self.drives)) if self.drives else []
        runs = runs_of_campaign(self.drives) if rows else {}
        told = {row["run"]: Shown(row, {}, *self.drive(runs[row["run"]]["trace"]), run=runs[row["run"]], test=self.test) for row in rows}
        told |= self.recordings_by(path)
        for name, shown in told.items():
            why = shown.idle() or shown.unseen()
            if why and not shown.row["first"]:
                fail(f"{f'{self.drives}: ' if name in runs else ''}{name} shows nothing of its drive: {why}")
        return told

    def drive(self, trace):
        """How many ticks a trace has, and those at which it resets the unit; each trace is read once."""
        self.traces[trace] = self.traces.get(trace) or drive_of(trace)
        return self.traces[trace]

    def cuts_by(self, path):
        """What is found first in each run and in each recording: {name: (watch, tick) or None}."""
        return {name: (shown.row["first"], int(shown.row["first_at"])) if shown.row["first"] else None
                for name, shown in self.shown_by(path).items()}

    def beyond_by(self, path, name, fall):
        """By how much the torque lies above what is permitted at the ticks of a run, or of a recording, by limits that are never
        reached; each is asked for once, since a threshold alone changes nothing of that."""
        if (name, fall) not in self.beyond:
            if name in self.asked.recordings:
                rows = rows_in(self.call("signals", "--cal", path, given=name))
                self.beyond[name, fall] = [int(row["actual"]) - int(row["permitted"]) for row in rows]
            else:
                record = record_of(name, io.StringIO(self.call("record", "--cal", path, self.drives, name)))
                self.beyond[name, fall] = [torque - limit for torque, limit in zip(record["torque"], record["limit"])]
        return self.beyond[name, fall]

    def within_of(self, path, row):
        """The first drive that ends within an excess by a row's threshold, and where; empty if none does."""
        for name, shown in self.shown_by(path).items():
            if shown.row["first"]:
                fail(f"{name}: {shown.row['first']} finds something at {shown.row['first_at']} by the {row.said()}, whatever the limits are")
            shown.excess = lambda name=name: where(beyond > row.threshold for beyond in self.beyond_by(path, name, row.fall))
            if shown.within() is not None:
                return f"{name} ends within an excess, at {shown.within()}"
        return ""

    # A threshold

    def text_with(self, row, limit, pairs_limit, times=None):
        numbers = {("permit", "threshold"): row.threshold, ("torque", "limit"): limit, ("pairs", "limit"): pairs_limit}
        numbers |= {("answers", key): number for key, number in (times or {}).items()}
        text = self.text if row.fall == self.start["permit"].get("fall") else with_ramp(self.name, self.text, row.fall)
        return self.with_answers(with_numbers(self.name, text, numbers))

    def with_answers(self, text):
        return with_answers(self.name, text, lambda text: self.call("answers", self.put(text)))

    def least_of(self, weight):
        """The least limit that lets this weight through and leaves the room that is asked."""
        return max(weight + 1, -(-weight * 100 // (100 - self.asked.room)))

    def row_of(self, threshold, fall):
        """What a threshold comes to, and a ramp: the weights by open limits, the least limits, and times that fit."""
        row = Row(threshold, fall)
        path = self.put(self.text_with(row, OPEN, OPEN))
        row.held, row.weights = held_of(self.limits_by(path), self.asked.said), self.weights_by(path)
        row.within = self.within_of(path, row)
        row.weight = max(weights["torque"] for weights in row.weights.values())
        row.pairs = max(weights[pair] for weights in row.weights.values() for pair in PAIRS)
        row.limit = self.least_of(row.weight)
        row.pairs_limit = max(self.start["pairs"]["limit"], self.least_of(row.pairs))
        if max(row.limit, row.pairs_limit) > OPEN:
            fail(f"{row.said()}: a weight of {max(row.weight, row.pairs)} needs a limit above {OPEN}")
        self.bind(row)
        self.fit(row)
        return row

    def bind(self, row):
        """Which drive binds, and where: by a limit that is its weight the program cuts it, and tells the tick."""
        if not row.weight:
            return
        row.binds = next(name for name, weights in row.weights.items() if weights["torque"] == row.weight)
        found = self.cuts_by(self.put(self.text_with(row, row.weight, OPEN)))[row.binds]
        if not found or found[0] != "torque":
            fail(f"{row.binds}: the limit {row.weight} should cut it by the {row.said()}, and doesn't")
        row.tick = found[1]

    # Times

    def fit(self, row):
        """Finds the longest period by which an excess ends in time, and misses are tolerated as asked; where there is none,
        the one that comes nearest."""
        own, tries = {key: self.start["answers"][key] for key in TIMES}, []
        for times in [own] if self.asked.keep_times else self.times_for(row):
            limits = self.limits_by(self.put(self.text_with(row, row.limit, row.pairs_limit, times)))
            hindrance, far = self.hindrance_of(row, limits)
            tries.append((far, hindrance, limits, times))
            if hindrance in ("", NO_BOUND, row.within):
                break
        row.far, row.hindrance, row.limits, row.times = min(tries, key=lambda one: one[0])

    def times_for(self, row):
        """The times that may fit, the longest period first; where none does, those of the least period."""
        answers, wrong = self.start["answers"], 2 * self.asked.misses + 1
        up, lead = answers["up"], answers["send"] - answers["first"]
        confirms = -(-row.limit // self.start["torque"]["up"])  # D
        longest = min(MOST_PERIOD, (self.asked.left - row.held - confirms + 1) // wrong)
        for period in range(max(longest, LEAST_PERIOD), LEAST_PERIOD - 1, -1):
            last = period - 1
            yield {"period": period, "first": max(0, last - lead), "last": last, "send": last, "limit": wrong * up}

    def hindrance_of(self, row, limits):
        """Which number keeps these times from fitting, or nothing; and by how much, so that fewer are nearer."""
        left, spacing, asks_lapses = self.asked.left, self.asked.spacing, WITHOUT_LAPSES not in self.asked.said
        lasts = int(limits["stretch"]) + row.held
        if row.within:
            return row.within, (4, 0)
        if lasts > left:
            return f"{'with the ramp' if row.held else 'stretch'} {lasts} is above {left}", (3, lasts - left)
        if asks_lapses and limits["missed"] == "none":
            return NO_BOUND, (2, 0)
        if asks_lapses and int(limits["missed"]) + row.held > left:
            return f"under lapses {int(limits['missed']) + row.held} is above {left}", (1, int(limits["missed"]))
        if spacing is not None and (limits["spacing"] == "none" or int(limits["spacing"]) > spacing):
            return f"spacing {limits['spacing']} is above {spacing}", (1, 0)
        return "", (0, 0)

    # All thresholds and ramps

    def rows(self):
        """The rows of all thresholds, of each those of all ramps, played side by side."""
        ramps = self.asked.ramps or [self.start["permit"].get("fall")]
        thresholds, falls = zip(*itertools.product(self.asked.thresholds, ramps))
        with ThreadPoolExecutor(os.cpu_count() or 1) as pool:
            rows = []
            try:
                for row in pool.map(self.row_of, thresholds, falls):
                    rows.append(row)
                    self.tell_progress(len(rows), len(thresholds))
            finally:
                self.is_ended = len(rows) < len(thresholds)  # and no row that is begun calls the program once more
            return rows

    def on_first_ramp(self, rows):
        """Of each recording that binds at a tick at which a ramp from before it may go on, the first row that it binds."""
        rows = [row for row in rows if row.fall and row.binds in self.asked.recordings and is_on_first_ramp(row.tick, row.limits)]
        return {row.binds: row for row in reversed(rows)}

    def tell_progress(self, done, total):
        if sys.stderr.isatty() and not self.asked.verbose:
            print(f"\r{TOOL}: {done} of {total} rows", end="\n" if done == total else "", file=sys.stderr, flush=True)


def is_on_front(row, rows):
    """Whether no other row has less threshold and lasts less, one of them truly less."""
    here, there = (row.threshold, row.lasts()), [(other.threshold, other.lasts()) for other in rows]
    return not any(other != here and other[0] <= here[0] and other[1] <= here[1] for other in there)
