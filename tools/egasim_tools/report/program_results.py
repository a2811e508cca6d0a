"""What the program printed of a campaign, as a page shows it. A page is a function of this, and calls nothing."""

import re
from dataclasses import dataclass, field

from egasim_tools.base.units import Units

MOST_SWEEPS = 20  # of a page
MOST_NEAR, MOST_DRAWN = 10, 50  # runs that are drawn: that came nearest to a cut, and in all
SWEPT = re.compile(r"([a-z0-9-]+): runs (\d+); (.*); reaction (\d+|none)")
SOUND = re.compile(r"^[ \t]*#[ \t]*sound:(.*)$", re.M)  # a comment of a campaign, with names of runs


class Swept:
    """A sweep: its run, the runs with the same drive, image, engine and slices, its step, and a row for each class."""

    def __init__(self, runs, step, lines):
        self.runs, self.step = runs, step
        matches = [SWEPT.fullmatch(line) for line in lines[:-1]]
        self.counts = {match[1]: {"runs": match[2], **dict(part.split() for part in match[3].split("; "))}
                       for match in matches}
        self.reactions = {match[1]: None if match[4] == "none" else int(match[4]) for match in matches}


@dataclass
class Played:
    """What the program printed of a campaign, and of the files that its calls read."""

    campaign: str
    calibration: str | None
    units: Units
    date: str
    version: list  # the lines of --version
    limits: dict
    coverage: list
    rows: list  # of `table`
    margins: list
    runs: dict  # tables of the campaign by their names
    sound: list  # names of the runs whose drive is sound
    ticks: dict  # how many a run's drive has
    resets: dict  # those at which it resets the unit
    threshold: int
    has_ramp: bool
    weights: dict  # the limits of the watches' weights
    torque_weights: list  # up, down and limit of the excess of torque
    pairs: dict  # of the calibration
    blind: list  # what the questions don't exercise, in words
    taken: dict  # how long the runs of each class take until something is found
    documents: dict  # texts of docs/ by their names
    drawn: list = field(default_factory=list)  # the runs whose pictures stand in the page
    records: dict = field(default_factory=dict)  # of these, and of the sound ones
    sweeps: list = field(default_factory=list)
    left: int = 0  # groups of runs that would be swept if there weren't so many
    not_asked: list = field(default_factory=list)  # of each group that isn't swept since its drive is sound, a run
    drives: dict = field(default_factory=dict)  # what mustn't be cut: sound runs, and recordings
    coupled: dict = field(default_factory=dict)  # records of coupled runs
    replayed: dict = field(default_factory=dict)  # what `replay` prints of recordings, as lines
    commands: list = field(default_factory=list)  # each call, and the checksum of what it printed
    sums: dict = field(default_factory=dict)  # size, checksum and path of each file by its name
    kept: str | None = None  # the folder of the kept calls, if there is one, with its checksum

    def groups(self):
        return groups_of(self.runs)


def groups_of(runs):
    """The names of runs that differ in their faults alone."""
    groups = {}
    for name, run in runs.items():
        alike = (run["trace"], run["image"], run.get("engine", "gasoline"), str(run.get("slices")))
        groups.setdefault(alike, []).append(name)
    return groups.values()


def drawn_runs(played):
    """The runs whose pictures stand in the page: those that were declared sound, those that are cut, and of the others the ten
    that came nearest to a cut; in the order of the table, and fifty at most, those that come first here."""
    cut = [row["run"] for row in played.rows if row["cut"] or row["off_at"]]
    nearness = {row["run"]: max(int(row[watch]) / limit for watch, limit in played.weights.items()) for row in played.margins}
    others = [name for name in nearness if name not in {*played.sound, *cut}]
    nearest = sorted(others, key=nearness.get, reverse=True)[:MOST_NEAR]
    chosen = set(list(dict.fromkeys([*played.sound, *cut, *nearest]))[:MOST_DRAWN])
    return [row["run"] for row in played.rows if row["run"] in chosen]


def sounds_in(text):
    """The runs that comments of a campaign declare sound."""
    return [name for names in SOUND.findall(text) for name in names.split()]
