"""Campaigns as text: those that grow as long as the program takes them, and one run under classes of faults."""

import sys

from egasim_tools.base.ranges import CAMPAIGN_TICKS, RUNS
from egasim_tools.base.toml import toml_of, toml_text
from egasim_tools.base.tool import TOOL, fail
from egasim_tools.study.plan import FAULTS

MOST_BYTES = 4000000  # of a campaign


class Campaign:
    """A campaign that grows by runs as long as it keeps the limits."""

    def __init__(self):
        self.texts, self.rows, self.inputs, self.ticks, self.bytes = [], [], {}, 0, 0  # inputs in the order of their use

    def has_room(self, text, ticks):
        return (len(self.texts) < RUNS and self.ticks + ticks <= CAMPAIGN_TICKS
                and self.bytes + len(text) <= MOST_BYTES)

    def add(self, text, row, inputs, ticks):
        self.texts.append(text)
        self.rows.append(row)
        self.inputs.update(dict.fromkeys(inputs))
        self.ticks += ticks
        self.bytes += len(text)


def run_text(run):
    return f"[[run]]\n{keys_text(run)}"


def keys_text(keys):
    """The lines of keys of a run; one whose value is None isn't there."""
    return "".join(f"{key} = {toml_text(value)}\n" for key, value in keys.items() if value is not None)


def runs_of_campaign(campaign):
    """The runs of a campaign file, by their names, in its order."""
    runs = toml_of(campaign).get("run", [])
    if not isinstance(runs, list) or not all(isinstance(run, dict) for run in runs):
        fail(f"{campaign} is no campaign: its runs stand in [[run]]")
    return {run.get("name"): run for run in runs}


def files_of_campaign(campaign):
    """A campaign file, and the traces and images that its runs name, each once."""
    named = [run.get(key) for run in runs_of_campaign(campaign).values() for key in ("trace", "image")]
    return list(dict.fromkeys([campaign, *(name for name in named if isinstance(name, str))]))


def run_of(campaign, name):
    """The run of this name in a campaign file."""
    return runs_of_campaign(campaign).get(name) or fail(f"{campaign} has no run {name}")


def runs_under_faults(campaign, name, kinds, places):
    """The texts of one run of a campaign file under each of these classes, at each of these onsets."""
    base = {key: value for key, value in run_of(campaign, name).items() if key not in ("name", "faults")}
    if len(kinds) * len(places) > RUNS:
        print(f"{TOOL}: writes {len(kinds) * len(places)} runs; the program takes {RUNS} of a campaign at most",
              file=sys.stderr, flush=True)
    for kind in kinds:
        for onset in places:
            fault = {"class": kind, "onset": onset, **FAULTS[kind]}
            yield run_text({"name": f"{kind}-{onset}", **base, "faults": [fault]})
