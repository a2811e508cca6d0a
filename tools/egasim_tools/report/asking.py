"""The calls of the program that a page is made of, and the checksums of all that goes into the page."""

import datetime
import io
import os
import shlex
import sys

from egasim_tools.base.files import TOOLS, TOP, read, sum_of, text_in
from egasim_tools.base.inputs import Inputs
from egasim_tools.base.program import asked_version, printed_by, program, version_lines
from egasim_tools.base.ranges import CAMPAIGN_TICKS, RUNS
from egasim_tools.base.records import drive_of, limits_in, record_of, rows_in
from egasim_tools.base.toml import toml_in
from egasim_tools.base.tool import fail
from egasim_tools.base.unit_rules import answer_of, spans_of
from egasim_tools.base.units import beside, units_of
from egasim_tools.calibration.parameters import calibration_of, has_ramp, threshold_of, torque_weights_of, weight_limits_of
from egasim_tools.calibration.question_coverage import cover_of, missing
from egasim_tools.evidence.conclusive_runs import Shown, excess_in_signals, recording_shown, where
from egasim_tools.evidence.detection import taken_by_class
from egasim_tools.evidence.run_results import excess_of
from egasim_tools.report.program_results import MOST_SWEEPS, Played, Swept, drawn_runs, sounds_in

DOCUMENTS = ("SAFETY.md", "EVIDENCE.md", "PROVED.md", "FORMATS.md")  # of which parts stand in a page


class Asking(Inputs):
    """Calls of the program about a campaign. Of whatever is refused its note is told, and there is no report."""

    def __init__(self, campaign, calibration):
        super().__init__()
        self.campaign, self.calibration, self.commands = campaign, calibration, []

    def played(self, sound, sweeps_sound, tick=None):
        """What the program prints of the campaign, and of each declared sound run."""
        called = program()  # which builds it, if need be, before --version looks for it
        asked = asked_version()
        self.add_files(called)
        held = calibration_of(self.calibration)
        limits, coverage = limits_in(self.call("limits")), self.table("coverage")
        rows, margins = self.table("table", self.campaign), self.table("margins", self.campaign)
        text = text_in(self.campaign, read(self.campaign))
        runs = {run["name"]: run for run in toml_in(self.campaign, text)["run"]}
        self.add_sums(sorted({run[key] for run in runs.values() for key in ("trace", "image")}))
        drives = {trace: drive_of(trace) for trace in {run["trace"] for run in runs.values()}}
        ticks, resets = ({name: drives[run["trace"]][place] for name, run in runs.items()} for place in (0, 1))
        played = Played(
            self.campaign, self.calibration, units_of(tick, [self.calibration]),
            datetime.datetime.now(datetime.timezone.utc).strftime("%Y-%m-%d %H:%M UTC"), version_lines(asked=asked), limits, coverage,
            rows, margins, runs, declared(self.campaign, runs, [*sound, *sounds_in(text)]), ticks, resets,
            threshold_of(self.calibration, held), has_ramp(held), weight_limits_of(self.calibration, held),
            torque_weights_of(self.calibration, held), held["pairs"], blind_for(held),
            taken_until_found(held, limits, coverage, rows, ticks, resets),
            {name: document(name) for name in DOCUMENTS}, commands=self.commands, sums=self.sums)
        played.drawn = drawn_runs(played)
        played.records = {name: self.record(name) for name in runs if name in {*played.drawn, *played.sound}}
        self.add_sweeps(played, sweeps_sound)
        played.drives = {name: shown(played, name) for name in played.sound}
        return played

    def add_files(self, called):
        """The files of the call, and the tool's own."""
        units = beside(self.calibration) if self.calibration else None
        for name in [called, *(name for name in (self.calibration, units, self.campaign) if name)]:
            self.add_sum(name)
        for name in own_files(self.calibration):
            self.add_sum(name, os.path.join(TOP, name))

    def add_sweeps(self, played, sweeps_sound):
        """Sweeps a run of each group, but a sound one only if this is wanted."""
        groups = [(runs, not sweeps_sound and bool(set(runs) & set(played.sound))) for runs in played.groups()]
        played.not_asked = [runs[0] for runs, is_left_out in groups if is_left_out]
        swept = [runs for runs, is_left_out in groups if not is_left_out]
        played.left = max(0, len(swept) - MOST_SWEEPS)
        for runs in swept[:MOST_SWEEPS]:
            step = step_of(played.ticks[runs[0]], len({row["class"] for row in played.coverage}))
            played.sweeps.append(Swept(runs, step, self.call("sweep", self.campaign, runs[0], str(step)).splitlines()))

    def add_others(self, played, coupled, recordings):
        """Takes records of coupled runs, and what level 2 finds in recorded readings."""
        for name in [*coupled, *recordings]:
            self.add_sum(name)
        played.coupled = {name: record_of(name, text_in(name, read(name)).splitlines()) for name in coupled}
        for name, record in played.coupled.items():
            if record["tick"][0]:
                fail(f"{name} begins at tick {record['tick'][0]}; the whole record is needed")
        for name in recordings:
            text = self.call("replay", given=name)
            played.replayed[name], played.drives[name] = text.splitlines(), recording_shown(text, self.excess_at_end(name, text))

    def excess_at_end(self, name, text):
        """The ticks of a recording with an excess, asked for where `replay` leaves it open whether it ends within one."""
        found = recording_shown(text)
        if found.row["cut"] or found.row["stretch"] == "0":
            return frozenset
        ticks = excess_in_signals(self.call("signals", given=name))
        return lambda: ticks

    def files(self):
        """The files of the call: not the program, nor the tool's own files."""
        return [name for name, (_, _, path) in self.sums.items() if name == path != program()]

    def call(self, command, *words, given=None):
        """What a command prints, with a file as standard input if one is given. It is noted with the checksum of that."""
        calibration = ["--cal", self.calibration] if self.calibration else []
        text = printed_by(command, *calibration, *words, readings=given)
        called = shlex.join(["egasim", command, *calibration, *words]) + (f" <{shlex.quote(given)}" if given else "")
        self.commands.append((called, sum_of(text.encode())))
        return text

    def table(self, *words):
        return rows_in(self.call(*words))

    def record(self, name):
        return record_of(name, io.StringIO(self.call("record", self.campaign, name)))


def declared(campaign, runs, names):
    """The runs that are declared sound, in the campaign's order."""
    for name in names:
        if name not in runs:
            fail(f"{campaign} has no run {name}, which is declared sound")
        if any(fault.get("class") != "lapse" for fault in runs[name].get("faults", [])):
            fail(f"{name} is declared sound, and has a fault")
    return [name for name in runs if name in names]


def blind_for(calibration):
    """What the questions of the calibration don't exercise."""
    for number, question in enumerate(calibration["question"]):
        if answer_of(calibration, question) != question["answer"]:
            fail(f"answer {number} isn't what this tool works out")
    return list(missing(cover_of(calibration)))


def taken_until_found(calibration, limits, coverage, rows, ticks, resets):
    """How long the runs of each class of fault take until something is found."""
    answers, test = calibration["answers"], int(limits["test"])
    spans = {name: list(spans_of(resets[name], ticks[name], test)) for name in ticks}
    return taken_by_class(rows, coverage, (answers["first"], answers["last"]), spans)


def shown(played, name):
    """What a run shows (egasim_tools/evidence/conclusive_runs.py)."""
    row, margins = (next(row for row in rows if row["run"] == name) for rows in (played.rows, played.margins))
    weights = {watch: (int(margins[watch]), limit) for watch, limit in played.weights.items()}
    record = played.records[name]
    excess = excess_of(record, played.threshold)
    return Shown(row, weights, len(record["on"]), played.resets[name], lambda: where(excess), run=played.runs[name],
                 test=int(played.limits["test"]))


def step_of(ticks, classes):
    """The least step of a sweep of a run with so many ticks that the program takes."""
    return -(-ticks // min(RUNS // classes, CAMPAIGN_TICKS // (classes * ticks)))


def own_files(calibration):
    """What a page is made from beside the files of the call, by names from the top: documents, and the tool's own files."""
    paths = (os.path.realpath(module.__file__) for module in list(sys.modules.values()) if getattr(module, "__file__", None))
    modules = sorted(os.path.relpath(path, TOP) for path in paths if path.startswith(TOOLS + os.sep))
    reference = [] if calibration else ["examples/calibration/reference.toml"]
    return [*reference, *(f"docs/{name}" for name in DOCUMENTS), *modules, "tools/report_files/page.css"]


def document(name):
    """The text of a document of docs/."""
    return read(os.path.join(TOP, "docs", name)).decode()
