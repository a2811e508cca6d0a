"""What the program prints of what a file of expectations names. Each command is called when it is needed, and once."""

import functools
import io

from egasim_tools.base.program import printed_by
from egasim_tools.base.records import drive_of, limits_in, record_of, rows_in
from egasim_tools.base.tool import fail
from egasim_tools.base.units import beside
from egasim_tools.calibration.parameters import threshold_of, weight_limits_of
from egasim_tools.evidence.conclusive_runs import Shown, excess_in_signals, recording_shown, where
from egasim_tools.evidence.run_results import excess_of
from egasim_tools.study.campaigns import files_of_campaign, runs_of_campaign


def inputs_of(expected):
    """The files that verdicts on these expectations are drawn from."""
    runs = files_of_campaign(expected.campaign) if expected.campaign else []
    units = beside(expected.calibration) if expected.calibration else None
    recordings = (name for entry in expected.recordings for name in entry.names)
    return [name for name in [expected.name, expected.calibration, *runs, units, *recordings] if name]


class Asking:
    """Calls of the program about the campaign, the calibration and the recordings of a file of expectations."""

    def __init__(self, expected):
        self.expected, self.calibration = expected, ["--cal", expected.calibration] if expected.calibration else []
        self.limits = functools.cache(lambda: limits_in(printed_by("limits", *self.calibration)))

    def recording(self, name):
        """What a recording shows."""
        excess = functools.cache(lambda: excess_in_signals(printed_by("signals", *self.calibration, readings=name)))
        return recording_shown(printed_by("replay", *self.calibration, readings=name), excess)

    def runs(self):
        """What each run of the campaign shows, by its name."""
        campaign, rows = self.expected.campaign, self.table("table")
        needs_room = any(check.key == "room" for entry in self.expected.runs for check in entry.checks)
        margins = {row["run"]: row for row in self.table("margins")} if needs_room else {}
        most = weight_limits_of(self.expected.calibration) if needs_room else {}
        runs, drives, shown = runs_of_campaign(campaign), {}, {}
        if list(runs) != [row["run"] for row in rows] or needs_room and list(margins) != list(runs):
            fail(f"{campaign} changed meanwhile")
        for row in rows:
            name, trace = row["run"], runs[row["run"]]["trace"]
            drives[trace] = drives.get(trace) or drive_of(trace)
            weights = {watch: (int(margins[name][watch]), limit) for watch, limit in most.items()}
            test = int(self.limits()["test"]) if drives[trace][1] else 0
            shown[name] = Shown(row, weights, *drives[trace], functools.cache(functools.partial(self.excess_in_run, name)),
                                run=runs[name], test=test)
        return shown

    def table(self, command):
        return rows_in(printed_by(command, *self.calibration, self.expected.campaign))

    def excess_in_run(self, name):
        """The ticks of a run with a true excess."""
        record = record_of(name, io.StringIO(printed_by("record", *self.calibration, self.expected.campaign, name)))
        return where(excess_of(record, threshold_of(self.expected.calibration)))
