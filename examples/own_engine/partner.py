#!/usr/bin/env python3
"""A driver and an engine of your own around the unit: copy this file, and put yours in their places.

    egasim partner examples/own_engine/partner.py CAMPAIGN RUN >record.csv      (docs/START.md, "An engine of your own")

egasim partner starts it. It reads lines of the record on standard input, each with what the unit commands for the next
tick, and answers each with a line on standard output (docs/FORMATS.md, "The lines of `couple`")."""

import csv
import sys

KT = 2500  # torque of a load of 1000, in tenths of Nm, as the calibration has it


def driver():
    """A row for each tick: pedal, speed, raise, reset, brake (docs/FORMATS.md, "Check files and traces")."""
    yield from [(0, 800, 0, 0, 0)] * 10 + [(300, 1500, 0, 0, 0)] * 30 + [(0, 1200, 0, 0, 0)] * 60


class Engine:
    charge = 40.0

    def step(self, speed, throttle, ignition, on, held):
        """Answers the position (0 to 1000), the load of each track, and the torque, after one tick at that speed."""
        position = held if held is not None else throttle if on else 0
        self.charge += (max(40, position) - self.charge) / 8
        load = round(self.charge)
        return position, load, load, load * KT * ignition // 1000000 if on else 0


if sys.argv[1:] in (["-h"], ["--help"]):
    sys.exit(print(__doc__))
engine, rows = Engine(), csv.DictReader(sys.stdin)
for drive, row in zip(driver(), rows):
    reset, on, held = drive[3], row["next_on"] == "1", row["next_held"]
    throttle, ignition = (0 if reset else min(1000, int(row[name])) for name in ("next_throttle", "next_ignition"))
    shown = engine.step(drive[1], throttle, ignition, on and not reset, None if held == "-" else int(held))
    print(*drive, *shown, sep=",", flush=True)
