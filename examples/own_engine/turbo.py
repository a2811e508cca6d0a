#!/usr/bin/env python3
"""A turbocharged engine around the unit: a partner of `egasim couple` (docs/START.md, "An engine of your own").

    egasim partner examples/own_engine/turbo.py examples/own_engine/turbo.toml sound >turbo.csv
    egasim plot turbo.png turbo.csv

It has two states: the boost of the turbocharger, which follows the charge slowly, and the charge, which follows the
throttle, and the boost above it. So when the pedal is let go from far down the charge is still high for some ticks, and
so is the torque: an excess, though level 1 does what it should. The numbers are made up.

Its drive has no resets, and it doesn't look at them: for a partner of your own copy examples/own_engine/partner.py."""

import csv
import sys

KT = 2500  # the torque of a load of 1000, in tenths of Nm: `kt` of the calibration


def driver():
    """Pedal, speed, raise, reset and brake at each tick: the pedal is pressed for 40 ticks, and let go."""
    yield from [(0, 1500, 0, 0, 0)] * 10 + [(800, 1500, 0, 0, 0)] * 40 + [(0, 1500, 0, 0, 0)] * 50


class Engine:
    """A tick is 10 ms: the charge follows with a time constant of 40 ms, the boost with one of 250 ms."""

    boost = 0.0  # from 0 to 1
    charge = 40.0  # per mille

    def step(self, speed, throttle, ignition, on, held):
        """One tick, at any speed. Answers the position (0 to 1000), the load of each of both tracks, and the torque."""
        position = held if held is not None else throttle if on else 0
        target = max(40, position * (1 + self.boost))
        self.charge += (target - self.charge) / 4
        self.boost += (min(1, self.charge / 1000) - self.boost) / 25
        load = round(self.charge)
        torque = load * KT * ignition // 1000000 if on else 0
        return position, load, load, torque


engine, told = Engine(), csv.DictReader(sys.stdin)
for drive, row in zip(driver(), told):
    on, held = row["next_on"] == "1", row["next_held"]
    throttle, ignition = (min(1000, int(row[name])) for name in ("next_throttle", "next_ignition"))
    shown = engine.step(drive[1], throttle, ignition, on, None if held == "-" else int(held))
    print(*drive, *shown, sep=",", flush=True)
