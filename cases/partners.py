#!/usr/bin/env python3
"""The two engines of the bench (docs/CONCEPT.md, "Plant"), written from that page, as partners of `egasim couple`.

    tools/partner 'cases/partners.py gasoline examples/calibration/reference.toml TRACE' CAMPAIGN RUN >record.csv"""

import csv
import sys
import tomllib


def toward(now, target, step):
    return max(now - step, min(now + step, target))


class Plant:
    """The data of a plant, as a calibration file has them."""

    def __init__(self, calibration):
        with open(calibration, "rb") as file:
            cal = tomllib.load(file)
        self.kt, plant = cal["torque"]["kt"], cal["plant"]
        self.slew, self.fill = plant["slew"], plant["fill"]
        self.points = list(zip(plant["angle"], plant["charge"]))

    def charge(self, angle):
        """The charge of an angle: between two points rounded down, outside them that of the nearest."""
        (first, lowest), (last, highest) = self.points[0], self.points[-1]
        if angle <= first or angle >= last:
            return lowest if angle <= first else highest
        for (x0, y0), (x1, y1) in zip(self.points, self.points[1:]):
            if x0 <= angle <= x1:
                return (y0 * (x1 - angle) + y1 * (angle - x0)) // (x1 - x0)

    def position(self, now, command, on, held):
        return held if held is not None else toward(now, min(command, 1000) if on else 0, self.slew)

    def torque(self, load, ignition, on):
        return load * self.kt * min(ignition, 1000) // 1000000 if on else 0


class Gasoline(Plant):
    def __init__(self, calibration):
        super().__init__(calibration)
        self.plate, self.filled = 0, self.charge(0)

    def step(self, throttle, ignition, on, held):
        """One tick. Answers the position, both loads and the torque."""
        self.filled = toward(self.filled, self.charge(self.plate), self.fill)
        self.plate = self.position(self.plate, throttle, on, held)
        return self.plate, self.filled, self.filled, self.torque(self.filled, ignition, on)


class Diesel(Plant):
    rack = boost = 0

    def step(self, throttle, ignition, on, held):
        """One tick. Answers the position, both loads and the torque."""
        self.boost = toward(self.boost, self.rack, self.fill)
        self.rack = self.position(self.rack, throttle, on, held)
        quantity = min(self.rack, self.charge(self.boost)) if on else 0
        return self.rack, quantity, quantity, self.torque(quantity, ignition, on)


ENGINES = {"gasoline": Gasoline, "diesel": Diesel}


def answer(engine, drive, told):
    """The line that answers a line of `couple`, whose fields are told by their names. A drive row has five numbers."""
    held = None if told["next_held"] == "-" else int(told["next_held"])
    throttle, ignition, on = (int(told[f"next_{name}"]) for name in ("throttle", "ignition", "on"))
    if drive[3]:
        throttle = ignition = on = 0
    return ",".join(map(str, [*drive, *engine.step(throttle, ignition, on == 1, held)]))


def drive_of(trace):
    """The rows of a trace, with `reset` and `brake` also where it doesn't have them."""
    with open(trace, encoding="ascii", newline="") as file:
        names = ("pedal", "speed", "raise", "reset", "brake")
        return [[int(row.get(name, 0)) for name in names] for row in csv.DictReader(file)]


if __name__ == "__main__":
    kind, calibration, trace = sys.argv[1:]
    engine = ENGINES[kind](calibration)
    for drive, told in zip(drive_of(trace), csv.DictReader(sys.stdin)):
        print(answer(engine, drive, told), flush=True)
