#!/usr/bin/env python3
"""Prints a measurement of 60 s as a measuring tool exports it, for egasim measured.

    python3 examples/measurement/exported.py >exported.csv

It has semicolons, decimal commas, a byte order mark, a line of units, and times that begin at 12.34 s. Both tracks of
the pedal are measured every 10 ms, plate, load and both speeds every 20 ms, the demand of another control unit and the
speed of the car every 100 ms; where a channel has no sample its cell is empty. All have noise but the demand. One sample
of a speed is NaN, and for 0.4 s, while the car stands, the load drops out. The noise is drawn from the number 72, so that
each call prints the same."""

import random
import sys

NAMES = ("time", "APP_r1", "APP_r2", "TPS_r", "rl", "n_crank", "n_cam", "trq_dem", "v_kmh")
UNITS = ("s", "%", "%", "%", "%", "rpm", "rpm", "Nm", "km/h")
FIRST, ROWS, MS = 12340, 6000, 10  # the first time, in ms, and how many rows lie 10 ms apart
# What is there at some times, in ms from the first one; between two of them a quantity changes evenly.
PEDAL = [(0, 0), (4500, 0), (6300, 42), (18000, 42), (19200, 12), (27000, 12), (28500, 80), (35400, 80), (35430, 40),
         (42000, 40), (44100, 0), (51000, 0), (52800, 25), (60000, 25)]
SPEED = [(0, 810), (4500, 800), (18000, 3100), (19200, 2900), (27000, 2500), (35400, 5600), (42000, 5200), (47000, 900),
         (51000, 850), (60000, 2400)]
CAR = [(0, 0), (4500, 0), (35400, 122), (42000, 115), (47000, 0), (51000, 0), (60000, 38)]
DEMANDED, DEMAND = range(21000, 23000), 35  # another control unit demands so much, in Nm
LEAST_LOAD, LOAD_STEP = 4.0, 6  # per cent, and per cent a row
DROPPED, NO_NUMBER = range(2000, 2400), 30000


def between(points, time):
    """The quantity of these points at a time."""
    after = next(place for place, point in enumerate(points) if point[0] > time)
    (start, low), (end, high) = points[after - 1:after + 1]
    return low + (high - low) * (time - start) / (end - start)


def sound(time, load):
    """What is there at a time, in the order of the names behind the time."""
    pedal, speed = between(PEDAL, time), between(SPEED, time)
    return pedal, 100 - pedal, 0.9 * pedal, load, speed, speed, DEMAND * (time in DEMANDED), between(CAR, time)


def load_after(load, time):
    wanted = max(LEAST_LOAD + 0.7 * between(PEDAL, time), 15 * (time in DEMANDED))
    return load + max(-LOAD_STEP, min(LOAD_STEP, wanted - load))


def is_sampled(name, time):
    """Whether a channel has a sample at a time."""
    raster = 10 if name.startswith("APP") else 100 if name in ("trq_dem", "v_kmh") else 20
    return time % raster == 0 and not (name == "rl" and time in DROPPED)


def cell(name, time, value, draw):
    """What stands in a cell: the value with its noise, with two digits behind the decimal comma, or none of a speed."""
    if not is_sampled(name, time):
        return ""
    noise = {"APP_r1": 0.8, "APP_r2": 0.8, "TPS_r": 0.8, "rl": 0.6, "n_crank": 8, "n_cam": 8}.get(name, 0)
    value += noise * (2 * draw.random() - 1)
    if name == "n_cam" and time == NO_NUMBER:
        return "NaN"
    return f"{value:.0f}" if name.startswith("n_") else f"{value:.2f}".replace(".", ",")


def lines():
    draw, load = random.Random(72), LEAST_LOAD
    yield ";".join(f'"{name}"' for name in NAMES)
    yield ";".join(f'"{unit}"' for unit in UNITS)
    for time in range(0, ROWS * MS, MS):
        load = load_after(load, time)
        cells = [cell(name, time, value, draw) for name, value in zip(NAMES[1:], sound(time, load))]
        yield ";".join([f"{(FIRST + time) / 1000:.2f}".replace(".", ","), *cells])


def main():
    if sys.argv[1:]:
        print(__doc__)
        return 0 if sys.argv[1:] == ["--help"] else 2
    sys.stdout.buffer.write(b"\xef\xbb\xbf" + "".join(f"{line}\r\n" for line in lines()).encode())
    return 0


if __name__ == "__main__":
    sys.exit(main())
