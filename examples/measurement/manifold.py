#!/usr/bin/env python3
"""Prints a sound drive of an engine with an intake manifold: what the sensors read in 1,000 ticks of 10 ms, or the trace alone.

    python3 examples/measurement/manifold.py town >town.csv            # for `replay`, and `egasim find --recording`
    python3 examples/measurement/manifold.py town trace >trace.csv     # for a campaign, and a plan of `egasim study`

There are five: town, hill, overtaking, motorway and parking. The load follows the plate as the manifold fills and empties, the
more slowly the lower the speed. So when the pedal is let go the torque stays above what is permitted for some ticks, though
nothing is wrong. The numbers are made up, and fit the reference calibration. Noise is drawn from the drive's name, so that each
call prints the same."""

import random
import sys

TICKS, LEAST, SLEW, FILLS = 1000, 40, 50, 14000  # the load at rest, what the plate moves in a tick, ticks times rpm of the filling
NOISE = {"pedal": 8, "plate": 8, "load": 5, "speed": 8}
# Pedal and speed at some ticks; between two of them they change evenly.
DRIVES = {
    "town": [(0, 0, 820), (80, 0, 820), (120, 450, 1500), (300, 380, 2200), (304, 0, 2150), (480, 0, 1100), (520, 600, 1400),
             (700, 500, 2400), (705, 0, 2350), (1000, 0, 1000)],
    "hill": [(0, 500, 1400), (200, 850, 1500), (600, 900, 1700), (606, 0, 1700), (700, 0, 1400), (730, 800, 1400), (900, 800, 1900),
             (910, 100, 1900), (1000, 100, 1700)],
    "overtaking": [(0, 350, 2400), (150, 350, 2400), (160, 1000, 2500), (500, 1000, 4800), (504, 0, 4800), (650, 0, 4000),
                   (700, 400, 3900), (1000, 400, 3900)],
    "motorway": [(0, 550, 3400), (400, 650, 3700), (420, 250, 3700), (600, 250, 3400), (640, 700, 3500), (900, 700, 4000),
                 (904, 100, 4000), (1000, 100, 3700)],
    "parking": [(0, 0, 800), (60, 200, 1000), (160, 180, 1200), (163, 0, 1150), (300, 0, 820), (330, 250, 1100), (420, 250, 1300),
                (422, 0, 1250), (600, 0, 810), (660, 150, 900), (800, 150, 1000), (803, 0, 950), (1000, 0, 800)],
}


def between(points, tick):
    """Pedal and speed of these points at a tick."""
    after = next((place for place, point in enumerate(points) if point[0] > tick), len(points) - 1)
    (start, *low), (end, *high) = points[after - 1:after + 1]
    return [one + (other - one) * (tick - start) // (end - start) for one, other in zip(low, high)]


def sound(points):
    """Pedal, plate, load and speed at each tick. The load is kept in millionths, so that whole numbers suffice."""
    plate, charge = points[0][1] * 9 // 10, (LEAST + points[0][1] * 7 // 10) * 1000
    for tick in range(TICKS):
        pedal, speed = between(points, tick)
        wanted = pedal * 9 // 10
        plate += max(-SLEW, min(SLEW, wanted - plate))
        charge += ((LEAST + plate * 7 // 9) * 1000 - charge) * speed // (FILLS + speed)
        yield {"pedal": pedal, "plate": plate, "load": charge // 1000, "speed": speed}


def readings(drive, draw):
    """Both tracks of each quantity at a tick, each with noise of its own; the second one of pedal and plate falls."""
    for name, value in drive.items():
        highest = 8000 if name == "speed" else 1000
        for is_second in (False, True):
            read = max(0, min(highest, value + int(NOISE[name] * (2 * draw.random() - 1))))
            yield 1000 - read if is_second and name in ("pedal", "plate") else read


def main():
    name, *rest = sys.argv[1:]
    draw, is_trace = random.Random(name), rest == ["trace"]
    print("pedal,speed,raise" if is_trace else "pedal1,pedal2,plate1,plate2,load1,load2,speed1,speed2,raise,check")
    for drive in sound(DRIVES[name]):
        print(*([drive["pedal"], drive["speed"], 0] if is_trace else [*readings(drive, draw), 0, 65535]), sep=",")


main()
