"""The picture of signals: level 2's five, up to a trip, and below them the weights."""

import csv
from dataclasses import dataclass

from egasim_tools.base.records import part_of, rows_looked_at
from egasim_tools.base.tool import fail
from egasim_tools.base.units import Units
from egasim_tools.calibration.parameters import MOST_NUMBER, WATCHES, threshold_of, weight_limits_of
from egasim_tools.report.gnuplot import (DARK, GREY, INK, MIDDLE, MOST, PERMITTED, TOP_OF_FOUND, TORQUE, curves, looks_of,
    quoted, tick_axis, torque_scale)

DEBOUNCED = [watch for watch in WATCHES if watch != "answers"]  # those of level 2
SIGNALS = ["tick", "used", "permitted", "actual", "excess", "pairs", *DEBOUNCED]
LOOKS = dict(zip(DEBOUNCED, [(INK, 2), (INK, 2, "(2,3)"), ("#999999", 2), (MIDDLE, 2), (DARK, 2)]))  # of the weights
ALONE = "signals of one measurement make a picture"  # is told of several files
HEIGHT = 760


@dataclass
class Signals:
    name: str
    signals: dict  # the columns, by their names
    limits: dict  # of the weights
    threshold: int


def read(name, lines, calibration):
    """What a picture shows of such a file, by a calibration or the reference calibration."""
    return Signals(name, signals_of(name, lines), weight_limits_of(calibration), threshold_of(calibration))


def signals_of(name, lines):
    """The columns of the text of `signals`, by their names: numbers, and what is found."""
    rows = csv.DictReader(lines)
    with rows_looked_at(f"{name} has no signals", rows):
        ticks = [[*(int(row[column]) for column in SIGNALS), row["found"].strip()] for row in rows]
    if not ticks:
        fail(f"{name} has no tick below its header")
    for place, tick in enumerate(ticks, ticks[0][0]):
        if tick[0] != place or not 0 <= min(tick[1:-1]) <= max(tick[1:-1]) <= MOST_NUMBER:
            fail(f"{name} has no signals: tick {place} isn't there, or has a number out of range")
    return dict(zip([*SIGNALS, "found"], map(list, zip(*ticks))))


def is_trip(watches):
    return watches not in ("-", "pedal")


def up_to_trip(signals):
    """The signals up to the trip, if there is one: behind it level 2 sees nothing."""
    end = next((place + 1 for place, watches in enumerate(signals["found"]) if is_trip(watches)), None)
    return {name: column[:end] for name, column in signals.items()}


def shares_of(name, signals, limits):
    """Of each watch that was fed with something bad the weights in per cent of the limit."""
    for watch in DEBOUNCED:
        if max(signals[watch]) > limits[watch]:
            fail(f"{name} is by another calibration: {watch} has {max(signals[watch])} of {limits[watch]}")
    return {watch: [100 * weight / limits[watch] for weight in signals[watch]] for watch in DEBOUNCED if any(signals[watch])}


def marks(signals, ticks, units=Units()):
    """A line through both panels at each tick at which something is found; above the frame what that is, a row for each."""
    row = 0
    for tick, watches in zip(signals["tick"], signals["found"]):
        if watches != "-":
            side = "left" if tick - ticks[0] < len(ticks) / 2 else "right"
            yield f"set arrow from {tick}, graph 0 to {tick}, graph 1 nohead dashtype 3 lc rgb '{INK}'\n"
            yield (f"set label {1 + row} {quoted(f'{watches} {units.ticks(tick)}')} at {tick}, graph 1 {side} "
                   f"offset 0,{0.6 + row} noenhanced\n")
            row = (row + 1) % 2


def panel_of_signals(signals, threshold, units):
    """Torque in the lower part; excess, pairs that disagree and the used pedal above it, on the second scale."""
    most = [permitted + threshold for permitted in signals["permitted"]]
    data, drawn = curves("signal", [
        (signals["actual"], looks_of(*TORQUE, "actual")),
        (most, looks_of(*MOST, f"permitted and threshold, {units.torque(threshold)}")),
        (signals["permitted"], looks_of(*PERMITTED, "permitted")),
        (signals["excess"], looks_of(INK, 2, second=True)),
        ([2.5 + (pairs > 0) for pairs in signals["pairs"]], looks_of(GREY, 2, second=True)),
        ([5 + used / 1000 for used in signals["used"]], looks_of(GREY, 2, second=True))], signals["tick"][0])
    signs = ("excess", "a pair differs", f"used pedal {'100 %%' if units else '1000'}")
    yield from torque_scale(max(*signals["actual"], *most, 1), signs, units)
    yield f"{data}plot {', '.join(drawn)}\n"


def panel_of_weights(signals, shares):
    data, drawn = curves("weight", [(values, looks_of(*LOOKS[watch], title=watch))
                                    for watch, values in shares.items()], signals["tick"][0])
    yield f"unset title\nunset label\nunset y2tics\nset yrange [0:{TOP_OF_FOUND}]\nset ytics nomirror 0,20,100\n"
    found = f"100 with lines {looks_of(GREY, 2, 2, 'found')}"
    yield "set ylabel 'weight, per cent of the limit'\n"
    yield f"{data}plot {', '.join([*drawn, found])}\n"


def picture(files, first, last, units=Units()):
    """Height and script of the picture of the one file, from the first to the last tick."""
    [shown] = files
    name, whole = shown.name, shown.signals
    every, signals = part_of(name, whole, first, last), part_of(f"{name}, up to its trip,", up_to_trip(whole), first, last)
    until = f", up to the trip at {units.ticks(signals['tick'][-1])}" if is_trip(signals["found"][-1]) else ""
    shares = shares_of(name, signals, shown.limits)
    return HEIGHT, [
        "set key outside center bottom horizontal maxcols 2\n", tick_axis("x", "tick", every["tick"][0], every["tick"][-1] + 1, units),
        f"set xrange [{every['tick'][0]}:{every['tick'][-1] + 1}]\nset lmargin 9\nset rmargin 16\n",
        f"set multiplot layout 2,1\nset title {quoted(name + until)} noenhanced offset 0,1.5\nset tmargin 4\n",
        *marks(signals, every["tick"], units), *panel_of_signals(signals, shown.threshold, units),
        *panel_of_weights(signals, shares), "unset multiplot\n"]
