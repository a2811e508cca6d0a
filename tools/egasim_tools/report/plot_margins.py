"""The picture of margins: a panel for each watch that was fed with something bad."""

import csv
from dataclasses import dataclass

from egasim_tools.base.records import rows_looked_at
from egasim_tools.base.tool import fail
from egasim_tools.calibration.parameters import WATCHES, weight_limits_of
from egasim_tools.report.gnuplot import DARK, INK, PIXELS, TOP_OF_FOUND, block, looks_of, named_places, quoted

ALONE = "margins of one campaign make a picture"  # is told of several files
MOST_NAMES = 24  # of runs that can stand below their weights
TITLE, PANEL, HEAD = 34, 165, 55  # how high the title is, and a panel, and what stands above its frame


@dataclass
class Margins:
    name: str
    runs: list
    weights: dict  # of each watch that was fed with something bad, in per cent of its limit


def read(name, lines, calibration):
    """What a picture shows of such a file, by a calibration or the reference calibration."""
    runs, weights = weights_of(name, lines, weight_limits_of(calibration))
    if not weights:
        fail(f"{name} has no weight above 0: nothing bad was seen in a run")
    return Margins(name, runs, weights)


def weights_of(name, lines, limits):
    """The names of the runs, and of each watch that was fed with something bad its weights in per cent of the limit."""
    names, weights = [], {watch: [] for watch in WATCHES}
    rows = csv.DictReader(lines)
    with rows_looked_at(f"{name} has no margins", rows):
        for row in rows:
            names.append(row["run"])
            for watch, limit in limits.items():
                if int(row[watch]) > limit:
                    fail(f"{name} is by another calibration: {watch} has {row[watch]} of {limit}")
                weights[watch].append(100 * int(row[watch]) / limit)
    return names, {watch: shares for watch, shares in weights.items() if any(shares)}


def panel(watch, shares):
    return (f"{block(watch, enumerate(shares, 1))}set title '{watch}'\n"
            f"plot ${watch} with points pt 7 ps 0.7 lc rgb '{DARK}' notitle, 100 with lines {looks_of(INK, 1.5, 2)}\n")


def axis_of(names):
    """What stands below the last panel, and how high that is: the names of the runs, or their numbers if there are many."""
    if len(names) > MOST_NAMES:
        return "set xtics nomirror format '%g' autofreq\nset xlabel 'run'\n", 72
    return (f"set xtics nomirror format '%g' rotate by -90 {named_places(names, 1)}\n",
            30 + round(0.65 * PIXELS * max(map(len, names))))


def picture(files, *_, units=None):
    """Height and script of the picture of the one file."""
    [shown] = files
    names, weights = shown.runs, shown.weights
    axis, below = axis_of(names)
    height = PANEL * len(weights) + TITLE + below
    title = f"{shown.name}: greatest weights, in per cent of the limits"
    script = [f"set multiplot title {quoted(title)} noenhanced\nset xrange [0.5:{len(names) + 0.5}]\n",
              f"set yrange [0:{TOP_OF_FOUND}]\nset ytics nomirror 0,50,100\n",
              f"set xtics nomirror format ''{' 1' * (len(names) <= MOST_NAMES)}\n",
              "set lmargin at screen 0.1\nset rmargin at screen 0.97\n"]
    for place, (watch, shares) in enumerate(weights.items()):
        foot = 1 - (TITLE + PANEL * (place + 1)) / height
        script.append(f"set tmargin at screen {foot + (PANEL - HEAD) / height:.4f}\nset bmargin at screen {foot:.4f}\n")
        script.append((axis if place == len(weights) - 1 else "") + panel(watch, shares))
    return height, [*script, "unset multiplot\n"]
