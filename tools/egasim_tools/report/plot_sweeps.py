"""The picture of sweeps: the greatest reaction of each class of fault, beside R."""

import re
from dataclasses import dataclass

from egasim_tools.base.program import reaction_bound
from egasim_tools.base.tool import fail
from egasim_tools.base.units import Units
from egasim_tools.report.gnuplot import INK, block, looks_of, named_places, quoted, tick_axis

SWEPT = re.compile(r"([a-z0-9-]+): runs \d+; .*reaction (\d+|none)")
BARS = ["#1f4e79", "#f2b66d", "#5f9e6e", "#d9d9d9", "#8e44ad", "#333333"]  # colours that differ in grey too
LINES = ["#1f4e79", "#b35806", "#1b7837", "#762a83", "#c0392b", "#333333"]
ALONE = None  # one picture has any number of files
HEIGHT, ROW = 400, 22  # of the bars, and of a line of the legend


@dataclass
class Sweep:
    name: str
    calibration: str | None
    reactions: dict  # the greatest of each class, or None
    bound: int  # R


def read(name, lines, calibration):
    """What a picture shows of such a file, by a calibration or the reference calibration."""
    return Sweep(name, calibration, sweep_of(name, lines), reaction_bound(calibration))


def sweep_of(name, lines):
    """The greatest reaction of each class, in the order of the sweep; None where no run has one."""
    rows = [SWEPT.fullmatch(line) for line in lines[:-1]]
    if not rows or not all(rows) or not lines[-1].startswith("greatest reaction "):
        fail(f"{name} is no whole table of sweep")
    return {row[1]: None if row[2] == "none" else int(row[2]) for row in rows}


def by_which(calibration):
    return f"by {calibration or 'the reference calibration'}"


def bars(sweeps):
    """The data of the bars, how they are drawn, and their numbers. No line of a sweep tells by which calibration it is."""
    data, drawn, numbers, width = [], [], [], 0.92 / len(sweeps)
    for place, sweep in enumerate(sweeps):
        shift = (place - (len(sweeps) - 1) / 2) * width
        data.append(block(f"sweep{place}", [(at + shift, reaction or 0, width, "none" if reaction is None else reaction)
                                            for at, reaction in enumerate(sweep.reactions.values())]))
        drawn.append(f"$sweep{place} using 1:2:3 with boxes lc rgb '{BARS[place % len(BARS)]}' "
                     f"title {quoted(f'{sweep.name} {by_which(sweep.calibration)}')}")
        numbers.append(f"$sweep{place} using 1:2:4 with labels left rotate by 90 offset 0,0.4 boxed notitle")
    return data, drawn, numbers


def picture(sweeps, *_, units=Units()):
    """Height and script of the picture of all files."""
    classes = list(sweeps[0].reactions)
    if any(list(sweep.reactions) != classes for sweep in sweeps):
        fail("the sweeps have other classes than the first one")
    bounds = {sweep.calibration: sweep.bound for sweep in sweeps}
    highest = max([1, *bounds.values(), *(reaction or 0 for sweep in sweeps for reaction in sweep.reactions.values())])
    data, drawn, numbers = bars(sweeps)
    for place, (calibration, bound) in enumerate(bounds.items()):
        drawn.append(f"{bound} with lines "
                     + looks_of(LINES[place % len(LINES)], 2, 2 + 2 * (place % 2), f"R {by_which(calibration)}, {units.ticks(bound)}"))
    names = [f"{kind}, no R" if kind == "lapse" else kind for kind in classes]
    return HEIGHT + ROW * (len(sweeps) + len(bounds)), [
        "set style textbox opaque margins 0.3,0.3 noborder\n",
        f"set boxwidth 0.94 relative\nset style fill solid border lc rgb '{INK}'\nset grid noxtics\n",
        "set key outside center bottom vertical maxcols 1\n", tick_axis("y", "greatest reaction, ticks", 0, round(1.2 * highest), units),
        f"set yrange [0:{1.2 * highest}]\nset xrange [-0.7:{len(classes) - 0.3}]\n",
        f"set xtics nomirror rotate by -40 {named_places(names)}\n", *data, f"plot {', '.join(drawn + numbers)}\n"]
