"""The picture of a table, also of a study's: a panel for each class of fault."""

import csv
from dataclasses import dataclass

from egasim_tools.base.program import reaction_bound
from egasim_tools.base.records import rows_looked_at
from egasim_tools.base.tool import fail
from egasim_tools.base.units import Units
from egasim_tools.report.gnuplot import DARK, INK, block, looks_of, quoted, tick_axis
from egasim_tools.report.svg import step_of

ALONE = "one table makes a picture"  # is told of several files
HEAD, PANEL = 40, 200  # how high the title is, and a panel


@dataclass
class Table:
    name: str
    points: dict  # for each class the greatest reaction of each onset
    bound: int  # R


def read(name, lines, calibration):
    """What a picture shows of such a file, by a calibration or the reference calibration."""
    points, bound = points_of(name, lines)
    if calibration and reaction_bound(calibration) != bound:
        fail(f"{name} is by another calibration than {calibration}: its rows have the bound {bound}")
    return Table(name, points, bound)


def points_of(name, lines):
    """For each class of the table with a reaction under a fault the greatest reaction of each onset; and R of its rows."""
    points, bounds = {}, set()
    rows = csv.reader(lines)
    with rows_looked_at(f"{name} is no table", rows):
        at = {name: place for place, name in enumerate(next(rows))}
        for row in filter(None, rows):
            bounds.add(int(row[at["bound"]]))
            if row[at["onset"]] and row[at["reaction"]]:
                onset, places = int(row[at["onset"]]), points.setdefault(row[at["class"]], {})
                places[onset] = max(places.get(onset, 0), int(row[at["reaction"]]))
    if not points:
        fail(f"{name} has no run with a reaction under a fault")
    return points, single_bound(name, bounds)


def single_bound(name, bounds):
    """R of a table, if all its rows have the same."""
    if len(bounds) > 1:
        fail(f"{name} is by several calibrations: its rows have the bounds {', '.join(map(str, sorted(bounds)))}")
    return min(bounds)


def panel(place, kind, places, bound):
    """The reactions of a class, a point for each onset. Under lapses R is no bound, so that it has no line there."""
    drawn = [f"$class{place} with points pt 7 ps 0.7 lc rgb '{DARK}' notitle"]
    drawn += [f"{bound} with lines {looks_of(INK, 1.5, 2)}"] if kind != "lapse" else []
    title = f"{kind}, for which R is no bound" if kind == "lapse" else kind
    return (f"{block(f'class{place}', sorted(places.items()))}set title {quoted(title)} noenhanced\n"
            f"plot {', '.join(drawn)}\n")


def picture(files, *_, units=Units()):
    """Height and script of the picture of the one file."""
    [shown] = files
    points, bound = shown.points, shown.bound
    onsets = [onset for places in points.values() for onset in places]
    highest = max([bound, *(reaction for places in points.values() for reaction in places.values())])
    beside, columns = max((max(onsets) - min(onsets)) / 30, 1), min(len(points), 2)
    rows = -(-len(points) // columns)
    return HEAD + PANEL * rows, [
        f"set multiplot layout {rows},{columns} title {quoted(f'{shown.name}: reactions by onset; R, {units.ticks(bound)}, is dashed')} "
        f"noenhanced\nset xrange [{min(onsets) - beside}:{max(onsets) + beside}]\nset yrange [0:{highest * 1.15}]\n",
        f"set xtics nomirror autofreq\nset ytics nomirror 0,{step_of(highest, 4)}\n",
        tick_axis("x", "onset, tick", min(onsets), max(onsets), units, 2), tick_axis("y", "ticks", 0, highest, units),
        f"set lmargin {12 if units else 8}\nset rmargin 2\nset tmargin 2.7\nset bmargin 3.2\n",
        *(panel(place, kind, places, bound) for place, (kind, places) in enumerate(points.items())), "unset multiplot\n"]
