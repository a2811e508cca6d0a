"""The picture of records, one above another."""

from dataclasses import dataclass

from egasim_tools.base.records import part_of, record_of
from egasim_tools.base.units import Units
from egasim_tools.calibration.parameters import threshold_of
from egasim_tools.report.gnuplot import GREY, INK, MOST, PERMITTED, TORQUE, curves, looks_of, quoted, tick_axis, torque_scale

SIGNS = ("stages on", "path 2 conducts", "path 1 conducts")
ALONE = None  # one picture has any number of files
HEIGHT = 380  # of a panel


@dataclass
class Record:
    name: str
    record: dict  # the columns, by their names
    threshold: int


def read(name, lines, calibration):
    """What a picture shows of such a file, by a calibration or the reference calibration."""
    return Record(name, record_of(name, lines), threshold_of(calibration))


def highest_of(records, thresholds):
    return max(max(*record["torque"], *(limit + threshold for limit in record["limit"]), 1)
               for record, threshold in zip(records, thresholds))


def panel(place, name, record, threshold, units):
    """Torque, what the drive permits, and above both the stages and the paths. The thinner curve lies on the thicker."""
    first, ticks = record["tick"][0], len(record["tick"])
    data, drawn = curves(f"record{place}_", [
        (record["torque"], looks_of(*TORQUE, "torque")),
        ([limit + threshold for limit in record["limit"]], looks_of(*MOST, f"permitted and threshold, {units.torque(threshold)}")),
        (record["limit"], looks_of(*PERMITTED, "permitted")),
        (record["on"], looks_of(INK, 2, second=True)),
        ([2.5 + path for path in record["path2"]], looks_of(GREY, 2, second=True)),
        ([5 + path for path in record["path1"]], looks_of(GREY, 2, second=True))], first)
    axis = tick_axis("x", "tick", first, first + ticks, units) if units else ""
    return (f"{data}{axis}set title {quoted(name)} noenhanced\nset xrange [{first}:{first + ticks}]\n"
            f"plot {', '.join(drawn)}\n")


def picture(files, first, last, units=Units()):
    """Height and script of the picture of all files, from the first to the last tick."""
    records = [part_of(shown.name, shown.record, first, last) for shown in files]
    thresholds = [shown.threshold for shown in files]
    panels = [panel(place, files[place].name, record, thresholds[place], units) for place, record in enumerate(records)]
    return HEIGHT * len(files), ["set key outside center bottom horizontal maxcols 2\nset xlabel 'tick'\n",
                                 *torque_scale(highest_of(records, thresholds), SIGNS, units),
                                 f"set multiplot layout {len(files)},1\n", *panels, "unset multiplot\n"]
