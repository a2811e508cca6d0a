"""Which label of a DCM has which key of a calibration: the map of egasim calibration, and what stands in both by it."""

import re
import tomllib
from dataclasses import dataclass
from decimal import Decimal
from fractions import Fraction
from math import ceil, floor

from egasim_tools.base.files import text_of
from egasim_tools.base.toml import check_keys, toml_in
from egasim_tools.base.tool import fail
from egasim_tools.base.units import decimal
from egasim_tools.calibration.dcm import Label, quoted, written_label

# The keys of a calibration with what a whole number is worth, in which unit (docs/FORMATS.md, "Calibration files").
SHARE, TORQUE, SPEED, WEIGHTS = (Fraction(1, 10), "%"), (Fraction(1, 10), "Nm"), (Fraction(1), "rpm"), ("up", "down", "limit")
WORTH = {"permit.pedal": SHARE, "permit.speed": SPEED, "permit.table": TORQUE, "permit.threshold": TORQUE, "permit.brake": None,
         "permit.fall": TORQUE,
         "torque.kt": TORQUE, **{f"torque.{key}": None for key in WEIGHTS},
         "pairs.pedal": SHARE, "pairs.plate": SHARE, "pairs.load": SHARE, "pairs.speed": SPEED,
         **{f"pairs.{key}": None for key in WEIGHTS},
         "plant.slew": SHARE, "plant.fill": SHARE, "plant.angle": SHARE, "plant.charge": SHARE,
         **{f"answers.{key}": None for key in ("period", "first", "last", "send", *WEIGHTS)}}
AXES = {"permit.table": ("permit.pedal", "permit.speed"), "plant.charge": ("plant.angle",)}  # rows, columns
IS_AXIS = {"permit.pedal", "permit.speed", "plant.angle"}
KINDS = {0: ("FESTWERT",), 1: ("KENNLINIE", "FESTKENNLINIE", "GRUPPENKENNLINIE"),
         2: ("KENNFELD", "FESTKENNFELD", "GRUPPENKENNFELD")}  # by how many axes
AXIS_KINDS = ("STUETZSTELLENVERTEILUNG",)
LABEL = re.compile(r"[A-Za-z_][A-Za-z0-9_.\[\]]{0,254}")
ROUND = ("nearest", "up", "down")


@dataclass
class Scale:
    """What a whole number of a key is worth, in which unit, and how what isn't whole is rounded."""
    place: str
    key: str
    factor: Fraction
    unit: str | None
    rounding: str
    name: str | None

    def worth(self, number):
        """The physical value of a number of the calibration. A truth value is 0 or 1."""
        return int(number) * self.factor

    def said(self, number):
        return f"{decimal(self.worth(number))}{f' {self.unit}' if self.unit else ''}"

    def whole(self, value, told, where=""):
        """The whole number that a physical value is, or is rounded to; `told` takes what was rounded, and where."""
        exact = value / self.factor
        number = {"down": floor(exact), "up": ceil(exact), "nearest": floor(exact + Fraction(1, 2))}[self.rounding]
        if number != exact:
            unit, way = f" {self.unit}" if self.unit else "", "" if self.rounding == "nearest" else f"{self.rounding} "
            told.append(f"{self.key}{where}: {text_of_number(value)}{unit} is {text_of_number(exact)}, "
                        f"rounded {way}to {number}, {self.said(number)}")
        return number

    def wholes(self, values, told, places):
        return [self.whole(value, told, where) for value, where in zip(values, places)]

    def points(self, label, axis, told):
        points = label.points[axis]
        return self.wholes(points, told, [f", point {number}" for number in range(len(points))])


def text_of_number(number):
    """A number as it is, if it has few digits, or else about."""
    return decimal(number) if number * 10**9 % 1 == 0 else f"about {float(number):.10g}"


@dataclass
class Value:
    """An entry of the map: its scale, and those of X and Y."""
    scale: Scale
    axes: dict


def values_of_map(name):
    """The entries of a map file."""
    text = text_of(name)
    toml_in(name, text)  # its refusals
    held = tomllib.loads(text, parse_float=Decimal)
    if set(held) != {"value"} or not isinstance(held["value"], list):
        fail(f"{name}: a map has tables [[value]], and nothing else")
    values = [value_of(f"{name}: value {number}", table) for number, table in enumerate(held["value"], 1)]
    names = [(value.scale.name, value.scale.place) for value in values]
    keys = [(scale.key, scale.place) for value in values for scale in (value.scale, *value.axes.values())]
    for what, places in (("name", names), ("key", keys)):
        seen = {}
        for one, place in places:
            if seen.setdefault(one, place) != place and one not in IS_AXIS:
                fail(f"{place}: {what} {one} stands above already")
    return values or fail(f"{name}: a map has tables [[value]]")


def value_of(place, table):
    """An entry of the map, checked."""
    scale = scale_of(place, table, ("key", "name", "factor", "unit", "round", "x", "y"))
    needed = AXES.get(scale.key, ())
    axes = {axis: scale_of(f"{place}: {axis}", table[axis], ("key", "name", "factor", "unit", "round"))
            for axis in ("x", "y") if axis in table}
    if sorted(axis.key for axis in axes.values()) != sorted(needed) or list(axes) != ["x", "y"][:len(needed)]:
        fail(f"{place}: {scale.key} needs {' and '.join(needed) if needed else 'no axes'}"
             f"{', as x = { key = .. }' if len(needed) == 1 else ', as x = { key = .. } and y' if needed else ''}")
    if not scale.name:
        fail(f"{place}: a value needs the name of its label")
    return Value(scale, axes)


def scale_of(place, table, keys):
    check_keys(place, table, keys)
    key, factor, unit, name = table.get("key"), table.get("factor", 1), table.get("unit"), table.get("name")
    if key not in WORTH:
        fail(f"{place}: key must be one of {', '.join(WORTH)}")
    is_number = isinstance(factor, int | Decimal) and not isinstance(factor, bool) and Decimal(factor).is_finite()
    if not is_number or not Decimal("1e-12") <= factor <= Decimal("1e12"):
        fail(f"{place}: factor must be a number above 0")
    if table.get("round", "nearest") not in ROUND:
        fail(f"{place}: round must be one of {', '.join(ROUND)}")
    if unit is not None and (not isinstance(unit, str) or re.search('["\x00-\x1f\x7f-\x9f]', unit)):
        fail(f"{place}: unit must be a text without quotes")
    if name is not None and not (isinstance(name, str) and LABEL.fullmatch(name)):
        fail(f"{place}: {name} is no name of a label")
    return Scale(place, key, Fraction(factor), unit, table.get("round", "nearest"), name)


def held_at(calibration, key):
    """What a calibration has at a key, or None."""
    table, name = key.split(".")
    held = calibration.get(table)
    return held.get(name) if isinstance(held, dict) else None


# From a calibration to labels


def lines_of(values, calibration, source):
    """The lines of a DCM with these values of a calibration."""
    yield f"* {source}"
    yield "KONSERVIERUNG_FORMAT 2.0"
    yield ""
    axes = {axis.name: axis for value in values for axis in value.axes.values() if axis.name}
    for axis in axes.values():
        yield from written_label(axis_label(axis, numbers_at(calibration, axis)), axis.key)
    for value in values:
        if value.scale.name not in axes:
            yield from written_label(label_of(value, calibration), value.scale.key)


def numbers_at(calibration, scale):
    """The numbers of a key, which is in the calibration."""
    held = held_at(calibration, scale.key)
    return held if held is not None else fail(f"{scale.place}: the calibration has no key {scale.key}")


def axis_label(scale, numbers):
    """The label of an axis that others share."""
    points = {"X": [scale.worth(number) for number in numbers], "Y": []}
    return Label(AXIS_KINDS[0], scale.name, 0, [len(numbers)], points, [[]], {"X": scale.unit or ""})


def label_of(value, calibration):
    """The label of an entry of the map."""
    scale, held = value.scale, numbers_at(calibration, value.scale)
    points = {axis.upper(): [one.worth(number) for number in numbers_at(calibration, one)] for axis, one in value.axes.items()}
    shared = {axis.upper(): one.name for axis, one in value.axes.items() if one.name}
    units = {**{axis.upper(): one.unit or "" for axis, one in value.axes.items()}, "W": scale.unit or ""}
    if scale.key in IS_AXIS:
        return axis_label(scale, held)
    rows = [[held]] if not value.axes else [held] if len(value.axes) == 1 else turned(value, held)
    kind = KINDS[len(value.axes)][2 if shared else 0]
    sizes = [len(points[axis]) for axis in points]
    rows = [[scale.worth(one) for one in row] for row in rows]
    return Label(kind, scale.name, 0, sizes, {"X": [], "Y": [], **points}, rows, units, shared)


def turned(value, rows):
    """The rows of a permit table, one for each point of Y; and back."""
    return rows if value.axes["y"].key == "permit.pedal" else list(map(list, zip(*rows)))


# From labels to a calibration


def numbers_of_labels(values, labels, name, told, is_partial):
    """What labels of a file say of a calibration: the number, or the list, by key. `told` takes what was rounded, or isn't
    there."""
    numbers = {}
    for value in values:
        found = labels.get(value.scale.name, [])
        if not found and is_partial:
            told.append(f"{value.scale.key} stays as it is: {name} has no {value.scale.name}")
            continue
        if len(found) != 1:
            fail(f"{name}: {value.scale.name}, of {value.scale.key}, " +
                 (f"stands in lines {', '.join(str(label.line) for label in found)}" if found else "isn't there"))
        place = f"{name}: line {found[0].line}: {value.scale.name}"
        for key, held in taken(place, value, found[0], labels, told):
            if numbers.setdefault(key, held) != held:
                fail(f"{place}: {key} has other points than in a label above")
    return numbers


def taken(place, value, label, labels, told):
    """(key, number or list) of a label: its axes, and itself."""
    kinds = AXIS_KINDS if value.scale.key in IS_AXIS else KINDS[len(value.axes)]
    if label.kind not in kinds:
        fail(f"{place} is a {label.kind}; {value.scale.key} needs one of {', '.join(kinds)}")
    if label.texts:
        yield value.scale.key, truth_of(place, value.scale, label.texts)
        return
    for axis, one in value.axes.items():
        check_axis(place, axis.upper(), one, label, labels)
        yield one.key, one.points(label, axis.upper(), told)
    if value.scale.key in IS_AXIS:
        check_unit(place, "X", value.scale, label)
        yield value.scale.key, value.scale.points(label, "X", told)
        return
    check_unit(place, "W", value.scale, label)
    rows = [value.scale.wholes(row, told, places_of(label, number)) for number, row in enumerate(label.rows)]
    held = turned(value, rows) if len(value.axes) == 2 else rows[0] if value.axes else rows[0][0]
    yield value.scale.key, truth_of(place, value.scale, [str(held)]) if value.scale.key == "permit.brake" else held


def places_of(label, row):
    """Where each number of a row stands, by the points of the label's axes."""
    above = f", Y {text_of_number(label.points['Y'][row])}" if label.points["Y"] else ""
    return [f" at X {text_of_number(point)}{above}" for point in label.points["X"]] or [""]


def truth_of(place, scale, texts):
    """A truth value, which is a text or a number."""
    truth = {"true": True, "1": True, "false": False, "0": False}.get(texts[0].lower()) if len(texts) == 1 else None
    needed = "true or false" if scale.key == "permit.brake" else "numbers"
    if truth is None or needed == "numbers":
        fail(f"{place} has {quoted(' '.join(texts))} where {scale.key} needs {needed}")
    return truth


def check_unit(place, of, scale, label):
    """Refuses another unit than that of the map."""
    unit = label.units.get(of, "")
    if scale.unit is not None and unit != scale.unit:
        fail(f"{place} has the unit {quoted(unit)}{'' if of == 'W' else f' of {of}'}, and the map {quoted(scale.unit)}")


def check_axis(place, axis, scale, label, labels):
    """Refuses an axis of another unit, name or points than the map, or the axis that it shares, has."""
    check_unit(place, axis, scale, label)
    name = label.shared.get(axis)
    if scale.name and name != scale.name:
        fail(f"{place} has {axis} from {name or 'no shared axis'}, and the map from {scale.name}")
    for shared in labels.get(name, []) if name else []:
        if shared.points["X"] != label.points[axis]:
            fail(f"{place} has other points of {axis} than {name}, line {shared.line}")
