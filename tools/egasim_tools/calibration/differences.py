"""In what two calibrations differ, key by key, in numbers of the calibration and in physical units."""

from fractions import Fraction

from egasim_tools.base.toml import toml_text
from egasim_tools.calibration.label_map import AXES, SHARE, SPEED, TORQUE, WORTH, Scale, held_at

OF_QUESTIONS = {"pedal": SHARE, "plate": SHARE, "load": SHARE, "speed": SPEED, "raise": TORQUE, "used": SHARE, "estimate": TORQUE,
                "allowed": TORQUE}


def scales_of(values):
    """The scale of each key: that of a map's entries, or else that of docs/FORMATS.md."""
    scales = {key: scale_of(key, worth) for key, worth in WORTH.items()}
    return scales | {scale.key: scale for value in values for scale in (value.scale, *value.axes.values())}


def scale_of(key, worth):
    factor, unit = worth or (Fraction(1), None)
    return Scale(key, key, factor, unit, "nearest", None)


def differences(old, new, scales):
    """A line for each number in which a calibration differs from another one."""
    if old["version"] != new["version"]:
        yield f"version: {old['version']} is now {new['version']}"
    for key, scale in scales.items():
        yield from of_key(key, scale, held_at(old, key), held_at(new, key), points_said(key, scales, old, new))
    if len(old["question"]) != len(new["question"]):
        yield f"questions: {len(old['question'])} are now {len(new['question'])}"
    for number, (one, other) in enumerate(zip(old["question"], new["question"])):
        for key in one:
            scale = scale_of(key, OF_QUESTIONS.get(key))
            yield from of_key(f"question {number}, {key}", scale, one[key], other[key], lambda place: f"track {place[0] + 1}")


def of_key(name, scale, old, new, said):
    """A line for each number of a key; of lists of other lengths one for the whole. `said` tells a place in a list."""
    if old == new:
        return
    if isinstance(old, list) and isinstance(new, list) and form(old) == form(new):
        for place, one, other in places(old, new):
            if one != other:
                yield f"{name}, {said(place)}: {one} is now {other}{physical(scale, one, other)}"
    elif isinstance(old, list) or isinstance(new, list):
        yield f"{name}: {toml_text(old)} is now {toml_text(new)}"
    else:
        yield f"{name}: {text(old)} is now {text(new)}{physical(scale, old, new)}"


def text(value):
    return "absent" if value is None else toml_text(value)


def physical(scale, old, new):
    said = " is now ".join(scale.said(one) for one in (old, new) if one is not None)
    return f" ({said})" if scale.unit or scale.factor != 1 else ""


def form(value):
    return [form(one) for one in value] if isinstance(value, list) else None


def places(old, new, above=()):
    """(place, old, new) of each number of two lists of one form."""
    for number, (one, other) in enumerate(zip(old, new)):
        if isinstance(one, list):
            yield from places(one, other, (*above, number))
        else:
            yield (*above, number), one, other


def points_said(key, scales, old, new):
    """How a place of a key's list is told: by the points of its axes where they are the same, or else by numbers from 0."""
    axes = AXES.get(key, ())
    if any(held_at(old, axis) != held_at(new, axis) for axis in axes):
        return lambda place: " of ".join(f"{what} {number}" for what, number in zip(("number", "row"), reversed(place)))
    if not axes:
        return lambda place: f"point {place[0]}"
    return lambda place: ", ".join(point_said(axis, scales[axis], held_at(old, axis)[number]) for axis, number in zip(axes, place))


def point_said(axis, scale, number):
    unit = f" ({scale.said(number)})" if scale.factor != 1 else f" {scale.unit}" if scale.unit else ""
    return f"{axis.split('.')[1]} {number}{unit}"
