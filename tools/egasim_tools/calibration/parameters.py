"""Numbers of a calibration file, or of the reference calibration."""

import os

from egasim_tools.base.files import TOP
from egasim_tools.base.toml import toml_of
from egasim_tools.base.tool import fail

WATCHES = {"pedal": "pairs", "plate": "pairs", "load": "pairs", "speed": "pairs", "torque": "torque", "answers": "answers"}
MOST_NUMBER = 1000000  # in a record or of a threshold; docs/FORMATS.md allows less


def calibration_of(name):
    """What a calibration file has, or that of the reference calibration."""
    return toml_of(name or os.path.join(TOP, "examples", "calibration", "reference.toml"))


def threshold_of(name, held=None):
    """The threshold of a calibration, in tenths of Nm; `held` is what it has, if it was read already."""
    permit = (held or calibration_of(name)).get("permit")
    threshold = permit.get("threshold") if isinstance(permit, dict) else None
    if type(threshold) is not int or not 0 <= threshold <= MOST_NUMBER:
        fail(f"{name or 'the reference calibration'} has no number permit.threshold")
    return threshold


def has_ramp(held):
    """Whether the permitted torque comes down a ramp by what a calibration has: it does by version 3 of the format."""
    return isinstance(held.get("permit"), dict) and "fall" in held["permit"]


def torque_weights_of(name, held):
    """How the excess of torque is debounced by what a calibration has: up, down and limit."""
    torque = held.get("torque")
    weights = [torque.get(key) if isinstance(torque, dict) else None for key in ("up", "down", "limit")]
    if not all(type(weight) is int and 0 <= weight <= MOST_NUMBER for weight in weights):
        fail(f"{name or 'the reference calibration'} has no numbers torque.up, down and limit")
    return weights


def weight_limits_of(name, held=None):
    """The weight at which each watch finds something, by a calibration; `held` is what it has, if it was read already."""
    tables, limits = held or calibration_of(name), {}
    for watch, key in WATCHES.items():
        table = tables.get(key)
        limits[watch] = table.get("limit") if isinstance(table, dict) else None
        if type(limits[watch]) is not int or limits[watch] < 1:
            fail(f"{name or 'the reference calibration'} has no number {key}.limit")
    return limits
