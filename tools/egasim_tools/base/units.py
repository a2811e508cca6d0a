"""Units: how long a tick is, and numbers of ticks, torques and shares told in units beside their own."""

import os
import re
from fractions import Fraction

from egasim_tools.base.toml import toml_of
from egasim_tools.base.tool import fail, refuse_word

NAME = "units.toml"  # beside a calibration: how long its ticks are, `tick = "10ms"`
TIME = re.compile(r"(\d{1,9}(?:\.\d{1,9})?) ?(us|ms|s)")
NANOSECONDS = {"ns": 1, "us": 10**3, "ms": 10**6, "s": 10**9}
MOST_TICK = 10 * NANOSECONDS["s"]
MOST_DIGITS = 400  # behind a point
LONG = 10 * NANOSECONDS["s"]  # from here on a time is told in seconds
# What the columns of `table` and `margins`, and the lines of `limits`, are counted in.
OF_TICKS = ("onset", "first_at", "cut_at", "off_at", "last_on", "confirmed", "stretch", "reaction", "bound", "trap_at", "lapse",
            "excess", "test", "spacing", "ramp", "missed")
OF_TORQUE = ("peak", "surplus")  # tenths of Nm


def decimal(number):
    """A fraction whose denominator divides a power of ten, with as many digits as it needs; others raise ValueError."""
    sign, number, digits = "-" if number < 0 else "", abs(Fraction(number)), 0
    if 10**MOST_DIGITS % number.denominator:
        raise ValueError(f"{number} has no end as a decimal")
    while number.denominator != 1:
        number, digits = number * 10, digits + 1
    said = f"{number.numerator:0{digits + 1}}"
    return sign + (f"{said[:-digits]}.{said[-digits:]}" if digits else said)


def time_of(said):
    """The nanoseconds of a time such as 10ms, 2.5ms or 0.01s; None if it is no such time."""
    match = TIME.fullmatch(said) if isinstance(said, str) and said.isascii() else None
    time = Fraction(match[1]) * NANOSECONDS[match[2]] if match else None
    return int(time) if match and time.denominator == 1 else None


def tick_of(name, said, refuse=fail):
    """The nanoseconds of a tick; `name` says where its length stands."""
    time = time_of(said)
    if time is None or not 0 < time <= MOST_TICK:
        refuse(f"{name} {said} is no length of a tick, such as 10ms, 2.5ms or 0.02s, of 10 s at the most")
    return time


def time_told(nanoseconds):
    """A time in ms, or a long one in s."""
    unit = "s" if abs(nanoseconds) >= LONG else "ms"
    return f"{decimal(Fraction(nanoseconds, NANOSECONDS[unit]))} {unit}"


class Units:
    """How numbers are told. Where nobody has said how long a tick is, each is told as it stands."""

    def __init__(self, tick=None):
        self.tick = tick  # in nanoseconds

    def __bool__(self):
        return self.tick is not None

    def beside(self, number, told, unit):
        """A number, its own unit if that is said, and what it is in the other one."""
        return f"{number}{unit and f' {unit}'} ({told(int(number))})" if self else f"{number}{unit and f' {unit}'}"

    def time(self, ticks):
        return time_told(ticks * self.tick)

    def ticks(self, number, unit=""):
        """12 as `12 (120 ms)`, or with the unit `ticks` as `12 ticks (120 ms)`."""
        return self.beside(number, self.time, unit)

    def torque(self, tenths, unit=""):
        """705 as `705 (70.5 Nm)`."""
        return self.beside(tenths, lambda number: f"{decimal(Fraction(number, 10))} Nm", unit)

    def share(self, per_mille, unit=""):
        """305 as `305 (30.5 %)`."""
        return self.beside(per_mille, lambda number: f"{decimal(Fraction(number, 10))} %", unit)

    def newton_metres(self, tenths):
        """What stands at a torque of an axis: tenths of Nm, or Nm where units are told."""
        return decimal(Fraction(tenths, 10)) if self else tenths

    def of_torque(self):
        return "Nm" if self else "tenths of Nm"

    def times(self, ticks, last):
        """What stands below ticks of an axis that ends at `last`: the unit, and a number for each tick."""
        unit = "s" if last * self.tick >= LONG else "ms"
        return unit, [decimal(Fraction(tick * self.tick, NANOSECONDS[unit])) for tick in ticks]

    def cell(self, name, said):
        """What stands in a column of `table` or `margins`, or a line of `limits`, as numbers of that name are told."""
        if not self or not re.fullmatch(r"-?[0-9]+", str(said)):
            return said
        return self.ticks(said) if name in OF_TICKS else self.torque(said) if name in OF_TORQUE else said


def beside(calibration):
    """The units.toml beside a calibration, if it is there."""
    path = os.path.join(os.path.dirname(calibration), NAME)
    return path if os.path.lexists(path) else None


def units_beside(calibration):
    """The units that units.toml beside a calibration says, if it is there."""
    path = beside(calibration)
    if path is None:
        return Units()
    held = toml_of(path)
    if set(held) != {"tick"}:
        fail(f'{path}: units have one key, such as tick = "10ms"')
    return Units(tick_of(f"{path}: tick", held["tick"]))


def units_of(said, calibrations, own=None):
    """The units of a call: a tick as --tick says, or `own` (the place and the text of another file's), or units.toml beside
    the calibrations. Where several of these say how long it is, they have to say the same."""
    told = [("--tick", tick_of("--tick", said))] if said is not None else []
    told += [(own[0], tick_of(*own))] if own else []
    is_said, paths = bool(told), [beside(calibration) for calibration in calibrations if calibration]
    told += [(beside(calibration), units_beside(calibration).tick) for calibration in calibrations if calibration and beside(calibration)]
    if not told:
        return Units()
    place, tick = told[0]
    for other, length in told:
        if length != tick:
            fail(f"a tick has one length, and {place} says {time_told(tick)}, {other} {time_told(length)}")
    if None in paths and not is_said:
        fail(f"{place} says how long a tick is, and none stands beside another calibration: --tick says it for all")
    return Units(tick)


def ticks_of(word, said, units):
    """The ticks of a time behind a word of the call, as a fraction; its text is 300ms or so, or a number of ticks."""
    if said.isdigit():
        return Fraction(int(said))
    if not units:
        refuse_word(f"{word} {said}: how long a tick is has to be said (--tick 10ms)")
    return Fraction(time_of(said), units.tick)
