"""How the columns of a partner's lines are joined to the variables of an FMU: names, units, factors and rounding."""

import math
from fractions import Fraction

from egasim_tools.base.ranges import FULL, WORD
from egasim_tools.base.toml import check_keys
from egasim_tools.base.tool import fail
from egasim_tools.engine.fmi import VALUES

# What the FMU may be given at a tick, and what it has to show: each output's greatest number, and how it is rounded.
INPUTS = ("pedal", "speed", "raise", "reset", "brake", "throttle", "ignition", "on")
MOST = {"position": FULL, "load": WORD, "load1": WORD, "load2": WORD, "torque": WORD}
ROUNDED = {"position": round, "load": math.ceil, "load1": math.ceil, "load2": math.ceil, "torque": math.floor}
DIGITS = 6  # a value that lies this near to a whole number is that: 4.1 % are 41 per mille
KEYS = {"name": (str, "the name of a variable"), "unit": (str, "a text"), "factor": ((int, float), "a number"),
        "offset": ((int, float), "a number"), "clip": (bool, "true or false")}
# What the columns count in; and of units that an FMU may say, how many of that one is. A column that isn't here has none.
COUNTED = {**dict.fromkeys(("pedal", "throttle", "ignition", "position", "load", "load1", "load2"), "per mille"),
           **dict.fromkeys(("raise", "torque"), "tenths of Nm"), "speed": "rpm"}
UNITS = {"per mille": {"%": Fraction(10), "1": Fraction(1000)}, "tenths of Nm": {"N.m": Fraction(10)},
         "rpm": {"rpm": Fraction(1), "rad/s": Fraction(30 / math.pi)}}


class Joint:
    """A column and its variable. An input has the column's number times the factor, and the offset; an output's number is
    the variable's value times the factor, and the offset."""

    def __init__(self, place, column, told, variables):
        self.place, self.column = place, column
        if not isinstance(told, dict) or not isinstance(told.get("name"), str):
            fail(f"{place}: a table with the variable's name is wanted: {{ name = \"..\" }}")
        check_values(place, told, KEYS)
        self.variable, self.is_clipped = variable_at(place, told["name"], variables), told.get("clip", False)
        self.clipped, self.first = 0, None
        self.factor = exact(f"{place}.factor", told.get("factor", 1))
        self.offset = exact(f"{place}.offset", told.get("offset", 0))
        if not self.factor:
            fail(f"{place}.factor is 0: whatever {self.variable.name} is, the same would be told")
        if "unit" in told and told["unit"] != self.variable.unit:
            fail(f"{place}: {told['name']} is in {self.variable.unit or 'no unit'} by the FMU, and not in {told['unit']}")
        self.note = self.other_factor()
        if "unit" in told and self.note:
            fail(self.note)

    def other_factor(self):
        """What is told of a factor that isn't the one of the FMU's unit; None where it is, or nobody knows that one."""
        counted = COUNTED.get(self.column)
        of_one = UNITS.get(counted, {}).get(self.variable.unit)
        if of_one is None:
            return None
        wanted, way = (1 / of_one, f"{counted} to {self.variable.unit}") if self.column in INPUTS else (
            of_one, f"{self.variable.unit} to {counted}")
        if abs(self.factor / wanted - 1) < Fraction(1, 1000):
            return None
        return f"{self.place}.factor is {float(self.factor):.6g}, and from {way} it is {float(wanted):.6g}"

    def given(self, number):
        """The value of an input at a tick."""
        value = number * self.factor + self.offset
        if self.variable.kind == "Boolean":
            return int(value != 0)
        return float(value) if self.variable.kind == "Real" else round(value)

    def shown(self, tick, value):
        """The number of an output at a tick."""
        if not math.isfinite(value):
            fail(f"tick {tick}: {self.variable.name} is {value}")
        number = ROUNDED[self.column](round(Fraction(value) * self.factor + self.offset, DIGITS))
        within = max(0, min(MOST[self.column], number))
        if within != number and not self.is_clipped:
            fail(f"tick {tick}: {self.column} is {number}, by {self.variable.name} = {value}; it may be 0 to {MOST[self.column]}")
        if within != number:
            self.clipped, self.first = self.clipped + 1, tick if self.first is None else self.first
        return within


def check_values(place, told, keys):
    """Ends if a table has a key that isn't one of these, or that holds something else than it is to."""
    check_keys(place, told, keys)
    for key, value in told.items():
        kind, said = keys[key]
        if not isinstance(value, kind) or kind is not bool and isinstance(value, bool):
            fail(f"{place}: {key} has to be {said}")


def variable_at(place, name, variables):
    """The variable of this name, if it holds a number."""
    if name not in variables:
        fail(f"{place}: the FMU has no variable {name}")
    if variables[name].kind not in VALUES:
        fail(f"{place}: {name} is of the kind {variables[name].kind}, which is none of {', '.join(VALUES)}")
    return variables[name]


def exact(place, number):
    """A number as it was written: 0.1 is a tenth."""
    return Fraction(str(number)) if math.isfinite(number) else fail(f"{place}: {number} is no number to count with")
