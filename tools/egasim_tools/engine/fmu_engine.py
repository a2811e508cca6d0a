"""An engine that is an FMU: what the file that joins it says, and its steps."""

import math
from fractions import Fraction

from egasim_tools.base.toml import toml_of
from egasim_tools.base.ranges import FULL
from egasim_tools.base.tool import fail
from egasim_tools.base.units import NANOSECONDS, tick_of
from egasim_tools.engine.fmi import VALUES
from egasim_tools.engine.fmu_description import unpacked
from egasim_tools.engine.variable_map import INPUTS, MOST, Joint, check_values, exact, variable_at
from egasim_tools.measurement.traces import COLUMNS, drive_of

KEYS = {"fmu": (str, "the name of a file"), "drive": (str, "the name of a file"),
        "tick": ((int, float, str), 'a number of seconds, or a time such as "10ms"'), "resets": (bool, "true or false"),
        "kt": (int, "a whole number"), **dict.fromkeys(("inputs", "outputs", "start"), (dict, "a table"))}
NEEDED = ("fmu", "drive", "tick", "inputs", "outputs")
SHOWN = ("output", "local")  # what a variable may be for that an engine shows: no other one changes by what it is given


def commands(drive, told):
    """Throttle, ignition, whether the stages are on, and where a fault holds the plate, or None: what the FMU is given at
    a tick of this row, by the line that tells what is commanded."""
    held = None if told["next_held"] == "-" else int(told["next_held"])
    is_on = told["next_on"] == "1" and not drive[COLUMNS.index("reset")]
    throttle, ignition = (min(FULL, int(told[f"next_{name}"])) if is_on else 0 for name in ("throttle", "ignition"))
    return throttle if held is None else held, ignition, is_on, held


class Engine:
    """What a file joins: the FMU's description, the drive, and the joints of inputs and outputs."""

    def __init__(self, name, room):
        held = checked(name)
        self.drive, self.description = drive_of(held["drive"]), unpacked(held["fmu"], room)
        self.tick, self.resets, self.kt = seconds_of(name, held["tick"]), held.get("resets", True), held.get("kt")
        variables = self.description.variables
        self.inputs, self.outputs = (
            {column: Joint(f"{name}: {key}.{column}", column, told, variables) for column, told in held[key].items()}
            for key in ("inputs", "outputs"))
        self.start = [(variable_at(f"{name}: start", variable, variables), value)
                      for variable, value in held.get("start", {}).items()]
        self.steps = 0
        self.refuse(name)

    def refuse(self, name):
        """Ends if something isn't given a value, or shown, or isn't what it has to be."""
        if not self.tick > 0:
            fail(f"{name}: tick has to be above 0")
        for column in [*self.inputs, *self.outputs]:
            if column not in (INPUTS if column in self.inputs else MOST):
                fail(f"{name}: no input {column}" if column in self.inputs else f"{name}: no output {column}")
        loads = {"load", "load1", "load2"} & set(self.outputs)
        if not {"position", "torque"} <= set(self.outputs) or loads not in ({"load"}, {"load1", "load2"}, set()):
            fail(f"{name}: the outputs are position, torque, and load, or load1 and load2")
        if loads and self.kt is not None:
            fail(f"{name}: kt stands beside an output {min(loads)}: the load is that of the output, or by kt of the torque")
        if not loads and (self.kt is None or self.kt < 1):
            fail(f"{name}: either an output load, or kt, above 0, is needed")
        for joint in self.inputs.values():
            if joint.variable.causality != "input":
                fail(f"{joint.place}: {joint.variable.name} is no input of the FMU, but of the kind {joint.variable.causality}")
        for joint in self.outputs.values():
            if joint.variable.causality not in SHOWN:
                fail(f"{joint.place}: {joint.variable.name} is no output of the FMU, but of the kind {joint.variable.causality}")
        for variable, value in self.start:
            if type(value) not in {"Real": (int, float), "Integer": (int,), "Boolean": (bool,)}[variable.kind]:
                fail(f"{name}: start: {variable.name} has to be of the kind {variable.kind}")
            if not math.isfinite(value):
                fail(f"{name}: start: {variable.name} is {value}, which is no number to begin with")
        given = {joint.variable.name for joint in self.inputs.values()} | {variable.name for variable, _ in self.start}
        for variable in self.description.variables.values():
            if variable.causality == "input" and variable.kind in VALUES and variable.name not in given:
                fail(f"{name}: the FMU's input {variable.name} stands neither in [inputs] nor in [start]")

    def begin(self, instance):
        instance.begin(self.start)

    def step(self, instance, tick, drive, throttle, ignition, is_on, held):
        """One tick. Answers the position, both loads and the torque."""
        if self.resets and drive[COLUMNS.index("reset")] and self.steps:
            instance.reset()
            self.begin(instance)
            self.steps = 0
        given = dict(zip(INPUTS, [*drive, throttle, ignition, int(is_on)]))
        instance.set([(joint.variable, joint.given(given[column])) for column, joint in self.inputs.items()])
        instance.step(float(self.steps * self.tick), float(self.tick))
        self.steps += 1
        values = instance.get([joint.variable for joint in self.outputs.values()])
        shown = {column: joint.shown(tick, values[joint.variable.name]) for column, joint in self.outputs.items()}
        if self.kt is not None:
            shown["load"] = -(-shown["torque"] * FULL // self.kt)
        loads = [shown.get(track, shown.get("load")) for track in ("load1", "load2")]
        return shown["position"] if held is None else held, *loads, shown["torque"]

    def notes(self):
        """What was clipped, and each factor that isn't that of the FMU's unit."""
        yield from (joint.note for joint in [*self.inputs.values(), *self.outputs.values()] if joint.note)
        for column, joint in self.outputs.items():
            if joint.clipped:
                yield f"{column} was out of range at {joint.clipped} ticks, first at tick {joint.first}, and counted as in range"


def seconds_of(name, said):
    """The seconds of a tick, told by a number or as a time."""
    return Fraction(tick_of(f"{name}: tick", said), NANOSECONDS["s"]) if isinstance(said, str) else exact(f"{name}: tick", said)


def checked(name):
    """What a file that joins an FMU holds, with its keys looked at."""
    held = toml_of(name)
    check_values(name, held, KEYS)
    for key in NEEDED:
        if key not in held:
            fail(f"{name}: {key} is missing")
    return held
