"""What a file of expectations says, checked: the form that `egasim judge --help` tells."""

from dataclasses import dataclass

from egasim_tools.base.toml import check_keys, toml_of, toml_text, whole_in
from egasim_tools.base.tool import fail
from egasim_tools.base.units import time_of, units_of

TIMES = ("reaction", "lapse", "excess", "test", "spacing", "stretch", "ramp", "missed")  # lines of `limits` in ticks
LIMITS = (*TIMES, "verdicts", "peak")
CUTTING = ("mirror", "plate", "load", "speed", "torque", "answers", "start")
MOST_NUMBER, MOST_TICKS = 65535, 4294967295


@dataclass(frozen=True)
class Check:
    """What is expected of a run, a recording or a line of `limits`: the key, its value as the file has it, the value."""
    key: str
    said: str
    value: object

    def name(self):
        return f"{self.key} = {self.said}"


@dataclass(frozen=True)
class Entry:
    """A table of the file: names of runs, or of a file with readings, and what is expected of each."""
    place: str
    names: tuple
    checks: tuple


class Expected:
    """A file of expectations. How long a tick is stands behind --tick, in the file, or beside the calibration, and is the same
    wherever it stands."""

    def __init__(self, name, tick):
        self.name, held = name, toml_of(name)
        check_keys(name, held, ("campaign", "calibration", "tick", "limits", "expect", "recording"))
        self.campaign = file_of(f"{name}: campaign", held.get("campaign"))
        self.calibration = file_of(f"{name}: calibration", held.get("calibration"))
        own = (f"{name}: tick", held["tick"]) if "tick" in held else None
        self.units = units_of(tick, [self.calibration], own)
        self.limits = list(limits_of(f"{name}: limits", self.units, held.get("limits", {})))
        self.runs = [self.entry(place, table, "run") for place, table in tables_of(name, held, "expect")]
        self.recordings = [self.entry(place, table, "file") for place, table in tables_of(name, held, "recording")]
        if bool(self.runs) != bool(self.campaign):
            fail(f"{name}: {'a campaign' if self.runs else '[[expect]]'} is missing")
        if not (self.limits or self.runs or self.recordings):
            fail(f"{name} expects nothing")

    def entry(self, place, table, key):
        """What a table expects; the names are those of its key `run` or `file`."""
        names = table.get(key)
        names = names if isinstance(names, list) else [names]
        if not names or not all(isinstance(name, str) and name for name in names):
            fail(f"{place}: {key} must be a name, or a list of names")
        check_keys(place, table, (key, *(KINDS if key == "run" else RECORDED)))
        checks = [check for one, value in table.items() if one != key
                  for check in KINDS[one](f"{place}: {one}", self.units, one, value)]
        return Entry(place, tuple(names), tuple(checks)) if checks else fail(f"{place} expects nothing")


def tables_of(name, held, key):
    """The tables of an array, each with its place."""
    tables = held.get(key, [])
    if not isinstance(tables, list) or not all(isinstance(table, dict) for table in tables):
        fail(f"{name}: {key} must be tables, [[{key}]]")
    return [(f"{name}: {key} {number}", table) for number, table in enumerate(tables, 1)]


def file_of(place, value):
    if value is not None and (not isinstance(value, str) or not value or value.startswith("-")):
        fail(f"{place} must be the name of a file")
    return value


def ticks_of(place, units, value, is_least=False):
    """The ticks of a time, which is a number of them or a text such as "30 ms". What may be reached at most is rounded down
    to whole ticks, what at least up."""
    if isinstance(value, str):
        time = time_of(value)
        if time is None:
            fail(f'{place} must be a number of ticks, or a time such as "30 ms"')
        if not units:
            fail(f'{place} is a time, and the file has no tick = "10 ms"')
        value = -(-time // units.tick) if is_least else time // units.tick
    return whole_in(place, value, MOST_TICKS)


def limits_of(place, units, table):
    """What is expected of lines of `limits`. A number is the greatest that a line may have."""
    check_keys(place, table, LIMITS)
    for line, value in table.items():
        bounds = value if isinstance(value, dict) else {"most": value}
        check_keys(f"{place}: {line}", bounds, ("least", "most"))
        for bound, said in bounds.items():
            key = f"{line}.{bound}" if bounds is value else line
            where = f"{place}: {key}"
            number = ticks_of(where, units, said, bound == "least") if line in TIMES else whole_in(where, said, MOST_NUMBER)
            yield Check(key, toml_text(said), (line, bound, number))


# What is expected of a run or a recording, by the key


def truth(place, _, key, value):
    yield Check(key, "true", True) if value is True else fail(f"{place} must be true")


def per_cent(place, _, key, value):
    yield Check(key, toml_text(value), whole_in(place, value, 100))


def time(place, units, key, value):
    yield Check(key, toml_text(value), ticks_of(place, units, value))


def watches(place, _, key, value):
    """Which watches may cut; none of them if it is false."""
    names = list(CUTTING) if value is True else [] if value is False else value if isinstance(value, list) else [value]
    if not all(name in CUTTING for name in names) or value == []:
        fail(f"{place} must be true, false, or some of {', '.join(CUTTING)}")
    yield Check(key, toml_text(value), names)


def latest(place, units, key, value):
    """How late the stages are off for good, after the fault's onset or the confirmed excess."""
    if not isinstance(value, dict) or not value:
        fail(f"{place} must say latest.after_fault or latest.after_excess")
    check_keys(place, value, ("after_fault", "after_excess"))
    for event, ticks in value.items():
        yield Check(f"{key}.{event}", toml_text(ticks), ticks_of(f"{place}.{event}", units, ticks))


KINDS = {"sound": truth, "room": per_cent, "cut": watches, "latest": latest, "stretch": time}
RECORDED = ("sound", "room", "cut", "stretch")  # keys of a recording, of which no fault and no true excess is known
