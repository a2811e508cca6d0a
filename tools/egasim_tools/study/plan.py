"""What a plan of egasim study holds, and the runs that it comes to."""

import itertools
import random

from egasim_tools.base.ranges import LIST_LENGTH, WORD
from egasim_tools.base.toml import check_keys, toml_of, toml_text, whole_in
from egasim_tools.base.tool import fail

# The numbers of `sweep` for each class. A key with a list here takes lists.
FAULTS = {
    "script": {"track": 4, "values": [0]},
    "offset": {"track": 0, "add": 200},
    "bus": {"mask": 1},
    "plate": {"at": 1000},
    "skip": {"module": 3},
    "disturb": {"module": 3, "mask": 4096},
    "flip": {"word": 3, "mask": 1},
    "halt": {},
    "timing": {"offset": 99},
    "wild": {"questions": [65535], "opens": [False]},
    "path1-closed": {},
    "path2-closed": {},
    "path-open": {"path": 1},
    "lapse": {"after": [0]},
}
MOST_DRAWN = 1000000
SHARE, SHARED = "share", ("onset", "after", "every")  # of 1000 ticks, so many are missed; and the keys that are drawn by it
PARAMETERS = sorted({"every", SHARE, *(key for keys in FAULTS.values() for key in keys)})


def checked_plan(name):
    """The plan of a file, with a fault of its own for each class."""
    plan = {"engines": ["gasoline"], "slices": [None], "seed": 1, "calibration": None, **toml_of(name)}
    check_keys(name, plan, ("drives", "images", "engines", "slices", "calibration", "seed", "fault"))
    for key in ("drives", "images", "engines", "slices", "fault"):
        if not isinstance(plan.get(key), list) or not plan[key]:
            fail(f"{name}: {key} must be a list, and not an empty one")
    if type(plan["seed"]) is not int or not isinstance(plan["calibration"], str | None):
        fail(f"{name}: seed must be a whole number, calibration the name of a file")
    plan["fault"] = [one for number, fault in enumerate(plan["fault"], 1) for one in faults_of(name, number, fault)]
    return plan


def faults_of(name, number, fault):
    """A fault of the plan for each of its classes, with all keys."""
    if not isinstance(fault, dict) or "class" not in fault:
        fail(f"{name}: fault {number} has no class")
    kinds = fault["class"] if isinstance(fault["class"], list) else [fault["class"]]
    if not kinds:
        fail(f"{name}: fault {number} has no class")
    for kind in kinds:
        if kind not in ("none", *FAULTS):
            fail(f"{name}: fault {number}: no class {kind}; the classes are {', '.join(['none', *FAULTS])}")
        keys = {"class", "draw"} if kind == "none" else {"class", "draw", "onset", *FAULTS[kind]}
        keys |= {"every", SHARE} if kind == "lapse" else set()
        if set(fault) - keys:
            fail(f"{name}: fault {number}: {kind} has no key {sorted(set(fault) - keys)[0]}")
        if SHARE in fault:
            check_share(f"{name}: fault {number}", fault)
        elif kind != "none" and "onset" not in fault:
            fail(f"{name}: fault {number} has no onset")
        whole_in(f"{name}: fault {number}: draw, for each class,", fault.get("draw", 1), MOST_DRAWN, 1)
        own = {} if SHARE in fault else FAULTS.get(kind, {})
        yield {"class": kind, **own, **{key: fault[key] for key in fault if key != "class"}}


def check_share(place, fault):
    """Refuses a fault with a share of ticks from which no runs are drawn."""
    if set(fault) & set(SHARED) or "draw" not in fault:
        fail(f"{place}: a share of ticks is drawn: it needs draw, and has no {', '.join(SHARED)}")
    values = choices("lapse", SHARE, fault[SHARE], None)
    if not all(type(value) is int and 1 <= value <= 1000 for value in values):
        fail(f"{place}: a share is a whole number from 1 to 1000, so many of 1000 ticks")


def numbers_of(value, last):
    """The numbers of a range of the plan. `last` is its end where it names none."""
    first, end, step = value.get("from", 0), value.get("to", last), value.get("step", 1)
    if {type(first), type(end), type(step)} != {int} or step < 1 or set(value) - {"from", "to", "step"} \
            or not -WORD <= first <= end <= WORD:
        fail(f"the plan has a range that is none: {toml_text(value)}")
    return range(first, end + 1, step)


def choices(kind, key, value, last):
    """The values of a key that a fault of the plan allows."""
    if value == []:
        fail(f"{kind}: {key} is an empty list")
    if isinstance(value, dict):
        if "length" in value or isinstance(FAULTS[kind].get(key), list):
            fail(f"{kind}: a list of {key} is drawn: its range needs length, and the fault draw")
        return numbers_of(value, last if key == "onset" else None)
    holds_list = isinstance(FAULTS[kind].get(key), list)
    is_list = isinstance(value, list) and (not holds_list or all(isinstance(one, list) for one in value))
    return value if is_list else [value]


def drawn_from(kind, key, value, last):
    """What a key is drawn from, and how many of these make a list; None is a single one."""
    if not isinstance(value, dict) or "length" not in value:
        return choices(kind, key, value, last), None
    rest = {name: number for name, number in value.items() if name != "length"}
    numbers = [False, True] if key == "opens" else numbers_of(rest, None)
    if type(value["length"]) is not int or not 1 <= value["length"] <= LIST_LENGTH:
        fail(f"{kind}: the length of {key} isn't a whole number from 1 to {LIST_LENGTH}")
    return numbers, value["length"]


def drawn(draws, key, allowed, length):
    """One value of a key, by the generator `draws`."""
    if length is None:
        return allowed[int(draws.random() * len(allowed))]
    values = [allowed[int(draws.random() * len(allowed))] for _ in range(length)]
    return sorted(set(values)) if key == "after" else values


def drawn_runs(draws, allowed, count):
    """The values of so many runs, each key's of what drawn_from gives for it."""
    for _ in range(count):
        yield [drawn(draws, *one) for one in allowed]


def missed_runs(draws, shares, count, ticks):
    """The values of SHARED and SHARE of so many runs of each share, on a drive of so many ticks."""
    for share in shares:
        span = min(ticks, LIST_LENGTH * 1000 // share)  # a lapse names no more ticks; on a longer drive they come again
        missed = (span * share + 500) // 1000
        if not missed:
            fail(f"lapse: share {share}: so many of 1000 ticks are less than one of {ticks}")
        for _ in range(count):
            after = set()
            while len(after) < missed:
                after.add(int(draws.random() * span))
            yield 0, sorted(after), 0 if span == ticks else span, share


def faults_on(plan, draws, ticks):
    """Each fault of the plan on a drive of so many ticks: its class, its keys, and run by run the values of these."""
    for fault in plan["fault"]:
        kind, count = fault["class"], fault.get("draw")
        spec = {key: value for key, value in fault.items() if key not in ("class", "draw")}
        if kind == "none":
            yield kind, [], [()]
        elif SHARE in spec:
            yield kind, [*SHARED, SHARE], missed_runs(draws, choices(kind, SHARE, spec[SHARE], None), count, ticks)
        elif count is None:
            yield kind, list(spec), itertools.product(*[choices(kind, key, value, ticks - 1) for key, value in spec.items()])
        else:
            allowed = [(key, *drawn_from(kind, key, value, ticks - 1)) for key, value in spec.items()]
            yield kind, list(spec), drawn_runs(draws, allowed, count)


def groups_of(plan, ticks):
    """Each drive of the plan with each image, slice plan and engine, and the faults under which they are played."""
    draws = random.Random(plan["seed"])
    for group in itertools.product(plan["drives"], plan["images"], range(len(plan["slices"])), plan["engines"]):
        yield *group, faults_on(plan, draws, ticks[group[0]])
