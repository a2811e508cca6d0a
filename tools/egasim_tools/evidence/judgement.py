"""Whether the runs of a campaign, recordings and a calibration are as a file of expectations says. All numbers are those
that the program prints."""

import fnmatch
from dataclasses import dataclass

from egasim_tools.evidence.conclusive_runs import cut_said
from egasim_tools.evidence.run_results import unsettled


@dataclass(frozen=True)
class Verdict:
    """Of which subject what was expected, whether it is so, and why. `is_so` is None if nothing was expected."""
    subject: str
    name: str
    is_so: bool | None
    words: str


def verdicts(expected, asking, is_strict):
    """The verdict on each line of a file of expectations, and on each run that no line names, by what is asked for them."""
    yield from limit_verdicts(expected, asking.limits)
    if expected.campaign:
        yield from run_verdicts(expected, asking.runs(), is_strict)
    for entry in expected.recordings:
        for name in entry.names:
            shown = asking.recording(name)
            yield from (verdict(name, check, shown, expected.units) for check in entry.checks)


def limit_verdicts(expected, limits):
    """Whether lines of `limits` are as great, or as small, as they have to be."""
    for check in expected.limits:
        line, bound, number = check.value
        told = limits()[line]
        is_so = told != "none" and (int(told) <= number if bound == "most" else int(told) >= number)
        yield Verdict("limits", check.name(), is_so, f"{line} is {expected.units.cell(line, told)}")


def run_verdicts(expected, runs, is_strict):
    """Whether each run is as the lines that name it say. A name that is that of no run, and a run of no line, are told."""
    named = set()
    for entry in expected.runs:
        for name in entry.names:
            matching = fnmatch.filter(runs, name)
            named.update(matching)
            if not matching:
                yield Verdict(name, "names a run", False, f"{expected.campaign} has no such run")
            for run in matching:
                yield from (verdict(run, check, runs[run], expected.units) for check in entry.checks)
    for run in runs:
        if run not in named:
            yield Verdict(run, "is named", False if is_strict else None, "no line names it")


def verdict(subject, check, shown, units):
    """Whether a run or a recording is as it is expected to be."""
    unseen = shown.unseen()
    is_so, words = (False, f"{unseen}, so nothing is shown of it") if unseen else JUDGES[check.key](shown, check.value, units)
    return Verdict(subject, check.name(), is_so, words)


def lasts(units, ticks):
    return f"{ticks} tick{'' if ticks == 1 else 's'}{f' ({units.time(ticks)})' if units else ''}"


# What each key asks: (whether it is so, why)


def sound(shown, _, __):
    if shown.row["class"] not in ("none", "lapse"):
        return False, f"it has a fault, {shown.row['class']}"
    why = not_driven(shown) or cut_said(shown.row) or shown.too_soon()
    return not why, why or "no watch finds anything"


def not_driven(shown, stops=True):
    """Why a run or a recording shows nothing of a drive, if it doesn't."""
    why = shown.idle(stops)
    return f"it shows nothing: {why}" if why else None


def room(shown, wanted, _):
    why = not_driven(shown) or shown.cut_said() or shown.too_soon()
    if why:
        return False, why
    left, watch = min((100 * (limit - weight) / limit, watch) for watch, (weight, limit) in shown.weights.items())
    weight, limit = shown.weights[watch]
    return left >= wanted, f"{watch} weighs {weight} of {limit}, which leaves {int(left)} %"


def cut(shown, allowed, _):
    row = shown.row
    if not allowed:
        why = not_driven(shown, stops=False) or shown.cut_said() or shown.too_soon()
        traps = f", and level 1 traps at {row['trap_at']}" if row["trap"] else ""
        return not why, why or f"it isn't cut{traps}"
    name = "first" if row["first"] == "start" else "cut"
    watch, tick = row[name], row[f"{name}_at"]
    if not watch:
        return False, f"it is off at {row['off_at']}, and no watch cuts it" if row["off_at"] else "it isn't cut"
    if shown.is_after_the_cut():
        return False, f"its fault comes at {row['onset']}, after the cut by {watch} at {tick}"
    if shown.mirrors_in_test():
        return False, f"it isn't shown: mirror finds something in a start-up test, at {tick}, and hides what comes later"
    if not row["off_at"]:
        return False, f"{watch} finds something at {tick}, and the stages don't go off"
    return watch in allowed, f"it is cut by {watch} at {tick}"


def after_excess(shown, most, units):
    why = unsettled(shown.row)
    if not why and shown.is_late():
        why = "the fault comes after the cut"
    if not why and max(shown.resets, default=0):
        why = ("of lapses in several power cycles the table doesn't show it" if shown.row["class"] == "lapse" else
               "of several power cycles the table doesn't show whether the fault, after the first excess, came before a cut"
               if int(shown.row["onset"] or 0) > int(shown.row["confirmed"]) else None)
    if why:
        return False, f"it isn't shown: {why}"
    reaction, confirmed = int(shown.row["reaction"]), shown.row["confirmed"]
    return reaction <= most, f"the stages are off for good {lasts(units, reaction)} after the excess is confirmed, at {confirmed}"


def after_fault(shown, most, units):
    onset, off = int(shown.row["onset"] or 0), int(shown.row["last_on"] or -1) + 1
    later = next((reset for reset in shown.resets if reset > onset), None)
    why = ("there is no fault" if shown.row["class"] == "none" else
           f"a reset at {later} begins another power cycle after the fault" if later is not None else
           "the stages are on at the end" if off == shown.ticks else "the fault comes after the cut" if shown.is_late() else
           "a start-up test is running at its last tick" if shown.is_in_test(shown.ticks - 1) else None)
    if why:
        return False, f"it isn't shown: {why}"
    return off - onset <= most, (f"the stages are off for good {lasts(units, off - onset)} after the fault" if off >= onset else
                                 f"the stages are off for good from {off} on, and the fault comes at {onset}")


def stretch(shown, most, units):
    row, ticks = shown.row, int(shown.row["stretch"])
    told = f"its longest excess has {lasts(units, ticks)}"
    hidden = f"its fault comes at {row['onset']}, after the cut" if shown.is_late() else shown.hidden
    why = f"it isn't shown: {hidden}" if hidden else not_driven(shown, stops=not row["confirmed"]) or shown.too_soon()
    return not why and ticks <= most, f"{why}; {told}" if why else told


JUDGES = {"sound": sound, "room": room, "cut": cut, "latest.after_excess": after_excess, "latest.after_fault": after_fault,
          "stretch": stretch}
