"""The verdict of a report: what fits and what doesn't, a line each, the worst first."""

from html import escape

from egasim_tools.base.command_line import Word
from egasim_tools.base.ranges import FULL, SPEED
from egasim_tools.base.units import Units
from egasim_tools.evidence.conclusive_runs import cut_by
from egasim_tools.evidence.run_results import SWITCHES_OFF, lacking

FAILS, OPEN, FITS = "Doesn't fit", "Not judged", "Fits"  # the worst first
MOST_NAMES = 10  # that a line names
RANGES = {"pedal": FULL, "plate": FULL, "load": FULL, "speed": SPEED}  # of what a drive may have
WITHOUT_LAPSES, WITHOUT_HELD = "--without-lapses", "--without-held-torque"  # words of find and report
SAID = {WITHOUT_LAPSES: "level 2 never misses a tick", WITHOUT_HELD: "no torque is held when the demand falls"}
SAYS = tuple(Word(word, f"you show that {told}; the result says so") for word, told in SAID.items())


def said_in(values):
    """Which of these words a call has."""
    return [word for word in SAID if getattr(values, word.lstrip("-").replace("-", "_"))]


def verdict(played, asked):
    """The verdict as HTML: a sentence, and below it a line for each point."""
    judged = points(played, asked)
    yield f'<div class="verdict"><p><strong>{written(sentence([state for state, _ in judged]))}</strong></p><ul>'
    for state, words in judged:
        yield f"<li>{f'<strong>{state}:</strong>' if state == FAILS else f'{state}:'} {written(words)}</li>"
    yield "</ul></div>"


def written(words):
    return escape(words, quote=False)


def sentence(states):
    fails, leaves, count = states.count(FAILS), states.count(OPEN), f"of {len(states)} points"
    not_judged = f"{leaves} more {'is' if leaves == 1 else 'are'}n't judged"
    if fails:
        return f"It doesn't fit, in {fails} {count}{f'; {not_judged}' if leaves else ''}."
    return f"Not judged, in {leaves} {count}." if leaves else f"It fits, in all {len(states)} points."


def points(played, asked):
    """(state, words) of each point, the worst first."""
    judged = [*beyond_point(played),
              listed_point(played, asked), lapse_point(played, asked), cut_point(played), room_point(played, asked),
              pairs_point(played, asked), misses_point(played), peak_point(played), questions_point(played), evidence_point(played)]
    return sorted(judged, key=lambda point: [FAILS, OPEN, FITS].index(point[0]))


def named(names):
    names = list(names)
    return ", ".join(names[:MOST_NAMES]) + (f" and {len(names) - MOST_NAMES} more" if len(names) > MOST_NAMES else "")


def beyond_point(played):
    """What is greater than a limit that is proved: there is none, unless the program isn't the proved one."""
    beyond = [f"{name} of {row['run']}" for row in played.rows
              for name in (("peak",) if row["class"] == "lapse" else ("reaction", "stretch", "peak"))
              if int(row[name] or 0) > int(played.limits[name])]
    beyond += [f"reaction of {kind} in the sweep of {sweep.runs[0]}" for sweep in played.sweeps
               for kind, reaction in sweep.reactions.items()
               if kind != "lapse" and (reaction or 0) > int(played.limits["reaction"])]
    beyond += [f"ticks until {run} is found" for one in played.taken.values() for run in one.beyond]
    return [(FAILS, f"Against what is proved, more than limits allow: {named(beyond)}.")] if beyond else []


def held_of(limits, said=()):
    """How many ticks after the fall of the demand a held torque may be permitted, since the permitted torque comes down the
    ramp: none if a word of the call says that none is held. None if the permitted torque never falls."""
    if limits["ramp"] == "none":
        return None
    return 0 if WITHOUT_HELD in said else max(0, int(limits["ramp"]) - 1)


def is_on_first_ramp(tick, limits):
    """Whether a ramp that began before a recording may go on at one of its ticks."""
    return limits["ramp"] == "none" or tick < int(limits["ramp"])


def first_ramp_said(name, tick):
    return (f"{name} at {tick}: fewer than `ramp` ticks lie before it, and before the first nothing was permitted. If the recording "
            "begins while the permitted torque comes down, this may be no excess; let it begin earlier.")


def listed_point(played, asked):
    """Whether an excess ends in time under the listed faults, with a ramp from the fall of the demand on."""
    held, under = held_of(played.limits, asked.said), "Under at most one listed fault"
    if held is None:
        return FAILS, (f"{under} a torque may be held for ever: by permit.fall = 0 the permitted torque never falls (ramp none). "
                       "A calibration without a ramp is of version 1 or 2.")
    if played.has_ramp and WITHOUT_HELD in asked.said:
        under += f", and where {SAID[WITHOUT_HELD]}, as was said ({WITHOUT_HELD}),"
    return time_point(under, int(played.limits["stretch"]), asked, played.units, held)


def lapse_point(played, asked):
    """Whether an excess ends in time under lapses, unless the words of the call say that there are none."""
    if WITHOUT_LAPSES in asked.said:
        return FITS, f"No lapse, a class which isn't listed, is judged: {SAID[WITHOUT_LAPSES]}, as was said ({WITHOUT_LAPSES})."
    under, missed = "Under lapses, which aren't listed,", played.limits["missed"]
    if missed == "none":
        return FAILS, (f"{under} no bound holds for how long an excess lasts, but for those of claim 93: with a ramp (permit.fall) what level "
                       "2 permits doesn't fall at the ticks that it misses, and so may stand above what is permitted. With fall 5 and one tick in "
                       "100 missed an excess can last for ever. Where level 2 never misses a tick, --without-lapses says so.")
    return time_point(under, int(missed), asked, played.units, held_of(played.limits, asked.said) or 0)


def time_point(under, ticks, asked, units=Units(), held=0):
    """Whether an excess ends in time (docs/CALIBRATING.md, "Step by step"), counted with the ticks before it for which the
    torque is held on the ramp."""
    lasts = f"{under} an excess lasts {units.ticks(ticks, 'ticks')} in a row at the most"
    if held:
        ticks += held
        lasts += (f", and from the fall of the demand {units.ticks(ticks, 'ticks')}, of which {units.ticks(held)} on the ramp (if no "
                  "raise is above the permit table)")
    if asked.tolerant is None:
        return OPEN, f"{lasts}; how many are tolerated wasn't said (--tolerant TIME)."
    left = left_of(asked)
    less = f"{units.ticks(asked.tolerant)} less 1, since it may begin between two ticks"
    if asked.falls is not None:
        less += f", and less {units.ticks(asked.falls)} for the torque to fall after the cut"
    if ticks > left:
        return FAILS, f"{lasts}, and only {units.ticks(left)} are tolerated: {less}."
    if asked.falls is None:
        return OPEN, f"{lasts}, and at most {units.ticks(left)} are tolerated: {less}. How long the torque takes to fall wasn't said (--falls TIME)."
    return FITS, f"{lasts}, and {units.ticks(left)} are tolerated: {less}."


def left_of(asked):
    """The ticks that are left for an excess of those that are tolerated."""
    return max(0, asked.tolerant - 1 - (asked.falls or 0))


def cut_point(played):
    """Whether a drive that was declared sound is cut, or its pedal limited; or a recording is."""
    cut = [f"{name} {found}" for name, shown in played.drives.items() if (found := cut_by(shown.row, played.units))]
    if cut:
        return FAILS, f"Sound drives are cut, {len(cut)} of {len(played.drives)}: {named(cut)}."
    if not played.sound:
        return OPEN, "No run is declared sound (--sound NAME), so whether sound drives are cut isn't said."
    if unfit := unfit_said(played):
        return OPEN, unfit
    return FITS, f"None of the sound drives is cut ({named(played.drives)})."


def unfit_said(played):
    """Which of the sound drives show nothing, or too little, in a sentence; None if each shows that it isn't cut."""
    unfit = [f"{name} ({why})" for name, shown in played.drives.items() if (why := shown.unfit())]
    return f"Sound drives that don't show whether they are cut: {named(unfit)}." if unfit else None


def room_point(played, asked):
    """How much room a weight leaves to its limit in the drives that were declared sound, and in recordings."""
    rooms = [(100 * (limit - weight) / limit, watch, name, weight, limit) for name, shown in played.drives.items()
             for watch, (weight, limit) in shown.weights.items()]
    if not played.sound:
        return OPEN, "No run is declared sound (--sound NAME), so how near sound drives come to a cut isn't said."
    room, watch, name, weight, limit = min(rooms, key=lambda one: one[0])
    least = f"of the sound drives {name} comes nearest to a limit: {watch} weighs {weight} of {limit}, which leaves {int(room)} %"
    if asked.room is None:
        return OPEN, f"How much room is wanted wasn't said (--room PERCENT); {least}."
    wanted, unfit = f"Room of {asked.room} % is wanted", unfit_said(played)
    if unfit and room >= asked.room:
        return OPEN, f"{wanted}. {unfit}"
    return (FAILS if room < asked.room else FITS), f"{wanted}; {least}."


def pairs_point(played, asked):
    """Whether a pair of tracks finds a track that is off by all that it can be, and finds it in the time that is tolerated."""
    blind = [f"{pair} ({played.pairs[pair]} of {most})" for pair, most in RANGES.items() if played.pairs[pair] >= most]
    if blind:
        return FAILS, f"Pairs never find that a track is off, since their tolerances are as great as the range of a reading: {named(blind)}."
    within = -(-played.pairs["limit"] // played.pairs["up"])
    found = f"A pair whose tracks differ by more than its tolerance is found within {played.units.ticks(within, 'ticks')}"
    told = f"{found}: {', '.join(f'{pair} {played.pairs[pair]} of {most}' for pair, most in RANGES.items())}"
    if asked.tolerant is None:
        return OPEN, f"{told}. How many ticks are tolerated wasn't said (--tolerant TIME)."
    left = left_of(asked)
    if within > left:
        return FAILS, f"{found}, and only {played.units.ticks(left)} are left of those that are tolerated (pairs.limit, pairs.up)."
    return FITS, f"{told}."


def misses_point(played):
    """Whether a wrong answer, or a missed tick, is tolerated (docs/CALIBRATING.md, "Missed ticks")."""
    wrong, spacing = int(played.limits["verdicts"]), played.limits["spacing"]
    ramp = " With a ramp the torque may cut all the same, if more is demanded at a missed tick." if played.has_ramp else ""
    if spacing != "none":
        return FITS, (f"A wrong answer is tolerated, {wrong} in a row cut (N); missed ticks that lie {played.units.ticks(spacing)} or more apart cause "
                      f"no such cut (spacing).{ramp}")
    if wrong > 2:
        return FAILS, "Missed ticks add up to a cut, however far apart they lie (spacing none): no right answer takes one back."
    if wrong == 1:
        return FAILS, "One wrong answer cuts, and so does each missed tick of a drive span (N = 1, spacing none)."
    return FAILS, "Two wrong answers in a row cut, and so one missed tick may (N = 2, spacing none)."


def peak_point(played):
    peak = played.limits["peak"]
    if peak == "0":
        return FAILS, "No torque of the bench's engines is an excess (peak 0), so no run shows anything of a reaction."
    return FITS, f"A torque of the bench's engines can be an excess, by {played.units.torque(peak, 'tenths of Nm')} at the most (peak)."


def questions_point(played):
    """Whether the questions are blind for something (egasim_tools/calibration/question_coverage.py)."""
    if played.blind:
        return FAILS, f"The questions are blind: {'; '.join(played.blind)}."
    return FITS, ("The questions exercise each bit, pair, tie and check word; egasim questions --cover tells how late path 2 "
                  "opens if just one of them is wrong. Single entries of the permit table aren't looked at.")


def evidence_point(played):
    """Whether, for each class of listed faults that the campaign has, some run of one power cycle shows that R is kept.
    A class by which no run can show it is left out."""
    rows = [row for row in played.rows if row["class"] not in ("none", "lapse")]
    listed = [row for row in rows if row["class"] not in SWITCHES_OFF]
    off = f" Left out, since such a fault switches the stages off itself: {named(SWITCHES_OFF)}." if len(listed) < len(rows) else ""
    if not listed:
        return OPEN, f"No run has {'another' if off else 'a'} listed fault, so none shows a reaction. (R is proved, and needs no run.){off}"
    several = [row for row in listed if any(tick > 0 for tick in played.resets[row["run"]])]
    showing = [row["class"] for row in listed if row not in several and not lacking(row)]
    without = [kind for kind in dict.fromkeys(row["class"] for row in listed) if kind not in showing]
    shown_by = f"{len(showing)} of {len(listed)} runs under a listed fault show that R is kept"
    left = f"{off} Of several power cycles, and so not counted: {len(several)}; see the pictures." if several else off
    if without:
        tell = [f"{kind} at {onset}" for kind in without if (onset := showing_onset(played, kind)) is not None]
        onsets = (" A run may show it if its fault begins at the tick at which its excess is confirmed: "
                  f"{named(tell)}." if tell else "")
        return FAILS, f"Reactions without evidence: {shown_by}, and none under {named(without)}.{onsets}{left}"
    kinds, may_show = len(set(showing)), {row["class"] for row in played.coverage} - {"lapse", *SWITCHES_OFF}
    return FITS, (f"{shown_by}, at least one of each class that the campaign has, {kinds} of the {len(may_show)} that "
                  f"can show it. (A fault that acts may change nothing of its run.){left}")


def showing_onset(played, kind):
    """An onset at which a fault of this class may show that R is kept: the tick at which the excess of one of its drives is
    confirmed, if no fault begins before. None if no run tells it."""
    rows = {row["run"]: row for row in played.rows}
    for group in played.groups():
        if any(rows[name]["class"] == kind for name in group) and not any(tick > 0 for tick in played.resets[group[0]]):
            for row in (rows[name] for name in group):
                if row["settled"] == "1" and (row["class"] == "none" or int(row["onset"]) > int(row["confirmed"])):
                    return int(row["confirmed"])
    return None
