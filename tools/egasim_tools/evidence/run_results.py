"""What a run shows, by its record and its row of `table`."""

from egasim_tools.base.records import stretches

MOST_NAMED = 8  # places that a sentence names
EXCESS, NO_EXCESS, CONFIRMED = "an excess begins", "no excess any more", "an excess is confirmed"
ONSET, RESET, R_PASSED = "the fault begins", "reset", "R has passed since"
SWITCHES_OFF = ("path-open",)  # classes under which no run shows a reaction: the stages are off from the onset on
AROUND, MOST_AROUND = 40, 240  # ticks that are shown before and behind a tick; and around several that lie near


def finds(record):
    """When watches find something: (first tick, last tick, watch), in the order of the ticks."""
    found = [names.split("+") for names in record["found"]]
    watches = dict.fromkeys(watch for names in found for watch in names if watch != "-")
    return sorted((first, end - 1, watch) for watch in watches
                  for first, end in stretches([watch in names for names in found], record["tick"][0]))


def excess_of(record, threshold):
    """Whether there is an excess, tick by tick."""
    return [torque > limit + threshold for torque, limit in zip(record["torque"], record["limit"])]


def ticks_said(places):
    """Stretches of ticks in words."""
    said = [str(first) if end - first == 1 else f"{first} to {end - 1}" for first, end in places]
    return ", ".join([*said[:MOST_NAMED], *(["and so on"] if len(said) > MOST_NAMED else [])]) or "none"


def about_run(record, threshold):
    """What the picture of a run, or of ticks of it, shows, in words."""
    first, last = record["tick"][0], record["tick"][-1]
    excess = ticks_said(list(stretches(excess_of(record, threshold), first)))
    off = ticks_said(list(stretches([not on for on in record["on"]], first)))
    found = [f"{watch} at {tick}" for tick, _, watch in finds(record)]
    found = found[:MOST_NAMED] + (["and so on"] if len(found) > MOST_NAMED else [])
    return (f"{len(record['on'])} ticks, {first} to {last}. Greatest torque: {max(record['torque'])} tenths of Nm. Ticks "
            f"with more than permitted torque and threshold: {excess}. Found: {', '.join(found) or 'nothing'}. "
            f"Ticks with the power stages off: {off}.")


def confirmed_of(excess, weights, resets):
    """The tick of each power cycle by which its excess is confirmed, if it is (docs/CONCEPT.md, "Debouncing"). `excess`
    is that of the ticks from 0 on."""
    up, down, limit = weights
    weight, is_confirmed = 0, False
    for tick, bad in enumerate(excess):
        if tick in resets:
            weight, is_confirmed = 0, False
        weight = min(limit, weight + up) if bad else max(0, weight - down)
        if weight == limit and not is_confirmed:
            is_confirmed = True
            yield tick


def cuts_of(record, resets):
    """The ticks at which the stages go off, but for those at which the unit is reset."""
    off = changes([not on for on in record["on"]], True, False)
    return [tick for tick, goes_off in off if goes_off and tick and tick not in resets]


def windows(record, threshold, ticks):
    """The ticks around these ticks: (first, last). If there is an excess right before one of them, also that."""
    places = list(stretches(excess_of(record, threshold)))
    told = []
    for tick in sorted(ticks):
        begin = next((first for first, end in places if first < tick <= end), tick)
        first, last = max(begin - AROUND, 0), min(tick + AROUND, len(record["on"]) - 1)
        if told and first <= told[-1][1] and last - told[-1][0] < MOST_AROUND:
            told[-1] = told[-1][0], last
        else:
            told.append((first, last))
    return told


def changes(values, begins, ends):
    """What is said where values begin or cease to be true. At tick 0 they were false before."""
    for first, end in stretches(values):
        yield first, begins
        if end < len(values):
            yield end, ends


def events(record, threshold, given):
    """What happens in a run, with what is given of single ticks: (tick, words), in the order of the ticks."""
    told = list(changes(excess_of(record, threshold), EXCESS, NO_EXCESS))
    told += changes([not on for on in record["on"]], "the stages are off", "the stages are on")
    for path in ("1", "2"):
        is_open = [not conducts for conducts in record[f"path{path}"]]
        told += changes(is_open, f"path {path} is open", f"path {path} conducts")
    for first, last, watch in finds(record):
        told.append((first, f"{watch} finds something" + (f", to {last}" if last > first else "")))
    return sorted([*told, *given], key=lambda event: (event[0], event[1] != RESET))


def given_ticks(row, ticks, resets, confirmed):
    """What is known of single ticks beside the record: by the row of `table`, the resets, and the confirmed excesses."""
    told = [(tick, RESET) for tick in resets]
    if row["onset"]:
        told.append((int(row["onset"]), ONSET))
    if row["trap"]:
        told.append((int(row["trap_at"]), f"level 1 traps: {row['trap']}"))
    for tick in confirmed:
        told.append((tick, CONFIRMED))
        passed, end = tick + int(row["bound"]), min((reset for reset in resets if reset > tick), default=ticks)
        if row["class"] != "lapse" and passed < end:
            told.append((passed, R_PASSED))
    return [(tick, words) for tick, words in told if tick < ticks]


def unsettled(row):
    """Why a row of `table` doesn't show that a confirmed excess is cut for good; None if it does."""
    if not row["confirmed"]:
        return "no excess is confirmed"
    if row["settled"] != "1":
        return "it ends too soon"
    return None if row["reaction"] else "the stages are on at the end"


def lacking(row):
    """Why a row of `table` doesn't show that R is kept under its fault; None if it does. This is so of a drive of one
    power cycle (docs/START.md, "Faults, and the table")."""
    if row["class"] == "none":
        return "there is no fault"
    if row["class"] == "lapse":
        return "R is no bound for lapses"
    if row["class"] in SWITCHES_OFF:
        return "the fault switches the stages off itself"
    if row["acted"] == "0":
        return "the fault never acts"
    if unsettled(row):
        return unsettled(row)
    if int(row["onset"]) >= int(row["confirmed"]) + int(row["reaction"]):
        return "the fault comes after the cut"
    if int(row["reaction"]) > int(row["bound"]):
        return "the reaction is above its bound, against what is proved"
    return None
