"""What finds the faults of runs first, and how long that takes beside what `coverage` says of it."""

WATCHES = ("mirror", "pedal", "plate", "load", "speed", "torque", "answers", "start")
WITHOUT, WITH = "nothing, no excess", "nothing, excess"  # found nothing, and whether a true excess was confirmed
FIRSTS = (*WATCHES, WITHOUT, WITH)
HEADS = ("class", *FIRSTS)


def first_of(row):
    """The column of the matrix that counts a row of `table`."""
    return row["first"] or (WITH if row["confirmed"] else WITHOUT)


def matrix(counts):
    """The rows below HEADS, of counts of runs by class and column. The sum of a row is the runs of its class."""
    for kind in dict.fromkeys(kind for kind, _ in counts):
        yield [kind, *(counts.get((kind, first), 0) for first in FIRSTS)]


def sure_row(coverage, kind):
    """The row of `coverage` by which faults of a class are always found, if it is the only such one. That of a lapse doesn't count
    from the onset, but from each missed tick."""
    sure = [row for row in coverage if (row["class"], row["hidden"]) == (kind, "0") and kind != "lapse"]
    return sure[0] if len(sure) == 1 else None


def ticks_taken(row, sure, spans):
    """How many ticks there are from the onset, or from the later begin of the span, to the one at which the first watch finds
    something, both counted. Where a span has all the ticks of `within`, and nothing is found in it, they are one more than it
    has. None if a run doesn't show it: its fault doesn't act, something is found before, or the run ends too soon."""
    if row["acted"] != "1":
        return None
    onset, of_tests = int(row["onset"]), bool(sure) and sure["finds"] == "start"
    at = int(row["first_at"]) if row["first"] else spans[-1][1]
    waited = max((end - max(onset, first) for first, end, is_test in spans if end <= at and is_test == of_tests), default=0)
    if sure and waited >= int(sure["within"]):
        return waited + 1
    if not row["first"] or at < onset or of_tests and row["first"] != "start":
        return None
    return at + 1 - max(onset, max(first for first, _, is_test in spans if first <= at and (is_test or row["first"] != "start")))


class Taken:
    """How long the runs of a class take until something is found: the greatest number of ticks and its run, the number of
    ticks within which `coverage` says so, if it does, and the runs that are beyond it, against what is proved."""

    def __init__(self, within):
        self.within, self.most, self.run, self.beyond = within, None, None, []

    def add(self, run, ticks):
        if ticks is not None and (self.most is None or ticks > self.most):
            self.most, self.run = ticks, run
        if None not in (ticks, self.within) and ticks > self.within:
            self.beyond.append(run)


def taken_by_class(rows, coverage, window, spans):
    """What the rows of `table` show of each class of fault. `spans` has those of each run. Answers that come within their
    `window`, its first and last tick, are as they should be."""
    taken = {}
    for row in rows:
        if row["class"] == "none" or row["class"] == "timing" and window[0] <= int(row["fault"].split()[-1]) <= window[1]:
            continue
        sure = sure_row(coverage, row["class"])
        one = taken.setdefault(row["class"], Taken(int(sure["within"]) if sure else None))
        one.add(row["run"], ticks_taken(row, sure, spans[row["run"]]))
    return taken
