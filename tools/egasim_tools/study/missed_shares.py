"""How many runs of a study are cut, by the share of ticks that level 2 misses in them, beside what is proved of missed ticks."""

import csv
from dataclasses import dataclass

from egasim_tools.base.toml import toml_of
from egasim_tools.report.svg import DARK, GRID, INK, box, line, picture, step_of, text
from egasim_tools.study.plan import SHARE

WIDTH, HEIGHT, LEFT, TOP, RIGHT = 640, 240, 48, 24, 20


@dataclass
class Share:
    """What the runs of a share come to: how many there are, how many are cut, and their longest excess."""
    runs: int = 0
    cut: int = 0
    stretch: int = 0

    def per_cent(self):
        return 100 * self.cut / self.runs


def draws_shares(plan):
    """Whether a plan draws runs by a share of missed ticks."""
    return any(SHARE in fault for fault in toml_of(plan)["fault"])


def shares_of(table):
    """The shares of study.csv, in rising order."""
    shares = {}
    with open(table, encoding="utf-8", newline="") as file:
        for row in csv.DictReader(file):
            if row[SHARE]:
                share = shares.setdefault(int(row[SHARE]), Share())
                share.runs += 1
                share.cut += bool(row["cut"] or row["off_at"])
                share.stretch = max(share.stretch, int(row["stretch"]))
    return dict(sorted(shares.items()))


def evenly_of(limits):
    """Up to which share of ticks, in per mille, misses that lie evenly are `spacing` apart; None if there is no such number."""
    return None if limits["spacing"] == "none" else 1000 / int(limits["spacing"])


def proved_of(limits, units):
    """What is proved of missed ticks by two lines of `limits`, or that nothing is."""
    evenly = evenly_of(limits)
    if evenly is None:
        yield "nothing is proved of how far apart missed ticks have to lie so that wrong answers don't cut (spacing none)"
    else:
        yield (f"proved: missed ticks that lie {units.ticks(limits['spacing'])} or more apart (spacing), up to {evenly:.1f} of 1000 if "
               "evenly, never make wrong answers cut before a watch trips")
    if limits["missed"] == "none":
        yield "no number of ticks is proved that an excess lasts at most, whatever ticks are missed (missed none)"
    else:
        yield f"proved: whatever ticks are missed, no excess lasts more than {units.ticks(limits['missed'], 'ticks')} (missed)"


def lines_of(shares, limits, units):
    """The lines that are told: a row for each share, and what is proved."""
    rows = [["of 1000", "runs", "cut", "per cent", "stretch"],
            *([share, one.runs, one.cut, f"{one.per_cent():.1f}", units.ticks(one.stretch)] for share, one in shares.items())]
    widths = [max(len(str(row[place])) for row in rows) for place in range(len(rows[0]))]
    for row in rows:
        yield "  ".join(str(cell).rjust(width) for cell, width in zip(row, widths))
    yield from proved_of(limits, units)


def picture_of(shares, limits, units):
    """The share of runs that are cut by the share of missed ticks, and, where there is one, the share up to which none need be."""
    evenly, bottom = evenly_of(limits), TOP + HEIGHT
    most = max([*shares, evenly or 0]) * 1.05

    def at(share, per_cent):
        return LEFT + (WIDTH - LEFT - RIGHT) * share / most, bottom - HEIGHT * per_cent / 100

    shapes = []
    for per_cent in range(0, 101, 20):
        shapes += [line([at(0, per_cent), at(most, per_cent)], GRID), text(LEFT - 5, at(0, per_cent)[1] + 4, per_cent, "end", 10)]
    for share in range(0, int(most) + 1, step_of(int(most), 10)):
        shapes.append(text(at(share, 0)[0], bottom + 14, share, size=10))
    if evenly is not None:
        x, said = at(evenly, 0)[0], f"spacing {units.ticks(limits['spacing'])}, evenly"
        shapes += [line([at(evenly, 0), at(evenly, 100)], INK, "6 3"),
                   text(x + 4, bottom - 6, said, "start", 10) if x < WIDTH / 2 else text(x - 4, TOP + 12, said, "end", 10)]
    points = [at(share, one.per_cent()) for share, one in shares.items()]
    shapes += [line(points, DARK, width=2), *(box(x - 3, y - 3, 6, 6, DARK) for x, y in points)]
    longest = units.ticks(max(one.stretch for one in shares.values()))
    shapes.append(text((LEFT + WIDTH) / 2, bottom + 30, "ticks that level 2 misses, of 1000; runs that are cut, per cent", size=10))
    said = f"longest excess of these runs: {longest}; proved (missed): {units.cell('missed', limits['missed'])}"
    shapes.append(text((LEFT + WIDTH) / 2, bottom + 44, said, size=10))
    about = "; ".join([*(f"{share} of 1000: {one.cut} of {one.runs} cut" for share, one in shares.items()), *proved_of(limits, units)])
    return picture("shares", WIDTH, bottom + 54, "How many runs are cut, by the share of ticks that level 2 misses", f"{about}.", shapes)
