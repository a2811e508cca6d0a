"""The tables of a study, joined to one, and what they come to by class."""

import os
import re
import sys
from collections import Counter
from operator import itemgetter

from egasim_tools.base.files import read, refuse_input, sum_of, sum_of_file, text_of, write, written
from egasim_tools.base.records import limits_in
from egasim_tools.base.tool import as_noted, fail
from egasim_tools.base.units import Units, units_of
from egasim_tools.evidence.detection import HEADS, first_of, matrix
from egasim_tools.evidence.kept_calls import calls_kept, files_of
from egasim_tools.evidence.run_results import lacking
from egasim_tools.study.missed_shares import draws_shares, lines_of, picture_of, shares_of
from egasim_tools.study.study_folder import called, line_of, program_of, words_of

ROW = re.compile(r'[^"\n]*+(?:"[^"]*+"[^"\n]*+)*+\n')  # of a plan: what stands in quotes may go over lines
SUMMED = ("class", "onset", "acted", "first", "confirmed", "stretch", "reaction", "settled", "bound")  # columns of `table`


def join(path, tick=None, folder=None, image=None):
    """Writes study.csv and matrix.csv of the tables that count, prints their summary, and tells which campaigns have none. A study that has
    all is kept in a folder, if one is named; and drawn, how many runs are cut by the share of missed ticks."""
    refuse_changes(path)
    if image:
        refuse_input(image, [os.path.join(path, name) for name in ("MANIFEST", "study.csv", "matrix.csv", *names_of(path))])
    way = program_of(path)
    units = units_of(tick, [os.path.join(path, "inputs", "calibration.toml")])
    numbers = sorted(name[:-5] for name in os.listdir(f"{path}/campaigns") if name.endswith(".toml"))
    faults = {number: fault_of_table(path, number) for number in numbers}
    good = [number for number in numbers if not faults[number]]
    with calls_kept(folder, way, path) as kept:
        limits = limits_of(path)
        if good:
            print_summary(write_joined(path, good), [int(limits[name]) for name in ("reaction", "stretch")], units)
            tell_shares(path, limits, units, image)
        for number in numbers:
            if faults[number]:
                print(as_noted(f"campaign {number}: {faults[number]}"), file=sys.stderr)
        if len(good) < len(numbers):
            fail(f"{path}/study.csv has {len(good)} of {len(numbers)} campaigns" if good else "no campaign has a table")
        said = kept and keep_tables(kept, path, good)
    if said:
        print(as_noted(f"kept in {said}"))


def keep_tables(kept, path, numbers):
    """Keeps each table as what the program printed, with the checksums of what it was made from, and says where."""
    for number in numbers:
        table, stamp = (read(os.path.join(path, "tables", f"{number}.{ending}")) for ending in ("csv", "sum"))
        _, *sums, own = stamp.decode().splitlines(keepends=True)
        if own != f"{sum_of(table)}  -\n":
            fail(f"{path}/tables/{number}.csv changed meanwhile")
        words = words_of(path, "table", f"campaigns/{number}.toml")
        if not any(line.endswith(f"  {words[-1]}\n") for line in sums[:len(words) - 1]):  # else the drives stand first
            fail(f"{path} is of older tools; to keep it, write the study anew")
        kept.add(files_of(words, "".join(sums), table))
    return kept.sealed(["MANIFEST", "study.csv", "matrix.csv"])


def names_of(path):
    """The checksums of the files of the folder, as they were written, by their names."""
    lines = (line.partition("  ") for line in text_of(os.path.join(path, "MANIFEST")).splitlines())
    return {name: total for total, _, name in lines}


def refuse_changes(path):
    """Ends if a file of the folder isn't as it was written."""
    for name, total in names_of(path).items():
        if not os.path.isfile(os.path.join(path, name)) or sum_of_file(os.path.join(path, name)) != total:
            fail(f"{path}/{name} isn't as the study was made")


def fault_of_table(path, number):
    """Why a campaign has no table that counts, or None."""
    table, stamp = (os.path.join(path, "tables", f"{number}.{ending}") for ending in ("csv", "sum"))
    note = os.path.join(path, "tables", f"{number}.note")
    if not os.path.isfile(table):
        return os.path.isfile(note) and read(note).decode(errors="replace").strip() or "not made"
    wanted = read(os.path.join(path, "campaigns", f"{number}.sum")).decode() + f"{sum_of_file(table)}  -\n"
    if not os.path.isfile(stamp) or read(stamp).decode(errors="replace") != wanted:
        return "its table isn't of this program and these inputs; once it is removed, it can be made again"
    return None


def tell_shares(path, limits, units, image):
    """Tells how many runs are cut by the share of ticks that level 2 misses, if the plan draws such runs, and draws that."""
    shares = shares_of(f"{path}/study.csv") if draws_shares(f"{path}/plan.toml") else {}
    for told in lines_of(shares, limits, units) if shares else ():
        print(told)
    sys.stdout.flush()  # so that notes stand below it
    if image:
        if not shares:
            fail(f"{path} has no share of ticks to draw")
        write(image, ("\n".join(picture_of(shares, limits, units)) + "\n").encode())


def limits_of(path):
    """The lines of `limits` by a study's calibration, and by its own program."""
    done = called(path, "limits")
    if done.returncode:
        fail(f"egasim limits: {done.stderr.decode(errors='replace').strip() or f'status {done.returncode}'}")
    limits = limits_in(done.stdout.decode())
    if "missed" not in limits:
        fail(f"the program of {path} is of an older version; write the study anew")
    return limits


def write_joined(path, numbers):
    """Writes study.csv of these campaigns and matrix.csv, and returns the summaries by class."""
    classes, firsts = {}, Counter()
    with written(f"{path}/study.csv") as file:
        for number in numbers:
            lines, alike = rows_of(path, number)
            file.write("".join(lines if number == numbers[0] else lines[1:]).encode())
            for row, count in alike:
                classes.setdefault(row["class"], Summary()).add(row, count)
                firsts[row["class"], first_of(row)] += count
    with written(f"{path}/matrix.csv") as file:
        file.writelines(line_of(row).encode() for row in [HEADS, *matrix(firsts)])
    return classes


def rows_of(path, number):
    """The rows of a campaign below their heads, what was planned before what was played; and what a summary needs of a row, with
    the number of rows that are alike in that. In a table nothing is quoted (docs/FORMATS.md, F30)."""
    planned = list(lines_of_plan(text_of(f"{path}/campaigns/{number}.csv")))
    played = [line.partition(",") for line in text_of(f"{path}/tables/{number}.csv").splitlines()]
    cells = [rest.split(",") for _, _, rest in played]
    if len(planned) != len(played) or not all(map(str.startswith, planned, [f"{run}," for run, _, _ in played])) \
            or len({len(row) for row in cells}) > 1:
        fail(f"campaign {number}: the table has other runs than the plan")
    places = {head: place for place, head in enumerate(cells[0])}
    alike = Counter(map(itemgetter(*[places[head] for head in SUMMED]), cells[1:]))
    return ([f"{plan[:-1]},{rest}\n" for plan, (_, _, rest) in zip(planned, played)],
            [(dict(zip(SUMMED, row)), count) for row, count in alike.items()])


def lines_of_plan(text):
    """The lines of a plan, up to where there is none. Each is looked for where the one before it ends, and nowhere else."""
    place = 0
    while match := ROW.match(text, place):
        yield match[0]
        place = match.end()


class Summary:
    """What the rows of a class come to."""

    def __init__(self):
        self.runs = self.unacted = self.without = self.unsettled = self.before_cut = self.stretch = 0
        self.reaction = None

    def add(self, row, count):
        """Adds so many rows that are alike."""
        self.runs += count
        self.unacted += count * (row["acted"] == "0")
        self.without += count * (row["settled"] == "")
        self.unsettled += count * (row["settled"] == "0")
        self.before_cut += count * (lacking(row) is None)  # it shows that R is kept under its fault, as a report judges it
        self.stretch = max(self.stretch, int(row["stretch"]))
        if row["reaction"]:
            self.reaction = max(self.reaction or 0, int(row["reaction"]))


def print_summary(classes, bounds, units=Units()):
    """A line a class: its runs, those that show nothing, and the greatest numbers beside what is proved of them."""
    heads = ["class", "runs", "acted 0", "no excess", "settled 0", "before cut", "reaction", "R", "stretch", "D-1+R"]
    rows = []
    for kind, one in classes.items():
        reaction, stretch = ("", "") if kind == "lapse" else map(units.ticks, bounds)
        rows.append([kind, one.runs, one.unacted, one.without, one.unsettled, one.before_cut,
                     "none" if one.reaction is None else units.ticks(one.reaction), reaction, units.ticks(one.stretch), stretch])
    widths = [max(len(str(row[place])) for row in [heads, *rows]) for place in range(len(heads))]
    for row in [heads, *rows]:
        print("  ".join(str(value).ljust(width) if place == 0 else str(value).rjust(width)
                        for place, (value, width) in enumerate(zip(row, widths))).rstrip())
    sys.stdout.flush()  # so that notes stand below it
    for kind, one in classes.items():
        if kind != "lapse" and ((one.reaction or 0) > bounds[0] or one.stretch > bounds[1]):
            print(f"{kind}: a reaction or stretch is greater than its bound, against what is proved", file=sys.stderr)
