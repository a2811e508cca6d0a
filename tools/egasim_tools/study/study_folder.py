"""The folder of a study: campaigns, inputs, the program, and what plays them."""

import csv
import io
import itertools
import os
import re
from collections import deque
from concurrent.futures import ThreadPoolExecutor

from egasim_tools.base.files import TOOLS, read, renamed, room_in, sum_of, sum_of_file
from egasim_tools.base.program import call, program
from egasim_tools.base.toml import toml_text
from egasim_tools.base.tool import fail
from egasim_tools.base.units import beside
from egasim_tools.study.campaigns import Campaign, keys_text, run_text
from egasim_tools.study.plan import PARAMETERS, SHARE, checked_plan, groups_of

COLUMNS = ["drive", "image", "slices", "engine", *PARAMETERS]  # of study.csv, beside those of `table`
CALIBRATION = "inputs/calibration.toml"  # of a study that has one
FORMULA = tuple("=+-@\t\r＝＋－＠")  # with one of these a cell begins that a spreadsheet runs


class Folder:
    """The folder of a study, while it is written."""

    def __init__(self, path):
        self.path, self.sums, self.count, self.runs = path, {}, 0, 0
        os.mkdir(self.place("inputs"))
        os.mkdir(self.place("campaigns"))

    def place(self, name):
        return os.path.join(self.path, name)

    def put(self, name, content):
        try:
            with open(self.place(name), "wb") as file:
                file.write(content)
        except OSError as error:
            fail(f"cannot write {name} of the study: {error.strerror}")
        self.sums[name] = sum_of(content)

    def put_campaign(self, campaign):
        """Writes a campaign: what the program is to try then."""
        self.count += 1
        self.runs += len(campaign.texts)
        name = f"campaigns/{self.count:05}"
        self.put(f"{name}.toml", "".join(campaign.texts).encode())
        self.put(f"{name}.csv", "".join([line_of(["run", *COLUMNS]), *campaign.rows]).encode())
        # Behind the program, in the order in which egasim_tools/evidence/kept_calls.py names what a command reads.
        used = ["egasim", *(one for one in [CALIBRATION] if one in self.sums), f"{name}.toml", *campaign.inputs]
        self.put(f"{name}.sum", "".join(f"{self.sums[one]}  {one}\n" for one in used).encode())
        return f"{name}.toml", campaign.texts

    def try_campaign(self, name, texts):
        """Ends if the program refuses a campaign."""
        note = self.call("record", name, "no-such-run").stderr.decode(errors="replace").strip()
        if note != "no such run":
            place = re.search(r"run (\d+)", note)
            run = " ".join(texts[int(place[1]) - 1].split()) if place else ""
            fail(f"the plan makes a campaign that is refused: {note}: {run}")

    def call(self, command, *words):
        """A command of the program in this folder, by the study's calibration."""
        return called(self.path, command, *words)

    def ticks_of(self, drive, image):
        """The ticks of a drive, if the program takes drive, image and calibration; and its note."""
        self.put("one.toml", run_text({"name": "one", "trace": drive, "image": image}).encode())
        done = self.call("record", "one.toml", "one")
        os.unlink(self.place("one.toml"))
        del self.sums["one.toml"]
        return None if done.returncode else done.stdout.count(b"\n") - 1, done.stderr.decode(errors="replace").strip()

    def manifest(self):
        return "".join(f"{total}  {name}\n" for name, total in sorted(self.sums.items()))


def called(path, command, *words):
    """A command of the program in the folder of a study, by the study's calibration."""
    return call(words_of(path, command, *words), place=path)


def program_of(path):
    """The program of a study that is there, if it is the one that the tools call: no other one is run, since whoever made the
    folder may have put any program there."""
    own, there = program(), os.path.join(path, "egasim")
    if not os.path.isfile(there) or sum_of_file(there) != sum_of_file(own):
        fail(f"{there} isn't the program of these tools, and isn't run; if you trust it, say EGASIM_PROGRAM={there}")
    return own


def words_of(path, command, *words):
    """The words of a command in the folder of a study, by the study's calibration."""
    return [command, *(["--cal", CALIBRATION] if os.path.exists(os.path.join(path, CALIBRATION)) else []), *words]


def write_study(name, target):
    """Writes the folder that a plan comes to, unless it is there: its runs, its campaigns, and how many have a table."""
    plan = checked_plan(name)
    above = os.path.dirname(os.path.abspath(target))
    if not os.path.isdir(above):
        fail(f"there is no folder for {target}")
    with room_in(above) as room:
        path = os.path.join(room, "study")
        os.mkdir(path)
        folder = Folder(path)
        drives, images = put_inputs(folder, plan, name)
        ticks = ticks_of_drives(folder, drives, images, plan["calibration"])
        put_campaigns(folder, campaigns_of(runs_of(plan, drives, images, ticks)))
        manifest = folder.manifest().encode()
        folder.put("MANIFEST", manifest)
        if not renamed(path, target) and (
                not os.path.isfile(f"{target}/MANIFEST") or read(f"{target}/MANIFEST") != manifest):
            fail(f"{target} is there, and isn't of this plan, these inputs, this program and these tools")
    tables = os.listdir(f"{target}/tables") if os.path.isdir(f"{target}/tables") else []
    return folder.runs, folder.count, sum(name.endswith(".csv") for name in tables)


def put_inputs(folder, plan, name):
    """Copies all that the study plays: the names that drives and images have in the folder, by their own."""
    folder.put("plan.toml", read(name))
    folder.put("egasim", read(program()))
    os.chmod(folder.place("egasim"), 0o755)
    for script in sorted(os.listdir(os.path.join(TOOLS, "study_files"))):
        folder.put(script, read(os.path.join(TOOLS, "study_files", script)))
        os.chmod(folder.place(script), 0o644 if script == "Makefile" else 0o755)
    if plan["calibration"]:
        folder.put(CALIBRATION, read(plan["calibration"]))
        if units := beside(plan["calibration"]):
            folder.put("inputs/units.toml", read(units))
    return copied(folder, "drive", plan["drives"], "csv"), copied(folder, "image", plan["images"], "hex")


def copied(folder, kind, names, ending):
    """Copies inputs to the folder, and gives the names that they have there, by their own."""
    places = {}
    for number, name in enumerate(names, 1):
        if not isinstance(name, str):
            fail(f"{kind}s must be names of files")
        places[name] = f"inputs/{kind}-{number}.{ending}"
        folder.put(places[name], read(name))
    return places


def put_campaigns(folder, campaigns):
    """Writes all campaigns. The program tries some while the next is made; the first one that it refuses is told."""
    tried, most = deque(), os.cpu_count() or 1
    with ThreadPoolExecutor(most) as pool:
        try:
            for campaign in campaigns:
                tried.append(pool.submit(folder.try_campaign, *folder.put_campaign(campaign)))
                if len(tried) > most:
                    tried[0].result()
                    tried.popleft()
        finally:
            for one in tried:
                one.result()


def campaigns_of(runs):
    """The campaigns that these runs fill. Each run has its text, its row, its inputs and the ticks of its drive."""
    campaign = Campaign()
    for text, row, inputs, ticks in runs:
        if not campaign.has_room(text, ticks):
            yield campaign
            campaign = Campaign()
        campaign.add(text, row, inputs, ticks)
    yield campaign


def runs_of(plan, drives, images, ticks):
    """Each run of a plan, as campaigns_of takes it. What is alike under a fault is written once, and % puts the values in."""
    numbers = itertools.count(1)
    for drive, image, place, engine, faults in groups_of(plan, ticks):
        alike = keys_text({"trace": drives[drive], "image": images[image], "slices": plan["slices"][place], "engine": engine})
        cells, inputs = [name_cell(drive), name_cell(image), place, engine], [drives[drive], images[image]]
        for kind, keys, values in faults:
            text, row = text_form(alike, kind, keys), row_form(cells, keys)
            order = [keys.index(key) for key in PARAMETERS if key in keys]
            told = [place for place, key in enumerate(keys) if key != SHARE]
            for one, number in zip(values, numbers):  # in this order no number is lost
                yield text % (number, *(toml_text(one[place]) for place in told)), row % (number, *[cell(one[key]) for key in order]), inputs, ticks[drive]


def text_form(alike, kind, keys):
    """The text of a run under a fault, with signs for % in place of its number and of the fault's values."""
    signs = dict.fromkeys((key for key in keys if key != SHARE), "%s")
    fault = keys_text({"faults": [{"class": kind, **signs}]}).replace('"%s"', "%s") if keys else ""
    return run_text({"name": "r%07d"}) + alike.replace("%", "%%") + fault


def row_form(cells, keys):
    """The row of such a run, likewise. No value that the program takes needs quotes."""
    alike = [str(one).replace("%", "%%") for one in cells]
    return line_of(["r%07d", *alike, *("%s" if key in keys else "" for key in PARAMETERS)])


def line_of(cells):
    """A line of a table. The writer quotes what has a sign of its own line end in it, a carriage return too."""
    line = io.StringIO(newline="")
    csv.writer(line, lineterminator="\r\n").writerow(cells)
    return f"{line.getvalue()[:-2]}\n"


def ticks_of_drives(folder, drives, images, calibration):
    """The ticks of each drive. Each input is tried once; the program's note names the copy, and here its own name."""
    ticks, first = {}, next(iter(drives))
    tries = [(drive, next(iter(images))) for drive in drives] + [(first, image) for image in images]
    for drive, image in tries:
        count, note = folder.ticks_of(drives[drive], images[image])
        if count is None:
            for name, place in [*drives.items(), *images.items(), (calibration, CALIBRATION)]:
                note = note.replace(place, name or place)
            fail(f"an input is refused: {note}")
        ticks[drive] = count
    return ticks


def cell(value):
    """A value in a table: a number, a truth value, or a list of these."""
    return (" ".join(map(str, value)) if isinstance(value, list) else str(value)).lower()


def name_cell(name):
    """A file's name in a table. One that a spreadsheet would run as a formula has ./ before it, and names the same file."""
    return f"./{name}" if name.startswith(FORMULA) else name
