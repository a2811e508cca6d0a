"""`egasim study`: a plan of any number of runs, and one table of all."""

import re

from egasim_tools.base.command_line import NAME, TEXT, TICK_LENGTH, Form, Kind, Tool, Word, file, refuse
from egasim_tools.base.ranges import TRACE_TICKS
from egasim_tools.base.tool import as_noted, refuse_word
from egasim_tools.study.campaigns import runs_under_faults
from egasim_tools.study.joined_tables import join
from egasim_tools.study.plan import FAULTS
from egasim_tools.study.study_folder import write_study


def classes_of(text):
    """The classes of faults that a word names."""
    kinds = list(FAULTS) if text == "all" else text.split(",")
    unknown = next((kind for kind in kinds if kind not in FAULTS), None)
    if unknown is not None:
        refuse(f"no class {unknown}; the classes are {', '.join(FAULTS)}; all stands for each of them")
    return kinds


def onsets_of(text):
    """The onsets that a word names, as 0-90, 0-90/10 or 5,7, each once."""
    return list(dict.fromkeys(onset for part in text.split(",") for onset in onsets_in(part)))


def onsets_in(part):
    match = re.fullmatch("([0-9]{1,5})(?:-([0-9]{1,5})(?:/([1-9][0-9]{0,4}))?)?", part)
    first, last, step = (int(number) if number else None for number in match.groups()) if match else (1, 0, None)
    last = first if last is None else last
    return range(first, last + 1, step or 1) if first <= last < TRACE_TICKS else refuse(f"no onsets: {part}")


def planned(values):
    if not values.plan.endswith(".toml"):
        refuse_word(f"{values.plan} is no plan, PLAN.toml, and no command: join or faults")
    target = values.folder.rstrip("/") or values.folder
    runs, campaigns, tables = write_study(values.plan, target)
    print(f"{as_noted(target)}: {runs} runs in {campaigns} campaigns; {tables} tables are there")


def faults(values):
    for text in runs_under_faults(values.campaign, values.run, values.classes, values.onsets):
        print(text, end="")


STUDY = Tool(
    "study", "plays a plan of any number of runs, and makes one table of all",
    (Form("writes FOLDER with campaigns, inputs, program and a Makefile; make -C FOLDER -j4 makes the tables, and goes on when called "
          "again", planned,
          (Word("PLAN", "what is to be played", file("toml"), is_needed=True),
           Word("FOLDER", "of a study", NAME, is_needed=True))),
     Form("writes FOLDER/study.csv and matrix.csv, and prints a summary by class", lambda values: join(
         values.folder, values.tick, values.keep, values.picture),
          (Word("FOLDER", "of a study", NAME, is_needed=True), TICK_LENGTH,
           Word("--keep", "makes KEPT, which mustn't be there, of a study that has all tables, for egasim keep --again KEPT", NAME, "KEPT"),
           Word("--picture", "draws how many runs are cut by the share of missed ticks", file("svg"), "SHARES")), "join"),
     Form("prints a campaign: one run of another under classes of faults", faults,
          (Word("CAMPAIGN", "a campaign", file("toml"), is_needed=True), Word("RUN", "the name of one of its runs", TEXT, is_needed=True),
           Word("CLASSES", "names joined by commas, or all", Kind(classes_of), is_needed=True),
           Word("ONSETS", "ticks, as 0-90, 0-90/10 or 5,7", Kind(onsets_of), is_needed=True)), "faults")))
