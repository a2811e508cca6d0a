"""`egasim find`: calibrations by which no sound drive is cut, and an excess ends in time."""

import re
import sys
import tempfile
from types import SimpleNamespace

from egasim_tools.base.command_line import TICK_LENGTH, TIME, VERBOSE, Form, Kind, Tool, Word, file, refuse, whole
from egasim_tools.base.files import refuse_input, room_in, write
from egasim_tools.base.inputs import Inputs
from egasim_tools.base.program import program
from egasim_tools.base.ranges import RAISE
from egasim_tools.base.tool import TOOL, as_noted, fail, refuse_word
from egasim_tools.base.units import beside, ticks_of, units_of
from egasim_tools.calibration.limit_search import Search
from egasim_tools.calibration.number_edits import parsed, with_questions
from egasim_tools.calibration.question_design import filled
from egasim_tools.calibration.search_results import by_words, nearest_of, picture_of, table_of, with_ramp_said
from egasim_tools.report.verdicts import SAID, SAYS, first_ramp_said, said_in
from egasim_tools.study.campaigns import files_of_campaign

RANGE = re.compile("([0-9]{1,99})(?:-([0-9]{1,99})(?:/([0-9]{1,99}))?)?")
SAID_BEFORE = re.compile(r"^# As said to find \(.*\n", re.M)  # what --write has put into START
COMMENTS = re.compile(r"(?:^[ \t]*#.*\n)+|[ \t]*#[^\r\n]*", re.M)  # lines that are comments, or one at the end of a line
NAMES_VERSION = re.compile(r"\bversion\s+(?:#\s*)?[0-9]", re.I)
MOST_ROWS, MOST_MISSES = 1000, 49


def said_of(said, units):
    """A time as it was said; a number of ticks with its time, where that is known."""
    return units.ticks(int(said)) if said.isdigit() else said


def rows_of(thresholds, ramps):
    """The thresholds and the ramps that are tried: first no ramp, 0, and last the flattest; None is that of START."""
    falls = ramps and sorted(ramps, key=lambda fall: (fall > 0, -fall))
    if len(thresholds) * len(falls or [None]) > MOST_ROWS:
        refuse_word(f"{len(thresholds)} thresholds, each with {len(falls or [None])} ramps, are more than {MOST_ROWS} rows")
    return {"thresholds": thresholds, "ramps": falls}


def torques_in(text):
    """The torques that a word names, each once, in rising order."""
    return sorted({torque for part in text.split(",") for torque in range_of(part)})


def range_of(part):
    """The torques of a part such as 150 or 0-800/25."""
    match, told = RANGE.fullmatch(part), part or "an empty part"
    if re.fullmatch(r"[0-9]*\.[0-9]+", part):
        refuse(f"{told} isn't whole, and torques are whole tenths of Nm")
    if not match:
        refuse(f"{told} is neither a number nor a range, such as 50-150/25")
    first, last, step = (number and int(number) for number in match.groups())
    if max(first, last or 0) > RAISE:
        refuse(f"{told} is above {RAISE}")
    if last is None:
        return [first]
    if not step:
        refuse(f"{told} has no step, as 50-150/25 has")
    if last < first:
        refuse(f"{told} begins above its end")
    if (last - first) // step >= MOST_ROWS:
        refuse(f"{told} has more than {MOST_ROWS} torques")
    return range(first, last + 1, step)


def written(search, row):
    """Writes the calibration of a row, and shows that it is what was foretold."""
    best, text = search.asked.best, search.text_with(row, row.limit, row.pairs_limit,
                                                     None if search.asked.keep_times else row.times)
    text = commented(search.with_answers(with_questions(best, text, filled(parsed(best, text)))), search)
    write(best, text.encode())
    differs = [name for name, is_so in (
        ("limits", search.limits_by(best) == row.limits), ("margins", search.weights_by(best) == row.weights),
        ("run", not any(search.cuts_by(best).values()))) if not is_so]
    if differs:
        fail(f"{best}: {' and '.join(differs)} tell otherwise than was foretold")
    yield f"{best}: written; limits, margins and run tell by it what was foretold"


def commented(text, search):
    """The text of a calibration with a comment on what was said of it; without those on another version, or another call."""
    mark, end = text[:text.startswith("\ufeff")], "\r\n" if "\r\n" in text else "\n"
    held, text = parsed(search.name, text), SAID_BEFORE.sub("", text[len(mark):])
    if held["version"] != search.start["version"]:
        text = COMMENTS.sub(lambda match: "" if NAMES_VERSION.search(match[0]) else match[0], text)
    new = mark + "".join(f"# As said to find ({word}): {SAID[word]}.{end}" for word in search.asked.said) + text
    return new if parsed(search.name, new) == held else fail(f"{search.name}: a comment can't be left out; do so by hand")


def chosen_told(row, units, said):
    limits, times = row.limits, row.times
    ramp = f"fall {units.torque(row.fall)}, " if row.fall else ""
    return (f"chosen: threshold {units.torque(row.threshold)}, {ramp}torque.limit {row.limit} (D {limits['excess']}), pairs.limit "
            f"{row.pairs_limit}, period {times['period']}, first {times['first']}, last {times['last']}, send {times['send']}, "
            f"answers.limit {times['limit']} (N {limits['verdicts']}); R {units.ticks(limits['reaction'])}, stretch "
            f"{units.ticks(limits['stretch'])}{with_ramp_said(row, units)}{by_words(said)}")


def inputs_of(words):
    """The files that a call reads: calibration, campaign, what that names, and recordings."""
    units = beside(words.cal)
    return [words.cal, *([units] if units else []), *words.recordings, *(files_of_campaign(words.drives) if words.drives else [])]


def asked(values):
    """The values of the call, with what they come to by its units."""
    if not values.drives and not values.recording:
        refuse_word("a campaign of sound drives is needed, or a recording")
    units = units_of(values.tick, [values.cal])
    tolerant, falls = ticks_of("--tolerant", values.tolerant, units), -(-ticks_of("--falls", values.falls, units) // 1)
    return SimpleNamespace(
        cal=values.cal, drives=values.drives, recordings=values.recording, units=units, falls=falls,
        tolerant=said_of(values.tolerant, units), left=max(0, tolerant // 1 - 1 - falls), room=values.room,
        **rows_of(values.thresholds, values.ramps), misses=values.misses, spacing=values.spacing, keep_times=values.keep_times,
        verbose=values.verbose, said=said_in(values), picture=values.picture, best=values.write)


def found(values):
    words = asked(values)
    names = inputs_of(words)
    for output in filter(None, (words.best, words.picture)):
        refuse_input(output, names)
    with room_in(tempfile.gettempdir()) as room:
        inputs = Inputs([program(), *names])
        search = Search(words, room)
        rows, units = search.rows(), words.units
        inputs.refuse_changes()
        falls = f", and less {units.ticks(words.falls)} for the torque to fall" if words.falls else ""
        told = [f"T is {units.ticks(words.left)}: {words.tolerant} less a tick, since an excess may begin between two{falls}",
                *(f"said ({word}): {SAID[word]}" for word in words.said), *table_of(rows, units),
                *(f"{row.said()}: {first_ramp_said(name, row.tick)}" for name, row in search.on_first_ramp(rows).items())]
        fitting = [row for row in rows if not row.hindrance]
        if words.picture:
            write(words.picture, ("\n".join(picture_of(rows, words.left, units, words.said)) + "\n").encode())
        if fitting:
            told.append(chosen_told(fitting[0], units, words.said))
            told += written(search, fitting[0]) if words.best else []
    print("\n".join(map(as_noted, told)))
    if not fitting:
        print(as_noted(f"{TOOL}: {nearest_of(rows, words.left)}"), file=sys.stderr)
        sys.exit(1)


def room_percent(text):
    return whole(0, 99).value(text.removesuffix("%"))


TORQUES = Kind(torques_in)
FIND = Tool(
    "find", "finds the calibrations by which no sound drive is cut and an excess of torque ends in time, for each threshold the best",
    (Form("tells a row for each threshold and ramp, and the first that fits", found, (
        Word("DRIVES", "a campaign of sound runs, without faults or with lapses", file("toml")),
        Word("--cal", "START, the calibration of which the rest stays", file("toml"), "NAME", is_needed=True),
        Word("--tolerant", "how long an excess may last in your engine, from the moment at which it begins to the moment at which "
             "it ends: 300ms, or a number of ticks", TIME, "TIME", is_needed=True),
        TICK_LENGTH,
        Word("--falls", "how long your torque takes to fall after the cut, and, added to that, what your paths take beyond a tick, "
             'how old your oldest reading is, and the rest of docs/CALIBRATING.md, "Step by step", 1; 0 without it', TIME, "TIME",
             default="0"),
        Word("--room", "how much of each limit the weights have to leave; 0 without it", Kind(room_percent, "0 to 99 per cent"),
             "PERCENT", default=0),
        Word("--thresholds", "in tenths of Nm, as 0-800/25 or 150,200; without it 0-800/25", TORQUES, "RANGE",
             default=torques_in("0-800/25")),
        Word("--ramps", "ramps to try with each threshold: by how much the permitted torque may fall in a tick, in tenths of Nm, as "
             "0,50-150/25, where 0 stands for no ramp; without it the ramp of START, or none", TORQUES, "FALLS"),
        *SAYS,
        Word("--recording", "a recording that mustn't be cut either, of those that replay reads", file("csv"), "FILE", is_several=True),
        Word("--misses", "wrong answers after so many missed ticks mustn't cut; without it 1, so that N of limits is 3",
             whole(0, MOST_MISSES, "ticks"), "TICKS", default=1),
        Word("--spacing", "missed ticks that lie so far apart mustn't cut; without it, it isn't asked", whole(0, 999999999, "ticks"),
             "TICKS"),
        Word("--keep-times", "the table answers stays as START has it"),
        Word("--picture", "a bar for each threshold, beside the time that is tolerated", file("svg"), "FILE"),
        Word("--write", "writes the calibration of the first row that fits, with questions that exercise everything, and plays the "
             "drives by it: it fails if anything differs from what it foretold", file("toml"), "BEST"),
        VERBOSE)),),
    "The status is 1 where nothing fits; whatever is refused has the status 2.", refused=2)
