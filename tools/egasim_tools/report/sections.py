"""What a report says, part by part, as HTML."""

import itertools
import re
import shlex
from collections import Counter

from egasim_tools.base.documents import blocks_of, cells_of, section_of
from egasim_tools.base.program import is_own, own_warning
from egasim_tools.base.records import part_of
from egasim_tools.base.units import Units
from egasim_tools.calibration.parameters import WATCHES
from egasim_tools.calibration.question_coverage import ranges_said
from egasim_tools.evidence.detection import HEADS, first_of, matrix
from egasim_tools.evidence.run_results import (CONFIRMED, EXCESS, NO_EXCESS, ONSET, R_PASSED, RESET, about_run, confirmed_of,
    cuts_of, events, excess_of, finds, given_ticks, lacking, windows)
from egasim_tools.report.html_parts import Html, code, inline, map_inline, of_document, paragraph, section, shown, table
from egasim_tools.report.program_results import MOST_DRAWN, MOST_NEAR, MOST_SWEEPS
from egasim_tools.report.run_pictures import record_picture, sweep_picture, taken_picture
from egasim_tools.report.verdicts import first_ramp_said, is_on_first_ramp, named, verdict

MOST_EVENTS, MOST_MARKS, MOST_CUTS = 30, 12, 12
TAKEN = ("Of each class the most ticks from the onset, or the later begin of the span, to the one at which the first watch finds "
         "something, both counted. A dashed line is the most by <code>within</code>, where <code>hidden</code> is 0 in one row of the "
         "class, but not for a lapse, which may miss no tick at its onset; else a bar is white. Runs in which something is found before the onset, or answers are sent within their window, "
         "don't count, and of a path that can't open only what a start-up test finds.")
FOLDED = ("Files and texts", "Recorded readings", "Coupled runs")  # claims that a page tells in one line
LAST_NUMBER = re.compile(r"[0-9]+$")
CLAIM = re.compile(r"^\| (\d+)\. ", re.M)
PARTS = [("limits", "Limits of the calibration"), ("coverage", "What finds a fault"), ("table", "Runs"), ("margins", "Margins"),
         ("sweeps", "Every class of fault"), ("pictures", "Pictures of the runs"),
         ("others", "Coupled runs and recordings"), ("assumptions", "Assumptions"),
         ("claims", "What is proved"), ("not-claimed", "What isn't claimed"), ("provenance", "What this page was made from")]


def parts(played, asked):
    tellers = (limits, coverage, rows, margins, sweeps, pictures, others, assumptions, claims, not_claimed, provenance)
    told = [(*part, teller) for part, teller in zip(PARTS, tellers)
            if teller is not others or played.coupled or played.replayed]
    yield from about(played, asked)
    yield from verdict(played, asked)
    yield from warnings(played)
    yield from summary(played)
    yield "<nav><ul>" + "".join(f'<li><a href="#{name}">{shown(title)}</a></li>' for name, title, _ in told) + "</ul></nav>"
    for name, title, teller in told:
        yield from section(name, title, teller(played))


# The verdict, and what stands around it


def about(played, asked):
    """What stands below the title."""
    calibration = Html(f"calibration {code(played.calibration)}" if played.calibration else "the reference calibration")
    yield '<ul class="about">'
    for name, said in (("Project", asked.project), ("Author", asked.author), ("Date", Html(f"<time>{played.date}</time>")),
                       ("Version", played.version[0]), ("Tick", played.units.time(1) if played.units else None)):
        if said:
            yield f"<li>{name}: {shown(said)}</li>"
    yield "</ul>"
    yield paragraph(Html(f"Campaign {code(played.campaign)}, by {calibration}."))


def warnings(played):
    yield paragraph(Html("How many ticks are tolerated, how long the torque takes to fall, how much room is wanted and which drives "
                         "are sound was said by whoever made this page, and nothing here checks it. docs/CALIBRATING.md, "
                         "&quot;Step by step&quot;, works the ticks out of the fault tolerant time."))
    yield paragraph(Html("The verdict holds of a unit that meets the <a href=\"#assumptions\">assumptions</a>. An excess in "
                         "bursts may never be confirmed, and then it may go on (A11)."))
    if is_own(played.version):
        yield paragraph(own_warning("page"), "warning own")


def greatest(rows, column, units=Units()):
    """The greatest number of a column, and the first run that has it."""
    row = max(rows, key=lambda row: int(row[column] or -1), default=None)
    if not row or not row[column]:
        return "none"
    told = units.cell(column, row[column])
    return f"{told[:-1]}, {row['run']})" if units else f"{told} ({row['run']})"


def swept_most(sweeps):
    reactions = (most for sweep in sweeps for kind, most in sweep.reactions.items() if kind != "lapse")
    return max((most for most in reactions if most is not None), default="none")


def summary(played):
    """What the runs come to."""
    listed = [row for row in played.rows if row["class"] not in ("none", "lapse")]
    bounded = [row for row in played.rows if row["class"] != "lapse"]
    faultless = [row for row in bounded if row["class"] == "none"]
    cut = [row["run"] for row in faultless if row["cut"]]
    units, limits = played.units, {name: played.units.cell(name, number) for name, number in played.limits.items()}
    yield "<ul>"
    for line in (
            f"Runs: {len(played.rows)}; without a fault {len(faultless)}, under a listed fault {len(listed)}, "
            f"under a lapse {len(played.rows) - len(bounded)}.",
            f"Greatest reaction, without lapses: {greatest(bounded, 'reaction', units)}; of the sweeps "
            f"{units.cell('reaction', swept_most(played.sweeps))}; "
            f"R is {limits['reaction']}.",
            f"Longest excess, without lapses: {greatest(bounded, 'stretch', units)} ticks; {limits['stretch']} is the most.",
            f"Greatest torque above permitted torque and threshold: {greatest(played.rows, 'peak', units)} tenths of Nm; "
            f"{limits['peak']} is the most.",
            f"Runs without a fault that were cut: {named(cut) or 'none'}."):
        yield f"<li>{shown(line)}</li>"
    yield "</ul>"


# The numbers


def meanings(played, heading):
    """What a table of docs/FORMATS.md says of columns or lines: (their names, the cells of the row), row by row."""
    for kind, lines in blocks_of(section_of(played.documents["FORMATS.md"], heading)):
        for cells in map(cells_of, lines[2:] if kind == "table" else []):
            yield [word.strip("`").split()[0] for word in cells[0].split(", ")], cells


def limits(played):
    said = {names[0]: map_inline(cells[1:]) for names, cells in meanings(played, "The text of `limits`")}
    rows = [(code(name), played.units.cell(name, number), *said.get(name, ("", ""))) for name, number in played.limits.items()]
    yield from table("limits", ("Line", "Number", "What it says", "Unit"), rows)


def coverage(played):
    units = played.units
    yield paragraph("This is said of the calibration, without a run, and of no share of faults.")
    yield from table("coverage: what finds a fault of each class", played.coverage[0],
                     [[LAST_NUMBER.sub(lambda ticks: units.ticks(ticks[0]), cell) if name in ("within", "off") else cell
                       for name, cell in row.items()] for row in played.coverage], "data")
    yield from columns(played, "The rows of `coverage`", played.coverage)
    yield from taken_part(played.taken, units)


def taken_part(taken, units):
    """The picture of how long the runs of each class take until something is found."""
    if all(one.most is None for one in taken.values()):
        yield paragraph("In no run is anything found from the onset of a fault on, so there is no picture of how long it takes.")
        return
    about = "; ".join(f"{kind} {'none' if one.most is None else f'{units.ticks(one.most)} in {one.run}'}"
                      + (f", within {units.ticks(one.within)}" if one.within is not None else "") for kind, one in taken.items())
    yield "<figure>"
    yield from taken_picture("taken", "How long it takes until faults are found", f"{about}.",
                             {kind: (one.most, one.within) for kind, one in taken.items()}, units)
    yield f"<figcaption>{TAKEN}</figcaption>"
    yield "</figure>"


def pair(row, name, units=Units()):
    return f"{row[name]} at {units.ticks(row[f'{name}_at'])}" if row[name] else ""


def rows(played):
    names, watched = ("run", "class", "onset", "fault", "acted", "off_at", "last_on"), ("first", "cut", "trap")
    units = played.units
    yield from table("table: what was found, and cut", (*names, *watched),
                     [[*(units.cell(name, row[name]) for name in names), *(pair(row, name, units) for name in watched)]
                      for row in played.rows], "data")
    names = ("run", "confirmed", "stretch", "peak", "reaction", "bound", "settled")
    yield from table("table: how long it took", (*names, "shows that R is kept"),
                     [[*(units.cell(name, row[name]) for name in names), evidence(row)] for row in played.rows], "data")
    yield from table("Runs by the watch that finds something first", HEADS,
                     matrix(Counter((row["class"], first_of(row)) for row in played.rows)), "data")
    yield paragraph("Where nothing is found, the last two columns say whether a true excess was confirmed. These are counts of these "
                    "runs alone.")
    yield paragraph("Whether a row shows that R is kept is told of a drive of one power cycle; of one with resets see its "
                    "picture.")
    yield from columns(played, "The rows of `table`", played.rows)


def evidence(row):
    reason = lacking(row)
    return f"no: {reason}" if reason else "yes"


def columns(played, heading, rows):
    """What docs/FORMATS.md says of the columns of these rows."""
    lines = [map_inline(cells) for names, cells in meanings(played, heading) if set(names) <= set(rows[0])]
    if lines:
        yield from table("The columns", ("Column", "What it says", "Unit"), lines)


def margins(played):
    weights = [(Html("<em>limit of the calibration</em>"), "", "", *(played.weights[watch] for watch in WATCHES), "")]
    yield from table("margins: the greatest weights, and the surplus", ("run", "class", "onset", *WATCHES, "surplus"),
                     weights + [tuple(itertools.starmap(played.units.cell, row.items())) for row in played.margins], "data")
    yield paragraph(Html("After a trip no more answers are sent, and each verdict without one is wrong: <code>answers</code> "
                         "then says nothing, also where it is at its limit."))
    yield from columns(played, "The rows of `margins`", played.margins)


# The pictures


def sweeps(played):
    yield paragraph("One drive span under one fault of each class, from each tick of a grid on. The run's own fault, and resets "
                    "of its drive, don't count. A bar is the greatest reaction of the runs of a class.")
    said = {names[0]: inline(cells[1]) for names, cells in meanings(played, "The table of `sweep`")}
    yield paragraph(Html(f"<code>none</code> is {said['A']}. Where no excess is confirmed nothing "
                         "has to be cut, so on a sound drive this doesn't say that the monitoring failed. A path that can't open is "
                         "found by the start-up test after the next reset, and a sweep has none; which other faults may stay "
                         "hidden tells docs/SAFETY.md, &quot;What can stay hidden&quot;."))
    for place, sweep in enumerate(played.sweeps):
        yield from sweep_part(place, sweep, int(played.limits["reaction"]), played.units)
    if played.not_asked:
        yield paragraph(f"Not swept, for they are sound drives: {named(played.not_asked)} (--sweep-sound sweeps them too).")
    if played.left:
        yield paragraph(f"{played.left} more drives, images, engines and slice plans weren't swept; {MOST_SWEEPS} are the most.",
                        "warning")


def sweep_part(place, sweep, bound, units):
    title = f"{sweep.runs[0]}, every {sweep.step} ticks" if sweep.step > 1 else f"{sweep.runs[0]}, every tick"
    listed = {kind: reaction for kind, reaction in sweep.reactions.items() if kind != "lapse" and reaction is not None}
    most = max(listed.values(), default=None)
    about = (f"The greatest reaction but under lapses is {units.ticks(most or 0, 'ticks')}, of "
             f"{', '.join(kind for kind in listed if listed[kind] == most)}. R is {units.ticks(bound)}.")
    yield f'<div class="swept">\n<h3>{shown(title)}</h3>'
    if len(sweep.runs) > 1:
        yield paragraph(f"The same of {named(sweep.runs[1:])}.")
    if most is None:
        yield paragraph("No run has a reaction, so there is no picture.")
    else:
        yield "<figure>"
        yield from sweep_picture(f"sweep{place}", f"Greatest reactions of a sweep: {title}", about, sweep.reactions, bound, units)
        yield "</figure>"
    heads = ("class", *next(iter(sweep.counts.values())), "reaction")
    yield from table("sweep: runs by what finds first, and the greatest reaction", heads,
                     [(kind, *counts.values(), "none" if sweep.reactions[kind] is None else units.ticks(sweep.reactions[kind]))
                      for kind, counts in sweep.counts.items()], "data")
    yield "</div>"


def not_drawn(played):
    """A table of the other runs, each with the command that draws it."""
    calibration = f" --cal {shlex.quote(played.calibration)}" if played.calibration else ""
    rows = [(row["run"], row["first"], row["cut"] or "-", code(f"egasim record{calibration} {shlex.quote(played.campaign)} {row['run']} "
                                                             f"| egasim draw{calibration} >{row['run']}.svg"))
            for row in played.rows if row["run"] not in played.drawn]
    if rows:
        yield paragraph(f"Drawn are the runs that were declared sound, those that are cut, and of the others the {MOST_NEAR} that came "
                        f"nearest to a cut; {MOST_DRAWN} at most. These are not:")
        yield from table("Runs without a picture", ("run", "first", "cut", "what draws it"), rows, "data")


def pictures(played):
    yield from not_drawn(played)
    for place, row in enumerate(played.rows):
        if row["run"] in played.drawn:
            yield from run_drawn(played, place, row)


def run_drawn(played, place, row):
    name = row["run"]
    run, resets, record = played.runs[name], played.resets[name], played.records[name]
    confirmed = list(confirmed_of(excess_of(record, played.threshold), played.torque_weights, set(resets)))
    yield f'<div class="run" id="run-{name}">'
    yield f"<h3>{shown(name)}</h3>"
    yield paragraph(Html(f"Drive {code(run['trace'])}, image {code(run['image'])}, {run.get('engine', 'gasoline')} engine"
                         + (f", slices {code(run['slices'])}" if "slices" in run else "")
                         + (f"; {shown(fault_said(row))}." if row["class"] != "none" else ".")))
    yield from run_parts(played, f"run{place}", "Run", name, record, given_ticks(row, len(record["on"]), resets, confirmed),
                         {*cuts_of(record, resets), *confirmed})


def run_parts(played, place, kind, name, record, given, shown_near):
    """The picture of a record with what happens in it, and the ticks around some of its ticks."""
    marks, threshold, units = marks_of(record, given), played.threshold, played.units
    yield '<div class="parts">'
    yield from run_figure(place, f"{kind} {name}", record, threshold, marks, units)
    yield "<div>"
    yield from event_table(record, threshold, events(record, threshold, given), units)
    yield "</div>\n</div>"
    yield from cut_figures(place, f"{kind} {name}", record, threshold, marks, windows(record, threshold, shown_near), units)
    yield "</div>"


def others(played):
    """Records of coupled runs, and what level 2 finds in recorded readings."""
    yield paragraph("These were made elsewhere. A coupled run has no share in the verdict; a recording counts as a sound drive. "
                    "A record doesn't say when the unit is reset, so no confirmed excess is marked. A replay is that of level 2 "
                    "alone, by this page's calibration.")
    for place, (name, record) in enumerate(played.coupled.items()):
        yield f'<div class="run"><h3>{shown(name)}</h3>'
        yield from run_parts(played, f"coupled{place}", "Coupled run", name, record, [], cuts_of(record, []))
    for name, lines in played.replayed.items():
        yield f"<h3>{shown(name)}</h3>"
        yield from table("replay: what level 2 finds", ("of", "what"), [line.split(" ", 1) for line in lines], "data")
        found = re.match(r"torque at (\d+);", next((line for line in lines if line.startswith("torque ")), ""))
        if found and is_on_first_ramp(int(found[1]), played.limits):
            yield paragraph(first_ramp_said(name, found[1]))


def run_figure(place, title, record, threshold, marks, units=Units()):
    drawn = most_marks(marks)
    yield "<figure>"
    yield from record_picture(place, f"{title}: torque, permitted torque and threshold, excess, stages",
                              about_run(record, threshold), record, threshold, drawn, units)
    if len(drawn) < len(marks):
        yield f"<figcaption>{len(marks) - len(drawn)} more marks aren't drawn.</figcaption>"
    yield "</figure>"


def cut_figures(place, title, record, threshold, marks, around, units=Units()):
    """The ticks around each cut, and around each confirmed excess, where the picture of the whole run is much coarser."""
    shown_near = [(first, last) for first, last in around if 2 * (last + 1 - first) <= len(record["on"])]
    if not shown_near:
        return
    yield '<div class="cuts">'
    for number, (first, last) in enumerate(shown_near[:MOST_CUTS]):
        near = [(tick, words) for tick, words in marks if first <= tick <= last]
        yield from run_figure(f"{place}-cut{number}", f"{title}, ticks {first} to {last}",
                              part_of(title, record, first, last), threshold, near, units)
    yield "</div>"
    if len(shown_near) > MOST_CUTS:
        yield paragraph(Html(f"{len(shown_near) - MOST_CUTS} more such stretches of ticks aren't drawn; the next begins at "
                             f"{shown_near[MOST_CUTS][0]}. {code('egasim plot --from T --to T')} draws any."))


def fault_said(row):
    return f"fault {row['class']} from {row['onset']} on{', ' if row['fault'] else ''}{row['fault']}"


def marks_of(record, given):
    """What stands above the picture of a run: first each confirmed excess, and last the resets."""
    short = {ONSET: "fault", CONFIRMED: "confirmed", R_PASSED: "R passed", RESET: "reset"}
    told = [(tick, f"{short.get(words, 'trap')} {tick}") for tick, words in given]
    told += [(first, f"{watch} {first}") for first, _, watch in finds(record)]
    return sorted(told, key=lambda mark: {"confirmed": 0, "reset": 2}.get(mark[1].split()[0], 1))


def most_marks(marks):
    """Of many marks each confirmed excess, and of the others the first."""
    confirmed = sum(words.startswith("confirmed ") for _, words in marks)
    return marks[:max(confirmed, MOST_MARKS)]


def event_table(record, threshold, told, units=Units()):
    """What happens in a run. Of many ticks those at which an excess only begins or ends are left out, and then the last."""
    said = {}
    for tick, words in told:
        said.setdefault(tick, []).append(words)
    ticks = list(said)
    if len(ticks) > MOST_EVENTS:
        ticks = [tick for tick in ticks if set(said[tick]) - {EXCESS, NO_EXCESS}] or ticks
    rows = [(units.ticks(tick), "; ".join(said[tick]), units.torque(record["torque"][tick]),
             units.torque(record["limit"][tick] + threshold),
             "on" if record["on"][tick] else "off") for tick in ticks[:MOST_EVENTS]]
    if not rows:
        yield paragraph("Nothing happens.")
        return
    yield from table("What happens", ("tick", "what", "torque", "permitted and threshold", "stages"), rows, "events")
    if len(said) > len(rows):
        yield paragraph(f"{len(said) - len(rows)} more ticks at which something happens: see the record.")


# What it rests on


def assumptions(played):
    yield from of_document(section_of(played.documents["SAFETY.md"], "The assumptions"), "The assumptions")


def claims(played):
    folded = []
    for part in section_of(played.documents["PROVED.md"], "The claims").split("\n### "):
        heading, _, text = part.partition("\n")
        if heading in FOLDED:
            folded += [f"claims {ranges_said(sorted(int(number) for number in CLAIM.findall(text)))} ({heading.lower()})"]
        else:
            yield from of_document(f"### {part}" if heading else part, "The claims")
    yield paragraph(f"Not shown here: {'; '.join(folded)}. docs/PROVED.md has them.")
    yield "<h3>Under which fault what holds</h3>"
    yield from of_document(section_of(played.documents["PROVED.md"], "Under which fault what holds"), "Under which fault what holds")


def not_claimed(played):
    for name, heading in (("SAFETY.md", "What the laws don't say"),
                          ("EVIDENCE.md", "What is proved, tested and trusted")):
        yield f"<h3>{shown(heading)}</h3>"
        yield from of_document(section_of(played.documents[name], heading), heading)


def provenance(played):
    yield f"<p>Made at <time>{shown(played.date)}</time> by</p>"
    yield "<ul>" + "".join(f"<li>{code(line)}</li>" for line in played.version) + "</ul>"
    if not played.calibration:
        yield paragraph("By the reference calibration, which is a part of the program.")
    yield from table("Files", ("file", "bytes", "SHA-256"),
                     [(code(name), size, code(total)) for name, (size, total, _) in played.sums.items()], "sums")
    yield from table("Commands, each of which ended with 0", ("command", "SHA-256 of what it printed"),
                     [(code(command), code(total)) for command, total in played.commands], "sums")
    if played.kept:
        yield paragraph(f"These calls are kept in {played.kept}. egasim keep --again makes them again, and compares.")
