"""Traces and recordings that are made of measurements: their columns, where they are cut, and what is told of them."""

import itertools
import os
import re
from array import array
from fractions import Fraction

from egasim_tools.base.files import written
from egasim_tools.base.ranges import TRACE_TICKS, WORD
from egasim_tools.base.tool import fail
from egasim_tools.base.units import NANOSECONDS, decimal, time_told
from egasim_tools.measurement.csv_export import DECIMALS, DELIMITERS, Measurement
from egasim_tools.measurement.sample_and_hold import (BEFORE, BEHIND, BETWEEN, DISAGREE, FALLING, NO_COMPLEMENT, NO_NUMBER,
    NUMBERS, ROUNDED, SAME_TIME, TOO_HIGH, TOO_LOW, TOO_OLD, Counts, Grid, Held)
from egasim_tools.study.campaigns import Campaign, run_text

MOST_TICKS = 4000000  # of all that is made
# What is told of a column, in this order: what was done, and behind the first time how much of it was the most.
WORDS = {
    NO_NUMBER: ("samples left out, no numbers", None),
    FALLING: ("samples left out, since their time falls", None),
    SAME_TIME: ("samples left out, since a later line has their time", None),
    BEFORE: ("samples left out, before the first tick", None),
    BETWEEN: ("samples left out, between two ticks", None),
    BEHIND: ("samples left out, behind the last tick", None),
    TOO_OLD: ("ticks held longer than {age}", "for {time} at most"),
    ROUNDED: ("ticks rounded", "by {most:.3g} at most"),
    TOO_LOW: ("ticks clipped to 0", "by {most:.6g} at most"),
    TOO_HIGH: ("ticks clipped to {limit}", "by {most:.6g} at most"),
    DISAGREE: ("ticks at which one contact says pressed, and the other doesn't", None),
    NO_COMPLEMENT: ("ticks at which the word isn't 65535 less raise", None),
}
# Of a recording: the column of which it is told, the one that it is compared with, and whether their numbers fit together.
COMPARED = {
    DISAGREE: ("brake2", "brake1", lambda second, first: (first != 0) == (second == 0)),
    NO_COMPLEMENT: ("check", "raise", lambda word, demand: word == WORD - demand),
}


class Drive:
    """What a measurement becomes by a mapping."""

    def __init__(self, mapping, name):
        self.mapping = mapping
        sources = [source for source in [*mapping.sources.values(), mapping.cut] if source and source.channel is not None]
        channels = [channel for source in sources for channel in (source.time, source.channel)]
        self.measurement = Measurement(name, mapping.file, channels)
        self.grid = Grid(self.start_of(sources), mapping.tick, mapping.times.last)
        self.held = {source.key: Held(source, self.grid) for source in sources}
        self.ticks = self.fed()
        self.times = {self.measurement.column(source.time) for source in sources}
        self.other_times = self.measurement.other_times(self.times, set(map(self.measurement.column, channels)))
        self.counts = {key: held.counts for key, held in self.held.items()}
        self.columns = {key: self.column(source) for key, source in mapping.sources.items()}
        self.compare()
        self.pieces = list(self.cut(self.kept()))

    def samples(self, sources):
        """What stands in the file: (source, line, time, what is said, why it is left out or None)."""
        times, groups, latest = self.mapping.times, {}, {}
        for source in sources:
            group = groups.setdefault(self.measurement.column(source.time), (source.time, []))
            group[1].append((source, self.measurement.column(source.channel)))
        for line, cells in self.measurement.rows(groups, times):
            for place, (channel, members) in groups.items():
                if not cells[place] and not any(cells[column] for _, column in members):
                    continue
                time = self.measurement.time(line, channel, cells[place], times.unit)
                if time is None:
                    fail(f"{self.measurement.name}: line {line} has no time in {channel}, and a value of one of its channels")
                falls = time < latest.get(place, (time,))[0]
                if falls and not times.leaves:
                    fail(f"{self.measurement.name}: line {line}: {channel} falls from {told_at(latest[place][0])} in line "
                         f'{latest[place][1]} to {told_at(time)}; falling = "leave" leaves such samples out')
                latest[place] = latest[place] if falls else (time, line)
                for source, column in members:
                    said = self.said(source, line, cells[column])
                    if said is not None:
                        yield source, line, time, said, FALLING if falls else NO_NUMBER if said == "nan" else None

    def said(self, source, line, text):
        return source.texts[text] if text in source.texts else self.measurement.number(line, source.channel, text)

    def start_of(self, sources):
        """The time of tick 0: as the mapping says, or the first at which each channel has a sample."""
        times, firsts = self.mapping.times, {}
        for source, _, time, _, why in self.samples(sources):
            if not why:
                firsts.setdefault(source.key, time)
                if len(firsts) == len(sources):
                    break
        for source in sources:
            if source.key not in firsts:
                fail(f"{self.measurement.name}: {source.channel} has no number, from which {source.key} is to be made")
            if times.first is not None and times.first < firsts[source.key]:
                fail(f"{self.measurement.name}: {source.channel} has its first number at {told_at(firsts[source.key])}, behind "
                     f"time.from, {told_at(times.first)}")
        return max(firsts.values()) if times.first is None else times.first

    def fed(self):
        """Holds all samples, and returns how many ticks there are: up to the last sample, or to time.to."""
        end, sources = self.grid.start - 1, [held.source for held in self.held.values()]
        for source, line, time, said, why in self.samples(sources):
            held = self.held[source.key]
            if why:
                held.counts.add(why, time)
            elif self.grid.before(time + 1) > MOST_TICKS:
                fail(f"{self.measurement.name}: line {line}: {told_at(time)} is more than {MOST_TICKS} ticks behind tick 0: is "
                     "time.unit right? time.from and time.to say a part that may be made by itself")
            else:
                held.add(time, said)
                end = max(end, time)
        ticks = self.grid.before(end + 1)
        for held in self.held.values():
            held.finish(ticks)
        return ticks or fail(f"{self.measurement.name} has no sample at time.from or behind it, up to time.to")

    def column(self, source):
        """The numbers of a column, tick by tick."""
        if source.channel is not None:
            return self.held[source.key].values
        if source.value is not None:
            return array(NUMBERS, [source.value]) * self.ticks
        origin = self.mapping.sources[source.of]
        values = self.held[origin.key].values if origin.channel is not None else array(NUMBERS, [origin.value]) * self.ticks
        if source.complement is None:
            return values
        counts = self.counts.setdefault(source.key, Counts())
        for tick, value in enumerate(values):
            if value > source.complement:
                counts.add(TOO_LOW, self.grid.time(tick), 1, value - source.complement)
        return array(NUMBERS, [max(0, source.complement - value) for value in values])

    def compare(self):
        """Counts the ticks at which two columns don't fit together."""
        for what, (key, other, fits) in COMPARED.items():
            if key in self.columns:
                counts = self.counts.setdefault(key, Counts())
                for tick, numbers in enumerate(zip(self.columns[key], self.columns[other])):
                    if not fits(*numbers):
                        counts.add(what, self.grid.time(tick))

    # Where it is cut

    def gaps(self):
        """The stretches of ticks at which a column is held too long, which may overlap, in their order."""
        return sorted(gap for held in self.held.values() if held.source.key != "cut" for gap in held.gaps)

    def kept(self):
        """The stretches of ticks that are kept: (first tick, tick behind the last)."""
        if not self.mapping.cuts_gaps:
            return [(0, self.ticks)]
        kept, begin = [], 0
        for first, end in [*self.gaps(), (self.ticks, self.ticks)]:
            if begin < first:
                kept.append((begin, first))
            begin = max(begin, end)
        return kept or fail(f"{self.measurement.name} has a gap at each tick")

    def cut(self, stretches):
        """The stretches, cut where one has more ticks than a trace takes."""
        for begin, end in stretches:
            while self.mapping.makes == "trace" and end - begin > TRACE_TICKS:
                last = self.last_cut(begin, end)
                yield begin, last
                begin = last
            yield begin, end

    def last_cut(self, begin, end):
        """The last tick, at most 20,000 behind the first, before which the mapping lets the trace be cut."""
        if "cut" not in self.held:
            fail(f"{self.measurement.name} makes {end - begin} ticks in a row, and a trace takes {TRACE_TICKS}: [cut] of "
                 f"{self.mapping.name} says where it may be cut")
        may, old = self.held["cut"].values, self.held["cut"].gaps
        for tick in range(begin + TRACE_TICKS, begin, -1):
            if may[tick] and not any(first <= tick < behind for first, behind in old):
                return tick
        return fail(f"{self.measurement.name}: [cut] lets the trace be cut nowhere from {told_at(self.grid.time(begin))} to "
                    f"{told_at(self.grid.time(begin + TRACE_TICKS))}, {TRACE_TICKS} ticks")

    # What is written

    def write(self, name, place):
        """Writes one of the pieces."""
        begin, end = self.pieces[place]
        with written(name) as file:
            file.write((",".join(self.columns) + "\n").encode())
            rows = zip(*(itertools.islice(column, begin, end) for column in self.columns.values()))
            while chunk := list(itertools.islice(rows, 10000)):
                file.write("".join(",".join(map(str, row)) + "\n" for row in chunk).encode())

    # What is told

    def told(self, names):
        """What became of the measurement, line by line; `names` are those of the pieces."""
        found = self.measurement
        sign = f"decimal {DECIMALS[found.decimal]}" if found.decimal else "no decimals"
        yield (f"{found.name}: names in line {found.names[0]}, lines of units: {found.rows_of_units}; delimiter "
               f"{DELIMITERS[found.delimiter]}, {sign}, {found.encoding}")
        for name, (begin, end) in zip(names, self.pieces):
            yield (f"{name}: {end - begin} tick{'s' * (end - begin > 1)} of {time_told(self.grid.tick)}, from {told_at(self.grid.time(begin))} to "
                   f"{told_at(self.grid.time(end - 1))}")
        for channel in self.other_times:
            yield f"{channel}: looks like a column of time, and no channel has its times; time = \"{channel}\" of a key says so"
        left = self.ticks - sum(end - begin for begin, end in self.pieces)
        if left:
            yield f"ticks left out, held too long: {left}; the first at {told_at(self.grid.time(self.gaps()[0][0]))}"
        for source in [*self.mapping.sources.values(), *([self.mapping.cut] if self.mapping.cut else [])]:
            yield self.origin(source)
            yield from self.done(source)

    def origin(self, source):
        if source.channel is not None:
            at = f" at {source.time}" if len(self.times) > 1 or self.other_times else ""
            return f"{source.key}: {source.channel}{at}; samples: {self.held[source.key].samples}"
        if source.value is not None:
            return f"{source.key}: {source.value}"
        return f"{source.key}: {source.of}" if source.complement is None else f"{source.key}: {source.complement} less {source.of}"

    def done(self, source):
        counts = self.counts.get(source.key)
        for what, (words, most) in WORDS.items():
            one = counts.of.get(what) if counts else None
            if one:
                names = {"age": time_told(source.age) if source.channel is not None else "", "limit": source.most,
                         "time": time_told(int(one.most)), "most": float(one.most)}
                behind = f"; {most.format(**names)}" if most else ""
                yield f"  {words.format(**names)}: {one.count}; the first at {told_at(one.first)}{behind}"


def told_at(time):
    """A time of the measurement, in seconds."""
    return f"{decimal(Fraction(time, NANOSECONDS['s']))} s"


# The campaign


def campaigns_of(drive, name, traces):
    """The campaigns of the traces, as many as their limits ask for: (name, text)."""
    asked = {key: value for key, value in drive.mapping.run.items() if key != "is_sound"}
    stem = re.sub("[^a-z0-9]+", "-", os.path.basename(name).lower()).strip("-")[:24].strip("-") or "drive"
    campaigns = [Campaign()]
    for place, (trace, (begin, end)) in enumerate(zip(traces, drive.pieces), 1):
        run = {"name": stem if len(traces) == 1 else f"{stem}-{place}", "trace": trace, **asked}
        text = run_text(run)
        if not campaigns[-1].has_room(text, end - begin):
            campaigns.append(Campaign())
        campaigns[-1].add(text, run["name"], [trace], end - begin)
    for place, campaign in enumerate(campaigns, 1):
        sound = f"# sound: {' '.join(campaign.rows)}\n" if drive.mapping.run["is_sound"] else ""
        yield f"{name}.toml" if len(campaigns) == 1 else f"{name}-{place}.toml", sound + "".join(campaign.texts)

