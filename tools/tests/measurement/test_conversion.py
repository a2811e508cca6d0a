"""Drives of measurements, beside a second reader: it takes each line apart by itself, and looks at all samples for each
tick."""

import random
import unittest
from decimal import ROUND_CEILING, ROUND_FLOOR, ROUND_HALF_UP, Decimal
from types import SimpleNamespace

from in_folder import InFolder
from egasim_tools.measurement import conversion as drives
from egasim_tools.measurement.conversion import Drive, campaigns_of
from egasim_tools.measurement.mapping import mapping_of
from notes import note_of

MS = 10**6
ROUNDINGS = {"nearest": ROUND_HALF_UP, "down": ROUND_FLOOR, "up": ROUND_CEILING}
NO_NUMBERS = ("-1,#IND", "NaN", "nan", "-nan(ind)", "1.#QNAN", "inf", "#N/A")  # the first one not between commas
MOST = {"pedal": 1000, "speed": 8000, "raise": 10000}


class Drawn:
    """A measurement and its mapping, drawn."""

    def __init__(self, draw):
        self.draw, self.keys, self.tick = draw, ["pedal", "speed", "raise"], draw.choice((3, 5, 10, 10, 40))
        self.delimiter, self.decimal = draw.choice(((",", "."), (";", ","), (";", "."), ("\t", ","), ("\t", ".")))
        self.age, self.cuts, self.leaves = draw.choice((0, 5, 20, 100)), draw.random() < 0.3, draw.random() < 0.3
        self.times = {key: draw.choice(("time", "time_2")) for key in self.keys}
        self.how = {key: (draw.choice(("10", "1", "0.5", "-3.25", "100")), draw.choice(("0", "0", "12.5", "900")),
                          draw.choice(tuple(ROUNDINGS))) for key in self.keys}
        self.names = self.columns()
        self.rows = list(self.cells(draw.randint(1, 25)))
        times = [Decimal(row[self.names.index("time")]) for row in self.rows if row[self.names.index("time")]]
        self.first = draw.choice(times) if times and draw.random() < 0.2 else None
        self.last = draw.choice(times) if times and draw.random() < 0.2 else None

    def columns(self):
        names = ["time", *self.keys, *(["time_2"] if "time_2" in self.times.values() else []), "other"]
        return names[:1] + self.draw.sample(names[1:], len(names) - 1)

    def cells(self, count):
        now = {name: self.draw.randint(-50, 50) for name in ("time", "time_2")}
        for _ in range(count):
            row = {"other": self.draw.choice(("", "abc", "7"))}
            for name in now:
                now[name] += self.draw.choice((0, 1, 3, 10, 10, 37)) - (self.leaves and self.draw.random() < 0.1) * 25
                row[name] = str(Decimal(now[name]).scaleb(-3))
            for key in self.keys:
                value = Decimal(self.draw.randint(-2000, 12000)).scaleb(-self.draw.randint(0, 3))
                row[key] = self.draw.choices((f"{value:f}", "", self.draw.choice(NO_NUMBERS[self.delimiter == ",":])), (6, 3, 1))[0]
            yield [row.get(name, "") for name in self.names]

    def text(self):
        above = ["ETAS ASCII;record", ""][:self.draw.randint(0, 2)]
        names = [f'"{name}"' if self.draw.random() < 0.5 else name for name in self.names]
        units = [self.delimiter.join(["s"] * len(self.names))] * self.draw.randint(0, 1)
        rows = [self.delimiter.join(cell if "#" in cell else cell.replace(".", self.decimal) for cell in row) for row in self.rows]
        lines = [*above, self.delimiter.join(names), *units, *rows]
        return ("\ufeff" * self.draw.randint(0, 1) + self.draw.choice(("\n", "\r\n")).join(lines)).encode()

    def mapping(self):
        ends = f"from = {self.first}\n" * (self.first is not None) + f"to = {self.last}\n" * (self.last is not None)
        keys = "".join(f'{key} = {{ channel = "{key}", time = "{self.times[key]}", factor = {factor}, offset = {offset}, round = "{how}" }}\n'
                       for key, (factor, offset, how) in self.how.items())
        return (f'makes = "trace"\ntick = "{self.tick}ms"\nage = "{self.age}ms"\ngap = "{"cut" if self.cuts else "hold"}"\n[time]\n'
                f'channel = "time"\nfalling = "{"leave" if self.leaves else "refuse"}"\n{ends}[file]\ndecimal = "{self.decimal}"\n'
                f"[keys]\n{keys}")


class Second:
    """What becomes of a drawn measurement, by another way: times are ms."""

    def __init__(self, drawn):
        self.drawn, self.counts = drawn, {}
        self.samples = {key: list(self.samples_of(key)) for key in drawn.keys}
        self.is_empty = not all(self.samples.values())
        if self.is_empty:
            return
        firsts = max(samples[0][0] for samples in self.samples.values())
        self.start = firsts if drawn.first is None else int(drawn.first * 1000)
        ends = [time for samples in self.samples.values() for time, _ in samples if drawn.last is None or time <= drawn.last * 1000]
        end = max(samples[-1][0] for samples in self.samples.values())
        end = end if drawn.last is None else min(end, int(drawn.last * 1000))
        self.is_empty = self.start < firsts or end < self.start or not ends
        self.ticks = range(self.start, end + 1, drawn.tick)
        if not self.is_empty:
            self.columns = {key: [self.value(key, time) for time in self.ticks] for key in drawn.keys}
            for key in drawn.keys:
                self.count_unheld(key)

    def count(self, key, what, time, most=0):
        count, first, greatest = self.counts.get((key, what), (0, time, most))
        self.counts[key, what] = count + 1, first, max(greatest, most)

    def samples_of(self, key):
        place, at, latest = self.drawn.names.index(key), self.drawn.names.index(self.drawn.times[key]), None
        for row in self.drawn.rows:
            time, cell = int(Decimal(row[at]) * 1000), row[place]
            falls = latest is not None and time < latest
            latest = max(time, time if latest is None else latest)
            if cell and (falls or cell in NO_NUMBERS):
                self.count(key, "time falls" if falls else "no number", time)
            elif cell:
                yield time, Decimal(cell)

    def held(self, key, time):
        """The place of the sample that is held at a time: the last one of those with the greatest time up to it."""
        return max((at, place) for place, (at, _) in enumerate(self.samples[key]) if at <= time)[1]

    def value(self, key, time):
        at, said = self.samples[key][self.held(key, time)]
        factor, offset, how = self.drawn.how[key]
        exact = said * Decimal(factor) + Decimal(offset)
        value = exact.to_integral_value(ROUNDINGS[how])
        kept = min(max(value, 0), MOST[key])
        for what, is_so, most in (("rounded", value != exact, abs(value - exact)), ("too low", value < 0, -value),
                                  ("too high", value > MOST[key], value - MOST[key]), ("too old", time - at > self.drawn.age, time - at)):
            if is_so:
                self.count(key, what, time, most)
        return int(kept)

    def count_unheld(self, key):
        held = {self.held(key, time) for time in self.ticks}
        for place, (time, _) in enumerate(self.samples[key]):
            following = self.samples[key][place + 1][0] if place + 1 < len(self.samples[key]) else None
            if place not in held:
                what = ("same time" if following == time else "behind" if time > self.ticks[-1] and (
                    following is None or self.drawn.last is not None and time > self.drawn.last * 1000)
                    else "before" if following <= self.start else "between")
                self.count(key, what, time)

    def pieces(self):
        gaps = {place for key in self.drawn.keys for place, time in enumerate(self.ticks)
                if time - self.samples[key][self.held(key, time)][0] > self.drawn.age} if self.drawn.cuts else set()
        kept = set(range(len(self.ticks))) - gaps
        return list(zip(sorted(place for place in kept if place - 1 not in kept),
                        sorted(place + 1 for place in kept if place + 1 not in kept)))


class Drawings(InFolder):
    def test_drives_are_those_of_the_second_reader(self):
        draw, made = random.Random(72), 0
        for number in range(2000):
            drawn = Drawn(draw)
            self.write("m.csv", drawn.text())
            self.write("m.toml", drawn.mapping().encode())
            second = Second(drawn)
            if second.is_empty or not second.pieces():
                self.assertIsNotNone(note_of(Drive, mapping_of("m.toml"), "m.csv"), drawn.mapping())
                continue
            made += 1
            self.compare(Drive(mapping_of("m.toml"), "m.csv"), second, number % 40 == 0)
        self.assertGreater(made, 1200)

    def write(self, name, content):
        with open(name, "wb") as file:
            file.write(content)

    def compare(self, drive, second, writes):
        self.assertEqual({key: list(column) for key, column in drive.columns.items()}, second.columns)
        self.assertEqual(drive.pieces, second.pieces())
        counts = {(key, what): (one.count, one.first // MS, one.most / MS if what == "too old" else one.most)
                  for key, counts in drive.counts.items() for what, one in counts.of.items()}
        self.assertEqual(counts, second.counts)
        for place, (begin, end) in enumerate(drive.pieces if writes else []):
            drive.write("out.csv", place)
            with open("out.csv", encoding="utf-8") as file:
                self.assertEqual(file.read(), "pedal,speed,raise\n" + "".join(
                    f"{pedal},{speed},{demand}\n" for pedal, speed, demand in list(zip(*second.columns.values()))[begin:end]))


HEAD = 'makes = "trace"\ntick = "10ms"\nage = "30ms"\n[time]\nchannel = "t"\nunit = "ms"\n'
KEYS = '[keys]\npedal = { channel = "p" }\nspeed = { value = 800 }\nraise = { value = 0 }\n'


class Worked(InFolder):
    def drive(self, rows, mapping=HEAD + KEYS, names="t,p"):
        self.put("m.toml", mapping)
        self.put("m.csv", "\n".join([names, *rows]))
        return Drive(mapping_of("m.toml"), "m.csv")

    def note(self, rows, mapping=HEAD + KEYS, names="t,p"):
        return note_of(self.drive, rows, mapping, names)

    def pedals(self, rows, mapping=HEAD + KEYS):
        return list(self.drive(rows, mapping).columns["pedal"])

    def test_last_sample_at_or_before_the_tick_is_held(self):
        self.assertEqual(self.pedals(["5,1", "14,2", "15,3", "16,4", "35,5"]), [1, 3, 4, 5])
        self.assertEqual(self.pedals(["5,1", "14.999999,2", "15.0000004,3", "25,4"]), [1, 3, 4])
        self.assertEqual(self.pedals(["5,1", "15,2", "15,3", "24,"]), [1, 3])

    def test_half_is_rounded_away_from_zero(self):
        keys = KEYS.replace('channel = "p"', 'channel = "p", factor = 100, offset = -0.5')
        self.assertEqual(self.pedals(["0,0.03", "10,0.285", "20,0.02", "30,-1"], HEAD + keys), [3, 28, 2, 0])
        self.assertEqual(self.pedals(["0,0.5"], HEAD + KEYS), [1])
        self.assertEqual(self.pedals(["0,4095"], HEAD + KEYS.replace('"p"', '"p", factor = "1000/4095"')), [1000])

    def test_gap_begins_beyond_the_age(self):
        drive = self.drive(["0,1", "40,2", "80.000001,3", "90,4"])
        self.assertEqual(list(drive.columns["pedal"]), [1, 1, 1, 1, 2, 2, 2, 2, 2, 4])
        self.assertEqual(drive.held["pedal"].gaps, [(8, 9)])
        drive = self.drive(["0,1", "40,2", "80.000001,3", "90,4"], 'gap = "cut"\n' + HEAD + KEYS)
        self.assertEqual(drive.pieces, [(0, 8), (9, 10)])

    def test_texts_stand_for_numbers_and_an_edge_for_a_reset(self):
        keys = KEYS + 'reset = { channel = "k", edge = true, texts = { off = 0, on = 1 } }\n'
        drive = self.drive(["0,1,on", "10,1,off", "20,1,on", "30,1,on", "40,1,off", "50,1,on"], HEAD + keys, "t,p,k")
        self.assertEqual(list(drive.columns["reset"]), [0, 0, 1, 0, 0, 1])
        self.assertRegex(self.note(["0,1,ON"], HEAD + keys, "t,p,k"), "^m.csv: line 2: k has ON, which is no number")

    def test_recording_has_second_tracks_and_check_words(self):
        keys = ('[keys]\npedal1 = { channel = "p", factor = 10 }\npedal2 = { of = "pedal1", complement = 1000 }\nplate1 = { value = 0 }\n'
                'plate2 = { value = 1000 }\nload1 = { value = 40 }\nload2 = { of = "load1" }\nspeed1 = { value = 800 }\n'
                'speed2 = { of = "speed1" }\nraise = { value = 350 }\ncheck = { of = "raise", complement = 65535 }\n')
        drive = self.drive(["0,30", "10,100.5", "20,100.4"], HEAD.replace("trace", "recording") + keys)
        self.assertEqual(list(zip(*drive.columns.values()))[:2], [(300, 700, 0, 1000, 40, 40, 800, 800, 350, 65185),
                                                                  (1005, 0, 0, 1000, 40, 40, 800, 800, 350, 65185)])
        low = drive.counts["pedal2"].of["too low"]
        self.assertEqual((low.count, low.first, low.most), (2, 10 * MS, 5))

    def test_contacts_and_check_words_that_do_not_fit_are_counted(self):
        pairs = ("pedal", "plate", "load", "speed")
        keys = "[keys]\n" + "".join(f"{pair}{track} = {{ value = 0 }}\n" for pair in pairs for track in (1, 2)) + (
            'raise = { channel = "r" }\ncheck = { channel = "c" }\nbrake1 = { channel = "b" }\nbrake2 = { channel = "d" }\n')
        head, rows = HEAD.replace("trace", "recording"), ["0,0,65535,0,1", "10,7,65528,1,0", "20,7,7,9,0", "30,0,65535,0,0", "40,5,65531,1,2"]
        counts = self.drive(rows, head + keys, "t,r,c,b,d").counts
        self.assertEqual([(one.count, one.first) for one in (counts["brake2"].of["disagree"], counts["check"].of["no complement"])],
                         [(2, 30 * MS), (2, 20 * MS)])
        for change, ticks in (('{ of = "brake1" }', 5), ('{ of = "brake1", complement = 1 }', None)):
            told = list(self.drive(rows, head + keys.replace('{ channel = "d" }', change), "t,r,c,b,d").told(["o.csv"]))
            line = f"  ticks at which one contact says pressed, and the other doesn't: {ticks}; the first at 0 s"
            self.assertEqual([line] if ticks else [], [one for one in told if "contact" in one])
        told = list(self.drive(rows, head + keys.replace('{ channel = "c" }', '{ of = "raise" }'), "t,r,c,b,d").told(["o.csv"]))
        self.assertIn("  ticks at which the word isn't 65535 less raise: 5; the first at 0 s", told)

    def test_columns_of_time_are_told_where_there_are_several(self):
        rows = ["ms,%,ms,%", "0,1,0,1", "10,2,20,2", "20,3,40,3"]
        for said, lines in (("", ['u: looks like a column of time, and no channel has its times; time = "u" of a key says so',
                                  "pedal: p at t; samples: 3"]),
                            (', time = "u"', ["pedal: p at u; samples: 3"])):
            keys = KEYS.replace("value = 0", 'channel = "q"').replace('"p"', f'"p"{said}')
            told = list(self.drive(rows, HEAD + keys, "t,p,u,q").told(["o.csv"]))
            for line in lines:
                self.assertIn(line, told)
            self.assertIn("raise: q at t; samples: 3", told)
        self.assertIn("pedal: p; samples: 3", list(self.drive(["0,1", "10,2", "20,3"]).told(["o.csv"])))
        self.assertRegex(self.note(["s,%", "0,1"]), "^m.csv: line 2 has s as the unit of t, and time.unit is ms$")

    def test_times_that_fall_are_refused(self):
        self.assertEqual(self.note(["0,1", "20,2", "10,3"]), 'm.csv: line 4: t falls from 0.02 s in line 3 to 0.01 s; falling = "leave" '
                         "leaves such samples out")
        self.assertEqual(self.pedals(["0,1", "20,2", "10,3"], HEAD.replace("[time]", '[time]\nfalling = "leave"') + KEYS), [1, 1, 2])

    def test_what_has_no_drive_is_refused(self):
        for rows, note in (
                ([], "m.csv: p has no number, from which pedal is to be made"),
                (["0,NaN", "10,"], "m.csv: p has no number, from which pedal is to be made"),
                (["0,1", ",2"], "m.csv: line 3 has no time in t, and a value of one of its channels"),
                (["0,1", "10,1.5.5"], "m.csv: line 3: p has 1.5.5, which is no number with the decimal sign ."),
                (["0,1", "1e11,1"], "m.csv: line 3: 100000000 s is more than 4000000 ticks behind tick 0: is time.unit right? "
                 "time.from and time.to say a part that may be made by itself"),
                (["0,1", "1,5,1"], "m.csv: line 3 has more cells than line 1 has names; is the sign between them also that of decimals?")):
            self.assertEqual(self.note(rows), note)
        for times, note in (("from = -1", "m.csv: p has its first number at 0 s, behind time.from, -0.001 s"),
                            ("from = 11", "m.csv has no sample at time.from or behind it, up to time.to"),
                            ("to = -1", "m.csv has no sample at time.from or behind it, up to time.to")):
            self.assertEqual(self.note(["0,1", "10,2"], HEAD + times + "\n" + KEYS), note)

    def test_a_part_may_be_made_of_what_has_too_many_ticks(self):
        far = drives.MOST_TICKS * 10
        self.assertEqual(self.drive(["0,1", f"{far - 10},2"], 'gap = "cut"\n' + HEAD + KEYS).ticks, drives.MOST_TICKS)
        self.assertRegex(self.note(["0,1", f"{far},2"]), "ticks behind tick 0: is time.unit right?")
        self.assertEqual(self.pedals(["0,1", f"{far},2"], HEAD + "to = 20\n" + KEYS), [1, 1, 1])
        self.assertEqual(self.pedals(["0,1", f"{far},2"], HEAD + f"from = {far - 10}\n" + KEYS), [1, 2])

    def test_told(self):
        drive = self.drive(["0,1.25", "10,NaN", "60,-3"], 'gap = "cut"\n' + HEAD + KEYS)
        self.assertEqual(list(drive.told(["a-1.csv", "a-2.csv"])), [
            "m.csv: names in line 1, lines of units: 0; delimiter comma, decimal point, utf-8",
            "a-1.csv: 4 ticks of 10 ms, from 0 s to 0.03 s", "a-2.csv: 1 tick of 10 ms, from 0.06 s to 0.06 s",
            "ticks left out, held too long: 2; the first at 0.04 s", "pedal: p; samples: 2",
            "  samples left out, no numbers: 1; the first at 0.01 s",
            "  ticks held longer than 30 ms: 2; the first at 0.04 s; for 50 ms at most",
            "  ticks rounded: 6; the first at 0 s; by 0.25 at most", "  ticks clipped to 0: 1; the first at 0.06 s; by 3 at most",
            "speed: 800", "raise: 0"])


class Cuts(InFolder):
    MAPPING = HEAD + KEYS + '[cut]\nchannel = "v"\nmost = 0.5\n[run]\nimage = "i.hex"\n'

    def setUp(self):
        super().setUp()
        self.addCleanup(setattr, drives, "TRACE_TICKS", drives.TRACE_TICKS)
        drives.TRACE_TICKS = 20

    def drive(self, speeds, mapping):
        self.put("m.toml", mapping)
        self.put("m.csv", "t,p,v\n" + "".join(f"{10 * tick},1,{speed}\n" for tick, speed in enumerate(speeds)))
        return Drive(mapping_of("m.toml"), "m.csv")

    def test_long_traces_are_cut_as_late_as_may_be(self):
        draw = random.Random(7)
        for _ in range(500):
            speeds = [draw.choice((0, 0.5, 0.6, 90)) if draw.random() < 0.3 else 50 for _ in range(draw.randint(1, 90))]
            places = [0]
            while len(speeds) - places[-1] > 20:
                near = [tick for tick in range(places[-1] + 1, places[-1] + 21) if speeds[tick] <= 0.5]
                if not near:
                    break
                places.append(near[-1])
            else:
                self.assertEqual(self.drive(speeds, self.MAPPING).pieces, list(zip(places, [*places[1:], len(speeds)])))
                continue
            self.assertEqual(note_of(self.drive, speeds, self.MAPPING),
                             f"m.csv: [cut] lets the trace be cut nowhere from {places[-1] / 100:g} s to {places[-1] / 100 + 0.2:g} s, 20 ticks")

    def test_long_traces_want_a_cut_and_long_recordings_do_not(self):
        self.assertEqual(note_of(self.drive, [0] * 21, HEAD + KEYS),
                         "m.csv makes 21 ticks in a row, and a trace takes 20: [cut] of m.toml says where it may be cut")
        self.assertEqual(self.drive([0] * 20, HEAD + KEYS).pieces, [(0, 20)])

    def test_campaign_has_the_traces_in_their_order(self):
        drive = self.drive([0] * 50, self.MAPPING)
        [(name, text)] = campaigns_of(drive, "x/My Drive", ["x/My Drive-1.csv", "x/My Drive-2.csv", "x/My Drive-3.csv"])
        self.assertEqual(name, "x/My Drive.toml")
        self.assertEqual(text, "".join(f'[[run]]\nname = "my-drive-{n}"\ntrace = "x/My Drive-{n}.csv"\nimage = "i.hex"\n' for n in (1, 2, 3)))

    def test_campaigns_keep_their_limits(self):
        mapping = SimpleNamespace(run={"is_sound": True, "image": "i.hex"})
        for ticks, count, sizes in ((20000, 120, [50, 50, 20]), (1, 1001, [1000, 1])):
            drive = SimpleNamespace(mapping=mapping, pieces=[(0, ticks)] * count)
            campaigns = list(campaigns_of(drive, "d", [f"d-{place}.csv" for place in range(count)]))
            self.assertEqual([text.count("[[run]]") for _, text in campaigns], sizes)
            self.assertEqual([name for name, _ in campaigns], [f"d-{place}.toml" for place in range(1, len(sizes) + 1)])
            self.assertTrue(campaigns[0][1].startswith("# sound: d-1 d-2 "))


if __name__ == "__main__":
    unittest.main()
