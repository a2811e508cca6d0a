"""Mappings: what they say, and what is refused of them."""

import unittest
from fractions import Fraction

from in_folder import InFolder
from egasim_tools.measurement.mapping import COLUMNS, mapping_of
from notes import note_of

MS = 10**6
HEAD = 'makes = "trace"\ntick = "10ms"\nage = "30ms"\n'
TIME = '[time]\nchannel = "t"\n'
KEYS = '[keys]\npedal = { channel = "p" }\nspeed = { value = 800 }\nraise = { value = 0 }\n'


class Mappings(InFolder):
    def mapping(self, text):
        self.put("m.toml", text)
        return mapping_of("m.toml")

    def note(self, text):
        note = note_of(self.mapping, text)
        return note and note.removeprefix("m.toml: ")

    def test_what_is_not_said_has_a_value(self):
        mapping = self.mapping(HEAD + TIME + KEYS)
        self.assertEqual((mapping.makes, mapping.tick, mapping.age, mapping.cuts_gaps), ("trace", 10 * MS, 30 * MS, False))
        self.assertEqual((mapping.times.unit, mapping.times.first, mapping.times.last, mapping.times.leaves), (10**9, None, None, False))
        self.assertEqual((mapping.file.delimiter, mapping.file.decimal, mapping.file.encoding, mapping.file.empty), (None, None, None, set()))
        self.assertEqual((mapping.cut, mapping.run), (None, None))
        pedal = mapping.sources["pedal"]
        self.assertEqual((pedal.channel, pedal.time, pedal.factor, pedal.offset, pedal.round, pedal.age, pedal.texts, pedal.most),
                         ("p", "t", 1, 0, "nearest", 30 * MS, {}, 1000))

    def test_numbers_are_as_exact_as_they_are_written(self):
        for said, number in (("0.1", Fraction(1, 10)), ("-3", Fraction(-3)), ('"1000/4095"', Fraction(1000, 4095)), ("1e-3", Fraction(1, 1000)),
                             ('"1/0"', None), ('"x"', None), ("true", None), ("nan", None), ("inf", None), ('"1e9"', None)):
            text = HEAD + TIME + KEYS.replace('"p"', f'"p", factor = {said}')
            if number is None:
                self.assertEqual(self.note(text), 'keys.pedal.factor must be a number, or a text such as "1000/4095"')
            else:
                self.assertEqual(self.mapping(text).sources["pedal"].factor, number)

    def test_times_are_in_their_unit(self):
        for unit, said, time in (("s", "1.5", 1500 * MS), ("ms", "0.25", 250000), ("us", "1", 1000), ("ns", "-7", -7)):
            mapping = self.mapping(HEAD + TIME + f'unit = "{unit}"\nfrom = {said}\nto = {said}\n' + KEYS)
            self.assertEqual((mapping.times.first, mapping.times.last), (time, time))
        self.assertEqual(self.note(HEAD + TIME + 'unit = "ns"\nfrom = 0.5\n' + KEYS),
                         "time.from isn't a whole number of nanoseconds below 10^18")

    def test_columns_stand_in_the_order_of_the_header(self):
        more = 'brake = { channel = 7 }\nreset = { channel = "k", edge = true }\n'
        self.assertEqual(list(self.mapping(HEAD + TIME + KEYS + more).sources), list(sum(COLUMNS["trace"], ())))

    def test_what_a_mapping_may_not_say(self):
        for text, note in (
                ("", "makes must be one of trace, recording"), ('makes = "drive"', "makes must be one of trace, recording"),
                ('makes = "trace"', "tick None is no length of a tick, such as 10ms, 2.5ms or 0.02s, of 10 s at the most"),
                ('makes = "trace"\ntick = "10ms"', 'age must say beyond what age a value is a gap, such as "100ms"'),
                ("tack = 1", "there is no key tack; the keys are makes, tick, age, gap, file, time, keys, cut, run"),
                (HEAD + 'gap = "fill"\n', "gap must be one of hold, cut"), (HEAD + "time = 1", "time must be a table"),
                (HEAD, "time.channel must be the name of a channel, or the number of its column, from 1 on"),
                (HEAD + '[time]\nchannel = 0\n', "time.channel must be the name of a channel, or the number of its column, from 1 on"),
                (HEAD + TIME + 'unit = "min"\n', "time.unit must be one of ns, us, ms, s"),
                (HEAD + TIME + 'falling = true\n', "time.falling must be one of refuse, leave"),
                (HEAD + TIME + '[file]\ndelimiter = "|"\n', "file.delimiter must be one of ,, ;, \\x09"),
                (HEAD + TIME + '[file]\nempty = "-"\n', "file.empty must be a list of texts")):
            self.assertEqual(self.note(text), note)

    def test_what_keys_may_not_say(self):
        for change, note in (
                (("raise", "rise"), "keys of a trace: there is no key rise; the keys are pedal, speed, raise, reset, brake"),
                (("raise = { value = 0 }", ""), "keys has no raise, which a trace needs; raise = { value = 0 } writes 0"),
                (("{ value = 800 }", "800"), "keys.speed must be a table with one of channel, value and of"),
                (("value = 800", 'value = 800, of = "pedal"'), "keys.speed must be a table with one of channel, value and of"),
                (("value = 800", "value = 8001"), "keys.speed.value must be a whole number from 0 to 8000"),
                (("value = 800", "value = 8.5"), "keys.speed.value must be a whole number from 0 to 8000"),
                (("value = 800", "value = 800, factor = 2"), "keys.speed: there is no key factor; the keys are value"),
                (("value = 800", 'of = "brake"'), "keys.speed.of must be a key that has a channel or a value"),
                (("value = 800", 'of = "speed"'), "keys.speed.of must be a key that has a channel or a value"),
                (('"p"', '"p", edge = true'), "keys.pedal: there is no key edge; the keys are channel, time, factor, offset, round, age, texts"),
                (('"p"', '"p", factor = 0'), "keys.pedal.factor is 0, by which nothing of the channel stays; { value = N } writes a constant"),
                (('"p"', '"p", factor = 1e308'), "keys.pedal.factor is out of range: less than 10^18, please"),
                (('"p"', '"p", offset = -1e18'), "keys.pedal.offset is out of range: less than 10^18, please"),
                (('"p"', '"p", round = "half"'), "keys.pedal.round must be one of nearest, down, up"),
                (('"p"', '"p", age = 10'), 'keys.pedal.age must say beyond what age a value is a gap, such as "100ms"'),
                (('"p"', '"p", texts = { on = "x" }'), 'keys.pedal.texts.on must be a number, or a text such as "1000/4095"')):
            self.assertEqual(self.note(HEAD + TIME + KEYS.replace(*change)), note)
        self.assertEqual(self.note(HEAD + TIME + KEYS + "brake = { value = 0 }\n"),
                         "keys has brake without reset; a header is pedal,speed,raise,reset,brake")

    def test_second_tracks_are_advised_as_they_read(self):
        ways = {"pedal2": '{ of = "pedal1", complement = 1000 } writes what fits to pedal1',
                "pedal1": '{ of = "pedal2", complement = 1000 } writes what fits to pedal2',
                "plate2": '{ of = "plate1", complement = 1000 } writes what fits to plate1',
                "load2": '{ of = "load1" } writes what fits to load1', "speed2": '{ of = "speed1" } writes what fits to speed1',
                "speed1": '{ of = "speed2" } writes what fits to speed2', "raise": "{ value = 0 } writes 0",
                "check": '{ of = "raise", complement = 65535 } writes the word of a raise that is read rightly'}
        head, lines = HEAD.replace("trace", "recording") + TIME, {key: f"{key} = {{ value = 1 }}\n" for key in COLUMNS["recording"][0]}
        for key, way in ways.items():
            text = head + "[keys]\n" + "".join(line for other, line in lines.items() if other != key)
            self.assertEqual(self.note(text), f"keys has no {key}, which a recording needs; {key} = {way}")
        text = head + "[keys]\n" + "".join(lines.values())
        for key, other in (("brake1", "brake2"), ("brake2", "brake1")):
            self.assertEqual(self.note(f"{text}{key} = {{ value = 1 }}\n"),
                             f'keys has {key} without {other}; {other} = {{ of = "{key}", complement = 1 }} writes what fits to {key}; '
                             f"a header is {','.join(sum(COLUMNS['recording'], ()))}")
        none = head + "[keys]\n" + "".join(line for key, line in lines.items() if not key.startswith("pedal"))
        self.assertEqual(self.note(none), "keys has no pedal1, which a recording needs; pedal1 = { value = 0 } writes 0")

    def test_what_cuts_and_runs_may_not_say(self):
        for more, note in (
                ('[cut]\nchannel = "v"\n', "cut must have a channel, and the most that it may be where a trace is cut"),
                ('[cut]\nchannel = "v"\nmost = "x"\n', 'cut.most must be a number, or a text such as "1000/4095"'),
                ("[run]\nsound = true\n", "run.image must be the name of an image"),
                ('[run]\nimage = "i"\nsound = 1\n', "run.sound must be true or false"),
                ('[run]\nimage = "i"\nfaults = []\n', "run: there is no key faults; the keys are image, engine, slices, sound")):
            self.assertEqual(self.note(HEAD + TIME + KEYS + more), note)


if __name__ == "__main__":
    unittest.main()
