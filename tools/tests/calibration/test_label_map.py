"""Labels of a DCM and keys of a calibration, to and fro, by maps that are drawn and by some that are wrong."""

import random
import re
from decimal import Decimal

from egasim_tools.calibration.dcm import labels_in
from egasim_tools.calibration.label_map import AXES, IS_AXIS, WORTH, lines_of, numbers_of_labels, values_of_map
from in_folder import InFolder
from notes import note_of
from units import drawn_calibration

MAP = '''[[value]]
key = "permit.threshold"
name = "Thres"
factor = 0.1
unit = "Nm"
'''
TABLE = '''[[value]]
key = "permit.table"
name = "Perm"
factor = 0.5
x = { key = "permit.pedal", factor = 0.1, unit = "%", name = "Ped" }
y = { key = "permit.speed", round = "up" }
'''
HEAD = "KONSERVIERUNG_FORMAT 2.0\n"
FIELD = HEAD + """GRUPPENKENNFELD Perm 2 3
*SSTX Ped
EINHEIT_X "%"
ST/X 0 50
ST/Y 800
WERT 1 2
ST/Y 2000
WERT 3 4
ST/Y 6000
WERT 5 6
END
"""
AXIS = 'STUETZSTELLENVERTEILUNG Ped 2\nEINHEIT_X "%"\nST/X 0 50\nEND\n'


def read_by_hand(text):
    """The values of a DCM by name: all numbers of its lines with WERT, and those of its axes. Read here by one pattern."""
    values = {}
    for name, body in re.findall(r"^[A-Z]+ (\S+)[^\n]*\n(.*?)^END$", text, re.M | re.S):
        for key in ("WERT", "ST/X", "ST/Y"):
            lines = re.findall(rf"^ *{key} (.*)$", body, re.M)
            values[name, key] = [Decimal(word) for line in lines for word in line.split()]
    return values


def drawn_map(draws, keys):
    """A map of these keys, with drawn factors and axes, and what 1 of each key is worth."""
    text, worth = [], {}
    for number, key in enumerate(keys):
        factor = draws.choice(["1", "0.1", "10", "0.25", "0.001", "2.5"])
        worth[key] = Decimal(factor)
        text += ["[[value]]", f'key = "{key}"', f'name = "L{number}"', f"factor = {factor}"]
        axes = list(AXES.get(key, ()))
        draws.shuffle(axes)
        for axis, one in zip("xy", axes):
            worth[one] = Decimal(draws.choice(["1", "0.1", "0.5"]))
            shared = draws.choice(["", f', name = "A{one[-3:]}"'])
            text.append(f'{axis} = {{ key = "{one}", factor = {worth[one]}, unit = "u{one[-3:]}"{shared} }}')
    return "\n".join(text), worth


class Labels(InFolder):
    def values(self, text):
        self.put("map.toml", text)
        return values_of_map("map.toml")

    def numbers(self, map_text, text, is_partial=False):
        told = []
        values = self.values(map_text)
        return numbers_of_labels(values, labels_in("a.dcm", text), "a.dcm", told, is_partial), told

    def note(self, map_text, text=FIELD):
        return note_of(self.numbers, map_text, text)

    def test_what_is_written_is_read_again(self):
        draws = random.Random(3)
        for _ in range(150):
            calibration = drawn_calibration(draws)
            calibration["torque"] |= {key: draws.randint(0, 100) for key in ("up", "down", "limit")}
            there = [key for key in WORTH if key.split(".")[1] in calibration.get(key.split(".")[0], {}) and key not in IS_AXIS]
            text, worth = drawn_map(draws, draws.sample(there, draws.randint(1, len(there))))
            values = self.values(text)
            written = "\n".join(lines_of(values, calibration, "drawn"))
            told = []
            numbers = numbers_of_labels(values, labels_in("a.dcm", written), "a.dcm", told, False)
            self.assertEqual(told, [])
            self.assertEqual({key: self.held(calibration, key) for key in worth}, numbers)
            self.hold_physical(values, calibration, worth, read_by_hand(written))

    def held(self, calibration, key):
        table, name = key.split(".")
        return calibration[table][name]

    def hold_physical(self, values, calibration, worth, read):
        """The physical values are those of the calibration, by decimals and by a reader of a few lines."""
        for value in values:
            key, name = value.scale.key, value.scale.name
            for axis, one in value.axes.items():
                self.assertEqual(read[name, f"ST/{axis.upper()}"], [number * worth[one.key] for number in self.held(calibration, one.key)])
            held = self.held(calibration, key)
            rows = [[held]] if not isinstance(held, list) else held if isinstance(held[0], list) else [held]
            columns = list(zip(*rows)) if value.axes.get("x") and value.axes["x"].key == "permit.pedal" else rows
            self.assertEqual(read[name, "WERT"], [number * worth[key] for row in columns for number in row])

    def test_rounding_is_told_and_goes_as_the_map_says(self):
        text = HEAD + 'FESTWERT Thres\nEINHEIT_W "Nm"\nWERT {}\nEND\n'
        for rounding, value, number, words in (
                ("", "20.04", 200, "permit.threshold: 20.04 Nm is 200.4, rounded to 200, 20 Nm"),
                ("", "20.05", 201, "permit.threshold: 20.05 Nm is 200.5, rounded to 201, 20.1 Nm"),
                ("", "-20.05", -200, "permit.threshold: -20.05 Nm is -200.5, rounded to -200, -20 Nm"),
                ('round = "up"\n', "20.01", 201, "permit.threshold: 20.01 Nm is 200.1, rounded up to 201, 20.1 Nm"),
                ('round = "down"\n', "20.09", 200, "permit.threshold: 20.09 Nm is 200.9, rounded down to 200, 20 Nm"),
                ('round = "down"\n', "20.1", 201, None), ("", "2e1", 200, None)):
            numbers, told = self.numbers(MAP + rounding, text.format(value))
            self.assertEqual((numbers, told), ({"permit.threshold": number}, [words] if words else []))
        thirds = MAP.replace("0.1", "0.3")
        self.assertEqual(self.numbers(thirds, text.format("20"))[1], ["permit.threshold: 20 Nm is about 66.66666667, rounded to 67, 20.1 Nm"])

    def test_a_map_is_turned_where_x_is_the_pedal(self):
        numbers, told = self.numbers(TABLE, FIELD + AXIS)
        self.assertEqual(numbers, {"permit.pedal": [0, 500], "permit.speed": [800, 2000, 6000], "permit.table": [[2, 6, 10], [4, 8, 12]]})
        self.assertEqual(told, [])

    def test_where_something_was_rounded_is_told(self):
        _, told = self.numbers(TABLE, FIELD.replace("2000", "2000.5").replace("WERT 3 4", "WERT 3 4.1"))
        self.assertEqual(told, ["permit.speed, point 1: 2000.5 is 2000.5, rounded up to 2001, 2001",
                                "permit.table at X 50, Y 2000.5: 4.1 is 8.2, rounded to 8, 4"])

    def test_what_does_not_fit_the_map_is_refused(self):
        line = "a.dcm: line 2: Perm"
        for text, words in (
                (FIELD.replace('"%"', '"deg"'), f'{line} has the unit "deg" of X, and the map "%"'),
                (FIELD.replace('EINHEIT_X "%"\n', ""), f'{line} has the unit "" of X, and the map "%"'),
                (FIELD.replace("*SSTX Ped\n", ""), f"{line} has X from no shared axis, and the map from Ped"),
                (FIELD.replace("*SSTX Ped", "*SSTX Other"), f"{line} has X from Other, and the map from Ped"),
                (FIELD + AXIS.replace("0 50", "0 60"), f"{line} has other points of X than Ped, line 13"),
                (FIELD.replace("Perm", "Perms"), "a.dcm: Perm, of permit.table, isn't there"),
                (FIELD + FIELD.removeprefix(HEAD), "a.dcm: Perm, of permit.table, stands in lines 2, 13"),
                (HEAD + "FESTWERT Perm\nWERT 1\nEND\n", f"{line} is a FESTWERT; permit.table needs one of KENNFELD, FESTKENNFELD, GRUPPENKENNFELD"),
                (FIELD.replace("WERT 1 2", 'TEXT "a"'), f'{line} has "a" where permit.table needs numbers')):
            self.assertEqual(self.note(TABLE, text), words)
        other = TABLE + '[[value]]\nkey = "permit.pedal"\nname = "Own"\nfactor = 0.1\n'
        self.assertEqual(self.note(other, FIELD + AXIS.replace("Ped", "Own").replace("0 50", "0 60")),
                         "a.dcm: line 13: Own: permit.pedal has other points than in a label above")

    def test_labels_that_are_not_there_may_stay(self):
        numbers, told = self.numbers(MAP + TABLE, FIELD, True)
        self.assertEqual((list(numbers), told), (["permit.pedal", "permit.speed", "permit.table"],
                                                 ["permit.threshold stays as it is: a.dcm has no Thres"]))

    def test_the_fall_is_a_torque(self):
        fall = '[[value]]\nkey = "permit.fall"\nname = "F"\nfactor = 0.1\nunit = "Nm"\n'
        self.assertEqual(self.numbers(fall, f'{HEAD}FESTWERT F\nEINHEIT_W "Nm"\nWERT 5.04\nEND\n'),
                         ({"permit.fall": 50}, ["permit.fall: 5.04 Nm is 50.4, rounded to 50, 5 Nm"]))
        self.assertEqual(note_of(lambda: list(lines_of(self.values(fall), {"permit": {"brake": True}}, ""))),
                         "map.toml: value 1: the calibration has no key permit.fall")

    def test_the_brake_is_a_truth_value(self):
        brake = '[[value]]\nkey = "permit.brake"\nname = "B"\n'
        for line, truth in (("WERT 1.0", True), ("WERT 0", False), ('TEXT "true"', True), ('TEXT "FALSE"', False)):
            self.assertEqual(self.numbers(brake, f"{HEAD}FESTWERT B\n{line}\nEND\n")[0], {"permit.brake": truth})
        self.assertIn('has "true" where permit.threshold needs numbers', self.note(MAP, f'{HEAD}FESTWERT Thres\nTEXT "true"\nEND\n'))
        for line in ("WERT 2", 'TEXT "yes"', 'TEXT "true" "true"'):
            self.assertIn("where permit.brake needs true or false", self.note(brake, f"{HEAD}FESTWERT B\n{line}\nEND\n"))
        self.assertIn("   WERT 1.0", list(lines_of(self.values(brake), {"permit": {"brake": True}}, "")))

    def test_a_key_that_the_calibration_lacks_is_refused(self):
        values = self.values('[[value]]\nkey = "permit.brake"\nname = "B"\n')
        self.assertEqual(note_of(lambda: list(lines_of(values, {"permit": {}}, ""))),
                         "map.toml: value 1: the calibration has no key permit.brake")

    def test_wrong_maps_are_refused_by_their_place(self):
        place = "map.toml: value 1"
        for text, words in (
                ("", "map.toml: a map has tables [[value]], and nothing else"),
                ("value = []", "map.toml: a map has tables [[value]]"),
                ("value = 3", "map.toml: a map has tables [[value]], and nothing else"),
                ("value = [3]", f"{place} must be a table"),
                (MAP + "[other]", "map.toml: a map has tables [[value]], and nothing else"),
                (MAP.replace("threshold", "thresh"), f"{place}: key must be one of permit.pedal, "),
                (MAP.replace("factor", "faktor"), f"{place}: there is no key faktor; the keys are "),
                (MAP.replace("0.1", "0"), f"{place}: factor must be a number above 0"),
                (MAP.replace("0.1", "-0.1"), f"{place}: factor must be a number above 0"),
                (MAP.replace("0.1", "true"), f"{place}: factor must be a number above 0"),
                (MAP.replace("0.1", '"0.1"'), f"{place}: factor must be a number above 0"),
                (MAP.replace("0.1", "inf"), f"{place}: factor must be a number above 0"),
                (MAP.replace("0.1", "nan"), f"{place}: factor must be a number above 0"),
                (MAP.replace('"Nm"', '"N\\"m"'), f"{place}: unit must be a text without quotes"),
                (MAP.replace('"Thres"', '"a b"'), f"{place}: a b is no name of a label"),
                (MAP.replace('name = "Thres"\n', ""), f"{place}: a value needs the name of its label"),
                (MAP + 'round = "even"', f"{place}: round must be one of nearest, up, down"),
                (MAP + 'x = { key = "permit.pedal" }', f"{place}: permit.threshold needs no axes"),
                (TABLE.replace("\ny", "\n#"), f"{place}: permit.table needs permit.pedal and permit.speed, as x = {{ key = .. }} and y"),
                (TABLE.replace("permit.speed", "permit.pedal"), f"{place}: permit.table needs permit.pedal and permit.speed"),
                (TABLE.replace('y = { key = "permit.speed", round = "up" }', "y = 3"), f"{place}: y must be a table"),
                (MAP + MAP, "map.toml: value 2: name Thres stands above already"),
                (MAP + MAP.replace("Thres", "Other"), "map.toml: value 2: key permit.threshold stands above already")):
            self.assertTrue((note_of(self.values, text) or "").startswith(words), (text, note_of(self.values, text)))
