"""Values that are put into the text of a calibration file."""

import random
import tomllib

from egasim_tools.base.files import TOP, text_of
from egasim_tools.calibration.key_edits import spans, with_ramp, with_values
from in_folder import InFolder
from notes import note_of

TEXT = """# A calibration with comments: permit.threshold = 5
version = 1   # one
permit.threshold = 200 # tenths of Nm = 20 Nm
[permit.more]  # [torque]
table = [  # [900]
  [1, 2],  # of idle, 17
  [3, 4],
] # end
brake = true
[ torque ]
kt=2_500
up = 1
[[question]]
kt = 9
[plant]
angle = [0, 200,
# 300
1000]
"""
BY_HAND = "c.toml: a key isn't written as expected; put the values in by hand"


class Placing(InFolder):
    def put_in(self, text, **values):
        self.put("c.toml", text)
        return with_values("c.toml", {key.replace("__", "."): value for key, value in values.items()})

    def test_numbers_alone_are_replaced(self):
        new = self.put_in(TEXT, permit__threshold=-3, torque__kt=2400, plant__angle=[0, 201, 1000])
        self.assertEqual(new, TEXT.replace("threshold = 200", "threshold = -3").replace("2_500", "2400").replace("[0, 200,", "[0, 201,"))

    def test_lists_of_another_form_are_written_anew(self):
        new = self.put_in(TEXT, plant__angle=[0, 500])
        self.assertEqual(new, TEXT.replace("[0, 200,\n# 300\n1000]", "[0, 500]"))
        new = self.put_in("[permit]\ntable = [[1, 2, 3], [4, 5, 6]]\n", permit__table=[[1, 2], [3, 4], [5, 6]])
        self.assertEqual(new, "[permit]\ntable = [[1, 2], [3, 4], [5, 6]]\n")

    def test_same_values_change_nothing(self):
        self.assertEqual(self.put_in(TEXT, permit__threshold=200, torque__kt=2500, plant__angle=[0, 200, 1000]), TEXT)

    def test_tables_keep_their_comments(self):
        text = "[permit]\ntable = [  # [900]\n  [1, 2],  # of idle, 17\n  [3, 4],\n]\nbrake = false # = true\n"
        self.assertEqual(self.put_in(text, permit__table=[[1, 2], [17, 4]], permit__brake=True),
                         text.replace("[3,", "[17,").replace("false", "true"))

    def test_a_ramp_comes_and_goes(self):
        second = "version = 2  # two\n[permit]\nthreshold = 200  # 20 Nm\nbrake = true\n[torque]\nkt = 1\n"
        third = second.replace("version = 2", "version = 3").replace("20 Nm\n", "20 Nm\nfall = 50\n")
        for text, fall, new in (
                (second, 0, second), (second, 50, third), (third, 50, third), (third, 0, second),
                (third, 7, third.replace("50", "7")),
                ("version=1\r\npermit.threshold=2\r\n", 9, "version=3\r\npermit.threshold=2\r\npermit.brake=false\r\npermit.fall=9\r\n"),
                ("version = 1\n[permit]\nthreshold = 2", 9, "version = 3\n[permit]\nthreshold = 2\nbrake = false\nfall = 9\n"),
                ("version = 3\n[permit]\nthreshold = 2\nbrake = true\nfall = 8  # eight", 0,
                 "version = 2\n[permit]\nthreshold = 2\nbrake = true\n")):
            self.assertEqual(with_ramp("c.toml", text, fall), new)
        for text in ("version = 1\npermit = { threshold = 2 }\n", "version = 1\n[permit]\n'threshold' = 2\n",
                     "version = 3\n[permit]\nthreshold = 2\n'fall' = 3\n"):
            for fall in (0, 5) if "fall" in text else (5,):
                self.assertEqual(note_of(with_ramp, "c.toml", text, fall),
                                 "c.toml: a key isn't written as expected; put permit.fall in by hand")

    def test_what_is_not_there_or_written_otherwise_is_refused(self):
        self.put("c.toml", TEXT)
        self.assertEqual(note_of(with_values, "c.toml", {"torque.down": 1}), "c.toml has no key torque.down")
        self.assertEqual(note_of(with_values, "c.toml", {"pairs.up": 1}), "c.toml has no key pairs.up")
        inline = "permit = { threshold = 200 }\n"
        for text in (inline, '[permit]\n"threshold" = 200\n', f'x = """\n[permit]\nthreshold = 200\n"""\n{inline}'):
            self.put("c.toml", text)
            self.assertEqual(note_of(with_values, "c.toml", {"permit.threshold": 1}), BY_HAND)

    def test_drawn_values_are_there_and_nothing_else_changed(self):
        draws, text = random.Random(5), text_of(f"{TOP}/examples/calibration/reference.toml")
        places = [key for key, _ in spans(text) if not key.startswith("question") and key != "version"]
        for _ in range(200):
            held, keys, values = tomllib.loads(text), draws.sample(places, draws.randint(1, 6)), {}
            for key in keys:
                table, name = key.split(".")
                rows = [[draws.randrange(9999) for _ in range(3)] for _ in range(draws.choice([3, 3, 2, 5]))]
                is_list = isinstance(held[table][name], list)
                values[key] = rows if name == "table" else rows[0] * draws.choice([1, 2]) if is_list else draws.randrange(9999)
                held[table][name] = values[key]
            self.put("c.toml", text)
            new = with_values("c.toml", values)
            self.assertEqual(tomllib.loads(new), held)
            begins = tuple(f"{key.split('.')[1]} =" for key in keys)
            kept = [[line for line in one.splitlines() if not line.startswith(begins)] for one in (text, new)]
            self.assertEqual(*kept)
