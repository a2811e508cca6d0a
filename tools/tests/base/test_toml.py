"""TOML that is read, and written."""

import time
import tomllib
import unittest

from egasim_tools.base.toml import MOST_DEPTH, MOST_DOTS, key_text, toml_in, toml_of, toml_text
from notes import note_of

MANY = "a: more than 2000 dots in keys, or 32 in a line"


class Reading(unittest.TestCase):
    def test_values_are_those_of_the_text(self):
        self.assertEqual(toml_in("a", 'a.b = [1, "x.y"]\n[[c]]\nd = true\n'), {"a": {"b": [1, "x.y"]}, "c": [{"d": True}]})

    def test_what_is_no_toml_is_refused_by_name(self):
        self.assertEqual(note_of(toml_of, "gone.toml"), "cannot read gone.toml: No such file or directory")
        self.assertRegex(note_of(toml_in, "a", "a = "), "^a: not TOML: ")

    def test_text_of_several_lines_that_would_lose_a_carriage_return_is_refused(self):
        for text in ('trace = """a\r\nb.csv"""', "trace = '''a\r\nb.csv'''", 'a = "\'"\r\n\r\nb = """\\"\r\n"""', 'a = """x\r\n'):
            self.assertEqual(note_of(toml_in, "a", text), "a: a text of several lines has CR LF, which the program keeps and Python's "
                             "tomllib doesn't: write it in one line")
        held = {"a": "\r\n", "b": "c\nd", "e": "'"}
        self.assertEqual(toml_in("a", 'a = "\\r\\n" # """\r\nb = """c\nd"""\r\ne = "\'"\r\n'), held)

    def test_numbers_have_64_bits(self):
        for number in (-2**63, 2**63 - 1):
            self.assertEqual(toml_in("a", f"a = [[{number}]]"), {"a": [[number]]})
        for number in (-2**63 - 1, 2**63, "1" * 400):
            self.assertEqual(note_of(toml_in, "a", f"a = [{{ b = {number} }}]"), "a: not TOML: a number of more than 64 bits")
        self.assertRegex(note_of(toml_in, "a", f"a = {'1' * 5000}"), "^a: not TOML: Exceeds the limit")

    def test_depth_has_a_bound(self):
        for most, note in ((MOST_DEPTH, None), (MOST_DEPTH + 1, "a: too deep")):
            # With the file's own table, and a number in the last.
            self.assertEqual(note_of(toml_in, "a", ".".join(["k"] * (most - 1)) + " = 1"), note)
            self.assertEqual(note_of(toml_in, "a", "k = " + "[" * (most - 2) + "1" + "]" * (most - 2)), note)
        for count in (MOST_DEPTH + 2, 900, 100000):
            self.assertEqual(note_of(toml_in, "a", ".".join(["k"] * count) + " = 1"), MANY)
        self.assertRegex(note_of(toml_in, "a", "k = " + "[" * 5000 + "]" * 5000), "^a: not TOML: ")

    def test_dots_of_keys_have_a_bound_and_others_have_none(self):
        lines = "".join(f"t{number}.k = 1\n" for number in range(MOST_DOTS))
        self.assertEqual(len(toml_in("a", lines)), MOST_DOTS)
        self.assertEqual(note_of(toml_in, "a", lines + "a.b = 1"), MANY)
        for text in ('"%s"', "'%s'", '"""\n%s"""', "'''\n%s'''", '"\\"%s"', "1 # %s", '["%s", "a"]', '""""%s"""""'):
            self.assertIn("k", toml_in("a", "k = " + text % ("." * 5000)))

    def test_any_keys_take_at_most_a_second(self):
        for text in (".".join(["k"] * 100000) + " = 1", "".join(f"a.b{number} = 1\n" for number in range(100000)),
                     "[" + "a." * 100000, '"' + '\\"' * 100000, '"""' + '\\"' * 100000, "'''\n" * 100001,
                     '"\n' * 100000):
            begin = time.process_time()
            self.assertIsNotNone(note_of(toml_in, "a", text))
            self.assertLess(time.process_time() - begin, 1)


class Writing(unittest.TestCase):
    def test_values_are_read_back(self):
        value = {"a": [1, -2, True, False, [], ["x"]], "odd key": {"": "\"\\\n\x7f\tü\U0001f697"}, "a.b": 1.5, "-_9": {}}
        self.assertEqual(tomllib.loads(f"v = {toml_text(value)}"), {"v": value})

    def test_texts(self):
        self.assertEqual(toml_text([True, 1, "a"]), '[true, 1, "a"]')
        self.assertEqual(toml_text('a"\n\\\x7fä '), r'"a\u0022\u000a\u005c\u007fä "')
        self.assertEqual((key_text("path-1"), key_text(""), key_text("a b")), ("path-1", '""', '"a b"'))
