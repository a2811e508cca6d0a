"""Measurements as tools export them: what is found of their form."""

import unittest
from types import SimpleNamespace

from in_folder import InFolder
from egasim_tools.measurement.csv_export import Measurement
from notes import note_of


class Forms(InFolder):
    def measurement(self, content, channels=("time", "p"), **said):
        self.put("m.csv", content)
        form = SimpleNamespace(**{"delimiter": None, "decimal": None, "encoding": None, "empty": set()} | said)
        return Measurement("m.csv", form, channels)

    def values(self, content, channels=("time", "p"), **said):
        """The form that was found, and the numbers of each line."""
        found = self.measurement(content, channels, **said)
        places = [found.column(channel) for channel in channels]
        rows = [[found.number(line, "p", cells[place]) for place in places] for line, cells in found.rows(places[:1])]
        return (found.delimiter, found.decimal, found.names[0], found.rows_of_units), rows

    def test_exports(self):
        for content, form, rows in (
                # asammdf by pandas: floats of any length, empty where a raster has no sample
                ("timestamps,p\n0.0,1.5\n0.010000000000000009,\n0.02,2.5e-01\n", (",", ".", 1, 0),
                 [["0.0", "1.5"], ["0.010000000000000009", None], ["0.02", "2.5e-01"]]),
                # CANape, in German: quoted names, a line of units, a byte order mark, CR LF
                ('\ufeff"timestamps";"p"\r\n"s";"%"\r\n0,5;12,25\r\n1;NaN\r\n', (";", ",", 1, 1), [["0.5", "12.25"], ["1", "nan"]]),
                # INCA: lines above the names, tabs, units and types below them, blanks around the cells
                ("ETASAsciiItemFile\trecord\tTab\n\ntimestamps\tx\tp\ns\t-\t%\nf8\tf8\tf8\n0.5 \t1\t -2 \n", ("\t", ".", 3, 2), [["0.5", "-2"]]),
                # decimals with commas between commas, in quotes
                ('timestamps,p\n"0,5","1,25"\n', (",", ",", 1, 0), [["0.5", "1.25"]]),
                # a delimiter at the end of each line, a line that is cut, an empty one, one without a cell
                ("timestamps;p;\n1;2;\n3\n\n;;\n5;6;\n", (";", None, 1, 0), [["1", "2"], ["3", None], ["5", "6"]])):
            self.assertEqual(self.values(content, ("timestamps", "p")), (form, rows))

    def test_encodings(self):
        text = "time;p [°]\n1;2,5\n"
        for content, encoding in ((text.encode(), "utf-8"), (text.encode("latin-1"), "latin-1"), (text.encode("utf-16"), "utf-16")):
            found = self.measurement(content, ("time", "p [°]"))
            self.assertEqual((found.encoding, found.names), (encoding, (1, ["time", "p [°]"])))
        self.assertEqual(note_of(self.measurement, text.encode("latin-1"), ("time", "p [°]")), None)
        self.put("m.csv", text.encode("latin-1"))
        form = SimpleNamespace(delimiter=None, decimal=None, encoding="utf-8", empty=set())
        self.assertEqual(note_of(Measurement, "m.csv", form, ["time"]), "m.csv isn't UTF-8")

    def test_what_is_no_number(self):
        for text in ("NaN", "-nan", "nan(ind)", "1.#QNAN", "-1.#IND", "1,#QNAN0", "Infinity", "-inf", "1.#INF", "#N/A", "n/a", "NULL"):
            self.assertEqual(self.values(f"time;p\n1;{text}\n")[1], [["1", "nan"]], text)
        for text in ("", "  ", "-", "n.a."):
            self.assertEqual(self.values(f"time;p\n1;{text}\n", empty={"-", "n.a."})[1], [["1", None]])
        for text, sign in (("-", "."), ("0x10", "."), ("1_000", "."), ("1 000", "."), ("\u0661", "."), ("1.000,5", "."),
                           ("abc", "."), ("nano", "."), ("--1", ".")):
            self.assertEqual(note_of(self.values, f"time;p\n1;{text}\n"),
                             f"m.csv: line 2: p has {text}, which is no number with the decimal sign {sign}")

    def test_numbers_out_of_range_are_told_as_that(self):
        for text in ("1e300", "-1.5e-100", "1" * 41, "0,5e100"):
            self.assertEqual(note_of(self.values, f"time;p\n1;{text}\n"),
                             f"m.csv: line 2: p has {text[:40]}, which is out of range: at most 40 digits before and behind the decimal "
                             "sign, and 2 of an exponent")

    def test_unit_of_time_is_the_one_that_was_said(self):
        for unit, said, note in (("s", "s", None), ("[ms]", "ms", None), ("\u00b5s", "us", None), ("f8", "s", None), ("km/h", "s", None),
                                 ("ms", "s", "ms"), ("s", "ms", "s"), ("(us)", "ns", "(us)")):
            found = self.measurement(f"time;p\n{unit};%\n1;2\n")
            self.assertEqual(note_of(list, found.rows([0], SimpleNamespace(said=said))), note and
                             f"m.csv: line 2 has {note} as the unit of time, and time.unit is {said}{', as it is if none is said' * (said == 's')}")

    def test_other_times_have_such_a_unit_or_name_and_never_fall(self):
        rows = "1;0;1;9;5;0.5\n2;;1;8;6;0.5\n3;0.5;2;7;x;0.5\n4;0.5;;6;7;0.5\n"
        for head, others in (("time;t2;ms;down;text;one\ns;s;ms;s;s;s\n", ["t2", "ms"]), ("time;t2;p;down;text;one\ns;%;s;s;-;s\n", ["p"]),
                             ("time;time_2;p;t3;t4;t5\n", ["time_2"]), ("time;temp;Timestamps;t3;t4;t5\n", ["Timestamps"])):
            found = self.measurement(head + rows, ("time",))
            self.assertEqual(len(list(found.rows([0], SimpleNamespace(said="s")))), 4)
            self.assertEqual((found.other_times([0], {0}), found.other_times([0], {0, 1, 2})), (others, []))

    def test_decimal_sign_is_one(self):
        self.assertEqual(note_of(self.values, "time;p\n1;0,5\n2;1.5\n"), "m.csv: line 3: p has 1.5, which is no number with the decimal sign ,")
        self.assertEqual(note_of(self.values, "time;p\n1;0.5\n2;1,5\n"), "m.csv: line 3: p has 1,5, which is no number with the decimal sign .")
        self.assertEqual(self.values("time;p\n1;2\n", decimal=",")[0], (";", ",", 1, 0))

    def test_times_are_rounded_to_nanoseconds(self):
        found = self.measurement("time,p\n1,2\n")
        for text, unit, time in (("0.30000000000000004", 10**9, 3 * 10**8), ("0.0000000005", 10**9, 1), ("-0.0000000005", 10**9, -1),
                                 ("0.00000000049", 10**9, 0), ("1e3", 10**6, 10**9), ("", 1, None), ("NaN", 1, None)):
            self.assertEqual(found.time(2, "time", text, unit), time)
        self.assertEqual(note_of(found.time, 2, "time", "1e9", 10**9), "m.csv: line 2: time has 1e9, which is out of range: times are below "
                         "10^9 s; is time.unit right, or is it a date? Then count from the first one")

    def test_names_that_are_not_there(self):
        for content, channels, note in (
                ("time,a\n1,2\n", ("time", "p"), "m.csv has no channel p in one line with the others; its names are time, a"),
                ("a,b\n1,2\n", ("time", "p"), "m.csv has no channel time in one line with the others; no line has one; line 1 has a, b"),
                ("made by a, ok\n\nx;y;z\ns;rpm;%\n1,5;2;3\n", ("time", "p"),
                 "m.csv has no channel time in one line with the others; no line has one; line 3 has x, y, z"),
                ("1,2\n", ("time", "p"), "m.csv has no channel time in one line with the others; no line has one"),
                ("", ("time", "p"), "m.csv has no channel time in one line with the others; no line has one"),
                ("time,p\n1,2\n", (1, 2), "m.csv: a channel must be said by its name, so that the line of names is found"),
                (",".join(["time", *map(str, range(30))]), ("time", "p"),
                 f"m.csv has no channel p in one line with the others; its names are time, {', '.join(map(str, range(19)))} and 11 more")):
            self.assertEqual(note_of(self.measurement, content, channels), note)

    def test_columns_by_name_and_number(self):
        found = self.measurement("time,p,time,q\n", ("time", "p", "q"))
        self.assertEqual((found.column("p"), found.column(3), found.column("q")), (1, 2, 3))
        self.assertEqual(note_of(found.column, "time"), "m.csv: line 1 has time in the columns 1, 3; say one by its number")
        self.assertEqual(note_of(found.column, 5), "m.csv: line 1 has 4 columns, and no 5")

    def test_lines_that_are_refused(self):
        self.assertEqual(note_of(self.values, "time,p\n" + "s,%\n" * 21), "m.csv: none of the first 20 lines below the names has a number as its time")
        self.assertRegex(note_of(self.values, "time,p\n1,\0\n" + "2," + "3" * 200000), "^m.csv: line ")
        self.assertRegex(note_of(self.values, "time,p\n1,2\n2," + "3" * 200000), "^m.csv: line 3 isn't one of CSV: field larger")


if __name__ == "__main__":
    unittest.main()
