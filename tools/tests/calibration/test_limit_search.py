"""The search of tools/find: what is least, what fits, and what is on the front, each by another way."""

import os
import random
import time
import unittest
from types import SimpleNamespace
from unittest import mock
from xml.etree import ElementTree

from in_folder import InFolder
from egasim_tools.base.tool import fail
from egasim_tools.base.units import Units
from egasim_tools.calibration.limit_search import Row, Search, is_on_front
from egasim_tools.calibration.search_results import HEIGHT, TOP, picture_of, table_of
from notes import note_of
from test_verdicts import row_of as run_row


def search_with(room=0, left=27, misses=1, spacing=None, said=()):
    """A search without files, of the numbers of the reference calibration."""
    search = object.__new__(Search)
    search.asked = SimpleNamespace(room=room, left=left, misses=misses, spacing=spacing, said=said, recordings=["cut.csv"])
    search.start = {"answers": {"up": 3, "first": 4, "send": 5}, "torque": {"up": 1}}
    return search


def row_of(threshold, excess, reaction, hindrance="", fall=None, ramp="0"):
    limits = {"excess": str(excess), "reaction": str(reaction), "stretch": str(excess - 1 + reaction), "verdicts": "3",
              "missed": "none", "spacing": "80", "ramp": ramp}
    return Row(threshold, fall, max(0, int(ramp) - 1), 4, 0, "town", 5, 10, 34, {}, {"period": 7}, limits, hindrance)


class Calling(InFolder):
    """A search whose program is a stand-in."""

    def setUp(self):
        super().setUp()
        self.put("p", "#!/bin/sh\ncat >&2\nexit 3\n", 0o755)
        self.enterContext(mock.patch("egasim_tools.base.program.program", lambda: os.path.abspath("p")))
        self.search = search_with()
        self.search.asked.verbose, self.search.is_ended = False, False

    def test_recording_is_told_by_its_name(self):
        self.put("drive.csv", "standard input: header\n")
        self.assertEqual(note_of(lambda: self.search.call("replay", given="drive.csv")), "egasim replay: drive.csv: header")

    def test_recording_that_has_no_end_is_refused(self):
        os.mkfifo("fifo")
        for name in ("fifo", "/dev/zero"):
            self.assertEqual(note_of(lambda name=name: self.search.call("replay", given=name)), f"{name} is no file")

    def test_search_that_ends_calls_the_program_no_more(self):
        self.search.asked.ramps, self.search.asked.thresholds = [0], range(100)
        calls = []

        def row_of_one(threshold, _):
            calls.append(threshold)
            return fail("a signal, or so") if threshold == 0 else time.sleep(0.01)

        self.search.row_of = row_of_one
        self.assertEqual(note_of(self.search.rows), "a signal, or so")
        self.assertLess(len(calls), 100)
        self.assertEqual(note_of(lambda: self.search.call("limits")), "the search has ended")


class Finding(unittest.TestCase):
    def test_least_limit(self):
        """The least limit leaves the room that is asked, and one less doesn't, or is reached."""
        for room in range(100):
            for weight in range(60):
                least = search_with(room).least_of(weight)
                leaves = [limit > weight and 100 * (limit - weight) >= room * limit for limit in range(1, least + 1)]
                self.assertEqual([False] * (least - 1) + [True], leaves)

    def test_times(self):
        """The periods fall to the least; each is sent and heard at its last tick; N*period fits as long as any does."""
        for left in range(0, 400, 7):
            for limit, held in ((1, 0), (5, 0), (30, 0), (5, 47)):
                times = list(search_with(left=left).times_for(Row(0, held=held, limit=limit)))
                periods = [one["period"] for one in times]
                self.assertEqual(list(range(periods[0], 1, -1)), periods)
                fitting = [period for period in range(2, 101) if limit - 1 + 3 * period + held <= left]
                self.assertEqual(max(fitting, default=2), periods[0])
                for one in times:
                    self.assertTrue(0 <= one["first"] <= one["send"] == one["last"] == one["period"] - 1)
                    self.assertEqual(9, one["limit"])

    def test_hindrance(self):
        search = search_with(left=30, spacing=50)
        for limits, words in (
                (("31", "31", "10"), "stretch 31 is above 30"), (("30", "30", "50"), ""), (("29", "31", "50"), "under lapses 31 is above 30"),
                (("30", "30", "51"), "spacing 51 is above 50"), (("30", "30", "none"), "spacing none is above 50")):
            told = dict(zip(("stretch", "missed", "spacing"), limits))
            self.assertEqual(words, search.hindrance_of(Row(0), told)[0])
            without = search_with(left=30, spacing=50, said=["--without-lapses"])
            self.assertEqual("" if "lapses" in words else words, without.hindrance_of(Row(0), told)[0])

    def test_hindrance_of_a_ramp(self):
        """With a ramp its ticks count, and a word is needed by which there are no lapses, unless N is 1."""
        told, no_bound = {"stretch": "30", "missed": "none", "spacing": "10"}, "under lapses no bound holds with a ramp (--without-lapses)"
        for said, left, held, words in (((), 37, 8, "with the ramp 38 is above 37"), ((), 38, 8, no_bound), (("--without-lapses",), 38, 8, ""),
                                        (("--without-lapses",), 37, 8, "with the ramp 38 is above 37"), ((), 30, 0, no_bound),
                                        (("--without-lapses",), 29, 0, "stretch 30 is above 29")):
            self.assertEqual(words, search_with(left=left, said=said).hindrance_of(Row(0, 50, held), told)[0])
        self.assertEqual("", search_with(left=38).hindrance_of(Row(0, 50, 8), told | {"missed": "30"})[0])

    def test_a_drive_that_ends_within_an_excess_hinders(self):
        told = {"stretch": "30", "missed": "30", "spacing": "10"}
        row = Row(0, within="a ends within an excess, at 7")
        self.assertEqual(row.within, search_with(left=99).hindrance_of(row, told)[0])
        self.assertEqual("", search_with(left=99).hindrance_of(Row(0), told)[0])

    def test_recordings_that_begin_on_a_ramp(self):
        """A recording may begin on a ramp if it binds at a tick at which that could go on."""
        rows = [row_of(100, 5, 21, "", fall, ramp) for fall, ramp in ((0, "0"), (90, "34"), (50, "35"), (40, "99"))]
        self.assertEqual({}, search_with().on_first_ramp(rows))
        for row in rows:
            row.binds = "cut.csv"
        self.assertEqual({"cut.csv": rows[2]}, search_with().on_first_ramp(rows))

    def test_front(self):
        """A row is on the front if it is the only one left of those that are at most as high in both."""
        chance = random.Random(7)
        for _ in range(200):
            rows = [row_of(chance.randrange(6), chance.randrange(1, 5), 3, ramp=str(chance.randrange(3))) for _ in range(6)]
            for row in rows:
                below = {(one.threshold, one.lasts()) for one in rows if one.threshold <= row.threshold and one.lasts() <= row.lasts()}
                self.assertEqual(len(below) == 1, is_on_front(row, rows))

    def test_table(self):
        rows = [row_of(0, 8, 21, "stretch 28 is above 27"), row_of(100, 7, 21), row_of(200, 7, 21)]
        lines = list(table_of(rows, Units(10**7)))
        self.assertEqual("  *  ", "".join(line[0] for line in lines) + " ")
        self.assertEqual("270 ms  town at 34  fits", "  ".join(lines[2].split("  ")[-3:]).strip())

    def test_table_of_ramps(self):
        """With ramps the table has two columns more, and one of what their ticks come to, if they count."""
        rows = [row_of(100, 8, 21, "stretch 28 is above 27", 0, "0"), row_of(100, 7, 21, "", 150, "16"), row_of(100, 5, 21, "", 50, "48")]
        lines = [line[2:].split() for line in table_of(rows, Units())]
        self.assertEqual([["threshold", "fall", "ramp", "weight"], ["100", "-", "0", "4"], ["100", "150", "16", "4"], ["100", "50", "48", "4"]],
                         [line[:4] for line in lines])
        self.assertIn("that is  with the ramp  binds", list(table_of(rows, Units(10**7)))[0])
        self.assertEqual(["42", "town", "at", "34", "fits"], lines[2][-5:])
        self.assertIn("270 ms    42 (420 ms)  town at 34", list(table_of(rows, Units(10**7)))[2])
        picture = "".join(picture_of(rows, 27, Units(10**7), ["--without-lapses"]))
        for words in (">100<", ">100/150<", ">100/50<", "threshold 100, fall 50: D 5, stretch 25, with the ramp 72 (720 ms), fits", "; by --without-lapses"):
            self.assertIn(words, picture)
        for row in rows:
            row.held = 0
        self.assertNotIn("with the ramp", list(table_of(rows, Units()))[0])

    def test_picture(self):
        """The bars of the picture, read back, are D - 1 and the stretch of each row, and the line is T."""
        rows = [row_of(0, 8, 21, "stretch 28 is above 27"), row_of(100, 7, 20), row_of(200, 1, 26)]
        root = ElementTree.fromstring("".join(picture_of(rows, 27, Units())))
        boxes = [{key: float(one.get(key)) for key in ("y", "height")} for one in root.iterfind(".//{*}rect") if one.get("stroke")]
        most = 28 * 1.05
        heights = [one["height"] * most / HEIGHT for one in boxes]
        for row, dark, light in zip(rows, heights[::2], heights[1::2], strict=True):
            self.assertAlmostEqual(int(row.limits["excess"]) - 1, dark, delta=0.1)
            self.assertAlmostEqual(int(row.limits["reaction"]), light, delta=0.1)
        dashed = [one for one in root.iterfind(".//{*}polyline") if one.get("stroke-dasharray")]
        y = float(dashed[0].get("points").split()[0].split(",")[1])
        self.assertAlmostEqual(27, (TOP + HEIGHT - y) * most / HEIGHT, delta=0.1)


REPLAY = """ticks 8
pedal none; greatest 0 of 10000
plate none; greatest 0 of 10000
load none; greatest 0 of 10000
speed none; greatest 0 of 10000
torque none; greatest 4 of 10000
trip never
stretch 4
surplus 300
"""


class Drives(InFolder):
    """What runs and recordings show, by a stand-in for the program: torques that rise to 300 above what is permitted."""

    def setUp(self):
        super().setUp()
        self.put("c.toml", '[[run]]\nname = "a"\ntrace = "d.csv"\nimage = "i.hex"\n')
        self.put("d.csv", "pedal,speed,raise,reset\n" + "0,0,0,0\n" * 8)
        self.search, self.calls = search_with(), []
        self.search.drives, self.search.test, self.search.traces, self.search.beyond = "c.toml", 30, {}, {}
        self.search.asked.recordings, self.search.call = [], self.printed
        self.row = run_row("a", "none", last_on="7", stretch="4")
        self.replay = REPLAY

    def printed(self, command, *words, given=None):
        self.calls.append(command)
        rising = "".join(f"{tick},{40 * (tick + 1) - 20},0,1,1,1,-\n" for tick in range(8))
        return {"table": ",".join(self.row) + "\n" + ",".join(self.row.values()) + "\n", "replay": self.replay,
                "record": f"tick,torque,limit,path1,path2,on,found\n{rising}",
                "signals": "tick,actual,permitted\n" + "".join(f"{tick},{40 * (tick + 1) - 20},0\n" for tick in range(8))}[command]

    def test_a_run_that_ends_within_an_excess(self):
        for threshold, within in ((0, "a ends within an excess, at 7"), (299, "a ends within an excess, at 7"), (300, "")):
            self.assertEqual(within, self.search.within_of("cal.toml", Row(threshold)))
        self.assertEqual(1, self.calls.count("record"))

    def test_a_run_that_ends_within_an_excess_before_a_reset(self):
        self.put("d.csv", "pedal,speed,raise,reset\n" + "0,0,0,0\n" * 4 + "0,0,0,1\n" + "0,0,0,0\n" * 3)
        self.assertEqual("a ends within an excess, at 3", self.search.within_of("cal.toml", Row(139)))
        self.row |= {"last_on": "3"}
        self.assertEqual("", self.search.within_of("cal.toml", Row(140)))

    def test_a_recording_that_ends_within_an_excess(self):
        self.search.drives, self.search.asked.recordings = None, ["m.csv"]
        for threshold, within in ((299, "m.csv ends within an excess, at 7"), (300, "")):
            self.assertEqual(within, self.search.within_of("cal.toml", Row(threshold)))

    def test_what_shows_nothing_ends_the_search(self):
        lapse = '[[run]]\nname = "a"\ntrace = "d.csv"\nimage = "i.hex"\n{}\n'
        for text, row, why in (("slices = [[0, 0, 0, 0, 0, 0, 0, 0, 0]]", {}, "its level 1 executes nothing"),
                               ('faults = [{ class = "lapse", onset = 7, after = [0] }]', {"class": "lapse", "onset": "7", "acted": "1"},
                                "no tick of the power cycle follows its fault"),
                               ("", {"last_on": ""}, "its stages are on at no tick")):
            self.put("c.toml", lapse.format(text))
            self.row = run_row("a", "none", last_on="7", stretch="4") | row
            self.assertEqual(f"c.toml: a shows nothing of its drive: {why}", note_of(self.search.shown_by, "cal.toml"))
        self.put("c.toml", lapse.format(""))
        self.put("d.csv", "pedal,speed,raise,reset\n0,0,0,0\n")
        self.search.traces, self.row = {}, run_row("a", "none", last_on="0")
        self.assertEqual("c.toml: a shows nothing of its drive: it has a single tick", note_of(self.search.shown_by, "cal.toml"))
        self.search.drives, self.search.asked.recordings, self.replay = None, ["m.csv"], REPLAY.replace("ticks 8", "ticks 1")
        self.assertEqual("m.csv shows nothing of its drive: it has a single tick", note_of(self.search.shown_by, "cal.toml"))


if __name__ == "__main__":
    unittest.main()
