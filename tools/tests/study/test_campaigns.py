"""Campaigns as text."""

import contextlib
import io
import tomllib

from egasim_tools.base.ranges import CAMPAIGN_TICKS, RUNS
from egasim_tools.study.campaigns import MOST_BYTES, Campaign, run_of, run_text, runs_under_faults
from egasim_tools.study.plan import FAULTS
from in_folder import InFolder
from notes import note_of


class Campaigns(InFolder):
    def setUp(self):
        super().setUp()
        self.put("c.toml", '[[run]]\nname = "a"\ntrace = "d"\nimage = "i"\nengine = "diesel"\n'
                           'faults = [{ class = "halt", onset = 1 }]\n[[run]]\nname = "b"\n')

    def written(self, *words):
        told = io.StringIO()
        with contextlib.redirect_stderr(told):
            return "".join(runs_under_faults("c.toml", *words)), told.getvalue().partition(": ")[2]

    def test_campaign_grows_up_to_its_limits(self):
        campaign = Campaign()
        for _ in range(RUNS):
            self.assertTrue(campaign.has_room("x", 1))
            campaign.add("x", ["r"], ["d", "i"], 1)
        self.assertFalse(campaign.has_room("x", 1))
        self.assertEqual((campaign.inputs, campaign.ticks, campaign.bytes), ({"d": None, "i": None}, RUNS, RUNS))
        campaign = Campaign()
        campaign.add("xy", [], [], CAMPAIGN_TICKS - 5)
        self.assertEqual((campaign.has_room("x", 5), campaign.has_room("x", 6)), (True, False))
        self.assertEqual([campaign.has_room("x" * (MOST_BYTES - more), 1) for more in (2, 1)], [True, False])

    def test_run_is_written_without_what_it_leaves_out(self):
        self.assertEqual(run_text({"name": "a", "slices": None, "faults": [{"class": "halt", "onset": 1}]}),
                         '[[run]]\nname = "a"\nfaults = [{ class = "halt", onset = 1 }]\n')

    def test_run_is_found_by_its_name(self):
        self.assertEqual(run_of("c.toml", "b"), {"name": "b"})
        self.assertEqual(note_of(run_of, "c.toml", "c"), "c.toml has no run c")
        for text in ("run = 1\n", "run = [1]\n"):
            self.put("odd.toml", text)
            self.assertEqual(note_of(run_of, "odd.toml", "a"), "odd.toml is no campaign: its runs stand in [[run]]")

    def test_run_is_written_under_each_class_at_each_onset(self):
        text, told = self.written("a", ["lapse", "path-open"], [0, 2])
        runs = tomllib.loads(text)["run"]
        self.assertEqual([run["name"] for run in runs], ["lapse-0", "lapse-2", "path-open-0", "path-open-2"])
        self.assertEqual(runs[3], {"name": "path-open-2", "trace": "d", "image": "i", "engine": "diesel",
                                   "faults": [{"class": "path-open", "onset": 2, "path": 1}]})
        self.assertEqual(told, "")

    def test_more_runs_than_the_program_takes_are_counted_first(self):
        text, told = self.written("a", ["halt"], range(1000))
        self.assertEqual((text.count("[[run]]"), told), (1000, ""))
        text, told = self.written("a", ["halt"], range(1001))
        self.assertEqual((text.count("[[run]]"), told),
                         (1001, "writes 1001 runs; the program takes 1000 of a campaign at most\n"))
        text, told = self.written("a", list(FAULTS), range(3001))
        self.assertEqual((text.count("[[run]]"), told[:18]), (14 * 3001, "writes 42014 runs;"))
