"""Files of expectations: what is taken, and what is refused."""

from egasim_tools.evidence.expectations import Check, Expected
from in_folder import InFolder
from notes import note_of

RUN = 'campaign = "c.toml"\n[[expect]]\nrun = "a"\n'


class Expecting(InFolder):
    def expected(self, text, tick=None):
        self.put("e.toml", text)
        return Expected("e.toml", tick)

    def note(self, text, tick=None):
        return note_of(self.expected, text, tick)

    def test_each_key_is_a_check_as_the_file_has_it(self):
        entry = self.expected(f'{RUN}sound = true\nroom = 20\ncut = ["torque", "answers"]\nlatest.after_fault = 3\n'
                              'latest.after_excess = 4\nstretch = 5').runs[0]
        self.assertEqual(entry.names, ("a",))
        self.assertEqual([(check.name(), check.value) for check in entry.checks], [
            ("sound = true", True), ("room = 20", 20), ('cut = ["torque", "answers"]', ["torque", "answers"]),
            ("latest.after_fault = 3", 3), ("latest.after_excess = 4", 4), ("stretch = 5", 5)])

    def test_any_watch_and_none(self):
        any_one, none = (self.expected(f"{RUN}cut = {value}").runs[0].checks[0].value for value in ("true", "false"))
        self.assertIn("start", any_one)
        self.assertNotIn("pedal", any_one)
        self.assertEqual(none, [])

    def test_times_are_rounded_so_that_a_verdict_is_never_too_mild(self):
        text = 'tick = "10 ms"\n[limits]\nstretch = "385 ms"\ntest = { least = "381 ms", most = 40 }\n'
        self.assertEqual([check.value for check in self.expected(text).limits], [
            ("stretch", "most", 38), ("test", "least", 39), ("test", "most", 40)])
        self.assertEqual([check.key for check in self.expected(text).limits], ["stretch", "test.least", "test.most"])
        self.assertEqual(self.expected(text, "10ms").limits[0].value, ("stretch", "most", 38))
        self.assertEqual(self.note(text, "5ms"), "a tick has one length, and --tick says 5 ms, e.toml: tick 10 ms")
        self.assertEqual(self.expected(f'tick = "0.5 ms"\n{RUN}stretch = "0.3 s"').runs[0].checks, (
            Check("stretch", '"0.3 s"', 600),))

    def test_units_beside_the_calibration_are_taken(self):
        self.put("cal/units.toml", 'tick = "20ms"\n')
        text = 'calibration = "cal/own.toml"\n[limits]\nreaction = "1 s"\n'
        self.assertEqual(self.expected(text).limits[0].value, ("reaction", "most", 50))
        self.assertEqual(self.expected(f'tick = "0.02 s"\n{text}').limits[0].value, ("reaction", "most", 50))
        for said, tick, words in (('tick = "10ms"\n', None, "e.toml: tick says 10 ms"), ("", "10ms", "--tick says 10 ms")):
            self.assertEqual(self.note(said + text, tick), f"a tick has one length, and {words}, cal/units.toml 20 ms")

    def test_what_is_no_expectation_is_refused_by_its_place(self):
        for text, words in (
                ("", "e.toml expects nothing"),
                ("tests = 1", "e.toml: there is no key tests"),
                ("campaign = 3", "e.toml: campaign must be the name of a file"),
                ('campaign = ""', "e.toml: campaign must be the name of a file"),
                ('calibration = "-x"', "e.toml: calibration must be the name of a file"),
                ('campaign = "c.toml"', "e.toml: [[expect]] is missing"),
                ('[[expect]]\nrun = "a"\nsound = true', "e.toml: a campaign is missing"),
                ("limits = 3", "e.toml: limits must be a table"),
                ("[limits]\nbound = 3", "e.toml: limits: there is no key bound"),
                ("[limits]\npeak = -1", "e.toml: limits: peak must be a whole number from 0"),
                ("[limits]\npeak = 1.5", "e.toml: limits: peak must be a whole number from 0"),
                ("[limits]\nverdicts = { lest = 1 }", "e.toml: limits: verdicts: there is no key lest"),
                ("[limits]\nverdicts = { least = true }", "e.toml: limits: verdicts.least must be a whole number"),
                ('[limits]\nreaction = "1 s"', 'e.toml: limits: reaction is a time, and the file has no tick = "10 ms"'),
                ('tick = "0 ms"\n[limits]\nreaction = 1', "e.toml: tick 0 ms is no length of a tick"),
                ('tick = 10\n[limits]\nreaction = 1', "e.toml: tick 10 is no length of a tick"),
                ("expect = 3", "e.toml: expect must be tables, [[expect]]"),
                ("[expect]\nrun = 'a'", "e.toml: expect must be tables, [[expect]]"),
                ('campaign = "c.toml"\n[[expect]]\nsound = true', "e.toml: expect 1: run must be a name, or a list of names"),
                ('campaign = "c.toml"\n[[expect]]\nrun = []', "e.toml: expect 1: run must be a name, or a list of names"),
                (RUN, "e.toml: expect 1 expects nothing"),
                (f'{RUN}sound = true\n[[expect]]\nrun = "b"\nsond = true', "e.toml: expect 2: there is no key sond"),
                (f"{RUN}sound = false", "e.toml: expect 1: sound must be true"),
                (f"{RUN}sound = 1", "e.toml: expect 1: sound must be true"),
                (f"{RUN}room = 101", "e.toml: expect 1: room must be a whole number from 0 to 100"),
                (f'{RUN}room = "20 %"', "e.toml: expect 1: room must be a whole number from 0 to 100"),
                (f'{RUN}cut = "pedal"', "e.toml: expect 1: cut must be true, false, or some of mirror"),
                (f"{RUN}cut = []", "e.toml: expect 1: cut must be true, false, or some of mirror"),
                (f"{RUN}cut = [true]", "e.toml: expect 1: cut must be true, false, or some of mirror"),
                (f"{RUN}cut = [[]]", "e.toml: expect 1: cut must be true, false, or some of mirror"),
                (f"{RUN}latest = 3", "e.toml: expect 1: latest must say latest.after_fault or latest.after_excess"),
                (f"{RUN}latest = {{}}", "e.toml: expect 1: latest must say latest.after_fault or latest.after_excess"),
                (f"{RUN}latest.after = 3", "e.toml: expect 1: latest: there is no key after;"),
                (f'{RUN}latest.after_fault = "3 min"', "e.toml: expect 1: latest.after_fault must be a number of ticks, or a time"),
                (f"{RUN}stretch = true", "e.toml: expect 1: stretch must be a whole number"),
                ('[[recording]]\nfile = "a"\nlatest.after_excess = 3', "e.toml: recording 1: there is no key latest"),
                ('[[recording]]\nrun = "a"\nsound = true', "e.toml: recording 1: file must be a name")):
            self.assertTrue((self.note(text) or "").startswith(words), (text, self.note(text)))
