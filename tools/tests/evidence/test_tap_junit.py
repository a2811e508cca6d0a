"""Verdicts as TAP and as JUnit's XML, read back by readers of other hands."""

import importlib.util
import re
import subprocess
import shutil
import unittest
from xml.etree import ElementTree

from egasim_tools.evidence.judgement import Verdict
from egasim_tools.evidence.tap_junit import junit, tap
from in_folder import InFolder

VERDICTS = [Verdict("a", "sound = true", True, "no watch finds anything"),
            Verdict("b", 'cut = "torque"', False, "it isn't cut"),
            Verdict("c", "is named", None, "no line names it"),
            Verdict("# <x>&\"'\\.csv", "room = 20", True, "load"),
            Verdict("todo \x1b[2J\n\ufffe", "room = 20 # SKIP", False, "# TODO <later> & \"never\" 'so' ü")]


class Texts(InFolder):
    def test_a_line_of_tap_for_each_verdict(self):
        lines = list(tap(VERDICTS))
        self.assertEqual(lines[:5], ["TAP version 13", "1..5", "ok 1 - a: sound = true: no watch finds anything",
                                     'not ok 2 - b: cut = "torque": it isn\'t cut', "ok 3 - c: is named: no line names it # SKIP"])
        self.assertEqual(len(lines), 7)
        self.assertFalse([line for line in lines if "\n" in line or "\x1b" in line])

    def test_nothing_of_a_name_is_a_directive(self):
        for line in list(tap(VERDICTS))[5:]:
            self.assertIsNone(re.search(r"(?<!\\)(\\\\)*#", line), line)

    def test_where_the_calls_are_kept_is_told(self):
        said = "k\n<&, whose kept.sum has the SHA-256 0a"
        self.assertEqual(list(tap(VERDICTS, said))[:-1], list(tap(VERDICTS)))
        self.assertEqual(list(tap(VERDICTS, said))[-1], "# kept in k\\x0a<&, whose kept.sum has the SHA-256 0a")
        [[properties, *cases]] = ElementTree.fromstring("\n".join(junit("e.toml", VERDICTS, said)).encode())
        self.assertEqual([one.attrib for one in properties], [{"name": "kept", "value": said.replace("\n", "\\x0a")}])
        self.assertEqual(len(cases), len(VERDICTS))

    @unittest.skipUnless(shutil.which("prove"), "there is no prove, of Perl")
    def test_prove_reads_it(self):
        self.put("t.tap", "".join(f"{line}\n" for line in tap(VERDICTS)))
        done = subprocess.run(["prove", "-v", "-e", "cat", "t.tap"], capture_output=True, text=True, check=False)
        self.assertEqual(done.returncode, 1)
        self.assertIn("Failed tests:  2, 5", done.stdout)
        self.assertIn("Tests: 5 Failed: 2", done.stdout)
        self.assertIn("less 1 skipped subtest", done.stdout)

    def test_xml_has_each_verdict(self):
        text = "\n".join(junit('e"<.toml', VERDICTS))
        [suite] = ElementTree.fromstring(text.encode())
        self.assertEqual(suite.attrib, {"name": 'e"<.toml', "tests": "5", "failures": "2", "errors": "0", "skipped": "1"})
        self.assertEqual([case.get("name") for case in suite], [verdict.name for verdict in VERDICTS])
        self.assertEqual([case.get("classname") for case in suite][:4], [verdict.subject for verdict in VERDICTS][:4])
        self.assertEqual(suite[4].get("classname"), "todo \\x1b[2J\\x0a\\xef\\xbf\\xbe")
        self.assertEqual([[(inner.tag, inner.get("message")) for inner in case] for case in suite], [
            [], [("failure", "it isn't cut")], [("skipped", "no line names it")], [], [("failure", VERDICTS[4].words)]])

    @unittest.skipUnless(importlib.util.find_spec("junitparser"), "there is no python3-junitparser")
    def test_junitparser_reads_it(self):
        import junitparser  # of Debian: nothing here needs it
        self.put("j.xml", "\n".join(junit("e.toml", VERDICTS)))
        [suite] = junitparser.JUnitXml.fromfile("j.xml")
        self.assertEqual((suite.tests, suite.failures, suite.errors, suite.skipped), (5, 2, 0, 1))
        kinds = {None: junitparser.Skipped, False: junitparser.Failure}
        for case, verdict in zip(suite, VERDICTS, strict=True):
            self.assertEqual(case.name, verdict.name)
            self.assertEqual([type(result) for result in case.result], [] if verdict.is_so else [kinds[verdict.is_so]])
