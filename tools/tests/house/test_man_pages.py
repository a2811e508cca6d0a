"""The manual pages: what a tool's declaration and docs/FORMATS.md become."""

import os
import sys
import unittest

from egasim_tools.base.command_line import NAME, Form, Tool, Word, whole
from egasim_tools.base.files import TOP

sys.path.append(os.path.join(TOP, "dist"))
from man_pages import page, tool_page  # noqa: E402

MEND = Tool("mend", "mends a file, e.g. one", (
    Form("mends it all", None, (Word("FILE", "what is \\ broken", NAME, is_needed=True),
                               Word("--most", "a limit", whole(1, 9, "ms"), "NUMBER"))),), "It doesn't break others.")
FORMATS = """# Formats

Some *text* of `run`.

## Commands

| Command | Writes |
|---|---|
| `run FILE` | a *report* |

- one
  - two

## Outcomes
"""


class ManPages(unittest.TestCase):
    def test_page_of_a_tool(self):
        self.assertEqual(list(tool_page(MEND, "9.9")), [
            '.TH EGASIM-MEND 1 "" "egasim 9.9" "User commands"', ".SH NAME", r"egasim\-mend \- mends a file, e.g. one", ".SH SYNOPSIS",
            ".TP", r"\&\fBegasim mend [OPTIONS] FILE\fR", "mends it all", ".SH WORDS", ".TP", r"\&\fBFILE\fR", r"\&what is \e broken",
            ".TP", r"\&\fB\-\-most NUMBER\fR", r"\&a limit; 1 to 9 ms", ".SH NOTES",
            r"\&It doesn't break others. A refused word has the status 2. More: docs/TOOLS.md.", ".SH SEE ALSO", r"\fBegasim\fR(1)",
            ".PP", "The folder lib/egasim/docs/ of the installation has the documents that are named here."])

    def test_page_of_the_program(self):
        told = "\n".join(page(FORMATS, "9.9", "program 12, kit K", False, ["find", "mend"]))
        for lines in ("egasim \\- simulates the monitoring of engine torque, by a proved program\n.SH SYNOPSIS\n.B egasim run\nFILE\n.br\n",
                      ".SH WHICH PROGRAM\nprogram 12, kit K\n.SH DESCRIPTION\n.PP\n\\&Some \\fItext\\fR of \\fBrun\\fR.\n.SH \"Commands\"\n",
                      ".TP\n\\&\\fBrun FILE\\fR\n\\&a \\fIreport\\fR\n.IP \\(bu 3\n\\&one\n.RS 4\n.IP \\(bu 3\n\\&two\n.RE\n",
                      "\\fBegasim\\-find\\fR(1), \\fBegasim\\-mend\\fR(1).\n"):
            self.assertIn(lines, told)
        other = "\n".join(page(FORMATS, "9.9", "program 12", True, []))
        self.assertIn("\n.PP\nThe program was named by whoever made this installation.", other)
        self.assertNotIn("by a proved program", other)
