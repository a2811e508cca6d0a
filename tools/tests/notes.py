"""What a tool says when it ends."""

import contextlib
import io
import sys


def note_of(call, *words):
    """The note with which a call ends the tool, without the tool's name; None if it doesn't end it."""
    told = io.StringIO()
    try:
        with contextlib.redirect_stderr(told):
            call(*words)
    except SystemExit as end:
        if end.code == 2:  # a refused word, which is told already
            return told.getvalue().removesuffix("; --help tells the words\n").split(": ", 1)[1]
        return str(end.code).split(": ", 1)[1]
    finally:
        print(told.getvalue(), end="", file=sys.stderr)
    return None
