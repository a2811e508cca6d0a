"""How a tool is called, and how it ends: its words, its help, and the one line in which it tells why it fails."""

import contextlib
import io
import os
import re
import signal
import sys

TOOL = os.path.basename(sys.argv[0])
NOT_SHOWN = re.compile("[\x00-\x1f\x7f-\x9f\udc80-\udcff]")  # control characters, and bytes that aren't UTF-8
ENDING = (signal.SIGHUP, signal.SIGINT, signal.SIGTERM)  # by these a tool ends


def as_noted(text):
    """A text in which control characters and bytes that aren't UTF-8, of a name for example, are written as in notes of the
    program."""
    return NOT_SHOWN.sub(lambda sign: "".join(f"\\x{byte:02x}" for byte in sign[0].encode(errors="surrogateescape")), text)


def fail(text):
    """Ends the tool with one line and the status 1."""
    sys.exit(f"{TOOL}: {as_noted(text)}")


def refuse_word(text):
    """Ends the tool with one line on the words of its call, and the status 2."""
    print(as_noted(f"{TOOL}: {text}; --help tells the words"), file=sys.stderr)
    sys.exit(2)


def guarded(main, refused=1):
    """Calls a tool's main function. What the system refuses, and an end by the user, are told in one line or none. A tool
    whose status 1 is a verdict has another one for what it refuses."""
    try:
        told_in_a_line(main)
    except SystemExit as end:
        if refused != 1 and isinstance(end.code, str):
            print(end.code, file=sys.stderr)
            sys.exit(refused)
        raise


def told_in_a_line(main):
    """Calls main, and writes all that it has printed, however it ends."""
    for number in ENDING:
        if signal.getsignal(number) is not signal.SIG_IGN:
            signal.signal(number, end_by)
    if sys.stdout is None:
        fail("standard output is closed")
    if sys.stdout is sys.__stdout__:
        sys.stdout = whole_output()
    try:
        end = end_of(main)
        sys.stdout.flush()
    except BrokenPipeError:
        leave_output()
        sys.exit(1)
    except OSError as error:
        leave_output()
        fail(f"output: {error.strerror}")
    if end:
        raise end


def end_of(main):
    """How main ends, or None. An error of the output, which alone has no name of a file, isn't caught."""
    try:
        main()
        return None
    except SystemExit as end:
        return end
    except OSError as error:
        if error.filename is None:
            raise
        told = f"{error.filename}: {error.strerror}"
    except MemoryError:
        told = "no memory"
    except RecursionError:
        told = "a file is too deep"
    except OverflowError:
        told = "a number is out of range"
    except ValueError as error:
        told = f"a file can't be read: {error}"
    except LookupError as error:
        told = f"what was read has no {error}: is the program egasim?"
    return SystemExit(f"{TOOL}: {as_noted(told)}")


def end_by(number, _):
    """Ends the tool by a signal. No other one then keeps it from removing what it has made for itself, and what isn't
    printed yet is left out, since nobody may read it."""
    for one in ENDING:
        signal.signal(one, signal.SIG_IGN)
    leave_output()
    sys.exit(128 + number)


def whole_output():
    """Standard output by a writer that writes all of it or fails. That of Python writes once, and perhaps a part, if
    PYTHONUNBUFFERED is set."""
    file = io.FileIO(sys.stdout.fileno(), "w", closefd=False)
    return io.TextIOWrapper(io.BufferedWriter(file), sys.stdout.encoding, sys.stdout.errors, line_buffering=file.isatty())


def leave_output():
    """Leaves out what isn't written yet, so that Python doesn't try to write it at its end."""
    with contextlib.suppress(OSError, AttributeError):
        os.dup2(os.open(os.devnull, os.O_WRONLY), sys.stdout.fileno())
