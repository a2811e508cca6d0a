"""The modules of the tools. This one is imported before all others: it refuses an older Python, and lets a tool that is
interrupted while the others are imported end without a word, as any program does."""

import _signal  # what `signal` is made of, which takes some milliseconds to import
import os
import sys

if sys.version_info < (3, 11):
    sys.exit(os.path.basename(sys.argv[0]) + ": Python 3.11 or later is needed")
if _signal.getsignal(_signal.SIGINT) is _signal.default_int_handler:
    _signal.signal(_signal.SIGINT, _signal.SIG_DFL)
# A checkout keeps what Python compiles; an installation has nothing but what its list names.
if not sys.flags.dont_write_bytecode:
    sys.dont_write_bytecode = not os.path.isdir(f"{os.path.dirname(os.path.realpath(__file__))}/../../crates")
