#!/usr/bin/env python3
"""Builds the example FMU, examples/own_engine/engine_fmu.c and .xml, by a C compiler.

    examples/own_engine/make_fmu.py NAME.fmu

The compiler is `cc`, or what CC names. Without one it says so, and ends with the status 77."""

import os
import shlex
import shutil
import subprocess
import sys
import tempfile
import zipfile

SOURCES = os.path.join(os.path.dirname(os.path.realpath(__file__)), "engine_fmu")
# Without contraction a sum of products is rounded as in Python, on each processor.
FLAGS = ["-O2", "-std=c11", "-ffp-contract=off", "-shared", "-fPIC"]


def main():
    if len(sys.argv) != 2 or sys.argv[1] in ("-h", "--help"):
        print(__doc__)
        return 0 if sys.argv[1:] in (["-h"], ["--help"]) else 2
    compiler = shlex.split(os.environ.get("CC", "cc"))
    if not compiler or not shutil.which(compiler[0]):
        print(f"make_fmu.py: there is no compiler {' '.join(compiler)}", file=sys.stderr)
        return 77
    with tempfile.TemporaryDirectory() as room:
        library = os.path.join(room, "engine_fmu.so")
        if subprocess.call([*compiler, *FLAGS, "-o", library, f"{SOURCES}.c", "-lm"]):
            return 1
        with zipfile.ZipFile(sys.argv[1], "w", zipfile.ZIP_DEFLATED) as archive:
            archive.write(f"{SOURCES}.xml", "modelDescription.xml")
            archive.write(library, "binaries/linux64/engine_fmu.so")
            archive.write(f"{SOURCES}.c", "sources/engine_fmu.c")
    return 0


if __name__ == "__main__":
    sys.exit(main())
