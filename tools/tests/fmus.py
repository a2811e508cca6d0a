"""FMUs that the tests build of the example's source, by a C compiler."""

import functools
import os
import shutil
import subprocess
import tempfile
import unittest

from egasim_tools.base.files import TOP, read, text_of

EXAMPLES = os.path.join(TOP, "examples", "own_engine")
built_by_compiler = unittest.skipUnless(shutil.which("cc"), "there is no compiler cc")


@functools.cache
def example_fmu():
    """The bytes of the example FMU."""
    with tempfile.TemporaryDirectory() as room:
        subprocess.run([f"{EXAMPLES}/make_fmu.py", f"{room}/engine.fmu"], check=True)
        return read(f"{room}/engine.fmu")


def make_fmu(name, edits=(), described=()):
    """Builds the example FMU with edits (before, after) of its source and of its description; each `before` stands once."""
    os.makedirs("sources", exist_ok=True)
    shutil.copy(f"{EXAMPLES}/make_fmu.py", "sources/make_fmu.py")
    for ending, changes in (("c", edits), ("xml", described)):
        text = text_of(f"{EXAMPLES}/engine_fmu.{ending}")
        for before, after in changes:
            assert text.count(before) == 1, before
            text = text.replace(before, after)
        with open(f"sources/engine_fmu.{ending}", "w", encoding="utf-8") as file:
            file.write(text)
    subprocess.run(["sources/make_fmu.py", name], check=True)
