"""The files of a call of a tool, which mustn't change between its calls of the program."""

import os

from egasim_tools.base.files import read, sum_of
from egasim_tools.base.tool import fail


class Inputs:
    """Files by their names, each with its bytes, its checksum and its path, as it was when it was first added."""

    def __init__(self, names=()):
        self.sums = {}
        self.add_sums(names)

    def add_sums(self, names):
        """Adds the files that are there; the program refuses a call that needs another one."""
        for name in filter(os.path.exists, names):
            self.add_sum(name)

    def add_sum(self, name, path=None):
        if name not in self.sums:
            content = read(path or name)
            self.sums[name] = len(content), sum_of(content), path or name

    def refuse_changes(self):
        """Ends if a file isn't any more what it was when it was added."""
        for name, (_, total, path) in self.sums.items():
            if sum_of(read(path)) != total:
                fail(f"{name} changed meanwhile")
