"""A test that works in a folder of its own."""

import os
import tempfile
import unittest


class InFolder(unittest.TestCase):
    def setUp(self):
        folder = self.enterContext(tempfile.TemporaryDirectory())
        self.addCleanup(os.chdir, os.getcwd())
        self.addCleanup(os.umask, os.umask(0o022))
        os.chdir(folder)

    def put(self, name, content=b"", mode=0o644):
        os.makedirs(os.path.dirname(name) or ".", exist_ok=True)
        with open(name, "wb") as file:
            file.write(content if isinstance(content, bytes) else content.encode())
        os.chmod(name, mode)
