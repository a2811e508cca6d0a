"""Of which program a version tells."""

import unittest

from egasim_tools.base.program import tells_of

TOTAL = f"program {64 * 'a'}"


class Origin(unittest.TestCase):
    def test_a_version_tells_of_its_program_with_its_kit_or_without(self):
        for line in (TOTAL, f"{TOTAL}, kit K"):
            self.assertTrue(tells_of(["egasim 9.9", line], TOTAL))

    def test_a_version_tells_of_no_other_program(self):
        for line in ("", f"program {64 * 'b'}", f"{TOTAL}a", f"{TOTAL}a, kit K", f"kit {TOTAL}"):
            self.assertFalse(tells_of(["egasim 9.9", line], TOTAL))
        self.assertFalse(tells_of([], TOTAL))


if __name__ == "__main__":
    unittest.main()
