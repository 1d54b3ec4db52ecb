"""Four loads that break four settings print four equal lines of shiftline; the place and the words are at hand by ./benchline and ./why.
The gate runs these programs on their stored input, so what is stored has to hold such loads."""

import re
import unittest

from rudavesh.places import crate_folder


class FourLoads(unittest.TestCase):
    def stored(self, crate: str) -> str:
        file = crate_folder(crate) / "stdout"
        if not file.exists():
            self.skipTest(f"there is no {crate} yet")
        return file.read_text()

    def test_benchline_tells_four_places(self):
        found = set(re.findall(r"^2 ([1-9][0-9]*) ", self.stored("program_benchline"), re.M))
        self.assertGreaterEqual(len(found), 4, found)

    def test_why_tells_them_in_four_sentences(self):
        found = set(re.findall(r"^record +[0-9]+ +load refused: (.*)$", self.stored("program_why"), re.M))
        self.assertGreaterEqual(len(found), 4, found)


if __name__ == "__main__":
    unittest.main()
