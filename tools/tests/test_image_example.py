"""examples/pumps.image is what the files of settings beside it give by the paper's words, and what ./image makes of them; README.md shows
what it lists."""

import re
import unittest

from rudavesh.places import ROOT

from .image_case import Case
from .paper import PAPER_LOAD, SETTINGS, image

PUMPS = ROOT / "examples" / "pumps"


def settings(sensors=(), **named: int) -> list:
    """The paper's settings but for those that are named."""
    values = dict(zip(SETTINGS, PAPER_LOAD))
    values.update(named)
    assert len(values) == 24, named
    return [*values.values(), *sensors]


BLOCKS = {
    0: settings([2], VdcOvLevel=2900, TCatchSpin=4, ParkTime=4, OpenLoopRamp=1, SpdRampRate=20480),
    3: settings(ControlMode=1, HallAngleOffset=-910, TCatchSpin=5, ParkTime=5, OpenLoopRamp=1, SpdRampRate=20480, RetryLimit=1),
    7: settings(ControlMode=1, VdcLvLevel=3100),
}


class Stored(unittest.TestCase):
    def test_the_stored_image_is_the_papers(self):
        self.assertEqual((ROOT / "examples" / "pumps.image").read_bytes(), image(BLOCKS))


class Made(Case):
    def test_the_files_of_settings_give_it(self):
        words = [f"{block}={PUMPS / name}" for block, name in ((0, "small.txt"), (3, "big.txt"), (7, "mistyped.txt"))]
        done = self.image("make", self.room / "pumps.image", *words)
        self.assertEqual((self.room / "pumps.image").read_bytes(), image(BLOCKS))
        self.assertRegex(done.stderr.decode(), r"^image: warning: block 7 \(.*mistyped\.txt\) will not load: number 2, place 4: VdcLvLevel "
                         r"is 0\.\.4095, below VdcOvLevel; here it is 3100\n$")  # fmt: skip

    def test_readme_shows_what_is_listed(self):
        shown = re.search(r"^    \./image list examples/pumps\.image\n\nprints\n\n((?:    .*\n)+)", (ROOT / "README.md").read_text(), re.M)
        self.assertIsNotNone(shown, "README.md does not show what ./image lists of examples/pumps.image")
        self.assertEqual(re.sub("^    ", "", shown[1], flags=re.M), self.done("list", ROOT / "examples" / "pumps.image"))


if __name__ == "__main__":
    unittest.main()
