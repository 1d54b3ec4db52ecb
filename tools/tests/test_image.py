"""Tests of ./image: what it makes, lists, shows and chooses, with stand-ins for the proved programs and images by the paper's words."""

import os
import random
import re
import unittest

from .image_case import Case, changed
from .paper import PAPER_LOAD, SETTINGS, image

WITH_TWO = [*changed(s3=2900, s10=-7), 2]


class Make(Case):
    def made(self, *arguments: object, **more) -> bytes:
        self.assertEqual(self.done("make", self.room / "pumps.image", *arguments, **more), "")
        return (self.room / "pumps.image").read_bytes()

    def test_the_bytes_are_the_papers(self):
        self.text("a", "load\n")
        self.text("b", "load sensors=2 VdcOvLevel=2900 HallAngleOffset=-7\n")
        self.assertEqual(self.made("3=a", cwd=self.room), image({3: PAPER_LOAD}))
        self.assertEqual(self.made("14=a", "0=b", cwd=self.room), image({0: WITH_TWO, 14: PAPER_LOAD}))
        every = [f"{block}={'ab'[block % 2]}" for block in range(15)]
        expected = image({block: WITH_TWO if block % 2 else PAPER_LOAD for block in range(15)})
        self.assertEqual(self.made(*every, cwd=self.room), expected)

    def test_settings_in_many_lines_as_numbers_and_by_standard_input(self):
        many = "# big\nload\n  VdcOvLevel=2900   # volts\n\n  hallangleoffset=0xFFF9\n  sensors=2\n"
        plain = "load " + " ".join(map(str, WITH_TWO))
        others = [many.replace("\n", end) for end in ("\r\n", "\r\r\n", "\r")]  # Windows', twice converted, of an old Mac
        for text in (many, *others, "\ufeff" + many, plain, "M VdcOvLevel=2900 HallAngleOffset=-7 sensors=2"):
            self.assertEqual(self.made(f"5={self.text('x', text)}"), image({5: WITH_TWO}))
            self.assertEqual(self.made("5=-", given=text.encode()), image({5: WITH_TWO}))

    def test_a_name_with_an_equals_sign_and_a_block_with_zeros_before_it(self):
        self.text("a=b", "load")
        self.assertEqual(self.made("007=a=b", cwd=self.room), image({7: PAPER_LOAD}))

    def test_a_block_that_will_not_load_is_warned_of_and_made(self):
        good, bad = self.text("good", "load"), self.text("bad", "load VdcLvLevel=3000")
        done = self.image("make", self.room / "pumps.image", f"2={good}", f"4={bad}")
        self.assertEqual((done.returncode, done.stdout), (0, b""))
        self.assertEqual(done.stderr.decode(), f"image: warning: block 4 ({bad}) will not load: number 2, place 4: "
                         "VdcLvLevel is 0..4095, below VdcOvLevel; here it is 3000\n")  # fmt: skip
        self.assertEqual((self.room / "pumps.image").read_bytes(), image({2: PAPER_LOAD, 4: changed(s4=3000)}))

    def test_each_bad_setting_is_named(self):
        """A value beyond each range that is not any; one by one, and then all of them are told in one run."""
        beyond = {"ControlMode": 2, "VdcOvLevel": 4096, "RotorLockTime": 0, "MotorLim": 0, "CmdStop": 400, "RetryLimit": 101, "sensors": 4}
        words = []
        for block, (name, value) in enumerate(beyond.items()):
            words.append(f"{block}={self.text(name, f'load {name}={value}')}")
        done = self.image("make", self.room / "pumps.image", *words)
        told = re.findall(r"block (\d+) .* place (\d+): (\w+) is .*; here it is (\d+)", done.stderr.decode())
        places = [*SETTINGS, "sensors"]
        self.assertEqual(told, [(str(block), str(places.index(name) + 1), name, str(value))
                                for block, (name, value) in enumerate(beyond.items())])  # fmt: skip

    def test_an_image_is_replaced_with_its_mode_and_through_a_link(self):
        text, there = self.text("a", "load"), self.file("there", image({}))
        there.chmod(0o640)
        (self.room / "link").symlink_to(there)
        self.done("make", self.room / "link", f"1={text}")
        self.assertTrue((self.room / "link").is_symlink())
        self.assertEqual((there.read_bytes(), there.stat().st_mode & 0o777), (image({1: PAPER_LOAD}), 0o640))
        before = os.umask(0o027)
        self.addCleanup(os.umask, before)
        self.assertEqual((self.made(f"1={text}"), (self.room / "pumps.image").stat().st_mode & 0o777), (image({1: PAPER_LOAD}), 0o640))
        self.assertEqual([file.name for file in self.room.iterdir() if file.name.startswith(".")], [])


class ListAndShow(Case):
    def test_a_line_for_each_block(self):
        file = self.file("pumps.image", image({0: PAPER_LOAD, 3: WITH_TWO, 14: changed(s24=101)}))
        lines = self.done("list", file).splitlines()
        self.assertEqual(lines[0], "221 bytes, 3 of 15 blocks filled")
        self.assertEqual(lines[1], "block 0   24 numbers from byte 75; loads")
        self.assertEqual(lines[4], "block 3   25 numbers from byte 123; loads")
        self.assertEqual(lines[15], "block 14  24 numbers from byte 173; will not load: number 2, place 24: "
                         "RetryLimit is 0..100; here it is 101")  # fmt: skip
        self.assertEqual([line for line in lines[1:] if line.endswith("  empty")], [f"block {block:<3} empty" for block in range(15)
                                                                                  if block not in (0, 3, 14)])  # fmt: skip

    def test_an_image_without_a_block_and_a_full_one(self):
        self.assertEqual(self.done("list", self.file("none", image({}))).splitlines(),
                         ["75 bytes, 0 of 15 blocks filled"] + [f"block {block:<3} empty" for block in range(15)])
        lines = self.done("list", self.file("full", image({block: [*PAPER_LOAD, 3] for block in range(15)}))).splitlines()
        self.assertEqual(lines[0], "825 bytes, 15 of 15 blocks filled")
        self.assertEqual(lines[15], "block 14  25 numbers from byte 775; loads")

    def test_a_block_is_shown_with_every_setting(self):
        file = self.file("pumps.image", image({3: WITH_TWO, 10: PAPER_LOAD}))
        shown = self.done("show", file, 3)
        self.assertEqual(re.findall(r"^  (\w+)=(-?\d+) +# \S", shown, re.M), list(zip([*SETTINGS, "sensors"], map(str, WITH_TWO))))
        self.assertIn("\n  VdcLvLevel=1000           # 0..4095, below VdcOvLevel\n", shown)
        self.assertEqual(self.done("show", "-", 3, given=file.read_bytes()), shown)
        self.assertEqual(self.done("list", "-", given=file.read_bytes()), self.done("list", file))
        self.assertNotIn("sensors", self.done("show", file, 10))

    def test_what_is_shown_is_made_again(self):
        """Whatever the numbers are: the reader and the writer test no setting."""
        chance = random.Random(102)
        bodies = [[chance.randrange(65536) for _ in range(count)] for count in (24, 25, 24, 25)]
        bodies += [24 * [0], 25 * [65535], [*PAPER_LOAD, 3], PAPER_LOAD]
        blocks = dict(zip(chance.sample(range(15), len(bodies)), bodies))
        file = self.file("pumps.image", image(blocks))
        words = [f"{block}={self.text(f'shown {block}', self.done('show', file, block))}" for block in blocks]
        self.image("make", self.room / "again", *words)
        self.assertEqual((self.room / "again").read_bytes(), file.read_bytes())

    def test_what_is_shown_is_a_text_of_records_too(self):
        file = self.file("pumps.image", image({3: WITH_TWO}))
        shown = self.text("shown", self.done("show", file, 3))
        done = self.run_it("tools/records", shown)
        self.assertEqual((done.returncode, done.stdout[:1], done.stdout[1:]), (0, b"M", image({0: WITH_TWO})[75:]))

    def test_from_any_folder_and_by_a_link(self):
        self.file("pumps.image", image({3: PAPER_LOAD}))
        (self.room / "of image").symlink_to(self.root / "image")
        done = self.run_it("../of image", "list", "pumps.image", cwd=self.room)
        self.assertEqual((done.returncode, done.stdout.count(b"\n")), (0, 16))


class Choose(Case):
    def test_the_papers_choice(self):
        for count, block in ((0, 0), (273, 0), (274, 1), (2048, 7), (3822, 13), (3823, 14), (4095, 14)):
            self.assertEqual(self.done("choose", count), f"{block}\n", count)

    def test_a_count_above_is_refused_in_words(self):
        for count in (4096, 65535):
            self.told(self.image("choose", count), 1, f"image: the count {count} is refused: number 1, place 1: a count is 0..4095.")


if __name__ == "__main__":
    unittest.main()
