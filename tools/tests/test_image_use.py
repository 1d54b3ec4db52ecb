"""What people do to ./image: images that are malformed, texts with errors, files that are none, wrong use, programs that fail."""

import os
import re
import resource
import shutil
import signal
import unittest
from pathlib import Path

from rudavesh import image_form

from . import stand_in
from .commands import TIMEOUT
from .image_case import Case
from .image_case import stand_in as stand_in_script
from .launcher_case import wait_for
from .paper import PAPER_LOAD, image

GOOD = image({1: PAPER_LOAD, 3: [*PAPER_LOAD, 2], 9: PAPER_LOAD})


def with_bytes(at: int, *values: int, of: bytes = GOOD) -> bytes:
    return of[:at] + bytes(values) + of[at + len(values) :]


def high_first(number: int) -> tuple:
    return divmod(number, 256)


# Entries of blocks 1, 3 and 9 are at 5, 15 and 45; their bodies at 75, 123 and 173; the image has 221 bytes.
MALFORMED = [
    (b"", "byte 0, block 0: the image ends in the entries: these alone take 75 bytes"),
    (GOOD[:74], "byte 74, block 14: the image ends in the entries"),
    (with_bytes(0, 2), "byte 0, block 0: its kind is 2, and a kind is 0 (empty) or 1 (filled)"),
    (with_bytes(15, 255), "byte 15, block 3: its kind is 255"),
    (with_bytes(70, 31), "byte 70, block 14: its kind is 31"),
    (with_bytes(11, 0, 1), "byte 11, block 2: it is empty and has the offset 1: an empty entry is all zeros"),
    (with_bytes(13, 0, 48), "byte 13, block 2: it is empty and has the length 48"),
    (with_bytes(15, 0), "byte 16, block 3: it is empty and has the offset 123"),
    (with_bytes(10, 1), "byte 11, block 2: its body is said to begin at byte 0, and has to begin at byte 123: "
                        "byte 0 belongs to the entries"),
    (with_bytes(16, *high_first(74)), "byte 16, block 3: its body is said to begin at byte 74, and has to begin at byte 123: "
                                      "byte 74 belongs to the entries"),
    (with_bytes(16, 123, 0), "byte 16, block 3: its body is said to begin at byte 31488, and has to begin at byte 123: "
                             "the image has 221 bytes"),
    (with_bytes(6, *high_first(76)), "byte 6, block 1: its body is said to begin at byte 76, and has to begin at byte 75: "
                                     "1 byte before it belongs to no block"),
    (with_bytes(10, 1, 0, 123), "byte 13, block 2: its body is said to have 0 bytes, and has 48 or 50"),
    (with_bytes(8, 0, 49), "byte 8, block 1: its body is said to have 49 bytes"),
    (with_bytes(18, 1, 48), "byte 18, block 3: its body is said to have 304 bytes"),
    (with_bytes(6, *high_first(77)), "byte 6, block 1: its body is said to begin at byte 77, and has to begin at byte 75: "
                                     "2 bytes before it belong to no block"),
    (with_bytes(16, *high_first(121)), "byte 16, block 3: its body is said to begin at byte 121, and has to begin at byte 123: "
                                       "it overlaps the body of a block before it"),
    (with_bytes(46, *high_first(75)), "byte 46, block 9: its body is said to begin at byte 75, and has to begin at byte 173: it overlaps"),
    (with_bytes(46, *high_first(123), of=with_bytes(16, *high_first(173))), "byte 16, block 3: its body is said to begin at byte 173, "
     "and has to begin at byte 123: the body of block 9 is there, and bodies stand in the order of the blocks"),
    (with_bytes(8, 0, 50), "byte 16, block 3: its body is said to begin at byte 123, and has to begin at byte 125"),
    (GOOD[:-1], "byte 220, block 9: the image ends in its body: 1 byte of the image is missing"),
    (GOOD[:130], "byte 130, block 3: the image ends in its body: 91 bytes of the image are missing"),
    (GOOD[:75], "byte 75, block 1: the image ends in its body: 146 bytes of the image are missing"),
    (GOOD + b"\n", "byte 221: the last body ends before it, and 1 byte follows"),
    (GOOD + bytes(1827), "byte 221: the last body ends before it, and 1827 bytes follow"),
    (image({}) + bytes(2), "byte 75: the last body ends before it, and 2 bytes follow"),
    (b"load\n", "byte 5, block 1: the image ends in the entries"),
]  # fmt: skip


class Malformed(Case):
    def test_each_is_told_where_and_in_words(self):
        for place, (content, words) in enumerate(MALFORMED):
            with self.subTest(words=words):
                file = self.file("x.image", content)
                self.told(self.image("list", file), 1, f"image: {file} is malformed: {words}")
                if place % 5 == 0:  # they take the same way
                    self.told(self.image("show", file, 3), 1, f"image: {file} is malformed: {words}")

    def test_one_that_no_record_takes_is_told_without_asking(self):
        self.program("blockline", "echo asked >&2\n")
        for content in (GOOD + bytes(1828), bytes(100000)):
            file = self.file("x.image", content)
            for arguments in (("list", file), ("show", file, 3)):
                self.told(self.image(*arguments), 1, f"{file} is malformed: it is longer than 2048 bytes, and an image has at most 825.")

    def test_every_changed_byte_of_the_entries_is_found_by_the_words_as_by_the_reader(self):
        """The words are Python's and the answer is the program's; where they disagree it would be an internal error."""
        for at in range(75):
            for value in (0, 1, 2, 48, 50, 75, 123, 173, 255):
                content = with_bytes(at, value)
                self.assertEqual(image_form.broken(content) is None, stand_in.bodies_of(content) is not None, (at, value))

    def test_where_reader_and_words_disagree_it_is_an_internal_error(self):
        good, bad = self.file("good", GOOD), self.file("bad", GOOD[:-1])
        self.program("blockline", "cat >/dev/null; for i in 0 1 2 3 4 5 6 7 8 9 10 11 12 13 14; do echo 7 0; done\n")
        self.told(self.image("list", good), 1, f"image: internal error: the reader calls {good} malformed, number 7, and no rule")
        self.program("blockline", "cat >/dev/null; for i in 0 1 2 3 4 5 6 7 8 9 10 11 12 13 14; do echo 9 0; done\n")
        self.told(self.image("list", bad), 1, f"image: internal error: the reader takes {bad}, and a rule",
                  "1 byte of the image is missing")
        self.told(self.image("list", good), 1, "image: internal error: the reader answers number 9, place 0 for block 1, whose kind is 1")


class Refused(Case):
    def test_an_empty_block_and_one_that_there_is_not(self):
        file = self.file("x.image", GOOD)
        self.told(self.image("show", file, 2), 1, f"image: block 2 of {file} is empty.")
        for block in (15, 255):
            self.told(self.image("show", file, block), 1, f"image: there is no block {block}: an image has blocks 0 to 14.")


class Texts(Case):
    CASES = [
        ("", "1:1: there is no load: a file of settings has one load and nothing else"),
        ("# nothing\n\n", "1:1: there is no load"),
        ("\n\n ParkTime=5\nMinSpd=6\n", "3:1: there is no load before it"),
        ("load\nload\n", "2:1: a second load: a file of settings has one load and nothing else"),
        ("load\n ParkTime=5\n  M sensors=2\n", "3:3: a second load"),
        ("load\ntick speed=x\n", "2:1: 'tick': a file of settings has one load and nothing else"),
        ("repeat 2 load\n", "1:1: 'repeat': a file of settings"),
        ("load\nraw 00\n", "2:1: 'raw': a file of settings"),
        ("load\nblock 3 none.image\n", "2:1: 'block': a file of settings"),
        ("load\nhello\n", "2:1: 'hello': a file of settings"),
        ("load\n  ParkTime=5\n  VdcOvLevl=5\n", "3:3: load has no 'VdcOvLevl'; nearest: VdcOvLevel, VdcLvLevel"),
        ("load\n  ParkTime=5\n\n  parktime=6\n", "4:3: ParkTime is given twice"),
        ("load ParkTime=65536\n", "1:15: ParkTime 65536 does not fit two bytes: 0 to 65535"),
        ("load 1 2 3\n", "1:11: load takes 24 plain numbers in order, or 25 with sensors, found 3"),
        ("load\n  ParkTime = 5\n", "2:3: expected NAME=VALUE without spaces, found 'ParkTime'"),
        ("load\n  park_time: 5\n", "2:3: expected NAME=VALUE without spaces, found 'park_time:'"),
        ("load\n  sensors:2\n", "2:3: expected NAME=VALUE without spaces, found 'sensors:2'"),
        ("load # old Mac\r  ParkTime=5\r  MinSpdd=6\r", "3:3: load has no 'MinSpdd'"),
        ("load \x1b[2J\n", "1:6: expected NAME=VALUE without spaces, found '\ufffd[2J'"),
    ]

    def test_each_error_is_told_with_its_place_and_nothing_is_made(self):
        for text, message in self.CASES:
            with self.subTest(text=text):
                file = self.text("settings", text)
                self.told(self.image("make", self.room / "x.image", f"3={file}"), 1, f"{file}:{message}")
        self.told(self.image("make", self.room / "x.image", "3=-", given=b"tick\n"), 1, "<stdin>:1:1: 'tick'")
        self.assertFalse((self.room / "x.image").exists())

    def test_the_errors_of_all_files_are_told(self):
        words = [f"{block}={self.text(f'settings {block}', 'load' + block * ' x')}" for block in (0, 1, 2)]
        done = self.image("make", self.room / "x.image", *words)
        self.assertEqual((done.returncode, re.findall(r"settings (\d):1:6: ", done.stderr.decode())), (1, ["1", "2"]))

    def test_what_is_no_text(self):
        for content, status, words in ((GOOD, 1, "is no text: there are zero bytes in it."),
                                       ("load\n".encode("utf-16"), 2, "is text in UTF-16")):  # fmt: skip
            file = self.file("settings", content)
            self.told(self.image("make", self.room / "x.image", f"3={file}"), status, f"image: {file} {words}")
        file = self.file("settings", b"load # 20 \xb0C\n  \xff\xfe=1\n")
        self.told(self.image("make", self.room / "x.image", f"3={file}"), 1, f"{file}:2:3: load has no ")


class Files(Case):
    def test_that_cannot_be_read(self):
        for name, words in ((self.room / "none", "No such file or directory"), (self.room, "Is a directory")):
            self.told(self.image("list", name), 2, f"image: {name}: {words}")
            self.told(self.image("show", name, 3), 2, f"image: {name}: {words}")
            self.told(self.image("make", self.room / "x.image", f"3={name}"), 2, f"image: {name}: {words}")
        for words in (("make", self.room / "x.image", "3=-"), ("list", "-"), ("show", "-", 3)):
            self.told(self.image(*words, preexec_fn=lambda: os.close(0)), 2, "standard input is closed")

    def test_that_cannot_be_written(self):
        text = f"3={self.text('settings', 'load')}"
        self.told(self.image("make", self.room, text), 1, f"image: {self.room} is no file, and no image is written there.")
        self.told(self.image("make", "/dev/null", text), 1, "image: /dev/null is no file")
        self.told(self.image("make", self.room / "none/x.image", text), 1, "there is no folder")
        self.told(self.image("make", self.file("file", b"") / "x.image", text), 1, "x.image")
        self.told(self.image("make", self.room / ("x" * 300), text), 1, "File name too long")
        if os.geteuid():
            shut = self.room / "shut"
            shut.mkdir(mode=0o555)
            self.told(self.image("make", shut / "x.image", text), 1, "cannot be written: Permission denied")
            kept = self.file("kept.image", GOOD)
            kept.chmod(0o444)
            self.told(self.image("make", kept, text), 1, f"image: {kept} cannot be written: it is write-protected.")
            self.assertEqual(kept.read_bytes(), GOOD)

    def test_a_write_that_fails_leaves_the_image_that_was_there(self):
        text, there = self.text("settings", "load"), self.file("x.image", GOOD)
        limit = lambda: resource.setrlimit(resource.RLIMIT_FSIZE, (100, 100))  # noqa: E731
        done = self.image("make", there, f"3={text}", preexec_fn=limit)
        self.assertEqual((done.returncode, done.stdout), (1, b""), done.stderr)
        self.assertEqual(there.read_bytes(), GOOD)
        self.assertEqual([file.name for file in self.room.iterdir() if file.name.startswith(".")], [])

    @unittest.skipUnless(Path("/dev/full").exists(), "no full disk to write to")
    def test_a_full_disk_and_a_closed_output_are_told(self):
        file = self.file("x.image", GOOD)
        for arguments in (("list", file), ("show", file, 3), ("choose", 5)):
            with open("/dev/full", "wb") as full:
                self.told(self.image(*arguments, stdout=full), 1, "image: standard output: No space left on device")
            self.told(self.image(*arguments, preexec_fn=lambda: os.close(1)), 1, "image: standard output is closed")


class Use(Case):
    def test_help_tells_the_exit_statuses_and_asks_nobody(self):
        for words in (["--help"], ["-h"], *([name, "--help"] for name in ("make", "list", "show", "choose"))):
            done = self.image(*words)
            said = done.stdout.decode()
            self.assertEqual((done.returncode, done.stderr), (0, b""), words)
            self.assertTrue(said.startswith("usage: image "), said[:60])
            self.assertRegex(re.sub(r"\s+", " ", said), "Exit status: 0 .*; 2 wrong use")
        self.assertEqual(self.asked(), [])

    def test_wrong_use_is_told_with_the_usage(self):
        for words in ("", "--nonsense", "mak", "make", "make x", "make x y", "make x =y", "make x 3=", "make x 15=y", "make x -1=y",
                      "make - 3=y", "make x a=y", "make x 1=y 1=z", "make x 1=- 2=-", "make x \u0663=y", "list", "list x y",
                      "show x", "show x y", "show x 256", "show x -1", "choose", "choose x", "choose 65536", "choose -1",
                      "choose 1.5", "choose 0x10", "choose " + "9" * 5000):  # fmt: skip
            done = self.image(*words.split())
            said = done.stderr.decode()
            self.assertEqual((done.returncode, done.stdout), (2, b""), words)
            self.assertTrue(said.startswith("usage: image "), said)
            self.assertRegex(said, r"image(?: \w+)?: error: ")
            self.assertNotIn("Traceback", said)
        self.assertEqual(self.asked(), [])
        self.assertIn("block 1 is given twice", self.image("make", "x", "1=y", "1=z").stderr.decode())
        for block in ("15", "-1"):
            self.assertIn(f"'{block}' is no block: these are 0 to 14", self.image("make", "x", f"{block}=y").stderr.decode())
        self.assertIn("an image is written to a file", self.image("make", "-", "3=y", cwd=self.room).stderr.decode())

    def test_settings_are_not_replaced_by_a_slip(self):
        text = self.text("settings", "load")
        (self.room / "link").symlink_to(text)
        for image_name in ("settings", "link", "./settings"):
            done = self.image("make", image_name, "1=settings", cwd=self.room)
            self.assertEqual((done.returncode, text.read_bytes()), (2, b"load"))
            self.assertIn(f"'{image_name}' would be replaced by the image, and it is a file of settings", done.stderr.decode())
        for content in (b"load ParkTime=5\n", "load\n".encode("utf-16"), b"\xef\xbb\xbf# notes\n"):
            other = self.file("other", content)
            done = self.image("make", "other", "1=settings", cwd=self.room)
            self.assertEqual((done.returncode, other.read_bytes()), (2, content))
            self.assertIn("'other' would be replaced by the image, and it is a text and no image", done.stderr.decode())
        done = self.image("make", "1=settings", "2=settings", cwd=self.room)
        self.assertEqual((done.returncode, (self.room / "1=settings").exists()), (2, False))
        self.assertIn("the first word is the image to write, and '1=settings' is a block", done.stderr.decode())

    def test_without_python_it_says_so(self):
        found = self.room / "found"
        found.mkdir()
        for name in ("sh", "env", "dirname", "readlink"):
            (found / name).symlink_to(shutil.which(name))
        self.environment["PATH"] = str(found)
        self.told(self.image("--help"), 2, "image: python3 is missing")


class Programs(Case):
    """A program below that is not there, is not proved, or answers what it cannot."""

    def test_its_own_word_and_status_are_passed_on(self):
        (self.root / "crates/program_blockline/src/main.rt").write_text("WRONG\n")
        done = self.image("choose", 5)
        self.assertEqual((done.returncode, done.stdout), (1, b""))
        self.assertIn("blockline: program_blockline is not proved, so it is not run", done.stderr.decode())
        (self.root / "crates/program_blockline/src/main.rt").unlink()
        self.told(self.image("choose", 5), 2, "blockline: there is no program blockline in this tree")

    def test_an_interrupt_ends_the_build_below_and_breaks_nothing(self):
        (self.root / "crates/program_blockline/src/main.rt").write_text(stand_in_script("blockline") + "# changed\n")
        self.hold.touch()
        heard = lambda: signal.signal(signal.SIGINT, signal.SIG_DFL)  # noqa: E731
        process = self.start("image", "choose", 4095, start_new_session=True, preexec_fn=heard)
        wait_for(self.calls)
        os.killpg(process.pid, signal.SIGINT)
        said = process.communicate(timeout=TIMEOUT)[1].decode()
        self.assertEqual(process.returncode, 130, said)
        self.assertIn("blockline: interrupted", said)
        self.assertNotIn("Traceback", said)
        self.hold.unlink()
        done = self.image("choose", 4095)
        self.assertEqual((done.returncode, done.stdout), (0, b"14\n"))
        self.assertNotIn("waiting", done.stderr.decode())

    def test_where_benchline_fails_nothing_is_made(self):
        (self.root / "crates/program_benchline/src/main.rt").unlink()
        self.told(self.image("make", self.room / "x.image", f"3={self.text('settings', 'load')}"), 2, "there is no program benchline")
        self.assertFalse((self.room / "x.image").exists())

    def test_answers_that_no_paper_gives(self):
        file, text = self.file("x.image", GOOD), self.text("settings", "load")
        for answer in ("?", "", "0 0 x", "0", "3 0 0", "0 0", "0 0 0\\n0 0 0", "0 0 75"):
            self.program("blockline", f"cat >/dev/null; printf '{answer}\\n'\n")
            for words in (("choose", 5), ("show", file, 3), ("make", self.room / "new", f"3={text}")):
                if (answer, words[0]) not in (("0 0 75", "choose"),):
                    self.told(self.image(*words), 1, "image: internal error: ")
        self.assertFalse((self.room / "new").exists())


if __name__ == "__main__":
    unittest.main()
