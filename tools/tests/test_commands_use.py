"""Every command of tools/ as people try it: help with the exit statuses, wrong use told with the usage, and nothing built for either."""

import os
import re
import tempfile
import unittest
from pathlib import Path

from rudavesh.places import TOOLS

from .commands import run

COMMANDS = ("compare", "measure", "records", "stack", "stored", "strength", "strip")
WRONG = (
    ("compare", "x"), ("compare", "0"), ("compare", "1", "0"), ("compare", "1", "1", "1"), ("compare", "\u0663"), ("measure", "--nonsense"),
    ("measure", "x"), ("records", "--nonsense"), ("stack", "no_such_commit"), ("stack", "--most", "0"), ("stack", "--most", "8", "HEAD"),
    ("stored", "--nonsense"), ("stored", "x"), ("strength", "--every", "0"), ("strength", "--every", "x"), ("strength", "no_such_crate"),
    ("strip", "--width", "0"), ("strip", str(TOOLS)),
)  # fmt: skip


class Use(unittest.TestCase):
    """With a cargo and an rt that note that they were called, and fail."""

    def setUp(self) -> None:
        folder = tempfile.TemporaryDirectory()
        self.addCleanup(folder.cleanup)
        self.marker = Path(folder.name) / "called"
        for name in ("cargo", "rt"):
            file = Path(folder.name) / name
            file.write_text(f'#!/bin/sh\necho "$0 $*" >>"{self.marker}"\nexit 1\n')
            file.chmod(0o755)
        before = os.environ["PATH"]
        os.environ["PATH"] = f"{folder.name}:{before}"
        self.addCleanup(os.environ.__setitem__, "PATH", before)

    def test_every_command_is_tried(self):
        self.assertEqual(sorted(COMMANDS), sorted(file.name for file in TOOLS.iterdir() if "/shell/python" in self.text_of(file)))

    @staticmethod
    def text_of(file: Path) -> str:
        return file.read_text() if file.is_file() else ""

    def test_help_tells_the_exit_statuses(self):
        for name in COMMANDS:
            done = run(name, "", "--help")
            said = done.stdout.decode()
            self.assertEqual((done.returncode, done.stderr), (0, b""), name)
            self.assertTrue(said.startswith(f"usage: tools/{name} "), said[:60])
            self.assertRegex(re.sub(r"\s+", " ", said), "Exit status: 0 .*; 2 wrong use")
        self.assertFalse(self.marker.exists())

    def test_wrong_use_is_told_with_the_usage(self):
        for name, *arguments in WRONG:
            done = run(name, "", *arguments)
            said = done.stderr.decode()
            self.assertEqual((done.returncode, done.stdout), (2, b""), (name, arguments, said))
            self.assertTrue(said.startswith(f"usage: tools/{name} "), said)
            self.assertIn(f"tools/{name}: error: ", said)
            self.assertNotIn("Traceback", said)
        self.assertFalse(self.marker.exists())

    def test_a_command_below_that_fails_is_told_in_one_sentence(self):
        for words in (("stored",), ("compare", "1", "1")):
            done = run(words[0], "", *words[1:])
            self.assertEqual((done.returncode, done.stdout), (2, b""), done.stderr)
            self.assertRegex(done.stderr.decode(), rf"^tools/{words[0]}: cargo failed with status 1\.\n$")


if __name__ == "__main__":
    unittest.main()
