"""Tests of `strip`: what it says of wrong lines, and of wrong use."""

import subprocess
import tempfile
import unittest
from pathlib import Path

# Document 01's own output, as it is typed there.
from rudavesh.expected.shiftline_example import OUTPUT as PAPER

from .commands import TIMEOUT, command, run
from .paper import line
from .strip_case import Case


class Errors(Case):
    BAD = [
        ("", "1: there is no report line"),
        ("\n", "1: not a report line: ''"),
        (PAPER + "\n", "7: not a report line: ''"),
        (PAPER + "hello\n", "7: not a report line: 'hello'"),
        (PAPER[:60], "2: not a report line"),
        (line().replace("STOP", "STOO"), "1: not a report line"),
        (line().replace("STOP........", "STOP......."), "1: not a report line"),
        (line().replace("STOP........", "STOP........."), "1: not a report line"),
        (line().replace("STOP........", "STOPPARKING."), "1: not a report line"),
        (line(live=0xABCD).replace("ABCD", "abcd"), "1: not a report line"),
        (line().replace(" 0 0000", " 4 0000"), "1: not a report line"),
        (line().replace("+00000 0", "-00000 0"), "1: not a report line"),
        (line().replace("\n", "\r\r\n"), "1: not a report line"),
        (line() + " " + line(), "2: not a report line"),
        (b"\xff" + line().encode()[1:], "1: not a report line"),
        (3 * line() + line()[:-1] + line(), "4: not a report line"),
    ]

    def test_a_bad_line_is_named_with_its_number(self):
        for text, message in self.BAD:
            with self.subTest(text=text[-60:]):
                done = run("strip", text)
                self.assertEqual((done.returncode, done.stdout), (1, b""))
                self.assertIn("<stdin>:" + message, done.stderr.decode())
                self.assertEqual(done.stderr.count(b"\n"), 1)

    def test_the_last_line_may_lack_its_line_feed(self):
        self.assertEqual(self.hints(self.drawn(line() + line()[:-1]), "state"), ["STOP, 1 to 2"])

    def test_files(self):
        with tempfile.TemporaryDirectory() as folder:
            file = Path(folder) / "lines.txt"
            file.write_text(PAPER)
            self.assertEqual(run("strip", "", str(file)).stdout, run("strip", PAPER, "-").stdout)
            file.write_text(PAPER + "?\n")
            done = run("strip", "", str(file))
        self.assertEqual((done.returncode, done.stdout), (1, b""))
        self.assertTrue(done.stderr.decode().startswith(f"{file}:7: not a report line: '?'"))

    def test_wrong_use(self):
        for arguments in (["--nonsense"], ["a", "b"], ["/no/such/file"], ["--width", "10"],
                          ["--longest", "0"], ["--longest", "x"]):
            done = run("strip", PAPER, *arguments)
            self.assertEqual((done.returncode, done.stdout), (2, b""), arguments)
            self.assertIn(b"strip: error:", done.stderr)
        self.assertEqual(run("strip", "", "--help").returncode, 0)

    def test_a_closed_pipe_ends_quietly(self):
        with subprocess.Popen(command("strip"), stdin=subprocess.PIPE,
                              stdout=subprocess.PIPE, stderr=subprocess.PIPE) as process:
            process.stdout.close()
            process.stdin.write(PAPER.encode())
            process.stdin.close()
            self.assertEqual(process.stderr.read(), b"")
            self.assertEqual(process.wait(timeout=TIMEOUT), 0)
