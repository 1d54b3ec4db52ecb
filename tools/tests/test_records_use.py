"""Tests of `records`: what it says of a wrong text, and of wrong use."""

import os
import pty
import re
import subprocess
import tempfile
import unittest
from pathlib import Path

from rudavesh.places import TOOLS

from .commands import TIMEOUT, command, run
from .paper import PAPER_LOAD, SETTINGS, TICK_FIELDS, tick
from .records_case import Case


class Errors(Case):
    CASES = [
        ("\n  tik", 2, 3, "'tik' is no record; nearest: tick"),
        ("load\n  ParkTime = 5", 2, 3, "expected NAME=VALUE without spaces, found 'ParkTime'"),
        ("tick # a\rtik", 2, 1, "'tik' is no record; nearest: tick"),
        ("tick\r\r\ntik", 2, 1, "'tik' is no record; nearest: tick"),
        ("xyzzy 1", 1, 1, "known: load, cycle, tick, block, raw, repeat"),
        ("tick sped=600", 1, 6, "tick has no 'sped'; nearest: speed"),
        ("tick temp=1", 1, 6, "nearest: temperature"),
        ("load VdcOvLevl=1", 1, 6, "nearest: VdcOvLevel, VdcLvLevel"),
        ("tick qqqqq=1", 1, 6, "known: gate_kill, clear, command, control, VdcRaw"),
        ("tick clear=1 speed", 1, 14, "expected NAME=VALUE without spaces, found 'speed'"),
        ("tick speed = 5", 1, 6, "expected NAME=VALUE"),
        ("tick speed=", 1, 6, "expected NAME=VALUE"),
        ("tick =5", 1, 6, "expected NAME=VALUE"),
        ("tick speed=5 7", 1, 14, "expected NAME=VALUE"),
        ("tick 5 speed=7", 1, 8, "plain numbers and NAME=VALUE cannot be mixed"),
        ("tick speed=six", 1, 12, "'six' is not a number"),
        ("tick speed=1.5", 1, 12, "'1.5' is not a number"),
        ("tick speed=10,000", 1, 12, "'10,000' is not a number"),
        ("tick speed=0x", 1, 12, "'0x' is not a number"),
        ("tick speed=1 Speed=2", 1, 14, "speed is given twice"),
        ("tick speed=32768", 1, 12, "speed 32768 does not fit two bytes, signed: -32768 to 32767"),
        ("tick speed=-32769", 1, 12, "does not fit"),
        ("tick speed=0x10000", 1, 12, "does not fit"),
        ("tick command=256", 1, 14, "command 256 does not fit one byte: 0 to 255"),
        ("tick VdcRaw=-1", 1, 13, "VdcRaw -1 does not fit two bytes: 0 to 65535"),
        ("load 0 70000" + " 0" * 22, 1, 8, "FaultEnable 70000 does not fit"),
        ("tick speed=" + "9" * 500, 1, 12, "does not fit"),
        ("tick 1 2 3   # few", 1, 11, "tick takes 11 plain numbers in order, found 3"),
        ("cycle 1 2 3 4", 1, 13, "cycle takes 3 plain numbers in order, found 4"),
        ("cycle 1 2", 1, 10, "cycle takes 3 plain numbers in order, found 2"),
        ("load" + " 1" * 23, 1, 51, "load takes 24 plain numbers in order, or 25 with sensors, found 23"),
        ("load" + " 1" * 26, 1, 56, "load takes 24 plain numbers in order, or 25 with sensors, found 26"),
        ("M" + " 1" * 24, 1, 50, "M takes 25 plain numbers in order, found 24"),
        ("load sensrs=2", 1, 6, "load has no 'sensrs'; nearest: sensors"),
        ("load sensors=2 sensors=3", 1, 16, "sensors is given twice"),
        ("load sensors=65536", 1, 14, "sensors 65536 does not fit two bytes: 0 to 65535"),
        ("repeat", 1, 7, "repeat needs a count"),
        ("repeat 3", 1, 9, "repeat needs a count and a record"),
        ("repeat x tick", 1, 8, "'x' is not a number"),
        ("repeat 0 tick", 1, 8, "count 0 does not fit repeat: 1 to 1000000000"),
        ("repeat 3 tik", 1, 10, "'tik' is no record"),
        ("repeat 3 repeat 3 tick", 1, 10, "'repeat' is no record"),
        ("repeat 3 { tick\n}", 1, 12, "write repeat COUNT {"),
        ("repeat {\n}", 1, 9, "repeat needs a count"),
        ("tick\n  repeat 2 {\n tick", 2, 3, "this repeat has no closing }"),
        ("tick\n }", 2, 2, "this } closes no repeat"),
        ("repeat 2 {\n tick\n} tick", 3, 3, "nothing may follow }"),
        ("tick {", 1, 6, "{ stands only after repeat COUNT"),
        ("{", 1, 1, "{ stands only after repeat COUNT"),
        ("repeat 1 {\n" * 17 + "tick\n" + "}\n" * 17, 17, 1, "repeats nest at most 16 deep"),
        ("raw", 1, 4, "raw needs bytes in hexadecimal"),
        ("raw 5", 1, 5, "'5' is not bytes"),
        ("raw 58 0x01", 1, 8, "'0x01' is not bytes"),
        ("raw 58 GG", 1, 8, "'GG' is not bytes"),
        ("block", 1, 6, "block takes a block and the path of an image, one word, such as: block 3 pumps.image"),
        ("block 3 # pumps.image", 1, 8, "block takes a block and the path of an image"),
        ("block 3 my pumps.image", 1, 12, "block takes a block and the path of an image"),
        ("block pumps.image 3", 1, 7, "'pumps.image' is not a number"),
        ("block 256 pumps.image", 1, 7, "block 256 does not fit one byte: 0 to 255"),
        ("block -1 pumps.image", 1, 7, "block -1 does not fit"),
        ("repeat 2 block 3 no/such/file", 1, 18, "no/such/file: No such file or directory"),
        ("tick\nblock 3 .", 2, 9, ".: Is a directory"),
        ("block 3 a\0b", 1, 9, "this is no path of a file"),
        ("block 3 /dev/zero", 1, 9, "/dev/zero is longer than 2048 bytes, and record B takes no more"),
        ("tick\nspeed=5", 2, 1, "NAME=VALUE stands behind the word of its record"),
        ("repeat 2 load\nParkTime=5", 2, 1, "NAME=VALUE stands behind the word of its record"),
        ("load\ntick\nParkTime=5", 3, 1, "NAME=VALUE stands behind the word of its record"),
        ("load ParkTime=5\n\n  TCatchSpin=1 parktime=5", 3, 16, "ParkTime is given twice"),
        ("load\n speed=5", 2, 2, "load has no 'speed'"),
        ("load" + " 1" * 24 + "\nParkTime=5", 2, 1, "ParkTime is given twice"),
        ("load sped=5\nParkTime=5", 1, 6, "load has no 'sped'"),
    ]

    def test_every_kind_with_its_line_and_column(self):
        for text, line, column, message in self.CASES:
            with self.subTest(text=text[:60]):
                errors = self.refused(text)
                self.assertEqual([error[:2] for error in errors], [(line, column)])
                self.assertIn(message, errors[0][2])

    def test_all_errors_are_told_in_order_and_nothing_is_written(self):
        errors = self.refused("tick\nrepeat 2 {\nbad\ntick speed=x\n")
        self.assertEqual([error[:2] for error in errors], [(2, 1), (3, 1), (4, 12)])

    def test_no_more_than_twenty_errors(self):
        self.assertEqual(len(self.refused("bad\n" * 30)), 20)

    def test_bytes_that_are_no_text_outside_a_comment(self):
        self.assertEqual(self.refused(b"tick\n\xff\xfe\n")[0][:2], (2, 1))

    def test_the_file_is_named(self):
        with tempfile.TemporaryDirectory() as folder:
            file = Path(folder) / "shift.txt"
            file.write_text("tick\ntick bad=1\n")
            done = run("records", "", str(file))
        self.assertEqual((done.returncode, done.stdout), (1, b""))
        self.assertTrue(done.stderr.decode().startswith(f"{file}:2:6: tick has no 'bad'"))


class Use(Case):
    def test_help_lists_every_name_with_its_default(self):
        done = run("records", "", "--help")
        self.assertEqual(done.returncode, 0)
        found = dict(re.findall(r"^  (\w+) +(-?\d+)   \S", done.stdout.decode(), re.MULTILINE))
        for name, default in zip([*SETTINGS, "sensors"], [*PAPER_LOAD, 3]):
            self.assertEqual(found[name], str(default), name)
        self.assertIn("load (L or M), in order.", done.stdout.decode())
        self.assertEqual([found[name] for name in TICK_FIELDS],
                         ["0", "0", "0", "0", "2623", "2623", "1000", "2048", "0", "0", "0"])

    def test_wrong_use_and_missing_file(self):
        for arguments in (["--nonsense"], ["a", "b"], ["/no/such/file"], [str(TOOLS)]):
            done = run("records", "tick", *arguments)
            self.assertEqual((done.returncode, done.stdout), (2, b""), arguments)
            self.assertIn(b"records: error:", done.stderr)

    def test_no_records_to_a_terminal(self):
        try:
            master, terminal = pty.openpty()
        except OSError:
            self.skipTest("no terminal can be opened here")
        done = subprocess.run(command("records"), input=b"tick\n", stdout=terminal,
                              stderr=subprocess.PIPE, timeout=TIMEOUT, check=False)
        os.close(terminal)
        os.close(master)
        self.assertEqual(done.returncode, 2)
        self.assertIn(b"garble the terminal", done.stderr)

    def test_a_closed_pipe_ends_quietly(self):
        with subprocess.Popen(command("records"), stdin=subprocess.PIPE,
                              stdout=subprocess.PIPE, stderr=subprocess.PIPE) as process:
            process.stdin.write(b"repeat 1000000 tick\n")
            process.stdin.close()
            self.assertEqual(process.stdout.read(20), tick())
            process.stdout.close()
            self.assertEqual(process.stderr.read(), b"")
            self.assertEqual(process.wait(timeout=TIMEOUT), 0)
