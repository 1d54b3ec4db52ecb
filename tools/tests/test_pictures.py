"""The pictures in docs/ are those that tools/strip draws of the examples, from the lines of the independent model and from the reasons of
`./why`: those of the shift as README.md shows them, the others as they are typed here from the paper's rules."""

import re
import tempfile
import unittest
from pathlib import Path

from rudavesh import model
from rudavesh.places import ROOT

from .commands import run
from .records_case import Case

SMALL_PUMP = """\
record 1      load refused: number 2, place 25: sensors is 2..3
record 2      loaded: mode 0, no timed retries
record 2      loaded: motor with two Hall sensors
record 69     start: permitted by the low command at record 68
record 73     gates: drive
record 120    cycle refused: number 1, place 1: pattern is 0..3 with two Hall sensors
record 130    stray Hall sample 1: pattern 2
record 132    live: three stray Hall samples, last pattern 2 (bit 15)
record 133    trip by record 132: three stray Hall samples, last pattern 2 (bit 15)
record 134    FAULT left: clear
record 135    Hall samples since the load: 0 dead, 3 stray
record 142    start: permitted by the low command at record 141
record 146    gates: drive
record 165    stop: low command
record 165    Hall samples since the load: 0 dead, 3 stray
"""

# M-105: dead and stray samples, told where a row of them begins, and counted where one of several ends, and at the end.
LOOSE_PLUG = """\
record 1      loaded: mode 0, no timed retries
record 68     start: permitted by the low command at record 67
record 72     gates: drive
record 97     dead Hall sample 1: pattern 7
record 102    stray Hall sample 1: pattern 4
record 105    dead Hall sample 2: pattern 0
record 108    dead Hall sample 3: pattern 7
record 109    live: two dead Hall samples, last pattern 7 (bit 15)
record 110    trip by record 109: two dead Hall samples, last pattern 7 (bit 15)
record 192    Hall samples since the load: 44 dead, 1 stray
record 193    FAULT left: clear
record 195    start: permitted by the low command at record 194
record 199    gates: drive
record 284    stray Hall sample 2: pattern 5
record 286    live: three stray Hall samples, last pattern 1 (bit 15)
record 287    trip by record 286: three stray Hall samples, last pattern 1 (bit 15)
record 287    Hall samples since the load: 44 dead, 4 stray
"""

# M-103: "the range is every absolute speed up to 4095"; 10 x RotorLockTime is 500 ticks.
COLD_START = """\
record 1      loaded: mode 1, 1 retry allowed
record 68     start: permitted by the low command at record 67
record 72     gates: drive
record 1696   trip: rotor locked for RotorLockTime: torque at MotorLim, speed within 4095 (bit 7)
record 11696  FAULT left: timed retry 1 of 1; no live cause stood
record 11697  start: permitted by the timed retry at record 11696; no low was held since the trip
record 11701  gates: drive
record 12205  trip: rotor locked for RotorLockTime: torque at MotorLim, speed within 4095 (bit 7)
record 22207  FAULT left: clear
record 22209  start: permitted by the low command at record 22208
record 22213  gates: drive
record 22741  stop: low command
"""


@unittest.skipUnless(model.can_be_built(), model.NO_CARGO)
class Pictures(Case):
    def drawn(self, name: str, reasons: str, title: str) -> bytes:
        model.build()
        lines = model.lines(self.written((ROOT / "examples" / f"{name}.txt").read_bytes()))
        with tempfile.TemporaryDirectory() as folder:
            file = Path(folder) / "reasons"
            file.write_text(reasons)
            done = run("strip", lines, "--why", str(file), "--title", title)
        self.assertEqual((done.returncode, done.stderr), (0, b""))
        return done.stdout

    def same(self, name: str, reasons: str, title: str) -> None:
        stored = (ROOT / "docs" / f"{name}.svg").read_bytes()
        self.assertTrue(self.drawn(name, reasons, title) == stored, f"docs/{name}.svg is not what tools/strip draws of examples/{name}.txt")

    def test_of_the_shift(self):
        shown = re.search(r"^    \./why examples/shift\.txt\n\nprints\n\n((?:    record .*\n)+)", (ROOT / "README.md").read_text(), re.M)
        self.assertIsNotNone(shown, "README.md does not show what ./why prints of examples/shift.txt")
        self.same("shift", shown[1].replace("    record", "record"), "The example shift")

    def test_of_the_small_pump(self):
        self.same("small-pump", SMALL_PUMP, "A small pump with two Hall sensors")

    def test_of_the_cold_start(self):
        self.same("cold-start", COLD_START, "A cold start: the shaft stands")

    def test_of_the_loose_plug(self):
        self.same("loose-plug", LOOSE_PLUG, "A loose Hall plug")
