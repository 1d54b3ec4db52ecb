"""Tests of `measure`."""

import tempfile
import unittest
from pathlib import Path

from rudavesh import measure, places

LOG = "fn pump::turn: proved\nlogic=proved functions=7 axioms=2 target=x\n.ci/refused: pump proved (12 s)\n"


class Measure(unittest.TestCase):
    """A crate of three lines with two edits, three wrong answers, and what a check of it left."""

    def setUp(self) -> None:
        folder = tempfile.TemporaryDirectory()
        self.addCleanup(folder.cleanup)
        self.root = Path(folder.name)
        for path, text in {
            "crates/pump/src/lib.rt": "// why\n\nfn turn() {\n    ()\n}\n",
            "crates/pump/specs/Turn.antt": "-- the paper\nabbrev turn : N\nturn = 0\n",
            "crates/pump/must-fail/a.edit": "wrong: one\nrefused by: turn\n",
            "crates/pump/must-fail/b.edit": "wrong: two\nrefused by: turn\n\nwrong: three\nrefused by: stop\n",
            "target/log/pump.out": LOG,
            "target/must-fail/pump/a.out": "logic=not-proved\n.ci/refused: pump/a.out: refused, as it must be (10 s)\n",
            "target/must-fail/pump/b.out": "logic=not-proved\n.ci/refused: pump/b.out: refused, as it must be (5 s)\n",
        }.items():
            file = self.root / path
            file.parent.mkdir(parents=True, exist_ok=True)
            file.write_text(text)

    def test_crates_in_their_order(self) -> None:
        self.assertEqual(places.crate_names("# NAME: what\npump:\nhall: pump\n\n# more\nrun: hall io\n"), ["pump", "hall", "run"])

    def test_row(self) -> None:
        self.assertEqual(measure.row(self.root, "pump"), "| pump | 12 s | 8 s | 3 | 2 | - | 7 | 2 | 3 |")

    def test_a_crate_that_was_not_checked(self) -> None:
        (self.root / "target/log/pump.out").write_text(".ci/refused: pump not proved (3 s)\n")
        (self.root / "target/must-fail/pump/a.out").unlink()
        (self.root / "target/must-fail/pump/b.out").unlink()
        self.assertEqual(measure.row(self.root, "pump"), "| pump | - | - | 3 | 2 | - | - | - | 3 |")

    def test_totals_need_no_check(self) -> None:
        for path, text in {
            "crates.txt": "pump:\nhall: pump\n",
            "crates/hall/proofs/Why.antt": "-- why\n" + "x = y\n" * 300,
            "crates/hall/stdout": "z" * 400 + "\n",
            "model/src/lib.rs": "// \u00e9\u00e9\u00e9\u00e9\u00e9\u00e9\u00e9\n",
            "model/target/out.rs": "w" * 500 + "\n",
            "tools/compare": "#!/usr/bin/env python3\n",
            "tools/tests/test.py": "pass\n" * 300,
        }.items():
            file = self.root / path
            file.parent.mkdir(parents=True, exist_ok=True)
            file.write_text(text, encoding="utf-8")
        self.assertEqual(measure.totals(self.root), [
            "| lines of code | 3 |",
            "| lines of definitions | 2 |",
            "| lines of proof | 300 |",
            "| longest line | 22 bytes, in tools/compare |",
            "| files over 300 lines | 1 of 6 |",
        ])  # fmt: skip
