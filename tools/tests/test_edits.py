"""Every must-fail edit finds the text that it replaces and says what refuses it; and `.ci/refused` holds the logs against that."""

import os
import shutil
import subprocess
import tempfile
import unittest
from pathlib import Path
from typing import Callable, Iterator, List

from rudavesh import edits, places

EDIT = """wrong: a
refused by: Drive::cycle, Drive::tick
file: src/lib.rt
old: x
new: y

wrong: b
Why it is wrong.
refused by: OneReply.antt power-up
file: src/lib.rt
old: z
new: w
"""

# as rattle prints them: errors of their own, what only rests on those or names what is gone, and a theorem's error
LOG = """./proofs/Drive/cycle/Answers.antt:10:5: error: `returns`: give a proof of that as the last argument
./proofs/run/Answers.antt:4:5: error: 2 declarations that depend on `close`, which was rejected, were not checked: returns, stays
./proofs/stay/Answers.antt:8:54: error: `returns`: record `pump.proofs.stay.Lts.View.In-After-b` has no field `if-a` (nearest: .if-b)
./proofs/OneReply.antt:7:2: error: `power-up`: expected type `x`
./proofs/Laws.antt:9:5: error: 1 declaration that depends on `power-up`, which was not admitted, was not checked: law
fn pump::Drive::cycle: not proved
fn pump::Drive::tick: no proof: expected answers in ./proofs/Drive/tick/Answers.antt; `search` did not prove `returns`
note: `search` has not tried the goals of `pump::run`, which wait for a callee's proof: some may be open after it
fn pump::run: not proved; it calls `pump::Drive::cycle`, which is not proved
fn pump::main: no proof: it calls `pump::run`, which is not proved
fn pump::stop: no proof: its contract rests on `close`, which antt did not admit: help: fix that first
fn pump::other: proved
logic=not-proved
"""
# proves a crate as it stands, and refuses one with an edit, or with its second wrong answer alone, by what lies beside it
RT = """#!/bin/sh
[ "$1" = check ] || exit 0
echo "$PWD" >>"$LOGS/asked"
if grep -rq y src specs; then cat "$LOGS/log"; exit 1; fi
if grep -rq w src specs; then cat "$LOGS/alone"; exit 1; fi
echo "logic=proved functions=1"
"""


class Edits(unittest.TestCase):
    def none(self, faults: Iterator[edits.Fault]) -> None:
        found = list(faults)
        if found:
            self.fail("\n" + "\n".join(map(str, found)))

    def test_each_finds_its_text(self) -> None:
        self.assertTrue(edits.edits())
        self.none(fault for edit in edits.edits() for fault in edits.gone_in(edit))

    def test_each_says_what_refuses_it_and_no_two_share_a_name(self) -> None:
        self.none(fault for edit in edits.edits() for fault in edits.unclear_in(edit))
        self.none(edits.twice())

    def faults_of(self, text: str, asked: Callable[[Path], Iterator[edits.Fault]]) -> List[str]:
        with tempfile.TemporaryDirectory() as folder:
            crate = Path(folder) / "crate"
            (crate / "must-fail").mkdir(parents=True)
            (crate / "lib.rt").write_text("a < b")
            edit = crate / "must-fail" / "first.edit"
            edit.write_text(text)
            return [fault.what for fault in asked(edit)]

    def test_a_text_that_is_gone_is_told_and_one_that_an_edit_makes_is_found(self) -> None:
        text = "A sentence.\nfile: lib.rt\nold: a < b\nnew: a <= b\nfile: lib.rt\nold: a <= b\nnew: true\nold: a < b\nnew: false\n"
        self.assertEqual(self.faults_of(text, edits.gone_in), ["lib.rt has no `a < b` any more."])

    def test_wrong_answers_that_one_log_cannot_tell_apart(self) -> None:
        told = self.faults_of("wrong: a\nrefused by: f\nwrong: b\nrefused by: g, f\nwrong: c\n", edits.unclear_in)
        self.assertEqual(len(told), 3, told)
        self.assertIn("f is to refuse more than a", told[0])
        self.assertIn("f is to refuse more than b", told[1])
        self.assertIn("c does not say by what it is refused", told[2])
        self.assertIn("names no wrong answer", self.faults_of("file: lib.rt\nold: a\nnew: b\n", edits.unclear_in)[0])


class Refused(unittest.TestCase):
    """A tree with one edit, and a kit that says of it what a log says."""

    def asked(self, edit: str, log: str, alone: str = "logic=not-proved\n", first: int = 0) -> "subprocess.CompletedProcess[str]":
        """What it says, after it was asked so many times before; and in `checks` how many checks it made."""
        with tempfile.TemporaryDirectory() as folder:
            root, kit = Path(folder) / "tree", Path(folder) / "kit"
            for file, text in {
                root / "crates.txt": "pump:\n",
                root / "crates/pump/src/lib.rt": "x\nz\n",
                root / "crates/pump/specs/Lib.antt": "x\nz\n",
                root / "crates/pump/must-fail/first.edit": edit,
                kit / "rt": RT,
                kit / "log": log,
                kit / "alone": alone,
            }.items():
                file.parent.mkdir(parents=True, exist_ok=True)
                file.write_text(text)
            (kit / "rt").chmod(0o755)
            shutil.copytree(places.TOOLS, root / "tools", ignore=shutil.ignore_patterns("tests", "__pycache__"))
            (root / ".ci").mkdir()
            shutil.copy(places.ROOT / ".ci" / "refused", root / ".ci")
            there = {**os.environ, "PATH": f"{kit}:{os.environ['PATH']}", "LOGS": str(kit), "XDG_CACHE_HOME": str(kit / "kept")}
            for _ in range(first + 1):
                (kit / "asked").write_text("")
                run = subprocess.run([root / ".ci" / "refused"], capture_output=True, text=True, check=False, env=there)
            self.checks = len((kit / "asked").read_text().splitlines())
            return run

    def test_refused_by_what_it_says(self) -> None:
        run = self.asked(EDIT, LOG)
        self.assertEqual((run.returncode, run.stdout, run.stderr), (0, "", ""))

    def test_refused_by_something_else(self) -> None:
        run = self.asked(EDIT.replace("Drive::tick", "run"), LOG)
        self.assertEqual(run.returncode, 1)
        self.assertIn("run does not refuse it by an error of its own.", run.stdout)
        self.assertIn("Drive::tick refuses it, and the edit does not say so.", run.stdout)

    def test_a_changed_definition_may_be_refused_by_more(self) -> None:
        text = EDIT.replace(", Drive::tick", "").replace("file: src/lib.rt", "file: specs/Lib.antt")
        self.assertEqual(self.asked(text, LOG).returncode, 0)
        self.assertEqual(self.asked(text, LOG.replace("`power-up`", "`load`")).returncode, 1)

    def test_what_one_log_does_not_show_is_tried_alone(self) -> None:
        lines = LOG.replace("`power-up`: expected", "`load`: expected").replace("./proofs/OneReply.antt", "./src/lib.rt")
        self.assertEqual(self.asked(EDIT, lines).returncode, 1)
        self.assertEqual(self.asked(EDIT, lines, LOG).returncode, 0)

    def test_what_passed_is_not_tried_again(self) -> None:
        for first, log, checks in ((0, LOG, 2), (1, LOG, 0), (1, LOG.replace("`power-up`", "`load`"), 3)):
            self.asked(EDIT, log, first=first)
            self.assertEqual(self.checks, checks)

    def test_no_log(self) -> None:
        run = self.asked(EDIT.replace("wrong: a", "wrong: c"), "")
        self.assertEqual(run.returncode, 1)


if __name__ == "__main__":
    unittest.main()
