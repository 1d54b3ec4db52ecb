"""What people do to the commands at the root: several at once, the first run, a changed source, an interrupt, the temporary folder."""

import os
import re
import signal
import unittest
from pathlib import Path

from .commands import TIMEOUT
from .launcher_case import COPIES, Case, wait_for, write
from .paper import tick

# Runs on only when four of it are there.
MEETS = 'touch "$TMPDIR/$$"\nwhile [ "$(ls "$TMPDIR" | wc -l)" -lt 4 ]; do sleep 0.05; done\necho met\n'


class FourAtOnce(Case):
    def test_in_a_built_tree_they_run_side_by_side_and_nothing_is_checked(self):
        write(self.root, {"crates/program_shiftline/src/main.rt": "if [ -e $HOLD.meet ]; then\n" + MEETS + "fi\n"})
        self.built()
        (self.room / "hold.meet").touch()
        four = [self.start("shiftline") for _ in range(4)]
        self.assertEqual([one.communicate(timeout=TIMEOUT) for one in four], 4 * [(b"met\n", b"")])
        self.assertEqual([one.returncode for one in four], [0] * 4)
        self.assertEqual(self.asked(), [])

    def test_while_one_builds_the_others_wait(self):
        self.hold.touch()
        first = self.start("shiftline")
        wait_for(self.calls)
        others = [self.start("shiftline") for _ in range(3)]
        said = [other.stderr.readline().decode() for other in others]
        self.assertEqual(said, 3 * ["shiftline: waiting for the build of program_shiftline by another command.\n"])
        self.hold.unlink()
        for one in (first, *others):
            one.communicate(timeout=TIMEOUT)
            self.assertEqual(one.returncode, 0)
        self.assertEqual(self.asked(), ["run program_shiftline"])

    def test_a_build_does_not_touch_what_runs(self):
        waits = 'touch "$TMPDIR/runs"\nwhile [ -e "$HOLD" ]; do sleep 0.05; done\necho old\n'
        write(self.root, {"crates/program_shiftline/src/main.rt": waits})
        self.built()
        self.hold.touch()
        (self.temporary / "runs").unlink()
        old = self.start("shiftline")
        wait_for(self.temporary / "runs")
        write(self.root, {"crates/program_shiftline/src/main.rt": "echo new\n"})
        new = self.start("shiftline")
        wait_for(self.calls)
        self.hold.unlink()
        self.assertEqual((old.communicate(timeout=TIMEOUT)[0], new.communicate(timeout=TIMEOUT)[0]), (b"old\n", b"new\n"))


class NothingChanged(Case):
    def test_it_is_checked_once(self):
        for _ in range(3):
            self.assertEqual(self.run_it("shiftline", given=tick()).stdout, tick())
        self.assertEqual(self.asked(), ["run program_shiftline"])

    def test_whatever_it_is_made_from_is_looked_at(self):
        self.built()
        for number, change in enumerate((
            {"crates/program_shiftline/src/main.rt": "# another\n" + COPIES},
            {"crates/drive/specs/Lib.antt": "two\n"},
            {"crates/numbers/proofs/Other.antt": "one\n"},
            {"crates.txt": (self.root / "crates.txt").read_text() + "hall: numbers\n"},
        ), 1):  # fmt: skip
            write(self.root, change)
            self.assertEqual(self.run_it("shiftline").returncode, 0)
            self.assertEqual(len(self.asked()), number, change)
        (self.root / "crates/numbers/proofs/Other.antt").unlink()
        self.run_it("shiftline")
        (self.kit / "KIT-ID").write_text("a-kit 2\n")
        self.run_it("shiftline")
        self.assertEqual(self.asked(), 6 * ["run program_shiftline"])

    def test_a_crate_that_it_does_not_know_is_not(self):
        self.built()
        write(self.root, {"crates/hall/src/lib.rt": "one\n", "crates/program_judge/src/main.rt": "other\n"})
        self.run_it("shiftline")
        self.assertEqual(self.asked(), [])

    def test_a_source_put_back_never_runs_what_another_was_built_to(self):
        self.built()
        write(self.root / "crates", {"program_shiftline/out/program_shiftline": "echo another\n"})
        self.assertEqual(self.run_it("shiftline", given=tick()).stdout, tick())

    def test_what_is_not_proved_is_not_run(self):
        self.built()
        write(self.root, {"crates/drive/src/lib.rt": "WRONG\n"})
        for _ in range(2):
            done = self.run_it("shiftline", given=tick())
            self.assertEqual((done.returncode, done.stdout), (1, b""))
            for part in ("1 expected, 2 found", "rt: the library drive did not build", "program_shiftline is not proved, so it is not run"):
                self.assertIn(part, done.stderr.decode())

    def test_a_source_that_changes_while_it_is_proved_is_proved_again(self):
        self.hold.touch()
        process = self.start("shiftline")
        wait_for(self.calls)
        write(self.root, {"crates/program_shiftline/src/main.rt": "echo new\n"})
        self.hold.unlink()
        self.assertEqual(process.communicate(timeout=TIMEOUT)[0], b"new\n")
        self.assertEqual(self.asked(), 2 * ["run program_shiftline"])


class FirstRun(Case):
    def test_progress_crate_by_crate_and_none_later(self):
        said = self.run_it("shiftline").stderr.decode().splitlines()
        self.assertIn("proving and building it from its 3 crates", said[0])
        self.assertEqual([re.sub(r"\(\d+ s\)$", "(3 s)", one) for one in said[1:]], [
            "shiftline: 1 of 3 crates proved: numbers (3 s)",
            "shiftline: 2 of 3 crates proved: drive (3 s)",
            "shiftline: 3 of 3 crates proved: program_shiftline (3 s)",
            "shiftline: proved and built.",
        ])  # fmt: skip
        self.assertEqual(self.run_it("shiftline").stderr, b"")

    def test_a_crate_that_takes_long_is_no_silence(self):
        self.patience("0.2")
        self.hold.touch()
        process = self.start("shiftline")
        process.stderr.readline()
        self.assertRegex(process.stderr.readline().decode(), r"^shiftline: still at it: 0 of 3 crates after \d+ s\.\n$")
        self.hold.unlink()
        self.assertIn(b"3 of 3 crates proved", process.communicate(timeout=TIMEOUT)[1])

    def test_an_interrupt_ends_all_of_the_build_and_breaks_nothing(self):
        self.hold.touch()
        # The gate starts its tests in the background, where an interrupt is ignored.
        process = self.start("shiftline", start_new_session=True, preexec_fn=lambda: signal.signal(signal.SIGINT, signal.SIG_DFL))
        wait_for(self.calls)
        os.killpg(process.pid, signal.SIGINT)
        said = process.communicate(timeout=TIMEOUT)[1].decode()
        self.assertEqual(process.returncode, 130)
        self.assertIn("shiftline: interrupted", said)
        # The lock is free again: nothing of the build is left, though it still would wait.
        self.hold.unlink()
        done = self.run_it("shiftline", given=tick())
        self.assertEqual((done.returncode, done.stdout), (0, tick()))
        self.assertNotIn("waiting", done.stderr.decode())

    def test_no_kit_is_told(self):
        folders = self.environment["PATH"].split(":")
        self.environment["PATH"] = ":".join(folder for folder in folders if not (Path(folder) / "rt").exists())
        self.told(self.run_it("shiftline"), 2, "the Rattle kit is missing")


class TemporaryFolder(Case):
    def test_any_run_leaves_nothing_there(self):
        self.run_it("shiftline", given=tick())
        self.run_it("shiftline", self.file("shift.txt", b"tick\n"))
        self.run_it("shiftline", self.file("shift.txt", b"bad\n"))
        self.run_it("why", self.file("shift.txt", b"tick\n"), self.file("lines", b"one\r\n"))
        self.run_it("tools/run", "shiftline", given=tick())
        self.assertEqual(list(self.temporary.iterdir()), [])


if __name__ == "__main__":
    unittest.main()
