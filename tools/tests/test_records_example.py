"""Tests of examples/: their records, and the states told in their comments, by the independent model or, with SHIFTLINE=/path/to/shiftline
and BENCHLINE=/path/to/benchline, by these programs."""

import os
import re
import subprocess
import unittest
from pathlib import Path
from typing import Callable, List, Tuple

from rudavesh import model
from rudavesh.places import ROOT

from .commands import TIMEOUT, run
from .paper import block_load
from .records_case import Case

EXAMPLES = ROOT / "examples"
SIZES = {"L": 49, "M": 51, "C": 6, "T": 20}


# Document 01, by their numbers.
STATES = "IDLE STOP OFFSETCAL BTSCHARGE MOTORRUN FAULT CATCHSPIN PARKING OPENLOOP ANGLESENSING".split()


def by_program(name: str, by_model: Callable[[bytes], bytes], records: bytes) -> List[str]:
    """The lines of the program that the environment names, where it does, or of the model."""
    program = os.environ.get(name)
    if not program:
        model.build()
        return by_model(records).decode("ascii").splitlines()
    done = subprocess.run([program], input=records, stdout=subprocess.PIPE, timeout=TIMEOUT, check=False)
    return done.stdout.decode("ascii").splitlines()


def lines_of(records: bytes) -> List[str]:
    return by_program("SHIFTLINE", model.lines, records)


def bench_lines_of(records: bytes) -> List[List[str]]:
    return [line.split() for line in by_program("BENCHLINE", model.bench_lines, records)]


def answers_of(file: Path, records: bytes) -> List[Tuple[int, str]]:
    """Number and state after each record of an example. Loads of blocks are for benchline alone."""
    if re.search(r"^block ", file.read_text(), re.M):
        return [(int(words[0]), STATES[int(words[2])]) for words in bench_lines_of(records)]
    return [(int(line[0], 16), line[2:14].rstrip(".")) for line in lines_of(records)]


class Example(Case):
    def records(self, file: Path) -> bytes:
        """By its name, as people give it: a path in it begins at its folder."""
        done = run("records", "", str(file))
        self.assertEqual((done.returncode, done.stderr), (0, b""), file)
        return done.stdout


class Records(Example):
    def letters(self, name: str) -> str:
        written = self.records(EXAMPLES / name)
        place, letters = 0, ""
        while place < len(written):
            letters += chr(written[place])
            place += SIZES[letters[-1]]
        self.assertEqual(place, len(written))
        return letters

    def test_of_the_shift(self):
        letters = self.letters("shift.txt")
        self.assertTrue(letters.startswith("CLT" + 64 * "C" + "TT"))
        # The trip, 9,999 ticks of waiting, the retry and the start it permits.
        self.assertIn("T" + 9999 * "T" + "TT" + "CCC", letters)

    def test_of_the_small_pump(self):
        letters = self.letters("small-pump.txt")
        self.assertTrue(letters.startswith("MMT" + 64 * "C" + "TT"))
        self.assertNotIn("L", letters)

    def test_of_the_cold_start(self):
        letters = self.letters("cold-start.txt")
        # 300 held ticks, one that is not, 499 and the one that trips: a cycle before each but the last and the one between.
        self.assertIn(300 * "CT" + "T" + 499 * "CT" + "T" + 9999 * "T", letters)

    def test_of_the_blocks(self):
        image = (EXAMPLES / "pumps.image").read_bytes()
        first = block_load(0, (EXAMPLES / "pumps/small.txt").read_bytes())
        self.assertTrue(self.records(EXAMPLES / "blocks.txt").startswith(first + block_load(15, image) + block_load(1, image)))


@unittest.skipUnless(os.environ.get("SHIFTLINE") and os.environ.get("BENCHLINE") or model.can_be_built(),
                     f"SHIFTLINE or BENCHLINE names no program, and {model.NO_CARGO}")  # fmt: skip
class Told(Example):
    def test_the_states_told_in_the_comments_and_the_refusals(self):
        for file in sorted(EXAMPLES.glob("*.txt")):
            with self.subTest(example=file.name):
                text = file.read_text()
                answers = answers_of(file, self.records(file))
                told = self.told(text)
                self.assertEqual(len(answers), len(told))
                for number, (answer, state) in enumerate(zip(answers, told), start=1):
                    self.assertIn(state, (None, answer[1]), f"record {number}: {answer}")
                refusals = [int(number) for number in re.findall(r"refused with (\d)", text)]
                self.assertEqual([number for number, _ in answers if number], refusals)

    def test_the_blocks_show_flag_12_from_the_refused_block_to_the_accepted_one(self):
        """M-102: "A body that it finds and load's own rules refuse in IDLE also sets flag 12, always live, until a load of either kind is
        accepted". """
        live = [words[4] for words in bench_lines_of(self.records(EXAMPLES / "blocks.txt"))]
        self.assertEqual(live[:8], ["0", "0", "0", "4096", "4096", "4096", "4096", "0"])
        self.assertEqual(set(live[7:]), {"0"})

    def test_the_cold_start_trips_by_flag_7_alone_at_the_500th_held_tick_in_a_row(self):
        """M-103: "the range is every absolute speed up to 4095", "for 10 x RotorLockTime consecutive ticks", with RotorLockTime 50."""
        lines = lines_of(self.records(EXAMPLES / "cold-start.txt"))
        live = [line[17:21] for line in lines]
        self.assertEqual(set(live), {"0000", "0080"})
        first = live.index("0080")
        # 76 records to MOTORRUN, 20 free ticks, 300 held ones with a cycle each, one free, 499 held ones with a cycle each
        self.assertEqual(first, 76 + 20 + 600 + 1 + 998)
        self.assertEqual(lines[first][:21], "0 FAULT....... 0 0080")

    def test_the_small_pump_counts_six_a_turn_either_way(self):
        """M-101: "a full turn is six counts either way", by 1, 2, 1 and 2 from pattern 0 on."""
        lines = lines_of(self.records(EXAMPLES / "small-pump.txt"))
        shown = [int(line[29:37], 16) for line in lines]
        positions = [shown[0]] + [after for before, after in zip(shown, shown[1:]) if after != before]
        up = [6 * turn + step for turn in range(5) for step in (0, 1, 3, 4)]
        # Five turns up, one down, a step over 0/1; the plug; two turns from pattern 2 on, by 2, 1, 2 and 1.
        self.assertEqual(positions, [*up, 30, 28, 27, 25, 24, 25, 27, 28, 30, 31, 33, 34, 36, 37])

    def test_the_loose_plug_shows_the_letters_told_in_its_comments(self):
        """M-105: "(F, S, W, B, D, X, or a full stop otherwise)": the letter behind the state, and every letter is told of some record."""
        file = EXAMPLES / "loose-plug.txt"
        lines = lines_of(self.records(file))
        told = self.told(file.read_text(), "[A-Z]{4,}: ([FSWBDX])\\b")
        self.assertEqual(len(lines), len(told))
        self.assertEqual({letter for letter in told if letter}, set("FSWBDX"))
        for number, (line, letter) in enumerate(zip(lines, told), start=1):
            self.assertEqual(len(line), 46)
            self.assertIn(letter, (None, line[-1]), f"record {number}: {line}")

    @staticmethod
    def told(text: str, pattern: str = "([A-Z]{4,})") -> list:
        """Give for each record what its comment begins with, the first word, or None."""
        blocks = [(1, [])]
        for line in text.splitlines():
            record, _, comment = line.partition("#")
            words = record.split()
            count = int(words[1]) if words[:1] == ["repeat"] else 1
            if words[-1:] == ["{"]:
                blocks.append((count, []))
            elif words == ["}"]:
                times, states = blocks.pop()
                blocks[-1][1].extend(times * states)
            elif words:
                begun = re.match(pattern, comment.strip())
                blocks[-1][1].extend(count * [begun and begun[1]])
        return blocks[0][1]
