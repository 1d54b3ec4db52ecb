"""Tests of `strip --why`: starts, stops, trips and exits from FAULT are marked at their records, with their reasons."""

import tempfile
import unittest
from pathlib import Path

from rudavesh.places import crate_folder
from rudavesh.strip_marks import LINE

from .commands import run
from .paper import line
from .strip_case import LEFT, RIGHT, SVG, Case

# A start, a trip, a long wait in FAULT, a retry, a start and a stop; as lines, and as `./why` tells them.
LINES = (line() + 3 * line(state="BTSCHARGE", gate=1) + 10 * line(state="MOTORRUN", gate=2) + 10_000 * line(state="FAULT", live=4) + line()
         + 3 * line(state="BTSCHARGE", gate=1) + 4 * line(state="MOTORRUN", gate=2) + line())  # fmt: skip
WHY = """\
record 1      loaded: mode 1, 2 retries allowed
record 2      start: permitted by the low command at record 1
record 15     trip: VdcFilt above VdcOvLevel (bit 2)
record 10015  FAULT left: timed retry 1 of 2; no live cause stood
record 10016  start: permitted by the timed retry at record 10015; no low was held since the trip
record 10016  gates: charge
record 10023  stop: low command
"""
WIDE = 6.5  # no letter of this size is wider on average


class Marks(Case):
    def marked(self, lines: str, why: str, *arguments: str):
        with tempfile.TemporaryDirectory() as folder:
            file = Path(folder) / "why"
            file.write_bytes(why.encode())
            return self.drawn(lines, "--why", str(file), *arguments)

    def places(self, root, kind):
        """Where the strokes of a kind stand."""
        return [float(one.find(SVG + "path").get("d")[1:].split()[0]) for one in self.of_class(root, f"mark-{kind}")]

    def test_each_stands_where_its_record_begins(self):
        root = self.marked(LINES, WHY)
        bands = {hint: float(band.get("x")) for hint, band in zip(self.hints(root, "state"), self.of_class(root, "state"))}
        for kind, starts in (("start", ("BTSCHARGE, 2 to 4", "BTSCHARGE, 10,016 to 10,018")), ("trip", ("FAULT, 15 to 10,014",)),
                             ("exit", ("STOP, 10,015 to 10,015",)), ("stop", ("STOP, 10,023 to 10,023",))):  # fmt: skip
            places = self.places(root, kind)
            self.assertEqual(len(places), len(starts))
            for place, band in zip(places, starts):
                self.assertAlmostEqual(place, bands[band], delta=0.02)

    def test_each_tells_its_reason_beside_it_and_to_whoever_points_at_it(self):
        root = self.marked(LINES, WHY)
        self.assertEqual([one.text for one in self.of_class(root, "why")], [
            "2 start: permitted by the low command at record 1",
            "15 trip: VdcFilt above VdcOvLevel (bit 2)",
            "10,015 FAULT left: timed retry 1 of 2; no live cause stood",
            "10,016 start: permitted by the timed retry at record 10015; no low was held since the trip",
            "10,023 stop: low command",
        ])  # fmt: skip
        self.assertEqual(self.hints(root, "mark-trip"), ["record 15: trip: VdcFilt above VdcOvLevel (bit 2)"])
        for word in ("start", "stop", "trip", "FAULT left"):
            self.assertIn(word, self.hints(root, "legend"))

    def test_a_trip_by_the_record_before_is_a_trip(self):
        root = self.marked(LINES, "record 15     trip by record 14: two dead Hall samples (bit 15)\n")
        self.assertEqual(self.hints(root, "mark-trip"), ["record 15: trip by record 14: two dead Hall samples (bit 15)"])

    def boxes(self, root):
        """Left, right and height of each reason."""
        for one in self.of_class(root, "why"):
            x, width = float(one.get("x")), WIDE * len(one.text)
            yield (x - width, x, one.get("y")) if one.get("text-anchor") == "end" else (x, x + width, one.get("y"))

    def test_no_reason_lies_on_another_or_outside(self):
        lines = "".join(line(state="STOP") + line(state="BTSCHARGE", gate=1) for _ in range(40))
        why = "".join(f"record {2 * k}  start: permitted by the low command at record {2 * k - 1}\n" for k in range(1, 41))
        for arguments in ((), ("--width", "400")):
            boxes = list(self.boxes(self.marked(lines, why, *arguments)))
            self.assertEqual(len(boxes), 40)
            for index, (left, right, height) in enumerate(boxes):
                self.assertGreaterEqual(left, 20)
                self.assertLessEqual(right, 1080 if not arguments else 400)
                for other_left, other_right, other_height in boxes[:index]:
                    self.assertTrue(height != other_height or right <= other_left or other_right <= left)

    def test_of_very_many_the_first_are_told_and_the_others_are_counted(self):
        lines = "".join(line(state="STOP") + line(state="BTSCHARGE", gate=1) for _ in range(1500))
        why = "".join(f"record {2 * k}  start: permitted by the low command at record {2 * k - 1}\n" for k in range(1, 1501))
        root = self.marked(lines, why)
        self.assertEqual(len(self.of_class(root, "why")), 40)
        self.assertEqual([one.text for one in self.of_class(root, "why-more")], ["and 1,460 more: point at a mark"])
        self.assertLess(len(self.of_class(root, "mark-start")), 1000)
        self.assertLessEqual(max(self.places(root, "start")), RIGHT)
        self.assertGreaterEqual(min(self.places(root, "start")), LEFT)

    def test_windows_ends_and_reasons_by_standard_input(self):
        with tempfile.TemporaryDirectory() as folder:
            file = Path(folder) / "lines"
            file.write_text(LINES.replace("\n", "\r\n"), newline="")
            root = self.drawn(WHY.replace("\n", "\r\n"), str(file), "--why", "-")
        self.assertEqual(len(self.of_class(root, "why")), 5)

    def test_the_lines_that_why_prints_have_the_form(self):
        file = crate_folder("program_why") / "stdout"
        if not file.exists():
            self.skipTest("there is no program_why yet")
        for text in file.read_text().splitlines():
            self.assertTrue(LINE.fullmatch(text), text)

    def test_nothing_happened(self):
        for why in ("", "record 1      loaded: mode 1, 2 retries allowed\n"):
            self.assertIn("no start, stop, trip or exit from FAULT", self.texts(self.marked(LINES, why)))

    def test_without_reasons_there_is_no_track_of_them(self):
        self.assertNotIn("Why", self.texts(self.drawn(LINES)))


class WrongReasons(Case):
    def told(self, why: bytes, status: int, part: str, *arguments: str) -> None:
        with tempfile.TemporaryDirectory() as folder:
            file = Path(folder) / "why"
            file.write_bytes(why)
            done = run("strip", line(), "--why", *(arguments or [str(file)]))
        self.assertEqual((done.returncode, done.stdout), (status, b""))
        self.assertIn(part, done.stderr.decode())

    def test_each_is_told(self):
        self.told(b"hello\n", 1, ":1: not what ./why prints: 'hello'")
        self.told(line().encode(), 1, ":1: not what ./why prints")
        self.told(b"record 1  stop: low command\nrecord 2  stop: low command\n", 1, ":2: there is no report line of record 2")
        self.told(b"record 0  stop: low command\n", 1, ":1: there is no report line of record 0")
        self.told("record 1  stop: low command\n".encode("utf-16"), 2, "is text in UTF-16")
        self.told(b"", 2, "cannot both come by standard input", "-")
        self.told(b"", 2, "No such file", "/no/such/file")


class LinesOfOthers(Case):
    def test_windows_ends_and_the_mark_of_utf8_are_taken(self):
        for text in (LINES.replace("\n", "\r\n"), "\ufeff" + LINES):
            self.assertEqual(run("strip", text).stdout, run("strip", LINES).stdout)

    def test_utf16_is_told_once(self):
        for form in ("utf-16", "utf-16-le"):
            done = run("strip", LINES.encode(form))
            self.assertEqual((done.returncode, done.stdout, done.stderr),
                             (2, b"", b"strip: <stdin> is text in UTF-16: save it as UTF-8, and give that.\n"))  # fmt: skip


if __name__ == "__main__":
    unittest.main()
