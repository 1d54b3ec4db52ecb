"""Tests of `strip`: long runs, and the picture as a whole."""

import re
import unittest
import xml.etree.ElementTree as ElementTree

# Document 01's own output, as it is typed there.
from rudavesh.expected.shiftline_example import OUTPUT as PAPER

from .commands import run
from .paper import line
from .strip_case import LEFT, RIGHT, SVG, Case


class LongRuns(Case):
    def test_a_long_run_is_drawn_short_and_labelled(self):
        text = (line(state="MOTORRUN", gate=2) + 9998 * line(state="FAULT", live=4)
                + line(state="STOP"))
        root = self.drawn(text)
        self.assertEqual(self.hints(root, "long-run"), ["9,998 equal lines"])
        self.assertEqual([label.text for label in self.of_class(root, "long-run-label")],
                         ["\u00d7 9,998"])
        fault = [band for band, hint in zip(self.of_class(root, "state"), self.hints(root, "state"))
                 if hint == "FAULT, 2 to 9,999"]
        # It takes the place of 20 records, beside the two others.
        self.assertEqual(len(fault), 1)
        self.assertAlmostEqual(float(fault[0].get("width")), (RIGHT - LEFT) * 20 / 22, delta=0.02)
        self.assertEqual(fault[0].get("width"), self.of_class(root, "long-run")[0].get("width"))
        self.assertIn("10,000", self.texts(root))       # the axis goes on counting behind it

    def test_twenty_equal_lines_are_not_yet_long(self):
        for count, found in ((20, 0), (21, 1)):
            root = self.drawn(line(position=1) + count * line() + line(position=1))
            self.assertEqual(len(self.of_class(root, "long-run")), found)
            unit = (RIGHT - LEFT) / 22      # either way as wide as 20 records, and two more
            self.assertRegex(self.of_class(root, "position")[0].get("d"),
                             f"H{LEFT + unit:.2f}V[0-9.]+H{RIGHT - unit:.2f}V[0-9.]+H{RIGHT:.2f}$")
        root = self.drawn(line(position=1) + 6 * line(), "--longest", "5")
        self.assertEqual(self.hints(root, "long-run"), ["6 equal lines"])

    def test_among_many_records_it_keeps_room_for_its_label(self):
        text = "".join(line(position=step) for step in range(2000)) + 500 * line(state="FAULT")
        root = self.drawn(text)
        self.assertEqual(self.of_class(root, "long-run")[0].get("width"), "64.00")
        self.assertEqual(len(self.of_class(root, "long-run-label")), 1)

    def test_letters_of_good_samples_do_not_break_a_run(self):
        """A shaft that stands: a cycle, a tick, a cycle. A dead sample among them does."""
        root = self.drawn(50 * (line(fate="S") + line()) + line(fate="D") + 30 * line(fate="S"))
        self.assertEqual(self.hints(root, "long-run"), ["100 equal lines", "30 equal lines"])

    def test_a_line_that_is_none_is_told_by_its_number(self):
        done = run("strip", line() + line() + line(fate="Q"))
        self.assertEqual(done.returncode, 1)
        self.assertIn(b"<stdin>:3: not a report line", done.stderr)

    def test_lines_that_differ_in_the_angle_alone_are_not_equal(self):
        root = self.drawn(11 * line(angle=1) + 11 * line(angle=-1))
        self.assertEqual(self.of_class(root, "long-run"), [])
        self.assertEqual(self.hints(root, "state"), ["STOP, 1 to 22"])

    def test_many_long_runs_stay_within_the_picture(self):
        text = "".join(30 * line(reference=value) for value in range(300)) + line(reference=5)
        root = self.drawn(text)
        runs = self.of_class(root, "long-run")
        self.assertEqual(len(runs), 300)
        self.assertEqual(self.of_class(root, "long-run-label"), [])
        self.assertLessEqual(max(float(run.get("x")) + float(run.get("width")) for run in runs),
                             RIGHT + 0.02)

    def test_a_label_without_room_is_rounded(self):
        text = "".join(9998 * line(position=step) + 21 * line(reference=step, position=step + 1)
                       for step in range(0, 30, 2)) + 50 * line(gate=1)
        root = self.drawn("".join(line(angle=step) for step in range(100)) + text)
        labels = [label.text for label in self.of_class(root, "long-run-label")]
        self.assertEqual(labels, [])
        root = self.drawn(text, "--width", "1500")
        labels = [label.text for label in self.of_class(root, "long-run-label")]
        self.assertEqual(labels, 15 * ["\u00d710k", "\u00d7 21"] + ["\u00d7 50"])

    def test_a_long_file_gives_a_small_picture(self):
        states = ("STOP", "FAULT", "MOTORRUN")
        spikes = {7002: 5000, 20002: -5000}
        text = "".join(line(state=states[step % 3], reference=spikes.get(step, 0), position=step)
                       for step in range(30000))
        done = run("strip", text)
        self.assertEqual(done.returncode, 0)
        root = ElementTree.fromstring(done.stdout)
        self.assertLess(len(self.of_class(root, "state")), 3000)
        self.assertGreater(len(self.of_class(root, "state")), 900)
        # A single record that stands out is still seen, upwards and downwards.
        levels = self.levels(root, "reference")
        self.assertAlmostEqual(levels[0] - min(levels), 42, delta=0.2)
        self.assertAlmostEqual(max(levels) - levels[0], 42, delta=0.2)
        self.assertLess(len(levels), 6000)


class Picture(Case):
    def test_bands_lie_within_the_plot_and_the_picture(self):
        root = self.drawn(PAPER + 100 * line(state="FAULT"))
        for kind in ("state", "gate", "live", "refusal", "panel", "fault", "long-run"):
            for band in self.of_class(root, kind):
                left, width = float(band.get("x")), float(band.get("width"))
                self.assertGreater(width, 0)
                self.assertGreaterEqual(left, LEFT)
                self.assertLessEqual(left + width, RIGHT + 0.02)
                self.assertLess(float(band.get("y")) + float(band.get("height")),
                                float(root.get("height")))

    def test_size_and_title(self):
        root = self.drawn(PAPER, "--title", "Pump <4> & more", "--width", "800")
        self.assertEqual((root.get("width"), root.get("viewBox").split()[2]), ("800", "800"))
        self.assertEqual(root.find(SVG + "title").text, "Pump <4> & more")
        self.assertIn("Pump <4> & more", self.texts(root))

    def test_nothing_is_fetched_from_elsewhere(self):
        text = run("strip", PAPER).stdout.decode()
        self.assertEqual(re.findall(r"https?://[^\"]*", text), ["http://www.w3.org/2000/svg"])
        self.assertNotRegex(text, "href|<script|<style|<image|@import")
        self.assertEqual(set(re.findall(r"url\(([^)]*)\)", text)), {"#hatch"})
