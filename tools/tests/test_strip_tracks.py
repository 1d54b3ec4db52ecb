"""Tests of `strip`: the tracks of the chart."""

import unittest

# Document 01's own output, as it is typed there.
from rudavesh.expected.shiftline_example import EARLIER_OUTPUT, OUTPUT as PAPER

from .paper import earlier_line, line
from .strip_case import LEFT, RIGHT, Case


class Tracks(Case):
    def test_the_lines_of_the_paper(self):
        root = self.drawn(PAPER)
        self.assertEqual(sorted(self.hints(root, "state")), [
            "FAULT, 6 to 6", "IDLE, 1 to 1", "OFFSETCAL, 5 to 5", "STOP, 2 to 4"])
        self.assertEqual(self.hints(root, "gate"), ["off, 1 to 6"])
        self.assertEqual(self.hints(root, "live"), ["over-voltage \u00b7 2, 6 to 6"])
        self.assertEqual(self.hints(root, "refusal"), ["cycle or tick in IDLE \u00b7 3, 1 to 1"])
        self.assertEqual([one.text for one in self.of_class(root, "refusal-number")], ["3"])
        self.assertEqual(len(self.of_class(root, "fault")), 1)
        self.assertEqual(self.of_class(root, "long-run"), [])
        self.assertIn("records: 6 \u00b7 trips: 1 \u00b7 refusals: 1", self.texts(root))

    def test_places_of_the_bands(self):
        root = self.drawn(PAPER)
        unit = (RIGHT - LEFT) / 6
        places = {hint.split(",")[0]: (float(band.get("x")), float(band.get("width")))
                  for hint, band in zip(self.hints(root, "state"), self.of_class(root, "state"))}
        for name, first, count in (("IDLE", 0, 1), ("STOP", 1, 3), ("OFFSETCAL", 4, 1),
                                   ("FAULT", 5, 1)):
            self.assertAlmostEqual(places[name][0], LEFT + first * unit, delta=0.02)
            self.assertAlmostEqual(places[name][1], count * unit, delta=0.02)

    def test_all_states_climb_in_rows_of_their_own(self):
        climb = ["IDLE", "STOP", "OFFSETCAL", "BTSCHARGE", "CATCHSPIN", "ANGLESENSING", "PARKING",
                 "OPENLOOP", "MOTORRUN", "FAULT"]
        root = self.drawn("".join(line(state=state) for state in climb))
        bands = self.of_class(root, "state")
        heights = {hint.split(",")[0]: float(band.get("y"))
                   for hint, band in zip(self.hints(root, "state"), bands)}
        self.assertEqual([heights[state] for state in climb],
                         sorted(heights.values(), reverse=True))
        self.assertEqual(len(set(heights.values())), 10)
        self.assertEqual(len({band.get("fill") for band in bands}), 10)

    def test_gates(self):
        root = self.drawn("".join(line(gate=gate) for gate in (0, 1, 1, 2, 3, 0)))
        self.assertEqual(sorted(self.hints(root, "gate")), [
            "brake (low sides on), 5 to 5", "charge, 2 to 3", "drive, 4 to 4",
            "off, 1 to 1", "off, 6 to 6"])

    def test_a_row_for_each_bit_ever_live_with_its_meaning(self):
        meanings = {0: "gate kill", 1: "critical over-voltage", 2: "over-voltage",
                    3: "under-voltage", 4: "flux", 6: "over-temperature", 7: "rotor lock",
                    12: "stored block refused", 14: "Hall time-out", 15: "Hall pattern"}
        for bit, meaning in meanings.items():
            root = self.drawn(line() + line(live=1 << bit) + line())
            self.assertEqual(self.hints(root, "live"), [f"{meaning} \u00b7 {bit}, 2 to 2"])
        root = self.drawn(line(live=0x8004) + line(live=0x0004) + line() + line(live=0x8000))
        self.assertEqual(sorted(self.hints(root, "live")), [
            "Hall pattern \u00b7 15, 1 to 1", "Hall pattern \u00b7 15, 4 to 4",
            "over-voltage \u00b7 2, 1 to 2"])
        self.assertEqual(len({band.get("y") for band in self.of_class(root, "live")}), 2)

    def test_nothing_live_nothing_refused_and_no_bad_sample(self):
        self.assertEqual(self.texts(self.drawn(line())).count("none"), 3)

    def test_dead_and_stray_samples_where_they_happen(self):
        """M-105: each in a row of its own, whatever else the lines show, and counted."""
        root = self.drawn("".join(line(fate=fate) for fate in "F.SDDX.WXB"))
        self.assertEqual(sorted(self.hints(root, "sample")), [
            "dead \u00b7 D, 4 to 5", "stray \u00b7 X, 6 to 6", "stray \u00b7 X, 9 to 9"])
        self.assertEqual(len({band.get("y") for band in self.of_class(root, "sample")}), 2)
        self.assertIn("records: 10 \u00b7 trips: 0 \u00b7 refusals: 0 \u00b7 dead samples: 2 \u00b7 stray samples: 2", self.texts(root))
        unit = (RIGHT - LEFT) / 10
        first = [band for band, hint in zip(self.of_class(root, "sample"), self.hints(root, "sample")) if "9 to 9" in hint]
        self.assertAlmostEqual(float(first[0].get("x")), LEFT + 8 * unit, delta=0.02)

    def test_lines_of_an_earlier_board(self):
        """They are drawn as before, and what they do not tell is said."""
        root = self.drawn(EARLIER_OUTPUT)
        self.assertEqual(self.hints(root, "state"), self.hints(self.drawn(PAPER), "state"))
        self.assertIn("not told by these lines", self.texts(root))
        self.assertEqual(self.of_class(root, "sample"), [])
        # a board that got its new firmware in mid-log
        both = self.drawn(earlier_line() + line(fate="D") + earlier_line())
        self.assertEqual(self.hints(both, "sample"), ["dead \u00b7 D, 2 to 2"])
        self.assertNotIn("not told by these lines", self.texts(both))

    def test_speed_reference_goes_up_for_more(self):
        root = self.drawn("".join(line(reference=value) for value in (0, 600, -300, 300)))
        zero, most, least, middle = self.levels(root, "reference")
        self.assertTrue(most < middle < zero < least)
        self.assertAlmostEqual(zero - middle, (zero - most) / 2, delta=0.2)
        self.assertAlmostEqual(least - zero, zero - middle, delta=0.2)

    def test_position_is_the_signed_difference_from_the_first(self):
        near_the_end = self.drawn("".join(line(position=one) for one in (1, 0, -1, -2, 3)))
        in_the_middle = self.drawn("".join(line(position=one) for one in (501, 500, 499, 498, 503)))
        self.assertEqual(self.levels(near_the_end, "position"),
                         self.levels(in_the_middle, "position"))
        first, second, _, fourth, last = self.levels(near_the_end, "position")
        self.assertTrue(last < first < second < fourth)
        self.assertIn("-3", self.texts(near_the_end))
        self.assertIn("2", self.texts(near_the_end))

    def test_refusals_next_to_each_other(self):
        root = self.drawn(line() + line(1) + line(1) + line(4) + line() + line(15))
        self.assertEqual(sorted(self.hints(root, "refusal")), [
            "field out of range \u00b7 1, 2 to 3", "load while not stopped \u00b7 4, 4 to 4",
            "refused \u00b7 F, 6 to 6"])
        self.assertEqual(sorted(one.text for one in self.of_class(root, "refusal-number")),
                         ["1", "4", "F"])
        self.assertIn("records: 6 \u00b7 trips: 0 \u00b7 refusals: 4", self.texts(root))
