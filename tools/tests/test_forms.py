"""Tests of what the tools share: the records' form, the line's form, the lists of crates and programs."""

import unittest

from rudavesh import line_form, places, record_form, strip
from rudavesh.expected.shiftline_example import EARLIER_OUTPUT, OUTPUT

from .paper import PAPER_LOAD, SETTINGS, TICK_FIELDS, cycle, earlier_line, line, load, load_with_sensors, tick


class RecordForm(unittest.TestCase):
    def test_kinds_as_the_paper_has_them(self):
        self.assertEqual([(kind.letter, kind.size) for kind in record_form.ALL_KINDS], [("L", 49), ("M", 51), ("C", 6), ("T", 20)])
        self.assertEqual([one.name for one in record_form.LOAD.fields], SETTINGS)
        self.assertEqual([one.name for one in record_form.LOAD_WITH_SENSORS.fields], [*SETTINGS, "sensors"])
        self.assertEqual([one.name for one in record_form.TICK.fields], TICK_FIELDS)

    def test_bytes(self):
        self.assertEqual(record_form.LOAD.packed(*record_form.LOAD.defaults), load(*PAPER_LOAD))
        with_sensors = record_form.LOAD_WITH_SENSORS
        self.assertEqual(with_sensors.packed(*with_sensors.defaults), load_with_sensors(*PAPER_LOAD, 3))
        self.assertEqual(record_form.CYCLE.packed(3, 1, 2), cycle(3, 1, 2))
        self.assertEqual(record_form.TICK.packed(*record_form.TICK.defaults), tick())

    def test_records_are_told_apart(self):
        records = [load(*PAPER_LOAD), load_with_sensors(*PAPER_LOAD, 2), cycle(3, 1, 2), tick()]
        whole = b"".join(records)
        self.assertEqual(record_form.whole_records(whole), records)
        self.assertEqual(record_form.whole_records(whole[:-1]), records[:-1])
        self.assertEqual(record_form.whole_records(records[1][:-1]), [])
        self.assertEqual(record_form.whole_records(records[1] + b"X" + whole), records[1:2])
        self.assertEqual(record_form.whole_records(b""), [])

    def test_a_default_keeps_its_rule_and_a_relation_names_a_setting(self):
        for kind in record_form.ALL_KINDS:
            values = dict(zip((one.name for one in kind.fields), kind.defaults))
            for one in kind.fields:
                self.assertTrue(one.allows(one.default), one.name)
                if one.relation:
                    self.assertTrue(one.relation.holds(one.default, values[one.relation.other]), one.name)

    def test_relations_at_their_edge(self):
        below, further, not_below = record_form.below("x"), record_form.below("x", by=64), record_form.not_below("x")
        self.assertEqual([below.holds(value, 70) for value in (69, 70)], [True, False])
        self.assertEqual([further.holds(value, 70) for value in (6, 7)], [True, False])
        self.assertEqual([not_below.holds(value, 70) for value in (69, 70)], [False, True])


class LineForm(unittest.TestCase):
    def test_length(self):
        self.assertEqual(line_form.LENGTH, 47)
        self.assertEqual({len(text) for text in OUTPUT.splitlines(keepends=True)}, {47})
        self.assertEqual({len(text) for text in EARLIER_OUTPUT.splitlines(keepends=True)}, {45})

    def test_what_is_read_is_written(self):
        for text in [*OUTPUT.splitlines(keepends=True), line(15, "ANGLESENSING", 3, 0xBEEF, -32768, 0xDEADBEEF, -1)]:
            self.assertEqual(line_form.written(line_form.read(text.rstrip("\n"))), text)

    def test_each_column(self):
        self.assertEqual(line_form.read(line(1, "FAULT", 3, 0x8002, -5, -1, 7).rstrip("\n")),
                         line_form.Report(1, "FAULT", 3, 0x8002, -5, 2**32 - 1, 7, "."))  # fmt: skip

    def test_each_letter(self):
        """M-105: "(F, S, W, B, D, X, or a full stop otherwise)"."""
        for fate in "FSWBDX.":
            self.assertEqual(line_form.read(line(fate=fate).rstrip("\n")).fate, fate)
        for other in "fwsAE 0":
            self.assertIsNone(line_form.read(line(fate=other).rstrip("\n")), other)

    def test_a_line_of_an_earlier_board(self):
        """It has no letter, and is written with the full stop."""
        report = line_form.read(earlier_line(2, "FAULT", 0, 4, 5, 6, 7).rstrip("\n"))
        self.assertEqual(report, line_form.Report(2, "FAULT", 0, 4, 5, 6, 7, line_form.UNTOLD))
        self.assertEqual(line_form.written(report), line(2, "FAULT", 0, 4, 5, 6, 7, "."))
        for text in (earlier_line().rstrip("\n") + " ", line()[:-2], earlier_line().rstrip("\n") + "."):
            self.assertIsNone(line_form.read(text), text)

    def test_a_line_of_another_form_beside_these(self):
        """As a later board may print it; an earlier log is still read."""
        longer = line_form.Form(*line_form.FORM_OF_47_BYTES.columns, line_form.Column("mark", 1, "[01]", int, str))
        self.assertEqual(longer.length, 49)
        self.assertIsNotNone(longer.pattern.fullmatch(line().rstrip("\n") + " 1"))
        self.assertIsNone(longer.pattern.fullmatch(line().rstrip("\n")))
        self.assertIsNone(line_form.read(line().rstrip("\n") + " 1"))

    def test_strip_draws_every_state_and_gate(self):
        self.assertEqual(sorted(strip.STATES), sorted(line_form.STATES))
        self.assertEqual(sorted(strip.GATES), list(range(len(line_form.GATES))))


class Places(unittest.TestCase):
    def test_every_program_is_listed_and_there(self):
        crates = places.crates_of(places.ROOT)
        for word in places.listed((places.TOOLS / "programs.txt").read_text()):
            folder = places.program_folder(word)
            self.assertIn(folder.name, crates, word)
            self.assertTrue((folder / "src" / "main.rt").exists(), word)
