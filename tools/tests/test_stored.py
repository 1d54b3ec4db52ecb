"""What the programs of the gate read and must print is as tools/stored writes it."""

import re
import unittest

from rudavesh import model, places, stored
from rudavesh.expected import blockline, shiftline_example, why_story


class StoredFiles(unittest.TestCase):
    @classmethod
    def setUpClass(cls):
        if model.can_be_built():
            model.build()

    def test_each_is_as_it_would_be_written(self):
        for word, files in stored.STORED.items():
            with self.subTest(program=word):
                if files.by_the_model and not model.can_be_built():
                    self.skipTest(f"what {word} must print is given by the model: {model.NO_CARGO}")
                for file in stored.stale(word):
                    self.fail(f"{file.relative_to(places.ROOT)} is not as it would be written: run tools/stored and look at the change.")

    @unittest.skipUnless(model.can_be_built(), model.NO_CARGO)
    def test_what_is_typed_for_shiftline_is_what_the_model_says(self):
        files = shiftline_example.files()
        self.assertEqual(model.lines(files["stdin"]).decode().splitlines(), files["stdout"].decode().splitlines())

    @unittest.skipUnless(model.can_be_built(), model.NO_CARGO)
    def test_what_is_worked_out_for_blockline_is_what_the_model_says(self):
        files = blockline.files()
        self.assertEqual(model.block_lines(files["stdin"]).decode().splitlines(), files["stdout"].decode().splitlines())

    @unittest.skipUnless(model.can_be_built(), model.NO_CARGO)
    def test_what_is_typed_for_why_is_refused_by_the_model_and_nothing_else(self):
        """Number and place of each refusal that the story tells, at its record."""
        story = why_story.told()
        told = [re.match(r"record (\d+) +\w+ refused: number (\d), place (\d+):", sentence) for sentence in story.sentences]
        expected = [tuple(map(int, match.groups())) for match in told if match]
        lines = model.bench_lines(b"".join(story.records)).decode().splitlines()
        answers = [(record, *map(int, line.split()[:2])) for record, line in enumerate(lines, 1)]
        self.assertEqual([answer for answer in answers if answer[1]], expected)

    def test_no_stored_output_without_its_maker(self):
        made = {places.program_folder(word) for word in stored.STORED}
        found = {file.parent for name in ("stdin", "stdout") for file in places.ROOT.glob(f"crates/*/{name}")}
        self.assertEqual(found, made)
