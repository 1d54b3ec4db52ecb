"""What the tests of `records` share."""

import re
import unittest

from .commands import run


class Case(unittest.TestCase):
    def written(self, text) -> bytes:
        done = run("records", text)
        self.assertEqual((done.returncode, done.stderr.decode()), (0, ""), text)
        return done.stdout

    def refused(self, text) -> list:
        """Give the errors of a text as (line, column, message)."""
        done = run("records", text)
        self.assertEqual(done.returncode, 1, text)
        self.assertEqual(done.stdout, b"", text)
        errors = []
        for line in done.stderr.decode().splitlines():
            match = re.fullmatch(r"<stdin>:(\d+):(\d+): (.+)", line)
            self.assertIsNotNone(match, line)
            errors.append((int(match[1]), int(match[2]), match[3]))
        return errors
