"""No file names a folder of the machine that it was written on."""

import os
import re
import unittest
from pathlib import Path

from rudavesh.places import ROOT

FOLDERS = re.compile(rb"/(?:home|root|tmp|work|opt|srv|mnt|Users)/\w[^\n]{0,60}")
# What is built there is not looked into: a gate may be building at this moment.
MADE = {"target", "out", ".git", "__pycache__"}
# The functions of this name have folders of proofs in the one file that tells of them.
HOME = {"wip/M-106.patch": re.compile(rb"\b(?:Drive|Onlooker|Heard)/home/")}


def files():
    for folder, folders, names in os.walk(ROOT):
        folders[:] = sorted(set(folders) - MADE)
        yield from (Path(folder) / name for name in names)


class NoMachine(unittest.TestCase):
    def test_no_path_of_a_machine_stands_in_any_file(self):
        found = []
        for file in files():
            name, text = str(file.relative_to(ROOT)), file.read_bytes()
            text = HOME[name].sub(b"", text) if name in HOME else text
            found += [(name, path) for path in FOLDERS.findall(text)]
        self.assertEqual(found, [])


if __name__ == "__main__":
    unittest.main()
