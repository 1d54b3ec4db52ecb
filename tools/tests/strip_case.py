"""What the tests of `strip` share."""

import re
import unittest
import xml.etree.ElementTree as ElementTree
from typing import List

from .commands import run

SVG = "{http://www.w3.org/2000/svg}"
LEFT, RIGHT = 200.0, 1080.0 - 28.0


class Case(unittest.TestCase):
    def drawn(self, text, *arguments: str) -> ElementTree.Element:
        done = run("strip", text, *arguments)
        self.assertEqual((done.returncode, done.stderr.decode()), (0, ""))
        root = ElementTree.fromstring(done.stdout)
        self.assertEqual(root.tag, SVG + "svg")
        return root

    @staticmethod
    def of_class(root: ElementTree.Element, kind: str) -> List[ElementTree.Element]:
        return [element for element in root.iter() if element.get("class") == kind]

    def hints(self, root: ElementTree.Element, kind: str) -> List[str]:
        return [element.find(SVG + "title").text for element in self.of_class(root, kind)]

    @staticmethod
    def texts(root: ElementTree.Element) -> List[str]:
        return [element.text for element in root.iter(SVG + "text")]

    def levels(self, root: ElementTree.Element, kind: str) -> List[float]:
        """Give the heights that a curve runs through, in order."""
        curves = self.of_class(root, kind)
        self.assertEqual(len(curves), 1)
        return [float(number) for number in re.findall(r"V([0-9.]+)", curves[0].get("d"))]
