"""Rewrites what the programs of the gate read and must print: stdin and stdout beside their sources.

What a program must print is worked out from documents 01 and 02 or by the independent model (rudavesh/expected), never by the program.
Needs cargo, which builds the model.
Exit status: 0 rewritten, or with --check all as they would be written; 1 with --check some are not,
or a write failed; 2 wrong use, or no model."""

import sys
from pathlib import Path
from typing import Callable, Dict, List, NamedTuple

from . import model
from .arguments import parser_of
from .expected import Files, benchline, blockline, generated, hall_pairs, judge_example
from .expected import report_lines, served, shiftline_example, splits, why_story
from .places import ROOT, program_folder


class Stored(NamedTuple):
    """Stored files of a program, and what they are made of."""

    files: Callable[[], Files]
    by_the_model: bool


# By the words of programs.txt.
STORED: Dict[str, Stored] = {
    "shiftline": Stored(shiftline_example.files, by_the_model=False),
    "why": Stored(why_story.files, by_the_model=False),
    "benchline": Stored(benchline.files, by_the_model=True),
    "blockline": Stored(blockline.files, by_the_model=True),
    "judge": Stored(judge_example.files, by_the_model=False),
    "splits": Stored(splits.files, by_the_model=True),
    "served": Stored(served.files, by_the_model=True),
    "hall_pairs": Stored(hall_pairs.files, by_the_model=False),
    "report_lines": Stored(report_lines.files, by_the_model=False),
    "generated": Stored(generated.files, by_the_model=True),
}


def wanted(word: str) -> Dict[Path, bytes]:
    """The files of a program as they are to be. What the model gives, it gives when it is built."""
    return {program_folder(word) / name: content for name, content in STORED[word].files().items()}


def stale(word: str) -> List[Path]:
    """The files of a program that are missing or not as they are to be."""
    return [file for file, content in wanted(word).items() if not file.exists() or file.read_bytes() != content]


def main() -> int:
    parser = parser_of("stored", __doc__)
    parser.add_argument("--check", action="store_true", help="rewrite nothing, and name each file that is not as it would be written")
    only_check = parser.parse_args().check
    if not model.can_be_built():
        print(model.NO_CARGO, file=sys.stderr)
        return 2
    model.build()
    found = [file for word in STORED for file in stale(word)]
    if only_check:
        for file in found:
            print(f"{file.relative_to(ROOT)} is not as it would be written: tools/stored rewrites it.")
        return 1 if found else 0
    for word in STORED:
        for file, content in wanted(word).items():
            if file in found:
                file.write_bytes(content)
                print(f"{file.relative_to(ROOT)} is rewritten.")
    return 0
