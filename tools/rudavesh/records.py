"""tools/records: turns the readable text form into binary records."""

import argparse
import sys
from pathlib import Path
from typing import List

from .arguments import parser_of
from .record_form import KINDS, LOAD, LOAD_WITH_SENSORS, TICK
from .records_text import BLOCK, BLOCK_LETTER, Error, read_text, write_text
from .text_file import UTF16, is_utf16, printable

MOST_ERRORS_SHOWN = 20
# What people read of it in --help.
DESCRIPTION = f"""The text has one record to a line; '#' begins a comment:

  load ControlMode=1 TCatchSpin=5   settings by name, or all {len(LOAD.fields)} as plain numbers: record {LOAD.letter}
  load sensors=2 TCatchSpin=5       with sensors, or {len(LOAD_WITH_SENSORS.fields)} plain numbers: record {LOAD_WITH_SENSORS.letter}
  load TCatchSpin=5                 a load goes on in the lines behind it
    ParkTime=5                      that begin with NAME=VALUE
  cycle 3 2048 2048                 plain numbers, or pattern=3 first=2048 second=2048
  tick command=1 speed=600          by name, or all {len(TICK.fields)} as plain numbers
  block 3 pumps.image               load of block 3 of this image, a path from the folder of the text;
                                    only ./benchline takes it: record {BLOCK_LETTER} is unknown to
                                    ./shiftline and ./why, which end with number 6
  raw 58 01                         bytes as they are, in hexadecimal
  repeat 10000 tick speed=0         the same record many times
  repeat 3 {{                        all up to its }} many times; repeats may nest
    cycle 3
    tick
  }}

{', '.join(kind.letter for kind in KINDS[:-1])} and {KINDS[-1].letter} stand for \
{', '.join(kind.word for kind in KINDS[:-1])} and {KINDS[-1].word}, {LOAD_WITH_SENSORS.letter} for a load with sensors,
which {LOAD.letter} with sensors becomes, too, and {BLOCK_LETTER} for {BLOCK}.
Case, '_' and '-' in names do not matter.
Numbers are decimal or 0x hexadecimal. A value that fits the bytes of its record is
written even where the paper forbids it: refusing it is the supervisor's work.
An error is told as FILE:LINE:COLUMN: and leaves standard output empty.
Exit status: 0 written, or until whoever reads had enough; 1 errors in the text, or a write that
failed; 2 wrong use, an unreadable file, or text in UTF-16.
"""


def arguments() -> argparse.ArgumentParser:
    """The command line, and its help with a table for each kind of record."""
    tables = [
        f"\n{kind.word} ({' or '.join(one.letter for one in (kind, kind.wider) if one)}), in order. {kind.note}\n"
        + "\n".join(f"  {one.name:<18}{one.default:>6}   {one.paper}" for one in (kind.wider or kind).fields)
        for kind in KINDS
    ]
    after = "\n".join([DESCRIPTION] + tables)
    parser = parser_of("records", "Turn a text into the bytes of its records, as ./shiftline does by itself.", after)
    parser.add_argument("file", nargs="?", metavar="FILE", help="the text; '-' or none reads standard input")
    # The commands at the root read a file themselves, to see whether it is text, and hand it on.
    parser.add_argument("--named", metavar="NAME", default="<stdin>", help="what messages call standard input (<stdin>)")
    return parser


def tell_errors(name: str, errors: List[Error]) -> None:
    """Tells the first errors of a text, a line for each."""
    for number, column, message in errors[:MOST_ERRORS_SHOWN]:
        print(f"{printable(name)}:{number}:{column}: {printable(message)}", file=sys.stderr)


def main() -> int:
    parser = arguments()
    given = parser.parse_args()
    if given.file is None and sys.stdin.isatty():
        parser.error("no FILE; give '-' to type the text here")
    if sys.stdout.isatty():
        parser.error("binary records would garble the terminal; try: tools/records FILE > RECORDS")
    here = given.file in (None, "-")
    name = given.named if here else given.file
    try:
        content = sys.stdin.buffer.read() if here else Path(name).read_bytes()
    except OSError as error:
        parser.error(f"{name}: {error.strerror}")
    if is_utf16(content):
        print(f"records: {name} {UTF16}", file=sys.stderr)
        return 2
    # A comment may hold any bytes; elsewhere a replaced byte becomes an unknown word.
    whole, errors = read_text(content.decode("utf-8-sig", errors="replace"), Path(name).parent)
    tell_errors(name, errors)
    if errors:
        return 1
    write_text(whole, sys.stdout.buffer)
    return 0
