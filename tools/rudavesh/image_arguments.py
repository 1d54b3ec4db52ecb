"""The command line of ./image: its commands, and the texts of its help."""

import argparse
import re
from typing import Tuple

from .arguments import parser_of
from .image_form import BLOCKS, MOST

USAGE = """image make IMAGE BLOCK=FILE ...
       image list IMAGE
       image show IMAGE BLOCK
       image choose COUNT"""
DESCRIPTION = "Make, list and show images of 15 parameter blocks, by the proved reader, writer and supervisor."
AFTER = f"""A FILE is a text with one load, such as:

  load sensors=2        # 25 numbers; without sensors it is 24
    VdcOvLevel=2900     # what is not named takes its default; tools/records --help lists all

show prints such a text, with every setting named, so making an image anew of what it printed gives
the same bytes. An image is at most {MOST} bytes. Bytes are counted from 0, as the offsets in it are.
The first run, and the first one after a change of the sources, proves and builds the programs.

Exit status: 0 done; 1 an error in a text, an image that is malformed, a block or a count that is
refused, a write that failed, or a program that is not proved; 2 wrong use, a file that cannot be
read, text in UTF-16, or the kit or python3 is missing; 130 interrupted.
"""


def number_up_to(most: int, what: str, text: str) -> int:
    if not (text.isascii() and text.isdigit() and len(text) < 10 and int(text) <= most):
        raise argparse.ArgumentTypeError(f"'{text}' is no {what}")
    return int(text)


def a_block(text: str) -> int:
    """A block to be read: any that a record can name, so that the reader is asked."""
    return number_up_to(255, f"block: these are 0 to {BLOCKS - 1}", text)


def a_count(text: str) -> int:
    return number_up_to(65535, "count: these are 0 to 4095", text)


def block_and_file(text: str) -> Tuple[int, str]:
    block, equals, file = text.partition("=")
    if not (equals and file):
        raise argparse.ArgumentTypeError(f"'{text}' is not BLOCK=FILE")
    return number_up_to(BLOCKS - 1, f"block: these are 0 to {BLOCKS - 1}", block), file


def arguments() -> argparse.ArgumentParser:
    parser = parser_of("image", DESCRIPTION, AFTER, folder="")
    parser.usage = USAGE
    commands = parser.add_subparsers(dest="command", required=True, metavar="COMMAND", prog="image")

    def command(name: str, words: str) -> argparse.ArgumentParser:
        return commands.add_parser(name, help=words, description=words[0].upper() + words[1:] + ".", epilog=AFTER, allow_abbrev=False,
                                   formatter_class=argparse.RawDescriptionHelpFormatter)  # fmt: skip

    make = command("make", "make an image of files of settings; blocks that are not named are empty")
    make.add_argument("image", metavar="IMAGE", help="the file to write; an image that is there is replaced when all is done, "
                      "and not before; a text is not replaced")  # fmt: skip
    make.add_argument("blocks", metavar="BLOCK=FILE", nargs="+", type=block_and_file, help="a block, 0 to 14, and its settings; "
                      "'-' reads standard input")  # fmt: skip
    lists = command("list", "list the blocks of an image, and whether the supervisor loads them")
    lists.add_argument("image", metavar="IMAGE", help="'-' reads standard input")
    show = command("show", "print a block of an image as a file of settings")
    show.add_argument("image", metavar="IMAGE", help="'-' reads standard input")
    show.add_argument("block", metavar="BLOCK", type=a_block, help="0 to 14")
    choose = command("choose", "print the block that the analog choice gives for a count")
    choose.add_argument("count", metavar="COUNT", type=a_count, help="of the analog input, 0 to 4095")
    return parser
