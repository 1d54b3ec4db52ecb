"""The command line of the tools: one form of help and of wrong use. Help goes to standard output and ends with 0; wrong use is told with
the usage on standard error and ends with 2. Either is told before anything is read or built."""

import argparse


def parser_of(name: str, description: str, after: str = "", folder: str = "tools/") -> argparse.ArgumentParser:
    """The parser of the command tools/NAME, or NAME in another folder; its description tells the exit statuses."""
    return argparse.ArgumentParser(prog=f"{folder}{name}", description=description, epilog=after, allow_abbrev=False,
                                   formatter_class=argparse.RawDescriptionHelpFormatter)  # fmt: skip


def from_one(text: str) -> int:
    """A number of things to do: decimal, 1 at least."""
    if not (text.isascii() and text.isdigit() and int(text) >= 1):
        raise argparse.ArgumentTypeError(f"'{text}' is not a number from 1")
    return int(text)
