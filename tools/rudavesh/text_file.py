"""What people's files hold besides their text: the marks and line ends that editors and shells of other systems put there."""

import re
from typing import Iterable, Iterator

UTF16 = "is text in UTF-16: save it as UTF-8, and give that."
UTF8_MARK = b"\xef\xbb\xbf"
# With a mark; or without, where every second byte of the first two letters is 0 and no record begins so.
IN_UTF16 = re.compile(rb"\xff\xfe|\xfe\xff|\x00[ -~]\x00[ -~]|[\t\n\r -?`-~]\x00[\t\n\r -~]\x00")


def is_utf16(front: bytes) -> bool:
    """Whether a file that begins so is text in UTF-16."""
    return bool(IN_UTF16.match(front))


def printable(text: str) -> str:
    """A text as a terminal can show it in one line: what would move its cursor is replaced."""
    return "".join(letter if letter.isprintable() else "\ufffd" for letter in text)


class InUtf16(Exception):
    """Lines were to be read, and they are text in UTF-16."""


def without_ends(lines: Iterable[bytes]) -> Iterator[bytes]:
    """Lines without their ends, be they Unix's or Windows', and without the mark of UTF-8."""
    for number, line in enumerate(lines):
        if number == 0 and is_utf16(line):
            raise InUtf16
        if number == 0 and line.startswith(UTF8_MARK):
            line = line[len(UTF8_MARK) :]
        if line.endswith(b"\n"):
            line = line[:-1]
            line = line[:-1] if line.endswith(b"\r") else line
        yield line
