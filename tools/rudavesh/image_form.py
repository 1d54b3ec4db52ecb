"""The form of an image of parameter blocks, as M-102 lays it down, and the record that carries one.

What an image holds is the proved reader's to say. What is here for people is where a malformed one breaks the form, in words."""

import struct
from pathlib import Path
from typing import List, NamedTuple, Optional

BLOCKS = 15
ENTRY = struct.Struct(">BHH")  # kind, offset, length
ENTRIES = BLOCKS * ENTRY.size  # bytes before the first body
LENGTHS = (48, 50)  # of a body: 24 or 25 numbers of two bytes
MOST = ENTRIES + BLOCKS * LENGTHS[-1]  # bytes of an image with every block filled
# "length (at most 2048, more is bad)": what a record of the bench programs takes.
MOST_OF_A_RECORD = 2048


class Entry(NamedTuple):
    kind: int
    offset: int
    length: int


class Broken(NamedTuple):
    """The first place where an image breaks the form."""

    byte: int  # from 0, as the offsets in it count
    block: Optional[int]
    words: str

    def __str__(self) -> str:
        return f"byte {self.byte}" + ("" if self.block is None else f", block {self.block}") + f": {self.words}"


def read_image(file: Path) -> bytes:
    """The bytes of a file, but of one that no record takes only so many that it shows."""
    with file.open("rb") as stream:
        return stream.read(MOST_OF_A_RECORD + 1)


def image_record(letter: str, block: int, image: bytes) -> bytes:
    """A block and an image as a record: B of benchline, R of blockline."""
    return letter.encode() + struct.pack(">BH", block, len(image)) + image


def entry_of(image: bytes, block: int) -> Entry:
    return Entry(*ENTRY.unpack_from(image, block * ENTRY.size))


def bytes_that(count: int, one: str, many: str) -> str:
    return f"1 byte {one}" if count == 1 else f"{count} bytes {many}"


def wrong_offset(entries: List[Entry], block: int, wanted: int, size: int) -> str:
    """What is wrong with an offset that is not where the body has to begin."""
    said = entries[block].offset
    words = f"its body is said to begin at byte {said}, and has to begin at byte {wanted}"
    if said < ENTRIES:
        return f"{words}: byte {said} belongs to the entries"
    if said < wanted:
        return f"{words}: it overlaps the body of a block before it"
    later = [other for other in range(block + 1, BLOCKS) if entries[other].kind == 1 and entries[other].offset == wanted]
    if later:
        return f"{words}: the body of block {later[0]} is there, and bodies stand in the order of the blocks"
    if said > size:
        return f"{words}: the image has {size} bytes"
    return f"{words}: {bytes_that(said - wanted, 'before it belongs', 'before it belong')} to no block"


def broken(image: bytes) -> Optional[Broken]:
    """Where an image breaks the form: the first rule that is broken, entry by entry, then what stands behind them."""
    if len(image) < ENTRIES:
        return Broken(len(image), len(image) // ENTRY.size, f"the image ends in the entries: these alone take {ENTRIES} bytes")
    entries = [entry_of(image, block) for block in range(BLOCKS)]
    end, ends = ENTRIES, []
    for block, (kind, offset, length) in enumerate(entries):
        at = block * ENTRY.size
        if kind > 1:
            return Broken(at, block, f"its kind is {kind}, and a kind is 0 (empty) or 1 (filled)")
        if kind == 0 and offset:
            return Broken(at + 1, block, f"it is empty and has the offset {offset}: an empty entry is all zeros")
        if kind == 0 and length:
            return Broken(at + 3, block, f"it is empty and has the length {length}: an empty entry is all zeros")
        if kind == 0:
            continue
        if offset != end:
            return Broken(at + 1, block, wrong_offset(entries, block, end, len(image)))
        if length not in LENGTHS:
            return Broken(at + 3, block, f"its body is said to have {length} bytes, and has {LENGTHS[0]} or {LENGTHS[1]}")
        end += length
        ends.append((block, end))
    if len(image) < end:
        cut = next(block for block, its_end in ends if len(image) < its_end)
        missing = bytes_that(end - len(image), "of the image is missing", "of the image are missing")
        return Broken(len(image), cut, f"the image ends in its body: {missing}")
    if len(image) > end:
        return Broken(end, None, f"the last body ends before it, and {bytes_that(len(image) - end, 'follows', 'follow')}")
    return None
