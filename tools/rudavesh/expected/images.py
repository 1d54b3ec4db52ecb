"""Images of parameter blocks, typed by the sentences of M-102 of document 02, and images that break each of these. What a reader must
answer is known by how an image was made: each that `damaged` gives is malformed."""

import struct
from typing import Dict, Mapping, Sequence

BLOCKS = 15
# "24 or 25 numbers, high byte first": 48 or 50 bytes.
COUNTS = (24, 25)
EMPTY, FILLED = 0, 1


def in_bytes(numbers: Sequence[int]) -> bytes:
    return b"".join(number.to_bytes(2, "big") for number in numbers)


def entry(kind: int, offset: int, length: int) -> bytes:
    """An entry: "kind (0 empty, 1 filled; one byte), then offset and length in bytes, two bytes each, high first"."""
    return struct.pack(">BHH", kind, offset, length)


def low_first(kind: int, offset: int, length: int) -> bytes:
    """The same with each low byte first, which is wrong."""
    return struct.pack("<BHH", kind, offset, length)


def drawn(entries: Mapping[int, bytes], behind: bytes, count: int = BLOCKS) -> bytes:
    """An image by its entries, the others empty ("An empty entry is all zeros"), and what stands behind them."""
    return b"".join(entries.get(block, bytes(5)) for block in range(count)) + behind


def image(bodies: Mapping[int, Sequence[int]]) -> bytes:
    """A well-formed image: "The bodies follow in block order without gaps", "offsets count from the image's first byte"."""
    entries: Dict[int, bytes] = {}
    behind = b""
    for block in sorted(bodies):
        body = in_bytes(bodies[block])
        entries[block] = entry(FILLED, 75 + len(behind), len(body))
        behind += body
    return drawn(entries, behind)


def damaged(early: Sequence[int], late: Sequence[int]) -> Dict[str, bytes]:
    """Images with a body of 24 numbers in block 2 and one of 25 in block 9, each with one thing wrong: 75 + 48 = 123, 123 + 50 = 173."""
    first, second = in_bytes(early), in_bytes(late)
    assert (len(first), len(second)) == (48, 50)
    at_2, at_9 = entry(FILLED, 75, 48), entry(FILLED, 123, 50)
    whole = drawn({2: at_2, 9: at_9}, first + second)
    assert len(whole) == 173

    def with_entry(block: int, other: bytes) -> bytes:
        return drawn({2: at_2, 9: at_9, block: other}, first + second)

    def of_length(length: int) -> bytes:
        return drawn({2: at_2, 9: entry(FILLED, 123, length)}, first + (second * 7)[:length])

    return {
        "a gap before the first body": drawn({2: entry(FILLED, 76, 48), 9: entry(FILLED, 124, 50)}, b"\0" + first + second),
        "a gap between two bodies": drawn({2: at_2, 9: entry(FILLED, 124, 50)}, first + b"\0" + second),
        "sixteen entries": drawn({2: entry(FILLED, 80, 48), 9: entry(FILLED, 128, 50)}, first + second, count=16),
        "fourteen entries": drawn({2: entry(FILLED, 70, 48), 9: entry(FILLED, 118, 50)}, first + second, count=14),
        "a byte behind the last body": whole + b"\0",
        "a body behind the last body": whole + first,
        "the last byte missing": whole[:-1],
        "the last body missing": whole[:-50],
        "both bodies missing": whole[:75],
        "the entries cut": whole[:74],
        "one byte": whole[:1],
        "no byte": b"",
        "an empty entry with an offset": with_entry(5, entry(EMPTY, 123, 0)),
        "an empty entry with an offset of 1": with_entry(0, entry(EMPTY, 1, 0)),
        "an empty entry with a length": with_entry(5, entry(EMPTY, 0, 48)),
        "the last entry empty, with offset and length": with_entry(14, entry(EMPTY, 173, 1)),
        "a body with kind 0": with_entry(9, entry(EMPTY, 123, 50)),
        "a body with kind 2": with_entry(2, entry(2, 75, 48)),
        "a body with kind 255": with_entry(9, entry(255, 123, 50)),
        "kind 2 and zeros": with_entry(5, entry(2, 0, 0)),
        "kind 31 and zeros in the first entry": with_entry(0, entry(31, 0, 0)),
        "a filled entry with length 0": with_entry(5, entry(FILLED, 123, 0)),
        "a filled entry of zeros": with_entry(14, entry(FILLED, 0, 0)),
        **{f"a body of {length} bytes": of_length(length) for length in (1, 24, 25, 46, 47, 49, 51, 52, 100, 304, 306)},
        "bodies in another order": drawn({2: entry(FILLED, 125, 48), 9: entry(FILLED, 75, 50)}, second + first),
        "a body shared by two entries": drawn({2: at_2, 9: at_2}, first),
        "a body that begins in the one before": drawn({2: at_2, 9: entry(FILLED, 121, 50)}, first + second[2:]),
        "offsets from the first body's byte": drawn({2: entry(FILLED, 0, 48), 9: entry(FILLED, 48, 50)}, first + second),
        "offsets and lengths low byte first": drawn({2: low_first(FILLED, 75, 48), 9: low_first(FILLED, 123, 50)}, first + second),
        "lengths in numbers": drawn({2: entry(FILLED, 75, 24), 9: entry(FILLED, 123, 25)}, first + second),
        "an offset of 65535": with_entry(9, entry(FILLED, 65535, 50)),
    }  # fmt: skip
