"""The proved calls behind ./image: what it asks ./blockline and ./benchline, and what their lines say. These decide; here is only asked."""

import struct
import subprocess
from typing import Dict, Iterable, List, NamedTuple, Optional

from .image_form import BLOCKS, MOST, image_record
from .places import ROOT
from .settings_text import Settings, settings_of

DONE, OUT_OF_RANGE, BAD_SETTING, MALFORMED, NO_BLOCK, EMPTY = 0, 1, 2, 7, 8, 9


class Ended(Exception):
    """A program could not be run to its end, and has said why."""

    def __init__(self, status: int) -> None:
        super().__init__(status)
        self.status = status


class Unexpected(Exception):
    """An answer that the paper does not give to what was asked."""


class Answer(NamedTuple):
    number: int
    place: int
    rest: List[int]

    def __str__(self) -> str:
        return f"number {self.number}, place {self.place}"


def answers(word: str, records: List[bytes]) -> List[Answer]:
    """What a proved program of the root answers to records, one line to each."""
    # By its launcher, which proves and builds it where that is to be done, and names itself in what it says.
    with subprocess.Popen([ROOT / word, "-"], stdin=subprocess.PIPE, stdout=subprocess.PIPE) as process:
        try:
            printed, _ = process.communicate(b"".join(records))
        except KeyboardInterrupt:
            # It reaches the launcher, too, which ends what it is building. That is waited for.
            process.wait()
            raise
    if process.returncode:
        raise Ended(process.returncode)
    lines = printed.decode("ascii", errors="replace").splitlines()
    try:
        found = [list(map(int, line.split(" "))) for line in lines]
        answered = [Answer(number, place, rest) for number, place, *rest in found]
    except ValueError as error:
        raise Unexpected(f"{word} printed {lines[-1][:60]!r}") from error
    if len(answered) != len(records):
        raise Unexpected(f"{word} printed {len(answered)} lines for {len(records)} records")
    return answered


def read_blocks(image: bytes, blocks: Iterable[int]) -> List[Answer]:
    """What the reader answers for blocks of an image."""
    return answers("blockline", [image_record("R", block, image) for block in blocks])


def settings_read(answer: Answer) -> Settings:
    """The settings that the reader gave back."""
    try:
        return settings_of(answer.rest)
    except KeyError as error:
        raise Unexpected(f"the reader gave back {len(answer.rest)} numbers") from error


def refused_loads(image: bytes, blocks: List[int]) -> Dict[int, Optional[int]]:
    """Filled blocks of an image, each with the place of the setting for which the supervisor refuses to load it, or None where it loads.

    One run loads them all, one after another: each load is made in IDLE, as at power-up, or in STOP, and these judge settings alike."""
    if not blocks:
        return {}
    places: Dict[int, Optional[int]] = {}
    for block, answer in zip(blocks, answers("benchline", [image_record("B", block, image) for block in blocks])):
        if answer.number not in (DONE, BAD_SETTING) or (answer.number == BAD_SETTING) != (answer.place > 0):
            raise Unexpected(f"the load of block {block} is answered by {answer}")
        places[block] = answer.place or None
    return places


def written_image(filled: Dict[int, Settings]) -> bytes:
    """The image that the writer makes of these blocks; the others are empty."""
    record = b"W" + struct.pack(">HB", MOST, 0)
    for block in range(BLOCKS):
        body = filled[block].body if block in filled else b""
        record += struct.pack(">BB", block in filled, len(body) // 2) + body
    (answer,) = answers("blockline", [record])
    if answer.number != DONE or len(answer.rest) != 1 + MOST or not 0 < answer.rest[0] <= MOST:
        raise Unexpected(f"the writer answered {answer}, and {len(answer.rest)} more")
    length, *lent = answer.rest
    return bytes(lent[:length])


def chosen(count: int) -> Optional[int]:
    """The block of the analog choice, or None where the count is refused."""
    (answer,) = answers("blockline", [b"A" + struct.pack(">H", count)])
    if answer.number not in (DONE, OUT_OF_RANGE) or len(answer.rest) != 1:
        raise Unexpected(f"the analog choice answered {answer}")
    return answer.rest[0] if answer.number == DONE else None
