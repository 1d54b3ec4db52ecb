"""What the program report_lines must print, worked out from document 01's refusals and section "Report line and program", and from M-105 of
document 02."""

from typing import Iterator

from ..line_form import FATES, GATES, LENGTH, MOST_NUMBER, NO_FATE, STATES, Report, written
from . import Files, printed

MOTORRUN, DRIVE = 4, 2
SPACIOUS = LENGTH + 15


def call(room: int, number: int = 0, state: int = MOTORRUN, gate: int = DRIVE, live: int = 0, reference: int = 0, position: int = 0,
         angle: int = 0, fate: str = NO_FATE) -> str:  # fmt: skip
    """Number and place of the call, and the lent bytes after it."""
    refused = [room < LENGTH, number > MOST_NUMBER, state >= len(STATES), gate >= len(GATES)]
    if any(refused):
        return f"5 {refused.index(True)} " + "#" * room
    text = written(Report(number, STATES[state], gate, live, reference, position, angle, fate))
    assert len(text) == LENGTH
    return "0 0 " + text + "#" * (room - LENGTH)


def counted_up(first: int) -> int:
    """Four digits, each one more than the one before it, and 0 after 9."""
    return int("".join(str((first + place) % 10) for place in range(4)))


def calls() -> Iterator[str]:
    for room in LENGTH - 1, LENGTH, SPACIOUS:
        yield call(room, 0, 1, 0)

    for judged in (16, 9, 3), (15, 10, 3), (15, 9, 4):
        yield call(SPACIOUS, *judged)
    yield call(LENGTH - 1, 16, 10, 4)
    for judged in (255, 255, 255), (15, 255, 255), (15, 9, 255), (15, 9, 3):
        yield call(LENGTH, *judged)

    for state, (number, gate) in enumerate([(0, 0), (1, 1), (2, 2), (3, 3), (4, 0), (9, 0), (10, 0), (11, 0), (12, 0), (13, 0)]):
        yield call(LENGTH, number, state, gate)

    for live, reference, position, angle in (
        (0, 0, 0, 0),
        (1, 1, 1, 1),
        (4, -1, 10, -1),
        (0xFFFF, 32767, 0xFFFFFFFF, 32767),
        (0x8000, -32767, 0x80000000, -32767),
        (0xBEEF, -32768, 0xDEADBEEF, -32768),
    ):
        yield call(LENGTH, live=live, reference=reference, position=position, angle=angle)
    yield call(SPACIOUS, live=0x123, reference=12345, position=0x1234567, angle=-5462)

    for first in range(16):
        position = int("".join(f"{(first + place) % 16:x}" for place in range(8)), 16)
        reference, angle = (first % 3 * 10_000 + counted_up(start % 10) for start in (first, first + 5))
        yield call(LENGTH, live=position >> 16, reference=reference, position=position, angle=-angle)

    for fate in [*FATES, NO_FATE]:
        yield call(LENGTH, fate=fate)
    yield call(SPACIOUS, fate="X")


def files() -> Files:
    return printed(calls())
