"""Loads by numbers and by a block, and number and place of each, worked out from document 01's refusals and settings and from M-101 and
M-102 of document 02."""

from typing import List, Mapping, NamedTuple, Sequence

from ..record_form import LOAD, LOAD_WITH_SENSORS, Field
from .images import BLOCKS, image, in_bytes

# The paper's example, but for a CriticalOvLevel that leaves VdcOvLevel its whole range.
GOOD = [4095 if one.name == "CriticalOvLevel" else one.default for one in LOAD.fields]
BAD = [2, *GOOD[1:]]
# "Setting 25 chooses 2 or 3 sensors; a load of 24 numbers means 3."
OF_TWO, OF_THREE = [*GOOD, 2], [*GOOD, 3]


class Case(NamedTuple):
    """A record, and the front of its line: number and place and, where it matters, the state that it shows."""

    record: bytes
    line: str


def numbered(numbers: Sequence[int]) -> bytes:
    """A load of so many numbers: "N | count (1 byte), then so many numbers"."""
    return bytes([ord("N"), len(numbers)]) + in_bytes(numbers)


def keeps_rule(settings: List[int], field: Field, value: int) -> bool:
    """Whether a setting at this value keeps its rule, beside the settings given."""
    relation = field.relation
    return field.allows(value) and (relation is None or relation.holds(value, settings[LOAD.place(relation.other) - 1]))


def load(state: str, numbers: List[int]) -> Case:
    places = enumerate(zip(LOAD_WITH_SENSORS.fields, numbers), 1)
    if state not in ("IDLE", "STOP"):
        line = "4 0"
    elif len(numbers) not in (len(LOAD.fields), len(LOAD_WITH_SENSORS.fields)):
        line = "2 0"  # "lengths other than 24 and 25 are 2 at place 0"
    else:
        line = next((f"2 {place}" for place, (field, value) in places if not keeps_rule(numbers, field, value)), "0 0")
    return Case(numbered(numbers), line)


def load_by_m(state: str, numbers: List[int]) -> Case:
    """The same load of 25 numbers by the record that always has so many."""
    assert len(numbers) == len(LOAD_WITH_SENSORS.fields)
    return Case(LOAD_WITH_SENSORS.letter.encode() + in_bytes(numbers), load(state, numbers).line)


def by_block(block: int, content: bytes, line: str) -> Case:
    """A block load: "B | block (1 byte), length (..), so many bytes"."""
    return Case(b"B" + bytes([block]) + len(content).to_bytes(2, "big") + content, line)


def load_block(state: str, block: int, bodies: Mapping[int, List[int]]) -> Case:
    """From an image of these bodies: "8 block above 14, then 9 block empty, then load's own"."""
    if block >= BLOCKS:
        line = "8 0"
    elif block not in bodies:
        line = "9 0"
    else:
        line = load(state, bodies[block]).line
    return by_block(block, image(bodies), line)
