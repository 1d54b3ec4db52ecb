"""What the program blockline reads and must print: records whose lines are worked out here from M-102 of document 02 and the page on bench
formats, then generated ones, their lines by the independent model; at the end a bad record, and bytes behind it that are not answered."""

from typing import Iterator, List, Mapping, NamedTuple, Optional, Sequence, Tuple

from .. import model
from . import Files
from .images import BLOCKS, COUNTS, EMPTY, FILLED, damaged, image, in_bytes


class Case(NamedTuple):
    """A record and its line."""

    record: bytes
    line: str


def body(block: int, count: int) -> List[int]:
    """Numbers that tell blocks and places apart, and both bytes of each."""
    return [(4099 * block + 257 * place + 3) % 65536 for place in range(count)]


def shown(*values: int) -> str:
    """A line: "decimal numbers .. separated by single spaces"."""
    return " ".join(map(str, values))


def reading(block: int, content: bytes, *values: int) -> Case:
    """Of the table: "R | block (1 byte), length (..), so many bytes | number, place, then the numbers of the body .."."""
    return Case(b"R" + bytes([block]) + len(content).to_bytes(2, "big") + content, shown(*values))


# Which blocks are filled, and with how many numbers.
SETS: Tuple[Mapping[int, int], ...] = (
    {},
    {0: 24},
    {14: 25},
    {0: 25, 14: 24},
    {2: 24, 3: 24, 4: 25, 11: 25},
    {block: 25 for block in range(BLOCKS)},
    {block: COUNTS[block % 2] for block in range(BLOCKS)},
)


def readings() -> Iterator[Case]:
    for counts in SETS:
        bodies = {block: body(block, count) for block, count in counts.items()}
        content = image(bodies)
        # A long image is asked for some blocks only, to keep the input short.
        for block in range(BLOCKS) if len(content) < 300 else (0, 1, 7, 14):
            yield reading(block, content, *([0, 0, *bodies[block]] if block in bodies else [9, 0]))
        for block in (15, 16, 255):
            yield reading(block, content, 8, 0)
    # A body holds any numbers: the reader tests no setting.
    for number in (0, 65535):
        yield reading(6, image({6: [number] * 25}), 0, 0, *[number] * 25)
    # 7 before 8 and 9, and whether the damaged entry is asked for or another: 2 and 9 are filled, 0 is empty.
    for content in damaged(body(2, 24), body(9, 25)).values():
        for block in (2, 9, 0, 15):
            yield reading(block, content, 7, 0)
    yield reading(0, image({0: body(0, 24)}).ljust(2048, b"\0"), 7, 0)


def choosing(count: int, *values: int) -> Case:
    """Of the table: "A | count | number, place, block"."""
    return Case(b"A" + count.to_bytes(2, "big"), shown(*values))


def choices() -> Iterator[Case]:
    """By "floor(count x 15 / 4096)" block k begins at the first count that is 4096 k fifteenths at least."""
    begins = [next(count for count in range(4096) if 15 * count >= 4096 * block) for block in range(BLOCKS)]
    for block, (begin, end) in enumerate(zip(begins, [*begins[1:], 4096])):
        for count in (begin, begin + 1, (begin + end) // 2, end - 1):
            yield choosing(count, 0, 0, block)
    for count in (4096, 4097, 4369, 8191, 32768, 65535):
        yield choosing(count, 1, 1, 0)  # "Count above 4095 is 1"


class Block(NamedTuple):
    """A block as the writer is handed it."""

    mark: int
    numbers: List[int]
    count: Optional[int] = None  # where it is another than that of the numbers

    @property
    def packed(self) -> bytes:
        """In a record: "0 empty or 1 filled .., count (1 byte), the first 25 at most of so many numbers"."""
        return bytes([self.mark, len(self.numbers) if self.count is None else self.count]) + in_bytes(self.numbers)


NOTHING = Block(EMPTY, [])


def writing(blocks: Mapping[int, Block], lent: int, held: int, number: int, place: int, content: bytes = b"") -> Case:
    """Of the table: "W | how many bytes are lent .., what they hold (1 byte), then for each of the 15 .. blocks .. | number, place, length
    of the image, then every lent byte". Those behind the image stand, and where it is refused all of them."""
    packed = b"".join(blocks.get(block, NOTHING).packed for block in range(BLOCKS))
    after = content + bytes([held]) * (lent - len(content))
    return Case(b"W" + lent.to_bytes(2, "big") + bytes([held]) + packed, shown(number, place, len(content), *after))


def writings() -> Iterator[Case]:
    for counts in SETS:
        bodies = {block: body(block, count) for block, count in counts.items()}
        blocks = {block: Block(FILLED, numbers) for block, numbers in bodies.items()}
        content = image(bodies)
        size = len(content)
        for lent, held in ((size, 255), (size + 1, 7), (size + 60, 0)):
            yield writing(blocks, lent, held, 0, 0, content)
        # "then too few lent bytes is 5"
        for lent in (size - 1, size // 2, 1, 0):
            yield writing(blocks, lent, 9, 5, 0)
    yield writing({14: Block(FILLED, body(14, 25))}, 2048, 1, 0, 0, image({14: body(14, 25)}))
    # Of empty blocks count and numbers mean nothing.
    unused = {0: Block(EMPTY, body(0, 24)), 1: Block(EMPTY, body(1, 25)), 2: Block(EMPTY, body(2, 25), 255), 14: Block(EMPTY, [1])}
    yield writing({**unused, 7: Block(FILLED, body(7, 24))}, 130, 3, 0, 0, image({7: body(7, 24)}))
    yield writing(unused, 75, 3, 0, 0, image({}))
    yield from other_lengths()


def other_lengths() -> Iterator[Case]:
    """What "a body of another length is 2 at block + 1" says: the first such block, and before 5 wherever it stands."""
    good = {0: Block(FILLED, body(0, 24)), 13: Block(FILLED, body(13, 25))}
    for count in (0, 1, 23, 26, 48, 50, 200, 255):
        bad = Block(FILLED, body(count % 16, min(count, 25)), count)
        for block in (0, 1, 12, 13, 14):
            yield writing({**good, block: bad}, 30, 8, 2, block + 1)
        yield writing({**good, 6: bad, 9: bad}, 900, 8, 2, 7)
    no_number = Block(FILLED, [])
    for block in range(BLOCKS):
        yield writing({**good, block: no_number, 14: no_number}, 0, 8, 2, block + 1)


def cases() -> List[Case]:
    return [*readings(), *choices(), *writings()]


# The generated records end between two of them: where the model's generator makes another end of this seed, that is told.
SEED, RECORDS = 14, 150
# "length (at most 2048, more is bad)": so many bytes follow, and each three of them would be a record.
TOO_LONG = b"R\0" + (2049).to_bytes(2, "big") + b"A\0\0" * 683


def files() -> Files:
    typed = cases()
    generated = model.generated_for_blocks(SEED, RECORDS)
    lines = model.block_lines(generated)
    assert not lines.endswith(b"?\n"), f"{__name__}: the records of seed {SEED} end in a bad one: choose another"
    front = "".join(f"{case.line}\n" for case in typed).encode("ascii")
    return {"stdin": b"".join(case.record for case in typed) + generated + TOO_LONG, "stdout": front + lines + b"?\n"}
