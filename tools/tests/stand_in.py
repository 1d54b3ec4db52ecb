"""stand_in.py blockline | benchline: what these programs answer to images, in a few words of Python from M-102 and the page on bench
formats.

It stands in for the proved programs where the tests try ./image, so that nothing has to be proved for them. It takes nothing from the
package that it is used to test, and of benchline it has the load of a block alone, on a drive that is in IDLE or STOP."""

import sys

# Documents 01 and 02, "Settings, in order": least and most of each; the tenth is signed and any.
LEAST = [0, 0, 0, 0, 0, 0, 1, 1, 1, 0, 0, 0, 1, 0, 0, 0, 0, 0, 0, 0, 0, 0, 0, 0, 2]
MOST = [1, 65535, 4095, 4095, 4095, 4095, 65535, 65535, 65535, 65535, 16383, 32767, 4095, 7, 65535, 65535, 16383, 255, 65535, 65535,
        4095, 4095, 65535, 100, 3]  # fmt: skip


class Bad(Exception):
    """A record that is unknown, short or beyond its bounds."""


class Input:
    def __init__(self, content: bytes) -> None:
        self.content = content

    def take(self, count: int) -> bytes:
        if len(self.content) < count:
            raise Bad
        taken, self.content = self.content[:count], self.content[count:]
        return taken

    def byte(self) -> int:
        return self.take(1)[0]

    def number(self) -> int:
        return 256 * self.byte() + self.byte()

    def length(self) -> int:
        found = self.number()
        if found > 2048:
            raise Bad
        return found


def numbers_of(body: bytes) -> list:
    return [256 * body[place] + body[place + 1] for place in range(0, len(body), 2)]


def bodies_of(image: bytes):
    """The bodies of the 15 blocks, None where one is empty; None alone where the image is malformed."""
    bodies, end = [], 75
    if len(image) < 75:
        return None
    for block in range(15):
        entry = image[5 * block : 5 * block + 5]
        offset, length = numbers_of(entry[1:])
        if entry == bytes(5):
            bodies.append(None)
        elif entry[0] == 1 and offset == end and length in (48, 50):
            bodies.append(image[end : end + length])
            end += length
        else:
            return None
    return bodies if len(image) == end else None


def found(block: int, image: bytes):
    """The number of the reader, and the numbers of the body."""
    bodies = bodies_of(image)
    if bodies is None:
        return 7, []
    if block > 14:
        return 8, []
    return (9, []) if bodies[block] is None else (0, numbers_of(bodies[block]))


def read(given: Input) -> list:
    block, length = given.byte(), given.length()
    number, numbers = found(block, given.take(length))
    return [number, 0, *numbers]


def choice(given: Input) -> list:
    count = given.number()
    return [1, 1, 0] if count > 4095 else [0, 0, count * 15 // 4096]


def write(given: Input) -> list:
    length = given.length()
    lent = [given.byte()] * length
    blocks = []
    for _ in range(15):
        filled, count = given.byte(), given.byte()
        if filled > 1:
            raise Bad
        blocks.append((filled, count, given.take(2 * min(count, 25))))
    wrong = [block for block, (filled, count, _) in enumerate(blocks) if filled and count not in (24, 25)]
    if wrong:
        return [2, wrong[0] + 1, 0, *lent]
    entries, bodies = b"", b""
    for filled, count, body in blocks:
        entries += bytes([1, *divmod(75 + len(bodies), 256), 0, 2 * count]) if filled else bytes(5)
        bodies += body if filled else b""
    image = entries + bodies
    if len(lent) < len(image):
        return [5, 0, 0, *lent]
    return [0, 0, len(image), *image, *lent[len(image) :]]


def first_bad(numbers: list) -> int:
    for place, value in enumerate(numbers):
        order = {3: value < numbers[2], 4: value >= numbers[2], 21: value < numbers[20]}
        if not LEAST[place] <= value <= MOST[place] or not order.get(place, True):
            return place + 1
    return 0


def load_block(given: Input, drive: dict) -> list:
    block, length = given.byte(), given.length()
    number, numbers = found(block, given.take(length))
    place = first_bad(numbers)
    if number == 0 and place:
        number, drive["live"] = 2, drive["live"] if drive["state"] else 4096
    elif number == 0:
        drive.update(state=1, live=0)
    return [number, place, drive["state"], 0, drive["live"], *6 * [0]]


def lines(program: str, content: bytes):
    given, drive = Input(content), {"state": 0, "live": 0}
    calls = {"R": read, "A": choice, "W": write} if program == "blockline" else {"B": lambda record: load_block(record, drive)}
    while given.content:
        try:
            letter = chr(given.byte())
            if letter not in calls:
                raise Bad
            yield " ".join(map(str, calls[letter](given)))
        except Bad:
            yield "?"
            return


if __name__ == "__main__":
    for line in lines(sys.argv[1], sys.stdin.buffer.read()):
        print(line)
