"""The readable text form of records: reads it, with its errors, and writes the records."""

import difflib
import io
import re
from dataclasses import dataclass, field
from pathlib import Path
from typing import BinaryIO, Dict, Iterator, List, NamedTuple, Optional, Tuple, Union

from .image_form import MOST_OF_A_RECORD, image_record, read_image
from .record_form import ALL_KINDS, KINDS, LIMITS, LOAD, LOAD_WITH_SENSORS, Kind

DEEPEST_REPEAT = 16
PIECE = 65536  # bytes of a repeat that are made and written at once
COUNT = (1, 1_000_000_000, "repeat")
KIND_OF_WORD = {**{kind.letter.lower(): kind for kind in ALL_KINDS}, **{kind.word: kind for kind in KINDS}}
BLOCK, BLOCK_LETTER = "block", "B"
WORDS = [kind.word for kind in KINDS] + [BLOCK, "raw", "repeat"]
NAME_AND_VALUE = "expected NAME=VALUE without spaces"

LINE_END = re.compile("\r*\n|\r")  # Unix's, Windows', and of an old Mac

Error = Tuple[int, int, str]  # line, column, message


class Record(NamedTuple):
    kind: Kind
    given: Dict[int, int]  # place of the field, from 0: its value


@dataclass
class Repeat:
    line: int
    column: int
    count: int = 1
    body: list = field(default_factory=list)  # of Record, bytes (raw) and Repeat


class Word(NamedTuple):
    column: int  # from 1
    text: str


class TextError(Exception):
    def __init__(self, column: int, message: str) -> None:
        super().__init__(message)
        self.column = column


def plain(name: str) -> str:
    """Names are compared without regard to case, '_' and '-'."""
    return name.lower().replace("_", "").replace("-", "")


SETTINGS = {plain(one.name) for one in LOAD_WITH_SENSORS.fields}


def nearest(name: str, known: List[str]) -> str:
    by_plain = {plain(one): one for one in known}
    close = difflib.get_close_matches(plain(name), by_plain, n=3, cutoff=0.5)
    found = [by_plain[one] for one in close]
    return ("nearest: " if found else "known: ") + ", ".join(found or known)


def read_number(word: Word, name: str, limits: Tuple[int, int, str]) -> int:
    low, high, room = limits
    # Python converts at most 4,300 digits, hence the limit of the pattern.
    if not re.fullmatch(r"[+-]?(0[xX][0-9A-Fa-f]{1,4000}|[0-9]{1,4000})", word.text):
        raise TextError(word.column, f"'{word.text}' is not a number; write decimal (600, -5) or hexadecimal (0x0258)")
    hexadecimal = "x" in word.text.lower()
    value = int(word.text, 16 if hexadecimal else 10)
    if hexadecimal and limits == LIMITS["h"] and high < value <= 65535:
        value -= 65536  # 0xFFFF is the bit pattern of -1
    if not low <= value <= high:
        raise TextError(word.column, f"{name} {word.text} does not fit {room}: {low} to {high}")
    return value


def read_field(kind: Kind, place: int, word: Word) -> int:
    one = kind.fields[place]
    return read_number(word, one.name, LIMITS[one.form])


def read_named(kind: Kind, words: List[Word], before: Optional[Dict[int, int]] = None) -> Record:
    """Read fields by name, beside those that a line before gave."""
    wide = kind.wider or kind
    places = {plain(one.name): place for place, one in enumerate(wide.fields)}
    given: Dict[int, int] = dict(before or {})
    for word in words:
        name, equals, value = word.text.partition("=")
        if not (name and equals and value):
            raise TextError(word.column, f"{NAME_AND_VALUE}, found '{word.text}'")
        place = places.get(plain(name))
        if place is None:
            raise TextError(word.column, f"{kind.word} has no '{name}'; " + nearest(name, [one.name for one in wide.fields]))
        if place in given:
            raise TextError(word.column, f"{wide.fields[place].name} is given twice")
        given[place] = read_field(wide, place, Word(word.column + len(name) + 1, value))
    return Record(wide if any(place >= len(kind.fields) for place in given) else kind, given)


def read_plain(kind: Kind, words: List[Word], end: int) -> Record:
    wide = kind.wider or kind
    for word in words:
        if "=" in word.text:
            more = f"; {wide.fields[-1].name} can be the {len(wide.fields)}th number" if wide is not kind else ""
            raise TextError(word.column, f"plain numbers and NAME=VALUE cannot be mixed{more}")
    if len(words) == len(wide.fields):
        kind = wide
    wanted = len(kind.fields)
    if len(words) != wanted and not (kind.first_alone and len(words) == 1):
        surplus = words[len(wide.fields) :]
        at = surplus[0].column if surplus else end
        more = f", or {len(wide.fields)} with {wide.fields[-1].name}" if wide is not kind else ""
        called = kind.word if kind in KINDS else kind.letter  # 'load' takes fewer
        raise TextError(at, f"{called} takes {wanted} plain numbers in order{more}, found {len(words)}")
    return Record(kind, {place: read_field(kind, place, word) for place, word in enumerate(words)})


def read_raw(words: List[Word], end: int) -> bytes:
    if not words:
        raise TextError(end, "raw needs bytes in hexadecimal, such as: raw 58 01")
    for word in words:
        if not re.fullmatch("([0-9A-Fa-f]{2})+", word.text):
            raise TextError(word.column, f"'{word.text}' is not bytes; write two hexadecimal digits for each, such as: raw 58 01")
    return bytes.fromhex("".join(word.text for word in words))


def read_block(words: List[Word], end: int, folder: Path) -> bytes:
    """Read the load of a stored block; the path of its image begins at a folder."""
    if len(words) != 2:
        at = words[2].column if len(words) > 2 else end
        raise TextError(at, f"{BLOCK} takes a block and the path of an image, one word, such as: {BLOCK} 3 pumps.image")
    block = read_number(words[0], BLOCK, LIMITS["B"])
    file = folder / words[1].text
    try:
        image = read_image(file)
    except OSError as error:
        raise TextError(words[1].column, f"{file}: {error.strerror}") from error
    except ValueError as error:  # a letter that no path has
        raise TextError(words[1].column, "this is no path of a file") from error
    if len(image) > MOST_OF_A_RECORD:
        raise TextError(words[1].column, f"{file} is longer than {MOST_OF_A_RECORD} bytes, and record {BLOCK_LETTER} takes no more")
    return image_record(BLOCK_LETTER, block, image)


def read_step(words: List[Word], end: int, folder: Path) -> Union[Record, bytes]:
    """Read a record or raw bytes; `end` is the column after the last word."""
    first, rest = words[0], words[1:]
    for word in words:
        if word.text in "{}":
            raise TextError(word.column, "{ stands only after repeat COUNT, } alone on a line")
    kind = KIND_OF_WORD.get(first.text.lower())
    if kind is not None:
        if rest and re.match("[+-]?[0-9]", rest[0].text):
            return read_plain(kind, rest, end)
        return read_named(kind, rest)
    if first.text.lower() == "raw":
        return read_raw(rest, end)
    if first.text.lower() in (BLOCK, BLOCK_LETTER.lower()):
        return read_block(rest, end, folder)
    if "=" in first.text:
        raise TextError(first.column, "NAME=VALUE stands behind the word of its record, or after a load in lines of their own")
    if is_setting(first):
        raise TextError(first.column, f"{NAME_AND_VALUE}, found '{first.text}'")
    known = [word for word in WORDS if word != first.text]
    raise TextError(first.column, f"'{first.text}' is no record; " + nearest(first.text, known))


def read_repeat(repeat: Repeat, words: List[Word], end: int, repeats: List[Repeat], folder: Path) -> None:
    opens = "{" in (word.text for word in words)
    if opens:
        # Before its head is judged: a wrong head must not put the blame on its }.
        repeats.append(repeat)
    if len(words) < 3:
        raise TextError(end, "repeat needs a count and a record or {, such as: repeat 3 tick")
    repeat.count = read_number(words[1], "count", COUNT)
    if not opens:
        repeat.body.append(read_step(words[2:], end, folder))
        repeats[-1].body.append(repeat)
    elif words[2].text != "{" or len(words) > 3:
        raise TextError(words[3].column, "write repeat COUNT { and what it repeats from the next line on")
    elif len(repeats) > DEEPEST_REPEAT + 1:
        raise TextError(words[0].column, f"repeats nest at most {DEEPEST_REPEAT} deep")


def is_load(word: Word) -> bool:
    return KIND_OF_WORD.get(word.text.lower()) in (LOAD, LOAD_WITH_SENSORS)


def is_setting(word: Word) -> bool:
    """Whether a word without = is, or begins with, the name of a setting, as in 'ParkTime = 5' and 'ParkTime:5'."""
    return "=" not in word.text and plain(re.split("[^A-Za-z0-9_-]", word.text)[0]) in SETTINGS


def goes_on(words: List[Word], body: list) -> bool:
    """Whether a line goes on with the load of the line before it. Only loads do: a tick that was forgotten must not change another."""
    return "=" in words[0].text and bool(body) and isinstance(body[-1], Record) and body[-1].kind.word == LOAD.word


def read_line(number: int, words: List[Word], repeats: List[Repeat], folder: Path) -> None:
    end = words[-1].column + len(words[-1].text)
    if words[0].text.lower() == "repeat":
        read_repeat(Repeat(number, words[0].column), words, end, repeats, folder)
    elif goes_on(words, repeats[-1].body):
        load = repeats[-1].body[-1]
        repeats[-1].body[-1] = read_named(load.kind, words, load.given)
    elif words[0].text == "}" and len(repeats) == 1:
        raise TextError(words[0].column, "this } closes no repeat")
    elif words[0].text == "}":
        closed = repeats.pop()
        if closed.body:
            repeats[-1].body.append(closed)
        if len(words) > 1:
            raise TextError(words[1].column, "nothing may follow }")
    else:
        repeats[-1].body.append(read_step(words, end, folder))


def lines_of(text: str) -> Iterator[Tuple[int, List[Word]]]:
    """The lines of a text that hold more than a comment: their numbers and words."""
    for number, line in enumerate(LINE_END.split(text), start=1):
        found = re.finditer(r"[{}]|[^\s{}]+", line.partition("#")[0])
        words = [Word(match.start() + 1, match.group()) for match in found]
        if words:
            yield number, words


def read_text(text: str, folder: Path = Path()) -> Tuple[Repeat, List[Error]]:
    """Give the whole text as a repeat done once, and its errors. Paths in it begin at the folder."""
    repeats = [Repeat(0, 0)]  # the whole text, then the repeats that are open
    errors: List[Error] = []
    for number, words in lines_of(text):
        try:
            read_line(number, words, repeats, folder)
        except TextError as error:
            errors.append((number, error.column, str(error)))
            if is_load(words[0]):
                repeats[-1].body.append(Record(LOAD, {}))  # so that the lines that go on with it are not blamed
    errors += [(repeat.line, repeat.column, "this repeat has no closing }") for repeat in repeats[1:]]
    return repeats[0], sorted(errors)


def write_body(body: list, kept: Dict[str, List[int]], output: BinaryIO) -> None:
    """Write each step once."""
    for step in body:
        if isinstance(step, Repeat):
            write_repeat(step, kept, output)
        elif isinstance(step, bytes):
            output.write(step)
        else:
            kind = step.kind
            values = kept[kind.word] if kind.keeps else kind.defaults
            for place, value in step.given.items():
                values[place] = value
            output.write(kind.packed(*values))


def size_of(body: list) -> int:
    """How many bytes a body writes."""
    sizes = (step.count * size_of(step.body) if isinstance(step, Repeat) else len(step) if isinstance(step, bytes) else step.kind.size
             for step in body)  # fmt: skip
    return sum(sizes)


def write_repeat(repeat: Repeat, kept: Dict[str, List[int]], output: BinaryIO) -> None:
    """Write a body so many times. What a field keeps it has after the first time, so all that follow are alike: where they are short
    they are made once and written many at a time."""
    write_body(repeat.body, kept, output)
    left = repeat.count - 1
    if left < 2 or size_of(repeat.body) > PIECE:
        for _ in range(left):
            write_body(repeat.body, kept, output)
        return
    made = io.BytesIO()
    write_body(repeat.body, kept, made)
    once = made.getvalue()
    many = max(1, PIECE // len(once))
    for _ in range(left // many):
        output.write(once * many)
    output.write(once * (left % many))


def write_text(whole: Repeat, output: BinaryIO) -> None:
    """Write the records of a whole text."""
    write_repeat(whole, {kind.word: kind.defaults for kind in KINDS}, output)
