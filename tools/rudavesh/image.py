"""./image: makes, lists and shows the images of parameter blocks that fitters carry. The proved reader, writer and supervisor decide what
is in them; here settings are turned into text and back, and what is wrong is put into words."""

import argparse
import os
import re
import secrets
import shutil
import sys
from pathlib import Path
from typing import Dict, List, Optional, Tuple

from .image_arguments import arguments
from .image_calls import (BAD_SETTING, DONE, EMPTY, MALFORMED, NO_BLOCK, Answer, Ended, Unexpected, chosen, read_blocks, refused_loads,
                          settings_read, written_image)  # fmt: skip
from .image_form import BLOCKS, MOST, MOST_OF_A_RECORD, broken, entry_of, read_image
from .record_form import LOAD_WITH_SENSORS
from .records import tell_errors
from .settings_text import Settings, read_settings, written
from .text_file import UTF16, is_utf16, printable

STANDARD_INPUT = "-"


class Told(Exception):
    """What ends the command: its status, and the sentence that says why."""

    def __init__(self, status: int, sentence: str) -> None:
        super().__init__(sentence)
        self.status = status


def refusal(settings: Settings, place: int) -> str:
    """Why the supervisor refuses to load settings."""
    if not 1 <= place <= len(settings.values):
        raise Unexpected(f"a load of {len(settings.values)} numbers is refused at place {place}")
    one = LOAD_WITH_SENSORS.fields[place - 1]
    return f"number {BAD_SETTING}, place {place}: {one.name} is {one.rule}; here it is {settings.values[place - 1]}"


# make


def text_of(name: str) -> str:
    """The text of a file of settings."""
    try:
        content = sys.stdin.buffer.read() if name == STANDARD_INPUT else Path(name).read_bytes()
    except AttributeError as error:
        raise Told(2, "standard input is closed.") from error
    except OSError as error:
        raise Told(2, f"{called(name)}: {error.strerror}") from error
    if is_utf16(content):
        raise Told(2, f"{called(name)} {UTF16}")
    if b"\0" in content:
        raise Told(1, f"{called(name)} is no text: there are zero bytes in it.")
    return content.decode("utf-8-sig", errors="replace")


def called(name: str) -> str:
    """What messages call a file that is read."""
    return "<stdin>" if name == STANDARD_INPUT else name


def read_files(files: Dict[int, str]) -> Optional[Dict[int, Settings]]:
    """The settings of files, or None where there are errors in them, which are told."""
    read: Dict[int, Settings] = {}
    for block, name in files.items():
        settings, errors = read_settings(text_of(name))
        tell_errors(called(name), errors)
        if settings:
            read[block] = settings
    return read if len(read) == len(files) else None


def target_of(name: str) -> Path:
    """The file that an image is to be written to. What can be seen to fail is told before anything is proved or asked."""
    target = Path(os.path.realpath(name))
    if target.exists() and not target.is_file():
        raise Told(1, f"{name} is no file, and no image is written there.")
    if not target.parent.is_dir():
        raise Told(1, f"{name}: there is no folder {target.parent}")
    if target.exists() and not os.access(target, os.W_OK):
        raise Told(1, f"{name} cannot be written: it is write-protected.")
    return target


def put(content: bytes, target: Path, name: str) -> None:
    """Writes a file whole or not at all: beside it first, and then it gets its name."""
    beside = target.parent / f".image-{secrets.token_hex(8)}"
    try:
        with os.fdopen(os.open(beside, os.O_WRONLY | os.O_CREAT | os.O_EXCL, 0o666), "wb") as stream:
            stream.write(content)
            stream.flush()
            os.fsync(stream.fileno())
        if target.exists():
            shutil.copymode(target, beside)
        os.replace(beside, target)
    except OSError as error:
        raise Told(1, f"{name} cannot be written: {error.strerror}") from error
    finally:
        beside.unlink(missing_ok=True)


def same_file(one: str, other: str) -> bool:
    return os.path.exists(one) and os.path.exists(other) and os.path.samefile(one, other)


def is_text(name: str) -> bool:
    """Whether a file is there and is no image, whole or damaged: every image has zero bytes, and no text has."""
    if not os.path.isfile(name):
        return False
    try:
        front = read_image(Path(name))
    except OSError:
        return False
    return bool(front) and (is_utf16(front) or b"\0" not in front)


def make(parser: argparse.ArgumentParser, name: str, given: List[Tuple[int, str]]) -> int:
    files = dict(given)
    blocks = [block for block, _ in given]
    twice = next((block for block in blocks if blocks.count(block) > 1), None)
    if twice is not None:
        parser.error(f"block {twice} is given twice")
    if list(files.values()).count(STANDARD_INPUT) > 1:
        parser.error("only one block can come by standard input")
    if re.match("[0-9]+=", name):
        parser.error(f"the first word is the image to write, and '{name}' is a block with its settings")
    if any(same_file(name, file) for file in files.values()):
        parser.error(f"'{name}' would be replaced by the image, and it is a file of settings")
    if name == STANDARD_INPUT:
        parser.error("an image is written to a file: give its name in the place of '-'")
    if is_text(name):
        parser.error(f"'{name}' would be replaced by the image, and it is a text and no image; remove it first, or give another name")
    target = target_of(name)
    filled = read_files(files)
    if filled is None:
        return 1
    image = written_image(filled)
    for block, place in refused_loads(image, sorted(filled)).items():
        if place:
            print(f"image: warning: block {block} ({printable(called(files[block]))}) will not load: {refusal(filled[block], place)}",
                  file=sys.stderr)  # fmt: skip
    put(image, target, name)
    return 0


# list, show, choose


def image_of(name: str) -> bytes:
    """The bytes of an image, if a record can carry them."""
    try:
        image = sys.stdin.buffer.read(MOST_OF_A_RECORD + 1) if name == STANDARD_INPUT else read_image(Path(name))
    except AttributeError as error:
        raise Told(2, "standard input is closed.") from error
    except OSError as error:
        raise Told(2, f"{called(name)}: {error.strerror}") from error
    if len(image) > MOST_OF_A_RECORD:
        raise Told(1, f"{called(name)} is malformed: it is longer than {MOST_OF_A_RECORD} bytes, and an image has at most {MOST}.")
    return image


def well_formed(name: str, image: bytes, answered: List[Answer]) -> None:
    """Tells where an image is malformed, if the reader says that it is."""
    said = {answer.number == MALFORMED for answer in answered}
    found = broken(image)
    if True in said and not found:
        raise Unexpected(f"the reader calls {name} malformed, number {MALFORMED}, and no rule is found that it breaks.")
    if found and False in said:
        raise Unexpected(f"the reader takes {name}, and a rule is found that it breaks: {found}")
    if found:
        raise Told(1, f"{called(name)} is malformed: {found}")


def list_blocks(name: str) -> int:
    image = image_of(name)
    answered = read_blocks(image, range(BLOCKS))
    well_formed(name, image, answered)
    for block, answer in enumerate(answered):
        if answer.number != (DONE if entry_of(image, block).kind else EMPTY):
            raise Unexpected(f"the reader answers {answer} for block {block}, whose kind is {entry_of(image, block).kind}")
    filled = {block: settings_read(answer) for block, answer in enumerate(answered) if answer.number == DONE}
    refused = refused_loads(image, list(filled))
    print(f"{len(image)} bytes, {len(filled)} of {BLOCKS} blocks filled")
    for block in range(BLOCKS):
        told = "empty"
        if block in filled:
            place = refused[block]
            told = f"{len(filled[block].values)} numbers from byte {entry_of(image, block).offset}; "
            told += f"will not load: {refusal(filled[block], place)}" if place else "loads"
        print(f"block {block:<3} {told}")
    return 0


def show(name: str, block: int) -> int:
    image = image_of(name)
    (answer,) = read_blocks(image, [block])
    well_formed(name, image, [answer])
    if answer.number == NO_BLOCK:
        raise Told(1, f"there is no block {block}: an image has blocks 0 to {BLOCKS - 1}.")
    if answer.number == EMPTY:
        raise Told(1, f"block {block} of {called(name)} is empty.")
    if answer.number != DONE:
        raise Unexpected(f"the reader answers {answer} for block {block}")
    settings = settings_read(answer)
    print(f"# Block {block} of an image, {len(settings.values)} numbers.")
    print(*written(settings), sep="\n")
    return 0


def choose(count: int) -> int:
    block = chosen(count)
    if block is None:
        raise Told(1, f"the count {count} is refused: number 1, place 1: a count is 0..4095.")
    print(block)
    return 0


def main() -> int:
    parser = arguments()
    below = next((word for word in sys.argv[2:] if re.match("-[0-9]+=", word)), None)
    if below:  # argparse would take it for an option
        parser.error(f"'{below.partition('=')[0]}' is no block: these are 0 to {BLOCKS - 1}")
    given = parser.parse_args()
    try:
        if given.command == "make":
            return make(parser, given.image, given.blocks)
        if given.command == "list":
            return list_blocks(given.image)
        return show(given.image, given.block) if given.command == "show" else choose(given.count)
    except Told as told:
        print(f"image: {printable(str(told))}", file=sys.stderr)
        return told.status
    except Unexpected as error:
        print(f"image: internal error: {printable(str(error))}", file=sys.stderr)
        return 1
    except Ended as ended:
        return ended.status
