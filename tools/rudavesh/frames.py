"""How much of the stack functions of x86-64 machine code take, read off what GNU's `objdump -d -r` prints of an archive.

What is told is never too small, for code as LLVM makes it of Rattle, which has neither pointers to functions nor a register for the frame:
what cannot be read is refused."""

import re
from typing import Dict, List, NamedTuple, Tuple

WORD = 8  # bytes of a register that is pushed, and of the address that a call returns to
RED_ZONE = 128  # bytes below the stack's pointer that a function may use which calls nothing

FUNCTION = re.compile(r"^[0-9a-f]+ <(?P<name>.+)>:$")
PREFIXES = r"(?:(?:bnd|cs|data16|lock|notrack|rep[a-z]*) +)*"
INSTRUCTION = re.compile(rf"^ +[0-9a-f]+:\t{PREFIXES}(?P<text>[a-z][^#]*?)\s*(#.*)?$")
# What the linker will put in; a function that the archive keeps to itself goes by the name of its section.
RELOCATION = re.compile(r"^\s+[0-9a-f]+: R_X86_64_\w+\s+(\.text\.)?(?P<name>\S+?)(-0x4)?$")
TARGET = re.compile(r"<(?P<name>[^+]+)(\+0x[0-9a-f]+)?>$")
MOVES = re.compile(r"^(enter|leave)|[, ]%[er]?sp$| %rsp,%rbp$")
LOWERS = re.compile(r"^(?P<way>sub|add)q? +\$0x(?P<size>[0-9a-f]+),%rsp$")
BELOW = re.compile(r"-0x(?P<size>[0-9a-f]+)\(%rsp(?P<index>,)?")


class Unreadable(Exception):
    """Machine code whose use of the stack the rules below do not tell."""


class Frame(NamedTuple):
    """What a function takes of the stack by itself, in bytes, and what it calls."""

    saved: int  # what it pushes
    lowered: int  # by how much it lowers the stack's pointer
    below: int  # how far below the pointer it reads and writes
    calls: Tuple[str, ...] = ()

    @property
    def own(self) -> int:
        """All of it, and the address that it returns to."""
        return WORD + self.saved + self.lowered + self.below


def lowered_by(text: str) -> int:
    """By how much an instruction lowers the pointer: 0 where it raises it, at the frame's end."""
    if text.startswith(("push", "pop")) or not MOVES.search(text):
        return 0
    if (found := LOWERS.match(text)) is None:
        raise Unreadable(f"'{text}' moves the stack's pointer, or keeps it, and not by a number")
    size = int(found["size"], 16)
    down = size if found["way"] == "sub" else 2**64 - size  # 128 bytes are made by adding -128, which is a shorter instruction
    return down if down < 2**63 else 0


def used_below(text: str) -> int:
    """How far below the pointer an instruction goes: all the way where an index may be negative, or an address be counted down from."""
    if (place := BELOW.search(text)) is None:
        return 0
    return RED_ZONE if place["index"] or text.startswith("lea") else int(place["size"], 16)


def called_by(name: str, text: str, behind: str) -> List[str]:
    """What an instruction of a function calls, with the line behind it: none, or one. A jump to another function is its last call."""
    is_call = text.startswith("call")
    if not is_call and not text.startswith("j"):
        return []
    if relocation := RELOCATION.match(behind):
        return [relocation["name"]]
    target = TARGET.search(text)
    if is_call and target is None:
        raise Unreadable(f"'{text}' calls what it does not name")
    return [target["name"]] if target and (is_call or target["name"] != name) else []


def frame_of(name: str, code: List[str]) -> Frame:
    """The frame of a function by the lines that objdump prints of it. What it pushes and lowers is taken to stand until its end: that is
    exact where a frame is made once, as compilers make it."""
    saved = lowered = below = read = 0
    calls: List[str] = []
    for line, behind in zip(code, [*code[1:], ""]):
        if found := INSTRUCTION.match(line):
            text = found["text"]
            read += 1
            saved += WORD if text.startswith("push") else 0
            lowered += lowered_by(text)
            below = max(below, used_below(text))
            calls += called_by(name, text, behind)
    if not read:
        raise Unreadable(f"no instruction of {name} is read: this objdump is not GNU's")
    return Frame(saved, lowered, below, tuple(dict.fromkeys(calls)))


def frames(disassembly: str) -> Dict[str, Frame]:
    """The frame of each function of an archive."""
    code: Dict[str, List[str]] = {}
    lines: List[str] = []
    for line in disassembly.splitlines():
        if found := FUNCTION.match(line):
            lines = code.setdefault(found["name"], [])
        else:
            lines.append(line)
    return {name: frame_of(name, lines) for name, lines in code.items()}


def deepest(known: Dict[str, Frame], name: str, above: Tuple[str, ...] = ()) -> Tuple[int, Tuple[str, ...]]:
    """The most that a call of a function takes of the stack, and the functions on that way, the first one with them."""
    if name in above:
        raise Unreadable(f"{name} calls itself, and how deep its calls go is not told here")
    if name not in known:
        raise Unreadable(f"{name} is called and is not in the archive")
    frame = known[name]
    ways = [deepest(known, callee, (*above, name)) for callee in frame.calls]
    depth, way = max(ways, default=(0, ()))
    return frame.own + depth, (name, *way)
