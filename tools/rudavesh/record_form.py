"""The form of a record: its kinds with their letters, fields, sizes, ranges and defaults, as document 01 and the requests of 02 that have
landed lay them down.

A new field is a line in the list of its kind, a new kind one more entry of KINDS and of ALL_KINDS; text form, help and expected outputs
follow."""

import struct
from dataclasses import dataclass
from functools import cached_property
from typing import Callable, List, NamedTuple, Optional, Tuple

# What the bytes of a field can hold, by its letter in `struct`. These are limits of the bytes, not of the paper: a value that the
# supervisor must refuse has to reach it, so that one can try.
LIMITS = {"B": (0, 255, "one byte"), "H": (0, 65535, "two bytes"), "h": (-32768, 32767, "two bytes, signed")}


class Relation(NamedTuple):
    """What a setting has to keep to another one."""

    words: str
    other: str
    holds: Callable[[int, int], bool]  # of its value and the other's


def below(other: str, by: int = 1) -> Relation:
    """It lies below another, by so much at least."""
    words = "below" if by == 1 else f"at least {by} below"
    return Relation(words, other, lambda value, bound: value <= bound - by)


def not_below(other: str) -> Relation:
    return Relation("not below", other, lambda value, bound: value >= bound)


class Field(NamedTuple):
    """One field of a record."""

    name: str
    form: str  # a key of LIMITS
    default: int
    range: Optional[Tuple[int, int]]  # least and most that the paper allows; None where it says "any"
    relation: Optional[Relation] = None
    note: str = ""  # only --help shows it

    @property
    def rule(self) -> str:
        """The range that the paper allows, in its words."""
        ends = "any" if self.range is None else f"{self.range[0]}..{self.range[1]}"
        return ends + (f", {self.relation.words} {self.relation.other}" if self.relation else "")

    @property
    def paper(self) -> str:
        """The same, with what --help says of it."""
        return self.rule + self.note

    @property
    def held(self) -> Tuple[int, int]:
        """Least and most that its bytes hold."""
        return LIMITS[self.form][:2]

    def allows(self, value: int) -> bool:
        """Whether the paper's range has the value."""
        return self.range is None or self.range[0] <= value <= self.range[1]


@dataclass(frozen=True)
class Kind:
    """One kind of record."""

    word: str
    letter: str
    keeps: bool  # a field left out keeps the value of the line before
    note: str  # for --help
    fields: Tuple[Field, ...]
    first_alone: bool = False  # its first field may be given without the others
    wider: Optional["Kind"] = None  # the kind of the same word that has further fields, and that it is where one of these is given

    @cached_property  # once for all the records of its kind
    def form(self) -> str:
        """As `struct` writes it: numbers are two bytes, high first, signed ones in two's complement."""
        return ">c" + "".join(one.form for one in self.fields)

    @property
    def size(self) -> int:
        """Bytes of a whole record, its letter included."""
        return struct.calcsize(self.form)

    @property
    def defaults(self) -> List[int]:
        return [one.default for one in self.fields]

    def place(self, name: str) -> int:
        """The place of a field, from 1."""
        return [one.name for one in self.fields].index(name) + 1

    def packed(self, *values: int) -> bytes:
        """The bytes of a record with these values."""
        return struct.pack(self.form, self.letter.encode(), *values)


BIT, LEVEL, SPEED, TIME = (0, 1), (0, 4095), (0, 16383), (1, 65535)
REACH = (-32767, 32767)

SETTINGS = (
    Field("ControlMode", "H", 0, BIT),
    Field("FaultEnable", "H", 65535, None),
    Field("VdcOvLevel", "H", 3000, LEVEL),
    Field("VdcLvLevel", "H", 1000, LEVEL, below("VdcOvLevel")),
    Field("CriticalOvLevel", "H", 3500, LEVEL, not_below("VdcOvLevel")),
    Field("Tshutdown", "H", 3500, LEVEL),
    Field("RotorLockTime", "H", 100, TIME),
    Field("FluxFaultTime", "H", 800, TIME),
    Field("HallTimeoutPeriod", "H", 100, TIME),
    Field("HallAngleOffset", "h", 0, None, note=", signed"),
    Field("MinSpd", "H", 600, SPEED),
    Field("SpdRampRate", "H", 64, (0, 32767)),
    Field("MotorLim", "H", 4095, (1, 4095)),
    Field("OffsetPsc", "H", 7, (0, 7)),
    Field("BtsChargeTime", "H", 3, None),
    Field("TCatchSpin", "H", 0, None),
    Field("DirectStartThr", "H", 300, SPEED),
    Field("IS_Pulses", "H", 0, (0, 255)),
    Field("ParkTime", "H", 0, None),
    Field("OpenLoopRamp", "H", 0, None),
    Field("CmdStart", "H", 400, LEVEL),
    Field("CmdStop", "H", 300, LEVEL, below("CmdStart")),
    Field("CmdGain", "H", 4096, None),
    Field("RetryLimit", "H", 2, (0, 100)),
)  # fmt: skip
# M-101: "Setting 25 chooses 2 or 3 sensors; a load of 24 numbers means 3. A program record M carries 25."
SENSORS = Field("sensors", "H", 3, (2, 3), note=", Hall sensors; a load that names it is record M, with 25 numbers")
LOAD_WITH_SENSORS = Kind("load", "M", False, "What is left out takes its default.", SETTINGS + (SENSORS,))
LOAD = Kind("load", "L", False, "What is left out takes its default.", SETTINGS, wider=LOAD_WITH_SENSORS)
# "Refusals: pattern above 3 with two sensors is 1"
MOST_PATTERN = {3: 7, 2: 3}
CYCLE = Kind("cycle", "C", True, "What is left out keeps its last value.", (
    Field("pattern", "B", 1, (0, MOST_PATTERN[3]), note=f", with two Hall sensors 0..{MOST_PATTERN[2]}; 'cycle 3' gives the pattern alone"),
    Field("first", "H", 2048, LEVEL, note=", first current sample"),
    Field("second", "H", 2048, LEVEL, note=", second current sample"),
), first_alone=True)  # fmt: skip
TICK = Kind("tick", "T", True, "What is left out keeps its last value, clear=1 too.", (
    Field("gate_kill", "B", 0, BIT),
    Field("clear", "B", 0, BIT),
    Field("command", "B", 0, BIT),
    Field("control", "H", 0, LEVEL),
    Field("VdcRaw", "H", 2623, LEVEL),
    Field("VdcFilt", "H", 2623, LEVEL),
    Field("temperature", "H", 1000, LEVEL),
    Field("Flx_M", "H", 2048, (0, 65535)),
    Field("TrqRef", "h", 0, (-4095, 4095)),
    Field("speed", "h", 0, REACH),
    Field("target", "h", 0, REACH),
))  # fmt: skip
# One for each word of the text form, and all of them.
KINDS = (LOAD, CYCLE, TICK)
ALL_KINDS = (LOAD, LOAD_WITH_SENSORS, CYCLE, TICK)
SIZES = {kind.letter: kind.size for kind in ALL_KINDS}


def whole_records(content: bytes) -> List[bytes]:
    """The records that some bytes begin with; an unknown or a short one ends them."""
    found, place = [], 0
    while place < len(content):
        end = place + SIZES.get(chr(content[place]), len(content) + 1)
        if end > len(content):
            break
        found.append(content[place:end])
        place = end
    return found
