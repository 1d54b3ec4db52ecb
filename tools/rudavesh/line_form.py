"""The form of a report line, as document 01's section "Report line and program" and M-105 of document 02 lay it down, and what its numbers
and letters mean.

Lines of every form of FORMS can be read, so that logs of earlier boards still are; lines are written in the first of them.
A new form is one more entry of FORMS and a field of Report with a default for the lines that lack it."""

import re
from typing import Any, Callable, NamedTuple, Optional

# By their numbers.
STATES = ("IDLE", "STOP", "OFFSETCAL", "BTSCHARGE", "MOTORRUN", "FAULT", "CATCHSPIN", "PARKING", "OPENLOOP", "ANGLESENSING")
GATES = ("off", "charge", "drive", "brake (low sides on)")
# The bits of the live word that the calls of `shiftline` set.
BITS = {
    0: "gate kill",
    1: "critical over-voltage",
    2: "over-voltage",
    3: "under-voltage",
    4: "flux",
    6: "over-temperature",
    7: "rotor lock",
    14: "Hall time-out",
    15: "Hall pattern",
}
# Those that the block load sets, a call of `benchline` alone. Always live, and only in IDLE.
BITS_OF_BLOCKS = {12: "stored block refused"}
ALL_BITS = {**BITS, **BITS_OF_BLOCKS}
BITS_OF_THE_WORD = 16
REFUSALS = {
    1: "field out of range",
    2: "bad setting",
    3: "cycle or tick in IDLE",
    4: "load while not stopped",
    6: "unknown or short",
    7: "image malformed",
    8: "block above 14",
    9: "block empty",
}
MOST_NUMBER = 15  # one digit
# What became of a cycle's Hall sample: M-105. Any other line has the full stop; a line of an earlier board has no letter at all.
FATES = {"F": "first", "S": "same", "W": "forward", "B": "back", "D": "dead", "X": "stray"}
BAD_FATES = "DX"
NO_FATE = "."
UNTOLD = ""


class Report(NamedTuple):
    """What a line says."""

    number: int
    state: str
    gate: int
    live: int
    reference: int
    position: int
    angle: int
    fate: str = UNTOLD


class Column(NamedTuple):
    """One part of a line; a space follows it, and the line feed the last."""

    name: str  # the field of Report
    width: int
    pattern: str
    read: Callable[[str], Any]
    write: Callable[[Any], str]


def hexadecimal(name: str, width: int) -> Column:
    return Column(name, width, f"[0-9A-F]{{{width}}}", lambda text: int(text, 16), lambda value: f"{value:0{width}X}")


def signed(name: str) -> Column:
    """A sign and five digits; zero has a plus."""
    return Column(name, 6, r"\+[0-9]{5}|-(?!00000)[0-9]{5}", int, "{:+06d}".format)


def padded(state: str) -> str:
    return f"{state:.<12}"


class Form:
    """The columns of a line, its bytes with the line feed, and what it looks like without."""

    def __init__(self, *columns: Column) -> None:
        self.columns = columns
        self.length = sum(column.width + 1 for column in columns)
        self.pattern = re.compile(" ".join(f"(?P<{column.name}>{column.pattern})" for column in columns))

    def read(self, text: str) -> Optional[Report]:
        """The report of a line without its line feed, if it has this form."""
        match = self.pattern.fullmatch(text)
        return match and Report(**{column.name: column.read(match[column.name]) for column in self.columns})

    def written(self, report: Report) -> str:
        return " ".join(column.write(getattr(report, column.name)) for column in self.columns) + "\n"


FORM_OF_45_BYTES = Form(  # until M-105
    hexadecimal("number", 1),
    Column("state", 12, "|".join(re.escape(padded(state)) for state in STATES), lambda text: text.rstrip("."), padded),
    Column("gate", 1, f"[0-{len(GATES) - 1}]", int, str),
    hexadecimal("live", 4),
    signed("reference"),
    hexadecimal("position", 8),
    signed("angle"),
)
FORM_OF_47_BYTES = Form(
    *FORM_OF_45_BYTES.columns,
    Column("fate", 1, f"[{''.join(FATES)}{NO_FATE}]", str, lambda fate: fate or NO_FATE),
)
FORMS = (FORM_OF_47_BYTES, FORM_OF_45_BYTES)
LENGTH = FORMS[0].length


def read(text: str) -> Optional[Report]:
    """The report of a line without its line feed, if it has any of the forms."""
    return next((report for report in (form.read(text) for form in FORMS) if report), None)


def written(report: Report) -> str:
    """The line of a report that is accepted."""
    return FORMS[0].written(report)
