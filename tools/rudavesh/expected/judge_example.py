"""What the program judge reads and must print: the records and lines of shiftline's stored run, worked out from document 01, as a board
would print them that is wrong twice. Up to record 6 the lines are those of a board before M-105, without a letter. At record 4 it shows
another position, which demand 3 does not speak of; at record 6 it drives in FAULT, under a live flag. From record 7 on it is right again,
and the unknown record ends the run."""

from . import Files
from .shiftline_example import EARLIER_OUTPUT, ENDING, INPUT, OUTPUT, PUMPED, SMALL_PUMP, TURNED, TURNING, UNKNOWN

RIGHT = EARLIER_OUTPUT.splitlines(keepends=True)
POSITION, GATE = 3, 5  # records 4 and 6, from 0
MOVED = RIGHT[POSITION].replace(" 00000001 ", " 00000002 ")
DRIVING = RIGHT[GATE].replace(" 0 0004 ", " 2 0004 ")
PRINTED = RIGHT[:POSITION] + [MOVED, RIGHT[POSITION + 1], DRIVING]
CALLS = (OUTPUT + TURNED + PUMPED).count("\n")

SAID = f"""\
{CALLS} calls judged
record 4      the line differs from what the supervisor answers
  expected {RIGHT[POSITION]}  found    {MOVED}\
record 6      breaks demand 3, gates: they charge or drive, and a live fault stands or no permitted start was taken
record {CALLS + 1}   is unknown or cut short: the run ends there
"""


def files() -> Files:
    return {
        "stdin": INPUT + TURNING + SMALL_PUMP + UNKNOWN,
        "args": b"lines\n",
        "data/lines": ("".join(PRINTED) + TURNED + PUMPED + ENDING).encode("ascii"),
        "stdout": SAID.encode("ascii"),
    }
