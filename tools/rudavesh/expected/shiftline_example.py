"""What the program shiftline reads and must print. First document 01's own example: its input, made from the paper's numbers, and its
output, typed from the paper, with the letters of M-105. Behind it a shaft that turns on, for more bytes than the program reads at once, a
small pump with two Hall sensors (M-101), then an unknown record with whole ones after it, and the lines that the paper's rules give."""

from ..line_form import NO_FATE, Report, written
from ..record_form import CYCLE, LOAD, LOAD_WITH_SENSORS, TICK
from . import Files

# The paper's settings are what a load of the text form takes by default, and so are the fields of its tick.
QUIET = TICK.defaults
CLEARS = [1 if one.name == "clear" else one.default for one in TICK.fields]
OVER_VOLTAGE = [3001 if one.name == "VdcFilt" else one.default for one in TICK.fields]

INPUT = b"".join([
    CYCLE.packed(1, 0, 0),
    LOAD.packed(*LOAD.defaults),
    CYCLE.packed(1, 0, 0),
    CYCLE.packed(3, 0, 0),
    TICK.packed(*QUIET),
    TICK.packed(*OVER_VOLTAGE),
])  # fmt: skip

# As document 01 has it, and a board before M-105 prints it.
EARLIER_OUTPUT = """\
3 IDLE........ 0 0000 +00000 00000000 +00000
0 STOP........ 0 0000 +00000 00000000 +00000
0 STOP........ 0 0000 +00000 00000000 -05462
0 STOP........ 0 0000 +00000 00000001 +00000
0 OFFSETCAL... 0 0000 +00000 00000001 +00000
0 FAULT....... 0 0004 +00000 00000001 +00000
"""

# M-105: a refused cycle, a load, the first pattern, a step forward, and two ticks.
LETTERS = "..FW.."
OUTPUT = "".join(f"{line} {letter}\n" for line, letter in zip(EARLIER_OUTPUT.splitlines(), LETTERS))

# "Clockwise order is 1, 3, 2, 6, 4, 5, then 1." The example ends with pattern 3 kept, at position 1. Each step after it adds 1 to the
# position, and its angle is the boundary crossed, "3/2, 2/6, 6/4, 4/5, 5/1" and "1/3: k = 2, 4, 6, 8, 10" and 0. FAULT and its flag stay.
# M-105: each is a step forward, and a refused load tells of no sample.
STEPS = 1400  # 8,400 bytes: the program's buffer has 8,192, so that a record is cut there
TURN = [(2, 10922), (6, 21845), (4, -32768), (5, -21846), (1, -10923), (3, 0)]


def turned(step: int, number: int = 0, fate: str = "W") -> str:
    """The line of a step, from 0."""
    return written(Report(number, "FAULT", gate=0, live=4, reference=0, position=step + 2, angle=TURN[step % 6][1], fate=fate))


TURNING = b"".join(CYCLE.packed(TURN[step % 6][0], 0, 0) for step in range(STEPS))
TURNED = "".join(turned(step) for step in range(STEPS))


def stopped(number: int, position: int, angle: int, fate: str = NO_FATE) -> str:
    """The line of a record in STOP with nothing live."""
    return written(Report(number, "STOP", 0, 0, 0, position, angle, fate))


# M-101: a record M is refused with 4 in FAULT; after a clear it brings a motor with two sensors. "the clockwise order is 1, 3, 2, 0",
# "A clockwise step adds the width of the sector left", 2, 1, 2 and 1, and its angle is the end of that sector, 0, 60, 180 and 240 degrees:
# k = 0, 2, 6, 8. The first pattern gives its middle, -60 degrees, k = 10. "pattern above 3 with two sensors is 1".
TWO_SENSORS = LOAD_WITH_SENSORS.packed(*LOAD.defaults, 2)
SMALL_PUMP = b"".join([
    TWO_SENSORS,
    TICK.packed(*CLEARS),
    TWO_SENSORS,
    *(CYCLE.packed(pattern, 0, 0) for pattern in (1, 3, 2, 0, 4, 1)),
])  # fmt: skip
PUMPED = (
    turned(STEPS - 1, number=4, fate=NO_FATE)
    + stopped(0, STEPS + 1, TURN[(STEPS - 1) % 6][1])
    + stopped(0, 0, 0)
    + stopped(0, 0, -10923, "F")
    + stopped(0, 2, 0, "W")
    + stopped(0, 3, 10922, "W")
    + stopped(0, 5, -32768, "W")
    + stopped(1, 5, -32768)
    + stopped(0, 6, -21846, "W")
)

# "a line with number 6 shows the unchanged state and ends the run": no record is called X, and behind it stand a step, and a tick that
# would trip. The line is the last one with number 6, and none follows it.
UNKNOWN = b"X" + CYCLE.packed(3, 0, 0) + TICK.packed(*OVER_VOLTAGE)
ENDING = stopped(6, 6, -21846)


def files() -> Files:
    return {"stdin": INPUT + TURNING + SMALL_PUMP + UNKNOWN, "stdout": (OUTPUT + TURNED + PUMPED + ENDING).encode("ascii")}
