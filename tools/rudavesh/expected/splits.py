"""What the program splits reads and must print: records in the readable text form, and their lines by the independent model."""

import io

from .. import model
from ..records_text import read_text, write_text
from . import Files

# Every kind of record and of refusal, and what a drive carries from call to call: sums, counts, position, flags, arming.
# The last record is unknown, and three bytes of a known one stand behind it.
TEXT = """
cycle 1                       # IDLE: refused with 3
load OffsetPsc=7 TCatchSpin=0
tick command=0                # OFFSETCAL, armed
repeat 8 {                    # a turn, with a dead and a stray pattern
  cycle 1 2051 2044
  cycle 3 2050 2045
  cycle 2 2049 2046
  cycle 0 2048 2047
  cycle 6 2047 2048
  cycle 4 2046 2049
  cycle 5 4095 4095
  cycle 2 0 0
}
tick                          # STOP: 64 cycles done
tick command=1                # BTSCHARGE: the start
cycle 8                       # refused with 1
repeat 3 cycle 4
tick                          # CATCHSPIN
tick gate_kill=1              # FAULT
load                          # refused with 4
tick gate_kill=0 clear=1      # STOP
load sensors=2                # two Hall sensors
cycle 0                       # kept; then forward, stray and back
cycle 1
cycle 2
cycle 0
cycle 4                       # refused with 1
load sensors=1                # refused with 2
raw 58 43 01 00
"""

# So many bytes less, and the second run ends between two records, the third in a short load of 25 numbers.
UNKNOWN = 4
CUT = 20


def records() -> bytes:
    whole, errors = read_text(TEXT)
    assert not errors, errors
    written = io.BytesIO()
    write_text(whole, written)
    return written.getvalue()


def told(stream: bytes) -> bytes:
    """The lines, and that none of the splits, before each byte and behind the last, differs."""
    return model.lines(stream) + b"%d splits, 0 differ\n" % (len(stream) + 1)


def files() -> Files:
    made = records()
    return {"stdin": made, "stdout": told(made) + told(made[:-UNKNOWN]) + told(made[:-CUT])}
