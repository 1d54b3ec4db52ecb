"""What the program benchline reads and must print: each refusal in each state, a generated stream, longer than one read, loads of any
length, and records in the readable text form; their lines by the independent model. Of the refusals the tables of document 01, and M-101
and M-102 of document 02, say number and place, too."""

import io

from .. import model
from ..record_form import LOAD
from ..records_text import read_text, write_text
from . import Files
from .loads import numbered
from .refusals import cases

GOOD = list(LOAD.defaults)

# Every length that is near a rule of lengths, a setting that breaks its rule, and loads of 24 and 25 good numbers.
LOADS = [[], GOOD[:1], GOOD[:23], GOOD + [0], GOOD + [2, 2], (GOOD * 11)[:255], [2, *GOOD[1:]], GOOD + [2], GOOD + [3], GOOD]

# What the line of shiftline does not show: places, and two offsets that differ. A retry would take 10,000 ticks: `tools/compare` has them.
TEXT = """
cycle 8                       # refused with 1: place 1
load OffsetPsc=7 TCatchSpin=0
tick command=0                # OFFSETCAL
repeat 64 cycle 1 2051 2044
tick                          # STOP: two offsets
tick gate_kill=1              # FAULT
tick temperature=4096         # refused with 1: place 7
load VdcOvLevel=4096          # refused with 4 before 2
tick clear=1 gate_kill=0 temperature=1000
                              # STOP
load VdcOvLevel=4096          # refused with 2: place 3
load sensors=4 RetryLimit=101 # refused with 2: place 24 before 25
load sensors=4                # refused with 2: place 25
load sensors=2 OffsetPsc=7
cycle 1                       # a turn of six counts, and two sectors back
cycle 3
cycle 2
cycle 0
cycle 1
cycle 0
cycle 2
cycle 4                       # refused with 1: place 1
repeat 2 cycle 1
cycle 1                       # flag 15: three strays
tick gate_kill=0 clear=0      # FAULT
tick clear=1                  # STOP: no cause stands
load                          # three sensors again
repeat 2 cycle 0              # flag 15: two dead samples
"""

# The generated stream comes after the refusals, from STOP, and ends between two records with the gates on. Its seed is one of the
# generator's theme of motors with two sensors: every tenth. Where it no longer serves, the first one that does is told.
SEED, RECORDS = 1181, 600
THEME = range(1, 100_000, 10)
GATE = 3  # the column of the gate, from 0
STOPPED = "tick gate_kill=1 VdcRaw=0\ntick clear=1 gate_kill=0 VdcRaw=0"

# A load that the input cuts short ends the run.
SHORT = numbered(GOOD)[:-1]


def packed(text: str) -> bytes:
    """Records of the readable text form."""
    whole, errors = read_text(text)
    assert not errors, errors
    written = io.BytesIO()
    write_text(whole, written)
    return written.getvalue()


def opening(seed: int) -> bytes:
    """The refusals, from power-up to STOP, and what is generated behind them."""
    return b"".join(case.record for case in cases()) + packed(STOPPED) + model.generated_for_bench(seed, RECORDS)


def serves(seed: int) -> bool:
    """Whether what is generated of a seed ends between two records, with the gates on."""
    lines = model.bench_lines(opening(seed)).decode("ascii").splitlines()
    return "?" not in lines and lines[-1].split()[GATE] != "0"


def records() -> bytes:
    if not serves(SEED):
        raise SystemExit(f"{__name__}: seed {SEED} no longer serves. The first that does is {next(filter(serves, THEME))}: write it there.")
    return opening(SEED) + packed(STOPPED) + b"".join(map(numbered, LOADS)) + packed(TEXT) + SHORT


def files() -> Files:
    made = records()
    lines = model.bench_lines(made)
    for number, (case, line) in enumerate(zip(cases(), lines.decode("ascii").splitlines()), 1):
        assert f"{line} ".startswith(f"{case.line} "), f"record {number}: the tables of the paper say {case.line}, the model {line}"
    return {"stdin": made, "stdout": lines}
