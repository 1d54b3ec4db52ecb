"""Runs the proved programs, shiftline, benchline and blockline, and the independent model (model/, written from documents 01 and 02 and the
page on bench formats alone) over the same generated records, and counts the lines in which they differ. Default: 40 seeds of 25,000
records, and three of 150,000 for what is slow; of blockline, whose records are longer, a tenth of these.
Exit status: 0 no line differs; 1 some do, or a write failed; 2 wrong use, cargo or the kit is missing, or one of the programs failed."""

import re
import shutil
import subprocess
import sys
import tempfile
from pathlib import Path
from typing import Callable, List, NamedTuple, Tuple

from . import model
from .arguments import from_one, parser_of
from .places import TOOLS

SEEDS, RECORDS = 40, 25_000
LONG_SEEDS, LONG_RECORDS = (4, 7, 9), 150_000
SHOWN_OF_REACHED = re.compile("streams|records|listed|counted|at zero|benchline|blockline")


class Compared(NamedTuple):
    """A proved program by the tools' word for it, the records that it is run on, its lines by the model, and what streams reach."""

    word: str
    generated: Callable[[int, int], bytes]
    lines: Callable[[bytes], bytes]
    reached: Callable[[List[Path]], List[str]]
    share: int = 1  # of so many records that are asked for, one is made: where a record holds a whole image, they are long


PROGRAMS = [
    Compared("shiftline", model.generated, model.lines, model.reached),
    Compared("benchline", model.generated_for_bench, model.bench_lines, model.bench_reached),
    Compared("blockline", model.generated_for_blocks, model.block_lines, model.blocks_reached, share=10),
]


def proved(word: str, records: Path) -> bytes:
    """The lines of a proved program."""
    with records.open("rb") as stream:
        return subprocess.run([TOOLS / "run", word], stdin=stream, stdout=subprocess.PIPE, check=True).stdout


def difference(expected: Path, found: Path) -> List[str]:
    """The lines that `diff` prints of two files."""
    done = subprocess.run(["diff", "--speed-large-files", expected, found], stdout=subprocess.PIPE, check=False)
    return done.stdout.decode("ascii", errors="replace").splitlines()


def compare(work: Path, program: Compared, seed: int, records: int) -> Tuple[int, int]:
    """Lines compared, and lines that differ, of the stream of one seed."""
    stream, by_model, by_program = work / f"{program.word}.{seed}.{records}", work / "model", work / "proved"
    stream.write_bytes(program.generated(seed, max(1, records // program.share)))
    by_model.write_bytes(program.lines(stream.read_bytes()))
    by_program.write_bytes(proved(program.word, stream))
    compared = by_model.read_bytes().count(b"\n")
    if by_model.read_bytes() == by_program.read_bytes():
        return compared, 0
    told = difference(by_model, by_program)
    different = sum(line.startswith(("<", ">")) for line in told)
    print(f"{program.word}, seed {seed}: {different} lines differ; the first:", *told[:4], sep="\n", flush=True)
    return compared, different


def main() -> int:
    parser = parser_of("compare", __doc__)
    parser.add_argument("seeds", nargs="?", type=from_one, metavar="SEEDS", help=f"streams to compare ({SEEDS})")
    parser.add_argument("records", nargs="?", type=from_one, default=RECORDS, metavar="RECORDS", help=f"records of each ({RECORDS:,})")
    given = parser.parse_args()
    if not model.can_be_built():
        print(model.NO_CARGO, file=sys.stderr)
        return 2
    if not shutil.which("rt"):
        print("The Rattle kit is missing: its command rt is not on the PATH.", file=sys.stderr)
        return 2
    todo = [(seed, given.records) for seed in range(1, (given.seeds or SEEDS) + 1)]
    if given.seeds is None:
        todo += [(seed, LONG_RECORDS) for seed in LONG_SEEDS]
    model.build()
    with tempfile.TemporaryDirectory() as folder:
        work = Path(folder)
        counts = [compare(work, program, seed, records) for program in PROGRAMS for seed, records in todo]
        for program in PROGRAMS:
            reached = program.reached(sorted(work.glob(f"{program.word}.*")))
            print(*(line for line in reached if SHOWN_OF_REACHED.match(line)), sep="\n")
    different = sum(count for _, count in counts)
    print(f"{sum(count for count, _ in counts)} lines compared, {different} differences")
    return 1 if different else 0
