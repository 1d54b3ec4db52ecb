"""How long the last check took and how big each crate is, as the table that a landing's note carries.

Reads what `.ci/refused` left under target/: its checks begin with what earlier ones kept on this machine, so a crate's time is that of what
had changed since. A crate without edits has none.
Lines are without blank ones and comments. An edit's time is the mean over the crate's must-fail edits, each of which tries several
wrong answers.
--totals needs no check: lines of all crates together, and the longest line and the files over 300 lines of crates, model and tools.
Exit status: 0 printed; 1 a write failed; 2 wrong use, or nothing is checked yet."""

import re
import sys
from pathlib import Path
from typing import List, Union

from .arguments import parser_of
from .edits import refusers
from .places import ROOT, crate_folder, crates_of
from .sources import lines_of, written_files

COLUMNS = ("Crate", "Check", "An edit", "Code", "Definitions", "Proof", "Functions", "`axioms=`", "Wrong answers")
HEAD = f"| {' | '.join(COLUMNS)} |\n|{'---|' * len(COLUMNS)}"
TOTALS_HEAD = "| Total | |\n|---|---|"
PARTS = {"code": "src", "definitions": "specs", "proof": "proofs"}
LONG_FILE = 300


def seconds_in(text: str, pattern: str) -> List[int]:
    """The seconds that a log names after a pattern."""
    return [int(found) for found in re.findall(pattern + r".*?(\d+) s\)", text)]


def number_in(text: str, word: str) -> str:
    """The number after a word such as `functions=` on the verdict's line, or 0."""
    found = re.search(rf"^logic=proved.* {word}=(\d+)", text, re.M)
    return found[1] if found else "0"


def shown(count: Union[int, str]) -> str:
    """A count, or a dash for none."""
    return str(count) if count not in (0, "0") else "-"


def row(root: Path, name: str) -> str:
    """The row of one crate."""
    crate, log = crate_folder(name, root), root / "target" / "log" / f"{name}.out"
    said = log.read_text() if log.exists() else ""
    check = seconds_in(said, rf": {name} proved \(")
    wrong = sum(len(refusers(edit)) for edit in (crate / "must-fail").glob("*.edit"))
    tried = [out.read_text() for out in (root / "target" / "must-fail" / name).glob("*.out")]
    took = [seconds for text in tried for seconds in seconds_in(text, "refused, as it must be")]
    cells = [
        name,
        f"{check[0]} s" if check else "-",
        f"{sum(took) / len(took):.0f} s" if took else "-",
        *(shown(lines_of(crate / part)) for part in PARTS.values()),
        shown(number_in(said, "functions")),
        shown(number_in(said, "axioms")),
        shown(wrong),
    ]
    return f"| {' | '.join(cells)} |"


def totals(root: Path) -> List[str]:
    """The rows of the totals."""
    crates = [crate_folder(name, root) for name in crates_of(root)]
    rows = [(f"lines of {word}", f"{sum(lines_of(crate / part) for crate in crates):,}") for word, part in PARTS.items()]
    lines = {file: file.read_bytes().splitlines() for file in written_files(root)}
    length, longest = max(((len(line), file) for file, found in lines.items() for line in found), default=(0, root))
    over = sum(len(found) > LONG_FILE for found in lines.values())
    rows += [
        ("longest line", f"{length} bytes, in {longest.relative_to(root)}"),
        (f"files over {LONG_FILE} lines", f"{over} of {len(lines)}"),
    ]
    return [f"| {name} | {value} |" for name, value in rows]


def main() -> int:
    """Prints the table, or that of the totals."""
    parser = parser_of("measure", __doc__)
    parser.add_argument("--totals", action="store_true", help="the totals alone")
    if parser.parse_args().totals:
        print(TOTALS_HEAD, *totals(ROOT), sep="\n")
        return 0
    if not (ROOT / "target" / "log").exists():
        print("Nothing is checked here yet: run `.ci/refused` first, and `tools/measure` then reads what it left.", file=sys.stderr)
        return 2
    print(HEAD, *(row(ROOT, name) for name in crates_of(ROOT)), sep="\n")
    return 0
