"""How strong the promises are: changes one token of a crate's code at a time, and asks the prover about each change.

A change is an operator, a number up by one, a truth value, a test denied, the last byte of a text, a field read in place of its
neighbour, or a store dropped (a field left as it was). A public constant is left alone: the crates above hold it, not its own.
A change that the prover refuses did not get through: a promise rules it out, or the prover does not cover the changed code, or a
proof file no longer fits it; these are counted as one. One that it accepts (a survivor) is a gap in a promise, or an equal program.
One that leaves no program, since its types do not fit, shows nothing.
Without CRATE: every crate with code that others call. --list shows the changes and asks nothing; --every N asks about each N-th.
Exit status: 0 none survived, or listed; 1 some did, or a write failed; 2 wrong use, the kit is missing, or the crates are
not proved as they stand."""

import re
import shutil
import subprocess
import sys
import tempfile
from concurrent.futures import ThreadPoolExecutor
from dataclasses import dataclass
from pathlib import Path
from queue import Queue

from .arguments import from_one, parser_of
from .places import ROOT, crate_folder, crates_of
from .sources import called_crates

WORKERS = 2

OPERATORS = {
    "<": "<=", "<=": "<", ">": ">=", ">=": ">", "==": "!=", "!=": "==",
    "+": "-", "-": "+", "*": "+", "/": "*", "%": "/", "&": "|", "|": "&", "&&": "||", "||": "&&",
}  # fmt: skip
TOKEN = re.compile(
    r" (?P<operator><=|>=|==|!=|&&|\|\||[<>+\-*/%&|]) |\b(?P<number>\d+)\b|\b(?P<truth>true|false)\b|(?P<denial>!)(?=[a-z(])"
    r"|b(?P<quote>[\"'])(?P<text>[^\"'\\]+)(?P=quote)|(?P<test>\bif )(?=[a-z_]+ \{)"
)
FIELD = re.compile(r"\b(?P<owner>[a-z_]+)\.(?P<field>[a-z_]+)\b(?!\()")
STORE = re.compile(r"^(?P<indent> +)(?P<field>[a-z_]+)(?:: [^{}]+)?,$")
STRUCT = re.compile(r"^(?:pub )?struct \w+ \{\n(.*?)^\}", re.M | re.S)
DECLARED = re.compile(r"^ +(?:pub )?([a-z_]+): ([^,]+),$", re.M)


@dataclass(frozen=True)
class Change:
    """One line of one file, as it is and as it is changed."""

    crate: str
    file: str
    line: int
    old: str
    new: str

    def __str__(self) -> str:
        return f"{self.crate}/{self.file}:{self.line}: {self.old.strip()}  ->  {self.new.strip()}"


def code_lines(text: str) -> list[int]:
    """The indexes of the lines in function bodies and constants: no contract, no comment, no declaration."""
    kept, inside, declares = [], False, False
    for index, line in enumerate(text.split("\n")):
        bare = line.strip()
        if re.match(r"(pub )?(struct|enum|impl)\b", bare):
            declares = bare.endswith("{") and not bare.startswith("impl")
        elif re.match(r"(pub(\(crate\))? )?fn\b", bare):
            inside = bare.endswith("{")
        elif bare == "{":
            inside = True
        elif re.match(r"(pub\(crate\) )?const\b.*;$", bare):
            kept.append(index)
        elif re.match(r"(pub\(crate\) )?const\b", bare):
            inside = True
        elif line in ("}", "};", "];"):
            inside, declares = False, False
        elif inside and not declares and not re.match(r"//|ensures|requires|invariant|decreases|ghost|proof", bare):
            kept.append(index)
    return kept


def neighbours(text: str) -> dict[str, str]:
    """For each field of the crate's structs another of the same type in the same struct."""
    found: dict[str, str] = {}
    for struct in STRUCT.findall(text):
        by_type: dict[str, list[str]] = {}
        for name, kind in DECLARED.findall(struct):
            by_type.setdefault(kind, []).append(name)
        for names in by_type.values():
            if len(names) > 1:
                found.update({name: names[(at + 1) % len(names)] for at, name in enumerate(names)})
    return found


def changed_lines(line: str, fields: dict[str, str]) -> list[str]:
    """Every change of one token of a line."""
    code = line.split("//")[0]
    found = []
    for match in TOKEN.finditer(code):
        if token := match["operator"]:
            new = f" {OPERATORS[token]} "
        elif token := match["number"]:
            new = str(int(token) + 1)
        elif token := match["truth"]:
            new = "false" if token == "true" else "true"
        elif match["test"]:
            new = "if !"
        elif token := match["text"]:
            new = f"b{match['quote']}{token[:-1]}{'.' if token[-1] != '.' else '_'}{match['quote']}"
        else:
            new = ""
        found.append(code[: match.start()] + new + code[match.end() :])
    for match in FIELD.finditer(code):
        if match["field"] in fields:
            found.append(code[: match.start("field")] + fields[match["field"]] + code[match.end("field") :])
    store = STORE.match(code)
    if store and f"self.{store['field']}," not in code:
        found.append(f"{store['indent']}{store['field']}: self.{store['field']},")
    return found


def changes(crate: str) -> list[Change]:
    """Every change of a crate's code."""
    files = sorted((crate_folder(crate) / "src").glob("**/*.rt"))
    fields = neighbours("\n".join(file.read_text() for file in files))
    found = []
    for file in files:
        text = file.read_text()
        lines = text.split("\n")
        for index in code_lines(text):
            for new in changed_lines(lines[index], fields):
                found.append(Change(crate, str(file.relative_to(crate_folder(crate))), index + 1, lines[index], new))
    return found


def check(crate: str, place: Path) -> "subprocess.CompletedProcess[str]":
    """A check of a crate in the copy at `place`."""
    return subprocess.run(["rt", "check", "--jobs", "1"], cwd=crate_folder(crate, place), stdin=subprocess.DEVNULL,
                          stdout=subprocess.PIPE, stderr=subprocess.STDOUT, text=True, errors="replace", check=False)  # fmt: skip


def asked(change: Change, place: Path) -> str:
    """What the prover says of a change in the copy at `place`: refused, survived, or no program (it has not even a type)."""
    file = crate_folder(change.crate, place) / change.file
    text = file.read_text()
    lines = text.split("\n")
    lines[change.line - 1] = change.new
    file.write_text("\n".join(lines))
    try:
        done = check(change.crate, place)
        if done.returncode == 0:
            return "survived"
        return "refused" if re.search(r"^logic=not-proved", done.stdout, re.M) else "no program"
    finally:
        file.write_text(text)


def main() -> int:
    """Asks about every change and reports."""
    parser = parser_of("strength", __doc__)
    parser.add_argument("--list", action="store_true", help="show the changes and ask nothing")
    parser.add_argument("--every", type=from_one, default=1, metavar="N", help="ask about each N-th change")
    parser.add_argument("crate", nargs="*", metavar="CRATE", help="crates of crates.txt")
    chosen = parser.parse_args()
    for crate in chosen.crate:
        if crate not in crates_of(ROOT):
            parser.error(f"crates.txt lists no {crate}")
    crates = chosen.crate or called_crates()
    todo = [change for crate in crates for change in changes(crate)][:: chosen.every]
    if chosen.list:
        print(*todo, sep="\n")
        print(f"{len(todo)} changes")
        return 0
    if not shutil.which("rt"):
        print("The Rattle kit is missing: its command rt is not on the PATH.", file=sys.stderr)
        return 2

    counts = {"refused": 0, "survived": 0, "no program": 0}
    with tempfile.TemporaryDirectory() as folder:
        places: Queue[Path] = Queue()
        first = Path(folder) / "1"
        shutil.copytree(ROOT, first, ignore=shutil.ignore_patterns(".git", "model", "out", "target"))
        for crate in crates:
            check(crate, first).check_returncode()
        places.put(first)
        for number in range(2, WORKERS + 1):
            places.put(Path(shutil.copytree(first, Path(folder) / str(number))))

        def ask(change: Change) -> tuple[Change, str]:
            place = places.get()
            try:
                return change, asked(change, place)
            finally:
                places.put(place)

        with ThreadPoolExecutor(WORKERS) as pool:
            for change, said in pool.map(ask, todo):
                counts[said] += 1
                if said == "survived":
                    print(f"survived: {change}", flush=True)
    print(f"{len(todo)} changes: {counts['refused']} refused, {counts['survived']} survived, {counts['no program']} no program")
    return 1 if counts["survived"] else 0
