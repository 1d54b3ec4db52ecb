"""What the line call takes: bytes of the stack, instructions and time. Of the tree as it stands, and of each REVISION beside it.

Of each tree the line call is proved and compiled to the optimised archive that `rt lib` makes of a static library for programs in C and Rust. The stack
is read off its machine code, which objdump prints: the frame of `report::line` (the address that it returns to, what it saves, by how much
it lowers the stack's pointer, how far below that it goes), and the deepest way through what it calls. A program in Rust then asks each
archive for a million lines: the best time of twenty runs, in turn; the instructions of a line on average, where valgrind can count them;
and whether the lines are the same. The archive is for x86-64.
Exit status: 0 measured, and the lines are the same, or with --most the stack suffices; 1 they are not, or it does not, or a write failed;
2 wrong use, or the kit, git, objdump or rustc is missing or failed."""

import hashlib
import os
import re
import shutil
import subprocess
import sys
import tarfile
import tempfile
from pathlib import Path
from typing import List, NamedTuple, Optional, Tuple

from .arguments import from_one, parser_of
from .frames import WORD, Frame, Unreadable, deepest, frames
from .places import PARTS, ROOT, crate_folder, crates_below, crates_of

LINE, CALL = "report::line", "line_for_c"  # the line call in the archive, and around it the one that C knows


def for_c(name: str, result: str, told: str) -> str:
    """A function for C around the line call. A line shows seven fields of an answer: the others, also those that later requests add, are as
    power-up has them."""
    return f"""
#[unsafe(no_mangle)]
pub extern "C" fn {name}(
    number: u8, state: u8, gate: u8, live: u16, reference: i16, position: u32, angle: i16, lent: &mut [u8]
) -> {result} {{
    let mut answer = answered(Drive::power_up(), number, 0);
    answer.state = state;
    answer.gate = gate;
    answer.live = live;
    answer.reference = reference;
    answer.position = position;
    answer.angle = angle;
    let told = report::line(answer, lent);
    {told}
}}
"""


# What the line call tells: number and place in one, and each. An earlier tree hands both back, one of today a refusal.
EARLIER = ("told.number as u16 * 256 + told.place as u16", "told.number", "told.place")
TODAY = tuple(f"match told {{ Ok(()) => 0, Err(refusal) => {of_it} }}" for of_it in (
    "refusal.number() as u16 * 256 + refusal.place() as u16", "refusal.number()", "refusal.place()"))  # fmt: skip


def source_of(place: Path) -> str:
    """The line call for C, of the crates in a folder. What is called in one place the compiler puts there. In three it stays a function of
    its own, as in a program, and its frame is its own."""
    refused = "enum Refusal" in (crate_folder("verdicts", place) / "src" / "lib.rt").read_text(encoding="utf-8")
    both, number, spot = TODAY if refused else EARLIER
    return "".join([
        "#![tactic(auto)]\n\nuse drive::Drive;\nuse drive::answer::answered;\n",
        for_c(CALL, "u16", both),
        for_c("number_for_c", "u8", number),
        for_c("place_for_c", "u8", spot),
    ])  # fmt: skip


CALLER = Path(__file__).with_name("million_lines.rs")
MILLION, COUNTED, RUNS = 1_000_000, 10_000, 20  # lines that are timed and compared, lines that valgrind counts, runs that are timed
NAMES = {"rt": "the Rattle kit is missing: its command rt", "objdump": "objdump (of binutils)"}
AS_IT_STANDS = "as it stands"


class Tree(NamedTuple):
    """A tree by its name, its folder, and the stack that its line call takes."""

    name: str
    place: Path
    frame: Frame  # of the line call
    depth: int  # the most that it takes, with all that it calls
    below: Tuple[str, ...]  # what it calls on that way
    from_c: int  # the most that the call from C takes, in which it is

    @property
    def program(self) -> Path:
        """The program that asks for its lines, once it is linked."""
        return self.place / CALLER.stem


def said(*words: object, folder: Optional[Path] = None) -> str:
    """What a command prints. Where it fails, that is passed on."""
    done = subprocess.run([str(word) for word in words], cwd=folder, stdout=subprocess.PIPE, stderr=subprocess.PIPE, text=True, check=False)
    if done.returncode:
        sys.stderr.write(done.stdout + done.stderr)
        done.check_returncode()
    return done.stdout


def lay_out(place: Path, revision: str) -> Path:
    """The crates of a revision in a folder, and the line call for C above them; the folder of that."""
    if revision == AS_IT_STANDS:
        said("cp", "crates.txt", place, folder=ROOT)
        for name in crates_below("report", place):
            parts = [crate_folder(name) / part for part in PARTS if (crate_folder(name) / part).is_dir()]
            crate_folder(name, place).mkdir(parents=True)
            said("cp", "-r", *parts, crate_folder(name, place))
    else:
        said("git", "archive", f"--output={place}/tree.tar", revision, "crates", "crates.txt", folder=ROOT)
        with tarfile.open(place / "tree.tar") as tree:
            tree.extractall(place)
    known = crates_below("report", place)
    crates = crates_of(place)
    source = crate_folder(CALL, place) / "src" / "lib.rt"
    source.parent.mkdir(parents=True)
    source.write_text(source_of(place))
    lines = [*(f"{name}: {' '.join(crates[name])}" for name in known), f"{CALL} staticlib: {' '.join(known)}"]
    (place / "crates.txt").write_text("\n".join(lines) + "\n")
    return crate_folder(CALL, place)


def compiled(place: Path, revision: str) -> Tree:
    """A tree in a folder, with its archive made and looked into."""
    print(f"tools/stack: proving and compiling: {revision}.", file=sys.stderr)
    place.mkdir()
    said("rt", "lib", folder=lay_out(place, revision))
    known = frames(said("objdump", "-d", "-r", "--no-show-raw-insn", archives(place) / f"lib{CALL}.a"))
    depth, way = deepest(known, LINE)
    return Tree(revision, place, known[LINE], depth, way[1:], deepest(known, CALL)[0])


def archives(place: Path) -> Path:
    """The folder of what rt builds of the line call for C."""
    return crate_folder(CALL, place) / "out"


def link(tree: Tree) -> None:
    said("rustc", "-O", "--edition=2021", "-L", archives(tree.place), "-o", tree.program, CALLER)


def instructions(tree: Tree) -> str:
    """The instructions of a line, on average."""
    if not shutil.which("valgrind"):
        return "-"
    words = ["valgrind", "--tool=callgrind", "--callgrind-out-file=/dev/null", f"--toggle-collect={CALL}", tree.program, str(COUNTED)]
    told = subprocess.run(words, stdout=subprocess.DEVNULL, stderr=subprocess.PIPE, text=True, check=False).stderr
    found = re.search(r"Collected : ([0-9]+)", told)
    return f"{int(found[1]) / COUNTED:.1f}" if found else "-"


def lines_of(tree: Tree) -> str:
    """The lines of a tree, told by a hash."""
    return hashlib.sha256(said(tree.program, MILLION, "show").encode()).hexdigest()


def below(tree: Tree) -> str:
    """The stack that the calls below the frame take, and whose."""
    return f"{tree.depth - tree.frame.own} ({', '.join(tree.below) or 'it calls nothing'})"


def table(trees: List[Tree]) -> List[str]:
    """What is measured, as a landing's note carries it."""
    for tree in trees:
        link(tree)
    times = zip(*[[float(said(tree.program, MILLION)) for tree in trees] for _ in range(RUNS)])
    rows = [
        [f"`{LINE}`", *(tree.name for tree in trees)],
        ["---"] * (len(trees) + 1),
        ["frame, bytes", *(str(tree.frame.own) for tree in trees)],
        ["- return address", *(str(WORD) for _ in trees)],
        ["- saved", *(str(tree.frame.saved) for tree in trees)],
        ["- lowered by", *(str(tree.frame.lowered) for tree in trees)],
        ["- below the pointer", *(str(tree.frame.below) for tree in trees)],
        ["deepest way below it, bytes", *map(below, trees)],
        ["called from C, with a copy of the answer, bytes", *(str(tree.from_c) for tree in trees)],
        ["instructions of a line, so called", *map(instructions, trees)],
        ["a million lines", *(f"{min(runs):.3f} s" for runs in times)],
    ]
    return [f"| {' | '.join(row)} |" for row in rows]


def is_revision(word: str) -> bool:
    done = subprocess.run(["git", "rev-parse", "--quiet", "--verify", f"{word}^{{commit}}"], cwd=ROOT, capture_output=True, check=False)
    return done.returncode == 0


def missing(*commands: str) -> bool:
    """Says which of some commands is not there, the first."""
    for command in commands:
        if not shutil.which(command):
            print(f"tools/stack: {NAMES.get(command, command)} is not on the PATH.", file=sys.stderr)
            return True
    return False


def measured(revisions: List[str], folder: Path) -> List[Tree]:
    """The trees, each in a folder of its own. What is proved of one rt does not prove again of the next."""
    return [compiled(folder / str(number), revision) for number, revision in enumerate([*revisions, AS_IT_STANDS])]


def compared(trees: List[Tree]) -> int:
    """Prints what each tree takes, and whether all give the same lines; the status."""
    print(*table(trees), sep="\n")
    same = len({lines_of(tree) for tree in trees}) == 1
    if len(trees) > 1:
        print(f"Of {MILLION:,} lines {'no byte differs' if same else 'some differ'}.")
    return 0 if same else 1


def held(tree: Tree, most: int) -> int:
    """Prints what the line call takes of the stack; the status is 1 where it is more than it may be."""
    print(f"The line call takes {tree.depth} bytes of the stack; {most} are allowed.")
    return 0 if tree.depth <= most else 1


def main() -> int:
    parser = parser_of("stack", __doc__)
    parser.add_argument("--most", type=from_one, metavar="BYTES", help="look at the stack alone, and whether it takes no more than this")
    parser.add_argument("revision", nargs="*", metavar="REVISION", help="a commit to measure beside the tree as it stands")
    given = parser.parse_args()
    if given.most and given.revision:
        parser.error("--most is asked of the tree as it stands alone")
    if given.revision and missing("git"):
        return 2
    for word in given.revision:
        if not is_revision(word):
            parser.error(f"there is no commit {word}")
    if missing("rt", "objdump") or not given.most and missing("rustc"):
        return 2
    with tempfile.TemporaryDirectory() as folder:
        os.environ["TMPDIR"] = folder  # rt leaves files behind where it is interrupted
        try:
            trees = measured(given.revision, Path(folder))
        except Unreadable as reason:
            print(f"tools/stack: what the line call takes cannot be told: {reason}.", file=sys.stderr)
            return 2
        return held(trees[0], given.most) if given.most else compared(trees)
