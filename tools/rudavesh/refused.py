"""Whether each wrong answer of the must-fail edits is refused by what its edit says. Prints what differs, and nothing where nothing does.

An edit has one or more wrong answers, each with its name and with what must refuse it: functions, or a theorem of a file of proofs/.
    wrong: cycle_does_nothing
    refused by: Drive::cycle
    file: src/calls.rt
    old: ..
    new: ..
`rt ci` asks only whether the crate is refused, and keeps no log. Here each edit is made in a copy, which `rt check` looks at, and each name
must be refused by an error of its own, and not because something that it rests on is, or because a proof names what the edit took away;
where code alone is changed nothing else may be. So one check tries many wrong answers. A function whose callees wait for proofs of their
own may not be looked at: a wrong answer that one log does not show is tried once more, alone.
What passed is kept on this machine (~/.cache/rudavesh), by a hash of all that it was told from, and is not tried again; --anew tries all.
It cannot tell a fact that does not hold from a proof that no longer fits: for that read the logs, target/must-fail/CRATE/EDIT.out, down to
the notes.
Exit status: 0 refused as they say; 1 not so, or a write failed; 2 wrong use, or the kit is missing, or a crate is not proved."""

import hashlib
import os
import re
import shutil
import subprocess
import sys
import tempfile
import time
from concurrent.futures import Future, ThreadPoolExecutor
from pathlib import Path
from typing import Iterator, List, NamedTuple, Set, Tuple

from .arguments import parser_of
from .edits import Answer, answers, edits
from .places import PARTS, ROOT, crate_folder, crates_below, crates_of

LOGS = ROOT / "target" / "must-fail"
OF_CRATES = ROOT / "target" / "log"
# No check takes more than this.
MOST_MEMORY = 3 * 2**30
ERROR = re.compile(r"(?:\./)?proofs/(\S+)\.antt:\d+:\d+: error: `([^`]*)`: (.*)")
# What rests on another, or names what the edit took away.
NOT_ITS_OWN = re.compile(r"was (?:not admitted|rejected)\b|is not in scope|has no field|has no `[^`]*` that can be named")
# What rattle's own search left open, or what has no invariant that fits.
OPEN = re.compile(r"fn (\S+): no proof: expected ")
ENDED = re.compile(r"^logic=(?:not-)?proved", re.M)


class Unread(Exception):
    """A check that says nothing of the edited text."""


def refused_in(log: str, crate: str) -> Set[str]:
    """What a log shows to be refused by itself: functions and theorems with an error of their own."""
    found = set()
    for line in log.split("\n"):
        error, left_open = ERROR.match(line), OPEN.match(line)
        if error and not NOT_ITS_OWN.search(error[3]):
            folder, _, file = error[1].rpartition("/")
            found.add(folder.replace("/", "::") if folder else f"{file}.antt {error[2]}")
        elif left_open:
            found.add(left_open[1].removeprefix(f"{crate}::"))
    return found


def lay_out(crate: str, place: Path) -> Path:
    """A crate and those that it knows, in a folder of their own; the crate's folder there."""
    known = crates_below(crate, ROOT)
    crates = crates_of(ROOT)
    for name in known:
        for part in PARTS:
            if (crate_folder(name) / part).is_dir():
                shutil.copytree(crate_folder(name) / part, crate_folder(name, place) / part)
    (place / "crates.txt").write_text("".join(f"{name}: {' '.join(crates[name])}\n" for name in known))
    return crate_folder(crate, place)


class Kept:
    """The edits that were refused as they say, on this machine."""

    def __init__(self) -> None:
        home = os.environ.get("XDG_CACHE_HOME") or os.path.join(os.environ.get("HOME", ""), ".cache")
        self.folder = Path(home) / "rudavesh" / "refused"
        done = subprocess.run(["rt", "version"], stdout=subprocess.PIPE, stderr=subprocess.DEVNULL, check=False)
        self.kit = done.stdout + b"".join(Path(__file__).with_name(name).read_bytes() for name in ("refused.py", "edits.py"))

    def of_crate(self, crate: str) -> bytes:
        """A hash of what a check of a crate reads of it."""
        files = [file for part in PARTS for file in sorted((crate_folder(crate) / part).glob("**/*")) if file.is_file()]
        told = (f"{file.relative_to(ROOT)} {hashlib.sha256(file.read_bytes()).hexdigest()}\n" for file in files)
        return "".join(told).encode()

    def file(self, crate: str, edit: Path) -> Path:
        below = crates_below(crate, ROOT)
        lines = [" ".join([name, *crates_of(ROOT)[name]]) for name in below]
        parts = [self.kit, *map(self.of_crate, below), "\n".join(lines).encode(), edit.read_bytes()]
        return self.folder / hashlib.sha256(b"".join(hashlib.sha256(part).digest() for part in parts)).hexdigest()

    def keep(self, file: Path) -> None:
        try:
            self.folder.mkdir(parents=True, exist_ok=True)
            file.touch()
        except OSError:
            pass  # it is tried again


def change(folder: Path, wrong: List[Answer]) -> None:
    for file, old, new in (pair for answer in wrong for pair in answer.pairs):
        text = (folder / file).read_text(encoding="utf-8")
        if text.count(old) != 1:
            raise Unread(f"{file} does not have `{old}` once")
        (folder / file).write_text(text.replace(old, new), encoding="utf-8")


def checked(folder: Path, *words: str) -> Tuple[str, int]:
    """What a check says of the crate in a folder, and how many seconds it took. One that ends without a verdict, most likely for memory, is
    made once more."""
    for _ in range(2):
        began = time.monotonic()
        done = subprocess.run(["rt", "check", *words], cwd=folder, stdin=subprocess.DEVNULL, stdout=subprocess.PIPE,
                              stderr=subprocess.STDOUT, text=True, errors="replace", check=False)  # fmt: skip
        if ENDED.search(done.stdout):
            break
    return f"{done.stdout}rt check: status {done.returncode}\n", round(time.monotonic() - began)


def keep(log: Path, said: str, word: str) -> None:
    log.parent.mkdir(parents=True, exist_ok=True)
    log.write_text(f"{said}.ci/refused: {word}\n")


def log_of(crate: str, wrong: List[Answer], name: str) -> str:
    """What a check says of a crate with these wrong answers. It stays, by its name."""
    with tempfile.TemporaryDirectory() as place:
        folder = lay_out(crate, Path(place))
        change(folder, wrong)
        said, seconds = checked(folder, "--jobs", "1")
    verdict = ENDED.search(said)
    word = "refused, as it must be" if verdict and verdict[0] == "logic=not-proved" else "not refused"
    keep(LOGS / crate / name, said, f"{crate}/{name}: {word} ({seconds} s)")
    if not verdict:
        raise Unread(f"its check ended without a verdict ({(LOGS / crate / name).relative_to(ROOT)})")
    return said


def is_proved(crate: str) -> bool:
    """Whether a crate is proved as it stands. What its check keeps, those of its edits begin with."""
    said, seconds = checked(crate_folder(crate))
    verdict = ENDED.search(said)
    proved = bool(verdict and verdict[0] == "logic=proved")
    keep(OF_CRATES / f"{crate}.out", said, f"{crate} {'' if proved else 'not '}proved ({seconds} s)")
    return proved


def differs(crate: str, label: str, wrong: List[Answer]) -> Iterator[str]:
    """How what refuses an edit differs from what the edit says."""
    shown = refused_in(log_of(crate, wrong, f"{label}.out"), crate)
    for answer in wrong:
        missing = set(answer.refusers) - shown
        if missing and len(wrong) > 1:
            missing -= refused_in(log_of(crate, [answer], f"{label}.{answer.name}.alone"), crate)
        yield from (f"{answer.name}: {name} does not refuse it by an error of its own." for name in sorted(missing))
    if not any(file.startswith("specs/") for answer in wrong for file, _, _ in answer.pairs):
        named = {name for answer in wrong for name in answer.refusers}
        yield from (f"{name} refuses it, and the edit does not say so." for name in sorted(shown - named))


class Tried(NamedTuple):
    crate: str
    label: str
    said: "Future[List[str]]"


def tried(crate: str, edit: Path, kept: Kept) -> List[str]:
    file = kept.file(crate, edit)
    try:
        said = list(differs(crate, edit.stem, answers(edit)))
    except Unread as reason:
        said = [f"{reason}."]
    if not said and file == kept.file(crate, edit):
        kept.keep(file)
    return said


def workers() -> int:
    """A check for each processor, and no more than memory is free for."""
    free = re.search(r"^MemAvailable: +(\d+)", Path("/proc/meminfo").read_text(), re.M)
    return max(1, min(len(os.sched_getaffinity(0)), int(free[1]) * 1024 // MOST_MEMORY if free else 1))


def main() -> int:
    parser = parser_of("refused", __doc__, folder=".ci/")
    parser.add_argument("--anew", action="store_true", help="try what passed, too")
    parser.add_argument("crate", nargs="*", metavar="CRATE", help="crates of crates.txt; without one, all")
    given = parser.parse_args()
    chosen = given.crate
    for crate in chosen:
        if crate not in crates_of(ROOT):
            parser.error(f"crates.txt lists no {crate}")
    if not shutil.which("rt"):
        print("The Rattle kit is missing: its command rt is not on the PATH.", file=sys.stderr)
        return 2
    found: List[Tried] = []
    kept = Kept()
    with ThreadPoolExecutor(workers()) as pool:
        for crate in chosen or crates_of(ROOT):
            of_crate = [edit for edit in edits(ROOT) if edit.parent.parent.name == crate]
            of_crate = [edit for edit in of_crate if given.anew or not kept.file(crate, edit).exists()]
            if of_crate and not is_proved(crate):
                print(f"{crate} is not proved as it stands: target/log/{crate}.out says why.", file=sys.stderr)
                pool.shutdown(cancel_futures=True)
                return 2
            found += [Tried(crate, edit.stem, pool.submit(tried, crate, edit, kept)) for edit in of_crate]
    status = 0
    for one in found:
        if one.said.result():
            status = 1
            log = (LOGS / one.crate / f"{one.label}.out").relative_to(ROOT)
            print(f"must-fail {one.crate}/{one.label}: not refused as it says ({log}):", *one.said.result(), sep="\n    ")
    return status
