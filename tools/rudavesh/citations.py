"""Whether what the docs cite is there: paths, files, the names that are cited with a file, must-fail edits and tests of the model.

A citation is text between backticks, outside blocks of code. These forms are looked at:
  `crates/*/specs/`, `drive/src/{calls,ticks}.rt`, `tools/strip --title X`   a path, from the root or from crates/; stars, braces, commands
  `hall/offset_subtracted`, edits `hall/one`, `two`                          wrong answers of must-fail edits, the second of the same crate
  `Lib.antt`, `specs/`                                                       a file of any folder, a folder of any crate
  `name` in `crates/hall/specs/Fate.antt`                                    a name that stands in a file
  `hall` Fate.antt `fate`, `next` and `hall` src/fate.rt `judged`            names that stand in a file of a crate; without it, of any crate
  `hall::fate::judged(pattern, kept)`                                        a name of a crate's code
  model `p1_position_and_angle`                                              a test of the model"""

import re
from itertools import chain
from pathlib import Path
from typing import Iterator, List, NamedTuple, Optional, Tuple

from .edits import is_wrong_answer
from .places import PARTS, crates_of

ENDINGS = "antt|rt|rs|py|md|txt|svg|edit|toml"
PATH = re.compile(rf"[\w.*{{}},/-]*(/|\.({ENDINGS}))[\w.*{{}},/-]*")
SPAN = re.compile(r"`([^`\n]+)`")
FILE = rf"(?:[\w-]+/)*\w+\.(?:{ENDINGS})"
NAMES = r"`[^`\n]+`(?:,? (?:and )?`[^`\n]+`(?! (?:[\w-]+/)*\w+\.antt))*"
IN_A_FILE = re.compile(rf"`([^`\n]+)` in `({FILE})`")
OF_A_FILE = re.compile(rf"(?:`(\w+)` )?(?<![`\w/])((?:[\w-]+/)*\w+\.(?:antt|rt))(?: ({NAMES}))?(?!`)")
EDITS = re.compile(rf"\bedits? ({NAMES})")
MODEL = re.compile(rf"\bmodel ({NAMES})")
OF_CODE = re.compile(r"(\w+)::(?:\w+::)*(\w+)(?:\(.*\))?")
# What a check or a build leaves is not in the repository, nor what the system has.
MADE = ("target/", "model/target/", "/dev/fd/")

# Names that stand for others, or that a landing of the past tells of: document and name, and why it need not be there.
EXEMPT = {
    ("docs/PAPER.md", "crate/name"): "the form of an edit's name",
    ("docs/ARCHITECTURE.md", "crates/NAME"): "the form of a crate's folder",
    ("docs/ARCHITECTURE.md", "proofs/FUNCTION/Answers.antt"): "the form of a proof's file",
    ("docs/ARCHITECTURE.md", "proofs/FUNCTION/Invariants.antt"): "the form of a proof's file",
}


class Citation(NamedTuple):
    """What a document cites, and where it was not found."""

    document: str
    line: int
    name: str
    place: str

    def __str__(self) -> str:
        return f"{self.document}:{self.line} cites `{self.name}`, which is not {self.place}."


def lines_of_text(text: str) -> Iterator[Tuple[int, str]]:
    """The lines outside blocks of code, with their numbers."""
    inside = False
    for number, line in enumerate(text.split("\n"), 1):
        if line.lstrip().startswith("```"):
            inside = not inside
        elif not inside and not line.startswith("    "):
            yield number, line


def braces_expanded(path: str) -> List[str]:
    found = re.search(r"\{([^{}]*)\}", path)
    if not found:
        return [path]
    choices = found[1].split(",")
    return list(chain.from_iterable(braces_expanded(path[: found.start()] + one + path[found.end() :]) for one in choices))


def in_any_part(file: str, crate: str = "*") -> List[str]:
    """The patterns of a file of a crate. What a build leaves in out/ is not looked into: it may be building at this moment."""
    return [f"crates/{crate}/{file}", *(f"crates/{crate}/{part}/**/{file}" for part in (*PARTS, "must-fail"))]


def is_there(root: Path, path: str) -> bool:
    """Whether a path without braces leads to something: from the root, from crates/, as an edit, or anywhere where it is a bare name."""
    bare = path.rstrip("/")
    if path.startswith(MADE):
        return True
    patterns = [bare, f"crates/{bare}"]
    if "/" not in bare:
        patterns += in_any_part(bare)
    elif "." not in bare and bare.count("/") == 1 and is_wrong_answer(root, *bare.split("/")):
        return True
    return any(next(root.glob(pattern), None) for pattern in patterns)


def paths_in(span: str) -> List[str]:
    """The paths of a citation; of a command all but the file that it writes."""
    words = re.sub(r">\s*\S+", "", span).split()
    words = [word[2:] if word.startswith("./") else word for word in words]
    return [word for word in words if PATH.fullmatch(word)]


def stands_in(name: str, files: List[Path]) -> bool:
    """Whether a name stands in one of the files, as a word of its own."""
    word = re.compile(rf"(?<![\w'-]){re.escape(name)}(?![\w'-])")
    return any(word.search(file.read_text(encoding="utf-8")) for file in files)


def missing_paths(root: Path, line: str) -> Iterator[Tuple[str, str]]:
    for span in SPAN.findall(line):
        for path in paths_in(span):
            for one in braces_expanded(path):
                if not is_there(root, one):
                    yield one, "in the repository"


def files_of(root: Path, crate: Optional[str], file: str) -> List[Path]:
    return sorted(found for pattern in in_any_part(file, crate or "*") for found in root.glob(pattern))


def missing_names(root: Path, line: str) -> Iterator[Tuple[str, str]]:
    for name, file in IN_A_FILE.findall(line):
        if (root / file).exists() and not stands_in(name, [root / file]):
            yield name, f"in {file}"
    crates = crates_of(root)
    spans = [match.span() for match in SPAN.finditer(line)]
    for match in OF_A_FILE.finditer(line):
        if any(start < match.start(2) < end for start, end in spans):
            continue
        crate = match[1]
        if crate and crate not in crates:
            yield crate, f"a crate, though {match[2]} is cited as a file of it"
            continue
        files, where = files_of(root, crate, match[2]), f"{crate} {match[2]}" if crate else match[2]
        if not files:
            yield match[2], f"a file of {crate or 'any crate'}"
        for name in SPAN.findall(match[3] or ""):
            if files and name not in crates and not stands_in(name, files):
                yield name, f"in {where}"
    for span in SPAN.findall(line):
        code = OF_CODE.fullmatch(span)
        if code and code[1] in crates and not stands_in(code[2], sorted(root.glob(f"crates/{code[1]}/src/**/*.rt"))):
            yield span, f"in the code of {code[1]}"


def missing_edits_and_tests(root: Path, line: str) -> Iterator[Tuple[str, str]]:
    for listed in EDITS.findall(line):
        crate = None
        for name in SPAN.findall(listed):
            crate = name.partition("/")[0] if "/" in name else crate
            if "/" not in name and crate and not is_wrong_answer(root, crate, name):
                yield name, f"a wrong answer of {crate}"
    tests = sorted((root / "model" / "tests").glob("*.rs"))
    for listed in MODEL.findall(line):
        for name in SPAN.findall(listed):
            if re.fullmatch(r"[a-z]\w*_\w+", name) and not stands_in(f"fn {name}", tests):
                yield name, "a test of the model"


def documents(root: Path) -> List[Path]:
    """The pages whose citations are looked at, but for those that set names that were beside those that are."""
    apart = (root / "docs" / "PORT.md", root / "docs" / "DESIGN-PASS.md")
    return [root / "README.md", *(page for page in sorted((root / "docs").glob("**/*.md")) if page not in apart)]


def missing(root: Path) -> List[Citation]:
    """What the docs cite and what is not there."""
    found = []
    for file in documents(root):
        document = str(file.relative_to(root))
        for number, line in lines_of_text(file.read_text(encoding="utf-8")):
            for name, place in chain(missing_paths(root, line), missing_names(root, line), missing_edits_and_tests(root, line)):
                if (document, name) not in EXEMPT:
                    found.append(Citation(document, number, name, place))
    return found
