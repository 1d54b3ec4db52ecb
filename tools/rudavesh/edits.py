"""The must-fail edits: crates/NAME/must-fail/LABEL.edit has wrong answers, each with its name, what must refuse it, and, in turn, a text of
a file of its crate and what stands in its place.

`rt ci` and `rt must-fail` try each edit, and `.ci/refused` asks the prover what refused each wrong answer; either takes minutes. That an
edit still finds its texts, and that its wrong answers can be told apart in one log, is told here at once."""

from pathlib import Path
from typing import Dict, Iterator, List, NamedTuple, Tuple

from . import places


class Fault(NamedTuple):
    """What is wrong with an edit."""

    edit: Path
    what: str

    def __str__(self) -> str:
        return f"{self.edit.relative_to(places.ROOT)}: {self.what}"


def edits(root: Path = places.ROOT) -> List[Path]:
    return sorted(root.glob("crates/*/must-fail/*.edit"))


class Answer(NamedTuple):
    """A wrong answer: its name, what must refuse it, and in their order the file, the text there and what stands in its place."""

    name: str
    refusers: List[str]
    pairs: List[Tuple[str, str, str]]


def answers(edit: Path) -> List[Answer]:
    """The wrong answers of an edit, in their order. As for rt, a file holds for the pairs behind it, too."""
    found: List[Answer] = []
    file = old = ""
    for line in edit.read_text(encoding="utf-8").split("\n"):
        word, _, rest = line.partition(": ")
        if word == "wrong":
            found.append(Answer(rest, [], []))
        elif word == "refused by" and found:
            found[-1].refusers.extend(rest.split(", "))
        elif word == "file":
            file = rest
        elif word == "old":
            old = rest
        elif line.startswith("new:") and found:
            found[-1].pairs.append((file, old, line[len("new:") :].removeprefix(" ")))
    return found


def refusers(edit: Path) -> Dict[str, List[str]]:
    """The wrong answers of an edit, in their order, and what must refuse each."""
    return {one.name: one.refusers for one in answers(edit)}


def gone_in(edit: Path) -> Iterator[Fault]:
    """The texts that an edit replaces and that do not stand once in their file, each looked for after the ones before it are replaced."""
    crate, name, old = edit.parent.parent, "", ""
    texts: Dict[str, str] = {}
    for line in edit.read_text(encoding="utf-8").split("\n"):
        word, _, rest = line.partition(": ")
        if word == "file":
            name = rest
            if name not in texts:
                texts[name] = (crate / name).read_text(encoding="utf-8")
        elif word == "old":
            old = rest
            if texts[name].count(old) != 1:
                yield Fault(edit, f"{name} has {'no' if old not in texts[name] else 'more than one'} `{old}` any more.")
        elif word == "new":
            texts[name] = texts[name].replace(old, rest)


def unclear_in(edit: Path) -> Iterator[Fault]:
    """Wrong answers that a log could not tell apart, or that nothing is named for."""
    named = refusers(edit)
    if not named:
        yield Fault(edit, "it names no wrong answer (a line `wrong: name`).")
    everything = [one for listed in named.values() for one in listed]
    for name, listed in named.items():
        if not listed:
            yield Fault(edit, f"{name} does not say by what it is refused (a line `refused by: name`).")
        for one in listed:
            if everything.count(one) > 1:
                yield Fault(edit, f"{one} is to refuse more than {name}: put the other into an edit of its own.")


def twice(root: Path = places.ROOT) -> Iterator[Fault]:
    """Wrong answers of one crate that share a name, by which the docs cite them."""
    seen: Dict[str, Path] = {}
    for edit in edits(root):
        for name in refusers(edit):
            key = f"{edit.parent.parent.name}/{name}"
            if key in seen:
                yield Fault(edit, f"{name} stands in {seen[key].name}, too.")
            seen[key] = edit


def is_wrong_answer(root: Path, crate: str, name: str) -> bool:
    """Whether a crate's edits have a wrong answer of this name."""
    return any(name in refusers(edit) for edit in (root / "crates" / crate / "must-fail").glob("*.edit"))
