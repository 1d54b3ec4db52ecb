"""Where things stand in this repository: its root, the crates that crates.txt lists, the programs that programs.txt lists."""

import re
from pathlib import Path
from typing import Dict, List

ROOT = Path(__file__).resolve().parents[2]
TOOLS = ROOT / "tools"
# What a check reads of a crate.
PARTS = ("src", "specs", "proofs")


def listed(text: str) -> Dict[str, List[str]]:
    """What a list such as crates.txt says: each name with the words behind it, in its order."""
    return {name: words.split() for name, words in re.findall(r"^(\w+):(.*)$", text, re.M)}


def crate_names(text: str) -> List[str]:
    """The crates that crates.txt lists, in its order."""
    return list(listed(text))


def crates_of(root: Path) -> Dict[str, List[str]]:
    """The crates of a repository, in the order of its crates.txt, each with those that it knows."""
    return listed((root / "crates.txt").read_text())


def crates_below(name: str, root: Path) -> List[str]:
    """A crate of a repository and all that it knows, directly or not, in the order of crates.txt; what is the kit's is not among them."""
    crates = crates_of(root)
    reached = {name}
    for crate in reversed(crates):  # whoever is known stands above whoever knows it
        if crate in reached:
            reached.update(crates[crate])
    return [crate for crate in crates if crate in reached]


def crate_folder(name: str, root: Path = ROOT) -> Path:
    return root / "crates" / name


def program_folder(word: str) -> Path:
    """The folder of a program, by the word that the tools use for it."""
    (folder,) = listed((TOOLS / "programs.txt").read_text())[word]
    return crate_folder(folder)
