"""Files of Rattle, and how many of their lines say something."""

import re
from pathlib import Path
from typing import List

from . import places

COMMENT = {".rt": "//", ".antt": "--"}


def rattle_files(folder: Path) -> List[Path]:
    return [file for file in sorted(folder.glob("**/*")) if file.suffix in COMMENT]


def lines_of(folder: Path) -> int:
    """How many lines of Rattle a folder has, without blank ones and comments."""
    lines = ((file.suffix, line.strip()) for file in rattle_files(folder) for line in file.read_text().split("\n"))
    return sum(1 for suffix, line in lines if line and not line.startswith(COMMENT[suffix]))


def has_code(crate: Path) -> bool:
    """Whether a crate has a function; one of definitions and theorems alone has attributes."""
    return any(re.search(r"^ *(?:pub(?:\(crate\))? )?fn ", file.read_text(), re.M) for file in (crate / "src").glob("**/*.rt"))


def called_crates(root: Path = places.ROOT) -> List[str]:
    """The crates with code that others call, in the order of crates.txt: neither programs nor crates of theorems alone."""
    crates = places.crates_of(root)
    known = {name for knows in crates.values() for name in knows}
    return [name for name in crates if name in known and has_code(places.crate_folder(name, root))]


def is_shell(file: Path) -> bool:
    return file.suffix in ("", ".bash")


def written_files(root: Path = places.ROOT) -> List[Path]:
    """The files that people write in the crates, the model and the tools: Rattle, Rust, Python, and the commands and what they share."""
    model, tools = root / "model", root / "tools"
    commands = [file for folder in (tools, tools / "shell") for file in sorted(folder.glob("*")) if file.is_file() and is_shell(file)]
    rust = [file for folder in (model / "src", model / "tests", tools) for file in sorted(folder.glob("**/*.rs"))]
    rattle = [file for part in places.PARTS for folder in sorted(root.glob(f"crates/*/{part}")) for file in rattle_files(folder)]
    return rattle + rust + sorted(tools.glob("**/*.py")) + commands
