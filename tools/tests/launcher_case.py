"""What the tests of the commands at the root share: a tree of its own with a kit of its own, in which a program's source is a script and
`rt run` copies it. So the commands are tested as they are, with nothing proved."""

import os
import re
import shutil
import subprocess
import tempfile
import time
import unittest
from pathlib import Path
from typing import Dict, List

from rudavesh.places import ROOT, TOOLS

from .commands import TIMEOUT

# Notes its words and where, waits while a file `hold` is there, proves crate by crate, `builds` the program and says that it runs it;
# refuses a source with WRONG in it.
RT = """#!/bin/sh
program=$(basename "$PWD")
echo "$@ $program" >>"$CALLS"
while [ -e "$HOLD" ]; do sleep 0.05; done
for crate in numbers drive "$program"; do
    if grep -rq WRONG --exclude-dir out "../$crate/"; then
        echo "note: crates/$crate: 1 expected, 2 found"
        echo "logic=not-proved"
        echo "rt: the library $crate did not build, so nothing above it was checked"
        exit 1
    fi
    echo "fn $crate::turn: proved"
    echo "crate $crate: modules loaded=2 checked=3"
    echo "logic=proved functions=1 sum=0"
done
mkdir -p out
cp src/main.rt "out/$program"
echo "rt: running out/$program; to give it other input, run that file yourself"
"""
# The bytes that come in go out. As programs of Rattle do, it complains on standard error and has no status of its own.
COPIES = "cat\nexit 0\n"
JUDGES = "od -An -v -tx1 | tr -d ' \\n'\necho\ncat <&3\n"  # the records in hexadecimal, and then the lines
FILES = {
    "crates.txt": "# NAME: what it knows\nnumbers:\ndrive: numbers\nprogram_shiftline: drive numbers io libc\nprogram_judge: drive\n",
    "crates/numbers/src/lib.rt": "one\n",
    "crates/numbers/proofs/Lib.antt": "one\n",
    "crates/drive/src/lib.rt": "one\n",
    "crates/drive/specs/Lib.antt": "one\n",
    "crates/program_shiftline/src/main.rt": COPIES,
    "crates/program_judge/src/main.rt": JUDGES,
    "README.md": "Proved with `a-kit 1` (`rt version`).\n",
    "tools/programs.txt": "shiftline: program_shiftline\njudge: program_judge\n",
}


def write(folder: Path, files: Dict[str, str]) -> None:
    for name, text in files.items():
        file = folder / name
        file.parent.mkdir(parents=True, exist_ok=True)
        file.write_text(text)
        if text.startswith("#!"):
            file.chmod(0o755)


def wait_for(file: Path) -> None:
    until = time.monotonic() + TIMEOUT
    while not file.exists():
        if time.monotonic() > until:
            raise TimeoutError(file)
        time.sleep(0.02)


class Case(unittest.TestCase):
    def setUp(self) -> None:
        folder = tempfile.TemporaryDirectory()
        self.addCleanup(folder.cleanup)
        self.room = Path(folder.name)
        self.root, self.kit, self.calls, self.hold = (self.room / name for name in ("a tree", "a kit", "calls", "hold"))
        shutil.copytree(TOOLS, self.root / "tools", ignore=shutil.ignore_patterns("tests", "__pycache__"))
        for name in ("shiftline", "benchline", "why", "blockline", "image"):
            shutil.copy(ROOT / name, self.root / name)
        write(self.root, FILES)
        # The gate gives its tests what rt leaves of the processors: a build that waits for them must not say so here.
        self.patience("3600")
        write(self.kit, {"KIT-ID": "a-kit 1\n", "bin/rt": RT})
        self.temporary = self.room / "temporary"
        self.temporary.mkdir()
        self.environment = {"PATH": f"{self.kit / 'bin'}:{os.environ['PATH']}", "CALLS": str(self.calls), "HOLD": str(self.hold),
                            "TMPDIR": str(self.temporary), "PYTHONDONTWRITEBYTECODE": "1"}  # fmt: skip

    def patience(self, seconds: str) -> None:
        """How long the launcher waits for the next crate before it says that it is still at it."""
        file = self.root / "tools/shell/proved.bash"
        text, count = re.subn(r"^PATIENCE=.*$", f"PATIENCE={seconds}", file.read_text(), flags=re.M)
        assert count == 1, "proved.bash has one PATIENCE"
        file.write_text(text)

    def words(self, name: str, *arguments: object) -> List[str]:
        return [str(self.root / name), *map(str, arguments)]

    def run_it(self, name: str, *arguments: object, given: bytes = b"", **more) -> subprocess.CompletedProcess:
        more = {"stdout": subprocess.PIPE, "env": self.environment, **({} if "stdin" in more else {"input": given}), **more}
        return subprocess.run(self.words(name, *arguments), stderr=subprocess.PIPE, timeout=TIMEOUT, check=False, **more)

    def start(self, name: str, *arguments: object, **more) -> subprocess.Popen:
        process = subprocess.Popen(self.words(name, *arguments), stdin=subprocess.DEVNULL, stdout=subprocess.PIPE, stderr=subprocess.PIPE,
                                   env=self.environment, **more)  # fmt: skip
        for stream in (process.stdout, process.stderr):
            self.addCleanup(stream.close)
        return process

    def built(self) -> None:
        """The program is built, as after a first run."""
        self.assertEqual(self.run_it("shiftline").returncode, 0)
        self.calls.unlink()

    def asked(self) -> List[str]:
        """What rt was asked since."""
        return self.calls.read_text().splitlines() if self.calls.exists() else []

    def file(self, name: str, content: bytes) -> Path:
        file = self.room / name
        file.write_bytes(content)
        return file

    def told(self, done: subprocess.CompletedProcess, status: int, *parts: str) -> None:
        """It ended with the status, printed nothing, and said one sentence with these parts."""
        said = done.stderr.decode()
        self.assertEqual((done.returncode, done.stdout or b""), (status, b""), said)
        self.assertEqual(said.count("\n"), 1, said)
        for part in parts:
            self.assertIn(part, said)
