"""What the tests of ./image share: a tree whose blockline and benchline are stand-ins, and images to try."""

import shlex
import sys
from pathlib import Path
from typing import List

from .launcher_case import Case as LauncherCase
from .launcher_case import write
from .paper import PAPER_LOAD

STAND_IN = Path(__file__).resolve().parent / "stand_in.py"


def stand_in(program: str) -> str:
    return f"exec {shlex.quote(sys.executable)} {shlex.quote(str(STAND_IN))} {program}\n"


def changed(**settings: int) -> List[int]:
    """The paper's settings but for some, named by their places: s4=3000."""
    values = list(PAPER_LOAD)
    for name, value in settings.items():
        values[int(name[1:]) - 1] = value
    return values


class Case(LauncherCase):
    def setUp(self) -> None:
        super().setUp()
        for name, line in (("crates.txt", "program_{0}: numbers\n"), ("tools/programs.txt", "{0}: program_{0}\n")):
            with (self.root / name).open("a") as file:
                file.writelines(line.format(word) for word in ("blockline", "benchline"))
        for word in ("blockline", "benchline"):
            self.program(word, stand_in(word))

    def program(self, word: str, script: str) -> None:
        """Gives the word another program, and builds it, so that the next command says nothing of a build."""
        write(self.root, {f"crates/program_{word}/src/main.rt": script})
        self.run_it("tools/run", word)
        self.calls.unlink()

    def image(self, *arguments: object, **more):
        return self.run_it("image", *arguments, **more)

    def done(self, *arguments: object, **more) -> str:
        """What a command prints that has nothing to complain about."""
        ended = self.image(*arguments, **more)
        self.assertEqual((ended.returncode, ended.stderr.decode()), (0, ""), arguments)
        return ended.stdout.decode()

    def text(self, name: str, text: str) -> Path:
        return self.file(name, text.encode())
