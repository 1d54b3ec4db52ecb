"""The commands of tools/, run as people run them."""

import os
import subprocess
import sys
from pathlib import Path
from typing import List, Union

from rudavesh.places import TOOLS

# Only to end a command that hangs: in the gate the tests have whatever the prover leaves of the machine, and may wait long.
TIMEOUT = 600


# The commands find python3 on the PATH: that is to be the one that runs the tests.
os.environ["PATH"] = f"{Path(sys.executable).parent}{os.pathsep}{os.environ['PATH']}"


def command(name: str, *arguments: str) -> List[str]:
    return [str(TOOLS / name), *arguments]


def run(name: str, text: Union[str, bytes], *arguments: str) -> subprocess.CompletedProcess:
    content = text if isinstance(text, bytes) else text.encode()
    return subprocess.run(command(name, *arguments), input=content, stdout=subprocess.PIPE, stderr=subprocess.PIPE, timeout=TIMEOUT,
                          check=False)  # fmt: skip
