"""start.py NAME ARGUMENT ...: runs the tool of that name, as the command tools/NAME does; ./NAME is a command at the root.

What every command owes whoever uses it stands here once: an interrupt, a reader that closes, a disk that is full and a command below it
that fails end it with one sentence or none, and never with a traceback."""

import os
import subprocess
import sys
from importlib import import_module
from pathlib import Path

# The package's own folder would hide modules of Python behind files of this one.
sys.path[0] = str(Path(__file__).resolve().parents[1])

INTERRUPTED = 130


def ended(tool) -> int:
    """The status of a tool that ran to its end, with all that it printed written."""
    try:
        status = tool.main()
    except SystemExit as end:
        status = end.code
    sys.stdout.flush()
    return status


def give_up_output() -> None:
    """Python flushes once more at exit and gets a place where that does no harm."""
    os.dup2(os.open(os.devnull, os.O_WRONLY), 1)


def main() -> int:
    at_the_root = sys.argv[1].startswith("./")
    name = sys.argv[1][2:] if at_the_root else f"tools/{sys.argv[1]}"
    tool = import_module(f"rudavesh.{Path(name).name}")
    sys.argv = [name, *sys.argv[2:]]
    if sys.stdout is None:
        sys.exit(f"{name}: standard output is closed.")
    try:
        return ended(tool)
    except KeyboardInterrupt:
        give_up_output()
        return INTERRUPTED
    except BrokenPipeError:
        # Whoever reads had enough.
        give_up_output()
        return 0
    except subprocess.CalledProcessError as error:
        command = error.cmd if isinstance(error.cmd, str) else Path(error.cmd[0]).name
        print(f"{name}: {command} failed with status {error.returncode}.", file=sys.stderr)
        return 2
    except OSError as error:
        give_up_output()
        print(f"{name}: {error.filename or 'standard output'}: {error.strerror}", file=sys.stderr)
        return 1


if __name__ == "__main__":
    sys.exit(main())
