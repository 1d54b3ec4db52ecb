"""What the programs of the gate read and must print, each by a module of its own: worked out from documents 01 and 02, or by the
independent model, and never by the program itself. Each has a function `files` that gives stdin and stdout as bytes; rudavesh.stored
writes them."""

from typing import Dict, Iterable

Files = Dict[str, bytes]


def printed(lines: Iterable[str]) -> Files:
    """The stored files of a program that reads nothing and prints these lines."""
    return {"stdout": "".join(line + "\n" for line in lines).encode("ascii")}
