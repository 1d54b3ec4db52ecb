"""What the program served reads and must print: the records of splits, and their lines by the independent model."""

from .. import model
from . import Files
from .splits import records


def files() -> Files:
    made = records()
    return {"stdin": made, "stdout": model.lines(made)}
