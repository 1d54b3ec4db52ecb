"""Runs of equal report lines, and their place in the plot of a strip chart."""

import itertools
from functools import lru_cache
from typing import Any, Callable, Dict, Iterable, List, NamedTuple, Tuple

from . import line_form
from .text_file import without_ends

LEFT, RIGHT = 200, 28  # margins beside the plot
LONG_RUN_WIDTH = 64  # room for a label such as "x 10,000"


class Span(NamedTuple):
    """Lines one after another that share a value, and their place in the plot."""

    value: Any  # a Report, or a part of it
    first: int  # number of the first record, from 1
    count: int
    left: float = 0.0
    right: float = 0.0


@lru_cache(maxsize=1024)
def read_line(content: bytes) -> line_form.Report:
    """The report of a line, as far as the chart shows it: the letter of a good sample, and the full stop between samples, it does not, so
    that a shaft that stands, cycle after tick after cycle, stays one run."""
    text = content.decode("ascii", errors="replace")
    report = line_form.read(text)
    if report is None:
        raise ValueError(f"not a report line: {text[:60]!r}")
    good = report.fate in line_form.FATES and report.fate not in line_form.BAD_FATES
    return report._replace(fate=line_form.NO_FATE) if good else report


def read_runs(lines: Iterable[bytes]) -> List[Span]:
    """Give the runs of lines that show the same."""
    firsts: List[Tuple[line_form.Report, int]] = []
    number = 0
    for number, content in enumerate(without_ends(lines), 1):
        try:
            report = read_line(content)
        except ValueError as error:
            raise ValueError(f"{number}: {error}") from error
        if not firsts or report != firsts[-1][0]:
            firsts.append((report, number))
    if not firsts:
        raise ValueError("1: there is no report line")
    ends = [first for _, first in firsts[1:]] + [number + 1]
    return [Span(report, first, end - first) for (report, first), end in zip(firsts, ends)]


def lay_out(runs: List[Span], width: float, longest: int) -> List[Span]:
    """Give each run its place; one of more than `longest` records is as wide as `longest`."""
    short_records = sum(run.count for run in runs if run.count <= longest)
    long_runs = sum(run.count > longest for run in runs)
    unit = width / (short_records + longest * long_runs)
    long_width = longest * unit
    if short_records and long_runs and long_width < LONG_RUN_WIDTH:
        long_width = min(LONG_RUN_WIDTH, width * 2 / 3 / long_runs)
        unit = (width - long_width * long_runs) / short_records
    placed, left = [], float(LEFT)
    for run in runs:
        right = left + (run.count * unit if run.count <= longest else long_width)
        placed.append(run._replace(left=left, right=right))
        left = right
    return placed


def spans_of(runs: List[Span], key: Callable[[line_form.Report], Any]) -> List[Span]:
    """Join the runs that agree in a part of their report."""
    spans: List[Span] = []
    for value, group in itertools.groupby(runs, key=lambda run: key(run.value)):
        members = list(group)
        count = sum(run.count for run in members)
        spans.append(Span(value, members[0].first, count, members[0].left, members[-1].right))
    return spans


def rows_of(spans: List[Span], table: Dict[Any, Tuple[str, str]]) -> List[tuple]:
    """Give label, colour and spans of each value of the table that occurs."""
    rows = [(label, colour, [span for span in spans if span.value == value]) for value, (label, colour) in table.items()]
    return [row for row in rows if row[2]]


def round_steps(low: int, high: int) -> range:
    """Give at most seven round numbers from low to high."""
    steps = (digit * 10**power for power in range(10) for digit in (1, 2, 5))
    step = next(step for step in steps if high - low <= 6 * step)
    return range(-(-low // step) * step, high + 1, step)
