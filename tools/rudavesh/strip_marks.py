"""The marks of a strip chart: starts, stops, trips and exits from FAULT with their reasons, as `./why` tells them."""

import re
from bisect import bisect_right
from typing import Dict, Iterable, List, NamedTuple, Tuple
from xml.sax.saxutils import escape

from .strip_picture import FAINT_INK, PANEL, Picture, path
from .strip_runs import Span
from .text_file import without_ends

LINE = re.compile(r"record +(\d+) +(\S.*)")
# What a sentence begins with, its word in the legend, and the colour of its marks.
KINDS = {
    "start": ("start", re.compile(r"start\b|a starting or running state entered"), "#1b873f"),
    "stop": ("stop", re.compile(r"stop\b"), "#4b5563"),
    "trip": ("trip", re.compile(r"trip\b"), "#c62828"),
    "exit": ("FAULT left", re.compile(r"FAULT left\b"), "#1d4ed8"),
}
MOST_TOLD = 40  # reasons with a line of text of their own; the others are told to whoever points at the mark
LANE, LETTER = 16, 6.5  # height of a line of text, width of a letter
EDGE_OF_TEXT = 26.0


class Mark(NamedTuple):
    """What happened at a record, and why."""

    record: int
    kind: str  # a key of KINDS
    sentence: str

    def told(self, letters: int) -> str:
        """Its number and sentence, cut short where there is no room for so many letters; whoever points at the mark sees all of it."""
        whole = f"{self.record:,} {self.sentence}"
        return whole if len(whole) <= letters else whole[: letters - 1] + "\u2026"


class Label(NamedTuple):
    """A mark's reason as text: the place of the mark, and the text's left, right and line."""

    mark: Mark
    text: str
    place: float
    left: float
    right: float
    lane: int


def read_marks(lines: Iterable[bytes], records: int) -> List[Mark]:
    """The marks among the lines of `./why` for so many records; it tells other things, too, and these are passed over."""
    marks, other, known = [], None, 0
    for number, line in enumerate(without_ends(lines), 1):
        text = line.decode("utf-8", errors="replace")
        match = LINE.fullmatch(text)
        if not match:
            other = other or (number, text)
            continue
        record, sentence, known = int(match[1]), match[2], known + 1
        if not 1 <= record <= records:
            raise ValueError(f"{number}: there is no report line of record {record}; the lines end with {records}")
        marks += [Mark(record, kind, sentence) for kind, (_, begins, _) in KINDS.items() if begins.match(sentence)]
    if other and not known:
        raise ValueError(f"{other[0]}: not what ./why prints: {other[1][:60]!r}")
    return marks


def places_of(runs: List[Span], marks: List[Mark]) -> List[Tuple[Mark, float]]:
    """Each mark, and where its record begins in the plot."""
    firsts = [run.first for run in runs]
    at = [runs[bisect_right(firsts, mark.record) - 1] for mark in marks]
    return [(mark, run.left + (run.right - run.left) * (mark.record - run.first) / run.count) for mark, run in zip(marks, at)]


def blocks(label: Label, lane: int, left: float, right: float) -> bool:
    """Whether a label's text, or the stroke that leads down to it, is in the way of a text in a line from left to right."""
    if label.lane == lane:
        return left < label.right and label.left < right
    return label.lane > lane and left < label.place < right


def labels_of(marks: List[Tuple[Mark, float]], most: float) -> List[Label]:
    """Lines for the reasons, so that no text lies on another one nor on the stroke that leads to one further below.

    From the first mark to the last each gets the highest line that is free; its text ends at its mark. So a stroke passes only lines
    whose texts end before it, but for those that had to move right to stay within the picture."""
    placed: List[Label] = []
    for mark, place in marks:
        text = mark.told(int((most - EDGE_OF_TEXT) / LETTER))
        width = LETTER * len(text)
        left = max(place - 6 - width, EDGE_OF_TEXT)
        lane = 0
        while any(blocks(label, lane, left, left + width) for label in placed):
            lane += 1
        placed.append(Label(mark, text, place, left, left + width, lane))
    return placed


def draw_label(picture: Picture, label: Label, top: float) -> None:
    colour, upper = KINDS[label.mark.kind][2], top + LANE * label.lane
    # A rim of the panel's colour keeps the text readable where a stroke passes behind it.
    more = f'class="why" stroke="{PANEL}" stroke-width="3" paint-order="stroke"'
    if label.right < label.place:
        picture.text(label.place - 6, upper + 12, label.text, "end", 11, colour, more)
    else:  # moved right: a dot where it belongs
        picture.text(label.left, upper + 12, label.text, "start", 11, colour, more)
        picture.front.append(f'<circle cx="{label.place:.2f}" cy="{upper + 1:.1f}" r="2.5" fill="{colour}"/>')


def draw_marks(picture: Picture, marks: List[Mark]) -> None:
    """Draws a stroke through all tracks at each mark, and a track of the reasons below the others."""
    places = places_of(picture.runs, marks)
    labels = labels_of(places[:MOST_TOLD], picture.right)
    hidden = len(marks) - len(labels)
    lanes = 1 + max((label.lane for label in labels), default=0) + (hidden > 0)
    picture.bottom += 20  # the numbers of the records stand above it
    top = picture.panel("Why", LANE * lanes + 8, left=20) + 4
    if hidden or not marks:
        told = f"and {hidden:,} more: point at a mark" if hidden else "no start, stop, trip or exit from FAULT"
        picture.text(EDGE_OF_TEXT, top + LANE * lanes - 4, told, size=11, colour=FAINT_INK, more='class="why-more"')
    lane_of = {label.mark: label.lane for label in labels}
    covered: Dict[str, float] = {}
    for mark, place in places:
        if mark not in lane_of and place - covered.get(mark.kind, 0.0) < 1:  # the mark before it hides it
            continue
        covered[mark.kind] = place
        draw_stroke(picture, mark, place, top + LANE * lane_of[mark] + 12 if mark in lane_of else top)
    for label in labels:
        draw_label(picture, label, top)


def draw_stroke(picture: Picture, mark: Mark, place: float, bottom: float) -> None:
    colour = KINDS[mark.kind][2]
    hint = f"<title>{escape(f'record {mark.record:,}: {mark.sentence}')}</title>"
    line = path(f"M{place:.2f} {picture.top:.1f}V{bottom:.1f}", colour, 'stroke-width="1.2" stroke-dasharray="5 3"')
    flag = f'<path d="M{place:.2f} {picture.top:.1f}l-5 -8h10z" fill="{colour}"/>'
    # Wide and unseen, so that a pointer finds it.
    reach = path(f"M{place:.2f} {picture.top - 8:.1f}V{bottom:.1f}", colour, 'stroke-width="7" stroke-opacity="0"')
    picture.strokes.append(f'<g class="mark-{mark.kind}">{hint}{line}{flag}{reach}</g>')
