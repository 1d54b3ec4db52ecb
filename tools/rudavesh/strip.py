"""tools/strip: draws report lines as a strip chart."""

import sys
from typing import Any, Callable, Iterable, List, Optional, Tuple
from xml.sax.saxutils import escape

from . import line_form
from .arguments import from_one, parser_of
from .strip_marks import KINDS, Mark, draw_marks, read_marks
from .strip_picture import EDGE, FAINT_INK, ORANGE, PAGE, RED, Picture, rectangle
from .strip_runs import LEFT, RIGHT, Span, lay_out, read_runs, rows_of, spans_of
from .text_file import UTF16, InUtf16

DESCRIPTION = """Draw the report lines of `shiftline` as a strip chart, in SVG on standard output.

  ./shiftline examples/shift.txt | tools/strip > shift.svg

Records go from left to right. A long run of equal lines, such as the wait in FAULT, is
drawn short on hatched ground; its label tells how many lines it has. Lines that differ only
in the letter of a good Hall sample count as equal; dead and stray samples have a track of
their own. Lines of boards before M-105, which have no letter, are drawn, too.
With --why it marks starts, stops, trips and exits from FAULT, and tells the reason of each:

  ./why examples/shift.txt > reasons
  ./shiftline examples/shift.txt | tools/strip --why reasons > shift.svg

Exit status: 0 drawn; 1 something is not a report line, or no reason, or a write failed;
2 wrong use, an unreadable file, or text in UTF-16.
"""

# Each table gives label and colour of its rows, from the top row to the bottom row.
# States stand so that a start climbs from STOP to MOTORRUN.
STATES = {name: (name, colour) for name, colour in (
    ("FAULT", RED), ("MOTORRUN", "#1b873f"), ("OPENLOOP", "#4c9f70"), ("PARKING", "#2b6cb0"),
    ("ANGLESENSING", "#3d9be0"), ("CATCHSPIN", "#2aa5a0"), ("BTSCHARGE", "#d99000"),
    ("OFFSETCAL", "#8b6fc9"), ("STOP", "#6b7785"), ("IDLE", "#aab3bd"))}  # fmt: skip
GATES = {gate: (line_form.GATES[gate], colour) for gate, colour in ((3, "#7b1fa2"), (2, "#1b873f"), (1, "#d99000"), (0, "#8a94a0"))}
SAMPLES = {"D": ("dead \u00b7 D", RED), "X": ("stray \u00b7 X", ORANGE)}
REFUSALS = {
    number: (f"{line_form.REFUSALS.get(number, 'refused')} \u00b7 {number:X}", ORANGE)
    for number in range(1, line_form.MOST_NUMBER + 1)
}


def draw_legend(picture: Picture, signs: List[Tuple[str, str]], width: int) -> float:
    """Draws each fill with its meaning, in as many lines as the width asks for, and gives the top of the last."""
    left, top = float(LEFT), picture.bottom + 32
    for fill, label in signs:
        room = 34 + 7.2 * len(label)
        if left > 20 and left + room > width:
            left, top = 20.0, top + 22
        picture.front.append(rectangle(left, top, left + 26, top + 14, fill, "legend", label, f'stroke="{EDGE}"'))
        picture.text(left + 34, top + 11, label)
        left += room + 24
    return top


def draw(runs: List[Span], title: str, width: int, longest: int, marks: Optional[List[Mark]] = None) -> str:
    runs = lay_out(runs, width - LEFT - RIGHT, longest)
    picture = Picture(runs)
    states = spans_of(runs, lambda report: report.state)
    # The counter runs modulo 2^32: a step back from 0 is -1.
    moved = [(run.value.position - runs[0].value.position + 2**31) % 2**32 - 2**31 for run in runs]
    live = [row for bit in range(line_form.BITS_OF_THE_WORD) for row in rows_of(
        spans_of(runs, lambda report: report.live >> bit & 1),
        {1: (f"{line_form.ALL_BITS.get(bit, 'unnamed')} \u00b7 {bit}", RED)})]
    refused = rows_of(spans_of(runs, lambda report: report.number), REFUSALS)
    samples = rows_of(spans_of(runs, lambda report: report.fate), SAMPLES)
    if all(run.value.fate == line_form.UNTOLD for run in runs):
        samples = [("not told by these lines", FAINT_INK, [])]
    picture.rows("State", "state", 20, rows_of(states, STATES))
    picture.rows("Gates", "gate", 18, rows_of(spans_of(runs, lambda report: report.gate), GATES))
    picture.rows("Live word", "live", 16, live)
    picture.curve("Speed reference", "reference", "#1d4ed8", [run.value.reference for run in runs])
    picture.curve("Position (counts)", "position", "#0f766e", moved)
    picture.rows("Bad Hall samples", "sample", 16, samples)
    picture.rows("Refusals", "refusal", 16, refused)
    background = picture.background(states, longest)
    if marks is not None:
        draw_marks(picture, marks)
    trips = sum(span.value == "FAULT" for span in states)
    refusals = sum(run.count for run in runs if run.value.number)
    picture.text(20, 34, title, size=20, more='font-weight="bold"')
    summary = (f"records: {sum(run.count for run in runs):,} \u00b7 trips: {trips:,} \u00b7 "
               f"refusals: {refusals:,}" + "".join(
                   f" \u00b7 {line_form.FATES[fate]} samples: {sum(run.count for run in runs if run.value.fate == fate):,}"
                   for fate in line_form.BAD_FATES if any(run.value.fate == fate for run in runs)))
    picture.text(20, 55, summary, size=13, colour=FAINT_INK)
    signs = [("url(#hatch)", f"over {longest} equal lines, drawn short"), ("#f9dcdc", "in FAULT")]
    if marks is not None:
        signs += [(colour, word) for word, _, colour in KINDS.values()]
    legend = draw_legend(picture, signs, width)
    height = legend + 32
    return "\n".join([
        f'<svg xmlns="http://www.w3.org/2000/svg" viewBox="0 0 {width} {height:.0f}" '
        f'width="{width}" height="{height:.0f}" role="img" '
        'font-family="Verdana, DejaVu Sans, Segoe UI, Helvetica, Arial, sans-serif">',
        f"<title>{escape(title)}</title>",
        '<defs><pattern id="hatch" width="6" height="6" patternUnits="userSpaceOnUse" '
        'patternTransform="rotate(45)"><rect width="6" height="6" fill="#f0f2f5"/>'
        '<path d="M0 0V6" stroke="#cfd7de" stroke-width="1.4"/></pattern></defs>',
        rectangle(0, 0, width, height, PAGE, "page", title),
        *picture.panels, *background, *picture.strokes, *picture.front, "</svg>\n"])


class Unreadable(Exception):
    """A file that cannot be read."""


def read_file(file: str, read: Callable[[Iterable[bytes]], Any]) -> Any:
    """What a function reads of a file's lines; what is wrong is told with the file's name."""
    name = "<stdin>" if file == "-" else file
    try:
        with sys.stdin.buffer if file == "-" else open(file, "rb") as lines:
            return read(lines)
    except OSError as error:
        raise Unreadable(f"{name}: {error.strerror}") from error
    except InUtf16 as error:
        raise InUtf16(name) from error
    except ValueError as error:
        raise ValueError(f"{name}:{error}") from error


def main() -> int:
    parser = parser_of("strip", DESCRIPTION)
    parser.add_argument("file", nargs="?", default="-", metavar="FILE",
                        help="report lines; '-' or none reads standard input")
    parser.add_argument("--why", metavar="REASONS", help="what ./why printed for the same records; '-' reads standard input")
    parser.add_argument("--title", default="shiftline strip chart")
    parser.add_argument("--width", type=from_one, default=1080, help="in pixels (1080)")
    parser.add_argument("--longest", type=from_one, default=20, metavar="N",
                        help="runs of more than N equal lines are drawn short (20)")
    options = parser.parse_args()
    if options.width < 400:
        parser.error("--width is at least 400")
    if options.file == options.why == "-":
        parser.error("lines and reasons cannot both come by standard input")
    try:
        runs = read_file(options.file, read_runs)
        marks = options.why and read_file(options.why, lambda lines: read_marks(lines, sum(run.count for run in runs)))
    except Unreadable as error:
        parser.error(str(error))
    except InUtf16 as error:
        print(f"strip: {error} {UTF16}", file=sys.stderr)
        return 2
    except ValueError as error:
        print(error, file=sys.stderr)
        return 1
    sys.stdout.write(draw(runs, options.title, options.width, options.longest, marks))
    return 0
