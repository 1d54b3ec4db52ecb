"""The picture of a strip chart in SVG: tracks of rows and curves, one below another."""

from typing import List
from xml.sax.saxutils import escape

from .strip_runs import LEFT, Span, round_steps

INK, FAINT_INK, PAGE, PANEL, EDGE = "#1f2933", "#5b6875", "#f5f7f9", "#ffffff", "#d5dbe1"
STRONG_LINE, FAINT_LINE, RED, ORANGE = "#b8c1ca", "#e8ecf0", "#c62828", "#d9480f"
CURVE_HEIGHT = 84


def rectangle(left: float, top: float, right: float, bottom: float, fill: str, kind: str,
              hint: str, more: str = "") -> str:
    return (f'<rect class="{kind}" x="{left:.2f}" y="{top:.1f}" width="{right - left:.2f}" height='
            f'"{bottom - top:.1f}" fill="{fill}" {more}><title>{escape(hint)}</title></rect>')


def path(drawn: str, colour: str, more: str = "") -> str:
    return f'<path d="{drawn}" stroke="{colour}" fill="none" {more}/>'


class Picture:
    """Draws tracks one below another. What lies behind all tracks can be drawn only when
    their height is known, so `panels` (drawn first), the strokes of marks and `front` (drawn last) are kept apart."""

    def __init__(self, runs: List[Span]) -> None:
        self.runs, self.right = runs, runs[-1].right
        self.panels, self.strokes, self.front = [], [], []
        self.top = self.bottom = 84.0

    def text(self, x: float, y: float, content: str, anchor: str = "start", size: int = 12,
             colour: str = INK, more: str = "") -> None:
        self.front.append(f'<text x="{x:.1f}" y="{y:.1f}" text-anchor="{anchor}" '
                          f'font-size="{size}" fill="{colour}" {more}>{escape(content)}</text>')

    def panel(self, title: str, height: float, left: float = LEFT) -> float:
        """Begin a track and give the top of its panel."""
        top = self.bottom + (24 if self.panels else 0)
        self.text(20, top - 5, title, size=13, more='font-weight="bold"')
        self.bottom = top + height
        self.panels.append(rectangle(left, top, self.right, self.bottom, PANEL, "panel", title,
                                     f'stroke="{EDGE}"'))
        return top

    def rows(self, title: str, kind: str, height: int, rows: List[tuple]) -> None:
        """Draw one row for each label, with a band wherever it holds."""
        rows = rows or [("none", INK, [])]
        top = self.panel(title, height * len(rows) + 6) + 3
        starts, bands = [], []
        for place, (label, colour, spans) in enumerate(rows):
            upper, middle = top + place * height, top + place * height + height / 2
            self.text(LEFT - 10, middle + 4, label, "end")
            self.front.append(path(f"M{LEFT} {middle}H{self.right:.1f}", FAINT_LINE))
            covered = 0.0
            for span, following in zip(spans, spans[1:] + [None]):
                right = max(span.right, span.left + 1.5)  # a single record stays visible
                if right - covered >= 1:  # else the band before hides it
                    starts.append((span.left, middle))
                    covered, last = right, span.first + span.count - 1
                    bands.append(rectangle(span.left, upper + 2, right, upper + height - 2, colour,
                                           kind, f"{label}, {span.first:,} to {last:,}"))
                if kind == "refusal" and (following is None or following.left > right + 12):
                    self.text(right + 3, middle + 4, f"{span.value:X}", size=11, colour=ORANGE,
                              more='class="refusal-number" font-weight="bold"')
        starts.sort()
        steps = [f"M{left:.2f} {before}V{after}"
                 for (_, before), (left, after) in zip(starts, starts[1:])]
        if kind in ("state", "gate"):  # one of its rows holds at any time
            self.front.append(path("".join(steps), STRONG_LINE))
        self.front += bands

    def curve(self, title: str, kind: str, colour: str, values: List[int]) -> None:
        low, high = min(0, *values), max(0, *values)
        high += low == high  # a curve that is 0 throughout lies at the bottom
        top = self.panel(title, CURVE_HEIGHT + 16) + 8

        def level(value: int) -> float:
            return round(top + CURVE_HEIGHT * (high - value) / (high - low), 1)

        for value in round_steps(low, high):
            self.text(LEFT - 10, level(value) + 4, f"{value:,}", "end", 11, FAINT_INK)
            self.front.append(path(f"M{LEFT} {level(value)}H{self.right:.1f}",
                                   FAINT_LINE if value else STRONG_LINE))
        drawn = f"M{LEFT} {level(values[0])}"
        done, pending = float(LEFT), []
        for run, value in zip(self.runs, values):
            # Records within half a pixel become one upright stroke from least to most.
            pending.append(value)
            if run.right - done >= 0.5 or run is self.runs[-1]:
                if len(pending) > 1:
                    drawn += f"V{level(min(pending))}V{level(max(pending))}"
                drawn += f"V{level(value)}H{run.right:.2f}"
                done, pending = run.right, []
        self.front.append(path(drawn, colour, f'class="{kind}" stroke-width="1.8"'))

    def background(self, states: List[Span], longest: int) -> List[str]:
        """Draw what lies behind all tracks: FAULT, long runs and the numbers of records."""
        drawn, labelled = [], []
        for run in self.runs:
            if run.count > longest:
                drawn.append(rectangle(run.left, self.top, run.right, self.bottom, "url(#hatch)",
                                       "long-run", f"{run.count:,} equal lines"))
                about = f"{run.count / 1000:.0f}k" if run.count >= 1000 else f"{run.count}"
                fitting = [label for label in (f"\u00d7 {run.count:,}", f"\u00d7{about}")
                           if 6.8 * len(label) < run.right - run.left]
                if fitting:
                    self.text((run.left + run.right) / 2, self.top - 5, fitting[0], "middle", 11,
                              more='class="long-run-label" font-weight="bold"')
        for span in states:
            if span.value == "FAULT" and span.right - span.left >= 0.5:  # else invisible
                drawn.append(rectangle(span.left, self.top, span.right, self.bottom, RED, "fault",
                                       "FAULT", 'fill-opacity="0.08"'))
        for place in states + self.runs:  # a change of state gets its number first
            if all(abs(place.left - other) > 54 for other in labelled):
                labelled.append(place.left)
                self.text(place.left, self.bottom + 16, f"{place.first:,}", "middle", 11, FAINT_INK,
                          f'stroke="{PAGE}" stroke-width="3" paint-order="stroke"')
                drawn.append(path(f"M{place.left:.2f} {self.top}V{self.bottom + 4}", STRONG_LINE))
        self.text(20, self.bottom + 16, "Record", size=13, more='font-weight="bold"')
        return drawn
