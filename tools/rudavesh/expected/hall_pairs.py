"""What the program hall_pairs must print, worked out from document 01's section "Cycle" and, for two sensors, from M-101 of document 02."""

from typing import Dict, List, NamedTuple, Optional, Tuple

from . import Files, printed


class Layout(NamedTuple):
    """How the sectors of a motor lie, by its number of Hall sensors."""

    sensors: int
    patterns: range
    dead: List[int]
    middle: Dict[int, int]  # of each sector, in clockwise order: k of its middle
    boundary: Dict[Tuple[int, int], int]  # clockwise: k of the boundary
    width: Dict[int, int]  # of each sector


# "Clockwise order is 1, 3, 2, 6, 4, 5, then 1." "Middles for 1, 3, 2, 6, 4, 5: k = 11, 1, 3, 5, 7, 9. Boundaries 1/3, 3/2, 2/6, 6/4, 4/5,
# 5/1: k = 0, 2, 4, 6, 8, 10." "position plus or minus 1"
THREE = Layout(
    sensors=3,
    patterns=range(8),
    dead=[0, 7],
    middle={1: 11, 3: 1, 2: 3, 6: 5, 4: 7, 5: 9},
    boundary={(1, 3): 0, (3, 2): 2, (2, 6): 4, (6, 4): 6, (4, 5): 8, (5, 1): 10},
    width={1: 1, 3: 1, 2: 1, 6: 1, 4: 1, 5: 1},
)
# "the clockwise order is 1, 3, 2, 0; the sectors run from -120 to 0, 0 to 60, 60 to 180 and 180 to 240 degrees, with middles -60, 30, 120
# and 210"; k counts 30 degrees. "1 for 60 degrees, 2 for 120. The dead-pattern test does not apply."
TWO = Layout(
    sensors=2,
    patterns=range(4),
    dead=[],
    middle={1: 10, 3: 1, 2: 4, 0: 7},
    boundary={(1, 3): 0, (3, 2): 2, (2, 0): 6, (0, 1): 8},
    width={1: 2, 3: 1, 2: 2, 0: 1},
)


def angle(k: int) -> int:
    """k times 30 degrees: floor(65536k/12), read as signed 16 bits."""
    bits = 65536 * k // 12
    return bits - 65536 if bits >= 32768 else bits


def line(layout: Layout, pattern: int, kept: Optional[int]) -> str:
    position, shown = 0, 1
    if pattern in layout.dead:
        fate = "dead"
    elif kept is None:
        fate, shown = "first", angle(layout.middle[pattern])
    elif pattern == kept:
        fate = "same"
    elif (kept, pattern) in layout.boundary:
        # "A clockwise step adds the width of the sector left"
        fate, position, shown = "forward", layout.width[kept], angle(layout.boundary[kept, pattern])
    elif (pattern, kept) in layout.boundary:
        # "a counter-clockwise one subtracts the width of the sector entered"
        fate, position, shown = "back", 2**32 - layout.width[pattern], angle(layout.boundary[pattern, kept])
    else:
        fate = "stray"
    return f"{layout.sensors} {pattern} {'.' if kept is None else kept} {fate} {position} {shown:+d}"


def files() -> Files:
    return printed(
        line(layout, pattern, kept)
        for layout in (THREE, TWO)
        for pattern in layout.patterns
        for kept in (None, *sorted(layout.middle))
    )
