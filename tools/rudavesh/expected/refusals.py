"""Records that give each refusal of load, block load, cycle and tick once and more, in every state and with either number of Hall sensors,
and number and place of each, worked out from document 01's refusals, settings and fields and from M-101 and M-102 of document 02. They are
the beginning of what the program benchline reads: it shows the places, and in IDLE flag 12."""

from typing import Iterable, Iterator, List, Sequence, Tuple

from ..record_form import CYCLE, LOAD, LOAD_WITH_SENSORS, MOST_PATTERN, TICK, Field, Kind
from .images import damaged
from .loads import BAD, GOOD, OF_THREE, OF_TWO, Case, by_block, keeps_rule, load, load_block, load_by_m

SIXTEEN_BITS = range(65536)
STILL = [1, 0, 0]
# A tick that raises no flag.
QUIET = TICK.defaults


def range_of(field: Field, sensors: int) -> Tuple[int, int]:
    """The range of a field: of the pattern, "above 3 with two sensors is 1"."""
    return (0, MOST_PATTERN[sensors]) if field.name == "pattern" else field.range


def allows(field: Field, value: int, sensors: int) -> bool:
    least, most = range_of(field, sensors)
    return least <= value <= most


def call(state: str, kind: Kind, values: List[int], sensors: int = 3) -> Case:
    places = enumerate(zip(kind.fields, values), 1)
    refused = next((f"1 {place}" for place, (field, value) in places if not allows(field, value, sensors)), "0 0")
    return Case(kind.packed(*values), "3 0" if state == "IDLE" else refused)


def put(numbers: Sequence[int], place: int, value: int) -> List[int]:
    return [*numbers[: place - 1], value, *numbers[place:]]


def tick(**fields: int) -> List[int]:
    """A quiet tick but for these fields."""
    return [fields.get(one.name, value) for one, value in zip(TICK.fields, QUIET)]


# From power-up on: each state, its number, the cycles that it needs, and the tick that leaves it.
WALK = (
    ("STOP", 1, 0, tick(command=0)),
    ("OFFSETCAL", 2, 64, tick(command=0)),
    ("STOP", 1, 0, tick(command=1)),
    ("BTSCHARGE", 3, 3, tick(command=1)),
    ("CATCHSPIN", 6, 0, tick(command=1)),
    ("ANGLESENSING", 9, 0, tick(command=1)),
    ("PARKING", 7, 0, tick(command=1)),
    ("OPENLOOP", 8, 0, tick(command=1)),
    ("MOTORRUN", 4, 0, tick(gate_kill=1)),
    ("FAULT", 5, 0, tick(clear=1)),
)


# An image with bodies that load takes and one that it refuses; blocks 0 and 14 are empty.
BODIES = {1: OF_TWO, 4: BAD, 7: GOOD, 13: [*GOOD, 4]}
DAMAGED = damaged(GOOD, OF_TWO)
# Flag 12 alone, "always live", as benchline prints the live word.
FLAG_12 = 4096


def by_the_image(state: str) -> Iterator[Case]:
    """Block loads that are refused by the image or the block asked for, "7 image malformed" before all else."""
    for name in ("the last byte missing", "kind 2 and zeros", "no byte"):
        yield from (by_block(block, DAMAGED[name], "7 0") for block in (9, 0, 15))
    yield from (load_block(state, block, BODIES) for block in (15, 255, 0, 14))


def in_state(state: str, number: int, sensors: int) -> Iterator[Case]:
    """What a state refuses, and that it is the state which the answers show."""
    cases = [load(state, numbers) for numbers in (BAD, GOOD[:-1], [*GOOD, 1], [*BAD, 4], [*OF_TWO, 2])]
    cases += [load_by_m(state, numbers) for numbers in ([*GOOD, 0], [*GOOD, 4], [*BAD, 4])]
    # Of both kinds of motor, the first pattern that it lacks, also where a sample is bad as well.
    lacking = MOST_PATTERN[sensors] + 1
    cases += [call(state, CYCLE, values, sensors) for values in (put(STILL, 1, lacking), [lacking, 4096, 4096], put(STILL, 1, 8))]
    cases += by_the_image(state)
    # In IDLE these would set flag 12.
    cases += [load_block(state, block, BODIES) for block in (4, 13) if state != "IDLE"]
    for case in [*cases, call(state, TICK, put(QUIET, 1, 2))]:
        yield Case(case.record, f"{case.line} {number}")


def showing(live: int, cases: Iterable[Case]) -> Iterator[Case]:
    """The same in IDLE, where the gates are off, with the live word."""
    for case in cases:
        number, place = case.line.split()[:2]
        yield Case(case.record, f"{number} {place} 0 0 {live}")


def in_idle() -> Iterator[Case]:
    """From power-up to the first accepted load. "A body that it finds and load's own rules refuse in IDLE also sets flag 12, always live,
    until a load of either kind is accepted": its own answer shows it. What refuses before, and a plain load, sets no flag, and what is
    refused takes none away."""
    others = [
        *in_state("IDLE", 0, 3),
        *(by_block(block, content, "7 0") for content in DAMAGED.values() for block in (2, 9)),
        *(call("IDLE", kind, values) for kind, values in ((CYCLE, STILL), (CYCLE, put(STILL, 1, 4)), (TICK, QUIET), (TICK, tick(clear=1)))),
    ]
    yield from showing(0, others)
    yield from showing(FLAG_12, [load_block("IDLE", block, BODIES) for block in (4, 13, 4)])
    yield from showing(FLAG_12, others)
    yield from showing(FLAG_12, refused_bodies("IDLE"))
    accepted = load_block("IDLE", 7, BODIES)
    yield Case(accepted.record, f"{accepted.line} 1 0 0")


def refused_bodies(state: str) -> Iterator[Case]:
    """For each setting that can be refused, a body of which it is the first that is."""
    for place, field in enumerate(LOAD_WITH_SENSORS.fields, 1):
        refused = [value for value in (65535, 0) if not keeps_rule(GOOD, field, value)]
        if refused:
            yield load_block(state, place % 15, {place % 15: put(OF_THREE, place, refused[0])})


def walk(sensors: int, numbers: List[int]) -> Iterator[Case]:
    """From STOP, just loaded, through every state and back."""
    for state, number, cycles, leaving in WALK:
        yield from in_state(state, number, sensors)
        if state != "STOP":
            yield load(state, numbers)
            yield load_by_m(state, OF_TWO)
            yield load_block(state, 7, BODIES)
        yield from [call(state, CYCLE, STILL, sensors)] * cycles
        yield call(state, TICK, leaving)


def states() -> Iterator[Case]:
    yield from in_idle()
    yield from walk(3, GOOD)
    yield load("STOP", OF_TWO)
    yield from walk(2, OF_TWO)
    yield load("STOP", GOOD)


def motors() -> Iterator[Case]:
    """Loads of either length after each, and the patterns that tell what was loaded."""
    for sensors, case in (
        (2, load("STOP", OF_TWO)),
        (3, load("STOP", GOOD)),
        (2, load_by_m("STOP", OF_TWO)),
        (3, load_by_m("STOP", OF_THREE)),
        (3, load("STOP", GOOD)),
        (2, load("STOP", OF_TWO)),
        (3, load("STOP", OF_THREE)),
        (2, load_block("STOP", 1, BODIES)),
        (3, load_block("STOP", 7, BODIES)),
        (2, load_block("STOP", 14, {14: OF_TWO})),
        (3, load_block("STOP", 0, {0: OF_THREE, 14: BAD})),
    ):
        yield case
        for pattern in range(9):
            yield call("STOP", CYCLE, put(STILL, 1, pattern), sensors)


def each_setting() -> Iterator[Case]:
    """The least and the greatest value that is accepted, and one beyond each, where 16 bits hold it."""
    for place, field in enumerate(LOAD_WITH_SENSORS.fields, 1):
        # The other rules do not look at this setting, and hold of GOOD.
        looking = [one for one in LOAD.fields if one.relation and one.relation.other == field.name]
        accepted = [value for value in SIXTEEN_BITS if keeps_rule(GOOD, field, value)]
        for one in looking:
            its_value = GOOD[LOAD.place(one.name) - 1]
            accepted = [value for value in accepted if one.relation.holds(its_value, value)]
        least, most = accepted[0], accepted[-1]
        assert accepted == list(range(least, most + 1))
        for value in least - 1, least, most, most + 1:
            if value in SIXTEEN_BITS:
                yield load("STOP", put(GOOD, place, value))


def sensors() -> Iterator[Case]:
    """Setting 25 outside 2..3, also where one of its two bytes alone would be good; by either record."""
    for value in (0, 1, 4, 255, 258, 259, 512, 768, 65535):
        yield load("STOP", [*GOOD, value])
        yield load_by_m("STOP", [*GOOD, value])


def several_settings(good: List[int]) -> Iterator[Case]:
    """Every setting from a place on refused, where it can be."""
    numbers = good
    for place in range(len(good), 0, -1):
        refused = [value for value in (65535, 0) if not LOAD_WITH_SENSORS.fields[place - 1].allows(value)]
        numbers = put(numbers, place, refused[0]) if refused else numbers
        yield load("STOP", numbers)


def sizes() -> Iterator[Case]:
    for size in range(31):
        for numbers in (OF_TWO, GOOD, BAD):
            yield load("STOP", (numbers + [0] * 7)[:size])


def fields_of(kind: Kind, good: List[int], sensors: int) -> Iterator[Case]:
    """Each field at the ends of its range, and beyond them where its bytes hold it; then every field from a place on out of its range."""
    for place, field in enumerate(kind.fields, 1):
        (least, most), (lowest, highest) = range_of(field, sensors), field.held
        for value in (least - 1, least, most, most + 1, lowest):
            if lowest <= value <= highest:
                yield call("STOP", kind, put(good, place, value), sensors)
    numbers = good
    for place in range(len(kind.fields), 0, -1):
        field = kind.fields[place - 1]
        refused = [value for value in (field.held[1], field.held[0]) if not field.allows(value)]
        numbers = put(numbers, place, refused[0]) if refused else numbers
        yield call("STOP", kind, numbers, sensors)


def fields() -> Iterator[Case]:
    for sensors, numbers in ((2, OF_TWO), (3, GOOD)):
        yield load("STOP", numbers)
        yield from fields_of(CYCLE, STILL, sensors)
    yield from fields_of(TICK, list(QUIET), sensors=3)


def cases() -> List[Case]:
    """From power-up on. The fields come last: an accepted tick leaves STOP, where no load would be refused as it is here."""
    blocks = [*refused_bodies("STOP"), *(load_block("STOP", block, {block: GOOD}) for block in range(15))]
    settings = [*blocks, *each_setting(), *sensors(), *several_settings(GOOD), *several_settings(OF_THREE), *sizes()]
    return [*states(), *motors(), *settings, *fields()]
