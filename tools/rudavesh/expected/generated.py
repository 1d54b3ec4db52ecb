"""What the program generated reads and must print: records by the model's generator, and their lines by the independent model.

The seed is one whose 3,000 records reach each of the ten states and every flag but 14, which takes 4,096 cycles without a step, and 12,
which takes a block load, and each letter of a Hall sample; and with two Hall sensors the nine states that a loaded drive has, flag 15, and
each letter but the dead one's. A changed rule may change what the generator draws: where the seed no longer serves, the first one that does
is told."""

import re
from itertools import count
from typing import Iterator, List, Optional, Set

from .. import line_form, model, places
from ..record_form import LOAD, LOAD_WITH_SENSORS, whole_records
from . import Files

SEED, RECORDS = 10, 3000
TOO_SLOW = {14}
# A block load alone sets it, and no record of shiftline is one: M-102.
NOT_HERE = {12}


def room() -> int:
    """How many bytes of records the program reads."""
    code = (places.program_folder("generated") / "src" / "main.rt").read_text()
    found = re.search(r"INPUT_SIZE: usize = (\d+);", code)
    assert found, "crates/test_generated/src/main.rt names no INPUT_SIZE"
    return int(found[1])


def with_two_sensors(records: bytes, shown: List[line_form.Report]) -> Iterator[line_form.Report]:
    """The reports of motors with two Hall sensors: from each accepted load that chooses them to the next accepted load."""
    two = False
    for record, report in zip(whole_records(records), shown):
        if record[:1].decode() in (LOAD.letter, LOAD_WITH_SENSORS.letter) and report.number == 0:
            two = record[:1].decode() == LOAD_WITH_SENSORS.letter and record[-1] == 2
        if two:
            yield report


def missing(shown: List[line_form.Report], states: Set[str], flags: Set[int], fates: Set[str]) -> List[str]:
    """Those of some states, flags and letters that no report shows."""
    states = states - {report.state for report in shown}
    flags = {bit for bit in flags if not any(report.live >> bit & 1 for report in shown)}
    fates = fates - {report.fate for report in shown}
    return sorted(states) + [f"flag {bit}" for bit in sorted(flags)] + [f"letter {fate}" for fate in sorted(fates)]


def lacks(records: bytes) -> Optional[str]:
    """Why these records do not serve, if they do not: too many bytes for the program, or a state, flag or letter that they do not show."""
    if len(records) > room():
        return f"{len(records)} bytes of records, and the program reads {room()}"
    shown = [report for report in map(line_form.read, model.lines(records).decode().splitlines()) if report]
    lacking = missing(shown, set(line_form.STATES), set(line_form.BITS) - TOO_SLOW - NOT_HERE, set(line_form.FATES))
    if lacking:
        return f"no line shows {', '.join(lacking)}"
    lacking = missing(list(with_two_sensors(records, shown)), set(line_form.STATES) - {"IDLE"}, {15}, set(line_form.FATES) - {"D"})
    return f"no line shows {', '.join(lacking)} with two Hall sensors" if lacking else None


def files() -> Files:
    records = model.generated(SEED, RECORDS)
    why = lacks(records)
    if why:
        serves = next(seed for seed in count(1) if not lacks(model.generated(seed, RECORDS)))
        raise SystemExit(f"{__name__}: seed {SEED} no longer serves: {why}. The first that does is {serves}: write it there.")
    return {"stdin": records, "stdout": model.lines(records)}
