"""What the program why reads and must print: the story of a pump, record by record, with the sentences that the rules of documents 01 and
02 and demand 3 give for it. The sentences are typed here; the records' numbers are counted while the story is told."""

from typing import List

from ..record_form import CYCLE, LOAD, LOAD_WITH_SENSORS, TICK, Kind
from . import Files

HELD = 10_000  # "from its 10,000th tick on"


class Story:
    """Records so far, and the sentences about them."""

    def __init__(self) -> None:
        self.records: List[bytes] = []
        self.sentences: List[str] = []

    def call(self, kind: Kind, *said: str, **fields: int) -> int:
        """One more record, its other fields by default, and what is to be said of it; gives its number."""
        assert set(fields) <= {one.name for one in kind.fields}, fields
        self.records.append(kind.packed(*(fields.get(one.name, one.default) for one in kind.fields)))
        number = len(self.records)
        self.sentences += [f"record {number:<5}  {sentence}" for sentence in said]
        return number

    def load(self, *said: str, **fields: int) -> int:
        return self.call(LOAD_WITH_SENSORS if "sensors" in fields else LOAD, *said, **fields)

    def cycle(self, pattern: int, *said: str) -> int:
        return self.call(CYCLE, *said, pattern=pattern)

    def tick(self, *said: str, **fields: int) -> int:
        return self.call(TICK, *said, **{"control": 520, **fields})

    def low(self, *said: str) -> int:
        return self.tick(*said, control=0)


def told() -> Story:
    story = Story()
    story.cycle(1, "cycle refused: number 3, place 0: in IDLE there are no settings: load first")
    # four loads that break four settings
    story.load("load refused: number 2, place 1: ControlMode is 0..1", ControlMode=2)
    story.load("load refused: number 2, place 4: VdcLvLevel is 0..4095, below VdcOvLevel", VdcLvLevel=3000)
    story.load("load refused: number 2, place 13: MotorLim is 1..4095", MotorLim=0)
    story.load("load refused: number 2, place 24: RetryLimit is 0..100", RetryLimit=101)

    story.load("loaded: mode 1, 2 retries allowed", ControlMode=1)
    story.low()
    for _ in range(64):
        story.cycle(1)
    low = story.low()
    start(story, f"start: permitted by the low command at record {low}")
    story.tick("trip: VdcFilt above VdcOvLevel (bit 2)", VdcFilt=3050)
    for _ in range(HELD - 1):
        story.tick()
    retry = story.tick("FAULT left: timed retry 1 of 2; no live cause stood")
    start(story, f"start: permitted by the timed retry at record {retry}; no low was held since the trip")

    # two dead samples shut the gates, the next tick trips, and a sample that comes before it changes nothing of the reason; a low in FAULT
    # permits nothing after it
    story.cycle(0, "dead Hall sample 1: pattern 0")
    dead = story.cycle(7, "live: two dead Hall samples, last pattern 7 (bit 15)")
    story.cycle(0)
    story.tick(f"trip by record {dead}: two dead Hall samples, last pattern 7 (bit 15)")
    story.cycle(1, "Hall samples since the load: 3 dead, 0 stray")
    low = story.low()
    for _ in range(HELD - 2):
        story.tick()
    retry = story.tick("FAULT left: timed retry 2 of 2; no live cause stood")
    story.tick(f"start: permitted by the timed retry at record {retry}; the last low was held before it, at record {low}")
    low = story.low("stop: low command")
    story.tick(f"start: permitted by the low command at record {low}")

    # three strays: 6 is neither before nor after 1
    story.cycle(6, "stray Hall sample 1: pattern 6")
    story.cycle(6)
    stray = story.cycle(4, "live: three stray Hall samples, last pattern 4 (bit 15)")
    story.tick(
        f"trip by record {stray}: three stray Hall samples, last pattern 4 (bit 15)",
        "live: gate kill is 1 (bit 0), three stray Hall samples, last pattern 4 (bit 15)",
        gate_kill=1,
    )
    story.tick("FAULT left: clear", clear=1)
    loose_plug(story)
    story.tick("trip: VdcRaw above CriticalOvLevel (bit 1)", "gates: all low sides on", VdcRaw=3600)
    story.load("load refused: number 4, place 0: outside IDLE and STOP: stop or clear first")
    story.tick("FAULT left: clear", "gates: off", clear=1)

    story.tick("tick refused: number 1, place 3: command is 0..1", command=2)
    story.cycle(8, "cycle refused: number 1, place 1: pattern is 0..7")
    story.load("Hall samples since the load: 1 dead, 0 stray", "loaded: mode 1, 1 retry allowed", ControlMode=1, RetryLimit=1)
    story.load("loaded: mode 0, no timed retries")
    small_pump(story)
    cold_start(story)
    return story


def loose_plug(story: Story) -> None:
    """A plug that shakes: M-105. A sample by itself is told with its number since the load; of several in a row the first is, and how many
    there were when they are over. Ticks and a refused cycle between them are no samples. The pattern was forgotten: 1 is the first."""
    story.cycle(1, "Hall samples since the load: 3 dead, 3 stray")
    story.cycle(7, "dead Hall sample 4: pattern 7")
    story.cycle(1)
    story.cycle(4, "stray Hall sample 4: pattern 4")
    story.tick()
    story.cycle(8, "cycle refused: number 1, place 1: pattern is 0..7")
    story.cycle(7)
    story.cycle(2)
    story.cycle(1, "Hall samples since the load: 5 dead, 5 stray")
    story.cycle(3)
    story.cycle(5, "stray Hall sample 6: pattern 5")
    story.cycle(0)
    story.cycle(3, "Hall samples since the load: 6 dead, 6 stray")
    # a load in a row of them: the counts before it are told, and it counts anew
    story.cycle(5, "stray Hall sample 7: pattern 5")
    story.load("Hall samples since the load: 6 dead, 7 stray", "loaded: mode 1, 2 retries allowed", ControlMode=1)
    story.cycle(7, "dead Hall sample 1: pattern 7")
    story.cycle(1)


def small_pump(story: Story) -> None:
    """The pump is changed for a small one, with two Hall sensors: M-101."""
    story.load("load refused: number 2, place 24: RetryLimit is 0..100", sensors=4, RetryLimit=101)
    story.load("load refused: number 2, place 25: sensors is 2..3", sensors=4)
    story.load("loaded: mode 0, no timed retries", "loaded: motor with two Hall sensors", sensors=2)
    story.cycle(4, "cycle refused: number 1, place 1: pattern is 0..3 with two Hall sensors")
    # all four patterns are good: 0 twice is no dead sample
    for pattern in (0, 0, 1, 3):
        story.cycle(pattern)
    # three strays: 0 is opposite 3; no cause stands, and the clear works at once
    story.cycle(0, "stray Hall sample 1: pattern 0")
    story.cycle(0)
    stray = story.cycle(0, "live: three stray Hall samples, last pattern 0 (bit 15)")
    story.tick(f"trip by record {stray}: three stray Hall samples, last pattern 0 (bit 15)")
    story.tick("FAULT left: clear", clear=1)
    # 24 numbers mean three sensors: said, since there were two, and 4 is a pattern again; after that three are not said any more
    story.load(
        "Hall samples since the load: 0 dead, 3 stray",
        "loaded: mode 1, 2 retries allowed",
        "loaded: motor with three Hall sensors again",
        ControlMode=1,
    )
    story.cycle(4)
    story.load("loaded: mode 0, no timed retries", sensors=3)
    story.cycle(8, "cycle refused: number 1, place 1: pattern is 0..7")
    story.load("load refused: number 2, place 25: sensors is 2..3", sensors=1)


def cold_start(story: Story) -> None:
    """The melt is cold and the shaft stands, at speed 0: M-103."""
    locked = "rotor locked for RotorLockTime: torque at MotorLim, speed within 4095 (bit 7)"
    story.load("loaded: mode 1, 2 retries allowed", ControlMode=1, RotorLockTime=1, MotorLim=3000)
    story.low()
    for _ in range(64):
        story.cycle(1)
    low = story.low()
    start(story, f"start: permitted by the low command at record {low}")
    # nine ticks at MotorLim, one below it, and ten: of either sign, and with cycles and a refused tick between them
    for torque in 9 * [3000] + [2999] + 9 * [-3000]:
        story.tick(TrqRef=torque)
        story.cycle(1)
    story.tick("tick refused: number 1, place 9: TrqRef is -4095..4095", TrqRef=4096)
    story.tick(f"trip: {locked}", TrqRef=3000)
    story.tick("FAULT left: clear", clear=1)
    # the command never fell, so that nothing starts
    story.tick(TrqRef=3000)


def start(story: Story, sentence: str) -> None:
    """From the start tick to MOTORRUN: BTSCHARGE, CATCHSPIN, ANGLESENSING, PARKING, OPENLOOP, each left as soon as may be."""
    story.tick(sentence)
    for _ in range(3):
        story.cycle(1)
    story.tick("gates: drive")
    for _ in range(4):
        story.tick()


def files() -> Files:
    story = told()
    # at the end what was not told yet of the samples is; no record is called X, and what stands behind it is not read
    last = story.cycle(7, "dead Hall sample 1: pattern 7", "Hall samples since the load: 1 dead, 0 stray")
    end = f"record {last + 1:<5}  refused: number 6, place 0: unknown or short record; the run ends"
    unknown = b"X" + TICK.packed(*TICK.defaults)
    printed = "".join(sentence + "\n" for sentence in story.sentences + [end])
    return {"stdin": b"".join(story.records) + unknown, "stdout": printed.encode("ascii")}
