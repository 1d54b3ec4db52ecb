"""Tests of `records`: the bytes that it writes."""

import os
import random
import tempfile
import unittest
from pathlib import Path

from .commands import run
from .paper import PAPER_LOAD, SETTINGS, TICK_FIELDS, block_load, cycle, image, load, load_with_sensors, tick
from .records_case import Case


class RecordBytes(Case):
    def test_the_example_of_the_paper(self):
        plain = ("C 1 0 0\nL 0 65535 3000 1000 3500 3500 100 800 100 0 600 64 4095 7 3 0 300 "
                 "0 0 0 400 300 4096 2\nC 1 0 0\nC 3 0 0\n"
                 "T 0 0 0 0 2623 2623 1000 2048 0 0 0\nT 0 0 0 0 2623 3001 1000 2048 0 0 0\n")
        named = ("cycle pattern=1 first=0 second=0\nload\ncycle\ncycle 3\ntick\n"
                 "tick VdcFilt=3001\n")
        expected = (cycle(1, 0, 0) + load(*PAPER_LOAD) + cycle(1, 0, 0) + cycle(3, 0, 0)
                    + tick() + tick(filtered=3001))
        self.assertEqual(self.written(plain), expected)
        self.assertEqual(self.written(named), expected)

    def test_sizes_of_the_records(self):
        self.assertEqual([len(self.written(text)) for text in ("load", "cycle", "tick")],
                         [49, 6, 20])

    def test_each_setting_lands_in_its_place(self):
        for place, name in enumerate(SETTINGS):
            values = list(PAPER_LOAD)
            values[place] = 4660 + place
            self.assertEqual(self.written(f"load {name}={4660 + place}"), load(*values), name)

    def test_a_load_that_names_sensors_is_record_m(self):
        self.assertEqual(self.written("load sensors=2"), load_with_sensors(*PAPER_LOAD, 2))
        self.assertEqual(self.written("load sensors=3"), load_with_sensors(*PAPER_LOAD, 3))
        self.assertEqual(self.written("L Sensors=65535 ControlMode=1"), load_with_sensors(1, *PAPER_LOAD[1:], 65535))
        self.assertEqual(self.written("load"), load(*PAPER_LOAD))
        # A load keeps nothing: the next one is an L again.
        self.assertEqual(self.written("load sensors=2\nload\nrepeat 2 load sensors=2"),
                         load_with_sensors(*PAPER_LOAD, 2) + load(*PAPER_LOAD) + 2 * load_with_sensors(*PAPER_LOAD, 2))

    def test_25_plain_numbers_are_record_m_and_m_is_always_one(self):
        numbers = " ".join(map(str, PAPER_LOAD))
        self.assertEqual(self.written(f"load {numbers} 2"), load_with_sensors(*PAPER_LOAD, 2))
        self.assertEqual(self.written(f"load {numbers}"), load(*PAPER_LOAD))
        self.assertEqual(self.written(f"M {numbers} 4\nm\nm sensors=2"), load_with_sensors(*PAPER_LOAD, 4)
                         + load_with_sensors(*PAPER_LOAD, 3) + load_with_sensors(*PAPER_LOAD, 2))

    def test_each_setting_of_record_m_lands_in_its_place(self):
        for place, name in enumerate([*SETTINGS, "sensors"]):
            values = [*PAPER_LOAD, 3]
            values[place] = 4660 + place
            self.assertEqual(self.written(f"M {name}={4660 + place}"), load_with_sensors(*values), name)

    def test_each_tick_field_lands_in_its_place(self):
        starting = [0, 0, 0, 0, 2623, 2623, 1000, 2048, 0, 0, 0]
        for place, name in enumerate(TICK_FIELDS):
            values = list(starting)
            values[place] = 77 + place
            self.assertEqual(self.written(f"tick {name}={77 + place}"), tick(*values), name)

    def test_random_records_against_struct(self):
        chance = random.Random(4)
        text, expected = [], b""

        def spelled(value: int) -> str:
            return chance.choice([str(value), hex(value), f"{value:+d}"])

        for _ in range(300):
            kind = chance.choice("LMCT")
            if kind in "LM":
                values = [chance.randrange(65536) for _ in range(24 + (kind == "M"))]
                values[9] -= 32768
                names, written = ([*SETTINGS, "sensors"], load_with_sensors) if kind == "M" else (SETTINGS, load)
                expected += written(*values)
            elif kind == "C":
                values = [chance.randrange(256)] + [chance.randrange(65536) for _ in range(2)]
                names, expected = ["pattern", "first", "second"], expected + cycle(*values)
            else:
                values = ([chance.randrange(256) for _ in range(3)]
                          + [chance.randrange(65536) for _ in range(5)]
                          + [chance.randrange(-32768, 32768) for _ in range(3)])
                names, expected = TICK_FIELDS, expected + tick(*values)
            if chance.random() < 0.5:
                fields = [spelled(value) for value in values]
            else:
                fields = [f"{name}={spelled(value)}" for name, value in zip(names, values)]
                chance.shuffle(fields)
            text.append(" ".join([kind] + fields))
        self.assertEqual(self.written("\n".join(text)), expected)

    def test_values_the_paper_forbids_are_written(self):
        self.assertEqual(self.written("tick command=2 VdcRaw=65535 speed=-32768"),
                         tick(command=2, raw=65535, speed=-32768))
        self.assertEqual(self.written("cycle 255 65535 4096"), cycle(255, 65535, 4096))

    def test_hexadecimal_of_a_signed_field_is_its_bit_pattern(self):
        self.assertEqual(self.written("tick speed=0xFFFF TrqRef=-0x10 target=0x7fff"),
                         tick(speed=-1, torque=-16, target=32767))
        values = list(PAPER_LOAD)
        values[9] = -32768
        self.assertEqual(self.written("load HallAngleOffset=0x8000"), load(*values))

    def test_names_and_words_without_regard_to_case_and_underscore(self):
        self.assertEqual(self.written("TICK vdcfilt=1 FLXM=2 Gate-Kill=1\nt TRQREF=3"),
                         tick(filtered=1, flux=2, gate_kill=1)
                         + tick(filtered=1, flux=2, gate_kill=1, torque=3))
        self.assertEqual(self.written("Load is_pulses=9\nl ISPulses=9"), self.written(
            "L IS_Pulses=9\nload IS_PULSES=9"))


class LeftOut(Case):
    def test_a_tick_keeps_what_is_not_named(self):
        self.assertEqual(self.written("tick command=1 speed=600\ntick clear=1\ntick\n"),
                         tick(command=1, speed=600) + 2 * tick(command=1, speed=600, clear=1))

    def test_plain_numbers_are_kept_too(self):
        self.assertEqual(self.written("tick 1 1 1 5 6 7 8 9 -10 -11 -12\ntick clear=0"),
                         tick(1, 1, 1, 5, 6, 7, 8, 9, -10, -11, -12)
                         + tick(1, 0, 1, 5, 6, 7, 8, 9, -10, -11, -12))

    def test_a_cycle_keeps_its_samples(self):
        self.assertEqual(self.written("cycle\ncycle 3 7 8\ncycle 2\ncycle first=9"),
                         cycle(1, 2048, 2048) + cycle(3, 7, 8) + cycle(2, 7, 8) + cycle(2, 9, 8))

    def test_a_load_keeps_nothing(self):
        values = list(PAPER_LOAD)
        values[0] = 1
        self.assertEqual(self.written("load ControlMode=1\nload"),
                         load(*values) + load(*PAPER_LOAD))


class LoadsOfManyLines(Case):
    def test_lines_that_begin_with_a_name_go_on_with_the_load_before(self):
        values = list(PAPER_LOAD)
        values[15], values[18] = 5, 7
        for text in ("load\nTCatchSpin=5\nParkTime=7", "load TCatchSpin=5 # a\n\n# b\n\tParkTime=7\n", "l\nParkTime=7 TCatchSpin=5\r\n"):
            self.assertEqual(self.written(text + "\ntick"), load(*values) + tick())

    def test_with_sensors_in_any_line_it_is_record_m(self):
        values = [*PAPER_LOAD, 2]
        values[18] = 7
        for text in ("load\nsensors=2\nParkTime=7", "load sensors=2\nParkTime=7", "M\nParkTime=7\nsensors=2"):
            self.assertEqual(self.written(text), load_with_sensors(*values))

    def test_within_a_repeat(self):
        values = list(PAPER_LOAD)
        values[18] = 7
        self.assertEqual(self.written("repeat 2 {\n load\n  ParkTime=7\n}"), 2 * load(*values))


class Blocks(unittest.TestCase):
    """Loads of stored blocks, as a text names them."""

    def setUp(self) -> None:
        folder = tempfile.TemporaryDirectory()
        self.addCleanup(folder.cleanup)
        self.folder = Path(folder.name)
        self.image = image({3: PAPER_LOAD})
        (self.folder / "pumps.image").write_bytes(self.image)

    def written(self, text: str, name: str) -> bytes:
        file = self.folder / name
        file.parent.mkdir(exist_ok=True)
        file.write_text(text)
        done = run("records", "", str(file))
        self.assertEqual((done.returncode, done.stderr), (0, b""))
        return done.stdout

    def test_a_path_begins_at_the_folder_of_the_text(self):
        self.assertEqual(self.written("tick\nblock 3 pumps.image\n", "run"), tick() + block_load(3, self.image))
        self.assertEqual(self.written("BLOCK 0x0e ../pumps.image # x\nB 255 ../pumps.image", "below/run"),
                         block_load(14, self.image) + block_load(255, self.image))
        self.assertEqual(self.written(f"repeat 2 block 10 {self.folder}/pumps.image", "run"), 2 * block_load(10, self.image))

    def test_by_standard_input_it_begins_at_the_current_folder_or_at_that_of_the_file_that_is_named(self):
        before = Path.cwd()
        os.chdir(self.folder)
        self.addCleanup(os.chdir, before)
        self.assertEqual(run("records", "block 3 pumps.image").stdout, block_load(3, self.image))
        os.chdir(before)
        self.assertEqual(run("records", "block 3 pumps.image", f"--named={self.folder / 'run'}").stdout, block_load(3, self.image))

    def test_whatever_bytes_are_written_up_to_2048(self):
        for content in (b"", b"tick\n", bytes(range(256)) * 8):
            (self.folder / "x").write_bytes(content)
            self.assertEqual(self.written("block 0 x", "run"), block_load(0, content))
        (self.folder / "x").write_bytes(bytes(2049))
        done = run("records", "block 0 x", f"--named={self.folder / 'run'}")
        self.assertEqual((done.returncode, done.stdout), (1, b""))
        self.assertIn(b"run:1:9: ", done.stderr)
        self.assertIn(b"is longer than 2048 bytes", done.stderr)


class Repeats(Case):
    def test_one_record_many_times(self):
        self.assertEqual(self.written("repeat 10000 tick speed=5"), 10000 * tick(speed=5))

    def test_blocks_nest(self):
        text = "repeat 2 {\n cycle 1 0 0\n repeat 3 {\n  tick\n  raw FF\n }\n}\ncycle 2\n"
        inner = 3 * (tick() + b"\xff")
        self.assertEqual(self.written(text), 2 * (cycle(1, 0, 0) + inner) + cycle(2, 0, 0))

    def test_a_block_is_as_if_written_out(self):
        once = "tick speed=1\ntick command=1\n"
        self.assertEqual(self.written("repeat 2 {\n" + once + "}"), self.written(once + once))
        self.assertNotEqual(self.written(once + once), 2 * self.written(once))

    def test_an_empty_block_gives_nothing(self):
        self.assertEqual(self.written("repeat 1000000000 {\n repeat 1000000000 {\n # no\n }\n}"), b"")

    def test_brace_without_space_and_sixteen_deep(self):
        text = "repeat 1{\n" * 16 + "cycle 1 0 0\n" + "}\n" * 16
        self.assertEqual(self.written(text), cycle(1, 0, 0))


class TextForm(Case):
    def test_comments_blank_lines_and_line_ends(self):
        self.assertEqual(self.written("# a\n\n  \t\n\ttick#b\r\n   cycle 1 0 0   # c = { }\n"),
                         tick() + cycle(1, 0, 0))
        self.assertEqual(self.written(""), b"")

    def test_any_bytes_in_a_comment_and_a_byte_order_mark(self):
        self.assertEqual(self.written(b"\xef\xbb\xbftick # 20 \xb0C\ntick\n"), 2 * tick())

    def test_raw_bytes(self):
        self.assertEqual(self.written("raw 58 01\nraw 4c00ff"), b"X\x01L\x00\xff")

    def test_file_dash_and_standard_input_are_the_same(self):
        with tempfile.TemporaryDirectory() as folder:
            file = Path(folder) / "text"
            file.write_text("tick speed=3\n")
            from_file = run("records", "", str(file))
        self.assertEqual((from_file.returncode, from_file.stdout), (0, tick(speed=3)))
        self.assertEqual(run("records", "tick speed=3\n", "-").stdout, tick(speed=3))
