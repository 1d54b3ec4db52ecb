"""What people do to the commands at the root: arguments, files of any kind and name, output that cannot be written, no python3."""

import os
import pty
import resource
import shutil
import signal
import subprocess
import unittest
from pathlib import Path

from .commands import TIMEOUT
from .launcher_case import COPIES, Case, write
from .paper import PAPER_LOAD, block_load, cycle, image, load, load_with_sensors, tick

TEXT = b"tick speed=600\n"
RECORD = tick(speed=600)


class Arguments(Case):
    def test_help_names_the_exit_statuses_and_builds_nothing(self):
        for name in ("shiftline", "benchline", "why", "blockline", "tools/run"):
            for word in ("-h", "--help"):
                done = self.run_it(name, word)
                self.assertEqual((done.returncode, done.stderr), (0, b""))
                said = done.stdout.decode()
                self.assertTrue(said.startswith(f"usage: {name}"), said)
                for part in ("Exit status: 0 ", "1 ", "2 wrong use"):
                    self.assertIn(part, said)
        self.assertEqual(self.asked(), [])

    def test_surplus_arguments_and_unknown_options(self):
        for name, arguments in (("shiftline", "a b"), ("benchline", "a b"), ("blockline", "a b"), ("why", "a b c"), ("why", "- -"),
                                ("shiftline", "--nonsense"), ("shiftline", "-x"), ("blockline", "-x"), ("tools/run", ""),
                                ("tools/run", "shiftline b"), ("tools/run", "-x")):  # fmt: skip
            done = self.run_it(name, *arguments.split())
            self.assertEqual((done.returncode, done.stdout), (2, b""), (name, arguments))
            self.assertIn(f"usage: {name}", done.stderr.decode())
        self.assertEqual(self.asked(), [])

    def test_a_dash_is_standard_input_and_so_is_no_argument(self):
        self.built()
        for arguments in ([], ["-"], ["--", "-"]):
            self.assertEqual(self.run_it("shiftline", *arguments, given=RECORD).stdout, RECORD)

    def test_two_dashes_end_the_options(self):
        self.built()
        for name in ("-x", "yes:-h"):
            self.file(name, TEXT)
            self.assertEqual(self.run_it("shiftline", "--", name, cwd=self.room).stdout, RECORD)

    def test_version_is_one_line_with_the_kit_of_the_readme(self):
        done = self.run_it("shiftline", "--version")
        self.assertEqual(done.returncode, 0)
        self.assertRegex(done.stdout.decode(), r"^shiftline of Rudavesh, sources [0-9a-f]{12}, proved with a-kit 1\n$")
        write(self.root, {"crates/drive/src/lib.rt": "two\n"})
        self.assertNotEqual(self.run_it("shiftline", "--version").stdout, done.stdout)
        self.assertEqual(self.asked(), [])

    def test_a_symlink_to_the_command_from_any_folder(self):
        self.built()
        (self.room / "link").symlink_to(self.root / "shiftline")
        (self.room / "of link").symlink_to("link")
        self.file("shift.txt", TEXT)
        done = subprocess.run(["../of link", "shift.txt"], cwd=self.temporary, env=self.environment, stdout=subprocess.PIPE,
                              stderr=subprocess.PIPE, timeout=TIMEOUT, check=False)  # fmt: skip
        self.told(done, 2, "there is no file 'shift.txt'")
        done = subprocess.run(["./of link", "shift.txt"], cwd=self.room, env=self.environment, stdout=subprocess.PIPE,
                              timeout=TIMEOUT, check=False)  # fmt: skip
        self.assertEqual((done.returncode, done.stdout), (0, RECORD))

    def test_a_program_that_is_not_there_yet(self):
        self.told(self.run_it("benchline", given=RECORD), 2, "there is no program benchline in this tree")


class Input(Case):
    def setUp(self) -> None:
        super().setUp()
        self.built()

    def test_a_directory_a_missing_file_and_an_unreadable_one(self):
        self.told(self.run_it("shiftline", self.room), 2, "is a directory")
        for name in (self.room / "none", ""):
            self.told(self.run_it("shiftline", name), 2, f"there is no file '{name}'")
        descriptor = os.open(self.room, os.O_RDONLY)
        self.addCleanup(os.close, descriptor)
        self.told(self.run_it("shiftline", stdin=descriptor), 2, "standard input is a directory")
        if os.geteuid():
            file = self.file("shut", TEXT)
            file.chmod(0)
            self.told(self.run_it("shiftline", file), 2, "cannot be read")

    def test_text_and_bytes_whatever_the_name_and_by_standard_input(self):
        for content in (TEXT, RECORD):
            for name in ("shift", "shift.txt"):
                self.assertEqual(self.run_it("shiftline", self.file(name, content)).stdout, RECORD, content)
        for content in (TEXT, b"\n# \xc3\xa9 comment\n" + TEXT, b"\xef\xbb\xbf" + TEXT, b"T speed=600", b"Tick\tspeed=600\r\n"):
            self.assertEqual(self.run_it("shiftline", given=content).stdout, RECORD, content)

    def test_no_accepted_record_is_taken_for_text_and_it_comes_through_whole(self):
        blanks = tick(0, 0, 0, *8 * [0x2020])
        loads = (load(*PAPER_LOAD), load(0, *23 * [0x2020]), load_with_sensors(0, *24 * [0x2020]))
        loads += (b"N\x18" + 24 * b"  ", b"N\x19" + 25 * b"  ")
        cycles = (cycle(pattern, 0x2020, 0x0A0A) for pattern in (0, 7))
        # Blocks 9 to 13 are bytes that stand in texts, too.
        blocks = (block_load(block, given) for block in range(15) for given in (b"", image({3: PAPER_LOAD}), 2048 * b" "))
        for content in (*loads, *cycles, *blocks, blanks, b"", b"X", b"X\x01", b"T\xff" + 18 * b" ", b"\xc3\xa9", bytes(range(256))):
            self.assertEqual(self.run_it("shiftline", given=content).stdout, content)

    def test_a_piece_that_shows_what_it_is_is_not_waited_behind(self):
        write(self.root, {"crates/program_shiftline/src/main.rt": "head -c 20\n"})
        self.built()
        with subprocess.Popen(self.words("shiftline"), stdin=subprocess.PIPE, stdout=subprocess.PIPE, env=self.environment) as process:
            process.stdin.write(RECORD)
            process.stdin.flush()
            self.assertEqual(process.stdout.read(20), RECORD)

    def test_text_typed_in_a_terminal(self):
        try:
            master, terminal = pty.openpty()
        except OSError:
            self.skipTest("no terminal can be opened here")
        os.write(master, TEXT + b"\x04")
        done = self.run_it("shiftline", stdin=terminal)
        os.close(terminal)
        os.close(master)
        self.assertEqual((done.returncode, done.stdout), (0, RECORD))
        self.assertEqual(done.stderr, b"shiftline: reading text from the terminal; Ctrl-D ends it.\n")

    def test_an_error_in_the_text_is_told_with_its_place_and_the_program_prints_nothing(self):
        file = self.file("shift", b"tick\nbad\n")
        self.told(self.run_it("shiftline", file), 1, f"{file}:2:1: 'bad' is no record")
        self.told(self.run_it("shiftline", given=b"tick\nbad\n"), 1, "<stdin>:2:1: 'bad' is no record")

    def test_windows_ends_are_taken_and_utf16_is_told_once(self):
        self.assertEqual(self.run_it("shiftline", given=b"tick\r\ntick\r\n").stdout, 2 * tick())
        for form in ("utf-16", "utf-16-le", "utf-16-be", "utf-32"):
            content = "tick\r\n".encode(form)
            self.told(self.run_it("shiftline", given=content), 2, "is text in UTF-16")
        self.told(self.run_it("why", self.file("shift", RECORD), self.file("lines", content)), 2, "lines is text in UTF-16")

    def test_records_and_the_lines_of_a_board(self):
        shift, lines = self.file("shift", TEXT), self.file("lines", b"\xef\xbb\xbfone\r\ntwo\r\r\nthree")
        wanted = RECORD.hex().encode() + b"\none\ntwo\r\nthree\n"  # with the last line feed, which copying loses
        for arguments, given in (((shift, lines), b""), (("-", lines), TEXT), ((shift, "-"), lines.read_bytes())):
            self.assertEqual(self.run_it("why", *arguments, given=given).stdout, wanted, arguments)
        self.told(self.run_it("why", shift, self.room / "none"), 2, "there is no file")

    def test_the_judges_word_is_the_status(self):
        shift, word = self.file("shift", RECORD), b"2 calls judged\n%s\n%s\n"
        same, kept = b"no line of these differs from what the supervisor answers", b"none of these breaks demand 3"
        content = word % (same, kept)
        differs, breaks, more = word % (b"record 1      the line differs", kept), word % (same, b"record 2"), content + b"record 3\n"
        for said, status in ((content, 0), (differs, 3), (breaks, 3), (more, 3)):
            done = self.run_it("why", shift, self.file("lines", said))
            self.assertEqual(done.returncode, status, said)
            self.assertTrue(done.stdout.endswith(said), done.stdout)
        with open("/dev/full", "wb") as full:
            done = self.run_it("why", shift, self.file("lines", content), stdout=full)
            self.told(done, 1, "standard output cannot be written")


class BytesAlone(Case):
    """./blockline, whose records have no text form."""

    def setUp(self) -> None:
        super().setUp()
        write(self.root, {"crates/program_blockline/src/main.rt": COPIES})
        for name, line in (("crates.txt", "program_blockline: numbers\n"), ("tools/programs.txt", "blockline: program_blockline\n")):
            with (self.root / name).open("a") as file:
                file.write(line)
        self.assertEqual(self.run_it("blockline").returncode, 0)

    def test_whatever_comes_reaches_the_program_as_it_is(self):
        for content in (b"A\x0f\xff", b"A\x20\x20", b"R\n\x00\x00", TEXT, "tick\n".encode("utf-16"), b"", bytes(range(256))):
            self.assertEqual(self.run_it("blockline", given=content).stdout, content)
            self.assertEqual(self.run_it("blockline", self.file("records", content)).stdout, content)

    def test_its_help_says_nothing_of_text(self):
        said = self.run_it("blockline", "--help").stdout.decode()
        for part in ("error in the text", "UTF-16", "python3"):
            self.assertNotIn(part, said)

    def test_files_that_are_none_and_a_terminal(self):
        self.told(self.run_it("blockline", self.room), 2, "is a directory")
        self.told(self.run_it("blockline", self.room / "none"), 2, "there is no file")
        try:
            master, terminal = pty.openpty()
        except OSError:
            self.skipTest("no terminal can be opened here")
        done = self.run_it("blockline", stdin=terminal)
        os.close(terminal)
        os.close(master)
        self.told(done, 2, "its records are bytes, which nobody types")


class NoPython(Case):
    def setUp(self) -> None:
        super().setUp()
        self.built()
        found = self.room / "found"
        found.mkdir()
        for name in ("bash", "sh", "awk", "cat", "cut", "cp", "dirname", "env", "find", "head", "mkdir", "readlink", "sed", "sha256sum",
                     "sort", "uname"):  # fmt: skip
            (found / name).symlink_to(shutil.which(name))
        self.environment["PATH"] = f"{self.kit / 'bin'}:{found}"

    def test_bytes_still_run_and_text_is_told_in_one_sentence(self):
        self.assertEqual(self.run_it("shiftline", given=RECORD).stdout, RECORD)
        self.told(self.run_it("shiftline", given=TEXT), 2, "python3 is missing")

    def test_each_command_in_python_says_so(self):
        for name in ("compare", "measure", "records", "stored", "strength", "strip"):
            self.told(self.run_it(f"tools/{name}", "--help"), 2, "python3 is missing")


class Output(Case):
    """Its program complains as programs do: by standard error."""

    def setUp(self) -> None:
        super().setUp()
        self.built()
        self.shift = self.file("shift", b"repeat 5000 tick\n")

    @unittest.skipUnless(Path("/dev/full").exists(), "no full disk to write to")
    def test_a_full_disk_is_told(self):
        with open("/dev/full", "wb") as full:
            self.told(self.run_it("shiftline", self.shift, stdout=full), 1, "No space left on device")
            for name, given in (("records", TEXT), ("measure", b"")):
                arguments = ["--totals"] if name == "measure" else []
                self.told(self.run_it(f"tools/{name}", *arguments, given=given, stdout=full), 1, "standard output: No space left on device")

    def test_a_limit_of_the_size_of_a_file_is_told(self):
        with open(self.room / "lines", "wb") as lines:
            limit = lambda: resource.setrlimit(resource.RLIMIT_FSIZE, (4096, 4096))  # noqa: E731
            self.told(self.run_it("shiftline", self.shift, stdout=lines, preexec_fn=limit), 1, "File too large")

    def test_a_closed_output_is_told(self):
        for name, argument in (("shiftline", self.shift), ("tools/run", "shiftline"), ("tools/records", self.shift)):
            self.told(self.run_it(name, argument, preexec_fn=lambda: os.close(1)), 1, "standard output is closed")

    def test_a_closed_input_is_told_where_it_is_asked_for(self):
        for words in (["shiftline"], ["tools/run", "shiftline"]):
            self.told(self.run_it(*words, preexec_fn=lambda: os.close(0)), 2, "standard input is closed")
        done = self.run_it("shiftline", self.shift, preexec_fn=lambda: os.close(0))
        self.assertEqual((done.returncode, done.stdout), (0, 5000 * tick()))

    def test_a_reader_that_closes_ends_it_quietly(self):
        # As a shell starts it, where the signal of a closed pipe ends the program; and where that is ignored and a write fails.
        for handler, program in ((signal.SIG_DFL, "exec cat\n"), (signal.SIG_IGN, "cat 2>/dev/null\nexit 0\n")):
            write(self.root, {"crates/program_shiftline/src/main.rt": program})
            self.built()
            process = subprocess.Popen(self.words("shiftline", self.file("long", b"repeat 1000000000 tick\n")), stdout=subprocess.PIPE,
                                       stderr=subprocess.PIPE, env=self.environment, restore_signals=False,
                                       preexec_fn=lambda handler=handler: signal.signal(signal.SIGPIPE, handler))  # fmt: skip
            with process:
                self.assertEqual(process.stdout.read(20), tick())
                process.stdout.close()
                self.assertEqual((process.stderr.read(), process.wait(timeout=TIMEOUT)), (b"", 0))

    def test_a_program_that_complains_or_fails_has_a_status(self):
        for program, said in (("cat\necho 'shiftline: standard input: Input/output error' >&2\n", "Input/output error"),
                              ("cat\nexit 3\n", "the program ended with status 3"), ("kill -9 $$\n", "the program ended with status 137")):
            write(self.root, {"crates/program_shiftline/src/main.rt": program})
            self.run_it("tools/run", "shiftline")
            for words in (["shiftline"], ["tools/run", "shiftline"]):
                done = self.run_it(*words, given=RECORD)
                self.assertEqual((done.returncode, done.stderr.count(b"\n")), (1, 1), done.stderr)
                self.assertIn(said, done.stderr.decode())


if __name__ == "__main__":
    unittest.main()
