"""Tests of `stack`: frames read off machine code, and the crates that an archive is made of."""

import io
import tempfile
import unittest
from contextlib import redirect_stderr, redirect_stdout
from pathlib import Path
from unittest import mock

from rudavesh import places, stack
from rudavesh.frames import Frame, Unreadable, deepest, frames

# As `objdump -d -r --no-show-raw-insn` prints an archive.
LEAF = """\
In archive libpump.a:

pump.o:     file format elf64-x86-64


Disassembly of section .text.turn:

0000000000000000 <turn>:
   0:\tpush   %rbx
   1:\tsub    $0x10,%rsp
   5:\tmovaps 0x0(%rip),%xmm0        # c <turn+0xc>
\t\t\t8: R_X86_64_PC32\t.rodata.cst16-0x4
   c:\tmovq   %xmm0,-0x8(%rsp)
  11:\tmovaps %xmm0,-0x38(%rsp)
  16:\tmov    %rax,-0x10(%rsp)
  1b:\tmov    0x120(%rsp),%rcx
  23:\tje     29 <turn+0x29>
  25:\tjmp    *%rsi
  27:\tadd    $0x10,%rsp
  2b:\tpop    %rbx
  2c:\tret
"""
CALLER = """\
Disassembly of section .text.pump:

0000000000000000 <pump>:
   0:\tpush   %rbp
   1:\tpush   %rbx
   2:\tadd    $0xffffffffffffff80,%rsp
   6:\tcall   b <pump+0xb>
\t\t\t7: R_X86_64_PC32\t.text.pump::stop-0x4
   b:\tsub    $0xffffffffffffff80,%rsp
   f:\tpop    %rbx
  10:\tpop    %rbp
  11:\tjne    17 <pump+0x17>
\t\t\t13: R_X86_64_PLT32\tturn-0x4
  17:\tret

Disassembly of section .text.pump::stop:

0000000000000000 <pump::stop>:
   0:\tret
"""


def function(*code: str, name: str = "turn") -> str:
    return "\n".join([f"0000000000000000 <{name}>:", *(f"   {at:x}:\t{text}" for at, text in enumerate(code)), ""])


class Frames(unittest.TestCase):
    def test_a_frame_is_what_is_pushed_lowered_and_used_below(self):
        frame = Frame(saved=8, lowered=16, below=0x38, calls=())
        self.assertEqual(frames(LEAF), {"turn": frame})
        self.assertEqual(frame.own, 8 + 8 + 16 + 56)

    def test_a_frame_of_128_is_made_by_adding_minus_128(self):
        self.assertEqual(frames(CALLER)["pump"], Frame(16, 128, 0, ("pump::stop", "turn")))

    def test_a_function_without_a_frame_takes_the_address_that_it_returns_to(self):
        self.assertEqual(frames(CALLER)["pump::stop"].own, 8)

    def test_where_it_is_not_told_how_far_below_all_is_taken(self):
        for text in ("movzbl -0x8(%rsp,%rdi,1),%eax", "lea    -0x8(%rsp),%rax"):
            self.assertEqual(frames(function(text))["turn"].below, 128)

    def test_what_is_lowered_twice_or_stands_in_two_objects_counts_twice(self):
        self.assertEqual(frames(function("sub    $0x10,%rsp", "subq   $0x8,%rsp"))["turn"].lowered, 24)
        self.assertEqual(frames(function("push   %rbx") + function("pushq  $0x1"))["turn"].saved, 16)

    def test_a_call_is_one_by_whatever_it_is_written(self):
        for text in ("call   0 <stop>", "callq  0 <stop>", "bnd call 0 <stop>", "jmp    4 <stop+0x4>", "jne    0 <stop>"):
            self.assertEqual(frames(function(text))["turn"].calls, ("stop",), text)
        by_table = function("call   *0x0(%rip)        # 6 <turn+0x6>") + "\t\t\t2: R_X86_64_GOTPCRELX\tstop-0x4\n"
        self.assertEqual(frames(by_table)["turn"].calls, ("stop",))
        for text in ("jmp    4 <turn+0x4>", "jmp    0 <turn>", "jmp    *%rax", "mov    %rax,%rcx"):
            self.assertEqual(frames(function(text))["turn"].calls, (), text)

    def test_the_deepest_way_is_through_the_largest_frame(self):
        known = frames(LEAF + CALLER)
        self.assertEqual(deepest(known, "turn"), (88, ("turn",)))
        self.assertEqual(deepest(known, "pump"), (8 + 16 + 128 + 88, ("pump", "turn")))

    def test_what_cannot_be_told_is_said(self):
        for text in ("mov    %rbp,%rsp", "and    $0xfffffffffffffff0,%rsp", "dec    %rsp", "mov    %rsp,%rbp", "leave", "enter  $0x8,$0x0"):
            with self.assertRaisesRegex(Unreadable, "the stack's pointer"):
                frames(function("ret", text))
        with self.assertRaisesRegex(Unreadable, "calls what it does not name"):
            frames(function("call   *%rax"))
        with self.assertRaisesRegex(Unreadable, "no instruction of turn is read"):
            frames("0000000000000000 <turn>:\n       0:      \tpushq\t%rbx\n")

    def test_a_way_without_an_end_or_out_of_the_archive_is_said(self):
        ring = {"pump": ("turn",), "turn": ("stop",), "stop": ("pump",)}
        with self.assertRaisesRegex(Unreadable, "pump calls itself"):
            deepest({name: Frame(0, 0, 0, calls) for name, calls in ring.items()}, "pump")
        with self.assertRaisesRegex(Unreadable, "turn calls itself"):
            deepest(frames(function("call   0 <turn>")), "turn")
        with self.assertRaisesRegex(Unreadable, "memcpy is called and is not in the archive"):
            deepest(frames(function("call   5 <turn+0x5>") + "\t\t\t1: R_X86_64_PLT32\tmemcpy-0x4\n"), "turn")


class Held(unittest.TestCase):
    """That the stack suffices, or not, as the gate asks."""

    def test_as_much_as_is_allowed_and_no_more(self):
        tree = stack.Tree("as it stands", Path(), Frame(8, 0, 0), 16, (), 64)
        for most, status in ((17, 0), (16, 0), (15, 1)):
            said = io.StringIO()
            with redirect_stdout(said):
                self.assertEqual(stack.held(tree, most), status)
            self.assertEqual(said.getvalue(), f"The line call takes 16 bytes of the stack; {most} are allowed.\n")


class Needed(unittest.TestCase):
    def test_the_first_command_that_is_missing_is_named(self):
        with tempfile.TemporaryDirectory() as folder, mock.patch.dict("os.environ", {"PATH": folder}):
            there = Path(folder) / "objdump"
            there.write_text("#!/bin/sh\n")
            there.chmod(0o755)
            for commands, said in (
                (("objdump",), ""),
                (("objdump", "rustc", "git"), "tools/stack: rustc is not on the PATH.\n"),
                (("rt",), "tools/stack: the Rattle kit is missing: its command rt is not on the PATH.\n"),
            ):
                told = io.StringIO()
                with redirect_stderr(told):
                    self.assertEqual(stack.missing(*commands), bool(said))
                self.assertEqual(told.getvalue(), said)


class Below(unittest.TestCase):
    def test_a_crate_and_all_that_it_knows(self):
        with tempfile.TemporaryDirectory() as folder:
            root = Path(folder)
            (root / "crates.txt").write_text("# NAME: what\nhall:\ntext: io\npump: hall\nline: pump text\nrun: line\n")
            self.assertEqual(places.crates_below("line", root), ["hall", "text", "pump", "line"])
            self.assertEqual(places.crates_below("pump", root), ["hall", "pump"])


if __name__ == "__main__":
    unittest.main()
