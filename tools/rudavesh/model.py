"""The independent model in model/: where its programs are, how they are built and run."""

import shutil
import subprocess
from pathlib import Path
from typing import List

from .places import ROOT

MANIFEST = ROOT / "model" / "Cargo.toml"
PROGRAMS = ROOT / "model" / "target" / "release"
NO_CARGO = "cargo is missing: it builds the model."


def can_be_built() -> bool:
    return shutil.which("cargo") is not None


def build() -> None:
    """Builds the programs where they are not built yet. The same profile as the gate's tests of the model, so that it happens once."""
    subprocess.run(["cargo", "build", "--quiet", "--release", "--offline", "--manifest-path", MANIFEST], check=True)


def generated(seed: int, records: int) -> bytes:
    """The stream of records that the model's generator makes of a seed."""
    return subprocess.run([PROGRAMS / "generate", str(seed), str(records)], stdout=subprocess.PIPE, check=True).stdout


def lines(stream: bytes) -> bytes:
    """The report lines that the model gives for a stream of records."""
    return subprocess.run([PROGRAMS / "shiftline_model"], input=stream, stdout=subprocess.PIPE, check=True).stdout


def generated_for_bench(seed: int, records: int) -> bytes:
    """The same for `benchline`: with loads of any length and block loads among the records."""
    return subprocess.run([PROGRAMS / "generate_bench", str(seed), str(records)], stdout=subprocess.PIPE, check=True).stdout


def bench_lines(stream: bytes) -> bytes:
    """The lines that the model of `benchline` gives for a stream of records."""
    return subprocess.run([PROGRAMS / "benchline_model"], input=stream, stdout=subprocess.PIPE, check=True).stdout


def generated_for_blocks(seed: int, records: int) -> bytes:
    """The same for `blockline`: images to read, counts to choose by, blocks to write."""
    return subprocess.run([PROGRAMS / "generate_blocks", str(seed), str(records)], stdout=subprocess.PIPE, check=True).stdout


def block_lines(stream: bytes) -> bytes:
    """The lines that the model of `blockline` gives for a stream of records."""
    return subprocess.run([PROGRAMS / "blockline_model"], input=stream, stdout=subprocess.PIPE, check=True).stdout


def reached(streams: List[Path]) -> List[str]:
    """What streams reach, as the model counts it: its lines."""
    return subprocess.run([PROGRAMS / "reached", *streams], stdout=subprocess.PIPE, check=True, text=True).stdout.splitlines()


def bench_reached(streams: List[Path]) -> List[str]:
    """The same for `benchline`."""
    done = subprocess.run([PROGRAMS / "reached_bench", *streams], stdout=subprocess.PIPE, check=True, text=True)
    return done.stdout.splitlines()


def blocks_reached(streams: List[Path]) -> List[str]:
    """The same for `blockline`."""
    done = subprocess.run([PROGRAMS / "reached_blocks", *streams], stdout=subprocess.PIPE, check=True, text=True)
    return done.stdout.splitlines()
