"""Records and lines in the paper's numbers, typed from documents 01 and 02: what the tests hold the package to takes nothing from it."""

import struct
from typing import Dict, List

# Document 01: "L 0,65535,3000,..." in its own example.
PAPER_LOAD = [0, 65535, 3000, 1000, 3500, 3500, 100, 800, 100, 0, 600, 64, 4095, 7, 3, 0, 300,
              0, 0, 0, 400, 300, 4096, 2]
SETTINGS = ["ControlMode", "FaultEnable", "VdcOvLevel", "VdcLvLevel", "CriticalOvLevel",
            "Tshutdown", "RotorLockTime", "FluxFaultTime", "HallTimeoutPeriod",
            "HallAngleOffset", "MinSpd", "SpdRampRate", "MotorLim", "OffsetPsc",
            "BtsChargeTime", "TCatchSpin", "DirectStartThr", "IS_Pulses", "ParkTime",
            "OpenLoopRamp", "CmdStart", "CmdStop", "CmdGain", "RetryLimit"]
TICK_FIELDS = ["gate_kill", "clear", "command", "control", "VdcRaw", "VdcFilt", "temperature",
               "Flx_M", "TrqRef", "speed", "target"]


def load(*values: int) -> bytes:
    return b"L" + struct.pack(">9Hh14H", *values)


def load_with_sensors(*values: int) -> bytes:
    """M-101: "A program record M carries 25." """
    return b"M" + struct.pack(">9Hh15H", *values)


def body(numbers: List[int]) -> bytes:
    """M-102: "24 or 25 numbers, high byte first"; a signed one in two's complement."""
    return b"".join(bytes(divmod(number % 65536, 256)) for number in numbers)


def image(blocks: Dict[int, List[int]]) -> bytes:
    """M-102: "First come 15 entries of kind (0 empty, 1 filled; one byte), then offset and length in bytes, two bytes each, high first.
    The bodies follow in block order without gaps". "An empty entry is all zeros, offsets count from the image's first byte"."""
    entries, bodies = b"", b""
    for block in range(15):
        if block in blocks:
            here = body(blocks[block])
            entries += b"\x01" + bytes(divmod(75 + len(bodies), 256)) + bytes(divmod(len(here), 256))
            bodies += here
        else:
            entries += bytes(5)
    return entries + bodies


def block_load(block: int, given: bytes) -> bytes:
    """Record B of benchline: block, length, so many bytes."""
    return b"B" + bytes([block]) + bytes(divmod(len(given), 256)) + given


def cycle(*values: int) -> bytes:
    return b"C" + struct.pack(">BHH", *values)


def tick(gate_kill=0, clear=0, command=0, control=0, raw=2623, filtered=2623, temperature=1000,
         flux=2048, torque=0, speed=0, target=0) -> bytes:
    return b"T" + struct.pack(">3B5H3h", gate_kill, clear, command, control, raw, filtered,
                              temperature, flux, torque, speed, target)


def earlier_line(number=0, state="STOP", gate=0, live=0, reference=0, position=0, angle=0) -> str:
    """Document 01, "Report line and program", as a board before M-105 prints it."""
    return (f"{number:X} {state:.<12} {gate} {live:04X} {reference:+06d} "
            f"{position % 2**32:08X} {angle:+06d}\n")


def line(number=0, state="STOP", gate=0, live=0, reference=0, position=0, angle=0, fate=".") -> str:
    """M-105: "the report line gains a space and one letter .. before the line feed"."""
    return earlier_line(number, state, gate, live, reference, position, angle).replace("\n", f" {fate}\n")
