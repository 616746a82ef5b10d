#!/usr/bin/env python3
"""Seconds and memory that a large line table takes.

    python3 bench/lines.py [--tool COMMAND] [--instructions N] [RUNS]

The files have an eighth, a quarter and a half of N instructions, and all of them: of two bytes each, 96 a function,
with five rows each in `.debug_line`, which has 16 units with a sequence for each function. With 3,840,000 instructions,
if N isn't given, that is a file of 64 MiB with 19 million rows. COMMAND (`./sudrepka` where it isn't given) rewrites
each file, and the same file without the table; `llvm-dwarfdump --debug-line` prints the table to /dev/null. Each line
has the MiB of the table before and after, the medians of the processor's seconds and of the peak in MiB, and by how
much the seconds and the peak of the first grew since the file of half the size. It wants `llvm-dwarfdump` and
`riscv64-unknown-elf-readelf`.
"""
import argparse
import os
import statistics
import struct
import subprocess
import sys
import tempfile

from hostile_files import BASE, SHT_PROGBITS, TEXT, File
from line_rows import table_size
from profiles import built, spent

ROOT = os.path.dirname(os.path.dirname(os.path.abspath(__file__)))
LENGTH = 96  # instructions of a function
CODE = bytes.fromhex("0100") * (LENGTH - 1) + bytes.fromhex("8280")  # c.nop, and c.jr ra at the end
FORMATS = b"\x01\x01\x08\x01/s\0" + b"\x02\x01\x08\x02\x0b\x02" + b"a.c\0\0" + b"b.c\0\0"
FIELDS = bytes([1, 1, 1, 0xFB, 14, 13, 0, 1, 1, 1, 1, 0, 0, 0, 1, 0, 0, 1])
SPECIAL = 13 + 5  # the opcode that moves neither the address nor the line


def rows_of(k):
    """The operations of an instruction's rows: of five, all but the last set the column before a special opcode."""
    columns = b"".join(bytes([0x05, 1 + (k + 7 * row) % 100, SPECIAL + (k + row) % 3]) for row in range(4))
    return columns + bytes([SPECIAL - 1])


ADVANCE = b"\x02\x02"  # DW_LNS_advance_pc by an instruction
BODY = ADVANCE.join(rows_of(k) for k in range(LENGTH)) + ADVANCE + b"\x00\x01\x01"  # and the end of a sequence


def unit_of(starts):
    fields = FIELDS + FORMATS
    program = b"".join(b"\x00\x09\x02" + struct.pack("<Q", start) + BODY for start in starts)
    unit = struct.pack("<HBBI", 5, 8, 0, len(fields)) + fields + program
    return struct.pack("<I", len(unit)) + unit


def write(path, instructions, with_lines):
    count = instructions // LENGTH
    file = File(CODE * count, b"\0.debug_line\0")
    starts = [BASE + TEXT + len(CODE) * k for k in range(count)]
    file.add_symbols([(0, start, len(CODE)) for start in starts], b"\0")
    if with_lines:
        each = -(-count // 16)
        file.add(SHT_PROGBITS, b"".join(unit_of(starts[k:k + each]) for k in range(0, count, each)), name=1)
    with open(path, "wb") as out:
        out.write(file.bytes())


def measure(command, runs):
    """The medians of the processor's seconds and of the peak in MiB."""
    seconds, peaks = [], []
    for _ in range(runs):
        took = spent(command, stdout=subprocess.DEVNULL)
        if took.status != 0:
            sys.exit(f"{' '.join(command)} ended with {took.status}")
        seconds.append(took.seconds)
        peaks.append(took.peak)
    return statistics.median(seconds), statistics.median(peaks)


def main():
    words = argparse.ArgumentParser(description="seconds and memory that a large line table takes")
    words.add_argument("--tool", default=os.path.join(ROOT, "sudrepka"), help="the command that takes `rewrite ..`")
    words.add_argument("--instructions", type=int, default=3_840_000)
    words.add_argument("runs", type=int, nargs="?", default=3)
    given = words.parse_args()
    tool, before = built(given.tool), None
    with tempfile.TemporaryDirectory() as folder:
        path, plain, out, spans = (os.path.join(folder, name) for name in ("lines", "plain", "out", "map"))
        for part in (8, 4, 2, 1):
            write(path, given.instructions // part, True)
            write(plain, given.instructions // part, False)
            rewrite = lambda name: [*tool, "rewrite", name, "/dev/null", out, spans]
            without = measure(rewrite(plain), given.runs)
            found = measure(rewrite(path), given.runs)
            dumped = measure(["llvm-dwarfdump", "--debug-line", path], given.runs)
            sizes = " to ".join(f"{table_size(name) / 2**20:.1f}" for name in (path, out))
            grew = [f"{now / was:.2f}" for now, was in zip(found, before)] if before else []
            parts = [f"{name} {seconds:.2f} s {peak:.0f} MiB" for name, (seconds, peak)
                     in (("rewrite", found), ("without the table", without), ("llvm-dwarfdump", dumped))]
            said = f"{sizes} MiB: {', '.join(parts)}; grew by {grew}"
            print(f"{given.instructions // part} instructions, {said}", flush=True)
            before = found


if __name__ == "__main__":
    main()
