#!/usr/bin/env python3
"""Seconds and peak memory of reading large ELF files, beside those of `readelf -hSls`.

    python3 bench/elf_reader.py [--tool COMMAND] [RUNS]

The files are made in a temporary folder: one with a million symbols whose names end at the one zero byte at
the table's end, and one with 65,000 section headers. COMMAND (`./sudrepka` where it isn't given) reads them by
`run --steps 0`. Each line has the file, the tool, the median of the seconds and the peak memory in MiB. It wants
`readelf`.
"""
import argparse
import os
import statistics
import struct
import subprocess
import sys
import tempfile

from profiles import built, spent

ROOT = os.path.dirname(os.path.dirname(os.path.abspath(__file__)))
BASE, CODE = 0x10000, 0x78
OUT_OF_STEPS = 226
NAMES = b"\0.text\0.symtab\0.strtab\0.shstrtab\0"


def header(table_at, sections, names):
    ident = b"\x7fELF\x02\x01\x01" + bytes(9)
    return ident + struct.pack(
        "<HHIQQQIHHHHHH", 2, 0xF3, 1, BASE + CODE, 64, table_at, 1, 64, 56, 1, 64, sections, names
    )


def section(name, kind, flags, addr, offset, size, link=0, info=0, align=1, entry=0):
    return struct.pack("<IIQQQQIIQQ", name, kind, flags, addr, offset, size, link, info, align, entry)


def elf(symbols, sections):
    """A file of one instruction, with so many symbols and so many section headers (at least five)."""
    code = bytes.fromhex("73000000")
    segment = struct.pack("<IIQQQQQQ", 1, 5, 0, BASE, BASE, CODE + 4, CODE + 4, 0x1000)
    table = bytes(24) + b"".join(
        struct.pack("<IBBHQQ", 1 + k % 999, 0x12, 0, 1, BASE + CODE, 4) for k in range(symbols)
    )
    texts = b"\0" + b"n" * 1000 + b"\0"
    symbols_at = CODE + len(code)
    texts_at = symbols_at + len(table)
    names_at = texts_at + len(texts)
    table_at = names_at + len(NAMES)
    rows = [
        bytes(64),
        section(1, 1, 6, BASE + CODE, CODE, len(code), align=4),
        section(7, 2, 0, 0, symbols_at, len(table), link=3, info=1, align=8, entry=24),
        section(15, 3, 0, 0, texts_at, len(texts)),
        section(23, 3, 0, 0, names_at, len(NAMES)),
    ]
    rows += [bytes(64)] * (sections - len(rows))
    return header(table_at, sections, 4) + segment + code + table + texts + NAMES + b"".join(rows)


def write(path, symbols, sections):
    with open(path, "wb") as file:
        file.write(elf(symbols, sections))


def measure(words, status, runs):
    """The median of the seconds, and the peak memory in MiB, of a command run so often, which ends with that status."""
    seconds, peak = [], 0
    for _ in range(runs):
        took = spent(words, stdout=subprocess.DEVNULL, stderr=subprocess.DEVNULL)
        if took.status != status:
            sys.exit(f"{' '.join(words)} ended with {took.status}")
        seconds.append(took.clock)
        peak = max(peak, took.peak)
    return statistics.median(seconds), peak


def main():
    words = argparse.ArgumentParser(description="seconds and peak memory of reading large ELF files")
    words.add_argument("--tool", default=os.path.join(ROOT, "sudrepka"), help="the command that takes `run ..`")
    words.add_argument("runs", nargs="?", type=int, default=5)
    given = words.parse_args()
    command = built(given.tool)
    with tempfile.TemporaryDirectory() as folder:
        for name, symbols, sections in [("million-symbols", 1_000_000, 5), ("many-sections", 10, 65_000)]:
            path = os.path.join(folder, name)
            write(path, symbols, sections)
            for tool, line, status in [
                ("sudrepka", [*command, "run", "--steps", "0", path], OUT_OF_STEPS),
                ("readelf", ["readelf", "-hSls", path], 0),
            ]:
                seconds, peak = measure(line, status, given.runs)
                print(f"{name:16} {tool:9} {seconds:8.3f} s {peak:8.1f} MiB")


if __name__ == "__main__":
    main()
