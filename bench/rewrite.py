#!/usr/bin/env python3
"""Seconds and memory of a rewrite, for files of 1 to 64 MiB.

    python3 bench/rewrite.py [--tool COMMAND] [RUNS] [MIB..]

The files have functions of 40 instructions with calls, branches, jumps, addresses of data in code, addresses of code in
data and differences of labels as switch tables have them, symbols, and a relocation for each. Each fourth function is
hot: the profile has five lines for it. Each line has the tool, the median of the seconds of the processor, the greatest
peak of memory, and both for each MiB of the file. Beside `rewrite` stands `objcopy`, which reads and writes all
sections and moves nothing, and `llvm-bolt-19` where it is there and takes the file. COMMAND stands for `./sudrepka`.

A file of 27 MiB has to be rewritten in 2 seconds and in 12 times its size.
"""
import argparse
import os
import shutil
import statistics
import struct
import subprocess
import tempfile

from profiles import built, spent

ROOT = os.path.dirname(os.path.dirname(os.path.abspath(__file__)))
MIB = 1 << 20
BASE, TEXT, DATA = 0x10000, 64 + 2 * 56, 0x2000_0000  # of the file's first byte, of the code in the file, of the data
SIZE, INSTRUCTIONS, OF_FILE = 104, 40, 704  # bytes and instructions of a function, and its share of the file's bytes
BEQ = 0x02B50F63  # beq a0, a1, 62
JUMP = 0x0040006F  # j 4
END = b"\x05\x05" * 27 + b"\x82\x80"  # c.addi a0, 1, 27 times; c.jr ra
R_RISCV_64, BRANCH, JAL, CALL_PLT, PCREL_HI20, PCREL_LO12_I, ADD32, SUB32 = 2, 16, 17, 19, 23, 24, 35, 39
NAMES = b"\0.text\0.data\0.rela.text\0.rela.data\0.symtab\0.strtab\0.shstrtab\0"


def section(name, kind, flags, addr, offset, size, link=0, info=0, align=1, entsize=0):
    at = NAMES.index(b"\0" + name + b"\0") + 1
    return struct.pack("<IIQQQQIIQQ", at, kind, flags, addr, offset, size, link, info, align, entsize)


def upper(register, distance):
    return 0x17 | register << 7 | (distance + 0x800 >> 12 & 0xFFFFF) << 12


def callees(k, count):
    return [(7919 * k + 31 * j) % count for j in range(3)]


def code_of(k, count):
    """The instructions of a function that calls three others and loads from the data."""
    words = []
    for j, callee in enumerate(callees(k, count)):
        distance = SIZE * (callee - k) - 8 * j
        words += [upper(1, distance), 0x000080E7 | (distance & 0xFFF) << 20]  # call
    for j, (register, lower) in enumerate([(10, 0x00050513), (11, 0x0005B583)]):  # addi a0, a0; ld a1, (a1)
        distance = DATA + 40 * k + 8 * j - (BASE + TEXT + SIZE * k + 24 + 8 * j)
        words += [upper(register, distance), lower | (distance & 0xFFF) << 20]
    return struct.pack("<12I", *words, BEQ, JUMP) + END


def relocations(entries):
    """Each entry is a place, a type, a symbol and an addend."""
    flat = [word for place, kind, name, addend in entries for word in (place, name << 32 | kind, addend)]
    return struct.pack("<" + "QQq" * len(entries), *flat)


def code_relocations(k, count, first):
    at, cells = BASE + TEXT + SIZE * k, 2 * count + 1
    return relocations(
        [(at + 8 * j, CALL_PLT, first + callee, 0) for j, callee in enumerate(callees(k, count))]
        + [(at + 24, PCREL_HI20, cells, 40 * k), (at + 28, PCREL_LO12_I, 2 * k + 1, 0)]
        + [(at + 32, PCREL_HI20, cells, 40 * k + 8), (at + 36, PCREL_LO12_I, 2 * k + 2, 0)]
        + [(at + 40, BRANCH, first + k, 102), (at + 44, JAL, first + k, 48)]
    )


def data_relocations(k, count, first):
    place = DATA + 40 * k
    entries = [(place + 8 * j, R_RISCV_64, first + callee, 48) for j, callee in enumerate(callees(k, count))]
    for j in range(4):
        label = place + 24 + 4 * j
        entries += [(label, ADD32, first + k, 48 + 2 * j), (label, SUB32, first + k, 0)]
    return relocations(entries)


def symbols(count):
    """Labels of the upper parts of addresses, the data, and the functions; and the names."""
    table, names = bytearray(24), bytearray(b"\0data\0")
    for k in range(count):
        for at in (24, 32):
            table += struct.pack("<IBBHQQ", 0, 0, 0, 1, BASE + TEXT + SIZE * k + at, 0)
    table += struct.pack("<IBBHQQ", 1, 1, 0, 2, DATA, 40 * count)
    for k in range(count):
        table += struct.pack("<IBBHQQ", len(names), 0x12, 0, 1, BASE + TEXT + SIZE * k, SIZE)
        names += b"f%d\0" % k
    return table, names


def write_file(path, size):
    """Writes a file of about so many bytes, and says how many functions it has."""
    count = size // OF_FILE
    first = 2 * count + 2
    parts = []  # name, type, flags, address, contents, link, info, alignment, size of an entry
    table, names = symbols(count)
    code = b"".join(code_of(k, count) for k in range(count))
    data = b"".join(
        struct.pack("<3Q4i", *[BASE + TEXT + SIZE * callee + 48 for callee in callees(k, count)], 48, 50, 52, 54)
        for k in range(count)
    )
    of_code = b"".join(code_relocations(k, count, first) for k in range(count))
    of_data = b"".join(data_relocations(k, count, first) for k in range(count))
    parts.append((b".data", 1, 3, DATA, data, 0, 0, 8, 0))
    parts.append((b".rela.text", 4, 0, 0, of_code, 5, 1, 8, 24))
    parts.append((b".rela.data", 4, 0, 0, of_data, 5, 2, 8, 24))
    parts.append((b".symtab", 2, 0, 0, table, 6, first, 8, 24))
    parts.append((b".strtab", 3, 0, 0, names, 0, 0, 1, 0))
    parts.append((b".shstrtab", 3, 0, 0, NAMES, 0, 0, 1, 0))
    body = bytearray(TEXT) + code
    headers = bytes(64) + section(b".text", 1, 6, BASE + TEXT, TEXT, len(code), align=4)
    for name, kind, flags, addr, contents, link, info, align, entsize in parts:
        body += bytes(-len(body) % (0x1000 if flags else align))
        headers += section(name, kind, flags, addr, len(body), len(contents), link, info, align, entsize)
        if flags:
            data_at = len(body)
        body += contents
    body += bytes(-len(body) % 8)
    fields = (2, 243, 1, BASE + TEXT, 64, len(body), 1, 64, 56, 2, 64, 8, 7)
    struct.pack_into("<16sHHIQQQIHHHHHH", body, 0, b"\x7fELF\2\1\1", *fields)
    loaded = TEXT + len(code)
    struct.pack_into("<IIQQQQQQ", body, 64, 1, 5, 0, BASE, BASE, loaded, loaded, 0x1000)
    struct.pack_into("<IIQQQQQQ", body, 120, 1, 6, data_at, DATA, DATA, len(data), len(data), 0x1000)
    with open(path, "wb") as file:
        file.write(body + headers)
    return count


def write_profile(path, count):
    """Each fourth function is called, takes its branch in one of three runs, and calls on."""
    lines = []
    for k in range(0, count, 4):
        runs = 7919 * k % 1000 + 1
        lines.append(f"1 f{k} 28 1 f{k} 66 0 {runs}")
        lines.append(f"1 f{k} 28 1 f{k} 2c 0 {2 * runs}")
        for j, callee in enumerate(callees(k, count)):
            lines.append(f"1 f{k} {8 * j + 4:x} 1 f{callee} 0 0 {3 * runs}")
    with open(path, "w", encoding="ascii") as file:
        file.write("".join(line + "\n" for line in lines))


def make(folder, mib):
    """Makes a file of about so many MiB in a folder, and its profile."""
    path = lambda name: os.path.join(folder, name)
    write_profile(path("profile"), write_file(path("in"), mib * MIB - 2048))


def measure(command, runs):
    """The median of the processor's seconds, the greatest peak in MiB, and whether it ended well."""
    seconds, peak, well = [], 0, True
    for _ in range(runs):
        took = spent(command, stdout=subprocess.DEVNULL, stderr=subprocess.DEVNULL)
        seconds.append(took.seconds)
        peak, well = max(peak, took.peak), well and took.status == 0
    return statistics.median(seconds), peak, well


def tools(command, folder):
    """Each tool with its words, of those that are there."""
    path = lambda name: os.path.join(folder, name)
    rewrite = [*command, "rewrite", path("in"), path("profile"), path("out"), path("map")]
    found = [("sudrepka", rewrite)]
    for objcopy in ("riscv64-unknown-elf-objcopy", "riscv64-linux-gnu-objcopy", "llvm-objcopy"):
        if shutil.which(objcopy):
            found.append(("objcopy", [objcopy, path("in"), path("copy")]))
            break
    if shutil.which("llvm-bolt-19"):
        options = ["--reorder-blocks=ext-tsp", "--reorder-functions=cdsort", "--data", path("profile")]
        found.append(("llvm-bolt", ["llvm-bolt-19", path("in"), "-o", path("bolt"), *options]))
    return found


def main():
    words = argparse.ArgumentParser(description="seconds and memory of a rewrite")
    words.add_argument("--tool", default=os.path.join(ROOT, "sudrepka"), help="the command that takes `rewrite ..`")
    words.add_argument("runs", nargs="?", type=int, default=3)
    words.add_argument("sizes", nargs="*", type=int, default=[1, 4, 16, 27, 64])
    given = words.parse_args()
    command = built(given.tool)
    with tempfile.TemporaryDirectory() as folder:
        for size in given.sizes:
            make(folder, size)
            mib = os.path.getsize(os.path.join(folder, "in")) / MIB
            for tool, line in tools(command, folder):
                seconds, peak, well = measure(line, given.runs)
                if not well:
                    print(f"{mib:5.1f} MiB {tool:10} doesn't take the file", flush=True)
                    continue
                print(
                    f"{mib:5.1f} MiB {tool:10} {seconds:8.3f} s {peak:8.1f} MiB, for each MiB "
                    f"{seconds / mib:6.3f} s {peak / mib:6.2f} MiB",
                    flush=True,
                )


if __name__ == "__main__":
    main()
