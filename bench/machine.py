#!/usr/bin/env python3
"""Steps a second and memory of both machines and of `record`, beside qemu-riscv64 on the same file.

    python3 bench/machine.py [--tool COMMAND] [--runs RUNS] [FILE..]

Three executables are made in a temporary folder: a loop of ten million steps of arithmetic alone, one of which one step
in four stores or loads eight bytes, all over 256 KiB, and one that stores 64 MiB once, eight bytes at a time. Where
`riscv64-unknown-elf-gcc` and picolibc are there, a fourth is the C program `sorting` of `examples`, of some 100
million steps. Any other static executables for RV64IMC may be named; one that the symbol machine refuses, or is stuck
in, has no line for it, and of one that doesn't end there is one line that says so. COMMAND stands for `./sudrepka`.

Each line has the program, the tool, the median of the user's and the system's seconds, millions of steps a second,
their share of those on bytes, and the greatest peak of memory. `record` has to do at least half of the steps a second
that are done on bytes.
"""
import argparse
import os
import shutil
import statistics
import struct
import subprocess
import tempfile

from profiles import built, spent
from real_programs import EXAMPLES, ROOT, build, compilers

CODE_ADDRESS, DATA_ADDRESS, DATA_SIZE = 0x100B0, 0x50000, 0x400_0000
STEPS = ["--steps", "100000000000"]
NAMES = b"\0.text\0.shstrtab\0"

# li a7, 93; li a0, 7; ecall
EXIT = [0x05D00893, 0x00700513, 0x00000073]

# lui t0, 306; addi t0, t0, -1376 make 1,252,000; then 8 steps a round
COUNT = [0x001322B7, 0xAA028293]
ARITHMETIC = COUNT + [
    0x00550533,  # add a0, a0, t0
    0x00554633,  # xor a2, a0, t0
    0x025606B3,  # mul a3, a2, t0
    0x40C68733,  # sub a4, a3, a2
    0x00371813,  # slli a6, a4, 3
    0x00775793,  # srli a5, a4, 7
    0xFFF28293,  # addi t0, t0, -1
    0xFE0292E3,  # bne t0, x0, -28
]
# 64 MiB from a1 on, eight bytes at a time
STORES = [
    0x000505B7,  # lui a1, 80
    0x04000337,  # lui t1, 16384
    0x00658333,  # add t1, a1, t1
    0x0055B023,  # sd t0, 0(a1)
    0x00858593,  # addi a1, a1, 8
    0xFE659CE3,  # bne a1, t1, -8
]
# lui a1, data; lui a6, 64 is the size; the offset in s0 goes round
MEMORY = COUNT + [
    0x000505B7,  # lui a1, 80
    0x00040837,  # lui a6, 64
    0xFF880813,  # addi a6, a6, -8
    0x00840413,  # addi s0, s0, 8
    0x01047433,  # and s0, s0, a6
    0x008584B3,  # add s1, a1, s0
    0x0054B023,  # sd t0, 0(s1)
    0x0004B703,  # ld a4, 0(s1)
    0x00E50533,  # add a0, a0, a4
    0xFFF28293,  # addi t0, t0, -1
    0xFE0292E3,  # bne t0, x0, -28
]


def executable(words):
    """A file of one segment of code and one of zeros that may be written."""
    code = b"".join(word.to_bytes(4, "little") for word in words + EXIT)
    front = 64 + 2 * 56
    names_at = front + len(code)
    table_at = -(-(names_at + len(NAMES)) // 8) * 8
    body = b"\x7fELF\x02\x01\x01" + bytes(9)
    body += struct.pack("<HHIQQQIHHHHHH", 2, 0xF3, 1, CODE_ADDRESS, 64, table_at, 0, 64, 56, 2, 64, 3, 2)
    body += struct.pack("<IIQQQQQQ", 1, 5, 0, 0x10000, 0x10000, names_at, names_at, 0x1000)
    body += struct.pack("<IIQQQQQQ", 1, 6, 0, DATA_ADDRESS, DATA_ADDRESS, 0, DATA_SIZE, 0x1000)
    body += code + NAMES
    body += bytes(table_at - len(body)) + bytes(64)
    body += struct.pack("<IIQQQQIIQQ", 1, 1, 6, CODE_ADDRESS, front, len(code), 0, 0, 4, 0)
    return body + struct.pack("<IIQQQQIIQQ", 7, 3, 0, 0, names_at, len(NAMES), 0, 0, 1, 0)


def measure(command, runs):
    """The median of the processor's seconds of a command, its greatest peak of memory in MiB, what it printed, and its
    status."""
    seconds, peak, printed, status = [], 0, b"", 0
    for _ in range(runs):
        with tempfile.TemporaryFile() as out:
            took = spent(command, stdout=out, stdin=subprocess.DEVNULL)
            out.seek(0)
            printed = out.read()
        seconds.append(took.seconds)
        peak, status = max(peak, took.peak), took.status
    return statistics.median(seconds), peak, printed, status


def steps_in(printed):
    """The count of the closing line, as in `[ended 7 after 10 steps]`, or nothing of another line."""
    last = printed.decode(errors="replace").rstrip().rsplit("[", 1)[-1]
    if not last.startswith("ended"):
        return None
    return int(last.split(" after ")[1].split()[0])


def compare(command, name, path, words, runs):
    """Runs a file on both machines, records it, and runs it with the other tool."""
    rows, steps, ended = [], None, None
    with tempfile.NamedTemporaryFile() as profile:
        lines = [
            ("bytes", [*command, "run", *STEPS, path, *words]),
            ("record", [*command, "record", *STEPS, path, profile.name, *words]),
            ("symbols", [*command, "run", "--symbols", *STEPS, path, *words]),
        ]
        for machine, line in lines:
            seconds, peak, printed, status = measure(line, runs)
            if steps_in(printed):
                steps, ended = steps_in(printed), status
                rows.append((machine, seconds, peak))
    if steps is None:
        print(f"{name:12} doesn't end on the machine of bytes", flush=True)
        return
    if shutil.which("qemu-riscv64"):
        seconds, peak, _, status = measure(["qemu-riscv64", path, *words], runs)
        if status == ended:
            rows.append(("qemu", seconds, peak))
        else:
            print(f"{name:12} ends with {status} on qemu, and with {ended} here", flush=True)
    for tool, seconds, peak in rows:
        speed, share = steps / seconds / 1e6, rows[0][1] / seconds
        print(f"{name:12} {tool:9} {seconds:8.3f} s {speed:9.1f} M/s {share:6.2f} of bytes {peak:8.1f} MiB", flush=True)


def main():
    words = argparse.ArgumentParser(description="steps a second and memory of both machines and of `record`")
    words.add_argument("--tool", default=os.path.join(ROOT, "sudrepka"), help="the command that takes `run ..`")
    words.add_argument("--runs", type=int, default=5)
    words.add_argument("files", nargs="*")
    given = words.parse_args()
    command = built(given.tool)
    with tempfile.TemporaryDirectory() as folder:
        for name, code in [("arithmetic", ARITHMETIC), ("memory", MEMORY), ("stores", STORES)]:
            path = os.path.join(folder, name)
            with open(path, "wb") as file:
                file.write(executable(code))
            os.chmod(path, 0o755)
            compare(command, name, path, [], given.runs)
        gcc = compilers().get("gcc")
        if gcc:
            path = os.path.join(folder, "sorting")
            build(path, os.path.join(EXAMPLES, "sorting"), "gcc", gcc, "roomy", "-O2")
            compare(command, "sorting", path, ["6000"], given.runs)
    for path in given.files:
        compare(command, os.path.basename(path), path, [], given.runs)


if __name__ == "__main__":
    main()
