#!/usr/bin/env python3
"""Writes a table of instructions, operands and results, as a processor's emulator has them.

    python3 checks/machine_results.py crates/library_tests/src/machine/results.rt

A line is an instruction, the values of x11 and of x12, and the result, all in hexadecimal. The result is x10
afterwards, which was 0; of a branch it is 0 where the branch is taken and 1 where it isn't; of a store it is
the eight bytes at 16 past x8, which were 0. Loads find the two values at 0 and at 8 past x8. GNU binutils
assembles the instructions (Debian: binutils-riscv64-unknown-elf), and all of them run in one executable under
qemu-riscv64 (Debian: qemu-user). `library_tests` builds the same executable, so also results that depend on
the pc are the same.
"""

import os
import random
import struct
import subprocess
import sys
import tempfile

CODE_ADDRESS = 0x100B0
DATA_PLACE, DATA_ADDRESS = 0x3000, 0x50000
ROW_CODE = 28

LD_X11, LD_X12, LI_X10_0, SD_X10, NEXT_ROW = 0x00043583, 0x00843603, 0x00000513, 0x00A43823, 0x01840413
NOP, LI_X10_1, LD_X10 = 0x00000013, 0x00100513, 0x01043503
LUI_X8_DATA = 0x00050437
# li a7, 64; li a0, 1; lui a1, data; sub a2, s0, a1; ecall; li a7, 93; li a0, 0; ecall
WRITE_AND_EXIT = [0x04000893, 0x00100513, 0x000505B7, 0x40B40633, 0x73, 0x05D00893, 0x00000513, 0x73]

MIN, MAX, MIN_WORD = 1 << 63, (1 << 63) - 1, 0xFFFFFFFF80000000
MINUS_ONE = MASK = (1 << 64) - 1
EXTREMES = [0, 1, MINUS_ONE, MIN, MAX, MIN_WORD, 0x7FFFFFFF, 0x80000000, 0xFFFFFFFF, 63, 64, MINUS_ONE - 6]

REGISTER_OPERATIONS = """add sub sll slt sltu xor srl sra or and mul mulh mulhsu mulhu div divu rem remu addw subw
sllw srlw sraw mulw divw divuw remw remuw""".split()
IMMEDIATE_OPERATIONS = "addi slti sltiu xori ori andi addiw".split()
SHIFTS = {"slli": 63, "srli": 63, "srai": 63, "slliw": 31, "srliw": 31, "sraiw": 31}
BRANCHES = "beq bne blt bge bltu bgeu".split()
LOADS = {"lb": 1, "lbu": 1, "lh": 2, "lhu": 2, "lw": 4, "lwu": 4, "ld": 8}
STORES = {"sb": 1, "sh": 2, "sw": 4, "sd": 8}


def rows():
    """Each instruction as text, with the values of x11 and x12."""
    dice = random.Random(1)
    any_value = lambda: dice.choice([dice.choice(EXTREMES), dice.getrandbits(64), dice.getrandbits(32)])
    for name in REGISTER_OPERATIONS:
        fixed = [(MIN, MINUS_ONE), (MIN_WORD, MINUS_ONE), (dice.getrandbits(64), 0)]
        for left, right in fixed + [(any_value(), any_value()) for _ in range(3)]:
            yield f"{name} x10, x11, x12", left, right
    for name in IMMEDIATE_OPERATIONS:
        for imm in [-2048, 2047, -1, dice.randrange(-2048, 2048)]:
            yield f"{name} x10, x11, {imm}", any_value(), 0
    for name, most in SHIFTS.items():
        for amount in [0, most, dice.randrange(most)]:
            yield f"{name} x10, x11, {amount}", any_value() | MIN | 0x80000000, 0
    for name in BRANCHES:
        same = any_value()
        for left, right in [(same, same), (MIN, MAX), (MAX, MIN), (MINUS_ONE, 0), (any_value(), any_value())]:
            yield f"{name} x11, x12, .+8", left, right
    for name, size in LOADS.items():
        for place in [0, 8 - size, 3, dice.randrange(16 - size)]:
            yield f"{name} x10, {place}(x8)", dice.getrandbits(64) | 0x8080808080808080, dice.getrandbits(64)
    for name, size in STORES.items():
        for place in [16, 24 - size]:
            yield f"{name} x12, {place}(x8)", 0, dice.getrandbits(64) | 0x80
    for name in ["lui", "auipc"]:
        for imm in [0, 0xFFFFF, 0x80000, 0x7FFFF, 0x12345]:
            yield f"{name} x10, {imm}", 0, 0
    yield "lui x0, 1", 0, 0
    yield "addi x0, x11, 1", 7, 0
    yield "jal x10, .+8", 0, 0
    yield "jal x0, .+8", 0, 0
    # a target that is odd loses its lowest bit
    yield "jalr x10, 0(x11)", "next", 0
    yield "jalr x10, 1(x11)", "next", 0
    yield "jalr x10, -2048(x11)", "next", 2048
    yield "fence rw, rw", 0, 0
    for text in ["c.mv x10, x11", "c.add x10, x11", "c.li x10, -32", "c.lui x10, 31", "c.addi x10, 31"]:
        yield text, any_value(), 0


def assemble(texts):
    """The words of instructions. One of two bytes is followed by C.NOP."""
    source = ".option norelax\n.option norvc\n"
    for text in texts:
        if text.startswith("c."):
            text = f".option rvc\n{text}\nc.nop\n.option norvc"
        source += text + "\n"
    with tempfile.TemporaryDirectory() as folder:
        object_file, binary = folder + "/code.o", folder + "/code.bin"
        command = ["riscv64-unknown-elf-as", "-march=rv64imc", "-o", object_file, "-"]
        subprocess.run(command, input=source, text=True, check=True)
        subprocess.run(["riscv64-unknown-elf-objcopy", "-O", "binary", object_file, binary], check=True)
        with open(binary, "rb") as file:
            data = file.read()
    assert len(data) == 4 * len(texts)
    return [word for (word,) in struct.iter_unpack("<I", data)]


def follow(word):
    """What stands behind an instruction, so that x10 tells what it did."""
    opcode = word % 128
    return LI_X10_1 if opcode == 0x63 else LD_X10 if opcode == 0x23 else NOP


def executable(code, data):
    header = b"\x7fELF\x02\x01\x01" + bytes(9)
    names = b"\0.shstrtab\0"
    names_at = DATA_PLACE + len(data)
    table_at = -(-(names_at + len(names)) // 8) * 8
    header += struct.pack("<HHIQQQIHHHHHH", 2, 0xF3, 1, CODE_ADDRESS, 64, table_at, 1, 64, 56, 2, 64, 2, 1)
    front = 64 + 2 * 56
    segments = struct.pack("<IIQQQQQQ", 1, 5, 0, 0x10000, 0x10000, front + len(code), front + len(code), 0x1000)
    segments += struct.pack("<IIQQQQQQ", 1, 6, DATA_PLACE, DATA_ADDRESS, DATA_ADDRESS, len(data), len(data), 0x1000)
    body = header + segments + code
    assert len(body) <= DATA_PLACE
    body += bytes(DATA_PLACE - len(body)) + data + names
    body += bytes(table_at - len(body)) + bytes(64)
    return body + struct.pack("<IIQQQQIIQQ", 1, 3, 0, 0, names_at, len(names), 0, 0, 1, 0)


def run(table):
    """The results of all rows, from one run."""
    code = [LUI_X8_DATA]
    for word, _, _ in table:
        code += [LD_X11, LD_X12, LI_X10_0, word, follow(word), SD_X10, NEXT_ROW]
    code = b"".join(word.to_bytes(4, "little") for word in code + WRITE_AND_EXIT)
    data = b"".join(struct.pack("<QQQ", left, right, 0) for _, left, right in table)
    with tempfile.TemporaryDirectory() as folder:
        path = folder + "/results.elf"
        with open(path, "wb") as file:
            file.write(executable(code, data))
        os.chmod(path, 0o755)
        out = subprocess.run(["qemu-riscv64", path], stdout=subprocess.PIPE, check=True).stdout
    for (word, left, right), (x11, x12, result) in zip(table, struct.iter_unpack("<QQQ", out), strict=True):
        assert (left, right) == (x11, x12), hex(word)
        yield word, left, right, result


def main():
    texts = list(rows())
    words = assemble([text for text, _, _ in texts])
    table = []
    for index, ((text, left, right), word) in enumerate(zip(texts, words)):
        if left == "next":
            left = CODE_ADDRESS + 4 + ROW_CODE * index + 20 + right
        table.append((word, left & MASK, right & MASK))
    results = list(run(table))  # before the file is written over
    with open(sys.argv[1], "w", encoding="ascii") as out:
        out.write("// Instructions, operands and results, as checks/machine_results.py takes them from qemu-riscv64.\n\n")
        out.write("/// A line is an instruction, the values of x11 and of x12, and the result, in hexadecimal.\n")
        out.write('pub const RESULTS: &str = "\\\n')
        for word, left, right, result in results:
            out.write(f"{word:08x} {left:x} {right:x} {result:x}\n")
        out.write('";\n')
    print(len(table), "rows")


if __name__ == "__main__":
    main()
