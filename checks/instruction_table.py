#!/usr/bin/env python3
"""Writes two tables of instructions and meanings, full.rt and half.rt, into a folder.

    python3 checks/instruction_table.py crates/library_tests/src/instruction_table

A line is an instruction in hexadecimal, four digits for two bytes and eight for four, and its
meaning as rv_code's Inst prints it, or `none`. Meanings come from GNU binutils' objdump
(Debian: binutils-riscv64-unknown-elf). It knows more extensions and names than the rows of
RV64IMC do, so:

- a name that is no row's (floating point, atomics, bit manipulation, CSRs ..) is `none`;
- C.SRLI64 and its kin are the shifts by an amount of 0;
- hints with a name of their own (pause, prefetch, ntl) are their row's operation;
- C.ADDI16SP of 0, which the manual reserves and binutils shows, is `none`;
- FENCE is FENCE whatever its other bits; binutils leaves out those that are reserved;
- forms longer than four bytes (low five bits 11111) are `none`, and aren't shown to objdump.
"""

import random
import re
import subprocess
import sys
import tempfile

OBJDUMP = "riscv64-unknown-elf-objdump"

REGISTER_OPERATIONS = """add sub sll slt sltu xor srl sra or and mul mulh mulhsu mulhu div divu rem
remu addw subw sllw srlw sraw mulw divw divuw remw remuw""".split()
IMMEDIATE_OPERATIONS = """addi slti sltiu xori ori andi slli srli srai addiw slliw srliw
sraiw""".split()
LOADS = "lb lh lw ld lbu lhu lwu jalr".split()
STORES = "sb sh sw sd".split()
BRANCHES = "beq bne blt bge bltu bgeu".split()


def disassemble(words, size):
    """The name, the operands and the address of each word, by objdump."""
    with tempfile.NamedTemporaryFile(suffix=".bin") as file:
        file.write(b"".join(word.to_bytes(size, "little") for word in words))
        file.flush()
        command = [OBJDUMP, "-D", "-b", "binary", "-m", "riscv:rv64", "-M", "no-aliases,numeric"]
        text = subprocess.run(command + ["-z", file.name], capture_output=True, text=True, check=True)
    found = {}
    for line in text.stdout.splitlines():
        parts = re.match(r"\s*([0-9a-f]+):\t([0-9a-f]+)\s+(\S+)\s*(\S*)", line)
        if parts:
            found[int(parts[1], 16)] = (int(parts[2], 16), parts[3], parts[4])
    for place, word in enumerate(words):
        shown, name, operands = found[place * size]
        assert shown == word, hex(word)
        yield name, operands, place * size


def signed(number, bits):
    return number - (1 << bits) if number >> (bits - 1) else number


def register(text):
    assert text[0] == "x", text
    return int(text[1:])


def show(name, **fields):
    inside = ", ".join(f"{field}: {value}" for field, value in fields.items())
    return f"{name.capitalize()} {{ {inside} }}"


def hint(word, size):
    """The row's operation of a hint that binutils gives a name of its own."""
    if size == 4 and word & 0x707F == 0x6013:
        return show("ori", rd=word >> 7 & 31, rs1=word >> 15 & 31, imm=signed(word >> 20, 12))
    if size == 4 and word & 0xFE00707F == 0x33:
        return show("add", rd=word >> 7 & 31, rs1=word >> 15 & 31, rs2=word >> 20 & 31)
    if size == 2 and word & 0xF003 == 0x9002:
        return show("add", rd=word >> 7 & 31, rs1=word >> 7 & 31, rs2=word >> 2 & 31)
    raise ValueError(hex(word))


def compressed_meaning(name, parts, distance):
    """What a two-byte instruction is, by its name without `c.`; nothing where a longer one of that name is the same."""
    if name == "nop":
        imm = int(parts[0], 0) if parts else 0
        return show("addi", rd=0, rs1=0, imm=imm)
    if name in ("addi", "addiw", "addi16sp", "slli", "srli", "srai", "andi"):
        rd = register(parts[0])
        if name == "addi16sp" and int(parts[1], 0) == 0:
            return "none"
        row = "addi" if name == "addi16sp" else name
        return show(row, rd=rd, rs1=rd, imm=int(parts[1], 0))
    if name in ("slli64", "srli64", "srai64"):
        rd = register(parts[0])
        return show(name[:4], rd=rd, rs1=rd, imm=0)
    if name == "addi4spn":
        return show("addi", rd=register(parts[0]), rs1=2, imm=int(parts[2], 0))
    if name == "li":
        return show("addi", rd=register(parts[0]), rs1=0, imm=int(parts[1], 0))
    if name in ("sub", "xor", "or", "and", "subw", "addw", "add"):
        rd = register(parts[0])
        return show(name, rd=rd, rs1=rd, rs2=register(parts[1]))
    if name == "mv":
        return show("add", rd=register(parts[0]), rs1=0, rs2=register(parts[1]))
    if name == "j":
        return show("jal", rd=0, imm=distance(parts[0]))
    if name in ("jr", "jalr"):
        return show("jalr", rd=int(name == "jalr"), rs1=register(parts[0]), imm=0)
    if name in ("beqz", "bnez"):
        return show(name[:3], rs1=register(parts[0]), rs2=0, imm=distance(parts[1]))
    return None


def meaning(word, size, name, operands, address):
    if size == 4 and word & 0x707F == 0x0F:
        return show("fence", rd=word >> 7 & 31, rs1=word >> 15 & 31, imm=signed(word >> 20, 12))
    if re.match(r"(c\.)?(prefetch|ntl)", name):
        return hint(word, size)
    compressed = name.startswith("c.")
    name = name.removeprefix("c.")
    parts = re.split(r"[,()]", operands.rstrip(")")) if operands else []

    def distance(text):
        return signed((int(text, 0) - address) % 2**64, 64)

    if compressed:
        own = compressed_meaning(name, parts, distance)
        if own:
            return own
        if name in ("lwsp", "ldsp", "swsp", "sdsp"):
            name = name[:2]
    if name in ("ecall", "ebreak"):
        return name.capitalize()
    if name in ("lui", "auipc"):
        return show(name, rd=register(parts[0]), imm=signed(int(parts[1], 0), 20))
    if name == "jal":
        return show(name, rd=register(parts[0]), imm=distance(parts[1]))
    if name in BRANCHES:
        return show(name, rs1=register(parts[0]), rs2=register(parts[1]), imm=distance(parts[2]))
    if name in LOADS:
        return show(name, rd=register(parts[0]), rs1=register(parts[2]), imm=int(parts[1], 0))
    if name in STORES:
        return show(name, rs1=register(parts[2]), rs2=register(parts[0]), imm=int(parts[1], 0))
    if name in IMMEDIATE_OPERATIONS:
        return show(name, rd=register(parts[0]), rs1=register(parts[1]), imm=int(parts[2], 0))
    if name in REGISTER_OPERATIONS:
        return show(name, rd=register(parts[0]), rs1=register(parts[1]), rs2=register(parts[2]))
    return "none"


def full_words(some):
    """Four-byte words: every opcode with every funct3, and what tells operations apart beyond."""
    fields = lambda: some.getrandbits(32) & 0x01FF8F80
    words = [0x00000073, 0x00100073, 0x00200073, 0x00000173, 0x10500073, 0x30200073, 0x00108073]
    words += [0x0FF0000F, 0x8330000F, 0x0100000F, 0xFFFF8F8F]
    for opcode in (0x37, 0x17, 0x6F):
        words += [opcode, 0xFFFFF000 | opcode, 0x80000000 | opcode, 0x7FFFFF80 | opcode]
        words += [1 << bit | opcode for bit in range(7, 32, 3)]
        words += [some.getrandbits(25) << 7 | opcode for _ in range(2)]
    for opcode in (0x67, 0x63, 0x03, 0x23, 0x0F):
        for funct3 in range(8):
            head = funct3 << 12 | opcode
            words += [head | fields() | some.getrandbits(7) << 25 for _ in range(2)]
            words += [head | 0x7FF00F80, head | 0x80008000]
        words += [1 << bit | opcode for bit in (7, 8, 11, 20, 24, 25, 30, 31)]
    for opcode in (0x13, 0x1B):
        for funct3 in range(8):
            head = funct3 << 12 | opcode
            high = (0, 0x20, 1, 0x21, 2, 0x40, 0x7F) if funct3 in (1, 5) else (0x3F, 0x40)
            words += [head | fields() | upper << 25 for upper in high]
    for opcode in (0x33, 0x3B):
        for funct3 in range(8):
            for funct7 in (0, 1, 0x20, 2, 0x21):
                words.append(funct7 << 25 | funct3 << 12 | opcode | fields())
    for opcode in range(3, 0x80, 4):
        if opcode & 0x1F != 0x1F:
            words.append(opcode | some.getrandbits(25) << 7)
    return words


def half_words(some):
    """Halfwords: every quadrant with every funct3, with no, all, one and some of the other bits."""
    words = []
    for quadrant in range(3):
        for funct3 in range(8):
            head = funct3 << 13 | quadrant
            words += [head, head | 0x1FFC]
            words += [head | 1 << bit for bit in range(2, 13)]
            words += [head | some.getrandbits(11) << 2 for _ in range(5)]
    for kind in range(4):
        for bit12 in range(2):
            for funct2 in range(4):
                words.append(0x8001 | bit12 << 12 | kind << 10 | funct2 << 5 | 3 << 7 | 1 << 2)
    for imm in range(4):
        words += [0x6001 | 2 << 7 | imm << 2, 0x6001 | imm << 2, 0x7001 | 2 << 7 | imm << 2]
    words += [0x9002, 0x8002, 0x9082, 0x8082, 0x900A, 0x9006, 0x800A, 0x0001, 0x0005, 0x1001]
    return words


def table(words, size):
    """The lines of a table: for each word its digits and its meaning."""
    words = list(dict.fromkeys(words))
    lines = []
    for word, (name, operands, address) in zip(words, disassemble(words, size)):
        lines.append(f"{word:0{2 * size}x} {meaning(word, size, name, operands, address)}")
    return lines


def write(path, what, name, lines):
    with open(path, "w") as out:
        print(f"// {what} and their meanings, as checks/instruction_table.py takes them from GNU binutils.", file=out)
        print(file=out)
        print("/// A line is an instruction in hexadecimal and what it is: an `Inst`, or `none`.", file=out)
        print(f'pub const {name}: &str = "\\', file=out)
        print("\n".join(lines) + '";', file=out)


def main(folder):
    some = random.Random(20240411)
    full = table(full_words(some), 4)
    full += [f"{word:08x} none" for word in (0x0000001F, 0x0000003F, 0x1234505F, 0xFFFFFFFF)]
    write(f"{folder}/full.rt", "Four-byte instructions", "FULL", full)
    write(f"{folder}/half.rt", "Two-byte instructions", "HALF", table(half_words(some), 2))


if __name__ == "__main__":
    main(sys.argv[1])
