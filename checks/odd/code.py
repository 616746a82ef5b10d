"""The code of the odd executables: small functions that end, with calls, loops, pointers and cold parts."""
from __future__ import annotations
import random
import struct
from dataclasses import dataclass

ZERO, RA, A0, A1, A7, T0 = 0, 1, 10, 11, 17, 5
R_RISCV_64, R_RISCV_BRANCH, R_RISCV_JAL, R_RISCV_CALL_PLT = 2, 16, 17, 19
R_RISCV_PCREL_HI20, R_RISCV_PCREL_LO12_I, R_RISCV_HI20, R_RISCV_LO12_I = 23, 24, 26, 27
R_RISCV_ADD32, R_RISCV_SUB32, R_RISCV_RELAX = 35, 39, 51


def i_type(opcode: int, funct3: int, rd: int, rs1: int, imm: int) -> bytes:
    return struct.pack("<I", (imm & 0xFFF) << 20 | rs1 << 15 | funct3 << 12 | rd << 7 | opcode)


def u_type(opcode: int, rd: int, value: int) -> bytes:
    return struct.pack("<I", (value + 0x800 & 0xFFFFF000) | rd << 7 | opcode)


def b_type(funct3: int, rs1: int, rs2: int, imm: int) -> bytes:
    bits = (imm >> 12 & 1) << 31 | (imm >> 5 & 63) << 25 | (imm >> 1 & 15) << 8 | (imm >> 11 & 1) << 7
    return struct.pack("<I", bits | rs2 << 20 | rs1 << 15 | funct3 << 12 | 0x63)


def j_type(rd: int, imm: int) -> bytes:
    bits = (imm >> 20 & 1) << 31 | (imm >> 1 & 0x3FF) << 21 | (imm >> 11 & 1) << 20 | (imm >> 12 & 255) << 12
    return struct.pack("<I", bits | rd << 7 | 0x6F)


def c_j(imm: int) -> bytes:
    order = (11, 4, 9, 8, 10, 6, 7, 3, 2, 1, 5)
    return struct.pack("<H", 0xA001 | sum((imm >> bit & 1) << 12 - k for k, bit in enumerate(order)))


def c_beqz(imm: int) -> bytes:
    """C.BEQZ of a0."""
    high = (imm >> 8 & 1) << 12 | (imm >> 3 & 3) << 10
    low = (imm >> 6 & 3) << 5 | (imm >> 1 & 3) << 3 | (imm >> 5 & 1) << 2
    return struct.pack("<H", 0xC001 | high | 2 << 7 | low)


@dataclass
class Function:
    name: str
    start: int
    size: int


class Code:
    """Instructions from an address on, their labels, and the relocations that a linker would keep of them. What
    is written twice has the same labels at the same places, so the second time all are known."""

    def __init__(self, start: int, compressed: bool, known: dict[str, int]):
        self.start, self.compressed, self.known = start, compressed, known
        self.bytes, self.labels, self.functions = bytearray(), {}, []
        self.relocations: list[tuple[int, int, str, int]] = []

    def here(self) -> int:
        return self.start + len(self.bytes)

    def at(self, label: str) -> int:
        return self.known.get(label, self.start)

    def label(self, name: str) -> None:
        self.labels[name] = self.here()

    def relocate(self, kind: int, label: str, back: int = 0) -> None:
        self.relocations.append((self.here() - back, kind, label, 0))

    def addi(self, rd: int, rs1: int, imm: int) -> None:
        self.bytes += i_type(0x13, 0, rd, rs1, imm)

    def nop(self) -> None:
        self.bytes += struct.pack("<H", 1) if self.compressed else i_type(0x13, 0, 0, 0, 0)

    def ret(self) -> None:
        self.bytes += struct.pack("<H", 0x8082) if self.compressed else i_type(0x67, 0, ZERO, RA, 0)

    def beqz(self, label: str) -> None:
        distance = self.at(label) - self.here()
        if self.compressed:
            self.bytes += c_beqz(distance)
        else:
            self.relocate(R_RISCV_BRANCH, label)
            self.bytes += b_type(0, A0, ZERO, distance)

    def bnez(self, label: str) -> None:
        self.relocate(R_RISCV_BRANCH, label)
        self.bytes += b_type(1, A0, ZERO, self.at(label) - self.here())

    def jump(self, label: str) -> None:
        distance = self.at(label) - self.here()
        if self.compressed:
            self.bytes += c_j(distance)
        else:
            self.relocate(R_RISCV_JAL, label)
            self.bytes += j_type(ZERO, distance)

    def call_near(self, label: str) -> None:
        self.relocate(R_RISCV_JAL, label)
        self.bytes += j_type(RA, self.at(label) - self.here())

    def call(self, label: str) -> None:
        self.relocate(R_RISCV_CALL_PLT, label)
        self.relocate(R_RISCV_RELAX, "")
        distance = self.at(label) - self.here()
        self.bytes += u_type(0x17, RA, distance) + i_type(0x67, 0, RA, RA, distance)

    def address(self, rd: int, label: str) -> None:
        upper = f".Lhi{len(self.bytes)}"
        self.label(upper)
        self.relocate(R_RISCV_PCREL_HI20, label)
        distance = self.at(label) - self.here()
        self.bytes += u_type(0x17, rd, distance)
        self.relocate(R_RISCV_PCREL_LO12_I, upper)
        self.bytes += i_type(0x13, 0, rd, rd, distance)

    def absolute(self, rd: int, label: str) -> None:
        self.relocate(R_RISCV_HI20, label)
        self.bytes += u_type(0x37, rd, self.at(label))
        self.relocate(R_RISCV_LO12_I, label)
        self.bytes += i_type(0x13, 0, rd, rd, self.at(label))

    def call_pointer(self) -> None:
        self.bytes += i_type(0x67, 0, RA, T0, 0)

    def load_pointer(self) -> None:
        self.bytes += i_type(0x03, 3, T0, T0, 0)

    def end(self) -> None:
        self.addi(A7, ZERO, 93)
        self.bytes += struct.pack("<I", 0x73)

    def function(self, name: str) -> None:
        self.label(name)
        self.functions.append(Function(name, self.here(), 0))

    def close(self) -> None:
        self.functions[-1].size = self.here() - self.functions[-1].start


def leaf(code: Code, name: str, rng: random.Random) -> None:
    """A loop, and a part that never runs."""
    code.function(name)
    code.addi(A0, ZERO, rng.randint(1, 4))
    code.label(f"{name}_loop")
    code.addi(A1, A1, 1)
    code.beqz(f"{name}_cold")
    code.addi(A0, A0, -1)
    code.bnez(f"{name}_loop")
    code.ret()
    code.label(f"{name}_cold")
    for _ in range(rng.choice([1, 2, 30])):
        code.addi(A1, A1, 5)
    code.jump(f"{name}_loop") if rng.random() < 0.5 else code.ret()
    code.close()


def write(code: Code, rng: random.Random, names: list[str], with_table: bool) -> Code:
    """The first function calls all others in every way, and ends the program with a count as its status."""
    code.function("_start")
    code.addi(A1, ZERO, 0)
    for name in names:
        way = rng.choice(["near", "far", "pointer", "absolute"] + ["table"] * with_table)
        if way == "near":
            code.call_near(name)
        elif way == "far":
            code.call(name)
        elif way == "table":
            code.address(T0, f"pointer_{name}")
            code.load_pointer()
            code.call_pointer()
        else:
            (code.address if way == "pointer" else code.absolute)(T0, name)
            code.call_pointer()
    code.addi(A0, A1, 0)
    code.end()
    code.close()
    for name in names:
        for _ in range(rng.choice([0, 0, 0, 1, 3])):
            code.nop()
        leaf(code, name, rng)
    return code


def profile(code: Code, rng: random.Random) -> str:
    """Counts of the loops of some functions, so that their parts that never run are cold."""
    lines = []
    for f in code.functions[1:]:
        if rng.random() < 0.6:
            loop = code.labels[f"{f.name}_loop"] - f.start
            name = rng.choice([f.name, f"@{f.start:x}"])
            count = rng.randint(1, 1000)
            lines.append(f"1 {name} {loop:x} 1 {name} {loop + 4:x} 0 {count}\n")
    if rng.random() < 0.3:
        lines.append(rng.choice(["nothing\n", "1 f0 0 1 nowhere 0 0 1\n", "1 f0 0 1 f0 zz 0 1\n", "\n"]))
    return "".join(lines)
