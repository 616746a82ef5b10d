#!/usr/bin/env python3
"""Whether `verify` finds each change of one byte: in the new code of a small output, in its code cells, and in its map.

    python3 checks/byte_changes.py [--tool COMMAND] [--jobs N]

A small program with calls, a loop, addresses of code and of data in instructions, and a pointer and a distance in
data is rewritten. Then each byte of the new code, of both cells and of MAP gets each other value in turn, and what
`verify` answers is compared with what a judge says that knows this one program: it has each instruction in its own
words and decides the clauses as the README tells them, by trying all. COMMAND stands for `./sudrepka`.

The last lines count the answers. Most changes are answered by the clause that they break, at the instruction, the
cell or the line that was changed. These are no clause's matter, and are answered `faithful`:

- of a return its long form changed into the short one: it is the same instruction, and nothing behind it is run;
- in MAP a size that still holds the whole instruction and no byte of another span: no clause asks that the jump
  behind an instruction lies in its span, nor that a span ends where the next one begins.

Any other change that is answered so, and any answer that isn't the judge's, is reported. The status is 0 where none
is.
"""
import argparse
import collections
import concurrent.futures
import os
import re
import struct
import subprocess
import sys
import tempfile

from odd import code as assembly
from odd.builder import (
    PF_R, PF_W, PF_X, PT_LOAD, SHF_ALLOC, SHF_EXECINSTR, SHF_INFO_LINK, SHF_WRITE, SHT_PROGBITS, SHT_RELA, SHT_STRTAB,
    SHT_SYMTAB, STB_LOCAL, STT_NOTYPE, Elf, RelocationTable, Strings, Symbol, SymbolTable)

ROOT = os.path.dirname(os.path.dirname(os.path.abspath(__file__)))
sys.path.insert(0, os.path.join(ROOT, "bench"))
from profiles import built  # noqa: E402

BASE, TEXT, DATA = 0x10000, 0x200, 0x12000  # of the file's first byte, of the code in the file, of the data
ZERO, RA, T0, A0, A7 = 0, 1, 5, 10, 17
RETURN = 0x00008067  # jalr x0, 0(ra)
R_RISCV_64, ADD32, SUB32 = assembly.R_RISCV_64, assembly.R_RISCV_ADD32, assembly.R_RISCV_SUB32


def word_of(data):
    return int.from_bytes(data, "little")


# The program.


class Program:
    """Instructions by their addresses: how long each is, what it does with an address, and the name of that."""

    def __init__(self, known):
        self.code = assembly.Code(BASE + TEXT, False, known)
        self.insts = {}
        self.write()
        self.labels = {**self.code.labels, "data": DATA}

    def put(self, kind, target, emit):
        at = self.code.here()
        emit()
        self.insts[at] = (self.code.here() - at, kind, target)

    def plain(self, word, size=4):
        self.put("plain", None, lambda: self.code.bytes.extend(word.to_bytes(size, "little")))

    def addi(self, *fields):
        self.put("plain", None, lambda: self.code.addi(*fields))

    def pair(self, kind, target, upper, lower):
        """Two instructions with the upper and the lower part of an address or of a distance from the first, which come
        last of their fields."""
        at = self.code.here()
        self.insts[at] = (4, kind + " high", target)
        self.insts[at + 4] = (4, kind + " low", target)
        distance = self.code.at(target) - (at if kind == "distance" else 0)
        self.code.bytes += assembly.u_type(*upper, distance) + assembly.i_type(*lower, distance)

    def address(self, rd, target):
        """AUIPC and LD: what stands at a distance."""
        upper = f".L{self.code.here():x}"
        self.code.label(upper)
        self.code.relocate(assembly.R_RISCV_PCREL_HI20, target)
        self.code.relocate(assembly.R_RISCV_PCREL_LO12_I, upper, -4)
        self.pair("distance", target, (0x17, rd), (0x03, 3, rd, rd))

    def absolute(self, rd, target):
        """LUI and ADDI: an address."""
        self.code.relocate(assembly.R_RISCV_HI20, target)
        self.code.relocate(assembly.R_RISCV_LO12_I, target, -4)
        self.pair("absolute", target, (0x37, rd), (0x13, 0, rd, rd))

    def call(self, target):
        """AUIPC and JALR."""
        self.code.relocate(assembly.R_RISCV_CALL_PLT, target)
        self.pair("distance", target, (0x17, RA), (0x67, 0, RA, RA))

    def write(self):
        code = self.code
        code.function("_start")
        self.addi(A0, ZERO, 3)
        self.call("leaf")
        self.address(T0, "data")
        self.put("plain", None, code.call_pointer)
        self.absolute(T0, "leaf")
        self.put("plain", None, code.call_pointer)
        code.label("loop")
        self.put("call", "leaf", lambda: code.call_near("leaf"))
        self.put("branch", "done", lambda: code.beqz("done"))
        self.addi(A0, A0, -1)
        self.put("jump", "loop", lambda: code.jump("loop"))
        code.label("done")
        self.addi(A7, ZERO, 93)
        self.plain(0x00000073)
        code.close()
        code.function("leaf")
        self.plain(0x0585, 2)  # c.addi a1, 1
        self.put("branch", "rare", lambda: code.bnez("rare"))
        self.plain(RETURN)
        code.label("rare")
        self.plain(0x8082, 2)  # c.jr ra
        code.close()

    def cells(self):
        """Address, width, and the names of the address that is held and of one that is taken from it."""
        return [(DATA, 8, "leaf", None), (DATA + 8, 4, "done", "loop")]

    def data(self):
        at = self.labels.get
        return struct.pack("<Qi", at("leaf", 0), at("done", 0) - at("loop", 0)) + b"text"


def program():
    first = Program({})
    return Program(first.labels)


def build(p):
    """The file of the program: one segment of code, one of data, symbols and relocations."""
    elf = Elf(entry=p.labels["_start"], flags=1)
    text = elf.part(bytes(TEXT) + p.code.bytes, 0)
    text.congruent = BASE
    elf.program_headers_in = (text, 64)
    data = elf.part(p.data(), 10)
    data.congruent = DATA
    elf.segment(PT_LOAD, flags=PF_R | PF_X, part=text, address=BASE)
    elf.segment(PT_LOAD, flags=PF_R | PF_W, part=data, address=DATA)
    code = elf.section(".text", SHT_PROGBITS, flags=SHF_ALLOC | SHF_EXECINSTR, part=text, start=TEXT,
                       address=BASE + TEXT, align=4)
    cells = elf.section(".data", SHT_PROGBITS, flags=SHF_ALLOC | SHF_WRITE, part=data, address=DATA, align=8)
    names = elf.section(".strtab", SHT_STRTAB, b"")
    table = elf.section(".symtab", SHT_SYMTAB, b"", link=names, align=8, entry_size=24)
    sizes = {f.name: f.size for f in p.code.functions}
    symbols = {name: Symbol(name, at, sizes[name], section=code) if name in sizes
               else Symbol(name, at, 0, STT_NOTYPE, STB_LOCAL, 0, cells if name == "data" else code)
               for name, at in p.labels.items()}
    elf.symbol_tables.append(SymbolTable(table, Strings(), list(symbols.values()), names))
    elf.names_section = elf.section(".shstrtab", SHT_STRTAB, b"")
    of_data = [(DATA, R_RISCV_64, "leaf", 0), (DATA + 8, ADD32, "done", 0), (DATA + 8, SUB32, "loop", 0)]
    for target, entries in ((code, p.code.relocations), (cells, of_data)):
        section = elf.section(".rela" + target.name, SHT_RELA, b"", flags=SHF_INFO_LINK, link=table, info=target,
                              align=8, entry_size=24)
        found = [(at, kind, symbols.get(name), addend) for at, kind, name, addend in entries]
        elf.relocation_tables.append(RelocationTable(section, found))
    return elf.build()


def profile(p):
    """The loop goes round often, and the rare part of the leaf is rare."""
    loop, start = p.labels["loop"], p.labels["_start"]
    return f"1 @{start:x} {loop + 12 - start:x} 1 @{start:x} {loop - start:x} 0 9\n"


# What the judge knows of instructions: these, in each form that they can have.


def signed(value, bits):
    return value - (value >> bits - 1 << bits)


def short_forms(word):
    """The halfwords that are the same instruction, for those of the program. ISA manual, volume I, "C" extension."""
    opcode, rd, funct3, rs1, imm = word & 127, word >> 7 & 31, word >> 12 & 7, word >> 15 & 31, signed(word >> 20, 12)
    low = (imm & 31) << 2 | (imm >> 5 & 1) << 12
    found = []
    if opcode == 0x13 and funct3 == 0 and -32 <= imm < 32:
        if rd == rs1 != 0 and imm != 0:
            found.append(0x0001 | rd << 7 | low)  # c.addi
        if rs1 == 0 and rd != 0:
            found.append(0x4001 | rd << 7 | low)  # c.li
    if opcode == 0x67 and funct3 == 0 and imm == 0 and rs1 != 0 and rd < 2:
        found.append(0x8002 | rd << 12 | rs1 << 7)  # c.jr, c.jalr
    if opcode == 0x03 and funct3 == 3 and 8 <= rd < 16 and 8 <= rs1 < 16 and 0 <= imm < 256 and imm % 8 == 0:
        found.append(0x6000 | (imm >> 3 & 7) << 10 | (rs1 - 8) << 7 | (imm >> 6) << 5 | (rd - 8) << 2)  # c.ld
    return found


LONG_FORMS = {half: word for word in (0x00158593, RETURN) for half in short_forms(word)}  # of the program's short ones


class Output:
    """An output: what is loaded, and what stands in its code."""

    def __init__(self, file):
        self.file = file
        at, = struct.unpack_from("<Q", file, 0x20)
        count, = struct.unpack_from("<H", file, 0x38)
        self.entry, = struct.unpack_from("<Q", file, 0x18)
        headers = [struct.unpack_from("<IIQQQQQQ", file, at + 56 * k) for k in range(count)]
        self.loads = [(h[3], h[3] + h[6], h[1], h[2]) for h in headers if h[0] == PT_LOAD]

    def offset(self, address):
        for start, end, flags, offset in self.loads:
            if start <= address < end:
                return offset + address - start
        return None

    def is_code(self, address, size):
        """Bytes that are loaded, may be executed and not written."""
        ranges = [(start, end) for start, end, flags, _ in self.loads if flags & PF_X and not flags & PF_W]
        return all(any(start <= a < end for start, end in ranges) for a in range(address, address + size))

    def bytes_at(self, address, size):
        offset = self.offset(address)
        return self.file[offset:offset + size] if offset is not None else b""

    def word(self, p):
        """The bits of the instruction at a place, and its width; 0 and 0 where none can be."""
        width = 4 if self.bytes_at(p, 1) and self.bytes_at(p, 1)[0] & 3 == 3 else 2
        data = self.bytes_at(p, width)
        return (word_of(data), width) if len(data) == width and self.is_code(p, width) else (0, 0)

    def has(self, p, wanted):
        """The width of that instruction at a place, if it is there in one of its forms."""
        bits, width = self.word(p)
        same = bits == wanted if width == 4 else bits in short_forms(wanted)
        return width if same else None

    def jump(self, p):
        """Its register and where it leads, of a JAL or C.J."""
        bits, width = self.word(p)
        if width == 4 and bits & 127 == 0x6F:
            high = bits >> 31 << 20 | (bits >> 12 & 255) << 12 | (bits >> 20 & 1) << 11 | (bits >> 21 & 0x3FF) << 1
            return bits >> 7 & 31, p + signed(high, 21)
        if width == 2 and bits & 0xE003 == 0xA001:
            imm = sum((bits >> 12 - k & 1) << bit for k, bit in enumerate((11, 4, 9, 8, 10, 6, 7, 3, 2, 1, 5)))
            return ZERO, p + signed(imm, 12)
        return None

    def branch(self, p):
        """Its condition, its registers, where it leads and where it ends."""
        bits, width = self.word(p)
        if width == 4 and bits & 127 == 0x63:
            imm = bits >> 31 << 12 | (bits >> 7 & 1) << 11 | (bits >> 25 & 63) << 5 | (bits >> 8 & 15) << 1
            return bits >> 12 & 7, bits >> 15 & 31, bits >> 20 & 31, p + signed(imm, 13), p + 4
        if width == 2 and bits & 0xC003 == 0xC001:
            high = (bits >> 12 & 1) << 8 | (bits >> 5 & 3) << 6 | (bits >> 2 & 1) << 5
            imm = high | (bits >> 10 & 3) << 3 | (bits >> 3 & 3) << 1
            return bits >> 13 & 1, 8 + (bits >> 7 & 7), ZERO, p + signed(imm, 9), p + 2
        return None

    def goes(self, p, q):
        return p == q or self.jump(p) == (ZERO, q)


class Unfaithful(Exception):
    """A clause that is false, and its place."""


class Judge:
    """Says of an output of the program and a map what `verify` has to answer, where nothing but new code and cells
    differs from a faithful output."""

    def __init__(self, p):
        self.program = p
        self.own = Output(build(p))

    def answer(self, file, text):
        try:
            self.clauses(Output(file), self.spans(text))
        except Unfaithful as false:
            clause, place = false.args
            return f"unfaithful {clause} at {place:x}"
        return "faithful"

    def spans(self, text):
        """New address, size and old address of each line."""
        number, found = b"(0|[1-9a-f][0-9a-f]{0,15})", []
        lines = text.split(b"\n")
        for k, line in enumerate(lines[:-1]):
            fields = re.fullmatch(number + b" (0|[1-9][0-9]{0,2}) " + number, line)
            if not fields or int(fields[2]) > 255:
                raise Unfaithful("MapText", k + 1)
            found.append((int(fields[1], 16), int(fields[2]), int(fields[3], 16)))
        if lines[-1]:
            raise Unfaithful("MapText", len(lines))
        return found

    def clauses(self, out, spans):
        self.lowest("MapSpan", self.bad_spans(spans))
        self.lowest("SpanBytes", [a for new, size, a in spans if not out.is_code(new, size)])
        self.new = {a: new for new, size, a in spans}
        self.size = {a: size for new, size, a in spans}
        insts = self.program.insts
        self.lowest("Instruction", [a for a in insts if not self.keeps(out, a)])
        self.lowest("Next", [a for a in insts if not self.goes_on(out, a)])
        if out.entry != self.new[self.program.labels["_start"]]:
            raise Unfaithful("Entry", out.entry)
        self.lowest("Cell", [cell[0] for cell in self.program.cells() if not self.keeps_cell(out, *cell)])

    def lowest(self, clause, places):
        if places:
            raise Unfaithful(clause, min(places))

    def bad_spans(self, spans):
        insts, labels = self.program.insts, self.program.labels
        times = collections.Counter(a for new, size, a in spans)
        bad = [a for a in {*insts, *times} if times[a] != (a in insts)]
        bad += [a for new, size, a in spans if size > 0 and (new % 2 == 1 or new == 0)]
        for i, (new, size, a) in enumerate(spans):
            others = [(other, other + more) for j, (other, more, _) in enumerate(spans) if j != i]
            bad += [a for other, end in others if max(new, other) < min(new + size, end)]
        named = {labels["_start"]} | {labels[t] for _, kind, t in insts.values() if " " in kind}
        named |= {labels[name] for _, _, *names in self.program.cells() for name in names if name}
        return bad + [a for new, size, a in spans if size == 0 and a in named]

    def old(self, a):
        """The word of an instruction of the program, in its long form."""
        bits, width = self.own.word(a)
        return bits if width == 4 else LONG_FORMS[bits]

    def moved(self, name):
        at = self.program.labels[name]
        return self.new.get(at, at)

    def with_part(self, a, kind, target):
        """The instruction anew, with its part of an address or of a distance."""
        origin = 0 if kind.startswith("absolute") else self.new[a if kind.endswith("high") else a - 4]
        value = self.moved(target) - origin
        if kind.endswith("high"):
            return self.old(a) & 0xFFF | value + 0x800 & 0xFFFFF000
        return self.old(a) & 0xFFFFF | (value & 0xFFF) << 20

    def keeps(self, out, a):
        length, kind, target = self.program.insts[a]
        p, size = self.new[a], self.size[a]
        if kind == "jump":
            return out.goes(p, self.moved(target))
        if kind == "call":
            return size >= 4 and out.jump(p) == (RA, self.moved(target))
        if kind == "branch":
            return self.keeps_branch(out, a, target)
        width = out.has(p, self.old(a) if kind == "plain" else self.with_part(a, kind, target))
        return width is not None and width <= size

    def keeps_branch(self, out, a, target):
        found = out.branch(self.new[a])
        if not found or found[4] - self.new[a] > self.size[a]:
            return False
        wanted, fields = self.own.branch(a), found[:3]
        ways = [found[3], found[4]] if fields == wanted[:3] else [found[4], found[3]]
        same = fields[0] in (wanted[0], wanted[0] ^ 1) and fields[1:] == wanted[1:3]
        return same and out.goes(ways[0], self.moved(target)) and out.goes(ways[1], self.new[wanted[4]])

    def goes_on(self, out, a):
        length, kind, _ = self.program.insts[a]
        if kind in ("jump", "branch") or self.old(a) == RETURN or a + length not in self.new:
            return True
        return out.goes(self.new[a] + out.word(self.new[a])[1], self.new[a + length])

    def keeps_cell(self, out, a, width, name, taken):
        value = self.moved(name) - (self.moved(taken) if taken else 0)
        return word_of(out.bytes_at(a, width)) == value % (1 << 8 * width)


# Trying.


def is_size_alone(before, after):
    return before[0] == after[0] and before[1] != after[1] and before[2] == after[2]


def reason(judge, part, spans, file, text, place):
    """Why no clause asks for what was changed; None where one should."""
    if part == "map":
        return "a size that holds the instruction" if is_size_alone(spans[place], judge.spans(text)[place]) else None
    out = Output(file)
    owner = next((a for new, size, a in spans if new <= place < new + size), None)
    if owner is None or judge.program.insts[owner][1] != "plain":
        return None
    is_short = judge.old(owner) == RETURN and out.word(judge.new[owner])[1] == 2
    return "a return in its short form" if is_short else None


class Trial:
    """A faithful output with its map, and the command that judges its changes."""

    def __init__(self, command, file, text):
        self.command, self.file, self.text = command, file, text
        self.judge = Judge(program())
        self.spans = self.judge.spans(text)
        out = Output(file)
        code = sorted({a for new, size, _ in self.spans for a in range(new, new + size)})
        cells = [a + k for a, width, *_ in self.judge.program.cells() for k in range(width)]
        self.places = [("code", a, out.offset(a)) for a in code] + [("cell", a, out.offset(a)) for a in cells]
        self.places += [("map", text[:k].count(b"\n"), k) for k in range(len(text))]

    def ask(self, folder, file, text):
        for name, content in (("out", file), ("map", text)):
            with open(os.path.join(folder, name), "wb") as target:
                target.write(content)
        paths = [os.path.join(folder, name) for name in ("in", "out", "map")]
        done = subprocess.run([*self.command, "verify", *paths], capture_output=True, text=True, check=False)
        said = done.stdout.removesuffix("\n")
        wanted = 0 if said == "faithful" else 228
        return said if done.returncode == wanted else f"{said} with status {done.returncode}"

    def change(self, index):
        """All changes of one byte: what they were answered, with their counts, and what is wrong with them."""
        part, place, offset = self.places[index]
        counts, wrong = collections.Counter(), []
        with tempfile.TemporaryDirectory() as folder:
            with open(os.path.join(folder, "in"), "wb") as target:
                target.write(self.judge.own.file)
            for value in range(256):
                file, text = bytearray(self.file), bytearray(self.text)
                changed = text if part == "map" else file
                if changed[offset] == value:
                    continue
                changed[offset] = value
                said, wanted = self.ask(folder, bytes(file), bytes(text)), self.judge.answer(bytes(file), bytes(text))
                why = None
                if wanted == "faithful":
                    why = reason(self.judge, part, self.spans, bytes(file), bytes(text), place)
                counts[part, f"faithful: {why}" if why else " ".join(said.split()[:2])] += 1
                if said != wanted or wanted == "faithful" and not why:
                    wrong.append(f"{part} {place:x}, byte {offset:x} as {value:02x}: {said}, and by the judge {wanted}")
        return counts, wrong


def written(command, folder):
    """The program's output and map, as the command writes them."""
    p = program()
    paths = [os.path.join(folder, name) for name in ("in", "profile", "out", "map")]
    for path, content in zip(paths, (build(p), profile(p).encode())):
        with open(path, "wb") as target:
            target.write(content)
    done = subprocess.run([*command, "rewrite", *paths], capture_output=True, text=True, check=False)
    if done.returncode != 0:
        sys.exit(f"the program isn't rewritten: {done.stdout}")
    return [open(path, "rb").read() for path in paths[2:]]


def start(command, file, text):
    global TRIAL
    TRIAL = Trial(command, file, text)


def change(index):
    return TRIAL.change(index)


def main():
    words = argparse.ArgumentParser(description="verify tried on each change of one byte")
    words.add_argument("--tool", default=os.path.join(ROOT, "sudrepka"), help="the command that takes `verify ..`")
    words.add_argument("--jobs", type=int, default=1, help="how many at a time")
    given = words.parse_args()
    command = built(given.tool)
    with tempfile.TemporaryDirectory() as folder:
        file, text = written(command, folder)
        start(command, file, text)
        said = TRIAL.ask(folder, file, text)
        if said != "faithful" or TRIAL.judge.answer(file, text) != "faithful":
            sys.exit(f"the output itself is answered {said!r}, and {TRIAL.judge.answer(file, text)!r} by the judge")
    counts, wrong = collections.Counter(), []
    with concurrent.futures.ProcessPoolExecutor(given.jobs, initializer=start, initargs=(command, file, text)) as pool:
        for more, reports in pool.map(change, range(len(TRIAL.places))):
            counts += more
            for line in reports:
                print(line, flush=True)
            wrong += reports
    for (part, answer), count in sorted(counts.items()):
        print(f"{part:4} {answer:45} {count:7}")
    print(f"{sum(counts.values())} changes, {len(wrong)} reported")
    sys.exit(1 if wrong else 0)


if __name__ == "__main__":
    main()
