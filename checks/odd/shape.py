"""A plain program, before oddities change how its file is laid out."""
from __future__ import annotations
import random
import struct
from collections.abc import Callable

from odd import code as odd_code
from odd.builder import (
    HEADER_SIZE, PAGE, PROGRAM_HEADER_SIZE, SYMBOL_SIZE, PF_R, PF_W, PF_X, PT_LOAD, SHF_ALLOC,
    SHF_EXECINSTR, SHF_INFO_LINK, SHF_MERGE, SHF_STRINGS, SHF_WRITE, SHT_PROGBITS, SHT_RELA, SHT_STRTAB,
    SHT_SYMTAB, STB_GLOBAL, STB_LOCAL, STT_NOTYPE, STT_OBJECT, Elf, Part, RelocationTable, Section,
    Strings, Symbol, SymbolTable, up)

SLOTS = 24                              # program headers that fit behind the file's header
EMPTY = HEADER_SIZE + SLOTS * PROGRAM_HEADER_SIZE
FAR = 0x100000


class Shape:
    """A file whose segment of code begins with the file's header, and which has one segment of data."""

    def __init__(self, rng: random.Random):
        self.rng = rng
        self.elf = Elf()
        base = rng.choice([0x10000, 0x10000, 0x400000, 0x40000000])
        lead = EMPTY if rng.random() < 0.7 else HEADER_SIZE
        self.write_code(base + lead)
        self.text = self.elf.part(bytes(lead) + self.code.bytes, 0)
        self.text.congruent = base
        self.code_segment = self.elf.segment(PT_LOAD, flags=PF_R | PF_X, part=self.text, address=base)
        self.code_section = self.elf.section(".text", SHT_PROGBITS, flags=SHF_ALLOC | SHF_EXECINSTR, part=self.text,
                                             start=lead, size=len(self.code.bytes), address=base + lead, align=4)
        if lead == EMPTY:
            self.elf.program_headers_in = (self.text, HEADER_SIZE)
        else:
            self.elf.program_headers.rank = 60
        self.add_data()
        self.add_names()
        self.add_relocations()
        self.elf.section(".comment", SHT_PROGBITS, b"GCC: (none) 1.0\0", flags=SHF_MERGE | SHF_STRINGS, entry_size=1)

    def write_code(self, start: int) -> None:
        rng = self.rng
        seed, compressed = rng.random(), rng.random() < 0.5
        names = [f"f{k}" for k in range(rng.randint(1, 5))]
        self.with_table = rng.random() < 0.6
        self.elf.flags = int(compressed)
        sizes = odd_code.write(odd_code.Code(start, compressed, {}), random.Random(seed), names, self.with_table)
        # at a page of its own, or such that it follows the code in the file
        self.data_address = up(sizes.here() + 2 * PAGE, rng.choice([PAGE, 8])) + rng.choice([0, 0, FAR])
        known = sizes.labels | {f"pointer_{n}": self.data_address + 8 * k for k, n in enumerate(names)}
        code = odd_code.write(odd_code.Code(start, compressed, known), random.Random(seed), names, self.with_table)
        self.code, self.names = code, names
        self.elf.entry = start

    def add_data(self) -> None:
        pointers = b"".join(struct.pack("<Q", self.code.labels[n]) for n in self.names)
        distances = b"".join(struct.pack("<i", self.code.labels[n] - self.code.start) for n in self.names)
        self.distances_at = self.data_address + len(pointers)
        self.data = self.elf.part(pointers + distances + b"constants\0", 10)
        self.data.congruent = self.data_address
        self.data_segment = self.elf.segment(PT_LOAD, flags=PF_R | PF_W, part=self.data, address=self.data_address)
        self.data_section = self.elf.section(".data", SHT_PROGBITS, flags=SHF_ALLOC | SHF_WRITE, part=self.data,
                                             size=len(self.data.data), address=self.data_address, align=8)
        self.next_address = self.data_address + 0x10000

    def add_names(self) -> None:
        symbols = [Symbol(f.name, f.start, f.size, section=self.code_section) for f in self.code.functions]
        functions = {f.name for f in self.code.functions}
        symbols += [Symbol(name, at, 0, STT_NOTYPE, STB_LOCAL, 0, self.code_section)
                    for name, at in self.code.labels.items() if name not in functions]
        symbols += [Symbol(f"pointer_{n}", self.data_address + 8 * k, 8, STT_OBJECT, STB_GLOBAL, 0, self.data_section)
                    for k, n in enumerate(self.names)]
        names = self.elf.section(".strtab", SHT_STRTAB, b"")
        table = self.elf.section(".symtab", SHT_SYMTAB, b"", link=names, align=8, entry_size=SYMBOL_SIZE)
        self.table = SymbolTable(table, Strings(), symbols, names)
        self.elf.symbol_tables.append(self.table)
        self.elf.names_section = self.elf.section(".shstrtab", SHT_STRTAB, b"")

    def add_relocations(self) -> None:
        of = {s.name: s for s in self.table.symbols}
        code = [(at, kind, of.get(label), addend) for at, kind, label, addend in self.code.relocations]
        data = []
        for k, name in enumerate(self.names):
            field = self.distances_at + 4 * k
            data += [(self.data_address + 8 * k, odd_code.R_RISCV_64, of[name], 0),
                     (field, odd_code.R_RISCV_ADD32, of[name], 0),
                     (field, odd_code.R_RISCV_SUB32, of["_start"], 0)]
        self.relocations = [self.add_relocation_table(self.code_section, code),
                            self.add_relocation_table(self.data_section, data)]

    def add_relocation_table(self, target: Section | int, entries: list, kind: int = SHT_RELA) -> RelocationTable:
        name = (".rela" if kind == SHT_RELA else ".rel") + (target.name if isinstance(target, Section) else ".none")
        section = self.elf.section(name, kind, b"", flags=SHF_INFO_LINK, link=self.table.section, info=target, align=8,
                                   entry_size=24 if kind == SHT_RELA else 16)
        table = RelocationTable(section, entries, kind == SHT_RELA)
        self.elf.relocation_tables.append(table)
        return table

    def load(self, data: bytes, flags: int = PF_R, more: int = 0, rank: float = 20) -> tuple[Part, int]:
        """A segment of its own for some bytes; gives its part and address."""
        part = self.elf.part(data, rank)
        address, self.next_address = self.next_address, up(self.next_address + len(data) + more, PAGE) + PAGE
        part.congruent = address
        self.elf.segment(PT_LOAD, flags=flags, part=part, address=address, more=more)
        return part, address

    def unloaded_parts(self) -> list[Part]:
        loaded = [s.part for s in self.elf.segments]
        return [p for p in self.elf.parts if p not in loaded]

    def code_end(self) -> int:
        return self.code_segment.address + len(self.text.data)


# Each changes a shape before its parts get their places. The names of the functions say what they do.
Oddity = Callable[[Shape, random.Random], None]
ODDITIES: list[Oddity] = []

# By these a file is none that the standard allows, or one that would have more than a GiB: no file need be written.
UNWRITABLE: set[str] = set()


def oddity(change: Oddity) -> Oddity:
    ODDITIES.append(change)
    return change


def unwritable_oddity(change: Oddity) -> Oddity:
    UNWRITABLE.add(change.__name__)
    return oddity(change)
