"""Builds ELF executables for RV64 from their parts, in any order.

A file is made of parts, each a run of bytes that stand together: the file's header, the two tables of
headers, what a segment loads, the contents of a section. Sections, segments, symbols and relocations refer to
parts and to one another as objects, and get offsets and indices once the parts have places. A table of names
or of symbols takes the size that it needs, or has to fit into a section of a given size.
"""
from __future__ import annotations
import struct
from collections.abc import Callable
from dataclasses import dataclass, field

PAGE = 0x1000
HEADER_SIZE, PROGRAM_HEADER_SIZE, SECTION_HEADER_SIZE, SYMBOL_SIZE, RELOCATION_SIZE = 64, 56, 64, 24, 24

PT_NULL, PT_LOAD, PT_INTERP, PT_NOTE, PT_PHDR, PT_TLS = 0, 1, 3, 4, 6, 7
PT_GNU_STACK, PT_GNU_RELRO, PT_GNU_PROPERTY = 0x6474E551, 0x6474E552, 0x6474E553
PT_RISCV_ATTRIBUTES = 0x70000003
PF_X, PF_W, PF_R = 1, 2, 4

SHT_NULL, SHT_PROGBITS, SHT_SYMTAB, SHT_STRTAB, SHT_RELA, SHT_HASH, SHT_NOTE, SHT_NOBITS = 0, 1, 2, 3, 4, 5, 7, 8
SHT_REL, SHT_DYNSYM, SHT_INIT_ARRAY, SHT_GROUP, SHT_SYMTAB_SHNDX = 9, 11, 14, 17, 18
SHT_RISCV_ATTRIBUTES = 0x70000003
SHF_WRITE, SHF_ALLOC, SHF_EXECINSTR, SHF_MERGE, SHF_STRINGS = 1, 2, 4, 0x10, 0x20
SHF_INFO_LINK, SHF_COMPRESSED = 0x40, 0x800

STB_LOCAL, STB_GLOBAL, STB_WEAK = 0, 1, 2
STT_NOTYPE, STT_OBJECT, STT_FUNC, STT_SECTION, STT_FILE, STT_COMMON, STT_TLS = 0, 1, 2, 3, 4, 5, 6
SHN_UNDEF, SHN_ABS, SHN_COMMON, SHN_XINDEX = 0, 0xFFF1, 0xFFF2, 0xFFFF


def up(value: int, align: int) -> int:
    return -(-value // align) * align


@dataclass(eq=False)
class Part:
    """Bytes that stand together. Parts go into the file by rank. `congruent` is an address that the offset
    has to agree with, as far as a page goes. `fill` gives the final bytes once all offsets are known."""
    data: bytearray
    rank: float = 50
    align: int = 1
    gap: int = 0
    congruent: int | None = None
    fill: Callable[[], bytes] | None = None
    offset: int = -1


@dataclass(eq=False)
class Section:
    name: str
    kind: int
    flags: int = 0
    part: Part | None = None
    start: int = 0                      # where it begins in its part
    size: int | None = None             # to the end of its part, if not given
    address: int = 0
    link: Section | int = 0
    info: Section | int = 0
    align: int = 1
    entry_size: int = 0
    offset: int | None = None           # in place of the part's

    def length(self) -> int:
        return self.size if self.size is not None else len(self.part.data) - self.start if self.part else 0

    def place(self) -> int:
        if self.offset is not None:
            return self.offset
        return self.part.offset + self.start if self.part else 0


@dataclass(eq=False)
class Segment:
    kind: int
    flags: int = PF_R
    part: Part | None = None
    start: int = 0
    size: int | None = None
    address: int = 0
    more: int = 0                       # memory past the bytes of the file
    align: int = PAGE
    offset: int | None = None
    physical: int | None = None

    def length(self) -> int:
        return self.size if self.size is not None else len(self.part.data) - self.start if self.part else 0

    def place(self) -> int:
        if self.offset is not None:
            return self.offset
        return self.part.offset + self.start if self.part else 0


@dataclass(eq=False)
class Symbol:
    name: str
    value: int
    size: int = 0
    kind: int = STT_FUNC
    bind: int = STB_GLOBAL
    other: int = 0
    section: Section | int = SHN_ABS


class Strings:
    """A table of names. With `share`, a name that ends another one is found there."""

    def __init__(self, share: bool = False):
        self.data, self.places, self.share = bytearray(b"\0"), {"": 0}, share

    def add(self, name: str) -> int:
        if name not in self.places:
            found = self.data.find(name.encode() + b"\0") if self.share else -1
            self.places[name] = found if found >= 0 else len(self.data)
            if found < 0:
                self.data += name.encode() + b"\0"
        return self.places[name]


@dataclass(eq=False)
class SymbolTable:
    section: Section
    names: Strings
    symbols: list[Symbol]
    names_section: Section
    first_global: int | None = None     # sh_info, if it isn't the true one
    trailing: bytes = b""               # of a symbol that isn't whole


@dataclass(eq=False)
class RelocationTable:
    section: Section
    entries: list[tuple[int, int, Symbol | None, int]]     # address, type, symbol, addend
    with_addends: bool = True


@dataclass(eq=False)
class Elf:
    entry: int = 0
    flags: int = 0
    kind: int = 2
    version: int = 1
    header_size: int = HEADER_SIZE
    system: int = 0
    header_apart: bool = False          # else the file's header is the first bytes of the part of lowest rank
    program_headers: Part = field(default_factory=lambda: Part(bytearray(), 1, 8))
    program_headers_in: tuple[Part, int] | None = None     # another part that holds them, and where
    section_headers: Part = field(default_factory=lambda: Part(bytearray(), 100, 8))
    parts: list[Part] = field(default_factory=list)
    segments: list[Segment] = field(default_factory=list)
    sections: list[Section] = field(default_factory=list)  # without the null section
    symbol_tables: list[SymbolTable] = field(default_factory=list)
    relocation_tables: list[RelocationTable] = field(default_factory=list)
    names_section: Section | None = None
    section_names: Strings = field(default_factory=Strings)
    has_names: bool = True
    section_count: int | None = None    # e_shnum, if it isn't the true one
    patches: list[Callable[[bytearray], None]] = field(default_factory=list)
    trailing: bytes = b""

    def part(self, data: bytes, rank: float = 50, align: int = 1) -> Part:
        part = Part(bytearray(data), rank, align)
        self.parts.append(part)
        return part

    def section(self, name: str, kind: int, data: bytes | None = None, **fields) -> Section:
        """Adds a section, with a part of its own where data are given."""
        section = Section(name, kind, **fields)
        if data is not None:
            section.part = self.part(data, 50, max(1, section.align))
        self.sections.append(section)
        return section

    def segment(self, kind: int, **fields) -> Segment:
        segment = Segment(kind, **fields)
        self.segments.append(segment)
        return segment

    def index(self, section: Section | int) -> int:
        if isinstance(section, int):
            return section
        return self.sections.index(section) + 1 if section in self.sections else 0

    def add_names(self) -> None:
        """Fills the tables of names, which gives them their sizes."""
        for table in self.symbol_tables:
            table.symbols.sort(key=lambda s: s.bind != STB_LOCAL)
            for symbol in table.symbols:
                table.names.add(symbol.name)
            if table.section.size is None:
                table.section.part.data = bytearray(SYMBOL_SIZE * (len(table.symbols) + 1)) + table.trailing
        if self.has_names:
            for section in self.sections:
                self.section_names.add(section.name)
        for strings, section in self.name_tables():
            if section.size is None:
                section.part.data = bytearray(strings.data)

    def name_tables(self) -> list[tuple[Strings, Section]]:
        """Each table of names once, with a section that holds it."""
        seen, found = [], []
        tables = [(t.names, t.names_section) for t in self.symbol_tables] + [(self.section_names, self.names_section)]
        for strings, section in tables:
            if section is not None and strings not in seen:
                seen.append(strings)
                found.append((strings, section))
        return found

    def symbol_bytes(self, table: SymbolTable) -> bytes:
        data = bytes(SYMBOL_SIZE)
        for s in table.symbols:
            data += struct.pack("<IBBHQQ", table.names.add(s.name), s.bind << 4 | s.kind, s.other,
                                self.index(s.section) & 0xFFFF, s.value, s.size)
        return data + table.trailing

    def relocation_bytes(self, table: RelocationTable) -> bytes:
        symbols = self.symbol_tables[0].symbols if self.symbol_tables else []
        data = b""
        for address, kind, symbol, addend in table.entries:
            number = symbols.index(symbol) + 1 if symbol in symbols else 0
            data += struct.pack("<QQ", address, number << 32 | kind)
            data += struct.pack("<q", addend) if table.with_addends else b""
        return data

    def program_header_bytes(self) -> bytes:
        data = b""
        for s in self.segments:
            physical = s.address if s.physical is None else s.physical
            data += struct.pack("<IIQQQQQQ", s.kind, s.flags, s.place(), s.address, physical, s.length(),
                                s.length() + s.more, s.align)
        return data

    def section_header_bytes(self) -> bytes:
        infos = {t.section: t.first_global if t.first_global is not None else
                 1 + sum(s.bind == STB_LOCAL for s in t.symbols) for t in self.symbol_tables}
        data = bytes(SECTION_HEADER_SIZE)
        for s in self.sections:
            name = self.section_names.add(s.name) if self.has_names else 0
            data += struct.pack("<IIQQQQIIQQ", name, s.kind, s.flags, s.address, s.place(), s.length(),
                                self.index(s.link), infos.get(s, self.index(s.info)), s.align, s.entry_size)
        return data

    def header_bytes(self, table: int) -> bytes:
        count = len(self.sections) + 1 if self.section_count is None else self.section_count
        names = self.index(self.names_section) if self.names_section else 0
        return b"\x7fELF\x02\x01\x01" + bytes([self.system]) + bytes(8) + struct.pack(
            "<HHIQQQIHHHHHH", self.kind, 0xF3, self.version, self.entry, table, self.section_headers.offset,
            self.flags, self.header_size, PROGRAM_HEADER_SIZE, len(self.segments), SECTION_HEADER_SIZE, count, names)

    def build(self) -> bytes:
        self.add_names()
        for relocations in self.relocation_tables:
            size = RELOCATION_SIZE if relocations.with_addends else 16
            relocations.section.part.data = bytearray(size * len(relocations.entries))
        self.section_headers.data = bytearray(SECTION_HEADER_SIZE * (len(self.sections) + 1))
        placed = self.parts + [self.section_headers]
        if self.program_headers_in is None:
            self.program_headers.data = bytearray(PROGRAM_HEADER_SIZE * len(self.segments))
            placed.append(self.program_headers)
        end = HEADER_SIZE if self.header_apart else 0
        for part in sorted(placed, key=lambda p: p.rank):
            end = up(end + part.gap, part.align)
            if part.congruent is not None:
                end += (part.congruent - end) % PAGE
            part.offset = end
            end += len(part.data)
        file = bytearray(end)
        for part in placed:
            file[part.offset:part.offset + len(part.data)] = part.data
        self.fill(file)
        for patch in self.patches:
            patch(file)
        return bytes(file) + self.trailing

    def fill(self, file: bytearray) -> None:
        def put(offset: int, data: bytes) -> None:
            file[offset:offset + len(data)] = data

        table = self.program_headers.offset
        if self.program_headers_in is not None:
            table = self.program_headers_in[0].offset + self.program_headers_in[1]
        for strings, section in self.name_tables():
            put(section.place(), strings.data)
        for t in self.symbol_tables:
            put(t.section.place(), self.symbol_bytes(t))
        for r in self.relocation_tables:
            put(r.section.place(), self.relocation_bytes(r))
        put(self.section_headers.offset, self.section_header_bytes())
        put(table, self.program_header_bytes())
        put(0, self.header_bytes(table))
