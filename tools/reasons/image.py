"""An ELF file as the program reads it: header and program headers of any file, and for one without faults of these its
sections, symbols, relocations and the bytes at its addresses (gABI; psABI, "Relocations")."""
import bisect
import functools
import struct
import typing

from elf_file import SHF_EXECINSTR, SHT_NOBITS, SHT_RELA, SHT_SYMTAB, STT_FUNC, ElfFile

PT_LOAD, PT_DYNAMIC, PT_INTERP, PT_GNU_EH_FRAME = 1, 2, 3, 0x6474E550
PF_X, PF_W, SHF_ALLOC, STT_GNU_IFUNC = 1, 2, 2, 10
EHDR, PHDR, SHDR, SYM, RELA = 64, 56, 64, 24, 24


class Segment(typing.NamedTuple):
    """A program header: the offset of the header itself, and its fields."""

    place: int
    index: int
    kind: int
    flags: int
    offset: int
    address: int
    filesz: int
    memsz: int

    def is_code(self):
        return self.kind == PT_LOAD and bool(self.flags & PF_X)

    def loads(self, address):
        return self.kind == PT_LOAD and self.address <= address < self.address + self.memsz


class Symbol(typing.NamedTuple):
    """A symbol with its name as text."""

    name: str
    info: int
    section: int
    value: int
    size: int

    def is_function(self):
        return self.info % 16 == STT_FUNC


class Relocation(typing.NamedTuple):
    """A relocation, the section that it applies to, and the offset of its entry in the file."""

    place: int
    kind: int
    symbol: int
    addend: int
    section: typing.Any
    entry: int


class Headers:
    """The header and the program headers of any file. Bytes that it hasn't count as missing zeros."""

    def __init__(self, data):
        self.data = data
        self.type, self.machine, self.flags = self.number(0x10, 2), self.number(0x12, 2), self.number(0x30, 4)
        self.phoff, self.shoff = self.number(0x20, 8), self.number(0x28, 8)
        self.phentsize, self.phnum = self.number(0x36, 2), self.number(0x38, 2)
        self.shentsize, self.shnum, self.shstrndx = (self.number(at, 2) for at in (0x3A, 0x3C, 0x3E))

    def number(self, offset, size):
        return int.from_bytes(self.data[offset:offset + size], "little")

    @functools.cached_property
    def segments(self):
        found = []
        for index in range(self.phnum):
            place = self.phoff + PHDR * index
            if place + PHDR > len(self.data):
                break
            kind, flags, offset, address, _, filesz, memsz = struct.unpack_from("<IIQQQQQ", self.data, place)
            found.append(Segment(place, index, kind, flags, offset, address, filesz, memsz))
        return found

    def section_header(self, index):
        """Name, type, flags, address, offset, size and link of a section header."""
        return struct.unpack_from("<IIQQQQI", self.data, self.shoff + SHDR * index)

    def is_whole(self, offset, size):
        return size == 0 or offset + size <= len(self.data)

    @functools.cached_property
    def section_names(self):
        """The offset and the size of the names of sections, if they can be read."""
        if self.shstrndx >= self.shnum or not self.is_whole(self.shoff, SHDR * self.shnum):
            return None
        _, kind, _, _, offset, size, _ = self.section_header(self.shstrndx)
        size = 0 if kind == SHT_NOBITS else size
        return (offset, size) if self.is_whole(offset, size) else None

    def section_name(self, index):
        """The name of a section, as far as it can be read."""
        if self.section_names is None:
            return "?"
        offset, size = self.section_names
        text = self.data[offset + self.section_header(index)[0]:offset + size]
        return text.split(b"\0")[0].decode(errors="replace")


class Image(ElfFile):
    """A file whose header, segments and sections have no fault."""

    def __init__(self, path):
        super().__init__(path)
        self.head = Headers(self.data)
        self.code_sections = [it for it in self.sections if it.flags & SHF_EXECINSTR]

    def called(self, name):
        """The section that a name refers to: unwind tables are loaded, and debug tables aren't."""
        loaded = {".eh_frame": True, ".eh_frame_hdr": True}.get(name, False if name.startswith(".debug_") else None)
        for it in self.sections:
            if it.name == name and (loaded is None or not it.flags & SHF_EXECINSTR
                                    and bool(it.flags & SHF_ALLOC) == loaded):
                return it
        return None

    def contents(self, name):
        """The bytes of a section, none if there is none; and its address."""
        it = self.called(name)
        if it is None or it.kind == SHT_NOBITS:
            return b"", it.address if it else 0
        return self.bytes_of(it), it.address

    @functools.cached_property
    def symbols(self):
        table = next((it for it in self.sections if it.kind == SHT_SYMTAB), None)
        if table is None:
            return []
        texts = self.bytes_of(self.sections[table.link]) if table.link < len(self.sections) else b""
        size, rows = table.size // SYM * SYM, []
        for name, info, _, section, value, length in struct.iter_unpack("<IBBHQQ", self.bytes_of(table)[:size]):
            end = texts.find(b"\0", name)
            rows.append(Symbol(texts[name:end].decode(errors="replace"), info, section, value, length))
        return rows

    @functools.cached_property
    def relocations(self):
        """Those of loaded sections other than `.eh_frame`, in the order of their tables."""
        found = []
        for table in self.sections:
            if table.kind != SHT_RELA or table.info >= len(self.sections):
                continue
            target = self.sections[table.info]
            if not target.flags & SHF_ALLOC or target.name == ".eh_frame":
                continue
            data = self.bytes_of(table)[:table.size // RELA * RELA]
            for k, (place, info, addend) in enumerate(struct.iter_unpack("<QQq", data)):
                found.append(Relocation(place, info & 0xFFFFFFFF, info >> 32, addend, target, table.offset + RELA * k))
        return found

    @functools.cached_property
    def _by_place(self):
        found = {}
        for it in self.relocations:
            found.setdefault(it.place, []).append(it)
        return found

    def relocations_at(self, place):
        return self._by_place.get(place, [])

    def byte(self, address):
        """The byte at an address, if it is loaded."""
        for it in self.head.segments:
            if it.loads(address):
                into = address - it.address
                return self.data[it.offset + into] if into < it.filesz else 0
        return None

    def bytes_at(self, start, end):
        """The bytes from an address to another; those that aren't loaded count as zeros."""
        for it in self.head.segments:
            if it.loads(start) and end <= it.address + it.filesz:
                return bytes(self.data[it.offset + start - it.address:it.offset + end - it.address])
        return bytes(self.byte(at) or 0 for at in range(start, end))

    def loaded(self, address, size):
        """The number of so many bytes at an address, if all are loaded."""
        found = [self.byte(address + k) for k in range(size)]
        return None if None in found else int.from_bytes(bytes(found), "little")

    def section_at(self, address):
        """A section with code at an address, or else one that is loaded there."""
        loaded = [it for it in self.sections if it.flags & SHF_ALLOC]
        return next((it for it in self.code_sections + loaded if it.address <= address < it.address + it.size), None)

    @functools.cached_property
    def _functions(self):
        return sorted({(it.value, it.size, it.name) for it in self.symbols if it.is_function()})

    def function_at(self, address):
        """The function symbol with the highest start at or below an address that holds it, if one of the last few
        does."""
        end = bisect.bisect_right(self._functions, (address, WIDEST, ""))
        near = reversed(self._functions[max(0, end - 8):end])
        return next((it for it in near if address < it[0] + it[1] or address == it[0]), None)

    def name_of(self, address):
        """An address as a function and an offset, or as a section and an offset."""
        found = self.function_at(address)
        if found:
            return f"{found[2]}+{address - found[0]:x}"
        section = self.section_at(address)
        return f"{section.name}+{address - section.address:x}" if section else f"{address:x}, which isn't loaded"


WIDEST = 1 << 65
