"""Reads 64-bit ELF files with the lowest byte first: sections, segments, symbols and relocations (gABI, chapter 4)."""
import struct
import sys
import typing

SHT_NOBITS, SHT_SYMTAB, SHT_RELA, SHF_EXECINSTR, SHF_COMPRESSED = 8, 2, 4, 0x4, 0x800
PT_LOAD, STT_FUNC, R_RISCV_64 = 1, 2, 2


class Section(typing.NamedTuple):
    """A section header, with its name as text."""

    name: str
    kind: int
    flags: int
    address: int
    offset: int
    size: int
    link: int
    info: int


class ElfFile:
    """A file with its bytes, which may be changed, and its section headers."""

    def __init__(self, path):
        with open(path, "rb") as file:
            self.data = bytearray(file.read())
        if self.data[:6] != b"\x7fELF\x02\x01":
            sys.exit(f"{path} is no 64-bit ELF file")
        try:
            self.entry, self._segments_at, sections_at = struct.unpack_from("<QQQ", self.data, 24)
            self._segment_count, size, count, names = struct.unpack_from("<HHHH", self.data, 56)
            rows = [struct.unpack_from("<IIQQQQII", self.data, sections_at + i * size) for i in range(count)]
            texts = rows[names][4] if count else 0
            self.sections = [Section(self._text(texts + row[0]), *row[1:]) for row in rows]
        except (struct.error, IndexError, ValueError):
            sys.exit(f"{path} is cut off, or damaged")

    def save(self, path):
        """Writes the bytes over those of a file that has as many."""
        with open(path, "r+b") as file:
            file.write(self.data)

    def _text(self, at):
        return self.data[at:self.data.index(0, at)].decode(errors="replace")

    def section(self, name):
        """The section of a name with bytes that can be read as they are, if there is one."""
        for it in self.sections:
            if it.name == name and it.kind != SHT_NOBITS and not it.flags & SHF_COMPRESSED:
                return it
        return None

    def bytes_of(self, section):
        return bytes(self.data[section.offset:section.offset + section.size])

    def segments(self):
        """The offset, the address and the bytes in the file of each segment that is loaded."""
        places = (self._segments_at + i * 56 for i in range(self._segment_count))
        rows = [struct.unpack_from("<IIQQQQ", self.data, place) for place in places]
        return [(offset, address, size) for kind, _, offset, address, _, size in rows if kind == PT_LOAD]

    def functions(self):
        """The addresses and names of the symbols of functions that are defined here."""
        for table in self.sections:
            if table.kind == SHT_SYMTAB and table.link < len(self.sections):
                names = self.sections[table.link].offset
                for name, info, _, index, value, _ in struct.iter_unpack("<IBBHQQ", self.bytes_of(table)):
                    if info & 15 == STT_FUNC and index:
                        yield value, self._text(names + name)

    def addresses_in(self, name):
        """Offsets in a section of this name at which kept relocations put addresses of eight bytes."""
        index = next((i for i, it in enumerate(self.sections) if it.name == name), None)
        for table in self.sections:
            if table.kind == SHT_RELA and table.info == index and index:
                for address, info, _ in struct.iter_unpack("<QQq", self.bytes_of(table)):
                    if info & 0xFFFFFFFF == R_RISCV_64:
                        yield address - self.sections[index].address
