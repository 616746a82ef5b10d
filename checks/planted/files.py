"""Makes small programs: one segment with the headers, the code and what is loaded, and sections that aren't loaded."""
import struct
import typing

BASE, TEXT = 0x10000, 64 + 2 * 56  # the address of the first byte, and where in the file the code begins
START = BASE + TEXT
EXIT = struct.pack("<3I", 0x05D00893, 0x00000513, 0x00000073)  # li a7,93; li a0,0; ecall
NOP, RETURN = struct.pack("<I", 0x13), struct.pack("<I", 0x8067)
PROGBITS, SYMTAB, STRTAB, RELA = 1, 2, 3, 4
FUNCTION, LABEL = 0x12, 0x10


class Planted(typing.NamedTuple):
    """A file, the line by which it has to be refused, without its number, and words of the reason."""

    name: str
    data: bytes
    fault: str
    words: tuple


class Symbol(typing.NamedTuple):
    """A symbol: of a function of the code, if nothing else is said."""

    name: str
    value: int = START
    size: int = 0
    info: int = FUNCTION
    section: int = 1


class Program:
    """A program that may be changed before its bytes are taken."""

    def __init__(self, code=EXIT, symbols=None, flags=1, entry=START):
        self.code, self.flags, self.entry, self.type = code, flags, entry, 2
        self.symbols = [Symbol("main", size=len(code))] if symbols is None else symbols
        self.loaded, self.tables, self.relocations, self.segments = [], [], [], []

    def load(self, name, data, flags=2):
        """Bytes after the code; gives their address."""
        address = self.next_address()
        self.loaded.append((name, address, data, flags))
        return address

    def next_address(self):
        end = START + len(self.code) if not self.loaded else self.loaded[-1][1] + len(self.loaded[-1][2])
        return end + -end % 8

    def add(self, name, data, flags=0, kind=PROGBITS):
        """A section that isn't loaded."""
        self.tables.append((name, data, flags, kind))
        return self

    def relocate(self, place, kind, symbol=0, addend=0, section=1):
        """A relocation for the code, or for the section with this number."""
        self.relocations.append((section, struct.pack("<QQq", place, symbol << 32 | kind, addend)))
        return self

    def rows(self):
        """The sections: name, type, flags, address, bytes, link, info."""
        rows = [("", 0, 0, 0, b"", 0, 0), (".text", PROGBITS, 6, START, self.code, 0, 0)]
        rows += [(name, PROGBITS, flags, address, data, 0, 0) for name, address, data, flags in self.loaded]
        rows += [(name, kind, flags, 0, data, 0, 0) for name, data, flags, kind in self.tables]
        table = len(rows)
        texts, entries = bytearray(1), bytearray(24)
        for it in self.symbols:
            entries += struct.pack("<IBBHQQ", len(texts), it.info, 0, it.section, it.value, it.size)
            texts += it.name.encode() + b"\0"
        rows += [(".symtab", SYMTAB, 0, 0, entries, table + 1, 1), (".strtab", STRTAB, 0, 0, texts, 0, 0)]
        for section in sorted({it[0] for it in self.relocations}):
            data = b"".join(it[1] for it in self.relocations if it[0] == section)
            rows.append((f".rela{section}", RELA, 0, 0, data, table, section))
        return [*rows, (".shstrtab", STRTAB, 0, 0, b"", 0, 0)]

    def bytes(self):
        rows, body = self.rows(), bytearray(TEXT)
        names = b"\0" + b"".join(row[0].encode() + b"\0" for row in rows[1:])
        rows[-1] = (*rows[-1][:4], names, 0, 0)
        headers, end, text = [], TEXT, 1
        for name, kind, flags, address, data, link, info in rows:
            if address:
                body += bytes(address - BASE - len(body))
            else:
                end = end or len(body)
                body += bytes(-len(body) % 8)
            headers.append((text if name else 0, kind, flags, address, len(body) if kind else 0, len(data), link, info,
                            1, 0))
            text += len(name) + 1 if name else 0
            body += data
            end = len(body) if address else end
        body += bytes(-len(body) % 8)
        at = len(body)
        body += b"".join(struct.pack("<IIQQQQIIQQ", *it) for it in headers)
        segments = [(1, 5, 0, BASE, BASE, end, end, 0x1000), *self.segments]
        struct.pack_into("<16sHHIQQQIHHHHHH", body, 0, b"\x7fELF\2\1\1", self.type, 243, 1, self.entry, 64, at,
                         self.flags,
                         64, 56, len(segments), 64, len(headers), len(headers) - 1)
        for k, it in enumerate(segments):
            struct.pack_into("<IIQQQQQQ", body, 64 + 56 * k, *it)
        return bytes(body)

    def section_headers(self):
        """Where the headers of sections begin."""
        return int.from_bytes(self.bytes()[0x28:0x30], "little")


def patched(data, *changes):
    """Bytes with others at these offsets."""
    data = bytearray(data)
    for offset, new in changes:
        data[offset:offset + len(new)] = new
    return bytes(data)


def number(value, size):
    return value.to_bytes(size, "little")


def uleb(value):
    """A number as ULEB128."""
    out = bytearray()
    while value >= 128:
        out.append(value % 128 + 128)
        value //= 128
    return bytes(out) + bytes([value])


def unit(contents):
    """Bytes after their length of 32 bits."""
    return number(len(contents), 4) + contents


# Instructions.


def auipc(register, upper):
    return number((upper & 0xFFFFF) << 12 | register << 7 | 0x17, 4)


def lui(register, upper):
    return number((upper & 0xFFFFF) << 12 | register << 7 | 0x37, 4)


def addi(register, base, immediate):
    return number((immediate & 0xFFF) << 20 | base << 15 | register << 7 | 0x13, 4)


def jalr(register, base, immediate):
    return number((immediate & 0xFFF) << 20 | base << 15 | register << 7 | 0x67, 4)


def jal(register, distance):
    field = (distance >> 20 & 1) << 31 | (distance >> 1 & 0x3FF) << 21
    field |= (distance >> 11 & 1) << 20 | (distance >> 12 & 0xFF) << 12
    return number(field | register << 7 | 0x6F, 4)


def beq(distance):
    field = (distance >> 12 & 1) << 31 | (distance >> 5 & 0x3F) << 25
    field |= (distance >> 1 & 0xF) << 8 | (distance >> 11 & 1) << 7
    return number(field | 0x63, 4)
