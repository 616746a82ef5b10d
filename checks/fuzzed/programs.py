"""Programs with tables of every kind, and their files with some fields changed."""
from __future__ import annotations
import random
import struct
from dataclasses import dataclass

from fuzzed import frames, lines, units
from fuzzed.fields import FORMATS, Mark, Raw, joined, mutate, odd_number, piece, written
from odd import code as odd_code
from odd.builder import PF_R, SHF_ALLOC, SHT_PROGBITS, SHT_RELA, SHT_SYMTAB
from odd.shape import Shape

PT_GNU_EH_FRAME = 0x6474E550
HEADER = (*[1] * 16, 2, 2, 4, 8, 8, 8, 4, 2, 2, 2, 2, 2, 2)
PROGRAM_HEADER, SECTION_HEADER = (4, 4, 8, 8, 8, 8, 8, 8), (4, 4, 8, 8, 8, 8, 4, 4, 8, 8)
SYMBOL, RELOCATION = (4, 1, 1, 2, 8, 8), (8, 4, 4, 8)
SLACK = 256                             # bytes behind a loaded table, into which it may grow
KINDS = ("headers", "symbols", "code", "data", "tables", "bytes")


@dataclass(frozen=True)
class Place:
    """A field of the file."""
    offset: int
    width: int


def places(offset: int, count: int, widths: tuple) -> list[Place]:
    found = []
    for _ in range(count):
        for width in widths:
            found.append(Place(offset, width))
            offset += width
    return found


class Program:
    """A program, its tables as fields, and where the fields of its file stand."""

    def __init__(self, rng: random.Random):
        self.shape = shape = Shape(rng)
        shape.elf.patches.clear()
        self.ranges = [(f.start, f.size) for f in shape.code.functions]
        self.tables, self.addresses, self.sections = {}, {}, {}
        self.texts = ["", "a.c", "/s", "main", "dir/long_name_of_a_file.h"]
        self.add_tables(rng)
        self.profile = odd_code.profile(shape.code, rng)
        self.file = shape.elf.build()
        self.find_places()

    def add_tables(self, rng: random.Random) -> None:
        if rng.random() < 0.6:
            self.add_frames(rng)
        if rng.random() < 0.5:
            address = self.shape.data_address
            self.tables[".debug_frame"] = frames.table(rng, "debug-frame", False, self.ranges, address)[0]
        if rng.random() < 0.7:
            self.tables[".debug_line"] = lines.table(rng, self.ranges, self.texts)[0]
        if rng.random() < 0.7:
            units.add(rng, self.tables, self.ranges, self.texts)
        for name in (".debug_str", ".debug_line_str"):
            pairs = [(Mark((name, text)), Raw(text.encode() + b"\0")) for text in self.texts]
            self.tables[name] = [field for pair in pairs for field in pair]
        for name, data in written(self.tables, self.addresses).items():
            if name not in self.sections:
                self.sections[name] = self.shape.elf.section(name, SHT_PROGBITS, data)

    def add_frames(self, rng: random.Random) -> None:
        elf, name, index = self.shape.elf, ".eh_frame", ".eh_frame_hdr"
        some = rng.sample(self.ranges, rng.randint(1, len(self.ranges)))
        self.tables[name], entries = frames.table(rng, "eh-frame", True, some, self.shape.data_address)
        size = len(written({name: self.tables[name]}, {})[name])
        part, address = self.shape.load(bytes(size + SLACK))
        self.addresses[name] = address
        self.sections[name] = elf.section(name, SHT_PROGBITS, flags=SHF_ALLOC, part=part, size=size, address=address,
                                          align=8)
        if rng.random() < 0.8:
            where, own = self.shape.load(bytes(12 + 8 * len(entries) + SLACK))
            self.addresses[index] = own
            self.tables[index] = frames.index(entries, own, address)
            size = 12 + 8 * len(entries)
            self.sections[index] = elf.section(index, SHT_PROGBITS, flags=SHF_ALLOC, part=where, size=size, address=own,
                                               align=4)
            elf.segment(PT_GNU_EH_FRAME, flags=PF_R, part=where, size=size, address=own, align=4)

    def find_places(self) -> None:
        """The fields of the file's headers and tables; and the bytes of loaded tables."""
        elf, file = self.shape.elf, bytearray(self.file)
        segments, self.headers_at = struct.unpack_from("<QQ", file, 32)
        self.places = {"headers": places(0, 1, HEADER) + places(segments, len(elf.segments), PROGRAM_HEADER)
                       + places(self.headers_at, len(elf.sections) + 1, SECTION_HEADER)}
        self.places["symbols"] = []
        for section in elf.sections:
            if section.kind in (SHT_SYMTAB, SHT_RELA):
                widths = SYMBOL if section.kind == SHT_SYMTAB else RELOCATION
                self.places["symbols"] += places(section.place(), section.length() // sum(widths), widths)
        text, data = self.shape.code_section, self.shape.data_section
        self.places["code"] = places(text.place(), text.length() // 2, (2,))
        self.places["data"] = places(data.place(), data.length() // 4, (4,))
        self.parts = {name: piece(fields, self.addresses.get(name)) for name, fields in self.tables.items()}
        tables = joined(self.parts)
        for name in self.addresses:
            place = self.sections[name].place()
            file[place:place + len(tables[name])] = tables[name]
        self.file = bytes(file)
        self.pool = [0x10, self.headers_at, len(file), self.shape.data_address, *[start for start, _ in self.ranges],
                     *[start + size for start, size in self.ranges], *[p.offset for p in self.places["headers"][::23]]]

    def changed(self, rng: random.Random, kinds: tuple) -> tuple[bytes, list[str]]:
        """The file with some changes, and what was changed."""
        file, names, tables = bytearray(self.file), [], None
        for _ in range(rng.choice([0, 1, 1, 1, 1, 2, 3, 6])):
            kind = rng.choice(kinds)
            if kind == "tables":
                tables = tables or dict(self.tables)
                name = rng.choice(list(tables))
                mutate(rng, tables, name, self.pool)
                names.append(name)
                continue
            names.append(kind)
            if kind == "bytes":
                change_bytes(rng, file)
            elif kind == "code":
                self.change_code(rng, file)
            else:
                self.change_field(rng, file, rng.choice(self.places[kind]))
        if tables:
            self.put_tables(file, tables)
        return bytes(file), names

    def change_field(self, rng: random.Random, file: bytearray, place: Place) -> None:
        if place.offset + place.width <= len(file):
            old = int.from_bytes(file[place.offset:place.offset + place.width], "little")
            struct.pack_into(FORMATS[place.width], file, place.offset, odd_number(rng, old, 8 * place.width, self.pool))

    def change_code(self, rng: random.Random, file: bytearray) -> None:
        at, other = (rng.choice(self.places["code"]).offset for _ in range(2))
        if at + 4 > len(file) or other + 4 > len(file):
            return
        if rng.random() < 0.4:
            file[at:at + 4] = file[other:other + 4]
        elif rng.random() < 0.5:
            file[at + rng.randrange(4)] ^= 1 << rng.randrange(8)
        else:
            file[at:at + 2] = rng.randbytes(2)

    def put_tables(self, file: bytearray, tables: dict) -> None:
        """Tables that aren't loaded go behind the file; the others stay where they are."""
        parts = {name: self.parts[name] if fields is self.tables[name] else piece(fields, self.addresses.get(name))
                 for name, fields in tables.items()}
        for name, data in joined(parts).items():
            header = self.headers_at + 64 * self.shape.elf.index(self.sections[name])
            place = len(file)
            if name in self.addresses:
                place, data = self.sections[name].place(), data[:self.sections[name].length() + SLACK]
                file[place:place + len(data)] = data
            else:
                file += data
            if header + 64 <= len(file):
                struct.pack_into("<QQ", file, header + 24, place, len(data))


def change_bytes(rng: random.Random, file: bytearray) -> None:
    """Bytes that are changed, moved, cut off or added anywhere."""
    way, at = rng.random(), rng.randint(0, len(file))
    if way < 0.4:
        for _ in range(rng.choice([1, 1, 2, 8])):
            if file:
                file[rng.randrange(len(file))] ^= 1 << rng.randrange(8)
    elif way < 0.6:
        del file[at:]
    elif way < 0.7:
        file += rng.randbytes(rng.choice([1, 7, 64, 4096]))
    elif way < 0.8:
        del file[at:at + rng.choice([1, 4, 8, 64])]
    elif way < 0.9:
        start, size = rng.randint(0, len(file)), rng.choice([4, 8, 56, 64])
        file[at:at + size] = file[start:start + size]
    else:
        file[at:at] = rng.randbytes(rng.choice([1, 4, 8, 64]))
