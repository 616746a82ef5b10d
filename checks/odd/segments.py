"""Oddities of the order of a file, of its headers, and faults."""
import struct

from odd.builder import (
    HEADER_SIZE, PAGE, PROGRAM_HEADER_SIZE, PF_R, PF_W, PT_GNU_PROPERTY, PT_GNU_RELRO, PT_GNU_STACK,
    PT_INTERP, PT_LOAD, PT_NOTE, PT_NULL, PT_PHDR, PT_RISCV_ATTRIBUTES, PT_TLS, SHF_ALLOC,
    SHF_COMPRESSED, SHF_WRITE, SHT_NOBITS, SHT_NOTE, SHT_PROGBITS, SHT_RISCV_ATTRIBUTES, STB_GLOBAL,
    Symbol, up)
from odd.shape import EMPTY, SLOTS, oddity, unwritable_oddity


# The order of the file.

@oddity
def section_headers_in_front(shape, rng):
    header_is_apart(shape, rng)
    shape.elf.section_headers.rank = -5


@oddity
def section_headers_amid(shape, rng):
    shape.elf.section_headers.rank = rng.choice([5, 15, 50])


@oddity
def contents_in_any_order(shape, rng):
    for part in shape.unloaded_parts():
        part.rank = rng.uniform(30, 90)


@oddity
def contents_in_front(shape, rng):
    header_is_apart(shape, rng)
    for part in shape.unloaded_parts():
        part.rank = rng.uniform(-9, 12)


@oddity
def header_is_apart(shape, rng):
    """The segment of code doesn't load the file's header."""
    elf = shape.elf
    if elf.header_apart:
        return
    elf.header_apart = True
    if elf.program_headers_in is not None and rng.random() < 0.7:
        elf.program_headers_in = None
        elf.program_headers.rank = rng.choice([-2, -2, 5, 60, 95])


@oddity
def program_headers_last(shape, rng):
    shape.elf.program_headers_in = None
    shape.elf.program_headers.rank = rng.choice([60, 101])


@oddity
def program_headers_in_data(shape, rng):
    rank = rng.choice([-3, 20]) if shape.elf.header_apart else 20
    part, _ = shape.load(bytes(3 * SLOTS * PROGRAM_HEADER_SIZE + 16), rank=rank)
    shape.elf.program_headers_in = (part, rng.choice([0, 8]))


@oddity
def program_headers_unaligned(shape, rng):
    shape.elf.program_headers_in = None
    shape.elf.program_headers.rank, shape.elf.program_headers.align = 60, 1
    shape.elf.program_headers.gap = rng.choice([1, 2, 4])


@unwritable_oddity
def program_headers_overlap_the_header(shape, rng):
    """The first program header begins in the last eight bytes of the file's header, which it has as its type. One of the
    fields there counts the sections, of which a rewritten file has more."""
    shape.elf.segments.insert(0, shape.elf.segment(PT_NULL, size=rng.choice([0, 8])))
    shape.elf.segments.pop()
    if not shape.elf.header_apart and shape.code_section.start >= EMPTY:
        shape.elf.program_headers_in = (shape.text, HEADER_SIZE - 8)


@oddity
def gaps(shape, rng):
    for part in shape.elf.parts:
        if rng.random() < 0.5 and part is not shape.text:
            part.gap = rng.choice([1, 7, 40, 0x1000])


@oddity
def gaps_are_filled(shape, rng):
    """What nothing names isn't zero."""
    gaps(shape, rng)

    def fill(file):
        taken = bytearray(len(file))
        elf = shape.elf
        for part in elf.parts + [elf.section_headers] + [elf.program_headers] * (elf.program_headers_in is None):
            taken[part.offset:part.offset + len(part.data)] = bytes([1]) * len(part.data)
        taken[:HEADER_SIZE] = bytes([1]) * HEADER_SIZE
        for k, is_taken in enumerate(taken):
            if not is_taken:
                file[k] = 0xA5
    shape.elf.patches.append(fill)


@oddity
def bytes_behind_all(shape, rng):
    shape.elf.trailing = bytes([0x5A]) * rng.choice([1, 30, 5000])


@oddity
def data_in_front_of_code(shape, rng):
    """A lower address and a lower offset than the code's."""
    header_is_apart(shape, rng)
    part = shape.elf.part(bytes(range(100)), rng.choice([-1, 20]))
    address = shape.code_segment.address - 4 * PAGE
    part.congruent = address
    shape.elf.segment(PT_LOAD, flags=PF_R, part=part, address=address)
    shape.elf.section(".lower", SHT_PROGBITS, flags=SHF_ALLOC, part=part, address=address, align=4)


@oddity
def code_behind_data(shape, rng):
    header_is_apart(shape, rng)
    shape.text.rank = 30


@oddity
def code_behind_everything(shape, rng):
    header_is_apart(shape, rng)
    shape.text.rank = 200


# Program headers.

def header_order(shape, rng, header):
    """Puts the last program header anywhere."""
    shape.elf.segments.remove(header)
    shape.elf.segments.insert(rng.randint(0, len(shape.elf.segments)), header)


@oddity
def many_notes(shape, rng):
    for k in range(rng.choice([2, 10])):
        note = struct.pack("<III4sI", 4, 4, 1, b"odd\0", k)
        if rng.random() < 0.3:
            part, address = shape.load(note)
            section = shape.elf.section(f".note.l{k}", SHT_NOTE, flags=SHF_ALLOC, part=part, address=address, align=4)
        else:
            section = shape.elf.section(f".note.{k}", SHT_NOTE, note, align=4)
        header_order(shape, rng, shape.elf.segment(PT_NOTE, part=section.part, address=section.address, align=4))


@oddity
def many_segments(shape, rng):
    count = rng.choice([4, 12, 40])
    for k in range(count):
        part, address = shape.load(bytes([k]) * rng.choice([1, 8, 0x321]), rng.choice([PF_R, PF_R | PF_W, 0]),
                                   rng.choice([0, 0, 0x50]), rng.uniform(11, 40))
        if rng.random() < 0.5:
            shape.elf.section(f".load{k}", SHT_PROGBITS, flags=SHF_ALLOC, part=part, address=address)


@oddity
def segments_in_any_order(shape, rng):
    rng.shuffle(shape.elf.segments)


@oddity
def thread_storage(shape, rng):
    part, address = shape.load(bytes(range(24)), PF_R | PF_W)
    shape.elf.section(".tdata", SHT_PROGBITS, flags=SHF_ALLOC | SHF_WRITE | 0x400, part=part, address=address, align=8)
    shape.elf.section(".tbss", SHT_NOBITS, flags=SHF_ALLOC | SHF_WRITE | 0x400, part=part, start=24, size=64,
                      address=address + 24, align=8)
    header_order(shape, rng, shape.elf.segment(PT_TLS, part=part, address=address, more=64, align=8))


@oddity
def attributes(shape, rng):
    section = shape.elf.section(".riscv.attributes", SHT_RISCV_ATTRIBUTES, b"A\x1a\0\0\0riscv\0\1\x10\0\0\0\5rv64imc\0")
    header_order(shape, rng, shape.elf.segment(PT_RISCV_ATTRIBUTES, part=section.part, align=1))


@oddity
def stack_and_fixed_data(shape, rng):
    shape.elf.segment(PT_GNU_STACK, flags=PF_R | PF_W, align=16)
    shape.elf.segment(PT_GNU_RELRO, part=shape.data, address=shape.data_address, align=1)
    if rng.random() < 0.5:
        shape.elf.segment(PT_GNU_PROPERTY, part=shape.data, size=8, address=shape.data_address, align=8)


@oddity
def table_names_itself(shape, rng):
    """A PT_PHDR header of the table."""
    header = shape.elf.segment(PT_PHDR, align=8)

    def name_it(file):
        table, = struct.unpack_from("<Q", file, 0x20)
        at = table + PROGRAM_HEADER_SIZE * shape.elf.segments.index(header)
        size = PROGRAM_HEADER_SIZE * len(shape.elf.segments)
        address = next((s.address + table - s.place() for s in shape.elf.segments
                        if s.kind == PT_LOAD and s.place() <= table and table + size <= s.place() + s.length()), 0)
        struct.pack_into("<QQQQQ", file, at + 8, table, address, address, size, size)
    shape.elf.patches.append(name_it)
    header_order(shape, rng, header) if rng.random() < 0.3 else shape.elf.segments.insert(0, shape.elf.segments.pop())


@oddity
def table_is_said_to_be_elsewhere(shape, rng):
    """A PT_PHDR header of other bytes, as a tool leaves it that moved the table."""
    part = rng.choice(shape.elf.parts)
    header = shape.elf.segment(PT_PHDR, part=part, start=rng.choice([0, 8]), size=rng.choice([0, 8, 56, 200, 0x2000]),
                               address=rng.choice([0, shape.code_segment.address + 64]), align=8)
    header_order(shape, rng, header)


@oddity
def headers_of_no_bytes(shape, rng):
    for _ in range(rng.randint(1, 4)):
        shape.elf.segment(rng.choice([PT_NULL, PT_NOTE, 0x65041580, 0x70000001, 5]), size=0,
                          offset=rng.choice([0, 0x77, 0x3000, 1 << 20, 1 << 40, (1 << 64) - 1]),
                          align=rng.choice([0, 1, 8]))


@oddity
def headers_of_any_bytes(shape, rng):
    for _ in range(rng.randint(1, 3)):
        part = rng.choice(shape.elf.parts)
        start = rng.choice([0, 1, max(0, len(part.data) - 3)])
        shape.elf.segment(rng.choice([PT_NULL, 0x65041580, 0x70000001]), part=part, start=start,
                          size=rng.choice([1, 3, 16, 100]), align=rng.choice([0, 1]))


@oddity
def header_past_the_file(shape, rng):
    shape.elf.segment(rng.choice([PT_NULL, PT_NOTE, 0x65041580]), offset=rng.choice([0x100, 1 << 20, (1 << 64) - 4]),
                      size=rng.choice([8, 1 << 20, (1 << 64) - 1]), align=1)


@oddity
def segments_of_size_0(shape, rng):
    for _ in range(rng.randint(1, 3)):
        address = rng.choice([0, shape.code_end(), shape.data_address, shape.next_address, 0x7FFF0000, (1 << 64) - 1])
        header_order(shape, rng, shape.elf.segment(
            PT_LOAD, flags=rng.choice([PF_R, PF_R | PF_W]), size=0, address=address,
            offset=rng.choice([0, 0x1000, 1 << 21, 1 << 63])))


@oddity
def segment_of_memory_alone(shape, rng):
    address, shape.next_address = shape.next_address, shape.next_address + 0x10000
    offset = rng.choice([0, address % PAGE, 0x5000, 1 << 40])
    header_order(shape, rng, shape.elf.segment(PT_LOAD, flags=PF_R | PF_W, size=0, more=rng.choice([1, 0x4321]),
                                               address=address, offset=offset))


@oddity
def large_alignment_of_segments(shape, rng):
    for segment in shape.elf.segments:
        if segment.kind == PT_LOAD:
            segment.align = 1 << rng.choice([12, 16, 21])


@unwritable_oddity
def huge_alignment_of_a_segment(shape, rng):
    rng.choice(shape.elf.segments).align = 1 << rng.choice([40, 63])


@oddity
def odd_alignment_of_segments(shape, rng):
    for segment in shape.elf.segments:
        if rng.random() < 0.6:
            segment.align = rng.choice([0, 1, 2, 8, 0x2000])


@oddity
def offsets_do_not_agree_with_addresses(shape, rng):
    for part in shape.elf.parts:
        if part.congruent is not None and rng.random() < 0.7:
            part.congruent = None
            part.align = rng.choice([1, 2, 8])


@oddity
def physical_addresses(shape, rng):
    for segment in shape.elf.segments:
        segment.physical = rng.choice([0, 0x80000000, segment.address])


@oddity
def executable_memory_is_longer(shape, rng):
    shape.code_segment.more = 16


# Room for new code.

@oddity
def next_segment_is_near(shape, rng):
    """A segment close behind the code, so that new code hardly fits or doesn't."""
    at = up(shape.code_end(), 16) + rng.choice([0, 0x40, 0x100, 0x200, 0x400, 0x1000])
    if shape.data_address - at >= 8:
        part = shape.elf.part(bytes(range(8)), 15)
        part.congruent = at
        shape.elf.segment(PT_LOAD, flags=PF_R, part=part, address=at)


@oddity
def no_more_addresses(shape, rng):
    """Memory up to the end of all addresses that may be loaded, or just below."""
    end = 0x7FFF0000 - rng.choice([0, 0, 0x1000, 0x100000])
    shape.elf.segment(PT_LOAD, flags=PF_R | PF_W, size=0, more=0x100, address=end - 0x100, offset=0)


# The file's header, and faults.

@oddity
def odd_header(shape, rng):
    elf = shape.elf
    elf.version, elf.header_size, elf.system = rng.choice([0, 1, 7]), rng.choice([0, 64, 100]), rng.choice([0, 3, 255])


@oddity
def entry_elsewhere(shape, rng):
    shape.elf.entry += rng.choice([2, 4, 8, -4, 1])


@oddity
def fault(shape, rng):
    elf = shape.elf
    which = rng.randrange(8)
    if which == 0:
        elf.flags = rng.choice([4, 5, 8])
    elif which == 1:
        elf.kind = rng.choice([1, 3])
    elif which == 2:
        elf.segment(PT_INTERP, part=shape.data, size=4)
    elif which == 3:
        shape.code_segment.flags |= PF_W
    elif which == 4:
        elf.section(".zdebug_info", SHT_PROGBITS, b"ZLIB")
    elif which == 5:
        elf.section(".packed", SHT_PROGBITS, b"ZLIB", flags=SHF_COMPRESSED)
    elif which == 6:
        elf.section(".old.text", SHT_PROGBITS, b"")
    else:
        shape.table.symbols.append(Symbol("choose", shape.code.start, 4, 10, STB_GLOBAL, 0, shape.code_section))
