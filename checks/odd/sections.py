"""Oddities of sections, symbols and relocations."""
import struct

from odd import code as odd_code
from odd.builder import (
    SYMBOL_SIZE, PF_R, PF_W, PT_LOAD, SHF_ALLOC, SHF_EXECINSTR, SHF_INFO_LINK, SHF_WRITE, SHN_ABS, SHN_COMMON,
    SHN_UNDEF, SHN_XINDEX, SHT_DYNSYM, SHT_GROUP, SHT_HASH, SHT_INIT_ARRAY, SHT_NOBITS, SHT_NOTE,
    SHT_NULL, SHT_PROGBITS, SHT_REL, SHT_STRTAB, SHT_SYMTAB, SHT_SYMTAB_SHNDX, STB_GLOBAL, STB_LOCAL,
    STB_WEAK, STT_COMMON, STT_FILE, STT_FUNC, STT_NOTYPE, STT_OBJECT, STT_SECTION, STT_TLS, Symbol,
    SymbolTable, up)
from odd.shape import oddity, unwritable_oddity


# Sections.

@oddity
def sections_in_any_order(shape, rng):
    rng.shuffle(shape.elf.sections)


@oddity
def no_section_names(shape, rng):
    shape.elf.has_names = False


@oddity
def no_sections(shape, rng):
    shape.elf.section_count = 0


@oddity
def code_alone(shape, rng):
    """No symbols and no relocations."""
    elf = shape.elf
    gone = [shape.table.section, shape.table.names_section] + [r.section for r in elf.relocation_tables]
    elf.sections = [s for s in elf.sections if s not in gone]
    elf.symbol_tables, elf.relocation_tables = [], []
    for section in elf.sections:
        section.link, section.info = 0, 0


@oddity
def empty_sections(shape, rng):
    for k in range(rng.randint(1, 6)):
        kind = rng.choice([SHT_PROGBITS, SHT_PROGBITS, SHT_NOBITS, SHT_NULL, SHT_NOTE, SHT_STRTAB])
        flags = rng.choice([0, 0, SHF_ALLOC, SHF_ALLOC | SHF_WRITE])
        where = rng.choice([0, 1, 63, 0x79, 0x1001, 0x10003, 1 << 20, (1 << 40) + 1])
        section = shape.elf.section(f".empty{k}", kind, flags=flags, size=0, offset=where,
                                    address=rng.choice([0, shape.code_end(), shape.data_address, 0x7000000]),
                                    align=rng.choice([0, 1, 4, 64]))
        if rng.random() < 0.5:
            section.offset, section.part, section.start = None, shape.text, rng.choice([0, 64, len(shape.text.data)])


@oddity
def empty_section_at_the_end_of_numbers(shape, rng):
    shape.elf.section(".empty", rng.choice([SHT_PROGBITS, SHT_NOBITS]), flags=rng.choice([0, SHF_ALLOC]), size=0,
                      offset=(1 << 64) - rng.choice([1, 8, 0x1000]))


@oddity
def empty_executable_section(shape, rng):
    section = shape.elf.section(rng.choice([".init", ".text.unlikely", "init"]), SHT_PROGBITS, part=shape.text,
                                flags=SHF_ALLOC | SHF_EXECINSTR, size=0)
    section.start = rng.choice([shape.code_section.start, len(shape.text.data)])
    section.address = shape.code_segment.address + section.start


@oddity
def sections_without_bytes(shape, rng):
    address = shape.data_address + len(shape.data.data)
    size = rng.choice([1, 8, 0x5000])
    shape.data_segment.more = up(address, 8) - address + size
    shape.elf.section(".bss", SHT_NOBITS, flags=SHF_ALLOC | SHF_WRITE, size=size, part=shape.data,
                      start=len(shape.data.data), address=up(address, 8), align=8)
    if rng.random() < 0.5:
        shape.elf.section(".lost", SHT_NOBITS, size=rng.choice([0, 5, 1 << 33, (1 << 64) - 1]),
                          offset=rng.choice([0, 100, 0x4000, 1 << 40, (1 << 64) - 1]))


@oddity
def loaded_sections_that_nothing_loads(shape, rng):
    for k in range(rng.randint(1, 3)):
        shape.elf.section(f".bare{k}", rng.choice([SHT_PROGBITS, SHT_NOTE]), bytes(range(rng.choice([1, 8, 77]))),
                          flags=SHF_ALLOC, address=rng.choice([0, 0x7000000 + 0x1000 * k]),
                          align=rng.choice([1, 16, 256]))


@oddity
def two_sections_of_the_same_bytes(shape, rng):
    target = rng.choice(shape.elf.sections)
    shape.elf.section(".again", SHT_PROGBITS, flags=target.flags & ~(SHF_EXECINSTR | SHF_INFO_LINK), part=target.part,
                      start=target.start, size=target.size, address=target.address, align=1)


@oddity
def unloaded_section_in_a_segment(shape, rng):
    part = rng.choice([shape.text, shape.data])
    size = rng.choice([1, 9, 16])
    shape.elf.section(".inside", SHT_PROGBITS, part=part, start=rng.randint(0, len(part.data) - size), size=size)


@oddity
def section_over_several_parts(shape, rng):
    """An unloaded section that holds other contents, the tables of headers among them."""
    shape.elf.section(".wide", SHT_PROGBITS, part=shape.data, start=4, size=rng.choice([40, 200, 600]))


@oddity
def odd_types_of_sections(shape, rng):
    kinds = [SHT_HASH, SHT_NOTE, SHT_GROUP, SHT_SYMTAB_SHNDX, SHT_DYNSYM, SHT_NULL, 12, 0x60000001, 0x6FFFFFF5,
             0x80000000]
    for kind in rng.sample(kinds, rng.randint(1, 4)):
        shape.elf.section(f".kind{kind:x}", kind, bytes(rng.choice([0, 24, 48, 50])), align=rng.choice([1, 4, 8]),
                          link=rng.choice([0, shape.table.section, 40000]), info=rng.choice([0, 1, 9]),
                          flags=rng.choice([0, 0, 0x200, 0x8000_0000, 1 << 40]), entry_size=rng.choice([0, 4, 24]))


@oddity
def relocations_without_addends(shape, rng):
    entries = [(shape.data_address, odd_code.R_RISCV_64, None, 0)]
    shape.add_relocation_table(shape.data_section, entries, SHT_REL)


@oddity
def pointers_to_start_functions(shape, rng):
    addresses = [f.start for f in shape.code.functions[1:]]
    part, address = shape.load(b"".join(struct.pack("<Q", a) for a in addresses), PF_R | PF_W)
    section = shape.elf.section(".init_array", SHT_INIT_ARRAY, flags=SHF_ALLOC | SHF_WRITE, part=part, address=address,
                                align=8, entry_size=8)
    of = {s.name: s for s in shape.table.symbols}
    shape.add_relocation_table(section, [(address + 8 * k, odd_code.R_RISCV_64, of.get(f.name), 0)
                                         for k, f in enumerate(shape.code.functions[1:])])


@oddity
def large_alignment_of_a_section(shape, rng):
    section = rng.choice([s for s in shape.elf.sections if s.part in shape.unloaded_parts()])
    section.align = 1 << rng.choice([6, 12, 16, 20])
    section.part.align = section.align if rng.random() < 0.7 else 1


@unwritable_oddity
def huge_alignment_of_a_section(shape, rng):
    shape.elf.section(".aligned", SHT_PROGBITS, b"\1", align=1 << rng.choice([40, 63]))
    shape.elf.sections[-1].part.align = 1


@oddity
def odd_alignment_of_sections(shape, rng):
    for section in shape.elf.sections:
        if rng.random() < 0.4:
            section.align = rng.choice([0, 1, 2, 3, 5, 6, 12, 24])


@oddity
def names_end_in_names(shape, rng):
    shape.elf.section_names.share = shape.table.names.share = True
    shape.elf.section("text", SHT_PROGBITS, b"")
    shape.elf.section(".longer.text", SHT_PROGBITS, b"")
    shape.table.symbols.append(Symbol("my_f0", 5))


@oddity
def names_are_loaded(shape, rng):
    for section in dict.fromkeys([shape.elf.names_section, shape.table.names_section]):
        if section and rng.random() < 0.6:
            section.part, section.address = shape.load(bytes(0x1000), rng.choice([PF_R, PF_R | PF_W]))
            section.flags, section.size = SHF_ALLOC, 0x1000


@oddity
def symbols_are_loaded(shape, rng):
    section = shape.table.section
    section.part, section.address = shape.load(bytes(SYMBOL_SIZE * 200), PF_R)
    section.flags, section.size = SHF_ALLOC, SYMBOL_SIZE * 200


@oddity
def tables_in_the_segment_of_code(shape, rng):
    sections = [shape.elf.names_section, shape.table.names_section, shape.table.section]
    section = rng.choice([s for s in sections if s is not None])
    size = SYMBOL_SIZE * 100
    shape.text.data += bytes(-len(shape.text.data) % 8)
    section.part, section.start, section.size = shape.text, len(shape.text.data), size
    section.address = shape.code_segment.address + section.start
    section.flags = rng.choice([0, SHF_ALLOC, SHF_ALLOC | SHF_EXECINSTR])
    shape.text.data += bytes(size)


@oddity
def one_table_of_names(shape, rng):
    """Symbols and sections have their names in one table."""
    elf = shape.elf
    elf.sections = [s for s in elf.sections if s is not elf.names_section]
    elf.names_section, elf.section_names = shape.table.names_section, shape.table.names


@unwritable_oddity
def symbols_are_their_own_names(shape, rng):
    """The symbol table is its own table of names, and all names are empty. sh_link has to name a string table."""
    for symbol in shape.table.symbols:
        symbol.name = ""
    shape.table.section.link = shape.table.section


@unwritable_oddity
def symbols_are_the_names_of_sections(shape, rng):
    """e_shstrndx names the symbol table, and has to name a string table."""
    shape.elf.has_names = False
    shape.elf.sections = [s for s in shape.elf.sections if s is not shape.elf.names_section]
    shape.elf.names_section = None

    def name_them(file):
        struct.pack_into("<H", file, 0x3E, shape.elf.index(shape.table.section))
    shape.elf.patches.append(name_them)


@oddity
def symbols_have_no_names(shape, rng):
    for symbol in shape.table.symbols:
        symbol.name = ""
    shape.table.section.link = rng.choice([0, 60000])


@oddity
def many_sections(shape, rng):
    for k in range(rng.choice([50, 300])):
        shape.elf.section(f".many{k}", SHT_PROGBITS, bytes([k & 255]) * rng.choice([0, 1, 5]))


@oddity
def code_in_several_sections(shape, rng):
    """Each function has a section, as with -ffunction-sections and a script that keeps them."""
    elf = shape.elf
    elf.sections.remove(shape.code_section)
    pieces = {}
    for f, g in zip(shape.code.functions, shape.code.functions[1:] + [None]):
        end = g.start if g else shape.code.here()
        pieces[f.name] = elf.section(rng.choice([f".text.{f.name}", f.name, ".text"]), SHT_PROGBITS, part=shape.text,
                                     flags=SHF_ALLOC | SHF_EXECINSTR, start=f.start - shape.code_segment.address,
                                     size=end - f.start, address=f.start, align=2)
    first = next(iter(pieces.values()))
    for symbol in shape.table.symbols:
        if symbol.section is shape.code_section:
            symbol.section = pieces.get(symbol.name, first)
    for section in elf.sections:
        if section.info is shape.code_section:
            section.info = first
    shape.code_section = first


@oddity
def constants_in_the_segment_of_code(shape, rng):
    size = rng.choice([1, 8, 200])
    shape.elf.section(".rodata", SHT_PROGBITS, flags=SHF_ALLOC, part=shape.text, start=len(shape.text.data), size=size,
                      address=shape.code_end(), align=1)
    shape.text.data += bytes([7]) * size


@oddity
def debug_and_frame_sections(shape, rng):
    for name in rng.sample([".debug_str", ".debug_info", ".eh_frame", ".eh_frame_hdr", ".gdb_index", ".debug_macro",
                            ".debug_frame", ".stab"], rng.randint(1, 3)):
        shape.elf.section(name, SHT_PROGBITS, bytes(rng.choice([0, 0, 4, 40])), align=rng.choice([1, 8]))


@oddity
def empty_loaded_frames(shape, rng):
    shape.elf.section(".eh_frame", SHT_PROGBITS, flags=SHF_ALLOC, size=0, part=shape.data,
                      address=shape.data_address, align=8)


# Symbols.

@oddity
def second_symbol_table(shape, rng):
    names = rng.choice([shape.table.names_section, shape.elf.names_section])
    section = shape.elf.section(".symtab2", rng.choice([SHT_SYMTAB, SHT_DYNSYM]), b"", link=names, align=8,
                                entry_size=SYMBOL_SIZE)
    strings = shape.table.names if names is shape.table.names_section else shape.elf.section_names
    symbols = [Symbol("other", shape.code.start, 8, section=shape.code_section), Symbol("none", 0, 0, STT_NOTYPE)]
    shape.elf.symbol_tables.append(SymbolTable(section, strings, symbols, names))


@oddity
def last_symbol_is_not_whole(shape, rng):
    shape.table.trailing = bytes(range(1, rng.choice([2, 9, 24])))


@oddity
def functions_without_a_size(shape, rng):
    for symbol in shape.table.symbols:
        if symbol.kind == STT_FUNC and rng.random() < 0.7:
            symbol.size = 0


@oddity
def several_names_of_a_function(shape, rng):
    for f in rng.choices(shape.code.functions, k=4):
        shape.table.symbols.append(Symbol(rng.choice(["alias", "", f.name]), f.start, rng.choice([0, f.size]), STT_FUNC,
                                          rng.choice([STB_LOCAL, STB_GLOBAL, STB_WEAK]), rng.choice([0, 1, 2]),
                                          shape.code_section))


@oddity
def functions_lie_over_one_another(shape, rng):
    f = rng.choice(shape.code.functions)
    first, second = sorted(rng.sample(range(0, f.size + 8, 4), 2))
    shape.table.symbols.append(Symbol("inner", f.start + first, second - first, section=shape.code_section))


@oddity
def symbols_of_sections_and_files(shape, rng):
    for section in list(shape.elf.sections):
        if section.flags & SHF_ALLOC:
            shape.table.symbols.append(Symbol("", section.address, 0, STT_SECTION, STB_LOCAL, 0, section))
    shape.table.symbols.append(Symbol("main.c", 0, 0, STT_FILE, STB_LOCAL, 0, SHN_ABS))


@oddity
def odd_homes_of_symbols(shape, rng):
    homes = [SHN_UNDEF, SHN_ABS, SHN_COMMON, SHN_XINDEX, 0xFF00, 60000, shape.data_section]
    for k in range(rng.randint(1, 6)):
        shape.table.symbols.append(Symbol(
            f"odd{k}", rng.choice([0, 4, shape.data_address, (1 << 64) - 1]), rng.choice([0, 8, 1 << 40]),
            rng.choice([STT_NOTYPE, STT_OBJECT, STT_COMMON, STT_TLS, 7, 13]),
            rng.choice([STB_LOCAL, STB_GLOBAL, STB_WEAK, 10, 13]), rng.choice([0, 0x80, 255]), rng.choice(homes)))
    for k in range(rng.randint(0, 3)):
        value = shape.code.start + rng.choice([0, 4])
        shape.table.symbols.append(Symbol(f"code{k}", value, 0, STT_NOTYPE, section=rng.choice(homes)))


@oddity
def end_symbols(shape, rng):
    """As a linker makes them, at the ends of code and data."""
    shape.table.symbols += [Symbol("etext", shape.code.here(), 0, STT_NOTYPE, STB_GLOBAL, 0, shape.code_section),
                            Symbol("end", shape.data_address + len(shape.data.data), 0, STT_NOTYPE, STB_GLOBAL, 0,
                                   shape.data_section),
                            Symbol("__global_pointer$", shape.data_address + 0x800, 0, STT_NOTYPE)]


@oddity
def number_of_local_symbols_is_wrong(shape, rng):
    shape.table.first_global = rng.choice([1, 2, 5, 1000])


@oddity
def no_symbols(shape, rng):
    shape.table.symbols.clear()


# Relocations.

@oddity
def relocation_sections_for_nothing(shape, rng):
    shape.add_relocation_table(rng.choice([0, shape.table.section, 60000, shape.elf.names_section]),
                               [(5, rng.choice([2, 60, 200]), None, 0)] * rng.choice([0, 1, 3]))


@oddity
def empty_relocation_sections(shape, rng):
    for section in rng.sample(shape.elf.sections, 2):
        shape.add_relocation_table(section, [])


@oddity
def relocations_are_loaded(shape, rng):
    table = rng.choice(shape.relocations)
    table.section.part, table.section.address = shape.load(bytes(24 * len(table.entries)))
    table.section.flags |= SHF_ALLOC


@oddity
def relocations_of_one_section_twice(shape, rng):
    table = rng.choice(shape.relocations)
    shape.add_relocation_table(table.section.info, list(table.entries))


@oddity
def relocations_in_any_order(shape, rng):
    for table in shape.relocations:
        rng.shuffle(table.entries)


@oddity
def relocation_of_any_type(shape, rng):
    at = rng.choice([shape.code.start, shape.data_address, shape.data_address + 3, 7])
    rng.choice(shape.relocations).entries.append((at, rng.randint(0, 66), rng.choice(shape.table.symbols or [None]),
                                                  rng.choice([0, 4, -1])))


def add_pointer(shape, section, address):
    """A relocation of a field that holds, or should hold, the address of the first function."""
    of = {s.name: s for s in shape.table.symbols}
    shape.add_relocation_table(section, [(address, odd_code.R_RISCV_64, of.get("_start"), 0)])


@oddity
def pointer_over_two_segments(shape, rng):
    """Two segments, one right behind the other, each of which loads half of a pointer to code."""
    pointer = struct.pack("<Q", shape.code.start)
    part, address = shape.load(bytes(4) + pointer[:4], PF_R | PF_W)
    other = shape.elf.part(pointer[4:] + bytes(4), rng.choice([20, 25]))
    other.congruent = address + 8
    shape.elf.segment(PT_LOAD, flags=PF_R | PF_W, part=other, address=address + 8)
    section = shape.elf.section(".halves", SHT_PROGBITS, flags=SHF_ALLOC | SHF_WRITE, part=part, size=8, address=address)
    section.kind, section.size = (SHT_NOBITS, 16) if rng.random() < 0.5 else (SHT_PROGBITS, 8)
    add_pointer(shape, section, address + 4)


@oddity
def pointer_in_memory_alone(shape, rng):
    """Its bytes, or some of them, are zeros that aren't in the file."""
    part, address = shape.load(struct.pack("<Q", shape.code.start)[:rng.choice([0, 4, 7])], PF_R | PF_W, more=24)
    section = shape.elf.section(".bss", SHT_NOBITS, flags=SHF_ALLOC | SHF_WRITE, size=24, part=part, address=address)
    add_pointer(shape, section, address)


@oddity
def pointer_in_the_header(shape, rng):
    """The file's header is a loaded section, and its entry point a pointer with a relocation."""
    if not shape.elf.header_apart:
        address = shape.code_segment.address
        section = shape.elf.section(".header", SHT_PROGBITS, flags=SHF_ALLOC, part=shape.text, size=64, address=address)
        add_pointer(shape, section, address + 24)
