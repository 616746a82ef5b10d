"""What is wrong with a header, a segment or a section: the faults 1 to 8 (gABI; psABI, "File Header")."""
from elf_file import SHF_COMPRESSED, SHF_EXECINSTR, SHT_NOBITS, SHT_SYMTAB
from reasons.found import Reason, bytes_of, listed, named
from reasons.image import EHDR, PF_W, PHDR, PT_DYNAMIC, PT_INTERP, PT_LOAD, SHDR, SYM

HEADER, PROGRAM, SECTION = 'gABI, "ELF Header"', 'gABI, "Program Header"', 'gABI, "Section Header"'
MACHINES = {0: "EM_NONE", 3: "i386", 40: "Arm", 62: "x86-64", 183: "AArch64", 258: "LoongArch"}
TYPES = {0: "ET_NONE", 1: "ET_REL, an object file that isn't linked", 3: "ET_DYN, a shared object or a "
         "position-independent executable", 4: "ET_CORE, a core file"}
FLOATS = {2: "single-precision", 4: "double-precision", 6: "quad-precision"}
LIMIT = 0x7FFF0000
IDENTIFICATION = ((4, 2, "class", {1: "ELFCLASS32"}, "64 bits (ELFCLASS64)"),
                  (5, 1, "data encoding", {2: "the highest byte first"}, "the lowest byte first"),
                  (6, 1, "version", {}, "1"))


def not_elf(head, place, _):
    start = bytes(head.data[:4])
    if start != b"\x7fELF":
        kinds = {b"!<ar": "an archive of object files", b"#!": "a script", b"1 ": "perhaps a profile", b"": "empty"}
        kind = next((words for begin, words in kinds.items() if start.startswith(begin) and (begin or not start)), "")
        is_what = f": it is {kind}" if kind else ""
        return Reason(f"the file begins with {start.hex(' ') or 'nothing'}, not with 7f 45 4c 46{is_what}",
                      'gABI, "ELF Identification"')
    for at, wanted, what, names, words in IDENTIFICATION:
        value = head.number(at, 1)
        if len(head.data) <= at or value != wanted:
            return Reason(f"the {what} of the identification, at offset {at}, is {names.get(value, value)}, not "
                          f"{words}",
                          'gABI, "ELF Identification"')
    if head.machine != 0xF3:
        return Reason(f"e_machine, at offset 12, is {head.machine} ({MACHINES.get(head.machine, 'another machine')}), "
                      "not 243 (RISC-V)", 'psABI, "File Header"')
    return None


def bad_field(head, place):
    """A field of the header by which its tables can't be read."""
    object_file = "an object file of the compiler: link it" if head.type == 1 else ""
    if place == 0x36 and head.phentsize != PHDR:
        return Reason(f"e_phentsize, at offset 36, is {head.phentsize}, not {PHDR}, the size of a program header"
                      + (": the file has no program headers" if not head.phentsize else ""), HEADER, object_file)
    if place == 0x3A and head.shentsize != SHDR:
        return Reason(f"e_shentsize, at offset 3a, is {head.shentsize}, not {SHDR}, the size of a section header"
                      + (": the file has no section headers, which are needed" if not head.shnum else ""), HEADER)
    if place == 0x3E and head.shstrndx >= head.shnum:
        return Reason(f"e_shstrndx, at offset 3e, is {head.shstrndx}, but the file has {head.shnum} section headers",
                      HEADER)
    return None


def beyond(head, what, offset, size):
    """Words for a structure that passes the file's end."""
    return f"{what} has {bytes_of(size)} from offset {offset:x} on, but the file ends at {len(head.data):x}"


def cut_segment(head, place):
    if not head.is_whole(head.phoff, PHDR * head.phnum):
        if place == head.phoff:
            return Reason(beyond(head, f"the table of {head.phnum} program headers", place, PHDR * head.phnum), PROGRAM)
        return None
    for it in head.segments:
        if it.kind == PT_LOAD and it.offset == place and not head.is_whole(it.offset, it.filesz):
            return Reason(beyond(head, f"the loaded segment {it.index}", place, it.filesz), PROGRAM)
    return None


def cut_section(head, place):
    if not head.is_whole(head.shoff, SHDR * head.shnum):
        if place == head.shoff:
            return Reason(beyond(head, f"the table of {head.shnum} section headers", place, SHDR * head.shnum), SECTION)
        return None
    for index in range(head.shnum):
        _, kind, _, _, offset, size, _ = head.section_header(index)
        if kind != SHT_NOBITS and offset == place and not head.is_whole(offset, size):
            return Reason(beyond(head, f"the section {index} (`{head.section_name(index)}`)", place, size), SECTION)
    return unended_section(head, place) or unended_symbol(head, place)


def unended_section(head, place):
    if head.section_names is None or (place - head.shoff) % SHDR or not 0 <= (place - head.shoff) // SHDR < head.shnum:
        return None
    index = (place - head.shoff) // SHDR
    offset, size = head.section_names
    name = head.section_header(index)[0]
    if head.data.find(b"\0", offset + name, offset + size) >= 0:
        return None
    return Reason(f"the name of section {index} is at offset {name:x} of the section {head.shstrndx}, which has "
                  f"{bytes_of(size)}: there no zero byte ends it", 'gABI, "String Table"')


def unended_symbol(head, place):
    table = next((it for it in map(head.section_header, range(head.shnum)) if it[1] == SHT_SYMTAB), None)
    if table is None or (place - table[4]) % SYM or not 0 <= (place - table[4]) // SYM < table[5] // SYM:
        return None
    _, kind, _, _, offset, size, _ = head.section_header(table[6]) if table[6] < head.shnum else (0, 8, 0, 0, 0, 0, 0)
    size, name, index = 0 if kind == SHT_NOBITS else size, head.number(place, 4), (place - table[4]) // SYM
    if head.data.find(b"\0", offset + name, offset + size) >= 0:
        return None
    return Reason(f"the name of symbol {index} is at offset {name:x} of the section {table[6]}, which has "
                  f"{bytes_of(size)}: there no zero byte ends it", 'gABI, "String Table"')


def truncated(head, place, _):
    if len(head.data) < EHDR:
        return Reason(f"the file has {bytes_of(len(head.data))}, and the header of an ELF file alone has {EHDR}",
                      HEADER)
    return bad_field(head, place) or cut_segment(head, place) or cut_section(head, place)


def flags(head, place, _):
    asked = [f"the {FLOATS[head.flags & 6]} floating-point ABI"] if head.flags & 6 else []
    asked += [words for bit, words in ((8, "the ABI of RV64E"), (16, "the memory model TSO (RVTSO)"),
                                       (32, "the ABI RV64ILP32")) if head.flags & bit]
    asked += [f"bits of a vendor or reserved ones ({head.flags & ~0x3F:x})"] if head.flags & ~0x3F else []
    if not asked:
        return None
    return Reason(f"e_flags, at offset 30, is {head.flags:x}: it asks for {listed(asked)}, and only the flag 1 "
                  "(compressed instructions) is supported", 'psABI, "File Header"',
                  "compile and link all parts, libraries too, with `-march=rv64imc -mabi=lp64`")


def not_static(head, place, _):
    if place == 0x10 and head.type != 2:
        return Reason(f"e_type, at offset 10, is {named(TYPES, head.type)}, not ET_EXEC", HEADER)
    for it in head.segments:
        if it.place == place and it.kind in (PT_DYNAMIC, PT_INTERP):
            name = "PT_DYNAMIC" if it.kind == PT_DYNAMIC else "PT_INTERP"
            return Reason(f"the program header {it.index} is of type {name}: the file wants a dynamic linker", PROGRAM)
    return None


def code_end(head):
    """The end in the file of the executable segment at the lowest address."""
    code = [it for it in head.segments if it.is_code()]
    lowest = min(code, key=lambda it: (it.address, it.index))
    return lowest.offset + lowest.filesz


def odd_code(head, it):
    """What is wrong with an executable segment itself."""
    code = [other for other in head.segments if other.is_code()]
    rewritten = any(head.section_name(k).startswith(".old.") for k in range(head.shnum))
    if len(code) > 1 and code[1] == it and (len(code) > 2 or not rewritten):
        return f"is one of {len(code)} executable segments, and there may be one"
    if it.is_code() and it.address == 0:
        return "is executable and starts at address 0"
    if it.is_code() and it.filesz != it.memsz:
        return f"is executable and has {bytes_of(it.memsz)} of memory, of which only {it.filesz} come from the file"
    return None


def shared(head, it):
    """Which other segment shares an address, or a byte of the file, with a segment."""
    for other in head.segments:
        if other.index == it.index or PT_LOAD != it.kind or other.kind != PT_LOAD:
            continue
        if max(it.address, other.address) < min(it.address + it.memsz, other.address + other.memsz):
            return f"is loaded at addresses of the program header {other.index}, too"
        if max(it.offset, other.offset) < min(it.offset + it.filesz, other.offset + other.filesz):
            return f"loads bytes of the file that the program header {other.index} loads, too"
    return None


def bad_segment(head, it):
    found = odd_code(head, it) or shared(head, it)
    if not found and it.offset < code_end(head) < it.offset + it.filesz:
        found = f"has bytes on both sides of {code_end(head):x}, the end of the executable segment in the file"
    return found and Reason(f"the program header {it.index}, of {bytes_of(it.memsz)} from {it.address:x} on, {found}",
                            PROGRAM)


def stray_section(head, place):
    """A section of code that isn't in a segment of code."""
    index = (place - head.shoff) // SHDR
    if (place - head.shoff) % SHDR or not 0 <= index < head.shnum:
        return None
    _, _, flag, address, _, size, _ = head.section_header(index)
    inside = any(it.is_code() and it.address <= address and address + size <= it.address + it.memsz
                 for it in head.segments)
    if not flag & SHF_EXECINSTR or not size or inside:
        return None
    return Reason(f"the section {index} (`{head.section_name(index)}`) has code from {address:x} to "
                  f"{address + size:x}, but no executable segment holds all of that", 'gABI, "Section Attribute Flags"')


def exec_segments(head, place, _):
    if not any(it.is_code() for it in head.segments):
        return Reason("no loaded segment is executable, so the file has no code", PROGRAM) if place == 0x20 else None
    it = next((it for it in head.segments if it.place == place), None)
    found = it and bad_segment(head, it)
    if not found and place == head.phoff and place < code_end(head) < place + PHDR * head.phnum:
        found = Reason(f"the table of program headers, at offset {place:x}, crosses the end of the executable segment "
                       f"in the file, {code_end(head):x}", PROGRAM)
    return found or stray_section(head, place)


def writable_code(head, place, _):
    it = next((it for it in head.segments if it.place == place and it.is_code() and it.flags & PF_W), None)
    return it and Reason(f"the program header {it.index}, of {bytes_of(it.memsz)} from {it.address:x} on, lets code be "
                         f"written (PF_W and PF_X in p_flags, {it.flags})", 'gABI, "Segment Permissions"',
                         "a script that puts code and data together: give code a segment that is only read and "
                         "executed")


def high_address(head, place, _):
    it = next((it for it in head.segments if it.loads(place) and place >= LIMIT), None)
    return it and Reason(f"the program header {it.index} loads {it.address:x} to {it.address + it.memsz:x}, and "
                         f"addresses have to be below {LIMIT:x}", PROGRAM)


def compressed_section(head, place, _):
    if place >= head.shnum:
        return None
    name, flag = head.section_name(place), head.section_header(place)[2]
    how = "has the flag SHF_COMPRESSED" if flag & SHF_COMPRESSED else "has a name of GNU's old compressed sections"
    if not flag & SHF_COMPRESSED and not name.startswith(".zdebug"):
        return None
    return Reason(f"the section {place} (`{name}`) {how}", 'gABI, "Section Compression"',
                  "`-gz`: leave it out; or `riscv64-unknown-elf-objcopy --decompress-debug-sections FILE`")
