"""Files that are made to be slow: in each kind few bytes name much. A kind is a function from about how many bytes the
file and its profile have to both. Here are those of headers, names, symbols and relocations. ELF gABI."""
import random
import struct

BASE, TEXT = 0x10000, 64 + 56  # the address of the file's first byte, and where in the file its code begins
SHT_PROGBITS, SHT_SYMTAB, SHT_STRTAB, SHT_RELA, STT_FUNC = 1, 2, 3, 4, 0x12
R_RISCV_64, R_RISCV_RELAX = 2, 51
MOST_SECTIONS = 64_900  # a file may have 65,000 headers, and has a few beside
RETURN = bytes.fromhex("67800000")  # ret
NOP = bytes.fromhex("13000000")
SHORT_BRANCH = bytes.fromhex("09c0")  # c.beqz s0, to the next instruction
CHOICE = bytes.fromhex("630c0500") + RETURN  # beqz a0, past the ret; ret


def section(name, kind, flags, addr, offset, size, link=0, info=0, align=1, entsize=0):
    return struct.pack("<IIQQQQIIQQ", name, kind, flags, addr, offset, size, link, info, align, entsize)


def symbol(name, value, size):
    return struct.pack("<IBBHQQ", name, STT_FUNC, 0, 1, value, size)


def relocation(place, kind, name=0, addend=0):
    return struct.pack("<QQq", place, name << 32 | kind, addend)


class File:
    """A file with one segment of code, in which sections are put one behind another. The section 1 is the code, 2 the
    names of sections."""

    def __init__(self, code, section_names=b"\0", data=b""):
        self.body = bytearray(TEXT) + code + data
        self.headers = [bytes(64), section(0, SHT_PROGBITS, 6, BASE + TEXT, TEXT, len(code), align=4)]
        self.loaded = len(self.body)
        self.add(SHT_STRTAB, section_names)

    def put(self, contents):
        """Puts bytes into the file, and says where."""
        self.body += bytes(-len(self.body) % 8)
        self.body += contents
        return len(self.body) - len(contents)

    def add(self, kind, contents, name=0, link=0, info=0, entsize=0):
        """A section with these contents, and its index."""
        return self.add_header(kind, self.put(contents), len(contents), name, link, info, entsize)

    def add_header(self, kind, offset, size, name=0, link=0, info=0, entsize=0):
        self.headers.append(section(name, kind, 0, 0, offset, size, link, info, 1, entsize))
        return len(self.headers) - 1

    def add_symbols(self, entries, names):
        """A symbol table and its names: each entry is a place in the names, a value and a size."""
        table = bytes(24) + b"".join(symbol(*entry) for entry in entries)
        strings = len(self.headers) + 1
        self.add(SHT_SYMTAB, table, link=strings, info=1, entsize=24)
        self.add(SHT_STRTAB, names)

    def bytes(self):
        headers_at = self.put(b"".join(self.headers))
        fields = (2, 243, 1, BASE + TEXT, 64, headers_at, 1, 64, 56, 1, 64, len(self.headers), 2)
        struct.pack_into("<16sHHIQQQIHHHHHH", self.body, 0, b"\x7fELF\2\1\1", *fields)
        segment = (1, 5, 0, BASE, BASE, self.loaded, self.loaded, 0x1000)
        struct.pack_into("<IIQQQQQQ", self.body, 64, *segment)
        return bytes(self.body)


def long_name(size):
    """A text of letters in which no two ends are alike for long."""
    return bytes(random.Random(1).choices(b"abcdefghijklmnopqrstuvwxyz", k=size))


def function_symbols(size, text_of):
    """Functions of one instruction, whose names are ends of a text; half of the file is the text."""
    count = size // 2 // 32
    text = text_of(size // 2)
    starts = [1 + k * (len(text) // count) for k in range(count)]
    file = File(RETURN * count)
    file.add_symbols([(starts[k], BASE + TEXT + 4 * k, 4) for k in range(count)], b"\0" + text + b"\0")
    return file.bytes(), b""


def symbol_names(size):
    return function_symbols(size, long_name)


def like_names(size):
    """All letters are alike, so that names differ in their lengths alone."""
    return function_symbols(size, lambda length: b"a" * length)


def named_names(size):
    """The profile names some of them, as many as its own size allows; and half of the symbols have the longest name."""
    count = size // 2 // 32
    text = long_name(size // 2)
    starts = [1 + max(k - count // 2, 0) * (2 * len(text) // count) for k in range(count)]
    file = File(RETURN * count)
    file.add_symbols([(starts[k], BASE + TEXT, 4) for k in range(count)], b"\0" + text + b"\0")
    lines, left, length = [], size // 4, len(text) // 8
    while left > 2 * length and length > 0:
        name = text[len(text) - length :]
        lines.append(b"1 %s 0 1 %s 0 0 1\n" % (name, name))
        left -= 2 * length
        length //= 2
    lines += [b"1 %s 0 1 %s 0 0 1\n" % (text[-k:], text[-k:]) for k in range(1, int((size / 4) ** 0.5))]
    return file.bytes(), b"".join(lines)


def cold_names(size, most=1 << 32):
    """Each function has a part that didn't run, which gets a symbol of its own with the name of the function."""
    count = min(size // 2 // 80, most)
    text = long_name(size // 2)
    code = (CHOICE + 4 * NOP + RETURN) * count
    file = File(code)
    each = len(code) // count
    starts = [1 + k * (len(text) // count) for k in range(count)]
    file.add_symbols([(starts[k], BASE + TEXT + each * k, each) for k in range(count)], b"\0" + text + b"\0")
    lines = [b"1 @%x 0 1 @%x 4 0 9\n" % (2 * (BASE + TEXT + each * k,)) for k in range(count)]
    return file.bytes(), b"".join(lines)


def few_cold_names(size):
    """As many as are written: their names have 13 times the bytes of the file."""
    return cold_names(size, 26)


def section_names(size):
    """Sections without contents, whose names are ends of one text."""
    count = min(size // 2 // 64, MOST_SECTIONS)
    text = long_name(size // 2)
    file = File(RETURN, b"\0" + text + b"\0")
    file.add_symbols([(0, BASE + TEXT, 4)], b"\0")
    for k in range(count):
        file.add_header(SHT_PROGBITS, 0, 0, name=1 + k * (len(text) // count))
    return file.bytes(), b""


def headers_over(size, kind, table, entsize, step=0, infos=(1,), most=MOST_SECTIONS):
    """Many section headers over one table, half of the file each; each begins so many bytes after the one before."""
    file = File(RETURN)
    file.add_symbols([(0, BASE + TEXT, 4)], b"\0")
    names = len(file.headers) - 1
    link = names - 1 if kind == SHT_RELA else names  # the symbols, or their names
    offset = file.put(table)
    for k in range(min(size // 2 // 64, most)):
        info = infos[k % len(infos)]
        file.add_header(kind, offset + step * k, len(table) - step * k, link=link, info=info, entsize=entsize)
    return file.bytes(), b""


def relocation_headers(size):
    return headers_over(size, SHT_RELA, relocation(BASE + TEXT, R_RISCV_RELAX) * (size // 2 // 24), 24)


def relocation_ends(size):
    """Each header begins one relocation after the one before."""
    return headers_over(size, SHT_RELA, relocation(BASE + TEXT, R_RISCV_RELAX) * (size // 2 // 24), 24, step=24)


def relocation_targets(size):
    """As many sections over the code as tables over one list of relocations: each table is for a section of its own."""
    file = File(RETURN)
    file.add_symbols([(0, BASE + TEXT, 4)], b"\0")
    symbols = len(file.headers) - 2
    table = relocation(BASE + TEXT, R_RISCV_RELAX) * (size // 2 // 24)
    offset = file.put(table)
    for _ in range(min(size // 2 // 128, MOST_SECTIONS // 2)):
        file.headers.append(section(0, SHT_PROGBITS, 2, BASE + TEXT, TEXT, len(RETURN)))
        file.add_header(SHT_RELA, offset, len(table), link=symbols, info=len(file.headers) - 1, entsize=24)
    return file.bytes(), b""


def relocation_phases(size):
    """Tables at all 24 places in an entry over the same random bytes, each for two sections: so each byte begins two
    relocations."""
    file = File(RETURN)
    file.add_symbols([(0, BASE + TEXT, 4)], b"\0")
    symbols = len(file.headers) - 2
    offset = file.put(random.Random(1).randbytes(size))
    for _ in range(2):
        file.headers.append(section(0, SHT_PROGBITS, 2, BASE + TEXT, TEXT, len(RETURN)))
        target = len(file.headers) - 1
        for phase in range(24):
            length = (size - phase) // 24 * 24
            file.add_header(SHT_RELA, offset + phase, length, link=symbols, info=target, entsize=24)
    return file.bytes(), b""


def symbol_headers(size):
    return headers_over(size, SHT_SYMTAB, symbol(0, BASE + TEXT, 4) * (size // 2 // 24), 24)


def text_headers(size):
    return headers_over(size, SHT_PROGBITS, bytes(size // 2), 0)


def few_text_headers(size):
    """As many as are written: their contents have 15 times the bytes of the file."""
    return headers_over(size, SHT_PROGBITS, bytes(size // 2), 0, most=15)


def indirect_jumps(size):
    """Each indirect jump of a function may go to each of its instructions whose addresses stand in data."""
    count = size // 40
    code = b"\x67\0\5\0" * count  # jr a0
    addresses = [BASE + TEXT + 4 * k for k in range(count)]
    file = File(code, data=struct.pack(f"<{count}Q", *addresses))
    file.add_symbols([(0, BASE + TEXT, len(code))], b"\0")
    symbols, place = len(file.headers) - 2, TEXT + len(code)
    file.headers.append(section(0, SHT_PROGBITS, 2, BASE + place, place, 8 * count))
    table = b"".join(relocation(BASE + place + 8 * k, R_RISCV_64, 0, address) for k, address in enumerate(addresses))
    file.add(SHT_RELA, table, link=symbols, info=len(file.headers) - 1, entsize=24)
    return file.bytes(), b""


def debug_file(tables, code=NOP + RETURN, length=None):
    """One function, or functions of so many bytes, and tables that aren't loaded, by their names."""
    names = b"\0" + b"".join(name.encode() + b"\0" for name in tables)
    file = File(code, names)
    length = length or len(code)
    file.add_symbols([(0, BASE + TEXT + start, length) for start in range(0, len(code), length)], b"\0")
    for name, contents in tables.items():
        file.add(SHT_PROGBITS, contents, name=names.index(b"\0" + name.encode() + b"\0") + 1)
    return file.bytes(), b""


def halfwords(count):
    """So many instructions of two bytes."""
    return b"\x01\0" * (count - 1) + b"\x82\x80"  # c.nop, and c.jr ra


def uleb(number):
    """A number as ULEB128."""
    out = bytearray()
    while number >= 128:
        out.append(number % 128 + 128)
        number //= 128
    return bytes(out) + bytes([number])


def short_branches(size):
    """Functions of branches of two bytes, each to the next instruction: as many blocks as the code can have."""
    length = 1 << 14
    count = max(size // length, 1)
    names, entries = b"\0", []
    for k in range(count):
        entries.append((len(names), BASE + TEXT + length * k, length))
        names += b"f%d\0" % k
    file = File((SHORT_BRANCH * (length // 2 - 2) + RETURN) * count)
    file.add_symbols(entries, names)
    return file.bytes(), b""


# Headers, names, symbols and relocations.
FILES = {
    "symbol-names": symbol_names,
    "like-names": like_names,
    "named-names": named_names,
    "cold-names": cold_names,
    "few-cold-names": few_cold_names,
    "section-names": section_names,
    "relocation-headers": relocation_headers,
    "relocation-ends": relocation_ends,
    "relocation-targets": relocation_targets,
    "symbol-headers": symbol_headers,
    "text-headers": text_headers,
    "few-text-headers": few_text_headers,
    "short-branches": short_branches,
}
# Those in which a few bytes say so much that it has a bound.
BOUNDED_FILES = {"indirect-jumps": indirect_jumps, "relocation-phases": relocation_phases}
