"""Files with tables of frames or of lines in which few bytes say much. A kind is a function from about how many bytes
the file and its profile have to both. DWARF 5, sections 6.2 and 6.4."""
import struct

from hostile_files import BASE, NOP, RETURN, SHT_PROGBITS, TEXT, File, debug_file, halfwords, long_name, uleb


def frame_entry(fields):
    """An entry of `.debug_frame`: its length, and its fields filled to 4 bytes by DW_CFA_nop."""
    fields += bytes(-len(fields) % 4)
    return struct.pack("<I", len(fields)) + fields


def frame_rows(count):
    """A row for each instruction, which differs from the one before it in the offset of the frame's address:
    DW_CFA_advance_loc by one unit of code, and DW_CFA_def_cfa_offset."""
    return b"".join(bytes([0x41, 0x0E, k % 100]) for k in range(1, count))


def framed_functions(size, length, in_one):
    """Functions of so many instructions, with a row for each in `.debug_frame`: one entry for all, or one for each."""
    count = size // (24 + 4 * length + (3 * length if in_one else 24 + 3 * length))
    file = File(((length - 1) * NOP + RETURN) * count, b"\0.debug_frame\0")
    starts = [BASE + TEXT + 4 * length * k for k in range(count)]
    file.add_symbols([(0, start, 4 * length) for start in starts], b"\0")
    # version 4, no augmentation, addresses of 8 bytes; code in units of 4 bytes, data of -8; register 1
    head = struct.pack("<I", 0xFFFFFFFF) + bytes.fromhex("04000800047801")
    table = [frame_entry(head + bytes.fromhex("0c0200"))]  # DW_CFA_def_cfa 2, 0
    rows = length * count if in_one else length
    for start in starts[:1] if in_one else starts:
        table.append(frame_entry(struct.pack("<IQQ", 0, start, 4 * rows) + frame_rows(rows)))
    file.add(SHT_PROGBITS, b"".join(table), name=1)
    return file.bytes(), b""


def long_frame_entry(size):
    return framed_functions(size, 16, True)


def frame_entries(size):
    return framed_functions(size, 4, False)


def line_unit(program, files=b"\2\1\x08\2\x0b\2a.c\0\0a.c\0\0", directories=b"\1\1\x08\1/s\0"):
    """A unit of `.debug_line` of version 5, with one file and one directory where no others are given."""
    numbers = bytes.fromhex("010101fb0e0d000101010100000001000001") + directories + files
    unit = struct.pack("<HBBI", 5, 8, 0, len(numbers)) + numbers + program
    return struct.pack("<I", len(unit)) + unit


def line_sequence(start, operations):
    """DW_LNE_set_address, operations and DW_LNE_end_sequence."""
    return bytes.fromhex("000902") + struct.pack("<Q", start) + operations + bytes.fromhex("000101")


def lined_functions(count, length, program):
    """Functions of so many instructions, with a line table of one unit, whose program follows from their starts."""
    file = File(((length - 1) * NOP + RETURN) * count, b"\0.debug_line\0")
    starts = [BASE + TEXT + 4 * length * k for k in range(count)]
    file.add_symbols([(0, start, 4 * length) for start in starts], b"\0")
    file.add(SHT_PROGBITS, line_unit(program(starts)), name=1)
    return file.bytes(), b""


def line_rows(size):
    """Each instruction has a row, of a special opcode."""
    rows = b"".join(bytes([13 + 5 + 14 * 4 * (k > 0) + k % 3]) for k in range(16)) + b"\2\4"
    return lined_functions(size // 130, 16, lambda starts: b"".join(line_sequence(start, rows) for start in starts))


def line_sequences(size):
    """All sequences cover the same functions, the first of which answers."""
    count = min(size // 160, 20_000)
    sequence = line_sequence(BASE + TEXT, b"\x12\2" + uleb(4 * count))
    return lined_functions(count, 1, lambda _: sequence * ((size - 28 * count) // len(sequence)))


def line_operations(size):
    """Operations without rows between two rows, under which all functions lie."""
    count = size // 200
    operations = b"\x12" + b"\3\0" * ((size - 40 * count) // 2) + b"\2\4\x12\2" + uleb(4 * count - 4)
    return lined_functions(count, 1, lambda starts: line_sequence(starts[0], operations))


def line_address(size):
    """Many rows at one address, under which all functions lie."""
    count = min(size // 200, 100_000)
    operations = b"\x12\x13" * ((size - 40 * count) // 2) + b"\2" + uleb(4 * count)
    return lined_functions(count, 1, lambda starts: line_sequence(starts[0], operations))


def frames_of_one_range(size):
    """Entries of `.debug_frame` that are all for the same code: the first answers."""
    head = struct.pack("<I", 0xFFFFFFFF) + bytes.fromhex("04000800047801")
    table = frame_entry(head + bytes.fromhex("0c0200"))
    entry = frame_entry(struct.pack("<IQQ", 0, BASE + TEXT, 8) + b"\x41\x0e\x10")
    return debug_file({".debug_frame": table + entry * (size // len(entry))})


def folded(state, number):
    """What the toolchain's hasher of a fixed seed makes of a number of 64 bits."""
    product = (state ^ number) * (0x9E3779B97F4A7C15 ^ 16)
    return product % (1 << 64) ^ product >> 64


def frames_of_many_kinds(size):
    """Entries of `.debug_frame` for an instruction of two bytes each, with as many CIEs: the return register and the
    handler of each are its own, and in sets of 256 that hasher takes both to one number."""
    length = min(size // 58, 1 << 14)
    functions = halfwords(length) * (size // 58 // length)
    table = bytearray()
    for k in range(len(functions) // 2):
        handler = folded(0x243F6A8885A308D3, k % 256) ^ 1 + k // 256
        # version 1, `zP`, factors 1 and -8, the register; an absolute handler; DW_CFA_def_cfa 2, 0
        cie = struct.pack("<I9BQ3B", 0xFFFFFFFF, 1, 0x7A, 0x50, 0, 1, 0x78, k % 256, 9, 0, handler, 0x0C, 2, 0)
        place = len(table)
        table += frame_entry(cie)
        table += frame_entry(struct.pack("<IQQB", place, BASE + TEXT + 2 * k, 2, 0))
    return debug_file({".debug_frame": bytes(table)}, functions, 2 * length)


def nested_ranges(count):
    """Ranges of the first instructions, each inside the one behind it."""
    return [(BASE + TEXT + 4 * k, 4 * (count - 2 * k)) for k in reversed(range(count // 2))]


def frames_of_nested_ranges(size):
    """Entries of `.debug_frame` for ranges each inside the next one, so that each answers for two instructions."""
    count = size // 22
    head = struct.pack("<I", 0xFFFFFFFF) + bytes.fromhex("04000800047801")
    table = [frame_entry(head + bytes.fromhex("0c0200"))]
    table += [frame_entry(struct.pack("<IQQ", 0, *bounds) + b"\x41\x0e\x10") for bounds in nested_ranges(count)]
    return debug_file({".debug_frame": b"".join(table)}, NOP * (count - 1) + RETURN)


def frames_of_many_rules(size):
    """Entries of `.debug_frame` for an instruction each, all with the rules of one CIE, which are half of the file."""
    count = size // 2 // 32
    head = struct.pack("<I", 0xFFFFFFFF) + bytes.fromhex("040008000478010c0200")
    rules = b"".join(b"\x07" + uleb(128 + k) for k in range(size // 2 // 4))  # DW_CFA_undefined
    table = [frame_entry(head + rules)]
    for k in range(count):
        table.append(frame_entry(struct.pack("<IQQ", 0, BASE + TEXT + 4 * k, 4) + b"\x0e" + uleb(k % 100)))
    return debug_file({".debug_frame": b"".join(table)}, NOP * (count - 1) + RETURN)


def frame_of_many_instructions(size):
    """One entry of `.debug_frame` that sets the rules of 64 registers again and again, in two bytes each."""
    head = struct.pack("<I", 0xFFFFFFFF) + bytes.fromhex("040008000478010c0200")
    rules = b"".join(b"\x07" + uleb(k) for k in range(64)) * (size // 128)  # DW_CFA_undefined
    table = frame_entry(head) + frame_entry(struct.pack("<IQQ", 0, BASE + TEXT, 8) + rules)
    return debug_file({".debug_frame": table})


def frame_of_growing_rules(size):
    """One entry of `.debug_frame` with a rule more at each instruction."""
    count = size // 9
    head = struct.pack("<I", 0xFFFFFFFF) + bytes.fromhex("040008000478010c0200")
    rows = b"".join(b"\x41\x07" + uleb(128 + k) for k in range(count - 1))
    table = frame_entry(head) + frame_entry(struct.pack("<IQQ", 0, BASE + TEXT, 4 * count) + rows)
    return debug_file({".debug_frame": table}, NOP * (count - 1) + RETURN)


def frames_of_long_rules(size):
    """A row for each instruction, with the expression of one CIE, which is half of the file."""
    count = size // 2 // 7
    expression = b"\x96" * (size // 2)  # DW_OP_nop
    head = struct.pack("<I", 0xFFFFFFFF) + bytes.fromhex("040008000478010c0200")
    rule = b"\x10\x08" + uleb(len(expression)) + expression  # DW_CFA_expression, of register 8
    fde = struct.pack("<IQQ", 0, BASE + TEXT, 4 * count) + frame_rows(count)
    return debug_file({".debug_frame": frame_entry(head + rule) + frame_entry(fde)}, NOP * (count - 1) + RETURN)


def line_paths(size):
    """Many files, whose paths are ends of one text by DW_FORM_line_strp; it is half of the file."""
    count = size // 2 // 5
    entries = b"".join(struct.pack("<IB", k * (size // 2) // count, 0) for k in range(count))
    program = line_sequence(BASE + TEXT, b"\x12\2\x08")
    unit = line_unit(program, b"\2\1\x1f\2\x0b" + uleb(count) + entries)
    return debug_file({".debug_line": unit, ".debug_line_str": long_name(size // 2) + b"\0"})


def line_long_path(size):
    """Each instruction has a row, and all rows the same path, which is half of the file."""
    count = size // 2 // 6
    code = NOP * (count - 1) + RETURN
    rows = b"\x12" + b"\x4b" * (count - 1) + b"\2\4"  # special opcodes, by 4 bytes each
    files = b"\2\1\x08\2\x0b\2" + 2 * (long_name(size // 4) + b"\0\0")
    return debug_file({".debug_line": line_unit(line_sequence(BASE + TEXT, rows), files)}, code)


def line_address_paths(size):
    """Many rows at one address, of a file with a path that is half of the table."""
    files = b"\2\1\x08\2\x0b\2" + 2 * (long_name(size // 4) + b"\0\0")
    program = line_sequence(BASE + TEXT, b"\x12\x13" * (size // 4) + b"\2\x08")
    return debug_file({".debug_line": line_unit(program, files)})


def rows_in_root(rows, size, code=NOP + RETURN):
    """Rows of a file in the directory of index 1, which is `/`; that of index 0 is a text of so many bytes, and no part
    of the file's path."""
    directories = b"\1\1\x1f\2" + struct.pack("<II", 2, 0)  # DW_LNCT_path by DW_FORM_line_strp
    files = b"\2\1\x08\2\x0b\2" + 2 * b"a\0\1"
    table = line_unit(line_sequence(BASE + TEXT, rows), files, directories)
    return debug_file({".debug_line": table, ".debug_line_str": b"/\0" + b"d" * size + b"\0"}, code)


def line_directory(size):
    """Each instruction of two bytes has a row, and the directory of the compilation is half of the file."""
    count = size // 2 // 3
    rows = b"\x12" + b"\x2f" * (count - 1) + b"\2\2"  # special opcodes, by a line and two bytes each
    return rows_in_root(rows, size // 2, halfwords(count))


def line_directory_rows(size):
    """The same, with as many rows at one address."""
    count = min(size // 2, (1 << 22) - 8)
    return rows_in_root(b"\x12\x13" * (count // 2) + b"\2\x08", size - count)


def short_sequences(size):
    """Sequences of four bytes, each of one row at address 0."""
    return debug_file({".debug_line": line_unit(b"\x12\0\1\1" * (size // 4))})


def jump(distance):
    """`j` over so many bytes."""
    fields = ((20, 1, 31), (1, 10, 21), (11, 1, 20), (12, 8, 12))  # of the distance: from which bit how many, and where
    word = sum((distance >> low) % (1 << width) << place for low, width, place in fields)
    return struct.pack("<I", word | 0x6F)


def alternating_rows(size):
    """Blocks of two halves of a function follow each other in turn; many rows are in force in the first half."""
    count = min(size // 2 // 76, 50_000)
    half = 8 * count
    first = b"".join(NOP + jump(half - 4) for _ in range(count))
    second = b"".join(NOP + jump(4 - half) for _ in range(count - 1)) + NOP + RETURN
    name = b"1 @%x %x 1 @%x %x 0 9\n"
    lines = []
    for k in range(count):
        lines.append(name % (BASE + TEXT, 8 * k + 4, BASE + TEXT, half + 8 * k))
        lines.append(name % (BASE + TEXT, half + 8 * k + 4, BASE + TEXT, 8 * k + 8))
    rows = b"\x12\x13" * (size // 2 // 2) + b"\2" + uleb(half) + b"\x12\2" + uleb(half)
    contents, _ = debug_file({".debug_line": line_unit(line_sequence(BASE + TEXT, rows))}, first + second)
    return contents, b"".join(lines[:-1])


# Kinds whose time and memory grow as the file does.
TABLES = {
    "long-frame-entry": long_frame_entry,
    "frame-entries": frame_entries,
    "line-rows": line_rows,
    "line-sequences": line_sequences,
    "line-operations": line_operations,
    "line-address": line_address,
    "line-paths": line_paths,
    "line-directory": line_directory,
    "line-directory-rows": line_directory_rows,
    "short-sequences": short_sequences,
    "one-range": frames_of_one_range,
    "frame-kinds": frames_of_many_kinds,
    "nested-ranges": frames_of_nested_ranges,
}
# Those in which a few bytes say so much that it has a bound.
BOUNDED_TABLES = {
    "cie-rules": frames_of_many_rules,
    "entry-instructions": frame_of_many_instructions,
    "growing-rules": frame_of_growing_rules,
    "long-rules": frames_of_long_rules,
    "line-long-path": line_long_path,
    "line-address-paths": line_address_paths,
    "line-turns": alternating_rows,
}
