"""Malformed debug tables: 22 to 26."""
from planted.files import START, Planted, Program, number, uleb, unit

COMPILE, SUBPROGRAM, VARIABLE = 0x11, 0x2E, 0x34
NAME, LOW, HIGH, LOCATION, RANGES, ADDR_BASE, RNG_BASE, LOC_BASE = 0x03, 0x11, 0x12, 0x02, 0x55, 0x73, 0x74, 0x8C
ADDR, DATA1, DATA4, STRING, UDATA, INDIRECT, OFFSET = 0x01, 0x0B, 0x06, 0x08, 0x0F, 0x16, 0x17
STRX1, ADDRX, LOCLISTX, RNGLISTX = 0x25, 0x1B, 0x22, 0x23
ADDRESSES = unit(number(5, 2) + b"\x08\0" + number(START, 8))


def info(entries, version=5, kind=1, size=8, more=b""):
    """A unit of `.debug_info`."""
    return unit(number(version, 2) + bytes([kind, size]) + bytes(4) + more + entries)


def declaration(code, tag, *attributes, children=0):
    pairs = b"".join(uleb(name) + uleb(form) for name, form in attributes)
    return uleb(code) + uleb(tag) + bytes([children]) + pairs + b"\0\0"


def program(entries, abbrevs, **tables):
    made = Program().add(".debug_info", entries).add(".debug_abbrev", abbrevs)
    for name, data in tables.items():
        made.add(f".debug_{name}", data)
    return made.bytes()


PLAIN = declaration(1, COMPILE)


def versions():
    yield Planted("version-info", program(info(b"\1", version=4), PLAIN + b"\0"), "DwarfVersion at 0",
                  ("offset 0 of `.debug_info`", "version 4", "only 5"))
    old = unit(number(4, 2) + bytes(4) + b"\x08\1old.c\0")
    yield Planted("version-4", program(old, declaration(1, COMPILE, (NAME, STRING)) + b"\0"), "DwarfVersion at 0",
                  ("`old.c`", "version 4"))
    two = info(b"\1") + info(b"\1", version=3)
    place = len(info(b"\1"))
    yield Planted("version-second", program(two, PLAIN + b"\0"), f"DwarfVersion at {place:x}",
                  (f"offset {place:x}", "version 3"))
    yield Planted("version-64", program(b"\xff" * 4 + bytes(30), PLAIN + b"\0"), "DwarfVersion at 0", ("64-bit DWARF",))
    for name, wanted in (("line", 5), ("addr", 5), ("rnglists", 5), ("loclists", 5), ("aranges", 2)):
        yield Planted(f"version-{name}", Program().add(f".debug_{name}", unit(number(7, 2) + bytes(20))).bytes(),
                      "DwarfVersion at 0", (f"`.debug_{name}`", "version 7", f"only {wanted}"))


def forms():
    table = PLAIN + declaration(2, SUBPROGRAM, (NAME, STRING), (0x49, 0x1F20)) + b"\0"
    yield Planted("form-dwz", program(info(b"\1"), table), f"DwarfForm at {len(PLAIN):x}",
                  (f"code 2 (DW_TAG_subprogram) at offset {len(PLAIN):x}", "DW_AT_type",
                   "DW_FORM_GNU_ref_alt (0x1f20)"))
    table = declaration(1, COMPILE, (NAME, INDIRECT)) + b"\0"
    yield Planted("form-indirect", program(info(b"\1" + uleb(0x77) + bytes(4)), table), "DwarfForm at 0",
                  ("DW_AT_name of the entry at offset c", "DW_FORM_indirect", "0x77"))


def highs():
    for name, attributes, words in (("data1", ((LOW, ADDR), (HIGH, DATA1)), "DW_FORM_data1"),
                                    ("udata", ((LOW, ADDR), (HIGH, UDATA)), "DW_FORM_udata"),
                                    ("alone", ((HIGH, DATA4),), "without a DW_AT_low_pc"),
                                    ("ranges", ((LOW, ADDR), (HIGH, DATA4), (RANGES, OFFSET)),
                                     "together with DW_AT_ranges")):
        table = PLAIN + declaration(2, SUBPROGRAM, *attributes) + b"\0"
        yield Planted(f"high-{name}", program(info(b"\1"), table), f"HighPcForm at {len(PLAIN):x}",
                      ("DW_TAG_subprogram", "DW_AT_high_pc", words))


# Units that are malformed: the bytes of the unit, the attributes of the declaration of code 2, tables, and words.
UNITS = {
    "unit-empty": (bytes(4), (), {}, ("length is 0",)),
    "unit-cut": (number(90, 4) + number(5, 2) + bytes(9), (), {}, ("90 bytes", "only 11")),
    "unit-split": (info(b"\1", kind=5), (), {}, ("DW_UT_split_compile", "isn't supported")),
    "unit-size": (info(b"\1", size=4), (), {}, ("addresses have 4 bytes",)),
    "unit-header": (unit(number(5, 2) + b"\1"), (), {}, ("the address size",)),
    "unit-code": (info(b"\1\7"), (), {}, ("entry at offset d has the code 7",)),
    "unit-twice": (info(b"\1\2xy\0"), ((NAME, STRING), (NAME, STRING)), {}, ("DW_AT_name twice", "DW_TAG_variable")),
    "unit-value": (info(b"\1\2\1\2"), ((0x3B, DATA4),), {}, ("DW_AT_decl_line", "offset d", "DW_FORM_data4", "4 bytes",
                                                             "only 2")),
    "unit-text": (info(b"\1\2abc"), ((NAME, STRING),), {}, ("DW_AT_name", "no zero byte")),
    "unit-implicit": (info(b"\1\2\x21"), ((0x3B, INDIRECT),), {}, ("DW_FORM_implicit_const after DW_FORM_indirect",)),
    "unit-strx": (info(b"\1\2\0"), ((NAME, STRX1),), {}, ("DW_FORM_strx1", "no DW_AT_str_offsets_base")),
    "unit-addrx": (info(b"\1\2\0"), ((LOW, ADDRX),), {"addr": ADDRESSES}, ("DW_FORM_addrx", "no DW_AT_addr_base")),
    "unit-loclistx": (info(b"\1\2\0"), ((LOCATION, LOCLISTX),), {}, ("no DW_AT_loclists_base",)),
    "unit-location": (info(b"\1\2\0"), ((LOCATION, DATA1),), {}, ("DW_AT_location", "DW_FORM_data1", "its class")),
    "unit-ranges": (info(b"\1\2" + bytes(4)), ((RANGES, DATA4),), {}, ("DW_AT_ranges", "DW_FORM_data4")),
    "unit-offset": (info(b"\1\2" + number(0x55, 4)), ((RANGES, OFFSET),), {},
                    ("offset 55 of `.debug_rnglists`", "0 bytes")),
}


def units():
    for name, (data, attributes, tables, words) in UNITS.items():
        table = PLAIN + declaration(2, VARIABLE, *attributes) + b"\0"
        yield Planted(name, program(data, table, **tables), "DwarfFault at 0", ("offset 0 of `.debug_info`", *words))
    yield Planted("unit-abbrevs", program(info(b"\1"), PLAIN), "DwarfFault at 0", ("can't be read up to the zero",))
    first = info(b"\1")
    yield Planted("unit-second", program(first + info(b"\1\7"), PLAIN + b"\0"), f"DwarfFault at {len(first):x}",
                  (f"unit at offset {len(first):x}", "code 7"))
    table = declaration(1, COMPILE, (ADDR_BASE, OFFSET)) + declaration(2, VARIABLE, (LOW, ADDRX)) + b"\0"
    yield Planted("unit-index", program(info(b"\1" + number(8, 4) + b"\2\3"), table, addr=ADDRESSES), "DwarfFault at 0",
                  ("index 3", "`.debug_addr`", "16 bytes"))


def indexes():
    """Units whose own entry has a name and a base, and an entry that an index leads astray."""
    for name, attribute, form, base in (("rnglists", RANGES, RNGLISTX, RNG_BASE),
                                        ("loclists", LOCATION, LOCLISTX, LOC_BASE)):
        abbrevs = declaration(1, COMPILE, (NAME, STRING), (base, OFFSET))
        abbrevs += declaration(2, VARIABLE, (attribute, form)) + b"\0"
        tables = {name: table(number(4, 4) + b"\0", count=1)}
        entries = info(b"\1odd.c\0" + number(12, 4) + b"\2\x09")
        yield Planted(f"{name}-far", program(entries, abbrevs, **tables), "DwarfFault at 0",
                      ("`odd.c`", "index 9", f"`.debug_{name}`"))
        abbrevs = declaration(1, COMPILE, (NAME, STRING), (base, DATA4)) + b"\0"
        yield Planted(f"{name}-base", program(info(b"\1odd.c\0" + bytes(4)), abbrevs), "DwarfFault at 0",
                      ("`odd.c`", f"DW_AT_{name}_base of the entry at offset c", "DW_FORM_data4", "its class"))


def addresses():
    for name, contents, words in (("size", number(5, 2) + b"\4\0" + bytes(8), "addresses have 4 bytes"),
                                  ("rest", number(5, 2) + b"\x08\0" + bytes(9), "9 bytes")):
        yield Planted(f"addr-{name}", Program().add(".debug_addr", unit(contents)).bytes(), "DwarfFault at 0",
                      ("`.debug_addr`", words))


def table(lists, size=8, count=0):
    return unit(number(5, 2) + bytes([size, 0]) + number(count, 4) + lists)


def lists():
    for name, attribute in (("rnglists", RANGES), ("loclists", LOCATION)):
        abbrevs = PLAIN + declaration(2, VARIABLE, (attribute, OFFSET)) + b"\0"
        entries = info(b"\1\2" + number(12, 4))
        kinds = (("size", table(b"\0", size=4), "addresses have 4 bytes"),
                 ("count", table(b"\0", count=9), "9 offsets"),
                 ("kind", table(b"\x3e\0"), "offset c is of kind 0x3e"),
                 ("end", table(b"\4\1\2" + b"\0" * (name == "loclists")),
                  "the entry that ends the list"), ("index", table(b"\1\5\0"), "index 5 of an address"))
        prefix = "DW_RLE" if name == "rnglists" else "DW_LLE"
        for kind, data, words in kinds:
            of_list = () if kind in ("size", "count") else ("offset c", "DW_TAG_variable")
            of_list += (f"{prefix}_base_addressx",) if kind == "index" else ()
            yield Planted(f"{name}-{kind}", program(entries, abbrevs, **{name: data}), "DwarfFault at 0",
                          (f"`.debug_{name}`", words, *of_list))
    abbrevs = PLAIN + declaration(2, VARIABLE, (LOCATION, OFFSET)) + b"\0"
    yield Planted("loclists-cut", program(info(b"\1\2" + number(12, 4)), abbrevs, loclists=table(b"\4\0\4\x20\x50")),
                  "DwarfFault at 0",
                  ("the expression of DW_LLE_offset_pair at offset c", "32 bytes"))


def aranges():
    for name, contents, words in (("size", number(2, 2) + bytes(4) + b"\4\0" + bytes(20), "addresses have 4 bytes"),
                                  ("end",
                                   number(2, 2) + bytes(4) + b"\x08\0" + bytes(4) + number(START, 8) + number(4, 8),
                                   "pair of zeros")):
        yield Planted(f"aranges-{name}", Program().add(".debug_aranges", unit(contents)).bytes(), "DwarfFault at 0",
                      ("`.debug_aranges`", words))


def line(code, header=b"", most=1, span=14, base=10, directories=None, files=None, size=8):
    """A unit of `.debug_line` with two files in one directory."""
    lengths = bytes([0, 1, 1, 1, 1, 0, 0, 0, 1][:max(base - 1, 0)])
    directories = b"\1\1\x08\1/s\0" if directories is None else directories
    files = b"\2\1\x08\2\x0b\2a.c\0\0b.c\0\0" if files is None else files
    fields = bytes([1, most, 1, 0xFB, span, base]) + lengths + directories + files + header
    return unit(number(5, 2) + bytes([size, 0]) + number(len(fields), 4) + fields + code)


ADDRESS = b"\0\x09\2" + number(START, 8)
END = b"\0\1\1"
LINES = {
    "line-range": (line(b"", span=0), ("line_range is 0",)),
    "line-base": (line(b"", base=0), ("opcode_base is 0",)),
    "line-operations": (line(b"", most=4), ("maximum_operations_per_instruction is 4",)),
    "line-size": (line(b"", size=4), ("addresses have 4 bytes",)),
    "line-content": (line(b"", files=b"\2\1\x08" + uleb(0x2001) + b"\x08\1a.c\0x\0"),
                     ("the files", "0x2001 (DW_LNCT_LLVM_source)", "6.2.4.1")),
    "line-path": (line(b"", directories=b"\1\1\x0b\1\0"), ("DW_LNCT_path", "DW_FORM_data1")),
    "line-no-path": (line(b"", directories=b"\1\2\x0b\1\0"), ("entry 0 of the directories", "no DW_LNCT_path")),
    "line-strp": (line(b"", directories=b"\1\1\x1f\1" + number(0x33, 4)), ("offset 33 of `.debug_line_str`",)),
    "line-directory": (line(b"", files=b"\2\1\x08\2\x0b\1a.c\0\7"), ("file 0 is in the directory 7", "there are 1")),
    "line-header": (unit(number(5, 2) + b"\x08\0" + number(200, 4) + bytes(9)), ("header_length", "200 bytes")),
    "line-cut": (unit(number(5, 2) + b"\x08\0"), ("header_length", "4 bytes")),
    "line-file": (line(ADDRESS + b"\4\x09\1" + END), ("file 9", "there are 2")),
    "line-back": (line(ADDRESS + b"\1" + b"\0\x09\2" + number(START - 4, 8) + b"\1" + END),
                  (f"row at {START - 4:x}", f"{START:x}")),
    "line-no-end": (line(ADDRESS + b"\1"), ("no DW_LNE_end_sequence",)),
    "line-extended": (line(b"\0\x20\2"), ("extended instruction", "32 bytes")),
    "line-operand": (line(b"\2\x80"), ("DW_LNS_advance_pc", "doesn't end")),
    "line-address": (line(b"\0\4\2\1\2\3"), ("DW_LNE_set_address", "8 bytes")),
}


def lines():
    for name, (data, words) in LINES.items():
        yield Planted(name, Program().add(".debug_line", data).bytes(), "LineFault at 0",
                      ("offset 0 of `.debug_line`", *words))
    first = line(ADDRESS + b"\1\2\x0c" + END)
    yield Planted("line-second", Program().add(".debug_line", first + line(b"", span=0)).bytes(),
                  f"LineFault at {len(first):x}",
                  (f"offset {len(first):x}", "line_range is 0"))


def all_files():
    for kind in (versions, forms, highs, units, indexes, addresses, lists, aranges, lines):
        yield from kind()
