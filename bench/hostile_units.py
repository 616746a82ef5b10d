"""Files with units, lists and tables of addresses in which few bytes say much. A kind is a function from about how many
bytes the file and its profile have to both. DWARF 5, sections 2.6, 2.17, 6.1.2 and 7."""
import struct

from hostile_files import BASE, NOP, RETURN, TEXT, debug_file, halfwords, long_name, uleb
from hostile_tables import frame_entry, frame_rows, line_sequence, line_unit, nested_ranges

MOST_ATTRIBUTES = 256  # of a declaration
ADDRESSES = struct.pack("<IHBBQ", 12, 5, 8, 0, BASE + TEXT)  # `.debug_addr` with one address


def unit(entries, declarations=0):
    """A compile unit of version 5, whose declarations stand there."""
    contents = struct.pack("<HBBI", 5, 1, 8, declarations) + entries
    return struct.pack("<I", len(contents)) + contents


def declaration(code, tag, children, *attributes):
    """The declaration of a code, with pairs of an attribute and a form."""
    fields = uleb(code) + uleb(tag) + bytes([children]) + b"".join(uleb(name) + uleb(form) for name, form in attributes)
    return fields + b"\0\0"


def bounds(start, length):
    """DW_AT_low_pc and DW_AT_high_pc of code from a place on."""
    return struct.pack("<QI", BASE + TEXT + start, length)


def units_over_declarations(size):
    """Units of one entry, all over the same declarations, of which each uses the last; these are half of the file."""
    least = 25
    count = max(1, size // 2 // 8)
    fields = ((0x11, 0x01), (0x12, 0x06))  # DW_AT_low_pc by DW_FORM_addr, DW_AT_high_pc by DW_FORM_data4
    declarations = b"".join(declaration(code, 0x11, 0) for code in range(1, count))
    declarations += declaration(count, 0x11, 0, *fields)
    entry = uleb(count) + struct.pack("<QI", BASE + TEXT, 8)
    units = unit(entry) * (size // 2 // (least + len(uleb(count)) - 1))
    return debug_file({".debug_info": units, ".debug_abbrev": declarations + b"\0"})


def units_at_declarations(size):
    """Units that each begin their declarations at another one of a long table, and so have all that follow."""
    count = size // 2 // 25
    fields = ((0x11, 0x01), (0x12, 0x06))
    table = b"".join(declaration(1, 0x11, 0, *fields) for _ in range(size // 2 // 9))
    step = 9 * (len(table) // 9 // count)
    units = b"".join(unit(b"\1" + struct.pack("<QI", BASE + TEXT, 8), step * k) for k in range(count))
    return debug_file({".debug_info": units, ".debug_abbrev": table + b"\0"})


def units_inside_declarations(size):
    """Units without entries, whose declarations each begin at another place inside a long one of one table."""
    long = b"\1" * (3 + 2 * MOST_ATTRIBUTES) + b"\0\0"  # its attributes: DW_AT_sibling by DW_FORM_addr
    count = size // 2 // len(long)
    places = (len(long) * (k % count) + 2 + 2 * (k // count) for k in range(size // 2 // 13))
    units = b"".join(unit(b"\0", place) for place in places)
    return debug_file({".debug_info": units, ".debug_abbrev": long * count + b"\0"})


def nested_entries(size):
    """Each entry is the child of the one before it."""
    declarations = declaration(1, 0x0B, 1) + b"\0"  # DW_TAG_lexical_block
    return debug_file({".debug_info": unit(b"\1" * (size // 2) + bytes(size // 2)), ".debug_abbrev": declarations})


def flags(count):
    """So many attributes that take no bytes in an entry, by DW_FORM_flag_present; their name may repeat."""
    return [(0x3F10, 0x19)] * count


def entry_attributes(size):
    """Entries of one byte with as many attributes as a declaration may have; none takes bytes in an entry."""
    declarations = declaration(1, 0x34, 0, *flags(MOST_ATTRIBUTES)) + declaration(2, 0x11, 1) + b"\0"
    return debug_file({".debug_info": unit(b"\2" + b"\1" * size + b"\0"), ".debug_abbrev": declarations})


def flagged_units(size):
    """Units of one entry, all of one declaration, whose attributes take no bytes; it is half of the file."""
    declarations = declaration(1, 0x11, 0, *flags(size // 2 // 3)) + b"\0"
    return debug_file({".debug_info": unit(b"\1") * (size // 2 // 13), ".debug_abbrev": declarations})


def flagged_bad_units(size):
    """The same, but a last attribute lacks its bytes: DW_AT_low_pc by DW_FORM_addr."""
    declarations = declaration(1, 0x11, 0, *flags(size // 2 // 3), (0x11, 0x01)) + b"\0"
    return debug_file({".debug_info": unit(b"\1") * (size // 2 // 13), ".debug_abbrev": declarations})


def few_flagged_units(size):
    """Units of two entries with as many attributes as are listed: of the first as a declaration may have, and of the
    second as the entries of a unit may, by the memory that they take (56 bytes for each of theirs and 2^14 beside; an
    entry takes 56 and an attribute 48)."""
    declarations = declaration(1, 0x11, 1, *flags(MOST_ATTRIBUTES)) + declaration(2, 0x34, 0, *flags(85)) + b"\0"
    return debug_file({".debug_info": unit(b"\1\2") * (size // 14), ".debug_abbrev": declarations})


def few_flagged_bad_units(size):
    """The same, with a third entry, of whose attributes the last lacks its bytes: it is read before it is counted."""
    declarations = declaration(1, 0x11, 1, *flags(MOST_ATTRIBUTES)) + declaration(2, 0x34, 0, *flags(86))
    declarations += declaration(3, 0x34, 0, *flags(MOST_ATTRIBUTES - 1), (0x11, 0x01)) + b"\0"
    return debug_file({".debug_info": unit(b"\1\2\3") * (size // 15), ".debug_abbrev": declarations})


def list_table(lists, offsets=()):
    """A table of lists, with offsets of some that indexes name, each counted from where these begin."""
    contents = struct.pack(f"<HBBI{len(offsets)}I", 5, 8, 0, len(offsets), *offsets) + lists
    return struct.pack("<I", len(contents)) + contents


def lists_that_overlap(size):
    """As many entries as ranges stand one behind another: the list of each begins one range after that of the entry
    before it, and all end together."""
    count = size // 8
    declarations = declaration(1, 0x11, 1, (0x11, 0x01)) + declaration(2, 0x2E, 0, (0x55, 0x17)) + b"\0"
    entries = b"".join(struct.pack("<BI", 2, 12 + 3 * k) for k in range(count))
    info = unit(b"\1" + struct.pack("<Q", BASE + TEXT) + entries + b"\0")
    ranges = list_table(b"\4\0\4" * count + b"\0")  # DW_RLE_offset_pair 0, 4
    return debug_file({".debug_info": info, ".debug_abbrev": declarations, ".debug_rnglists": ranges})


def one_list(size):
    """Entries that all name one list of locations; it is half of the file."""
    declarations = declaration(1, 0x11, 1, (0x11, 0x01), (0x12, 0x06)) + declaration(2, 0x34, 0, (0x02, 0x17)) + b"\0"
    entries = struct.pack("<BI", 2, 12) * (size // 2 // 5)
    info = unit(b"\1" + struct.pack("<QI", BASE + TEXT, 8) + entries + b"\0")
    places = b"\4\0\0\1\x50" * (size // 2 // 5) + b"\4\0\4\1\x50\0"  # DW_LLE_offset_pair, and DW_OP_reg0
    return debug_file({".debug_info": info, ".debug_abbrev": declarations, ".debug_loclists": list_table(places)})


def small_ranges(size):
    """Entries of six bytes, each with a range: the index of an address, and a length."""
    fields = ((0x11, 0x01), (0x12, 0x06), (0x73, 0x17))  # DW_AT_addr_base by DW_FORM_sec_offset
    info = unit(b"\1" + bounds(0, 8) + struct.pack("<I", 8) + b"\2\0\4\0\0\0" * (size // 6) + b"\0")
    scope = declaration(2, 0x0B, 0, (0x11, 0x29), (0x12, 0x06))  # by DW_FORM_addrx1 and DW_FORM_data4
    declarations = declaration(1, 0x11, 1, *fields) + scope + b"\0"
    return debug_file({".debug_info": info, ".debug_abbrev": declarations, ".debug_addr": ADDRESSES})


def entries_of_unit(fields, entries, **tables):
    """A unit over eight bytes of code, of entries that have one attribute, with tables of lists by their names."""
    declarations = declaration(1, 0x11, 1, (0x11, 0x01), (0x12, 0x06)) + declaration(2, 0x34, 0, fields) + b"\0"
    info = unit(b"\1" + struct.pack("<QI", BASE + TEXT, 8) + entries + b"\0")
    lists = {f".debug_{name}": list_table(contents) for name, contents in tables.items()}
    return debug_file({".debug_info": info, ".debug_abbrev": declarations, **lists})


def small_locations(size):
    """Variables of two bytes, each with an expression that has none."""
    return entries_of_unit((0x02, 0x18), b"\2\0" * (size // 2))  # DW_AT_location by DW_FORM_exprloc


def one_range_list(size):
    """Entries of five bytes that all name one list of ranges."""
    return entries_of_unit((0x55, 0x17), struct.pack("<BI", 2, 12) * (size // 5), rnglists=b"\4\0\4\0")


def default_locations(size):
    """A list of items of two bytes: DW_LLE_default_location with an expression that has none."""
    return entries_of_unit((0x02, 0x17), struct.pack("<BI", 2, 12), loclists=b"\5\0" * (size // 2) + b"\0")


def tables_of_nested_ranges(size):
    """Two units, whose ranges in `.debug_aranges` are each inside the next one."""
    count = size // 12
    table = b"".join(struct.pack("<QQ", *bounds) for bounds in nested_ranges(count)) + bytes(16)
    units = [unit(b"\1")] * 2
    tables = []
    for k, part in enumerate((table[: len(table) // 32 * 16] + bytes(16), table[len(table) // 32 * 16 :])):
        contents = struct.pack("<HIBBI", 2, k * len(units[0]), 8, 0, 0) + part
        tables.append(struct.pack("<I", len(contents)) + contents)
    declarations = declaration(1, 0x11, 0) + b"\0"
    names = {".debug_info": b"".join(units), ".debug_abbrev": declarations, ".debug_aranges": b"".join(tables)}
    return debug_file(names, NOP * (count - 1) + RETURN)


def location(start, end, expression):
    """DW_LLE_offset_pair, with an expression."""
    return b"\4" + uleb(start) + uleb(end) + uleb(len(expression)) + expression


def turns(count):
    """A location list in which another register holds the value at each instruction of two bytes."""
    return b"".join(location(2 * k, 2 * k + 2, bytes([0x50 + k % 2])) for k in range(count)) + b"\0"


def variables(offsets):
    """Variables with location lists, each at an offset behind the header of the table."""
    return b"".join(struct.pack("<BI", 2, 12 + offset) for offset in offsets)


def listed(entries, places, code, texts=b""):
    """A unit of variables (declaration 2) with location lists, scopes (3) and inlined calls (4), over so much code."""
    ranges = ((0x11, 0x01), (0x12, 0x06))  # DW_AT_low_pc by DW_FORM_addr, DW_AT_high_pc by DW_FORM_data4
    declarations = declaration(1, 0x11, 1, *ranges)
    declarations += declaration(2, 0x34, 0, (0x02, 0x17))  # DW_AT_location by DW_FORM_sec_offset
    declarations += declaration(3, 0x0B, 0, *ranges)
    declarations += declaration(4, 0x1D, 1, (0x03, 0x0E), *ranges)  # DW_AT_name by DW_FORM_strp
    declarations += declaration(5, 0x2E, 1, *ranges) + b"\0"
    info = unit(b"\1" + bounds(0, len(code)) + entries + b"\0")
    tables = {".debug_info": info, ".debug_abbrev": declarations}
    if places:
        tables[".debug_loclists"] = list_table(places)
    if texts:
        tables[".debug_str"] = texts
    return debug_file(tables, code)


def locations_that_overlap(size):
    """Variables whose location lists begin one location after that of the one before, and all end together."""
    count = size // 10
    return listed(variables(5 * k for k in range(count)), location(0, 4, b"\x50") * count + b"\0", halfwords(2))


def lists_at_all_stretches(size):
    """As many variables with a location for all code as instructions, at each of which that of another one changes."""
    count = size // 24
    constant = location(0, 2 * count, b"\x50") + b"\0"
    entries = variables(len(constant) * k for k in range(count + 1))
    return listed(entries, constant * count + turns(count), halfwords(count))


def expressions_in_force(size):
    """A variable with many locations for all code, and another one whose location changes at each instruction."""
    count = size // 17
    constant = location(0, 2 * count, b"\x50") * count + b"\0"
    return listed(variables((0, len(constant))), constant + turns(count), halfwords(count))


def changing_expressions(size):
    """A variable with many locations, each from an instruction on to the end: the further, the more are in force."""
    count = size // 11
    places = b"".join(location(2 * k, 2 * count, b"\x50") for k in range(count)) + b"\0"
    return listed(variables((0,)), places, halfwords(count))


def scopes_in_scopes(size):
    """Scopes whose ranges are each inside that of the one before."""
    count = size // 17
    code = halfwords(2 * count)
    return listed(b"".join(b"\3" + bounds(2 * k, len(code) - 4 * k) for k in range(count)), b"", code)


def one_expression(size):
    """Variables that all name one list, with an expression that is half of the file."""
    places = location(0, 4, b"\x96" * (size // 2)) + b"\0"  # DW_OP_nop
    return listed(variables([0] * (size // 2 // 5)), places, halfwords(2))


def inlined_names(size):
    """Inlined calls each inside the one before, whose names are ends of one text; it is half of the file."""
    count = size // 2 // 18
    calls = b"".join(b"\4" + struct.pack("<I", k * (size // 2) // count) + bounds(0, 4) for k in range(count))
    return listed(b"\5" + bounds(0, 4) + calls + bytes(count + 1), b"", halfwords(2), long_name(size // 2) + b"\0")


def endless_names(size):
    """Inlined calls each inside the one before, whose names have no end: no byte of `.debug_str` is zero."""
    own, call = (0x11, 0x29), ((0x03, 0x25), (0x11, 0x29), (0x12, 0x06))  # by strx1, addrx1 and data4
    declarations = declaration(1, 0x11, 1, (0x72, 0x17), (0x73, 0x17), (0x11, 0x01), (0x12, 0x06))
    declarations += declaration(2, 0x2E, 1, own, (0x12, 0x06)) + declaration(3, 0x1D, 1, *call) + b"\0"
    count = min(size // 4 // 7, size // 32 + (1 << 17) - 1000)
    bases = struct.pack("<II", 8, 8)  # of the offsets of texts, and of the addresses
    info = unit(b"\1" + bases + bounds(0, 8) + b"\2\0\x08\0\0\0" + b"\3\0\0\x08\0\0\0" * count)
    tables = {".debug_info": info, ".debug_abbrev": declarations, ".debug_addr": ADDRESSES}
    tables[".debug_str_offsets"] = struct.pack("<IHHI", 8, 5, 0, 0)
    return debug_file(tables | {".debug_str": b"a" * (size - 7 * count)})


MIXED = 96  # instructions of a function of `mixed`


def mixed_code(size):
    """Functions with tables of lines and of frames that have a row for each instruction, in about so many bytes."""
    count = max(1, size // (7 * MIXED))
    code = halfwords(MIXED) * count
    rows = b"".join(bytes([13 + 5 + 14 * 2 * (k > 0) + k % 3]) for k in range(MIXED)) + b"\2\2"
    starts = [BASE + TEXT + 2 * MIXED * k for k in range(count)]
    lines = line_unit(b"".join(line_sequence(start, rows) for start in starts))
    # version 4, no augmentation, addresses of 8 bytes; code in units of 2 bytes, data of -8; register 1
    head = struct.pack("<I", 0xFFFFFFFF) + bytes.fromhex("040008000278010c0200")
    entry = frame_entry(struct.pack("<IQQ", 0, BASE + TEXT, len(code)) + frame_rows(MIXED * count))
    return code, {".debug_line": lines, ".debug_frame": frame_entry(head) + entry}


def mixed_entries(count, size):
    """In so many bytes: entries with a range, as many variables with a list of one location each, and entries of a byte
    with as many attributes without bytes as the entries of a unit may have by the memory that they take (56 bytes for
    each of theirs and 2^14 beside; an entry takes 56 and an attribute 48)."""
    single = size - 11 * count
    left = 56 * size + (1 << 14) - 256 * count - 56 * single - 4096
    flagged = min(single, left // 48)
    listed = b"".join(b"\2\0\4\0\0\0\3" + struct.pack("<I", 12 + 6 * k) for k in range(count))
    return b"\4" * flagged + b"\5" * (single - flagged) + listed


def mixed(size):
    """Near all bounds at once: as many ranges and locations as are kept of a file of this size, one for each 32 bytes
    and 2^17 beside, in a unit whose entries take as much as they may; and rows of lines and of frames."""
    count = min(size // 32 + (1 << 17) - 8000, size // 28)
    code, tables = mixed_code(size // 64)
    fields = ((0x11, 0x01), (0x12, 0x06), (0x73, 0x17))  # DW_AT_addr_base by DW_FORM_sec_offset
    declarations = declaration(1, 0x11, 1, *fields)
    declarations += declaration(2, 0x0B, 0, (0x11, 0x29), (0x12, 0x06))  # by DW_FORM_addrx1 and DW_FORM_data4
    declarations += declaration(3, 0x34, 0, (0x02, 0x17))
    declarations += declaration(4, 0x34, 0, (0x3F, 0x19)) + declaration(5, 0x34, 0) + b"\0"  # DW_FORM_flag_present
    entries = mixed_entries(count, size - size // 64 - 6 * count)
    info = unit(b"\1" + bounds(0, len(code)) + struct.pack("<I", 8) + entries + b"\0")
    places = (location(0, 4, b"\x50") + b"\0") * count
    tables |= {".debug_info": info, ".debug_abbrev": declarations}
    tables |= {".debug_loclists": list_table(places), ".debug_addr": ADDRESSES}
    return debug_file(tables, code, 2 * MIXED)


# Kinds whose time and memory grow as the file does.
UNITS = {
    "aranges": tables_of_nested_ranges,
    "declarations": units_over_declarations,
    "nested": nested_entries,
    "few-flagged-units": few_flagged_units,
    "few-flagged-bad-units": few_flagged_bad_units,
}
# Those in which a few bytes say so much that it has a bound.
BOUNDED_UNITS = {
    "attributes": entry_attributes,
    "own-declarations": units_at_declarations,
    "in-declaration": units_inside_declarations,
    "flagged-units": flagged_units,
    "flagged-bad-units": flagged_bad_units,
    "one-list": one_list,
    "one-range-list": one_range_list,
    "small-ranges": small_ranges,
    "small-locations": small_locations,
    "default-locations": default_locations,
    "lists": lists_that_overlap,
    "location-lists": locations_that_overlap,
    "list-stretches": lists_at_all_stretches,
    "in-force": expressions_in_force,
    "changing": changing_expressions,
    "scopes": scopes_in_scopes,
    "one-expression": one_expression,
    "inlined-names": inlined_names,
    "endless-names": endless_names,
    "mixed": mixed,
}
