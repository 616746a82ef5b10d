"""Files with lists of ranges and of locations that are long and say little, or can't be read. A kind is a function from
about how many bytes the file and its profile have to both. DWARF 5, sections 2.6.2, 2.17.3, 7.25 and 7.7.3."""
import struct

from hostile_files import BASE, TEXT, debug_file, uleb
from hostile_units import ADDRESSES, bounds, declaration, entries_of_unit, list_table, unit

RANGES, LOCATION = 0x55, 0x02  # DW_AT_ranges and DW_AT_location
OFFSET, RANGES_INDEX, LOCATION_INDEX = 0x17, 0x23, 0x22  # DW_FORM_sec_offset, DW_FORM_rnglistx and DW_FORM_loclistx
BASES = ((0x73, OFFSET), (0x74, OFFSET), (0x8C, OFFSET))  # DW_AT_addr_base, DW_AT_rnglists_base, DW_AT_loclists_base
BASE_ENTRY = b"\1\0"  # DW_RLE_base_addressx 0, which is DW_LLE_base_addressx 0 too
MOST_ENTRIES = 36  # of a list that gives nothing
MOST_BAD = 512  # bytes of a list before an entry that can't be read
RANGE, PLACE, BAD = b"\4\0\1", b"\4\0\1\0", b"\x7f"  # a pair of offsets, in both tables, and an entry of no kind
NAMED = 128  # lists of a unit whose indexes have one byte


def named_at(places):
    """Entries that name a list each, at an offset behind the header of its table."""
    return b"".join(struct.pack("<BI", 2, 12 + place) for place in places)


def endless_lists(size):
    """Lists of ranges that begin one range after another, none of which ends."""
    count = size // 8
    return entries_of_unit((RANGES, OFFSET), named_at(3 * k for k in range(count)), rnglists=b"\4\0\4" * count)


def endless_locations(size):
    """Lists of locations, so."""
    count = size // 10
    entries = named_at(5 * k for k in range(count))
    return entries_of_unit((LOCATION, OFFSET), entries, loclists=b"\4\0\4\1\x50" * count)


def base_lists(size):
    """Lists that begin one entry after another, and end together, of entries that give no range but a base."""
    count = size // 7
    declarations = declaration(1, 0x11, 1, *BASES[:1]) + declaration(2, 0x34, 0, (RANGES, OFFSET)) + b"\0"
    info = unit(b"\1" + struct.pack("<I", 8) + named_at(2 * k for k in range(count)) + b"\0")
    lists = list_table(BASE_ENTRY * count + b"\0")
    tables = {".debug_info": info, ".debug_abbrev": declarations, ".debug_rnglists": lists}
    return debug_file(tables | {".debug_addr": ADDRESSES})


def long_number_lists(size):
    """Units that all name one list, with a range whose length is a number of half of the file."""
    declarations = declaration(1, 0x11, 0, (RANGES, OFFSET)) + b"\0"
    units = unit(b"\1" + struct.pack("<I", 12)) * (size // 2 // 17)
    range_at = b"\7" + struct.pack("<Q", BASE + TEXT)  # DW_RLE_start_length
    ranges = list_table(range_at + b"\x84" + b"\x80" * (size // 2) + b"\0\0")
    return debug_file({".debug_info": units, ".debug_abbrev": declarations, ".debug_rnglists": ranges})


def units_naming(lists, places, count, locations=None):
    """So many units, of which each names the lists of ranges and of locations at these places. Those of locations have
    the bytes of those of ranges, unless others are given."""
    fields = ((RANGES, RANGES_INDEX), (LOCATION, LOCATION_INDEX))
    declarations = declaration(1, 0x11, 1, *BASES) + declaration(2, 0x34, 0, *fields) + b"\0"
    own = b"\1" + struct.pack("<III", 8, 12, 12)
    info = unit(own + b"".join(bytes([2, k, k]) for k in range(len(places)))) * count
    offsets = [4 * len(places) + place for place in places]
    tables = {".debug_info": info, ".debug_abbrev": declarations, ".debug_addr": ADDRESSES}
    tables |= {".debug_rnglists": list_table(lists, offsets), ".debug_loclists": list_table(locations or lists, offsets)}
    return tables


UNIT_SIZE = 12 + 13 + 3 * NAMED  # of a unit that names so many lists


def base_entries(most, end):
    """Lists of up to so many bases, of nearly as many each, and places where some begin."""
    one = BASE_ENTRY * most + end
    each = max(1, most // 16)
    places = [len(one) * (k // each) + len(BASE_ENTRY) * (k % each) for k in range(NAMED)]
    return one * -(-NAMED // each), places


def few_base_lists(size):
    """As many lists of bases as are kept of a file of this size, one for each 32 bytes and 2^17 beside, of nearly as
    many entries as such a list may have; the rest of the file is a text."""
    lists, places = base_entries(MOST_ENTRIES, b"\0")
    left = size - 2 * len(lists)
    count = min((size // 32 + (1 << 17) - 1000) // NAMED, left // UNIT_SIZE)
    return debug_file(units_naming(lists, places, count) | {".debug_str": bytes(left - UNIT_SIZE * count)})


def few_endless_lists(size):
    """Lists of as many ranges, and of as many locations, as may stand before an entry that can't be read."""
    ranges, locations = (entry * (MOST_BAD // len(entry)) + BAD for entry in (RANGE, PLACE))
    length = max(len(ranges), len(locations))
    ranges, locations = (one.ljust(length, b"\0") * NAMED for one in (ranges, locations))
    places = [length * k for k in range(NAMED)]
    return debug_file(units_naming(ranges, places, (size - 2 * len(ranges)) // UNIT_SIZE, locations))


def units_of_long_lists(size, behind):
    """Units that name lists which begin one base after another, and all have the same behind these."""
    places = [len(BASE_ENTRY) * k for k in range(NAMED)]
    return debug_file(units_naming(BASE_ENTRY * NAMED + behind, places, size // 2 // UNIT_SIZE))


def base_number_lists(size):
    """Lists of bases whose indexes are numbers of nearly a KiB; they are half of the file."""
    long = b"\1" + b"\x80" * 1022 + b"\0"
    return units_of_long_lists(size, long * min(size // 4 // len(long), 3900) + b"\0")


def wide_number_lists(size):
    """Lists that can't be read behind a few bases, as a number has more than 64 bits; it is a quarter of the file."""
    return units_of_long_lists(size, b"\4" + b"\xff" * (size // 4) + b"\x7f")


def indexed(size, fields, name, values=b""):
    """Units with these attributes, the base of a table and the index of an empty list first. The index is large, and
    each unit gets a table with as many offsets; these weigh up to 3.9e9 together, as less than tables may."""
    index = size // 2 // 4 - 8
    own = b"\1" + struct.pack("<I", 12) + uleb(index) + values
    count = min(size // 2 // (12 + len(own)), 3_900_000_000 // (4 * index + 36))
    declarations = declaration(1, 0x11, 0, *fields) + b"\0"
    lists = list_table(bytes(size - (12 + len(own)) * count))
    return debug_file({".debug_info": unit(own) * count, ".debug_abbrev": declarations, name: lists})


def indexed_lists(size):
    """Units that each name a list of ranges by a large index."""
    return indexed(size, (BASES[1], (RANGES, RANGES_INDEX)), ".debug_rnglists")


def indexed_locations(size):
    """Units that each name a list of locations so."""
    fields = (BASES[2], (LOCATION, LOCATION_INDEX), (0x11, 0x01), (0x12, 0x06))
    return indexed(size, fields, ".debug_loclists", bounds(0, 8))


def few_indexed_lists(size):
    """Units that name an empty list of ranges and one of locations by large indexes, as many as may weigh 64 for each
    byte of the file and 2^28 beside, and less than 4e9."""
    index = size // 4 // 4
    own = b"\1" + bounds(0, 8) + struct.pack("<III", 8, 12, 12) + b"\2" + 2 * uleb(index)
    weight = min(64 * size + (1 << 28), 4_000_000_000) * 31 // 32
    count = min(size // 2 // (12 + len(own)), weight // (2 * (4 * index + 36)))
    fields = ((RANGES, RANGES_INDEX), (LOCATION, LOCATION_INDEX))
    declarations = declaration(1, 0x11, 1, (0x11, 0x01), (0x12, 0x06), *BASES)
    declarations += declaration(2, 0x34, 0, *fields) + b"\0"
    tables = {".debug_info": unit(own) * count, ".debug_abbrev": declarations, ".debug_addr": ADDRESSES}
    lists = list_table(bytes((size - (12 + len(own)) * count) // 2))
    return debug_file(tables | {".debug_rnglists": lists, ".debug_loclists": lists})


# Kinds whose time and memory grow as the file does.
LISTS = {"few-endless-lists": few_endless_lists}
# Those in which a few bytes say so much that it has a bound.
BOUNDED_LISTS = {
    "endless-lists": endless_lists,
    "endless-locations": endless_locations,
    "base-lists": base_lists,
    "few-base-lists": few_base_lists,
    "long-number-lists": long_number_lists,
    "base-number-lists": base_number_lists,
    "wide-number-lists": wide_number_lists,
    "indexed-lists": indexed_lists,
    "indexed-locations": indexed_locations,
    "few-indexed-lists": few_indexed_lists,
}
