"""What is malformed in `.debug_rnglists`, `.debug_loclists` and `.debug_aranges` (DWARF 5, sections 2.6.2, 2.17.3,
6.1.2, 7.25, 7.28 and 7.29)."""
import bisect
import functools

from reasons import dwarf_names as dw
from reasons.found import Cursor, Wrong, bytes_of
from reasons.units import (ADDR_BASE, LOCLISTX, RNGLISTX, NoForm, Units, list_attributes, list_offset,
                           unit_fault, walked)

# Kinds of entries of lists: the name, and the fields: x an index of an address, u a number, a an address.
RANGE_KINDS = {1: ("base_addressx", "x"), 2: ("startx_endx", "xx"), 3: ("startx_length", "xu"),
               4: ("offset_pair", "uu"),
               5: ("base_address", "a"), 6: ("start_end", "aa"), 7: ("start_length", "au")}
LOCATION_KINDS = {1: ("base_addressx", "x"), 2: ("startx_endx", "xx"), 3: ("startx_length", "xu"),
                  4: ("offset_pair", "uu"), 5: ("default_location", ""), 6: ("base_address", "a"),
                  7: ("start_end", "aa"), 8: ("start_length", "au")}
HEADER = "DWARF 5, sections 7.28 and 7.29"
KINDS = ((RNGLISTX, ".debug_rnglists", "DW_RLE", RANGE_KINDS, "DWARF 5, sections 2.17.3 and 7.25"),
         (LOCLISTX, ".debug_loclists", "DW_LLE", LOCATION_KINDS, "DWARF 5, sections 2.6.2 and 7.7.3"))


def judge_table(table, data):
    """Raises what is wrong with the header of a table of lists."""
    fields = table.cursor(data)
    fields.number(2, "the version")
    sizes = fields.number(1, "the address size"), fields.number(1, "the segment selector size")
    if sizes != (8, 0):
        raise Wrong(f"its addresses have {sizes[0]} bytes and its segment selectors {sizes[1]}, not 8 and 0")
    count = fields.number(4, "the count of offsets")
    if 4 * count > fields.left():
        raise Wrong(f"its header has a count of {count} offsets of 4 bytes, and {bytes_of(fields.left())} follow in it")


def judge_item(fields, kind, prefix, kinds, look):
    """Raises what is wrong with the entry of a list that has this kind."""
    at = fields.at - 1
    if kind not in kinds:
        raise Wrong(f"its entry at offset {at:x} is of kind {kind:#04x}, which isn't known")
    name, operands = kinds[kind]
    name = f"{prefix}_{name} at offset {at:x}"
    for operand in operands:
        value = fields.number(8, f"an address of {name}") if operand == "a" else fields.uleb(f"an operand of {name}")
        if operand == "x":
            look(value, name)
    if prefix == "DW_LLE" and kind not in (1, 6):
        fields.leb_block(f"the expression of {name}")


def judge_list(data, at, end, kind, look):
    """Raises what is wrong with the list from an offset up to the end of its table."""
    _, _, prefix, kinds, standard = kind
    fields, indexes = Cursor(data, at, end), []
    try:
        while code := fields.number(1, "the entry that ends the list"):
            judge_item(fields, code, prefix, kinds, lambda *it: indexes.append(it))
        for it in indexes:
            look(*it)
    except Wrong as wrong:
        raise Wrong(wrong.text, wrong.standard or standard) from None


class Lists:
    """The lists of a section, with the tables that hold them."""

    def __init__(self, units, kind):
        self.units, self.kind, self.data = units, kind, units.lists[kind[0]]
        self.tables = list(walked(self.data))
        self.places = [it.place for it in self.tables]

    def table_of(self, at):
        """The last table that begins at or before an offset."""
        i = bisect.bisect_right(self.places, at)
        return self.tables[i - 1] if i else None

    def end_of(self, at):
        table = self.table_of(at)
        return table.end if table and table.end is not None else len(self.data)

    def look(self, base, index, name):
        if self.units.address_at(base, index) is None:
            raise Wrong(f"{name} has the index {index} of an address, which isn't in the unit's table of `.debug_addr`",
                        "DWARF 5, section 7.27")

    def named(self, entries, place):
        """The offsets of lists in the table at an offset, each with what names it."""
        for entry in entries:
            for name, form, value in list_attributes(entry, self.kind[0]):
                at = list_offset(self.units, entries[0], self.kind[0], form, value)
                table = self.table_of(at)
                if (table.place if table else 0) == place:
                    yield at, f"{dw.attribute(name)} of {entry.words()}"

    def wrong(self, unit, place):
        """What is wrong with a list of a unit, in the table at an offset, if something is."""
        try:
            entries = self.units.entries(unit)
            lists = dict(self.named(entries, place))
        except (NoForm, Wrong):
            return None  # such a unit has another fault
        for at, by in lists.items():
            try:
                judge_list(self.data, at, self.end_of(at), self.kind, functools.partial(self.look,
                                                                                        entries[0].value(ADDR_BASE)))
            except Wrong as wrong:
                text = f"the list at offset {at:x}, which {by} of {self.units.words(unit)} names"
                return Wrong(f"{text}: {wrong.text}", wrong.standard)
        return None

    def fault(self, place):
        """What is wrong with the table at an offset, or with a list in it."""
        _, name, _, _, standard = self.kind
        table = next((it for it in self.tables if it.place == place), None)
        try:
            if table:
                judge_table(table, self.data)
        except Wrong as wrong:
            return wrong.reason(f"the table at offset {place:x} of `{name}` is malformed", HEADER)
        for unit in self.units.all():
            wrong = self.wrong(unit, place)
            if wrong:
                return wrong.reason(f"a list in the table at offset {place:x} of `{name}` is malformed", standard)
        return None


def judge_ranges(table, data):
    """Raises what is wrong with a table of `.debug_aranges`."""
    fields = table.cursor(data)
    fields.number(2, "the version")
    fields.number(4, "the offset of the unit")
    sizes = fields.number(1, "the address size"), fields.number(1, "the segment selector size")
    fields.take(4, "the padding before the first pair")
    if sizes != (8, 0):
        raise Wrong(f"its addresses have {sizes[0]} bytes and its segment selectors {sizes[1]}, not 8 and 0")
    while fields.number(8, "an address, or the pair of zeros that ends the table,") | fields.number(8, "a length"):
        pass


def dwarf_fault(image, place, _):
    """The first section that has the fault at the place."""
    found = unit_fault(image, place)
    units = Units(image)
    for kind in KINDS:
        found = found or Lists(units, kind).fault(place)
    if found:
        return found
    data = image.contents(".debug_aranges")[0]
    table = next((it for it in walked(data) if it.place == place), None)
    try:
        if table:
            judge_ranges(table, data)
    except Wrong as wrong:
        return wrong.reason(f"the table at offset {place:x} of `.debug_aranges` is malformed", "DWARF 5, section 6.1.2")
    return None
