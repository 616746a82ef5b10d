"""What is malformed in units of `.debug_info`, in abbreviations and in address tables: the faults 22 to 25 (DWARF 5,
sections 3.1, 7.4, 7.5 and 7.27)."""
import functools
import typing

from reasons import dwarf_names as dw
from reasons.found import Cursor, Reason, Wrong, bytes_of

UNITS, ABBREVIATIONS, FORMATS = "DWARF 5, section 7.5.1", "DWARF 5, section 7.5.3", "DWARF 5, section 7.4"
VERSION_NUMBERS = "DWARF 5, appendix G"
DWARF64 = 0xFFFFFFFF
NAME, LOCATION, LOW_PC, HIGH_PC, FRAME_BASE, RANGES = 0x03, 0x02, 0x11, 0x12, 0x40, 0x55
STR_BASE, ADDR_BASE, RNG_BASE, LOC_BASE = 0x72, 0x73, 0x74, 0x8C
SEC_OFFSET, LOCLISTX, RNGLISTX, ADDR = 0x17, 0x22, 0x23, 0x01
MAY_REPEAT = range(0x3F10, 0x3F13)
# The sections whose units have a version, in the order in which they are tested, and the version.
VERSIONS = ((".debug_info", 5), (".debug_addr", 5), (".debug_line", 5), (".debug_rnglists", 5), (".debug_loclists", 5),
            (".debug_aranges", 2))
BY_AS = ("GNU as makes it so for assembly, in libraries too: link copies without debug data (`tools/libraries.py`), "
         "and compile files of assembly without `-g`")
SPLIT = "`-gsplit-dwarf`: leave it out"


class Walked(typing.NamedTuple):
    """A unit: its offset, and where the bytes after its length end; or what is wrong with its length."""

    place: int
    end: typing.Optional[int]
    wrong: str
    standard: str = FORMATS

    def cursor(self, data):
        """The bytes after its length."""
        if self.end is None:
            raise Wrong(self.wrong, self.standard)
        return Cursor(data, self.place + 4, self.end)


def walked(data):
    """The units of a section one after another, up to one that isn't whole."""
    place = 0
    while place < len(data):
        length, left = int.from_bytes(data[place:place + 4], "little"), len(data) - place - 4
        if left < 0:
            yield Walked(place, None, f"its length needs 4 bytes, and the section ends after {left + 4}")
            return
        if length == DWARF64 or length > left:
            yield Walked(place, None, "it is of 64-bit DWARF" if length == DWARF64 else
                         f"its length is {bytes_of(length)}, and only {left} follow in the section")
            return
        short = f"its length is {length}, which has no room for a version"
        yield Walked(place, place + 4 + length, "") if length >= 2 else Walked(place, None, short, UNITS)
        place += 4 + length


def version_fault(image, place, _):
    """The first section with a unit of another version, which has it at this place."""
    for name, version in VERSIONS:
        data = image.contents(name)[0]
        it = next((it for it in walked(data) if it.place == place), None)
        length = int.from_bytes(data[place:place + 4], "little")
        if it is None:
            continue
        if length == DWARF64:
            return Reason(f"the unit at offset {place:x} of `{name}` is of 64-bit DWARF (its length begins with "
                          "ffffffff), which isn't supported", FORMATS, "`-gdwarf64`: leave it out")
        there = int.from_bytes(data[place + 4:place + 6], "little")
        unit = Units(image).words(it) if name == ".debug_info" else f"the unit at offset {place:x}"
        if length >= 2 and len(data) >= place + 6 and there != version:
            return Reason(f"{unit} of `{name}` is of version {there}, and only {version} is supported", VERSION_NUMBERS)
    return None


class Declaration(typing.NamedTuple):
    """A declaration of `.debug_abbrev`: its offset, code, tag, and of each attribute name, form and implicit value."""

    place: int
    code: int
    tag: int
    children: bool
    specs: list

    def words(self):
        return f"the declaration of code {self.code} ({dw.tag(self.tag)}) at offset {self.place:x} of `.debug_abbrev`"


def declaration_at(fields):
    """The declaration at the front; none at the zero that ends a table."""
    place = fields.at
    code = fields.uleb("the code of a declaration")
    if code == 0:
        return None
    what = f"of the declaration at offset {place:x}"
    tag, children, specs = fields.uleb(f"the tag {what}"), fields.number(1, f"DW_CHILDREN {what}"), []
    while True:
        name, form = fields.uleb(f"an attribute {what}"), fields.uleb(f"a form {what}")
        if name == form == 0:
            return Declaration(place, code, tag, children > 0, specs)
        specs.append((name, form, fields.sleb(f"a value {what}") if form == dw.IMPLICIT else 0))


class Table:
    """The declarations from an offset on, by code, and what is wrong if no zero ends them."""

    def __init__(self, data, offset):
        self.by_code, self.list, self.wrong = {}, [], None
        fields = Cursor(data, min(offset, len(data)), len(data))
        try:
            while (found := declaration_at(fields)) is not None:
                self.by_code.setdefault(found.code, found)
                self.list.append(found)
        except Wrong as wrong:
            self.wrong = wrong


class Entry(typing.NamedTuple):
    """A debugging information entry: its offset, its declaration, and of each attribute name, form and value."""

    place: int
    declaration: Declaration
    attributes: list

    def words(self):
        return f"the entry at offset {self.place:x} ({dw.tag(self.declaration.tag)})"

    def value(self, name):
        return next((value for it, _, value in self.attributes if it == name), None)


class NoForm(Exception):
    """A value after DW_FORM_indirect has a form that isn't known."""

    def __init__(self, declaration, entry, name, form):
        super().__init__()
        self.declaration, self.entry, self.name, self.form = declaration, entry, name, form


class Units:
    """The units of a file."""

    def __init__(self, image):
        self.info, self.abbrevs, self.addr = (image.contents(f".debug_{it}")[0] for it in ("info", "abbrev", "addr"))
        self.lists = {RNGLISTX: image.contents(".debug_rnglists")[0], LOCLISTX: image.contents(".debug_loclists")[0]}
        self.texts = {0x08: self.info, 0x0E: image.contents(".debug_str")[0],
                      0x1F: image.contents(".debug_line_str")[0]}
        self.table = functools.cache(lambda offset: Table(self.abbrevs, offset))

    def all(self):
        return walked(self.info)

    def at(self, place):
        return next((it for it in self.all() if it.place == place), None)

    def header(self, unit):
        """The offset of its declarations, and the bytes after its header."""
        fields = unit.cursor(self.info)
        fields.number(2, "the version")
        kind, size = fields.number(1, "the unit type"), fields.number(1, "the address size")
        offset = fields.number(4, "the offset of its abbreviations")
        if kind == 2:
            fields.take(12, "the signature and the offset of a type unit")
        if kind not in (1, 2, 3):
            name = f"DW_UT_{dw.UNIT_TYPES[kind]}" if kind in dw.UNIT_TYPES else f"{kind:#x}"
            raise Wrong(f"its unit type is {name}, which isn't supported (compile, type and partial units are)", UNITS,
                        SPLIT if kind in (4, 5, 6) else "")
        if size != 8:
            raise Wrong(f"its addresses have {bytes_of(size)}, not 8", UNITS)
        return offset, fields

    def old_header(self, unit):
        """The same of a unit of version 2 to 4."""
        fields = unit.cursor(self.info)
        if fields.number(2, "the version") not in (2, 3, 4):
            return None
        offset = fields.number(4, "the offset of its abbreviations")
        fields.take(1, "the address size")
        return offset, fields

    def words(self, unit):
        """A unit by its offset, and by the name of its source file if its first entry has one that can be read."""
        name = None
        try:
            offset, fields = self.old_header(unit) or self.header(unit)
            place = fields.at
            first = self.entry(fields, place, fields.uleb("a code"), self.table(offset), offset)
            form, value = next((it[1:] for it in first.attributes if it[0] == NAME), (0, 0))
            data = self.texts.get(form, b"")
            name = data[value:data.find(b"\0", value)].decode(errors="replace")
        except (Wrong, NoForm):
            pass
        return f"the unit at offset {unit.place:x}" + (f" (`{name}`)" if name else "")

    def entries(self, unit):
        """The entries of a unit, in order."""
        offset, fields = self.header(unit)
        table = self.table(offset)
        if table.wrong:
            raise Wrong(f"its abbreviations, from offset {offset:x} of `.debug_abbrev` on, can't be read up to the "
                        f"zero that ends them: {table.wrong.text}", ABBREVIATIONS)
        found = []
        while not fields.is_over():
            place = fields.at
            code = fields.uleb("the code of an entry")
            if code:
                found.append(self.entry(fields, place, code, table, offset))
        return found

    def entry(self, fields, place, code, table, offset):
        declaration = table.by_code.get(code)
        if declaration is None:
            raise Wrong(f"the entry at offset {place:x} has the code {code}, which its abbreviations (from offset "
                        f"{offset:x} of `.debug_abbrev` on) don't declare", "DWARF 5, section 7.5.2")
        names = [name for name, _, _ in declaration.specs if name not in MAY_REPEAT]
        if len(set(names)) < len(names):
            twice = next(it for it in names if names.count(it) > 1)
            raise Wrong(f"the entry at offset {place:x} has {dw.attribute(twice)} twice by {declaration.words()}",
                        "DWARF 5, section 2.2")
        values = []
        for name, form, implicit in declaration.specs:
            what = f"of the entry at offset {place:x} ({dw.tag(declaration.tag)}), by {dw.form(form)},"
            what = f"{dw.attribute(name)} {what}"
            form = self.form(fields, form, what, NoForm(declaration, place, name, form))
            values.append((name, form, dw.value(fields, form, implicit, what)))
        return Entry(place, declaration, values)

    def form(self, fields, form, what, unknown):
        """The form of a value: the declared one, or one before the value."""
        is_indirect = form == dw.INDIRECT
        while form == dw.INDIRECT:
            form = fields.uleb(f"the form of {what}")
        if is_indirect and form == dw.IMPLICIT:
            raise Wrong(f"{what} has DW_FORM_implicit_const after DW_FORM_indirect", "DWARF 5, section 7.5.3")
        if form not in dw.SHAPES:
            unknown.form = form
            raise unknown
        return form

    def address_at(self, base, index):
        """The address with an index in a unit's table, if it is there."""
        at = None if base is None else base + 8 * index
        found = at is not None and at + 8 <= len(self.addr)
        return int.from_bytes(self.addr[at:at + 8], "little") if found else None


def wrong_attribute(units, own, entry, name, form, value):
    """Why an attribute isn't sound, if it isn't."""
    what = f"{dw.attribute(name)} of {entry.words()} has {dw.form(form)}"
    bases = [(dw.TEXT_INDEXES, STR_BASE), ({LOCLISTX}, LOC_BASE), ({RNGLISTX}, RNG_BASE),
             (dw.ADDRESS_INDEXES, ADDR_BASE)]
    for forms, base in bases:
        if form in forms and own.value(base) is None:
            raise Wrong(f"{what}, an index, but the unit's own entry has no {dw.attribute(base)}",
                        "DWARF 5, section 3.1.1",
                        SPLIT)
    if form in dw.ADDRESS_INDEXES and units.address_at(own.value(ADDR_BASE), value) is None:
        raise Wrong(f"{what} with the index {value}, and that is after the end of `.debug_addr` "
                    f"({bytes_of(len(units.addr))},"
                    f" the unit's table is at {own.value(ADDR_BASE):x})", "DWARF 5, section 7.27")
    fits = {LOCATION: dw.BLOCKS | {SEC_OFFSET, LOCLISTX}, RANGES: {SEC_OFFSET, RNGLISTX}, RNG_BASE: {SEC_OFFSET},
            LOC_BASE: {SEC_OFFSET}}
    fits[FRAME_BASE] = fits[LOCATION]
    if form not in fits.get(name, {form}):
        raise Wrong(f"{what}, which isn't one of its class", "DWARF 5, sections 7.5.4 and 7.5.5")


def list_offset(units, own, kind, form, value):
    """The offset of an attribute's list in its section. What keeps it from being found is wrong."""
    section, name = units.lists[kind], ".debug_rnglists" if kind == RNGLISTX else ".debug_loclists"
    if form == kind:
        base = own.value(RNG_BASE if kind == RNGLISTX else LOC_BASE)
        if base is None or base + 4 * value + 4 > len(section):
            raise Wrong(f"its index {value} names an offset after the end of `{name}` (the unit's table is at "
                        f"{f'{base:x}' if base is not None else 'no offset'})", "DWARF 5, sections 7.28 and 7.29")
        value = base + int.from_bytes(section[base + 4 * value:base + 4 * value + 4], "little")
    if value >= len(section):
        raise Wrong(f"it names offset {value:x} of `{name}`, which has {bytes_of(len(section))}",
                    "DWARF 5, section 7.5.5")
    return value


def list_attributes(entry, kind):
    names = (RANGES,) if kind == RNGLISTX else (LOCATION, FRAME_BASE)
    return [it for it in entry.attributes if it[0] in names and it[1] in (SEC_OFFSET, kind)]


def judge(units, unit):
    """Raises what is wrong with a unit of `.debug_info`."""
    try:
        entries = units.entries(unit)
    except NoForm as it:
        raise Wrong(f"{dw.attribute(it.name)} of the entry at offset {it.entry:x} has {dw.form(it.form)}, which isn't "
                    "known",
                    "DWARF 5, section 7.5.6") from None
    for entry in entries:
        for it in entry.attributes:
            wrong_attribute(units, entries[0], entry, *it)
    for entry in entries:
        for kind in (RNGLISTX, LOCLISTX):
            for name, form, value in list_attributes(entry, kind):
                try:
                    list_offset(units, entries[0], kind, form, value)
                except Wrong as wrong:
                    raise Wrong(f"{dw.attribute(name)} of {entry.words()}: {wrong.text}", wrong.standard) from None


def unit_fault(image, place):
    """What is wrong with the unit at an offset of `.debug_info`, or with the address table at one of `.debug_addr`."""
    units = Units(image)
    unit = units.at(place)
    try:
        if unit:
            judge(units, unit)
    except Wrong as wrong:
        return wrong.reason(f"{units.words(unit)} of `.debug_info` is malformed", "DWARF 5, section 7.5")
    table = next((it for it in walked(units.addr) if it.place == place), None)
    try:
        if table:
            judge_addresses(table, units.addr)
    except Wrong as wrong:
        return wrong.reason(f"the table at offset {place:x} of `.debug_addr` is malformed", "DWARF 5, section 7.27")
    return None


def judge_addresses(table, data):
    fields = table.cursor(data)
    fields.number(2, "the version")
    sizes = fields.number(1, "the address size"), fields.number(1, "the segment selector size")
    if sizes != (8, 0):
        raise Wrong(f"its addresses have {sizes[0]} bytes and its segment selectors {sizes[1]}, not 8 and 0")
    if fields.left() % 8:
        raise Wrong(f"after its header it has {bytes_of(fields.left())}, which is no whole number of addresses")


def declared(image, place):
    """The declaration at an offset of `.debug_abbrev`, if a unit's table has it, and the first such unit in words."""
    units, known = Units(image), set()
    for unit in units.all():
        try:
            offset = units.header(unit)[0]
        except Wrong:
            continue
        if offset <= place and offset not in known:
            known.add(offset)
            found = next((it for it in units.table(offset).list if it.place == place), None)
            if found:
                return found, units.words(unit)
    return None


def form_fault(image, place, _):
    """A declaration with a form that isn't known, or a value that has one by DW_FORM_indirect."""
    found = declared(image, place)
    if found is None:
        return None
    declaration, unit = found
    by_dwz = "a file that `dwz` packed: use the one from before"
    for name, form, _ in declaration.specs:
        if form not in dw.SHAPES:
            return Reason(f"{declaration.words()}, which {unit} uses, gives "
                          f"{dw.attribute(name)} {dw.form(form)} ({form:#x}), which isn't known",
                          "DWARF 5, section 7.5.6",
                          by_dwz if form in (0x1F20, 0x1F21) else "")
    return indirect_fault(image, place)


def indirect_fault(image, place):
    units = Units(image)
    for unit in units.all():
        try:
            units.entries(unit)
        except NoForm as it:
            if it.declaration.place == place:
                return Reason(f"by {it.declaration.words()}, {dw.attribute(it.name)} of the entry at offset "
                              f"{it.entry:x} has its form before its value (DW_FORM_indirect): {dw.form(it.form)}, "
                              "which isn't known",
                              "DWARF 5, sections 7.5.3 and 7.5.6")
        except Wrong:
            pass
    return None


def high_fault(image, place, _):
    """A declaration whose DW_AT_high_pc can't become the offset of a list in place."""
    found = declared(image, place)
    if found is None:
        return None
    declaration, unit = found
    forms = dict((name, form) for name, form, _ in reversed(declaration.specs))
    high = next((form for name, form, _ in declaration.specs if name == HIGH_PC and form not in (0x06, 0x07, ADDR)),
                None)
    lows = [form for name, form, _ in declaration.specs if name == LOW_PC and form in {ADDR} | dw.ADDRESS_INDEXES]
    helps = ""
    if HIGH_PC not in forms:
        return None
    if high is not None:
        helps = BY_AS if high == 0x0F else ""
        why = f"has DW_AT_high_pc by {dw.form(high)}, and only DW_FORM_addr, data4 and data8 are supported"
    elif RANGES in forms:
        why = "has DW_AT_high_pc together with DW_AT_ranges"
    elif not lows:
        why = "has DW_AT_high_pc without a DW_AT_low_pc that is an address or an index of one"
    else:
        return None
    return Reason(f"{declaration.words()}, which {unit} uses, {why}",
                  "DWARF 5, section 2.17", helps)
