"""Units of debugging entries with all that they name: declarations, texts, lists of ranges and locations, addresses.

DWARF 5, sections 2 and 7.5.
"""
from __future__ import annotations
import random

from fuzzed.fields import Address, Field, Leb, Length, Mark, Number, Offset, Raw

COMPILE_UNIT, TYPE_UNIT, PARTIAL_UNIT, SUBPROGRAM, BLOCK, INLINED, VARIABLE, FORMAL, CALL_SITE, LABEL, BASE_TYPE = (
    0x11, 0x41, 0x3C, 0x2E, 0x0B, 0x1D, 0x34, 0x05, 0x48, 0x0A, 0x24)
NAME, STMT_LIST, LOW_PC, HIGH_PC, ENTRY_PC, RANGES, LOCATION, FRAME_BASE, CALL_RETURN_PC, CALL_ORIGIN = (
    0x03, 0x10, 0x11, 0x12, 0x52, 0x55, 0x02, 0x40, 0x7D, 0x31)
STR_OFFSETS_BASE, ADDR_BASE, RNGLISTS_BASE, LOCLISTS_BASE = 0x72, 0x73, 0x74, 0x8C
MACROS, LOCVIEWS, DECL_LINE, DECL_FILE, BYTE_SIZE, CONST_VALUE, EXTERNAL, TYPE, PRODUCER = (
    0x79, 0x2137, 0x3B, 0x3A, 0x0B, 0x1C, 0x3F, 0x49, 0x25)
CHILDREN = {
    COMPILE_UNIT: (SUBPROGRAM, SUBPROGRAM, SUBPROGRAM, VARIABLE, BASE_TYPE), PARTIAL_UNIT: (SUBPROGRAM, BASE_TYPE),
    TYPE_UNIT: (BASE_TYPE,), SUBPROGRAM: (BLOCK, INLINED, VARIABLE, FORMAL, CALL_SITE, LABEL),
    BLOCK: (VARIABLE, BLOCK, INLINED), INLINED: (VARIABLE, BLOCK, FORMAL)}
Form = tuple[int, list[Field]]          # its number, and the value


def expression(rng: random.Random) -> bytes:
    return rng.choice([b"", b"\x9c", b"\x91\x70", b"\x50\x93\x08", b"\x03" + rng.randbytes(8),
                       rng.randbytes(rng.randint(1, 12))])


class Unit:
    """A unit, which adds to the tables what it names."""

    def __init__(self, rng: random.Random, tables: dict[str, list], number: int, ranges: list[tuple[int, int]],
                 texts: list[str]):
        self.rng, self.tables, self.number, self.ranges, self.texts = rng, tables, number, ranges, texts
        self.mark, self.kind = f"unit{number}", rng.choice([COMPILE_UNIT] * 6 + [TYPE_UNIT, PARTIAL_UNIT])
        self.declarations, self.entries, self.fields = {}, 0, []
        self.addresses, self.strings = [], []
        self.lists = {".debug_rnglists": [], ".debug_loclists": []}
        self.with_base = rng.random() < 0.6     # whether indexed forms are used
        self.low = ranges[0][0] if ranges and rng.random() < 0.7 else 0

    # Values of the classes of forms.

    def text(self) -> Form:
        name, way = self.rng.choice(self.texts), self.rng.randrange(5 if self.with_base else 3)
        if way == 0:
            return 0x08, [Raw(name.encode() + b"\0")]
        if way < 3:
            return (0x0E, 0x1F)[way - 1], [Offset(4, ((".debug_str", ".debug_line_str")[way - 1], name))]
        self.strings.append(name)
        form, width = self.rng.choice([(0x1A, 0), (0x25, 1), (0x26, 2), (0x27, 3), (0x28, 4)])
        return form, [Number(width, len(self.strings) - 1) if width else Leb(len(self.strings) - 1)]

    def address(self, value: int) -> Form:
        if not self.with_base or self.rng.random() < 0.6:
            return 0x01, [Address(8, value)]
        form, width = self.rng.choice([(0x1B, 0), (0x29, 1), (0x2A, 2), (0x2B, 3), (0x2C, 4)])
        index = self.address_index(value)
        return form, [Number(width, index) if width else Leb(index)]

    def address_index(self, value: int) -> int:
        self.addresses.append(value)
        return len(self.addresses) - 1

    def count(self) -> Form:
        value = self.rng.choice([0, 1, 8, 127, 200, 70000])
        form, width = self.rng.choice([(0x0B, 1), (0x05, 2), (0x06, 4), (0x07, 8), (0x0F, 0), (0x0D, -1), (0x21, None),
                                       (0x1E, 16)])
        if width is None:
            return form, []
        if width == 16:
            return form, [Raw(self.rng.randbytes(16))]
        return form, [Number(width, value) if width > 0 else Leb(value, signed=width < 0)]

    def block(self, data: bytes) -> Form:
        form, width = self.rng.choice([(0x18, 0), (0x18, 0), (0x0A, 1), (0x03, 2), (0x04, 4), (0x09, 0)])
        return form, [Number(width, len(data)) if width else Leb(len(data)), Raw(data)]

    def reference(self) -> Form:
        to = (self.mark, self.rng.randrange(self.entries or 1))
        form, width = self.rng.choice([(0x11, 1), (0x12, 2), (0x13, 4), (0x14, 8), (0x15, 0), (0x10, 4), (0x20, 8),
                                       (0x16, 4)])
        if form == 0x16:
            return form, [Leb(0x13), Offset(4, to, self.mark)]
        return form, [Offset(width, to, None if form == 0x10 else self.mark)]

    def list_of(self, table: str, entries: list[Field]) -> Form:
        mark = (table, self.number, len(self.lists[table]))
        self.lists[table].append((mark, entries))
        if self.with_base and self.rng.random() < 0.5:
            return (0x23 if table == ".debug_rnglists" else 0x22), [Leb(len(self.lists[table]) - 1)]
        return 0x17, [Offset(4, mark)]

    def shared_list(self, table: str) -> Form | None:
        """A list that another entry of this unit names, too."""
        lists = self.lists[table]
        return (0x17, [Offset(4, self.rng.choice(lists)[0])]) if lists and self.rng.random() < 0.3 else None

    # Lists.

    def stretch(self) -> tuple[int, int]:
        start, size = self.rng.choice(self.ranges) if self.ranges else (0x10000, 16)
        first = self.rng.randrange(0, size, 2)
        return start + first, start + first + self.rng.randrange(0, size - first + 1, 2)

    def entries_of(self, is_location: bool) -> list[Field]:
        rng, fields = self.rng, []
        kinds = dict(end=0, basex=1, startx_endx=2, startx_length=3, pair=4, default=5, base=6, start_end=7,
                     start_length=8)
        if not is_location:
            kinds |= dict(base=5, start_end=6, start_length=7)
            del kinds["default"]
        base = self.low
        for _ in range(rng.choice([0, 1, 1, 2, 3, 6])):
            low, high = self.stretch()
            kind = rng.choice([k for k in kinds if k != "end" and (self.with_base or "x" not in k)])
            fields.append(Number(1, kinds[kind]))
            if kind in ("base", "basex"):
                base = low
                fields.append(Address(8, low) if kind == "base" else Leb(self.address_index(low)))
                continue
            fields += self.bounds(kind, low, high, base)
            if is_location:
                data = expression(rng)
                fields += [Leb(len(data)), Raw(data)]
        return [*fields, Number(1, 0)]

    def bounds(self, kind: str, low: int, high: int, base: int) -> list[Field]:
        if kind == "default":
            return []
        if kind == "pair":
            return [Leb(max(0, low - base)), Leb(max(0, high - base))]
        if kind == "start_end":
            return [Address(8, low), Address(8, high)]
        first = Leb(self.address_index(low)) if "startx" in kind else Address(8, low)
        return [first, Leb(self.address_index(high)) if kind == "startx_endx" else Leb(high - low)]

    # Entries.

    def attributes(self, tag: int) -> list[tuple[int, Form]]:
        rng = self.rng
        made = []
        if tag in (COMPILE_UNIT, TYPE_UNIT, PARTIAL_UNIT):
            made += self.unit_attributes()
        elif tag in (SUBPROGRAM, BLOCK, INLINED):
            made += self.range_attributes() if rng.random() < 0.8 else []
        if rng.random() < 0.6:
            made.append((NAME, self.text()))
        if tag in (SUBPROGRAM, VARIABLE, FORMAL) and rng.random() < 0.8:
            made.append(self.location(FRAME_BASE if tag == SUBPROGRAM else LOCATION))
            if tag != SUBPROGRAM and rng.random() < 0.2:
                made.append((LOCVIEWS, (0x17, [Number(4, rng.randint(0, 40))])))
        if tag == CALL_SITE:
            made.append((CALL_RETURN_PC, self.address(self.stretch()[1])))
        if tag in (INLINED, CALL_SITE, FORMAL) and rng.random() < 0.7:
            made.append((CALL_ORIGIN if tag != FORMAL else TYPE, self.reference()))
        if tag == LABEL:
            made.append((LOW_PC, self.address(self.stretch()[0])))
        if rng.random() < 0.3:
            made.append((EXTERNAL, rng.choice([(0x19, []), (0x0C, [Number(1, 1)])])))
        others = [DECL_LINE, DECL_FILE, BYTE_SIZE, CONST_VALUE]
        made += [(name, self.count()) for name in rng.sample(others, rng.choice([0, 0, 1, 2]))]
        return made

    def unit_attributes(self) -> list[tuple[int, Form]]:
        made = [(PRODUCER, self.text())]
        marks = [f.name for f in self.tables.get(".debug_line", []) if type(f) is Mark and str(f.name).endswith("-end")]
        if marks and self.rng.random() < 0.8:
            made.append((STMT_LIST, (0x17, [Offset(4, self.rng.choice(marks)[:-4])])))
        if self.with_base:
            for name, table in ((STR_OFFSETS_BASE, ".debug_str_offsets"), (ADDR_BASE, ".debug_addr"),
                                (RNGLISTS_BASE, ".debug_rnglists"), (LOCLISTS_BASE, ".debug_loclists")):
                made.append((name, (0x17, [Offset(4, (table, self.number, "base"))])))
        if self.rng.random() < 0.1:
            made.append((MACROS, (0x17, [Number(4, 0)])))
        if self.low:
            made.append((LOW_PC, (0x01, [Address(8, self.low)])))
        if self.rng.random() < 0.6:
            made.append((RANGES, self.list_of(".debug_rnglists", self.entries_of(False))))
        elif self.low:
            made.append((HIGH_PC, (0x07, [Number(8, 40)])))
        return made

    def range_attributes(self) -> list[tuple[int, Form]]:
        low, high = self.stretch()
        if self.rng.random() < 0.4:
            form = self.shared_list(".debug_rnglists") or self.list_of(".debug_rnglists", self.entries_of(False))
            return [(RANGES, form), *([(ENTRY_PC, self.address(low))] if self.rng.random() < 0.4 else [])]
        size = high - low
        form = self.rng.choice([(0x06, [Number(4, size)]), (0x07, [Number(8, size)]), (0x01, [Address(8, high)])])
        entry = [(ENTRY_PC, self.address(low))] if self.rng.random() < 0.2 else []
        return [(LOW_PC, self.address(low)), (HIGH_PC, form), *entry]

    def location(self, name: int) -> tuple[int, Form]:
        if self.rng.random() < 0.5:
            return name, self.block(expression(self.rng))
        return name, self.shared_list(".debug_loclists") or self.list_of(".debug_loclists", self.entries_of(True))

    def declaration(self, tag: int, children: bool, forms: tuple) -> int:
        key = (tag, children, forms)
        if key not in self.declarations:
            self.declarations[key] = len(self.declarations) + 1
            fields = [Leb(self.declarations[key]), Leb(tag), Number(1, children)]
            for name, form in forms:
                fields += [Leb(name), Leb(form), *([Leb(-5, signed=True)] if form == 0x21 else [])]
            self.tables[".debug_abbrev"] += [*fields, Leb(0), Leb(0)]
        return self.declarations[key]

    def entry(self, tag: int, depth: int) -> None:
        mark = Mark((self.mark, self.entries))
        self.entries += 1
        attributes = self.attributes(tag)
        kinds = CHILDREN.get(tag)
        children = bool(kinds) and depth < 6 and self.rng.random() < (0.9 if depth < 2 else 0.4)
        code = self.declaration(tag, children, tuple((name, form) for name, (form, _) in attributes))
        self.fields += [mark, Leb(code), *[field for _, (_, fields) in attributes for field in fields]]
        if children:
            for _ in range(self.rng.choice([0, 1, 2, 4])):
                self.entry(self.rng.choice(kinds), depth + 1)
            self.fields.append(Number(1, 0))

    def write(self) -> None:
        """Adds the unit to the tables."""
        end, declarations = f"{self.mark}-end", f"{self.mark}-declarations"
        self.tables[".debug_abbrev"].append(Mark(declarations))
        self.entry(self.kind, 0)
        self.tables[".debug_abbrev"].append(Leb(0))
        number = {COMPILE_UNIT: 1, TYPE_UNIT: 2, PARTIAL_UNIT: 3}[self.kind]
        head = [Mark(self.mark), Length(4, end), Number(2, 5), Number(1, number), Number(1, 8), Offset(4, declarations)]
        if self.kind == TYPE_UNIT:
            head += [Number(8, 0x1234), Offset(4, (self.mark, 0), self.mark)]
        self.tables[".debug_info"] += [*head, *self.fields, Mark(end)]
        self.write_lists()
        self.write_table(".debug_addr", [Number(1, 8), Number(1, 0)], [Address(8, value) for value in self.addresses])
        strings = [Offset(4, (".debug_str", name)) for name in self.strings]
        self.write_table(".debug_str_offsets", [Number(2, 0)], strings)
        if self.rng.random() < 0.7:
            self.write_aranges()

    def write_table(self, table: str, head: list[Field], fields: list[Field]) -> None:
        end = (table, self.number, "end")
        base = Mark((table, self.number, "base"))
        self.tables[table] += [Length(4, end), Number(2, 5), *head, base, *fields, Mark(end)]

    def write_lists(self) -> None:
        for table, lists in self.lists.items():
            base = (table, self.number, "base")
            contents = [Offset(4, mark, base) for mark, _ in lists]
            for mark, entries in lists:
                contents += [Mark(mark), *entries]
            self.write_table(table, [Number(1, 8), Number(1, 0), Number(4, len(lists))], contents)

    def write_aranges(self) -> None:
        end = ("aranges", self.number)
        fields = [Length(4, end), Number(2, 2), Offset(4, self.mark), Number(1, 8), Number(1, 0), Raw(bytes(4))]
        for _ in range(self.rng.randint(0, 4)):
            low, high = self.stretch()
            fields += [Address(8, low), Number(8, max(1, high - low))]
        self.tables[".debug_aranges"] += [*fields, Raw(bytes(16)), Mark(end)]


def add(rng: random.Random, tables: dict[str, list], ranges: list[tuple[int, int]], texts: list[str]) -> None:
    """Adds the tables of some units."""
    for name in ("abbrev", "info", "str_offsets", "addr", "rnglists", "loclists", "aranges"):
        tables[f".debug_{name}"] = []
    for number in range(rng.choice([1, 1, 2, 3])):
        Unit(rng, tables, number, ranges, texts).write()
