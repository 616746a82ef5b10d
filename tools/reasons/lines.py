"""What is malformed in a unit of `.debug_line` (DWARF 5, sections 6.2 and 7.22)."""
import typing

from reasons import dwarf_names as dw
from reasons.found import Cursor, Wrong, bytes_of
from reasons.units import walked

HEADER, TABLES, PROGRAM = "DWARF 5, section 6.2.4", "DWARF 5, section 6.2.4.1", "DWARF 5, section 6.2.5"
PATH, DIRECTORY, MD5 = 1, 2, 5
NUMBERS, TEXTS = {0x0B, 0x05, 0x06, 0x07, 0x0F}, {0x08, 0x0E, 0x1F}
STRP, LINE_STRP, IMPLICIT = 0x0E, 0x1F, 0x21
# Standard opcodes: the name, and the kind of the operand: u and s are LEB128, a number its bytes.
OPCODES = {1: ("copy", ""), 2: ("advance_pc", "u"), 3: ("advance_line", "s"), 4: ("set_file", "u"),
           5: ("set_column", "u"), 6: ("negate_stmt", ""), 7: ("set_basic_block", ""), 8: ("const_add_pc", ""),
           9: ("fixed_advance_pc", "2"), 10: ("set_prologue_end", ""), 11: ("set_epilogue_begin", ""),
           12: ("set_isa", "u")}
ENDS, SETS_ADDRESS, DISCRIMINATOR = 1, 2, 4
VENDOR = "Clang's `-gembed-source` adds contents of a type that DWARF 5 leaves to vendors: leave it out"


class Header(typing.NamedTuple):
    """The numbers that instructions depend on."""

    minimum: int
    line_range: int
    opcode_base: int
    lengths: bytes
    files: int


class Texts(typing.NamedTuple):
    """The two sections of texts."""

    str: bytes
    line_str: bytes

    def judge(self, form, offset, what):
        """Raises that an offset names no text."""
        if form not in (STRP, LINE_STRP):
            return
        data, name = (self.str, ".debug_str") if form == STRP else (self.line_str, ".debug_line_str")
        if offset >= len(data) or data.find(b"\0", offset) < 0:
            raise Wrong(f"{what} names offset {offset:x} of `{name}` ({bytes_of(len(data))}), where no text ends",
                        TABLES)


def read_format(fields, what):
    """The format of entries: pairs of a content type and a form."""
    pairs = []
    for _ in range(fields.number(1, f"the count of the format of {what}")):
        at = fields.at
        kind, form = fields.uleb(f"a content type of {what}"), fields.uleb(f"a form of {what}")
        if not PATH <= kind <= MD5:
            name = f" (DW_LNCT_{dw.CONTENTS[kind]})" if kind in dw.CONTENTS else ""
            raise Wrong(f"the format of {what} has, at offset {at:x}, the content type {kind:#x}{name}, which isn't "
                        "one of the standard", TABLES, VENDOR if kind == 0x2001 else "")
        pairs.append((kind, form))
    return pairs


def read_entry(fields, pairs, texts, what):
    """The directory's index of an entry."""
    found, directory = False, 0
    for kind, form in pairs:
        name = f"DW_LNCT_{dw.CONTENTS[kind]} of {what}"
        if form == dw.INDIRECT:
            form = fields.uleb(f"the form of {name}")
        if form not in dw.SHAPES or form in (IMPLICIT, dw.INDIRECT):
            raise Wrong(f"{name} has {dw.form(form)}, which can't be used there", TABLES)
        value = dw.value(fields, form, 0, name)
        if kind == PATH:
            found = True
            if form not in TEXTS:
                raise Wrong(f"{name} has {dw.form(form)}, which is no text that is supported (string, strp and "
                            "line_strp are)", TABLES)
            texts.judge(form, value, name)
        elif kind == DIRECTORY:
            if form not in NUMBERS:
                raise Wrong(f"{name} has {dw.form(form)}, which is no number", TABLES)
            directory = value
    if not found:
        raise Wrong(f"{what} has no DW_LNCT_path", TABLES)
    return directory


def read_table(fields, texts, what):
    """The indexes of the directories of the entries of a table."""
    pairs = read_format(fields, what)
    count = fields.uleb(f"the count of {what}")
    return [read_entry(fields, pairs, texts, f"entry {k} of {what}") for k in range(count)]


def read_header(fields, texts):
    """The fields after the header's length."""
    minimum = fields.number(1, "minimum_instruction_length")
    most = fields.number(1, "maximum_operations_per_instruction")
    fields.take(2, "default_is_stmt and line_base")
    line_range, base = fields.number(1, "line_range"), fields.number(1, "opcode_base")
    lengths = fields.take(max(base - 1, 0), "standard_opcode_lengths")
    directories = read_table(fields, texts, "the directories")
    files = read_table(fields, texts, "the files")
    if most != 1:
        raise Wrong(f"maximum_operations_per_instruction is {most}, not 1")
    for name, value in (("line_range", line_range), ("opcode_base", base)):
        if value == 0:
            raise Wrong(f"{name} is 0")
    far = next((k for k, index in enumerate(files) if index >= len(directories)), None)
    if far is not None:
        raise Wrong(f"the file {far} is in the directory {files[far]}, and there are {len(directories)}", TABLES)
    return Header(minimum, line_range, base, bytes(lengths), len(files))


class Machine:
    """The registers that decide whether an instruction is sound."""

    def __init__(self, header):
        self.header = header
        self.restart()

    def restart(self):
        self.address, self.file, self.last = 0, 1, None

    def advance(self, by, name):
        self.address += by
        if self.address >= 1 << 64:
            raise Wrong(f"{name} moves the address past the greatest one", PROGRAM)

    def follow(self, name):
        if self.last is not None and self.address < self.last:
            raise Wrong(f"{name} makes a row at {self.address:x}, below that of the row before it in the sequence, "
                        f"{self.last:x}", PROGRAM)

    def row(self, name):
        self.follow(name)
        if self.file >= self.header.files:
            raise Wrong(f"{name} makes a row of the file {self.file}, and there are {self.header.files}", PROGRAM)
        self.last = self.address

    def special(self, opcode, name):
        self.advance((opcode - self.header.opcode_base) // self.header.line_range * self.header.minimum, name)
        self.row(name)

    def standard(self, opcode, value, name):
        if opcode == 1:
            self.row(name)
        elif opcode == 2:
            self.advance(value * self.header.minimum, name)
        elif opcode == 4:
            self.file = value
        elif opcode == 8:
            self.advance((255 - self.header.opcode_base) // self.header.line_range * self.header.minimum, name)
        elif opcode == 9:
            self.advance(value, name)

    def extended(self, opcode, value, name):
        if opcode == ENDS:
            self.follow(name)
            self.restart()
        elif opcode == SETS_ADDRESS:
            self.address = value


def read_extended(fields, at):
    """An extended instruction: its opcode and its operand."""
    what = f"the extended instruction at offset {at:x}"
    size = fields.uleb(f"the length of {what}")
    data = Cursor(fields.data, fields.at, fields.at + size)
    fields.take(size, what)
    opcode, value = data.number(1, f"the opcode of {what}"), 0
    if opcode == SETS_ADDRESS:
        value = data.number(8, f"the address of {what} (DW_LNE_set_address)")
    elif opcode == DISCRIMINATOR:
        data.uleb(f"the operand of {what} (DW_LNE_set_discriminator)")
    return opcode, value


def read_standard(fields, opcode, lengths, at):
    """The operand of a standard instruction, and its name."""
    name, kind = OPCODES.get(opcode, (None, ""))
    name = f"DW_LNS_{name} at offset {at:x}" if name else f"the opcode {opcode} at offset {at:x}"
    if opcode not in OPCODES:
        for _ in range(lengths[opcode - 1]):
            fields.uleb(f"an operand of {name}")
    value = 0
    if kind == "u":
        value = fields.uleb(f"the operand of {name}")
    elif kind == "s":
        fields.sleb(f"the operand of {name}")
    elif kind:
        value = fields.number(int(kind), f"the operand of {name}")
    return value, name


def run(fields, header):
    """The line number program."""
    machine = Machine(header)
    while not fields.is_over():
        at = fields.at
        opcode = fields.number(1, "an opcode")
        if opcode >= header.opcode_base:
            machine.special(opcode, f"the special opcode {opcode} at offset {at:x}")
        elif opcode == 0:
            machine.extended(*read_extended(fields, at), f"the extended instruction at offset {at:x}")
        else:
            value, name = read_standard(fields, opcode, header.lengths, at)
            machine.standard(opcode, value, name)
    if machine.last is not None:
        raise Wrong("the last sequence has rows, and no DW_LNE_end_sequence", PROGRAM)


def judge(unit, data, texts):
    fields = unit.cursor(data)
    fields.number(2, "the version")
    sizes = fields.number(1, "the address size"), fields.number(1, "the segment selector size")
    size = fields.number(4, "header_length")
    start = fields.at
    fields.take(size, "the header (header_length)")
    header = read_header(Cursor(data, start, fields.at), texts)
    if sizes != (8, 0):
        raise Wrong(f"its addresses have {sizes[0]} bytes and its segment selectors {sizes[1]}, not 8 and 0")
    run(fields, header)


def line_fault(image, place, _):
    data = image.contents(".debug_line")[0]
    texts = Texts(image.contents(".debug_str")[0], image.contents(".debug_line_str")[0])
    unit = next((it for it in walked(data) if it.place == place), None)
    try:
        if unit:
            judge(unit, data, texts)
    except Wrong as wrong:
        return wrong.reason(f"the unit at offset {place:x} of `.debug_line` is malformed", HEADER)
    return None
