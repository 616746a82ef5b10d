"""What is malformed in an entry of `.eh_frame` or `.debug_frame` (LSB, "Exception Frames"; DWARF 5, section 6.4)."""
import typing

from reasons.found import Cursor, Reason, Wrong, bytes_of
from reasons.image import PT_GNU_EH_FRAME

LSB, DWARF, DWARF64 = 'LSB, "Exception Frames"', "DWARF 5, section 6.4.1", 0xFFFFFFFF
INSTRUCTIONS, ROWS = "DWARF 5, section 7.24", "DWARF 5, section 6.4.2"
ABSPTR, UDATA4, SDATA4, PCREL_SDATA4, INDIRECT, INDIRECT_PCREL, OMIT = 0x00, 0x03, 0x0B, 0x1B, 0x80, 0x9B, 0xFF
SIZES = {ABSPTR: 8, UDATA4: 4, SDATA4: 4, PCREL_SDATA4: 4}
NOTHING, REGISTER, EXPRESSION = "no rule", "a register and an offset", "an expression"
# Call frame instructions by opcode: the name, and the kinds of operands.
PLAIN = {0x00: ("nop", ""), 0x01: ("set_loc", "p"), 0x02: ("advance_loc1", "1"), 0x03: ("advance_loc2", "2"),
         0x04: ("advance_loc4", "4"), 0x05: ("offset_extended", "uu"), 0x06: ("restore_extended", "u"),
         0x07: ("undefined", "u"), 0x08: ("same_value", "u"), 0x09: ("register", "uu"), 0x0A: ("remember_state", ""),
         0x0B: ("restore_state", ""), 0x0C: ("def_cfa", "uu"), 0x0D: ("def_cfa_register", "u"),
         0x0E: ("def_cfa_offset", "u"), 0x0F: ("def_cfa_expression", "b"), 0x10: ("expression", "ub"),
         0x11: ("offset_extended_sf", "us"), 0x12: ("def_cfa_sf", "us"), 0x13: ("def_cfa_offset_sf", "s"),
         0x14: ("val_offset", "uu"), 0x15: ("val_offset_sf", "us"), 0x16: ("val_expression", "ub"),
         0x2E: ("GNU_args_size", "u")}
PACKED = {1: ("advance_loc", ""), 2: ("offset", "u"), 3: ("restore", "")}
MEND = ("GNU as begins CIEs so: `python3 tools/mend.py FILE` mends the linked file, or `-fno-dwarf2-cfi-asm` has GCC "
        "make the table")


class Table(typing.NamedTuple):
    """A frame table: its name, its bytes, its address, and which of the two it is."""

    name: str
    data: bytes
    address: int
    is_debug: bool
    kept: dict  # what was read: entries by their offsets, and CIEs

    def standard(self):
        return DWARF if self.is_debug else LSB


class Entry(typing.NamedTuple):
    """An entry: its offset, its id, and where its body starts and ends."""

    place: int
    id: int
    start: int
    end: int


class Cie(typing.NamedTuple):
    """What of a CIE its FDEs depend on."""

    code: int
    encoding: int
    has_data: bool
    table: typing.Optional[int]
    frame: str


def entry_at(table, place):
    """The entry at an offset; none at the mark that ends `.eh_frame`."""
    fields = Cursor(table.data, place, len(table.data))
    length = fields.number(4, "the length of the entry")
    if length == 0 and not table.is_debug:
        return None
    if length == DWARF64:
        raise Wrong("it is of 64-bit DWARF (its length field begins with ffffffff), which isn't supported",
                    "DWARF 5, section 7.4", "`-gdwarf64`: leave it out")
    if length < 4:
        raise Wrong(f"its length is {length}, which is too short for the field after it")
    if length > fields.left():
        raise Wrong(f"its length is {bytes_of(length)}, and only {fields.left()} follow in the section")
    return Entry(place, fields.number(4, "the id"), place + 8, place + 4 + length)


def entries(table):
    """The entries one after another, up to one that is none."""
    place = 0
    while place < len(table.data):
        try:
            entry = entry_at(table, place)
        except Wrong:
            return
        if entry is None:
            return
        yield entry
        place = entry.end


def is_cie(table, entry):
    return entry.id == (DWARF64 if table.is_debug else 0)


def pointer(table, fields, encoding, what):
    """An encoded pointer, as an address."""
    at = table.address + fields.at
    value = fields.number(SIZES[encoding], what)
    if encoding in (SDATA4, PCREL_SDATA4) and value >> 31:
        value += (1 << 64) - (1 << 32)
    return (at + value) % (1 << 64) if encoding == PCREL_SDATA4 else value


def checked_encoding(value, letter):
    if value not in SIZES:
        raise Wrong(f"its augmentation data give `{letter}` the pointer encoding {value:02x}, which isn't supported "
                    "(00, 03, 0b and 1b are)", 'LSB, "DWARF Extensions"')
    return value


class Augmentation:
    """What the letters of a CIE say."""

    def __init__(self):
        self.has_data, self.encoding, self.table = False, ABSPTR, None

    def read(self, table, fields, text):
        if not text:
            return self
        if text[:1] != b"z":
            raise Wrong(f"its augmentation text `{text.decode(errors='replace')}` doesn't begin with `z`, so the size "
                        "of what it adds isn't known")
        self.has_data = True
        size = fields.uleb("the size of the augmentation data")
        start = fields.at
        fields.take(size, "the augmentation data")
        data = Cursor(table.data, start, fields.at)
        for letter in text[1:].decode("latin-1"):
            self.letter(table, data, letter)
        return self

    def letter(self, table, data, letter):
        if letter == "S":
            return
        if letter not in "RPL":
            raise Wrong(f"its augmentation text has the letter `{letter}`, which isn't known")
        value = data.number(1, f"the pointer encoding of `{letter}`")
        if letter == "R":
            self.encoding = checked_encoding(value, letter)
        elif letter == "L":
            self.table = None if value == OMIT else checked_encoding(value, letter)
        elif value != OMIT:
            plain = {INDIRECT: ABSPTR, INDIRECT_PCREL: PCREL_SDATA4}.get(value, value)
            pointer(table, data, checked_encoding(plain, letter), "the personality routine")


class Machine:
    """The part of the state of a frame program that decides whether an instruction is malformed."""

    def __init__(self, location, frame, is_fde):
        self.location, self.frame, self.saved, self.is_fde = location, frame, [], is_fde

    def move(self, to, name):
        if self.is_fde:
            self.end_row(f"before {name}")
        if to >= 1 << 64:
            raise Wrong(f"{name} moves the location past the greatest address", ROWS)
        self.location = to

    def end_row(self, when):
        if self.frame == NOTHING:
            raise Wrong(f"the row {when} has no rule for the frame address (CFA): neither the CIE nor the FDE defines "
                        "it up to there", "DWARF 5, section 6.4.1")

    def change(self, name):
        """A change of the register or the offset alone wants both to be known."""
        if self.frame != REGISTER:
            known = "no frame address is defined yet" if self.frame == NOTHING else "the frame address is an expression"
            raise Wrong(f"{name} changes one part of a register and an offset, but {known}",
                        "DWARF 5, section 6.4.2.2", MEND if self.frame == NOTHING and not self.is_fde else "")

    def step(self, op, name, values, code):
        high, low = op >> 6, op & 0x3F
        if high == 1:
            self.move(self.location + low * code, name)
        elif op in (0x02, 0x03, 0x04):
            self.move(self.location + values[0] * code, name)
        elif op == 0x01:
            if values[0] < self.location and not (self.is_fde and self.frame == NOTHING):
                raise Wrong(f"{name} goes back from {self.location:x} to {values[0]:x}", "DWARF 5, section 6.4.2.1")
            self.move(values[0], name)
        elif op in (0x0D, 0x0E, 0x13):
            self.change(name)
        elif op in (0x0C, 0x12):
            self.frame = REGISTER
        elif op == 0x0F:
            self.frame = EXPRESSION
        elif op == 0x0A:
            self.saved.append(self.frame)
        elif op == 0x0B:
            if not self.saved:
                raise Wrong(f"{name} takes a state back, but none is remembered", "DWARF 5, section 6.4.2.4")
            self.frame = self.saved.pop()


def operand(table, fields, kind, encoding, name):
    if kind == "p":
        return pointer(table, fields, encoding, f"the address of {name}")
    if kind == "u":
        return fields.uleb(f"an operand of {name}")
    if kind == "s":
        return fields.sleb(f"an operand of {name}")
    if kind == "b":
        return fields.leb_block(f"the expression of {name}")
    return fields.number(int(kind), f"the operand of {name}")


def instruction(table, fields, code, encoding):
    """The instruction at the front: its opcode, its name with its offset, and its operands."""
    at = fields.at
    op = fields.number(1, "an instruction")
    name, kinds = PACKED[op >> 6] if op >> 6 else PLAIN.get(op, (None, ""))
    if name is None:
        raise Wrong(f"the opcode {op:02x} at offset {at:x} is no call frame instruction", INSTRUCTIONS)
    name = f"DW_CFA_{name} at offset {at:x}"
    values = [operand(table, fields, kind, encoding, name) for kind in kinds]
    steps = op & 0x3F if op >> 6 == 1 else values[0] if op in (0x02, 0x03, 0x04) else 0
    if steps * code >= 1 << 64:
        raise Wrong(f"{name} advances by {steps} times the code alignment factor {code}, which has more than 64 bits",
                    INSTRUCTIONS)
    return op, name, values


def run(table, fields, machine, code, encoding):
    """The instructions up to the end of an entry. All are read before any is judged."""
    read = []
    while not fields.is_over():
        read.append(instruction(table, fields, code, encoding))
    for op, name, values in read:
        machine.step(op, name, values, code)


def read_cie(table, entry):
    fields = Cursor(table.data, entry.start, entry.end)
    version = fields.number(1, "the version")
    text = fields.text("the augmentation text")
    if version == 4:
        address, segment = fields.number(1, "the address size"), fields.number(1, "the segment selector size")
        if (address, segment) != (8, 0):
            raise Wrong(f"its addresses have {address} bytes and its segment selectors {segment}, not 8 and 0")
    elif version not in (1, 3):
        raise Wrong(f"its version is {version}, which isn't known (1, 3 and 4 are)")
    code = fields.uleb("the code alignment factor")
    fields.sleb("the data alignment factor")
    if version == 1:
        fields.number(1, "the return address register")
    elif (register := fields.uleb("the return address register")) > 255:
        raise Wrong(f"its return address register is {register}, and at most 255 is supported")
    found = Augmentation().read(table, fields, text)
    machine = Machine(0, NOTHING, False)
    run(table, fields, machine, code, found.encoding)
    return Cie(code, found.encoding, found.has_data, found.table, machine.frame)


def cie_of(table, entry):
    """The CIE that an FDE names."""
    place = entry.id if table.is_debug else entry.place + 4 - entry.id
    if place < 0:
        raise Wrong(f"its CIE pointer {entry.id:x} leads to before the section")
    if "entries" not in table.kept:
        table.kept["entries"] = {it.place: it for it in entries(table)}
    cie = table.kept["entries"].get(place)
    if cie is None or not is_cie(table, cie):
        there = "an FDE begins" if cie else "no entry begins"
        raise Wrong(f"its CIE pointer {entry.id:x} leads to offset {place:x}, where {there}, and no CIE")
    try:
        if place not in table.kept:
            table.kept[place] = read_cie(table, cie)
        return table.kept[place]
    except Wrong as wrong:
        raise Wrong(f"its CIE at offset {place:x} is malformed: {wrong.text}", wrong.standard, wrong.helps) from None


class Fde(typing.NamedTuple):
    """The range of an FDE, and the pointer to its exception table, or 0."""

    start: int
    size: int
    table: int


def read_head(table, fields, cie):
    """The fields of an FDE before its instructions."""
    start = pointer(table, fields, cie.encoding, "the initial location")
    size = fields.number(SIZES[cie.encoding], "the address range")
    if cie.encoding in (SDATA4, PCREL_SDATA4) and size >> 31:
        size += (1 << 64) - (1 << 32)
    if start + size >= 1 << 64:
        raise Wrong(f"its range, {size:x} bytes from {start:x} on, ends past the greatest address")
    exceptions = 0
    if cie.has_data:
        length = fields.uleb("the size of the augmentation data")
        begin = fields.at
        fields.take(length, "the augmentation data")
        if cie.table is not None:
            data = Cursor(table.data, begin, fields.at)
            stored = int.from_bytes(table.data[begin:begin + SIZES[cie.table]], "little")
            found = pointer(table, data, cie.table, "the pointer to the exception table")
            exceptions = found if stored else 0
    return Fde(start, size, exceptions)


def read_fde(table, entry):
    cie = cie_of(table, entry)
    fields = Cursor(table.data, entry.start, entry.end)
    head = read_head(table, fields, cie)
    machine = Machine(head.start, cie.frame, True)
    run(table, fields, machine, cie.code, cie.encoding)
    machine.end_row("at the end of the FDE")
    return head


def judge(image, table, place):
    """What is wrong with the entry at an offset, if something is."""
    what = f"the entry at offset {place:x}"
    try:
        entry = entry_at(table, place)
        if entry is None:
            return None
        what = f"the {'CIE' if is_cie(table, entry) else 'FDE'} at offset {place:x}" + of_function(image, table, entry)
        (read_cie if is_cie(table, entry) else read_fde)(table, entry)
    except Wrong as wrong:
        return wrong.reason(f"{what} of `{table.name}` is malformed", table.standard())
    return None


def of_function(image, table, entry):
    """The function of an FDE in words, as far as its fields can be read."""
    try:
        head = read_head(table, Cursor(table.data, entry.start, entry.end), cie_of(table, entry))
    except Wrong:
        return ""
    return "" if is_cie(table, entry) else f", for {image.name_of(head.start)},"


def tables(image):
    return [Table(name, *image.contents(name), is_debug, {})
            for name, is_debug in ((".eh_frame", False), (".debug_frame", True))]


def frame_fault(image, place, _):
    """The first of the two tables that has a malformed entry at the place."""
    found = (judge(image, table, place) for table in tables(image) if place < len(table.data))
    return next(filter(None, found), None)


def exception_entry(image, low, high):
    """The offset in `.eh_frame` of the first FDE with an exception table and addresses in a range."""
    table = tables(image)[0]
    for entry in entries(table):
        if is_cie(table, entry):
            continue
        try:
            fde = read_fde(table, entry)
        except Wrong:
            return None
        if fde.table and max(low, fde.start) < min(high, fde.start + fde.size):
            return entry.place
    return None


def registered_frames(image, place, _):
    names = [it.name for it in image.symbols if it.section and it.name in ("__register_frame", "__register_frame_info")]
    table = image.called(".eh_frame")
    has_header = any(it.kind == PT_GNU_EH_FRAME for it in image.head.segments)
    if not names or table is None or table.address != place or not table.size or has_header:
        return None
    return Reason(f"`.eh_frame` at {place:x} is loaded, the file has no program header of type PT_GNU_EH_FRAME, and it "
                  f"defines `{names[0]}`, by which a program registers this table itself: it would go on using the old "
                  "one", 'LSB, "Program Header"; GCC\'s `crtbegin.o` or libgcc')
