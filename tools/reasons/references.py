"""Relocations that don't fit, and files that select routines or were rewritten: the faults 9 to 14 (psABI,
"Relocations")."""
from reasons import reloc_names as rel
from reasons.code import Code
from reasons.found import Reason
from reasons.image import STT_GNU_IFUNC
from reasons.isa import AUIPC, JALR, LUI, hi20, immediate_i, immediate_s, lo12, upper_immediate

RELOCATIONS, CALLS = 'psABI, "Relocations"', 'psABI, "Procedure Calls"'
PC_RELATIVE, ABSOLUTE = 'psABI, "PC-Relative Symbol Addresses"', 'psABI, "Absolute Addresses"'
END = 0x7FFF0000


class References:
    """The relocations of a file at an address, with its code."""

    def __init__(self, image):
        self.image, self.code = image, Code(image)

    def value(self, r):
        """S: the value of the symbol."""
        return self.image.symbols[r.symbol].value if 0 < r.symbol < len(self.image.symbols) else 0

    def label(self, r):
        """S + A."""
        return self.value(r) + r.addend

    def words(self, r):
        """A relocation: its type, where, of what symbol."""
        symbols = self.image.symbols
        named = symbols[r.symbol].name if r.symbol < len(symbols) else f"symbol {r.symbol}"
        symbol = named or f"{self.value(r):x}"
        addend = f"{'+' if r.addend > 0 else '-'}{abs(r.addend):x}" if r.addend else ""
        return (f"{rel.name(r.kind)} (type {r.kind}) for `{symbol}{addend}` at {r.place:x} "
                f"({self.image.name_of(r.place)}, section `{r.section.name}`)")

    def is_code_label(self, z):
        return self.code.is_start(z)

    def shown(self, address):
        return self.code.shown(address)

    # Misfits. Each gives why a relocation doesn't fit, and the section of the standard, if it doesn't.

    def bad_field(self, r):
        if r.symbol and r.symbol >= len(self.image.symbols):
            return f"names symbol {r.symbol}, and the table has {len(self.image.symbols)}", RELOCATIONS
        size = self.size(r)
        low, high = r.section.address, r.section.address + r.section.size
        if r.kind in rel.IGNORED or size is not None and low <= r.place and r.place + size <= high:
            return None
        field = "its LEB128 number doesn't end in" if size is None else f"its field of {size} bytes isn't inside"
        return f"{field} the section, {low:x} to {high:x}", RELOCATIONS

    def size(self, r):
        """The bytes of the field; none if a LEB128 number doesn't end in the section."""
        width = rel.PLUS.get(r.kind, rel.MINUS.get(r.kind))
        if width == rel.ULEB:
            return self.leb_size(r)
        if width:
            return (width + 7) // 8
        return 8 if r.kind in rel.CALLS | {rel.R_64, rel.IRELATIVE} else 4

    def leb_size(self, r):
        for at in range(r.place, r.section.address + r.section.size):
            byte = self.image.byte(at)
            if byte is None:
                return None
            if byte < 0x80:
                return at + 1 - r.place
        return None

    def call_pair(self, r):
        """The words of AUIPC and JALR, if both are in the same part."""
        first, second = self.code.full_at(r.place, AUIPC), self.code.full_at(r.place + 4, JALR)
        if first is None or second is None or immediate_i(second) is None:
            return None
        return (first, second) if self.code.part_of(r.place) == self.code.part_of(r.place + 4) else None

    def bad_call(self, r):
        if r.kind not in rel.CALLS:
            return None
        pair = self.call_pair(r)
        if pair is None:
            return (f"wants an AUIPC followed by a JALR of the same function, and there is {self.shown(r.place)} "
                    f"followed by {self.shown(r.place + 4)}", CALLS)
        first, second = pair
        written, base, upper, lower = first >> 7 & 31, second >> 15 & 31, upper_immediate(first), immediate_i(second)
        if base and base == written:
            return self.bad_target(r, upper, lower, CALLS)
        if base == 0 and upper == 0 and (written == 0 or lower == 0):
            return None  # a weak symbol that isn't defined
        return f"wants a JALR through the register of its AUIPC, x{written}, and the JALR goes through x{base}", CALLS

    def bad_target(self, r, upper, lower, standard):
        target = r.place + 4096 * upper + lower
        if 0 <= target <= END:
            return None
        return f"with its second instruction it has the target {target:x}, which is no address of a program", standard

    def lows(self, address):
        """The relocations for lower parts that name the AUIPC at an address."""
        return [it for it in self.image.relocations if it.kind in rel.LOWER and self.value(it) == address]

    def lower_of(self, r):
        """The lower immediate of the instruction that a relocation applies to, if it can have one."""
        word = self.code.full_at(r.place)
        if word is None:
            return None
        return immediate_i(word) if r.kind in (rel.PCREL_LO12_I, rel.LO12_I) else immediate_s(word)

    def bad_upper(self, r):
        if r.kind not in rel.UPPER:
            return None
        word = self.code.full_at(r.place, AUIPC)
        if word is None:
            return f"wants an AUIPC, and there is {self.shown(r.place)}", PC_RELATIVE
        lows = self.lows(r.place)
        if not lows:
            return "is the upper part of an address, and no relocation for a lower part names it", PC_RELATIVE
        for lower in filter(lambda it: it is not None, map(self.lower_of, lows)):
            found = self.bad_target(r, upper_immediate(word), lower, PC_RELATIVE)
            found = found or self.bad_slot(r, r.place + 4096 * upper_immediate(word) + lower)
            if found:
                return found
        return None

    def bad_slot(self, r, slot):
        number = self.image.loaded(slot, 8)
        if r.kind != rel.GOT_HI20 or number == self.label(r):
            return None
        there = f"{number:x}" if number is not None else "nothing that is loaded"
        return (f"leads to the entry of the global offset table at {slot:x}, which has {there}, not {self.label(r):x}",
                PC_RELATIVE)

    def bad_lower(self, r):
        if r.kind not in rel.LOWER:
            return None
        if self.lower_of(r) is None:
            kind = "ADDI, a load or JALR" if r.kind == rel.PCREL_LO12_I else "a store"
            return f"wants {kind}, and there is {self.shown(r.place)}", PC_RELATIVE
        upper = self.value(r)
        there = {it.kind for it in self.image.relocations_at(upper)}
        if self.code.full_at(upper, AUIPC) is None:
            return f"names {upper:x} as its AUIPC, and there is {self.shown(upper)}", PC_RELATIVE
        if not there & rel.UPPER or there & rel.CALLS:
            what = "a relocation for a call" if there & rel.CALLS else "no relocation for an upper part"
            return f"names the AUIPC at {upper:x}, which has {what}", PC_RELATIVE
        return None

    def bad_absolute(self, r):
        target = self.label(r)
        if r.kind not in rel.ABSOLUTE or not self.is_code_label(target):
            return None
        word = self.code.full_at(r.place, *([LUI] if r.kind == rel.HI20 else []))
        has = None if word is None else upper_immediate(word) if r.kind == rel.HI20 else self.lower_of(r)
        wanted = hi20(target) if r.kind == rel.HI20 else lo12(target)
        if has is None:
            return (f"wants an instruction with a part of the code address {target:x}, and there is "
                    f"{self.shown(r.place)}", ABSOLUTE)
        if has != wanted:
            return f"wants {wanted}, a part of the code address {target:x}, and the instruction has {has}", ABSOLUTE
        return None

    # Differences of two labels.

    def pair_at(self, place, width):
        here = self.image.relocations_at(place)
        plus = [it for it in here if rel.PLUS.get(it.kind) == width]
        minus = [it for it in here if rel.MINUS.get(it.kind) == width]
        return plus, minus

    def difference(self, r):
        """The width and the two labels, if the relocation gives a difference."""
        if r.kind in rel.PC_DIFFERENCES:
            return 32, self.label(r), r.place
        if r.kind not in rel.PLUS:
            return None
        plus, minus = self.pair_at(r.place, rel.PLUS[r.kind])
        both = len(plus) == len(minus) == 1
        return (rel.PLUS[r.kind], self.label(r), self.label(minus[0])) if both else None

    def bad_difference(self, r):
        found = self.difference(r)
        if found:
            width, to, start = found
            wrong = self.wrong_number(r, width, to - start)
            return wrong and (f"is for the distance of {to:x} from {start:x}, {to - start:x}, and {wrong}", RELOCATIONS)
        width = rel.PLUS.get(r.kind, rel.MINUS.get(r.kind))
        if width is None or not self.is_code_label(self.label(r)):
            return None
        plus, minus = self.pair_at(r.place, width)
        if len(plus) == len(minus) == 1:
            return None
        return (f"has the code address {self.label(r):x}, and isn't one of a pair: at its place {len(plus)} "
                f"relocations of its width add or set a label, and {len(minus)} subtract one", RELOCATIONS)

    def wrong_number(self, r, width, distance):
        """What the field of a difference has, if not the distance."""
        if width == rel.ULEB:
            size = self.leb_size(r) or 0
            low = sum(((self.image.byte(r.place + k) or 0) & 0x7F) << 7 * k for k in range(size))
            return None if size and low == distance % (1 << 7 * size) else f"its LEB128 number is {low:x}"
        number = self.image.loaded(r.place, (width + 7) // 8)
        if number is None:
            return "its bytes aren't loaded"
        number %= 1 << width
        return None if number == distance % (1 << width) else f"its field of {width} bits has {number:x}"

    def misfit(self, r):
        tests = (self.bad_field, self.bad_call, self.bad_upper, self.bad_lower, self.bad_absolute, self.bad_difference)
        return next((found for test in tests if (found := test(r))), None)

    def bad_label(self, place):
        """A difference at an address that holds a code address, one of whose labels is no address."""
        for r in self.image.relocations_at(place):
            found = self.difference(r) if r.kind in rel.CELLS else None
            if found and any(map(self.is_code_label, found[1:])):
                far = next((z for z in found[1:] if not 0 <= z <= END), None)
                if far is not None:
                    return r, f"is for a distance from or to {far:x}, which is no address of a program"
        return None


def reloc_type(image, place, _):
    found = References(image)
    r = next((it for it in image.relocations_at(place) if it.kind not in rel.SUPPORTED), None)
    if r is None:
        return None
    helps = {46: "--no-relax", 47: "--no-relax", 48: "--no-relax", 49: "--no-relax", 50: "--no-relax"}.get(r.kind)
    cure = f"a relaxation of GNU ld: link with `-Wl,{helps}`" if helps else ""
    cure = "a descriptor of thread-local data: `-mtls-dialect=trad`" if 62 <= r.kind <= 65 or r.kind == 12 else cure
    return Reason(f"the relocation {found.words(r)} has a type that isn't supported", RELOCATIONS, cure)


def reloc_mismatch(image, place, _):
    found = References(image)
    for r in image.relocations_at(place):
        why = found.misfit(r)
        if why:
            return Reason(f"the relocation {found.words(r)} {why[0]}", why[1])
    bad = found.bad_label(place)
    return bad and Reason(f"the relocation {found.words(bad[0])} {bad[1]}", RELOCATIONS)


def lo_mismatch(image, place, _):
    found = References(image)
    lows = [(it, found.lower_of(it)) for it in found.lows(place)]
    lows = [it for it in lows if it[1] is not None]
    other = next((it for it in lows if it[1] != lows[0][1]), None)
    if other is None:
        return None
    first, second = (f"{it.place:x} ({image.name_of(it.place)}) has {value}" for it, value in (lows[0], other))
    return Reason(f"two lower parts belong to the AUIPC at {place:x} ({image.name_of(place)}) and differ: the "
                  f"instruction at {first}, that at {second}", PC_RELATIVE,
                  "assembly that reaches two places by one `%pcrel_hi`: use an "
                  "AUIPC for each, as `la` does")


def narrow_diff(image, place, _):
    found = References(image)
    for r in image.relocations_at(place):
        pair = found.difference(r)
        if pair and r.kind not in rel.CELLS and any(map(found.is_code_label, pair[1:])):
            width, to, start = pair
            bits = width if width == rel.ULEB else f"{width} bits" + (", which SET32 sets" if width == 32 else "")
            return Reason(f"the field at {place:x} ({image.name_of(place)}, section `{r.section.name}`) has the "
                          f"distance of the code addresses {to:x} ({image.name_of(to)}) and {start:x} "
                          f"({image.name_of(start)}) in {bits}, by {rel.name(r.kind)}: it can't be changed as code "
                          "moves", RELOCATIONS,
                          "tables of distances in 8 or 16 bits: use entries of 32 bits, or `-fno-jump-tables`")
    return None


def ifunc_or_plt(image, place, _):
    symbol = next((it for it in image.symbols if it.info % 16 == STT_GNU_IFUNC and it.value == place), None)
    if symbol:
        return Reason(f"the symbol `{symbol.name}` at {place:x} is of type STT_GNU_IFUNC: a routine selects the "
                      "function as the program starts", 'gABI, "Symbol Table" (STT_LOOS), and psABI, "Relocations"')
    it = next((it for it in image.sections if it.name in (".plt", ".iplt") and it.size and it.address == place), None)
    if it:
        return Reason(f"the section `{it.name}` at {place:x} has {it.size} bytes of stubs by which functions are "
                      "selected as the program starts", 'psABI, "Program Linkage Table"')
    found = References(image)
    r = next((it for it in image.relocations_at(place) if it.kind == rel.IRELATIVE), None)
    return r and Reason(f"the relocation {found.words(r)} selects a function as the program starts", RELOCATIONS)


def already_moved(image, place, _):
    if place >= len(image.sections) or not image.sections[place].name.startswith(".old."):
        return None
    return Reason(f"the section {place} is `{image.sections[place].name}`: a rewrite gives that name to code that it "
                  "replaces",
                  'docs/FORMATS.md', "rewrite the linked program again, by the new profile")
