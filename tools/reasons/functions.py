"""Entry points, instructions and branches that can't be moved: the faults 15 to 19 (ISA manual; psABI)."""
import bisect

from reasons import reloc_names as rel
from reasons.code import Code
from reasons.found import Reason, bytes_of, listed
from reasons.frames import exception_entry
from reasons.isa import AUIPC, JAL, immediate_i, is_instruction, target_of, upper_immediate, what_else

MOST_NAMES = 5
RVC = 1  # of e_flags
TRAPS = (0, 0xC0001073)  # `unimp` of two and of four bytes


def bad_entry(image, place, _):
    code = Code(image)
    part = code.part_of(place)
    section = image.section_at(place)
    if part is None:
        there = f"is in the section `{section.name}`, which has no code" if section else "is in no loaded section"
    elif code.is_padding(part):
        there = f"is in padding, zeros from {part[0]:x} to {part[1]:x} that no function symbol covers"
    elif not code.is_start(place):
        there = f"is inside the instruction that starts at {code.start_before(place):x} ({image.name_of(place)})"
    else:
        return None
    return Reason(f"e_entry is {place:x}, where no instruction of a function starts: it {there}", 'gABI, "ELF Header"',
                  "if the linker found no `_start`, it warned: define it in `.text`, or set ENTRY in the script")


def bad_instruction(image, place, _):
    code = Code(image)
    part = code.part_of(place)
    if part is None or not code.is_start(place):
        return None
    size, word, where = code.size_at(place), code.word_at(place), image.name_of(place)
    shown = f"{word:0{2 * size}x}"
    if place % 2:
        return Reason(f"the instruction at {place:x} ({where}) is at an odd address", "ISA manual, section 1.5")
    if place + size > part[1]:
        return Reason(f"the instruction {shown} at {place:x} ({where}) has {size} bytes, and its function ends at "
                      f"{part[1]:x}, in the middle of it", "ISA manual, section 1.5",
                      "constants in `.text`, or a symbol whose size is wrong")
    if size == 2 and not image.head.flags & RVC:
        return Reason(f"the instruction {shown} at {place:x} ({where}) has two bytes, and e_flags (0) has no flag RVC, "
                      "so the file has no such instructions", 'psABI, "File Header"',
                      "constants in `.text`, or a part that was compiled with another `-march`")
    if is_instruction(word, size):
        return None
    return Reason(f"the instruction {shown} at {place:x} ({where}) isn't one of "
                  f"RV64I{'MC' if image.head.flags & 1 else 'M'}: by its opcode it is {what_else(word, size)}",
                  "ISA manual, chapter \"RV32/64G Instruction Set Listings\" and \"C\"", helps_with(word, size))


def helps_with(word, size):
    if word in TRAPS:
        return ("Clang's trap, as for `__builtin_trap()`: `-ftrap-function=abort`. Or else `unimp` of assembly, or "
                "constants in `.text`: take the linker script `examples/roomy.ld`")
    if size == 4 and word & 0x7F in (0x07, 0x27, 0x43, 0x47, 0x4B, 0x4F, 0x53, 0x2F, 0x73):
        return "compile and link all parts with `-march=rv64imc -mabi=lp64`, and put constants outside `.text`"
    return "constants in `.text`: place them in `.rodata`, or take the linker script `examples/roomy.ld`"


def bare_auipc(image, place, _):
    code = Code(image)
    if code.full_at(place, AUIPC) is None:
        return None
    section, here = image.section_at(place), image.relocations_at(place)
    if any(it.kind in rel.CALLS | rel.UPPER for it in here):
        return None
    of_code = [it for it in image.relocations if it.section == section]
    if here:
        why = f"only {listed(sorted({rel.name(it.kind) for it in here}))}, which doesn't say it"
    elif not image.relocations:
        why = "none: the file has no relocations at all"
    else:
        beside = f"though `{section.name}` has {len(of_code):,} of them" if of_code else f"like all of `{section.name}`"
        why = f"none, {beside}"
    helps = "link with `-Wl,--emit-relocs`, and don't strip the file after it" if not of_code else \
        "Clang with `-mno-relax`, or Clang 14 without `-ffunction-sections`, or assembly under `.option norelax`"
    return Reason(f"the AUIPC at {place:x} ({image.name_of(place)}) needs a relocation that says what address it "
                  f"makes, and has {why}", 'psABI, "PC-Relative Symbol Addresses" and "Procedure Calls"', helps)


def pair_target(image, code, place):
    """Where a call pair at an address goes, if there is one."""
    if not {it.kind for it in image.relocations_at(place)} & rel.CALLS:
        return None
    first, second = code.full_at(place, AUIPC), code.full_at(place + 4)
    if first is None or second is None or immediate_i(second) is None:
        return None
    return place + 4096 * upper_immediate(first) + immediate_i(second)


def bad_target(image, place, _):
    code = Code(image)
    if not code.is_start(place):
        return None
    size = code.size_at(place)
    direct = target_of(place, code.word_at(place), size)
    target = direct if direct is not None else pair_target(image, code, place)
    if target is None:
        return None
    if code.is_start(target):
        return None
    weak = next((it.name for r in image.relocations_at(place) if 0 < r.symbol < len(image.symbols)
                 and not (it := image.symbols[r.symbol]).section), None)
    helps = f"`{weak}` isn't defined: define it, or don't call it" if weak else ""
    where = f", {image.name_of(target)}" if image.section_at(target) else ""
    return Reason(f"{code.shown(place)} at {place:x} ({image.name_of(place)}) goes to {target:x}{where}, where there "
                  f"is {code.shown(target)}, and no instruction of a function", "ISA manual, section 2.5", helps)


def kept_branch(image, place, _):
    code = Code(image)
    if not code.is_start(place):
        return None
    target = target_of(place, code.word_at(place), code.size_at(place))
    part = code.part_of(place)
    if target is None or part[0] <= target < part[1]:
        return None
    entry = exception_entry(image, *part)
    if entry is None:
        return None
    return Reason(f"{code.shown(place)} at {place:x} ({image.name_of(place)}) leaves its function for {target:x} "
                  f"({image.name_of(target)}). That function has an exception table (the FDE at offset {entry:x} of "
                  "`.eh_frame` names it), so it is moved as it is, and the branch can't be made longer",
                  "ISA manual, section 2.5; LSB, \"Exception Frames\"",
                  "GCC split a function that cleans up or catches: `-fno-reorder-blocks-and-partition`; Clang at "
                  "`-O0`: compile with `-O1` or more")


class Ties:
    """Functions that lead into each other by branches, JALs and falling through."""

    def __init__(self, image):
        self.code = Code(image)
        self.parts = [it for it in self.code.parts if not self.code.is_padding(it)]
        self.starts, self.up = [it[0] for it in self.parts], list(range(len(self.parts)))

    def root(self, k):
        while self.up[k] != k:
            self.up[k] = self.up[self.up[k]]
            k = self.up[k]
        return k

    def tie(self, k, address):
        """Ties a function to the one at an address, if there is one."""
        i = bisect.bisect_right(self.starts, address) - 1
        if i >= 0 and self.parts[i][0] <= address < self.parts[i][1]:
            low, high = sorted((self.root(k), self.root(i)))
            self.up[high] = low

    def tie_all(self):
        for k, part in enumerate(self.parts):
            word, size, at = 0, 2, part[0]
            data = self.code.image.bytes_at(*part)
            for at in self.code.starts_of(part):
                size = 4 if data[at - part[0]] & 3 == 3 else 2
                word = int.from_bytes(data[at - part[0]:at - part[0] + size], "little")
                target = target_of(at, word, size)
                if target is not None and not part[0] <= target < part[1]:
                    self.tie(k, target)
            if falls(word, size):
                self.tie(k, at + size)

    def tied_to(self, k):
        return [it for i, it in enumerate(self.parts) if self.root(i) == k]


def falls(word, size):
    """Whether control may go on after an instruction."""
    if size == 2:
        jump = word & 3 == 1 and word >> 13 == 5
        return not jump and not (word & 3 == 2 and word >> 13 == 4 and not word & 0x7C and word & 0xF80)
    return not (word & 0x7F == JAL and not word >> 7 & 31 or word & 0x7F == 0x67 and not word >> 7 & 31)


def unit_too_long(image, place, _):
    ties = Ties(image)
    if place not in ties.starts:
        return None
    ties.tie_all()
    unit = ties.tied_to(ties.starts.index(place))
    total, largest = sum(end - start for start, end in unit), sorted(unit, key=lambda it: it[0] - it[1])[:MOST_NAMES]
    shown = listed(f"`{image.name_of(start).removesuffix('+0')}` ({bytes_of(end - start)})" for start, end in largest)
    tied = f"{len(unit)} functions that lead into each other by branches, JALs or falling through"
    what = f"the function {shown}" if len(unit) == 1 else f"{tied}, the largest of which are {shown},"
    return Reason(f"{what} from {place:x} on would take more than 1,000,000 bytes as moved code, counted with the "
                  f"longest branches ({bytes_of(total)} in the file), and a JAL reaches 1 MiB",
                  "ISA manual, section 2.5",
                  "split the function, compile it with `-Os`, or call where assembly jumps")
