#!/usr/bin/env python3
"""Mends tables of linked programs in place, before they are rewritten, and says what it changed.

    python3 tools/mend.py FILE..

- Frame tables that GNU as made are refused: each common entry begins by changing a register that isn't given yet. In as
  many bytes it is given.
- GCC ends the location of a variable in a register that a call may change one byte before the end of the call. A
  debugger looks at that byte in a frame that waits for the call, and so doesn't read the register, which holds
  something else by then. A rewritten file says of all bytes of an instruction what its input says of the first, so the
  register would be read there. Bounds inside an instruction are moved to its start: then both files say of the whole
  call what GCC says of its last byte. Only ranges with two addresses are looked at, as GCC makes them for RISC-V.
- GCC says of a tail call, which is a jump, where it would return. That is where the next function starts, and moves
  with it: then a backtrace through the call names a function that wasn't called. The address stays, but under another
  name (DW_AT_entry_pc), so debuggers don't show frames of tail calls, in neither file.
- Linkers leave pairs of zeros in `.debug_aranges` for functions that they left out. A table ends at such a pair, though
  some tools read on. They are put after the others.

Compressed tables are left as they are, and frames and ranges of 64-bit DWARF. Locations are found by the relocations
that the linker kept.
"""
import argparse
import bisect
import os
import struct

from elf_file import SHF_EXECINSTR, ElfFile
from frame_tables import after_leb, mend_frames
from program_graph import Failure, run_script, written_whole

START_END, ADDRESS = 0x07, 8  # DWARF 5, section 7.7.3; bytes of an address
PAIR = 2 * ADDRESS
CALL_SITE, IMPLICIT_CONST = 0x48, 0x21  # DWARF 5, section 7.5
CALL_TAIL_CALL, CALL_RETURN_PC, ENTRY_PC = bytes([0x82, 0x01]), bytes([0x7D]), bytes([0x52])


class Code:
    """Where instructions start, in the functions that are asked for."""

    def __init__(self, elf):
        self.sections = [it for it in elf.sections if it.flags & SHF_EXECINSTR]
        self.cuts = sorted({it.address for it in self.sections} | {address for address, _ in elf.functions()})
        self.data, self.starts = elf.data, {}

    def starts_after(self, cut, section):
        """Where instructions start from an address up to the next function, or to the end of the section."""
        if cut not in self.starts:
            i, end = bisect.bisect_right(self.cuts, cut), section.address + section.size
            at, end, found = cut, min([end, *self.cuts[i:i + 1]]), set()
            distance = section.offset - section.address
            while at < end:
                found.add(at)
                # The lowest two bits of an instruction of four bytes are both set (the manual's chapter on lengths).
                at += 4 if self.data[at + distance] & 3 == 3 else 2
            self.starts[cut] = found
        return self.starts[cut]

    def start_of(self, bound):
        """The start of the instruction that holds an address, or the address itself if none does."""
        for section in self.sections:
            if section.address < bound < section.address + section.size:
                cut = self.cuts[bisect.bisect_right(self.cuts, bound) - 1]
                starts = self.starts_after(max(cut, section.address), section)
                return next((at for at in range(bound, bound - 4, -1) if at in starts), bound)
        return bound


def mend_locations(elf):
    """Moves bounds of locations to starts of instructions. Gives how many it moved."""
    section = elf.section(".debug_loclists")
    if not section:
        return 0
    code, moved, known = Code(elf), 0, {}
    places = set(elf.addresses_in(".debug_loclists"))
    for place in places:
        first = section.offset + place
        if place + ADDRESS not in places or elf.data[first - 1] != START_END:
            continue
        for at in (first, first + ADDRESS):
            bound = int.from_bytes(elf.data[at:at + ADDRESS], "little")
            if bound not in known:
                known[bound] = code.start_of(bound)
            if known[bound] != bound:
                elf.data[at:at + ADDRESS] = known[bound].to_bytes(ADDRESS, "little")
                moved += 1
    return moved


def declarations(table):
    """The declarations of `.debug_abbrev`: the place of the tag of each, and those of its attributes' names."""
    at = 0
    while at < len(table):
        at = after_leb(table, at)
        if table[at - 1] == 0:  # the end of a table: its number is 0
            continue
        tag, names = at, []
        at = after_leb(table, at) + 1
        while table[at:at + 2] != bytes(2):
            form = after_leb(table, at)
            names.append((at, form))
            at = after_leb(table, form)
            if table[form] == IMPLICIT_CONST:
                at = after_leb(table, at)
        at += 2
        yield tag, names


def mend_tail_calls(elf):
    """Takes the place of return from tail calls. Gives of how many declarations."""
    section, changed = elf.section(".debug_abbrev"), 0
    table = elf.bytes_of(section) if section else b""
    for tag, names in declarations(table):
        named = {table[at:end]: at for at, end in names}
        if table[tag] == CALL_SITE and CALL_TAIL_CALL in named and CALL_RETURN_PC in named:
            at = section.offset + named[CALL_RETURN_PC]
            elf.data[at:at + 1] = ENTRY_PC
            changed += 1
    return changed


def mend_ranges(elf):
    """Puts pairs of zeros in `.debug_aranges` after the others of their table. Gives how many tables it changed."""
    section, changed = elf.section(".debug_aranges"), 0
    at, end = (section.offset, section.offset + section.size) if section else (0, 0)
    while at < end:
        past = at + 4 + int.from_bytes(elf.data[at:at + 4], "little")
        first = at + PAIR  # after a header of 12 bytes, at a multiple of a pair's size (DWARF 5, section 6.1.2)
        if not first <= past <= end:
            break  # 64-bit DWARF, or damaged: the rest is left as it is
        # So is a table that has no whole number of pairs, or segments, or addresses of another size.
        if (past - first) % PAIR == 0 and elf.data[at + 10:at + 12] == bytes([ADDRESS, 0]):
            pairs = [bytes(elf.data[place:place + PAIR]) for place in range(first, past, PAIR)]
            ordered = b"".join(sorted(pairs, key=lambda pair: pair == bytes(PAIR)))
            changed += ordered != elf.data[first:past]
            elf.data[first:past] = ordered
        at = past
    return changed


KINDS = [("common entry of frame tables", "common entries of frame tables", mend_frames),
         ("bound of a location", "bounds of locations", mend_locations),
         ("declaration of tail calls", "declarations of tail calls", mend_tail_calls),
         ("table of address ranges", "tables of address ranges", mend_ranges)]


def mend(path):
    """Mends a file. Gives what was changed of each kind, as text."""
    elf, said = ElfFile(path), []
    for one, several, mended in KINDS:
        try:
            count = mended(elf)
        except (ValueError, IndexError, struct.error):
            raise Failure(f"{path} is damaged, or cut off: its {several} can't be read") from None
        if count:
            said.append(f"{count} {one if count == 1 else several}")
    if said:
        with written_whole(path) as draft:
            elf.save(draft)
    return ", ".join(said)


def main():
    words = argparse.ArgumentParser(description="mends tables of linked programs in place, before they are rewritten")
    words.add_argument("files", nargs="+", metavar="FILE")
    for path in words.parse_args().files:
        if not os.path.isfile(path):
            raise Failure(f"there is no file {path}")
        said = mend(path)
        print(f"{path}: {f'mended {said}' if said else 'nothing to mend'}")


if __name__ == "__main__":
    run_script(main)
