"""Mends the frame tables that GNU as made.

GNU as begins each common entry by changing the register of a frame address that isn't given yet, which DWARF 5
doesn't allow (section 6.4.2.2). In all such entries of `.eh_frame` and `.debug_frame` register and offset are given
instead, in as many bytes. `mend.py` does so for a file that is named.
"""
from elf_file import ElfFile

NOP, DEF_CFA, DEF_CFA_REGISTER, DEF_CFA_OFFSET, SP = 0x00, 0x0C, 0x0D, 0x0E, 2


def after_leb(data, at):
    """The place after a number in LEB128."""
    while data[at] & 0x80:
        at += 1
    return at + 1


def instructions_of(data, at):
    """Where the instructions of a CIE begin: after its text, factors, return register and further data."""
    text = data[at + 9:data.index(0, at + 9)]
    first = at + 10 + len(text) + (2 if data[at + 8] == 4 else 0)  # after the sizes of addresses and of segments
    place = after_leb(data, after_leb(data, after_leb(data, first)))
    if text.startswith(b"z"):
        place = after_leb(data, place) + data[place]
    return place


def defined(instructions):
    """The instructions of a CIE, which now give register and offset at once."""
    if instructions[:2] != bytes([DEF_CFA_REGISTER, SP]):
        return instructions
    rest = instructions[2:]
    if rest[:1] == bytes([DEF_CFA_OFFSET]):
        end = after_leb(rest, 1)
        return bytes([DEF_CFA, SP]) + rest[1:end] + bytes([NOP]) + rest[end:]
    if rest[-1:] == bytes([NOP]):
        return bytes([DEF_CFA, SP, 0]) + rest[:-1]
    return instructions


def mend_frames(elf):
    """Gives register and offset of the frame address in all common entries that GNU as made otherwise. Answers how many
    entries changed."""
    changed = 0
    for name, mark in ((".eh_frame", bytes(4)), (".debug_frame", b"\xff" * 4)):
        section = elf.section(name)
        at, end = (section.offset, section.offset + section.size) if section else (0, 0)
        while at < end and (length := int.from_bytes(elf.data[at:at + 4], "little")) != 0:
            past = at + 4 + length
            if past > end:
                break  # 64-bit DWARF, or damaged: the rest is left as it is
            if elf.data[at + 4:at + 8] == mark:
                first = instructions_of(elf.data, at)
                old = bytes(elf.data[first:past])
                elf.data[first:past] = defined(old)
                changed += elf.data[first:past] != old
            at = past
    return changed


def mend_tables(path):
    """Mends the frame tables of a file in place."""
    elf = ElfFile(path)
    mend_frames(elf)
    elf.save(path)
