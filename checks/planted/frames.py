"""Malformed entries of frame tables: 21."""
from planted.files import EXIT, START, Planted, Program, number, uleb, unit

DEF_CFA = b"\x0c\x02\x00"  # DW_CFA_def_cfa sp, 0


def cie(text=b"zR", data=b"\x1b", instructions=DEF_CFA, version=1, identity=0, code=1, more=b"", register=b"\1"):
    """A CIE: its augmentation data have their length before them if the text begins with z."""
    body = number(identity, 4) + bytes([version]) + text + b"\0" + more + uleb(code) + b"\x7c" + register
    if text[:1] == b"z":
        body += uleb(len(data)) + data
    return unit(body + instructions)


CIE = {"plain": cie(), "table": cie(b"zLR", b"\x1b\x1b")}


def fde(place, address, start, size, instructions=b"", table=None, back=None):
    """An FDE at an offset of a table at an address, whose CIE is the first entry; `back` is its distance otherwise."""
    data = b"" if table is None else number((table - (address + place + 17)) % (1 << 32), 4)
    head = number(place + 4 if back is None else back, 4) + number((start - (address + place + 8)) % (1 << 32), 4)
    return unit(head + number(size, 4) + uleb(len(data)) + data + instructions)


def loaded(table):
    """A program whose `.eh_frame` is made by a function of its address."""
    program = Program()
    at = program.next_address()
    program.load(".eh_frame", table(at))
    return program.bytes()


# A CIE that is malformed: the arguments of `cie`, and words of the reason.
CIES = {
    "cie-version": (dict(version=2), ("version is 2",)),
    "cie-letter": (dict(text=b"zQ"), ("`Q`", "isn't known")),
    "cie-text": (dict(text=b"eh"), ("`eh`", "doesn't begin with `z`")),
    "cie-encoding": (dict(data=b"\x10"), ("`R`", "pointer encoding 10")),
    "cie-personality": (dict(text=b"zP", data=b"\x50" + bytes(8)), ("`P`", "pointer encoding 50")),
    "cie-data": (dict(text=b"zRL"), ("the pointer encoding of `L`", "1 byte")),
    "cie-sizes": (dict(version=4, more=b"\4\0"), ("4 bytes", "not 8 and 0")),
    "cie-register": (dict(version=3, register=b"\x80\2"), ("return address register is 256",)),
    "cie-gnu-as": (dict(instructions=b"\x0d\2\x0e\0"), ("DW_CFA_def_cfa_register at offset 11", "no frame address",
                                                        "6.4.2.2")),
    "cie-opcode": (dict(instructions=b"\x3e"), ("opcode 3e at offset 11",)),
    "cie-restore": (dict(instructions=DEF_CFA + b"\x0b"), ("DW_CFA_restore_state at offset 14", "none is remembered")),
    "cie-cut": (dict(instructions=b"\x0c\2"), ("DW_CFA_def_cfa at offset 11", "doesn't end")),
    "cie-wide": (dict(code=1 << 63, instructions=DEF_CFA + b"\x42"), ("advances by 2", "more than 64 bits")),
    "cie-expression": (dict(instructions=b"\x0f\0\x0e\x10"), ("DW_CFA_def_cfa_offset", "is an expression")),
}


def cies():
    for name, (words, found) in CIES.items():
        table = cie(**words)
        yield Planted(name, loaded(lambda at: table), "FrameFault at 0", ("CIE at offset 0 of `.eh_frame`", *found))


def fdes():
    size = len(CIE["plain"])
    kinds = {
        "fde-cie": (CIE["plain"], dict(back=size + 2), ("leads to offset 2", "no entry begins")),
        "fde-before": (CIE["plain"], dict(back=size + 90), ("before the section",)),
        "fde-opcode": (CIE["plain"], dict(instructions=b"\x1f"), ("opcode 1f", f"offset {size + 17:x}")),
        "fde-restore": (CIE["plain"], dict(instructions=b"\x0b"), ("DW_CFA_restore_state", "none is remembered")),
    }
    for name, (first, words, found) in kinds.items():
        data = loaded(lambda at, first=first, words=words: first + fde(len(first), at, START, 12, **words))
        yield Planted(name, data, f"FrameFault at {size:x}", (f"FDE at offset {size:x}", *found))
    first = CIE["plain"]
    data = loaded(lambda at: first + fde(size, at, START, 12,
                                         b"\x44\x01" + number(START - (at + size + 19) + (1 << 32), 4)))
    yield Planted("fde-set-loc", data, f"FrameFault at {size:x}",
                  ("DW_CFA_set_loc", f"goes back from {START + 4:x} to {START:x}"))
    first = cie(instructions=b"")
    data = loaded(lambda at: first + fde(len(first), at, START, 12, b"\x44\x0c\2\0"))
    yield Planted("fde-no-rule", data, f"FrameFault at {len(first):x}",
                  ("no rule for the frame address", "before DW_CFA_advance_loc"))
    data = loaded(lambda at: first + fde(len(first), at, START, 12))
    yield Planted("fde-no-rule-end", data, f"FrameFault at {len(first):x}",
                  ("no rule for the frame address", "end of the FDE"))
    first = cie(data=b"\0")
    wide = unit(number(len(first) + 4, 4) + number((1 << 64) - 4, 8) + number(8, 8) + b"\0")
    yield Planted("fde-range", loaded(lambda at: first + wide), f"FrameFault at {len(first):x}",
                  ("range", "past the greatest"))


def lengths():
    first = CIE["plain"]
    for name, bad, words in (("short", number(2, 4) + bytes(2), ("length is 2",)),
                             ("cut", number(999, 4) + bytes(6), ("999 bytes", "only 6")),
                             ("dwarf64", b"\xff" * 4 + bytes(8), ("64-bit DWARF",)),
                             ("rest", b"\1\2", ("length", "only 2"))):
        yield Planted(f"frame-{name}", loaded(lambda at, bad=bad: first + bad), f"FrameFault at {len(first):x}",
                      (f"offset {len(first):x} of `.eh_frame`", *words))


def debug():
    table = cie(b"", version=4, identity=0xFFFFFFFF, more=b"\x08\0", instructions=b"\x3f")
    yield Planted("debug-frame", Program().add(".debug_frame", table).bytes(), "FrameFault at 0",
                  ("CIE at offset 0 of `.debug_frame`", "opcode 3f", "7.24"))
    table = cie(b"", version=4, identity=0xFFFFFFFF, more=b"\x08\0")
    end = table + unit(number(0, 4) + number(START, 8) + number(len(EXIT), 8) + b"\x0d")
    yield Planted("debug-frame-fde", Program().add(".debug_frame", end).bytes(), f"FrameFault at {len(table):x}",
                  ("FDE at offset", "`.debug_frame`", "DW_CFA_def_cfa_register", "doesn't end"))


def all_files():
    for kind in (cies, fdes, lengths, debug):
        yield from kind()
