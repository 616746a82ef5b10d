"""Tables of frames, `.eh_frame` with its index and `.debug_frame`, as lists of fields.

LSB, "Exception Frames"; DWARF 5, section 6.4.
"""
from __future__ import annotations
import random
from dataclasses import dataclass

from fuzzed.fields import HERE, Address, Field, Leb, Length, Mark, Number, Offset, Raw

ABSPTR, UDATA4, SDATA4, PCREL_SDATA4, INDIRECT_PCREL, INDIRECT, OMIT = 0x00, 0x03, 0x0B, 0x1B, 0x9B, 0x80, 0xFF


@dataclass
class Cie:
    mark: str
    letters: str
    code: str                           # the encoding of addresses of code, and of pointers to exception tables
    table: int
    unit: int
    is_eh: bool


def encoded(encoding: int, address: int) -> list[Field]:
    if encoding == OMIT:
        return []
    wide = encoding in (ABSPTR, INDIRECT)
    return [Address(8 if wide else 4, address, relative=encoding in (PCREL_SDATA4, INDIRECT_PCREL))]


def cie(rng: random.Random, mark: str, is_eh: bool, address: int) -> tuple[Cie, list[Field]]:
    version = rng.choice([1, 1, 3, 4])
    letters = rng.choice(["R", "R", "R", "RS", "PLR", "LR", "RL", "", "P", "S"]) if is_eh or rng.random() < 0.2 else ""
    if is_eh and "R" not in letters and rng.random() < 0.8:
        letters += "R"
    code = rng.choice([PCREL_SDATA4, PCREL_SDATA4, UDATA4, SDATA4, ABSPTR]) if "R" in letters else ABSPTR
    table = rng.choice([PCREL_SDATA4, ABSPTR, SDATA4, OMIT])
    made = Cie(mark, letters, code, table, rng.choice([1, 1, 2]), is_eh)
    fields = [Mark(mark), Length(4, mark + "-end"), Number(4, 0 if is_eh else 0xFFFFFFFF), Number(1, version),
              Raw(("z" + letters if letters else "").encode() + b"\0")]
    fields += [Number(1, 8), Number(1, 0)] if version == 4 else []
    fields += [Leb(made.unit), Leb(rng.choice([-8, -8, -4, 1]), signed=True), Number(1, 1) if version == 1 else Leb(1)]
    if letters:
        fields += [Length(0, mark + "-data")]
        for letter in letters:
            if letter == "R":
                fields += [Number(1, made.code)]
            elif letter == "L":
                fields += [Number(1, made.table)]
            elif letter == "P":
                encoding = rng.choice([PCREL_SDATA4, INDIRECT_PCREL, ABSPTR, INDIRECT, OMIT])
                fields += [Number(1, encoding), *encoded(encoding, address)]
        fields += [Mark(mark + "-data")]
    fields += [Number(1, 0x0C), Leb(2), Leb(0)] if rng.random() < 0.9 else [Number(1, 0x0F), *expression(rng)]
    for _ in range(rng.choice([0, 0, 1, 2])):
        fields += rule(rng)
    return made, fields + [Raw(bytes(rng.choice([0, 1, 3]))), Mark(mark + "-end")]


def expression(rng: random.Random) -> list[Field]:
    data = rng.choice([b"", b"\x9c", b"\x72\x08", b"\x03" + rng.randbytes(8), rng.randbytes(rng.randint(1, 20))])
    return [Leb(len(data)), Raw(data)]


def rule(rng: random.Random) -> list[Field]:
    """What a register is restored from."""
    register = rng.choice([1, 1, 2, 8, 9, 18, 27, 31, 63, 64, 200])
    kind = rng.choice([0x80, 0x80, 0x80, 0x05, 0x07, 0x08, 0x09, 0x11, 0x14, 0x15, 0x10, 0x16, 0xC0, 0x06])
    if kind in (0x80, 0xC0) and register < 64:
        return [Number(1, kind + register), *([Leb(rng.randint(0, 9))] if kind == 0x80 else [])]
    if kind in (0x07, 0x08, 0x06, 0x80, 0xC0):
        return [Number(1, kind if kind < 0x80 else 0x07), Leb(register)]
    if kind in (0x10, 0x16):
        return [Number(1, kind), Leb(register), *expression(rng)]
    if kind == 0x09:
        return [Number(1, kind), Leb(register), Leb(rng.randint(0, 31))]
    signed = kind in (0x11, 0x15)
    return [Number(1, kind), Leb(register), Leb(rng.randint(-9 if signed else 0, 9), signed)]


def operations(rng: random.Random, of: Cie, start: int, size: int) -> list[Field]:
    fields, at, kept = [], 0, 0
    for _ in range(rng.choice([0, 2, 4, 8, 20])):
        step = rng.randint(0, 6)
        if rng.random() < 0.5 and at + step * of.unit < size:
            at += step * of.unit
            fields += rng.choice([[Number(1, 0x40 + step)], [Number(1, 2), Number(1, step)],
                                  [Number(1, 3), Number(2, step)], [Number(1, 4), Number(4, step)],
                                  [Number(1, 1), *encoded(of.code, start + at)]])
            continue
        way = rng.randrange(8)
        if way == 0:
            kept += 1
            fields += [Number(1, 0x0A)]
        elif way == 1 and kept:
            kept -= 1
            fields += [Number(1, 0x0B)]
        elif way == 2:
            fields += [Number(1, 0x0C), Leb(rng.choice([2, 8])), Leb(rng.randrange(0, 64, 8))]
        elif way == 3:
            fields += [Number(1, 0x12), Leb(2), Leb(rng.randint(-4, 4), signed=True)]
        elif way == 4:
            fields += [Number(1, 0x0C), Leb(2), Leb(16), Number(1, 0x0E), Leb(rng.choice([0, 16, 4096]))]
        elif way == 5:
            fields += rng.choice([[Number(1, 0x2E), Leb(8)], [Number(1, 0)], [Number(1, 0x0F), *expression(rng)]])
        else:
            fields += rule(rng)
    return fields


def fde(rng: random.Random, of: Cie, mark: str, start: int, size: int, table: int) -> list[Field]:
    pointer = Offset(4, HERE, of.mark) if of.is_eh else Offset(4, of.mark)
    address = encoded(of.code, start)
    fields = [Mark(mark), Length(4, mark + "-end"), pointer, *address, Number(address[0].width, size)]
    if of.letters:
        fields += [Length(0, mark + "-data")]
        if "L" in of.letters and of.table != OMIT:
            fields += encoded(of.table, table) if rng.random() < 0.5 else [Number(8 if of.table == ABSPTR else 4, 0)]
        fields += [Mark(mark + "-data")]
    return fields + operations(rng, of, start, size) + [Raw(bytes(rng.choice([0, 0, 2]))), Mark(mark + "-end")]


def table(rng: random.Random, name: str, is_eh: bool, ranges: list[tuple[int, int]],
          address: int) -> tuple[list[Field], list]:
    """A table, and of its entries for ranges the start and the mark."""
    fields, entries, cies = [], [], []
    for k, (start, size) in enumerate(ranges):
        if not cies or rng.random() < 0.2:
            made, more = cie(rng, f"{name}-cie{k}", is_eh, address)
            cies.append(made)
            fields += more
        mark = f"{name}-fde{k}"
        fields += fde(rng, rng.choice(cies), mark, start, size, address)
        entries.append((start, mark))
    return fields + ([Number(4, 0)] if is_eh else []), entries


def index(entries: list, own: int, frames: int) -> list[Field]:
    """`.eh_frame_hdr`, at an address, of the table at another."""
    fields = [Raw(b"\x01\x1b\x03\x3b"), Address(4, frames, relative=True), Number(4, len(entries))]
    for start, mark in sorted(entries):
        fields += [Number(4, start - own), Offset(4, mark, more=frames - own)]
    return fields
