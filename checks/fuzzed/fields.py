"""Tables as lists of fields, so that one field can be changed by itself: lengths and offsets follow, unless they are
what is changed.

A table is a list of these. Marks are places that lengths and offsets, also of other tables, are counted to.
"""
from __future__ import annotations
import functools
import random
import struct
from dataclasses import dataclass, replace

FORMATS = {1: "<B", 2: "<H", 4: "<I", 8: "<Q"}
HERE = "here"
MOST_REPEATED = 20_000                  # fields that one change adds at most


@dataclass(frozen=True, slots=True)
class Number:
    width: int                          # in bytes
    value: int


@dataclass(frozen=True, slots=True)
class Leb:
    value: int
    signed: bool = False
    more: int = 0                       # bytes behind its shortest spelling, which don't change its value


@dataclass(frozen=True, slots=True)
class Raw:
    data: bytes


@dataclass(frozen=True, slots=True)
class Mark:
    name: object


@dataclass(frozen=True, slots=True)
class Length:
    """How many bytes stand between this field and a mark."""
    width: int                          # 0: LEB128 of five bytes
    end: object
    more: int = 0


@dataclass(frozen=True, slots=True)
class Offset:
    """From the mark `base` to the mark `to`; without a base from the start of the table of `to`. HERE is the field."""
    width: int                          # 0: LEB128 of five bytes
    to: object
    base: object = None
    more: int = 0


@dataclass(frozen=True, slots=True)
class Address:
    """An address, stored as its distance from the field where `relative`."""
    width: int
    value: int
    relative: bool = False


Field = Number | Leb | Raw | Mark | Length | Offset | Address
Tables = dict[str, list]


@functools.lru_cache(1 << 16)
def leb(value: int, signed: bool = False, more: int = 0) -> bytes:
    out = bytearray()
    while True:
        low, value = value & 127, value >> 7
        last = value == 0 and not (signed and low & 64) or signed and value == -1 and low & 64
        if last and not more:
            out.append(low)
            return bytes(out)
        out.append(low | 128)
        if last:
            rest = 127 if value else 0
            return bytes(out) + bytes([rest | 128] * (more - 1) + [rest])


@functools.lru_cache(1 << 16)
def fixed(width: int, value: int) -> bytes:
    if width == 0:
        return leb(value & 0xFFFFFFFF, more=5 - len(leb(value & 0xFFFFFFFF)))
    if width in FORMATS:
        return struct.pack(FORMATS[width], value & (1 << 8 * width) - 1)
    return (value & (1 << 8 * width) - 1).to_bytes(width, "little")


@dataclass(frozen=True, slots=True)
class Piece:
    """The bytes of a table, with zeros for lengths and offsets, which follow from the marks of all tables."""
    data: bytes
    marks: dict[object, int]
    later: list[tuple[int, Length | Offset]]


def piece(fields: list, address: int | None = None) -> Piece:
    """The fields of a table, which may be loaded."""
    out, marks, later = bytearray(), {}, []
    for field in fields:
        kind = type(field)
        if kind is Number:
            out += fixed(field.width, field.value)
        elif kind is Raw:
            out += field.data
        elif kind is Mark:
            marks[field.name] = len(out)
        elif kind is Leb:
            out += leb(field.value, field.signed, field.more)
        elif kind is Address:
            here = (address or 0) + len(out) if field.relative else 0
            out += fixed(field.width, field.value - here)
        else:
            later.append((len(out), field))
            out += bytes(field.width or 5)
    return Piece(bytes(out), marks, later)


def joined(tables: dict[str, Piece]) -> dict[str, bytes]:
    """The tables with lengths and offsets."""
    marks, made = {}, {}
    for part in tables.values():
        marks.update(part.marks)
    for name, part in tables.items():
        out = bytearray(part.data)
        for place, field in part.later:
            width = field.width or 5
            marks[HERE] = place
            if type(field) is Length:
                value = marks.get(field.end, 0) - place - width
            else:
                value = marks.get(field.to, 0) - marks.get(field.base, 0)
            out[place:place + width] = fixed(field.width, value + field.more)
        made[name] = bytes(out)
    return made


def written(tables: Tables, addresses: dict[str, int]) -> dict[str, bytes]:
    return joined({name: piece(fields, addresses.get(name)) for name, fields in tables.items()})


def odd_number(rng: random.Random, old: int, bits: int, pool: list[int]) -> int:
    """Another value for a field of so many bits: at a bound, near the old one, of another field, or any."""
    way = rng.random()
    if way < 0.3:
        value = rng.choice([0, 1, 2, 0x7F, 0x80, 0xFF, 0x7FFF, 0xFFFF, 0x7FFFFFFF, 0x80000000, 0xFFFFFFF0, 0xFFFFFFFF,
                            (1 << 63) - 1, 1 << 63, (1 << 64) - 8, (1 << 64) - 1])
    elif way < 0.6:
        value = old + rng.choice([-64, -8, -4, -2, -1, -1, 1, 1, 2, 4, 8, 64])
    elif way < 0.7:
        value = old ^ 1 << rng.randrange(bits)
    elif way < 0.85:
        value = rng.choice(pool)
    else:
        value = rng.getrandbits(rng.randint(1, bits))
    return value & (1 << bits) - 1


def changed(rng: random.Random, field: Field, pool: list[int]) -> list[Field]:
    """What stands in a field's place when it is changed."""
    kind = type(field)
    if kind is Number:
        return [replace(field, value=odd_number(rng, field.value, 8 * field.width, pool))]
    if kind is Leb:
        if rng.random() < 0.25:
            # without an end, longer than 64 bits, or longer than need be
            return [rng.choice([Raw(b"\x80" * rng.choice([1, 9, 10, 11, 300])),
                                Raw(b"\xff" * 9 + bytes([rng.choice([1, 2, 0x7F])])),
                                replace(field, more=rng.choice([1, 5, 9, 10, 100]))])]
        value = odd_number(rng, field.value, 64, pool)
        return [replace(field, value=value - (1 << 64) if field.signed and value >> 63 else value)]
    if kind is Raw:
        data = bytearray(field.data)
        for _ in range(rng.randint(1, 3)):
            at = rng.randint(0, len(data))
            data[at:at + rng.choice([0, 0, 1, 1, 4])] = rng.randbytes(rng.choice([0, 1, 1, 2]))
        return [Raw(bytes(data))]
    if kind is Mark:
        return []
    if kind is Address:
        return [replace(field, value=odd_number(rng, field.value & (1 << 64) - 1, 64, pool))]
    if rng.random() < 0.5:
        return [replace(field, more=rng.choice([-12, -8, -4, -2, -1, 1, 1, 2, 4, 8, 12, 1 << 31, -1 << 31]))]
    return [Number(field.width or 5, odd_number(rng, 0, 8 * (field.width or 5), pool))]


def mutate(rng: random.Random, tables: Tables, name: str, pool: list[int]) -> None:
    """Changes one field of a table, or how fields stand in it."""
    fields = list(tables[name])
    tables[name] = fields
    if not fields:
        fields.append(Raw(rng.randbytes(rng.randint(1, 40))))
        return
    at = rng.randrange(len(fields))
    way = rng.random()
    if way < 0.7:
        while isinstance(fields[at], Mark) and at + 1 < len(fields):
            at += 1
        fields[at:at + 1] = changed(rng, fields[at], pool)
    elif way < 0.76:
        del fields[at:at + rng.choice([1, 1, 1, 2, 5])]
    elif way < 0.82:
        part = fields[at:at + rng.choice([1, 1, 2, 8, 50])]
        fields[at:at] = part * (rng.choice([1, 1, 2, 30]) if rng.random() < 0.95 else MOST_REPEATED // len(part))
    elif way < 0.87:
        other = rng.randrange(len(fields))
        fields[at], fields[other] = fields[other], fields[at]
    elif way < 0.92:
        source = tables[rng.choice(list(tables))]
        start = rng.randrange(len(source) or 1)
        fields[at:at] = source[start:start + rng.randint(1, 12)]
    elif way < 0.96:
        fields[at:at] = [rng.choice([Number(1, rng.getrandbits(8)), Leb(rng.getrandbits(14)),
                                     Raw(rng.randbytes(rng.randint(1, 9)))])]
    else:
        del fields[at:]
