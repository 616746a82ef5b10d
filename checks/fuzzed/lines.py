"""Tables of lines, as lists of fields. DWARF 5, section 6.2."""
from __future__ import annotations
import random

from fuzzed.fields import Address, Field, Leb, Length, Mark, Number, Offset, Raw

COUNTS = [0, 1, 1, 1, 1, 0, 0, 0, 1, 0, 0, 1]
OF_PATH, OF_DIRECTORY, OF_TIME, OF_SIZE, OF_MD5 = 1, 2, 3, 4, 5


class Unit:
    """A unit of lines, over ranges of code."""

    def __init__(self, rng: random.Random, mark: str, ranges: list[tuple[int, int]], texts: list[str]):
        self.rng, self.mark, self.ranges, self.texts = rng, mark, ranges, texts
        self.smallest = rng.choice([1, 1, 1, 2])
        self.base, self.range = rng.choice([-5, -3, 0, 1]), rng.choice([14, 12, 1, 10])
        self.first = rng.choice([13, 13, 13, 10, 16, 4])
        self.files = rng.randint(2, 5)

    def fields(self) -> list[Field]:
        end, start = f"{self.mark}-end", f"{self.mark}-program"
        counts = (COUNTS + [0, 1, 2])[:self.first - 1]
        fields = [Mark(self.mark), Length(4, end), Number(2, 5), Number(1, 8), Number(1, 0), Length(4, start),
                  Number(1, self.smallest), Number(1, 1), Number(1, self.rng.randint(0, 1)), Number(1, self.base & 255),
                  Number(1, self.range), Number(1, self.first), *[Number(1, count) for count in counts]]
        directories = self.rng.randint(1, 3)
        fields += self.list_of([self.path_kind()], directories, directories) + self.file_list(directories)
        fields.append(Mark(start))
        for start_at, size in self.ranges:
            fields += self.sequence(start_at, size)
        return [*fields, Mark(end)]

    def path_kind(self) -> tuple[int, int]:
        return OF_PATH, self.rng.choice([0x08, 0x0E, 0x1F])

    def file_list(self, directories: int) -> list[Field]:
        kinds = [self.path_kind(), (OF_DIRECTORY, self.rng.choice([0x0B, 0x05, 0x0F]))]
        kinds += self.rng.choice([[], [], [(OF_MD5, 0x1E)], [(OF_TIME, 0x0F), (OF_SIZE, 0x06)],
                                  [(OF_SIZE, 0x0F), (OF_TIME, 0x09)]])
        return self.list_of(kinds, self.files, directories)

    def list_of(self, kinds: list[tuple[int, int]], count: int, directories: int) -> list[Field]:
        fields = [Number(1, len(kinds))]
        for kind, form in kinds:
            fields += [Leb(kind), Leb(form)]
        fields.append(Leb(count))
        for k in range(count):
            for kind, form in kinds:
                fields += self.value(kind, form, k, directories)
        return fields

    def value(self, kind: int, form: int, k: int, directories: int) -> list[Field]:
        number = self.rng.randrange(directories) if kind == OF_DIRECTORY else self.rng.randint(0, 100)
        if form == 0x08:
            return [Raw(self.rng.choice([b"/s\0", b"a.c\0", b"\0", b"dir/b.h\0"]))]
        if form in (0x0E, 0x1F):
            return [Offset(4, (".debug_str" if form == 0x0E else ".debug_line_str", self.rng.choice(self.texts)))]
        if form == 0x1E:
            return [Raw(self.rng.randbytes(16))]
        if form == 0x09:
            return [Leb(2), Raw(b"ab")]
        width = {0x0B: 1, 0x05: 2, 0x06: 4}.get(form)
        return [Number(width, number)] if width else [Leb(number)]

    def sequence(self, start: int, size: int) -> list[Field]:
        rng, at = self.rng, 0
        fields = [Number(1, 0), Leb(9), Number(1, 2), Address(8, start)]
        for _ in range(rng.choice([1, 3, 10, 25])):
            fields += self.operation()
            step = rng.randint(0, 5)
            if rng.random() < 0.6 and at + step * self.smallest < size:
                at += step * self.smallest
                fields += self.advance(step)
        return fields + [Number(1, 2), Leb((size - at) // self.smallest), Number(1, 0), Leb(1), Number(1, 1)]

    def advance(self, step: int) -> list[Field]:
        rng = self.rng
        special = self.first + step * self.range + rng.randrange(self.range)
        if special < 256 and rng.random() < 0.7:
            return [Number(1, special)]
        if self.first > 9 and rng.random() < 0.3:
            return [Number(1, 9), Number(2, step * self.smallest), Number(1, 1)]
        return [Number(1, 2), Leb(step), Number(1, 1)]

    def operation(self) -> list[Field]:
        rng = self.rng
        way = rng.choice([op for op in (3, 3, 4, 5, 6, 7, 10, 11, 12, 13, 14, 15, 0) if op < self.first])
        if way == 3:
            return [Number(1, 3), Leb(rng.randint(-3, 40), signed=True)]
        if way == 4:
            return [Number(1, 4), Leb(rng.randrange(self.files))]
        if way in (5, 12, 14):
            return [Number(1, way), Leb(rng.choice([0, 1, 7, 200]))]
        if way == 0:
            data = rng.choice([[Number(1, 4), Leb(rng.randint(0, 9))], [Number(1, 0x80), Number(1, 9)]])
            return [Number(1, 0), Leb(2), *data]
        return [Number(1, way), Leb(3), Leb(4)] if way == 15 else [Number(1, way)]


def table(rng: random.Random, ranges: list[tuple[int, int]], texts: list[str]) -> tuple[list[Field], list[str]]:
    """A table of one unit or some, which share the ranges, and the marks of the units."""
    fields, marks = [], []
    for k in range(rng.choice([1, 1, 2, 3])):
        marks.append(f"lines{k}")
        fields += Unit(rng, marks[-1], rng.sample(ranges, rng.randint(0, len(ranges))), texts).fields()
    return fields, marks
