"""Parts of code and their instructions, as the program finds them before it knows which parts are functions."""
import bisect
import functools
import itertools

from reasons.isa import in_words


class Cover:
    """Ranges, in order of their starts."""

    def __init__(self, ranges):
        self.starts = [start for start, _ in ranges]
        self.ends = list(itertools.accumulate((end for _, end in ranges), max))

    def end(self, address):
        """The greatest end of the ranges that start at or before an address, or 0."""
        i = bisect.bisect_right(self.starts, address)
        return self.ends[i - 1] if i else 0


class Code:
    """Parts of executable sections between neighbouring cuts, which are bounds of function symbols and sections."""

    def __init__(self, image):
        self.image, self._starts = image, {}
        functions = sorted((it.value, it.value + it.size) for it in image.symbols if it.is_function())
        sections = sorted((it.address, it.address + it.size) for it in image.code_sections)
        self.cuts = sorted({at for bounds in functions + sections for at in bounds if at < 1 << 64})
        self._functions, self._sections = Cover(functions), Cover(sections)

    def part_of(self, address):
        """The part that holds an address, as its start and its end; none outside executable sections."""
        i = bisect.bisect_right(self.cuts, address)
        if not 0 < i < len(self.cuts) or self._sections.end(self.cuts[i - 1]) <= self.cuts[i - 1]:
            return None
        return self.cuts[i - 1], self.cuts[i]

    @functools.cached_property
    def parts(self):
        """All parts, by address."""
        return [it for it in map(self.part_of, self.cuts) if it]

    def is_padding(self, part):
        """Whether no symbol covers the part and its bytes are all zero."""
        return self._functions.end(part[0]) < part[1] and not any(self.image.bytes_at(*part))

    def starts_of(self, part):
        """Where instructions of a part start, in order."""
        if part not in self._starts:
            data, found, at = self.image.bytes_at(*part), [], 0
            while at < len(data):
                found.append(part[0] + at)
                at += 4 if data[at] & 3 == 3 else 2
            self._starts[part] = found
        return self._starts[part]

    def is_start(self, address):
        """Whether an instruction of a part of code starts at an address."""
        part = self.part_of(address)
        if part is None or self.is_padding(part):
            return False
        starts = self.starts_of(part)
        i = bisect.bisect_left(starts, address)
        return i < len(starts) and starts[i] == address

    def start_before(self, address):
        """The instruction of the same part that an address is in."""
        starts = self.starts_of(self.part_of(address))
        return starts[bisect.bisect_right(starts, address) - 1]

    def size_at(self, address):
        return 4 if (self.image.byte(address) or 0) & 3 == 3 else 2

    def word_at(self, address):
        """The bytes of the instruction at an address as a number; bytes that aren't loaded count as zeros."""
        return int.from_bytes(self.image.bytes_at(address, address + self.size_at(address)), "little")

    def full_at(self, address, *opcodes):
        """The word of a whole instruction of four bytes at an address of a part, with one of these opcodes if any are
        given."""
        if not self.is_start(address) or self.size_at(address) != 4 or address + 4 > self.part_of(address)[1]:
            return None
        word = self.word_at(address)
        return word if not opcodes or word & 0x7F in opcodes else None

    def shown(self, address):
        """What is at an address, in words."""
        part = self.part_of(address)
        if part is None:
            return "no code"
        if not self.is_start(address):
            return "padding" if self.is_padding(part) else "the middle of an instruction"
        return in_words(self.word_at(address), self.size_at(address))
