"""What the modules that look for a fault share: a reason, what is wrong with a structure, and bytes that are read."""
import typing

WORD64 = 1 << 64
LAST = 0x80  # clear in the last byte of a LEB128 number


class Reason(typing.NamedTuple):
    """What is wrong, where the standard says what should be, and what in a build makes it and helps, if that is known
    of this cause (the fault's own row of docs/REFERENCE.md has all causes)."""

    text: str
    standard: str
    helps: str = ""


class Wrong(Exception):
    """What is wrong with a structure, in words, and where the standard says what should be."""

    def __init__(self, text, standard="", helps=""):
        super().__init__(text)
        self.text, self.standard, self.helps = text, standard, helps

    def reason(self, before, standard):
        """The reason, after words that say of what."""
        return Reason(f"{before}: {self.text}", self.standard or standard, self.helps)


class Cursor:
    """Bytes of a section from an offset to an end, which are read one value after another. What doesn't end before the
    end is wrong, with the name of the field. LEB128 numbers have at most 64 bits (DWARF 5, section 7.6)."""

    def __init__(self, data, at, end):
        self.data, self.at, self.end = data, at, min(end, len(data))

    def is_over(self):
        return self.at >= self.end

    def left(self):
        return self.end - self.at

    def take(self, size, what):
        """The next bytes."""
        if size > self.end - self.at:
            raise Wrong(f"{what} at offset {self.at:x} has {bytes_of(size)}, and only {max(self.end - self.at, 0)} "
                        f"follow before the end at {self.end:x}")
        self.at += size
        return self.data[self.at - size:self.at]

    def number(self, size, what):
        return int.from_bytes(self.take(size, what), "little")

    def text(self, what):
        """A text, without the zero at its end."""
        end = self.data.find(b"\0", self.at, self.end)
        if end < 0:
            raise Wrong(f"{what} at offset {self.at:x} has no zero byte at its end before {self.end:x}")
        start, self.at = self.at, end + 1
        return bytes(self.data[start:end])

    def _leb(self, what):
        start, value, shift = self.at, 0, 0
        while True:
            if self.at >= self.end:
                raise Wrong(f"{what}, a LEB128 number at offset {start:x}, doesn't end before {self.end:x}",
                            "DWARF 5, section 7.6")
            byte = self.data[self.at]
            self.at += 1
            value |= (byte & 0x7F) << shift
            shift += 7
            if not byte & LAST:
                return value, shift, byte

    def uleb(self, what):
        start = self.at
        value, _, _ = self._leb(what)
        if value >= WORD64:
            raise Wrong(f"{what}, a LEB128 number at offset {start:x}, has more than 64 bits", "DWARF 5, section 7.6")
        return value

    def sleb(self, what):
        start = self.at
        value, shift, byte = self._leb(what)
        value -= (1 << shift) if byte & 0x40 else 0
        if not -WORD64 // 2 <= value < WORD64 // 2:
            raise Wrong(f"{what}, a signed LEB128 number at offset {start:x}, has more than 64 bits",
                        "DWARF 5, section 7.6")
        return value

    def leb_block(self, what):
        """A length, and as many bytes."""
        return self.take(self.uleb(f"the length of {what}"), what)


def bytes_of(count):
    """A number of bytes, in words."""
    return f"{count} byte" if count == 1 else f"{count:,} bytes"


def listed(names):
    """Words with commas, and `and` before the last."""
    names = list(names)
    return " and ".join([", ".join(names[:-1]), names[-1]] if len(names) > 1 else names)


def named(table, number, prefix="", width=2):
    """The name of a number, or the number itself."""
    return f"{prefix}{table[number]}" if number in table else f"{prefix or 'number '}0x{number:0{width}x}"
