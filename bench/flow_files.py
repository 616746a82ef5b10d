"""What other scripts share: programs of blocks without relocations, and profiles of them by the addresses of functions.

A block is one ADDI, and then what it ends with: nothing, a branch, a jump, or a return. A function is a list of such blocks.
"""
import struct

BASE, TEXT = 0x10000, 64 + 56  # of the file's first byte, and of the code in the file
ADDI, RETURN = 0x00150513, 0x00008067  # addi a0, a0, 1; jalr x0, 0(ra)
NAMES = b"\0.text\0.symtab\0.strtab\0.shstrtab\0"
FALLS, BRANCHES, JUMPS, RETURNS = range(4)


class Block:
    """How a block ends, and to which block of its function it goes."""

    __slots__ = ("ends", "to")

    def __init__(self, ends, to=0):
        self.ends, self.to = ends, to


def size(block):
    return 4 if block.ends == FALLS else 8


class Function:
    """Blocks at their addresses."""

    def __init__(self, blocks, start):
        self.blocks, self.start, self.starts = blocks, start, []
        for block in blocks:
            self.starts.append(start)
            start += size(block)
        self.end = start

    def last(self, k):
        """The address of a block's last instruction."""
        return self.starts[k] + size(self.blocks[k]) - 4

    def code(self):
        words = []
        for k, block in enumerate(self.blocks):
            words.append(ADDI)
            far = self.starts[block.to] - self.last(k)
            if block.ends == BRANCHES:
                assert -4096 <= far < 4096
                low, high = (far >> 11 & 1) << 7 | (far >> 1 & 15) << 8, (far >> 5 & 63) << 25 | (far >> 12 & 1) << 31
                words.append(0x00B51063 | low | high)  # bne a0, a1
            elif block.ends == JUMPS:
                middle = (far >> 12 & 255) << 12 | (far >> 11 & 1) << 20
                words.append(0x6F | middle | (far >> 1 & 1023) << 21 | (far >> 20 & 1) << 31)
            elif block.ends == RETURNS:
                words.append(RETURN)
        return struct.pack(f"<{len(words)}I", *words)


def place(lists):
    """Functions of lists of blocks, one after another."""
    functions, start = [], BASE + TEXT
    for blocks in lists:
        functions.append(Function(blocks, start))
        start = functions[-1].end
    return functions


def section(name, kind, flags, addr, offset, length, link=0, info=0, align=1, entsize=0):
    at = NAMES.index(b"\0" + name + b"\0") + 1
    return struct.pack("<IIQQQQIIQQ", at, kind, flags, addr, offset, length, link, info, align, entsize)


def write_file(path, functions):
    code = b"".join(function.code() for function in functions)
    table = bytes(24) + b"".join(
        struct.pack("<IBBHQQ", 0, 0x12, 0, 1, function.start, function.end - function.start) for function in functions
    )
    body = bytearray(TEXT) + code
    body += bytes(-len(body) % 8)
    headers = bytes(64) + section(b".text", 1, 6, BASE + TEXT, TEXT, len(code), align=4)
    headers += section(b".symtab", 2, 0, 0, len(body), len(table), 3, 1, 8, 24)
    body += table
    headers += section(b".strtab", 3, 0, 0, len(body), 1)
    body += b"\0"
    headers += section(b".shstrtab", 3, 0, 0, len(body), len(NAMES))
    body += NAMES
    body += bytes(-len(body) % 8)
    fields = (2, 243, 1, BASE + TEXT, 64, len(body), 0, 64, 56, 1, 64, 5, 4)
    struct.pack_into("<16sHHIQQQIHHHHHH", body, 0, b"\x7fELF\2\1\1", *fields)
    struct.pack_into("<IIQQQQQQ", body, 64, 1, 5, 0, BASE, BASE, TEXT + len(code), TEXT + len(code), 0x1000)
    with open(path, "wb") as file:
        file.write(body + headers)


def profile_line(start, address, to_start, to, count):
    return f"1 @{start:x} {address - start:x} 1 @{to_start:x} {to - to_start:x} 0 {count}\n"
