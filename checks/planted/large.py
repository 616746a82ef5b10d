"""Files that are too large, and code that has no room: 27 and 28."""
from planted.files import BASE, EXIT, NOP, RETURN, START, Planted, Program, Symbol

PAGE = 0x1000


def no_room():
    program = Program(NOP * 2000 + EXIT)
    end = int.from_bytes(program.bytes()[64 + 32:64 + 40], "little") + BASE
    after = end + -end % PAGE
    program.segments = [(1, 6, 0x8000, after, after, 0, 0x7FFEFF00 - after, 1)]
    yield Planted("no-room", program.bytes(), "NoRoom at ", (f"ends at {end:x}", f"segment at {after:x}"))


def too_large():
    yield Planted("file", Program().add(".comment", bytes(64 << 20)).bytes(), "TooLarge at 0",
                  ("64 MiB (67,108,864)", "67,1"))
    code = ((NOP * 1000 + RETURN) * ((16 << 20) // 4004 + 1))[:(16 << 20) + 4]
    symbols = [Symbol(f"f{k}", START + 4004 * k, min(4004, len(code) - 4004 * k)) for k in range(-(-len(code) // 4004))]
    yield Planted("code", Program(code[:-4] + RETURN, symbols).bytes(), "TooLarge at 2",
                  (f"{len(code):,} bytes", "16 MiB"))
    count = 200_001
    symbols = [Symbol("f", START + 4 * k, 4) for k in range(count)]
    yield Planted("functions", Program(RETURN * count, symbols).bytes(), "TooLarge at 3",
                  ("200,000 functions", f"{count:,} parts"))
    program = Program()
    program.tables = [("", b"", 0, 1)] * 65_000
    yield Planted("headers", program.bytes(), "TooLarge at 5", ("section headers", "65,000 are allowed"))


def all_files():
    yield from no_room()
    yield from too_large()
