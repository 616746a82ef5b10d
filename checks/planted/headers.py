"""Faults of headers, segments and sections: 1 to 8."""
from planted.files import BASE, EXIT, START, TEXT, Planted, Program, number, patched

SEGMENT = 64  # the offset of the first program header


def identification():
    plain = Program().bytes()
    yield Planted("script", b"#!/bin/sh\necho 1\n" + bytes(60), "NotElf at 0",
                  ("23 21 2f 62", "script", "ELF Identification"))
    yield Planted("class", patched(plain, (4, b"\1")), "NotElf at 0", ("class", "ELFCLASS32"))
    yield Planted("order", patched(plain, (5, b"\2")), "NotElf at 0", ("data encoding", "highest byte first"))
    yield Planted("machine", patched(plain, (0x12, number(183, 2))), "NotElf at 0", ("e_machine", "183", "AArch64"))


def truncated():
    program = Program()
    plain, at = program.bytes(), program.section_headers()
    size = len(plain)
    yield Planted("header", plain[:40], "Truncated at 0", ("40 bytes", "64"))
    yield Planted("phentsize", patched(plain, (0x36, number(32, 2))), "Truncated at 36", ("e_phentsize", "32", "56"))
    yield Planted("shentsize", patched(plain, (0x3A, number(40, 2))), "Truncated at 3a", ("e_shentsize", "40", "64"))
    yield Planted("shstrndx", patched(plain, (0x3E, number(77, 2))), "Truncated at 3e", ("e_shstrndx", "77"))
    yield Planted("sections", plain[:-64], f"Truncated at {at:x}", ("section headers", f"{size - 64:x}"))
    yield Planted("segment", patched(plain, (SEGMENT + 8, number(TEXT, 8)), (SEGMENT + 16, number(START, 8)),
                                     (SEGMENT + 32, number(0x9999, 8)), (SEGMENT + 40, number(0x9999, 8))),
                  f"Truncated at {TEXT:x}", ("segment 0", "39,321 bytes", "Program Header"))
    yield Planted("contents", patched(plain, (at + 2 * 64 + 24, number(0x7777, 8))), "Truncated at 7777",
                  ("section 2", "`.symtab`", "7777"))
    yield Planted("section-name", patched(plain, (at + 64, number(9999, 4))), f"Truncated at {at + 64:x}",
                  ("section 1", "270f", "String Table"))
    symbols = int.from_bytes(plain[at + 2 * 64 + 24:at + 2 * 64 + 32], "little")
    yield Planted("symbol-name", patched(plain, (symbols + 24, number(5555, 4))), f"Truncated at {symbols + 24:x}",
                  ("symbol 1", "15b3"))


def flags():
    for value, words in ((5, "double-precision"), (3, "single-precision"), (9, "RV64E"), (0x11, "TSO")):
        yield Planted(f"flags-{value}", Program(flags=value).bytes(), "Flags at 30",
                      (words, f"e_flags, at offset 30, is {value:x}"))


def not_static():
    plain = Program().bytes()
    yield Planted("dyn", patched(plain, (0x10, b"\3")), "NotStatic at 10", ("e_type", "ET_DYN"))
    program = Program()
    program.segments.append((3, 4, TEXT, START, START, 4, 4, 1))
    yield Planted("interp", program.bytes(), f"NotStatic at {64 + 56:x}", ("program header 1", "PT_INTERP"))


def segments():
    plain = Program().bytes()
    end = int.from_bytes(plain[SEGMENT + 32:SEGMENT + 40], "little")
    yield Planted("no-code", patched(plain, (SEGMENT + 4, b"\4")), "ExecSegments at 20",
                  ("executable, so the file has no code",))
    yield Planted("memory", patched(plain, (SEGMENT + 40, number(end + 64, 8))), f"ExecSegments at {SEGMENT:x}",
                  ("program header 0", f"{end + 64} bytes of memory", f"only {end}"))
    program = Program()
    program.segments.append((1, 6, 0, BASE + 8, BASE + 8, 0, 16, 1))
    yield Planted("overlap", program.bytes(), f"ExecSegments at {SEGMENT:x}", ("program header 0", "program header 1"))
    program = Program()
    program.segments.append((1, 5, len(plain), 0x50000, 0x50000, 0, 0, 1))
    yield Planted("two", program.bytes(), f"ExecSegments at {SEGMENT + 56:x}",
                  ("program header 1", "2 executable segments"))
    program = Program().add(".stray", EXIT, flags=4)
    at = program.section_headers()
    yield Planted("stray", program.bytes(), f"ExecSegments at {at + 2 * 64:x}",
                  ("section 2", "`.stray`", "no executable segment"))
    yield Planted("writable", patched(plain, (SEGMENT + 4, b"\7")), f"WritableCode at {SEGMENT:x}",
                  ("program header 0", "written", "Segment Permissions"))


def sections():
    program = Program()
    program.segments.append((1, 6, 0x8000, 0x7FFEFFF0, 0x7FFEFFF0, 0, 0x20, 1))
    yield Planted("high", program.bytes(), "HighAddress at 7fff0000", ("program header 1", "7ffefff0", "7fff0000"))
    yield Planted("compressed", Program().add(".debug_info", b"\1" + bytes(30), flags=0x800).bytes(),
                  "CompressedSection at 2",
                  ("section 2", "`.debug_info`", "SHF_COMPRESSED"))
    yield Planted("zdebug", Program().add(".zdebug_line", b"ZLIB").bytes(), "CompressedSection at 2",
                  ("`.zdebug_line`",))


def all_files():
    for kind in (identification, truncated, flags, not_static, segments, sections):
        yield from kind()
