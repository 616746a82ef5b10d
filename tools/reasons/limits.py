"""Files that are too large, and new code that has no room: the faults 27 and 28."""
import re

from elf_file import SHF_EXECINSTR
from reasons.code import Code
from reasons.found import Reason, bytes_of
from reasons.image import PF_X, PT_LOAD

LIMITS, BOUNDS = 'docs/REFERENCE.md, "Faults"', 'docs/FORMATS.md, "Weights"'
FILE, CODE_BYTES, FUNCTIONS, HEADERS, END = 64 << 20, 16 << 20, 200_000, 65_000, 0x7FFF0000


def large_code(image):
    total = sum(it.size for it in image.sections if it.flags & SHF_EXECINSTR)
    found = f"its executable sections have {bytes_of(total)} together, and 16 MiB ({CODE_BYTES:,}) are allowed"
    return found if total > CODE_BYTES else None


def many_functions(image):
    code = Code(image)
    count = sum(not code.is_padding(it) for it in code.parts)
    found = f"symbols and sections cut its code into {count:,} parts with instructions, and {FUNCTIONS:,} functions are"
    return f"{found} allowed" if count > FUNCTIONS else None


def many_headers(image):
    kind, count = ("section", image.head.shnum) if image.head.shnum > HEADERS else ("program", image.head.phnum)
    return f"it has {count:,} {kind} headers, and {HEADERS:,} are allowed" if count > HEADERS else None


def heavy(image):
    names = sum(len(it.name) + 1 for it in image.symbols)
    debug = [(it.size, it.name) for it in image.sections if it.name.startswith((".debug_", ".eh_frame"))]
    largest = f", and its largest debug table is `{max(debug)[1]}` with {bytes_of(max(debug)[0])}" if debug else ""
    return ("the names in the written file, or one of its new debug tables, would weigh more than 4,000,000,000. The "
            f"names of symbols have {bytes_of(names)} now{largest}")


HELPS = {2: "too much code: `-Os`, `-Wl,--gc-sections`; an output of a rewrite holds the old code too",
         3: "too many functions: `-Wl,--gc-sections`, or inlining",
         5: "sections that a script keeps apart: merge them, as `*(.text .text.*)` does",
         6: "shorter names, `-g1`, `-Wl,--strip-debug`"}


def large_file(size, profile_size, place):
    """The limits 0, 1 and 4, for which no table of the file is read."""
    if place == 0 and size > FILE:
        return Reason(f"the file has {bytes_of(size)}, and 64 MiB ({FILE:,}) are allowed", LIMITS,
                      "debug data: link with `-Wl,--strip-debug`, which keeps relocations of code")
    if place == 1 and (profile_size is None or profile_size > FILE):
        has = "has more than" if profile_size is None else f"has {bytes_of(profile_size)}, and may have"
        return Reason(f"the profile {has} 64 MiB ({FILE:,})", LIMITS, "add up its equal lines")
    if place == 4:
        return Reason("MAP has more than 200,000,000 bytes", LIMITS, "another file was named as MAP")
    return None


def too_large(image, place, _):
    test = {2: large_code, 3: many_functions, 5: many_headers, 6: heavy}.get(place)
    text = test(image) if test else None
    return Reason(text, BOUNDS if place == 6 else LIMITS, HELPS[place]) if text else None


def no_room(image, place, line):
    found = re.search(r"need (\d+) room (\d+)", line)
    if not found:
        return None
    need, room = int(found[1]), int(found[2])
    loaded = sorted((it for it in image.head.segments if it.kind == PT_LOAD and it.memsz), key=lambda it: it.address)
    code = min((it for it in loaded if it.flags & PF_X), key=lambda it: it.address, default=None)
    if code is None:
        return None
    end = code.address + code.memsz
    after = next((it for it in loaded if it.address >= end and it is not code), None)
    gap = f"up to the segment at {after.address:x}" if after else "up to the end of all addresses"
    return Reason(f"the new code and its unwind table may need {bytes_of(need)}. After the old code, which ends at "
                  f"{end:x}, there is no such room {gap}; and above all segments, from {place:x} on, {room:,} bytes "
                  f"are left below {END:x}", LIMITS,
                  "move the segment that ends just below 7fff0000 down, or leave room after the code "
                  "(`-Wl,-z,max-page-size=0x100000`)")
