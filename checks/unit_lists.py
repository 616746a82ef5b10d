#!/usr/bin/env python3
"""Has debuggers read units whose lists are named in all the ways that DWARF has.

    python3 checks/unit_lists.py [--tool COMMAND] [--keep FOLDER]

Small files are made from DWARF 5, each of three units over a function each:

- attributes other than those that are moved name lists of locations by their index, as DW_AT_string_length, and the
  greatest index of the unit is theirs (section 7.26);
- a unit with DW_AT_low_pc and DW_AT_high_pc has a DW_AT_rnglists_base that nothing uses (section 3.1.1);
- units name lists of ranges by indexes that aren't the first ones (section 7.28);
- the address of a unit's own DW_AT_low_pc is given by its index, and its lists count from there (section 2.17.3);
- an inlined function has a block of several ranges, or of one that becomes several, and the code at which it is entered
  seldom runs (section 2.18).

COMMAND (`./sudrepka` if it isn't given) rewrites each by a profile that tears the functions apart. `llvm-dwarfdump
--verify` may find nothing in either file, and each base that a unit names has to be that of a table. `gdb`, put to each
instruction, has to say the same function, line and variable before and after, and to break on the inlined function
where it is entered. The status is 0 if all this holds. It wants `llvm-dwarfdump`, `gdb-multiarch` and `qemu-user`.
FOLDER keeps the files.
"""
import argparse
import os
import re
import struct
import subprocess
import sys
import tempfile
import typing

ROOT = os.path.dirname(os.path.dirname(os.path.abspath(__file__)))
sys.path.insert(0, os.path.join(ROOT, "bench"))
from dwarf_verify import complaints  # noqa: E402
from frame_rows import table_at  # noqa: E402
from hostile_files import BASE, SHT_PROGBITS, TEXT, File, uleb  # noqa: E402
from hostile_units import list_table, unit  # noqa: E402
from inlined_breaks import breaks_by_gdb  # noqa: E402
from profiles import built, debug, newest, output, want  # noqa: E402

# A function: beqz a0, seldom; the way that runs often (12); ret. The seldom way goes back to the ret.
CODE = struct.pack("<5I", 0x00050663, 0x00150513, 0x0080006F, 0x00158593, 0x00008067)
SELDOM, OFTEN, BOTH, END = 4, 12, 16, len(CODE)  # where its parts start, and where the two ways meet
UNITS = 3
START = BASE + TEXT

STRING, ADDR, DATA4, REF4, OFFSET, EXPRESSION, FLAG = 0x08, 0x01, 0x06, 0x13, 0x17, 0x18, 0x19
LOCATION_INDEX, RANGES_INDEX, ADDRESS_INDEX, DATA1 = 0x22, 0x23, 0x1B, 0x0B
COMPILE_UNIT, BASE_TYPE, SUBPROGRAM, VARIABLE, STRING_TYPE, INLINED = 0x11, 0x24, 0x2E, 0x34, 0x12, 0x1D
LOCATION, NAME, BYTE_SIZE, LOW, HIGH, LANGUAGE, ENCODING, LINES = 0x02, 0x03, 0x0B, 0x11, 0x12, 0x13, 0x3E, 0x10
TYPE, RANGES, ENTRY, ORIGIN, INLINE, FRAME_BASE, EXTERNAL = 0x49, 0x55, 0x52, 0x31, 0x20, 0x40, 0x3F
ADDR_BASE, RANGES_BASE, LOCATIONS_BASE, CALL_FILE, CALL_LINE = 0x73, 0x74, 0x8C, 0x58, 0x59
# Attributes that may name a list of locations (DWARF 5, section 7.5.4), by the tag that one is tried with.
OTHERS = {"string_length": (STRING_TYPE, 0x19), "static_link": (SUBPROGRAM, 0x48), "return_addr": (SUBPROGRAM, 0x2A)}
SHORT = {DATA1: "<B", DATA4: "<I", REF4: "<I", OFFSET: "<I", ADDR: "<Q"}


class Attribute(typing.NamedTuple):
    """An attribute of an entry: its name, its form and its value, a number, or bytes for a text or an expression."""

    name: int
    form: int
    value: typing.Any = 0

    def encoded(self):
        if self.form in SHORT:
            return struct.pack(SHORT[self.form], self.value)
        if self.form == STRING:
            return self.value + b"\0"
        if self.form == EXPRESSION:
            return uleb(len(self.value)) + self.value
        return b"" if self.form == FLAG else uleb(self.value)


class Entries:
    """Entries of a file, with their declarations, of which each has one."""

    def __init__(self):
        self.declarations, self.count = bytearray(), 0

    def entry(self, tag, attributes, children=None):
        """The bytes of an entry, and those of its children after it."""
        self.count += 1
        pairs = b"".join(uleb(part.name) + uleb(part.form) for part in attributes)
        self.declarations += uleb(self.count) + uleb(tag) + bytes([children is not None]) + pairs + b"\0\0"
        own = uleb(self.count) + b"".join(part.encoded() for part in attributes)
        return own + (b"".join(children) + b"\0" if children is not None else b"")

    def unit(self, attributes, children):
        """A unit: `children` gives its entries, by the place of the base type that is the first of them."""
        self.count += 1
        pairs = b"".join(uleb(part.name) + uleb(part.form) for part in attributes)
        self.declarations += uleb(self.count) + uleb(COMPILE_UNIT) + b"\1" + pairs + b"\0\0"
        own = uleb(self.count) + b"".join(part.encoded() for part in attributes)
        word = self.entry(BASE_TYPE, [Attribute(BYTE_SIZE, DATA1, 8), Attribute(ENCODING, DATA1, 5), name(b"long")])
        first = 12 + len(own)
        return unit(own + word + b"".join(children(first, first + len(word))) + b"\0")


def name(text):
    return Attribute(NAME, STRING, text)


def bounds(k):
    return [Attribute(LOW, ADDR, START + END * k), Attribute(HIGH, DATA4, END)]


def own(k, *more):
    """The attributes of a unit."""
    lines = Attribute(LINES, OFFSET, k * len(line_table(0)))
    return [name(b"unit%d.c" % k), Attribute(LANGUAGE, DATA1, 0x1D), lines, *more]


def pairs_of(*parts):
    """A list of offset pairs, with an expression each if it is one of locations. Both tables have kind 4 for it."""
    tail = lambda part: uleb(len(part[2])) + part[2] if len(part) == 3 else b""
    return b"".join(b"\4" + uleb(part[0]) + uleb(part[1]) + tail(part) for part in parts) + b"\0"


A0, A1 = b"\x5a", b"\x5b"  # DW_OP_reg10 and DW_OP_reg11
PLACES = pairs_of((0, SELDOM, A0), (SELDOM, BOTH, A1), (BOTH, END, A0))
OTHER = pairs_of((0, END, b"\x8a\0"))  # DW_OP_breg26 0


def indexed(*lists):
    """A table of lists, all of which have an index."""
    places, at = [], 4 * len(lists)
    for one in lists:
        places.append(at)
        at += len(one)
    return list_table(b"".join(lists), places)


def function(entries, k, word, place, more=(), inner=()):
    """The function of a unit, with a variable whose location has this form and value."""
    variable = entries.entry(VARIABLE, [name(b"v"), Attribute(TYPE, REF4, word), Attribute(LOCATION, *place)])
    attributes = [name(b"f%d" % k), Attribute(EXTERNAL, FLAG), *(more or bounds(k))]
    base = Attribute(FRAME_BASE, EXPRESSION, b"\x9c")  # DW_OP_call_frame_cfa
    return entries.entry(SUBPROGRAM, [*attributes, base], [variable, *inner])


def named_by_others(tag, attribute):
    """A location has index 0, and another attribute the greatest index, 2."""
    entries = Entries()

    def children(k):
        def of(word, _):
            other = Attribute(attribute, LOCATION_INDEX, 2)
            if tag == SUBPROGRAM:
                return [function(entries, k, word, (LOCATION_INDEX, 0), [*bounds(k), other])]
            return [entries.entry(tag, [name(b"text"), other]), function(entries, k, word, (LOCATION_INDEX, 0))]
        return of

    units = [entries.unit(own(k, *bounds(k), Attribute(LOCATIONS_BASE, OFFSET, 12)), children(k)) for k in range(UNITS)]
    return tables(entries, units, loclists=indexed(PLACES, OTHER, OTHER))


def unused_base():
    """The first unit uses a long table of ranges; the others name its base, and a later one, and use none of it."""
    entries = Entries()
    first = indexed(*[pairs_of((0, END))] * 16)
    second = indexed(pairs_of((0, END)))
    plain = lambda k: lambda word, _: [function(entries, k, word, (EXPRESSION, A0))]

    def uses(word, _):
        return [function(entries, 0, word, (EXPRESSION, A0), [Attribute(RANGES, RANGES_INDEX, 15)])]

    units = [entries.unit(own(0, *bounds(0), Attribute(RANGES_BASE, OFFSET, 12)), uses)]
    for k, base in ((1, len(first) + 12), (2, 12)):
        units.append(entries.unit(own(k, *bounds(k), Attribute(RANGES_BASE, OFFSET, base)), plain(k)))
    return tables(entries, units, rnglists=first + second)


def later_indexes():
    """Of five lists with an index the third is the function's, and that of the unit itself is the fifth."""
    entries = Entries()
    lists = [pairs_of((0, 1))] * 2 + [pairs_of((0, SELDOM), (SELDOM, END)), pairs_of((0, 1)), pairs_of((0, END))]

    def children(k):
        return lambda word, _: [function(entries, k, word, (EXPRESSION, A1), [Attribute(RANGES, RANGES_INDEX, 2)])]

    units = []
    for k in range(UNITS):
        bases = [Attribute(RANGES_BASE, OFFSET, 12)]
        units.append(entries.unit(own(k, *bounds(k), *bases), children(k)))
    return tables(entries, units, rnglists=indexed(*lists))


def low_by_index():
    """The unit's low_pc is the address of index k of `.debug_addr`; its lists count from it."""
    entries = Entries()

    def children(k):
        return lambda word, _: [function(entries, k, word, (LOCATION_INDEX, 0),
                                         [Attribute(LOW, ADDRESS_INDEX, k), Attribute(HIGH, DATA4, END)])]

    units = []
    for k in range(UNITS):
        bases = [Attribute(ADDR_BASE, OFFSET, 8), Attribute(LOCATIONS_BASE, OFFSET, 12)]
        place = [Attribute(LOW, ADDRESS_INDEX, k), Attribute(HIGH, DATA4, END)]
        units.append(entries.unit(own(k, *bases, *place), children(k)))
    addresses = b"".join(struct.pack("<Q", START + END * k) for k in range(UNITS))
    addr = struct.pack("<IHBB", 4 + len(addresses), 5, 8, 0) + addresses
    return tables(entries, units, loclists=indexed(PLACES), addr=addr)


def inlined_ranges():
    """A block of the inlined function g is entered where code seldom runs: with ranges and DW_AT_entry_pc, with ranges
    of which the first is entered, and with two bounds."""
    entries = Entries()
    lists = [pairs_of((SELDOM, OFTEN), (OFTEN, BOTH))]

    def children(k):
        entry = START + END * k + SELDOM
        ranges = Attribute(RANGES, RANGES_INDEX, 0)
        block = [[Attribute(ENTRY, ADDR, entry), ranges], [ranges],
                 [Attribute(LOW, ADDR, entry), Attribute(HIGH, DATA4, BOTH - SELDOM)]][k]

        def of(word, place):
            origin = entries.entry(SUBPROGRAM, [name(b"g"), Attribute(INLINE, DATA1, 1)])
            called = [Attribute(CALL_FILE, DATA1, 1), Attribute(CALL_LINE, DATA1, 1)]
            inner = entries.entry(INLINED, [Attribute(ORIGIN, REF4, place), *block, *called])
            return [origin, function(entries, k, word, (EXPRESSION, A1), inner=[inner])]
        return of

    units = [entries.unit(own(k, *bounds(k), Attribute(RANGES_BASE, OFFSET, 12)), children(k)) for k in range(UNITS)]
    return tables(entries, units, rnglists=indexed(*lists))


def line_table(k):
    """The lines of a unit: each instruction has one of its own. DWARF 5, section 6.2."""
    formats = b"\1\1\x08\1/\0" + b"\1\1\x08\2unit%d.c\0code.c\0" % k
    fields = bytes([1, 1, 1, 0xFB, 14, 13, 0, 1, 1, 1, 1, 0, 0, 0, 1, 0, 0, 1]) + formats
    program = b"\0\x09\2" + struct.pack("<Q", START + END * k) + b"\4\1"  # DW_LNE_set_address, DW_LNS_set_file 1
    program += b"\1" + (b"\2\4\3\1\1") * (END // 4 - 1) + b"\2\4" + b"\0\1\1"
    contents = struct.pack("<HBBI", 5, 8, 0, len(fields)) + fields + program
    return struct.pack("<I", len(contents)) + contents


def tables(entries, units, **lists):
    found = {".debug_info": b"".join(units), ".debug_abbrev": bytes(entries.declarations) + b"\0",
             ".debug_line": b"".join(line_table(k) for k in range(UNITS))}
    return found | {f".debug_{key}": contents for key, contents in lists.items()}


KINDS = {**{f"named by {key}": (lambda pair=pair: named_by_others(*pair)) for key, pair in OTHERS.items()},
         "unused base": unused_base, "later indexes": later_indexes, "low_pc by index": low_by_index,
         "ranges of an inlined function": inlined_ranges}


def write(path, contents):
    """Writes a file of the functions with these tables, and a profile in which the first way is the one that ran."""
    names = b"\0" + b"".join(key.encode() + b"\0" for key in contents)
    file = File(CODE * UNITS, names)
    texts = b"\0" + b"".join(b"f%d\0" % k for k in range(UNITS))
    file.add_symbols([(1 + 3 * k, START + END * k, END) for k in range(UNITS)], texts)
    for key, data in contents.items():
        file.add(SHT_PROGBITS, data, name=names.index(b"\0" + key.encode() + b"\0") + 1)
    with open(path, "wb") as out:
        out.write(file.bytes())
    with open(f"{path}.profile", "w", encoding="ascii") as out:
        out.writelines(f"1 f{k} 0 1 f{k} {OFTEN:x} 0 100\n" for k in range(UNITS))
    os.chmod(path, 0o755)


# Asks `gdb` at each of the addresses in a file, in a program that was put there: for the function, with the inlined
# ones, and their lines, and for the variable.
BY_GDB = """
import gdb
def said(command):
    try:
        return gdb.execute(command, to_string=True)
    except gdb.error as error:
        return str(error)
def functions():
    found = []
    try:
        frame = gdb.newest_frame()
        is_inner = True
        while is_inner:
            found.append(f"{{frame.name()}}:{{frame.find_sal().line}}")
            is_inner = frame.type() == gdb.INLINE_FRAME
            frame = frame.older() if is_inner else frame
    except gdb.error as error:
        found.append(str(error))
    return " ".join(found)
for at in open({places!r}):
    said("set var $pc = " + at)
    words = " | ".join([functions(), *(said(command) for command in ("output v", "ptype v"))])
    print("STOP", at.strip(), " ".join(words.split()), "END")
"""
# The sections of lists, by the attribute that names where their offsets begin.
SECTIONS = {"rnglists": ".debug_rnglists", "loclists": ".debug_loclists"}
HEADER = 12  # bytes of a table's header
REGISTERS = [f"set var $x{number} = {number * 1001}" for number in (10, 11, 26)]


def by_gdb(path, places, folder):
    """What gdb says at each of these addresses."""
    listed, script = os.path.join(folder, "places"), os.path.join(folder, "ask.py")
    with open(listed, "w", encoding="ascii") as file:
        file.writelines(f"{place:#x}\n" for place in places)
    with open(script, "w", encoding="ascii") as file:
        file.write(BY_GDB.format(places=listed))
    text = debug(path, [], [*REGISTERS, f"source {script}"])
    return {int(at, 16): said for at, said in re.findall(r"^STOP (0x[0-9a-f]+) (.*) END$", text, re.M)}


def base_problems(path):
    """Where a unit names a base that isn't right after the header of a table. DWARF 5, sections 7.28 and 7.29."""
    info, problems = output([newest("llvm-dwarfdump"), "--debug-info", path]), []
    with open(path, "rb") as file:
        data = file.read()
    for kind, section in SECTIONS.items():
        _, start, size = table_at(path, section)
        begun, at = set(), start
        while at + HEADER <= start + size:
            begun.add(at + HEADER - start)
            at += 4 + int.from_bytes(data[at:at + 4], "little")
        bases = {int(base, 16) for base in re.findall(rf"DW_AT_{kind}_base\t\(0x([0-9a-f]+)\)", info)}
        problems += [f"no table begins before the base {base:x} in {section}" for base in sorted(bases - begun)]
    return problems


def problems_of(tool, path, folder):
    """What is found of a file and its output."""
    new, spans = f"{path}.moved", f"{path}.map"
    command = [*tool, "rewrite", path, f"{path}.profile", new, spans]
    done = subprocess.run(command, capture_output=True, text=True, check=False)
    if done.returncode != 0:
        return [f"rewrite says {done.stdout.strip() or done.returncode}"]
    os.chmod(new, 0o755)
    with open(spans, encoding="ascii") as file:
        moved = {int(old, 16): int(at, 16) for at, size, old in (line.split() for line in file) if size != "0"}
    problems = []
    for file in (path, new):
        said = complaints(newest("llvm-dwarfdump"), file, folder) + base_problems(file)
        problems += [f"{os.path.basename(file)}: {line}" for line in said]
    before, after = by_gdb(path, sorted(moved), folder), by_gdb(new, [moved[at] for at in sorted(moved)], folder)
    if len(before) < len(moved):
        problems.append(f"gdb says something at {len(before)} of {len(moved)} instructions")
    if all("No symbol" in said for said in before.values()):
        problems.append("gdb finds no variable before")
    for at, said in before.items():
        if after.get(moved[at]) != said:
            problems.append(f"gdb says {after.get(moved[at])!r} at {moved[at]:x}, and {said!r} at {at:x} before")
    places = [breaks_by_gdb(file, ["g"]).get("g", set()) for file in (path, new)]
    wanted = {moved.get(at) for at in places[0]}
    if wanted != places[1]:
        told = [", ".join(f"{at:x}" for at in sorted(part)) for part in (wanted, places[1])]
        problems.append(f"gdb breaks on g at {told[1]}, and not at {told[0]}, where its blocks are entered")
    return problems


def main():
    words = argparse.ArgumentParser(description="has debuggers read units whose lists are named in many ways")
    words.add_argument("--tool", default=os.path.join(ROOT, "sudrepka"), help="the command that takes `rewrite ..`")
    words.add_argument("--keep", help="a folder for all files")
    given = words.parse_args()
    want("gdb-multiarch", "qemu-riscv64", newest("llvm-dwarfdump") or "llvm-dwarfdump")
    tool, count = built(given.tool), 0
    with tempfile.TemporaryDirectory() as room:
        folder = given.keep or room
        os.makedirs(folder, exist_ok=True)
        for number, (kind, make) in enumerate(KINDS.items()):
            path = os.path.join(folder, f"units{number}")
            write(path, make())
            problems = problems_of(tool, path, folder)
            print(f"{kind}: {len(problems)} problems", flush=True)
            for problem in problems[:5]:
                print(f"    {problem}", flush=True)
            count += len(problems)
    return 1 if count else 0


if __name__ == "__main__":
    sys.exit(main())
