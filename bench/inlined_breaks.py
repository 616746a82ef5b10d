"""Breakpoints by `gdb` on inlined functions, which have to stop where their blocks are entered.

`llvm-dwarfdump` lists the blocks of a file. A block is entered at its DW_AT_low_pc, at its DW_AT_entry_pc, or else at
the start of its first range (DWARF 5, section 2.18); `gdb` takes DW_AT_low_pc or the start of the first range for it.
"""
import os
import re
import shutil
import subprocess
import tempfile
import typing

from profiles import CROSS, GDB, newest, output

# Sets a breakpoint on each of the functions that a file names, and says where: gdb prints all of its places.
BY_GDB = """
import gdb
for name in open({names!r}):
    name = name.rstrip()
    try:
        breakpoint = gdb.Breakpoint(name, qualified="::" in name)
        places = [place.address for place in breakpoint.locations if place.address is not None]
        print("AT", name, *map(hex, places), sep="\\t")
        breakpoint.delete()
    except gdb.error as error:
        print("AT", name, sep="\\t")
"""


class Block(typing.NamedTuple):
    """A block of an inlined function: its name, where it is entered, and where `gdb` takes it to be."""

    name: str
    entry: int
    first: int


def block_of(name, lines):
    """The block of an entry of `.debug_info`, by the lines of its attributes; None if it has no code."""
    found, ranges = {}, []
    for line in lines:
        if word := re.match(r" +DW_AT_(low_pc|high_pc|entry_pc)\t\((0x[0-9a-f]+)\)", line):
            found[word[1]] = int(word[2], 16)
        elif part := re.match(r" +\[(0x[0-9a-f]+), (0x[0-9a-f]+)\)", line):
            ranges.append((int(part[1], 16), int(part[2], 16)))
        elif re.match(r" +DW_AT_(?!ranges|low_pc|high_pc|entry_pc)", line) and ranges:
            break
    if "low_pc" in found and "high_pc" in found:
        ranges = [(found["low_pc"], found["high_pc"])]
    ranges = [(start, end) for start, end in ranges if start < end]
    entry = found.get("entry_pc")
    # (GCC may enter a block at a range without bytes: that is no place to stop at)
    is_inside = entry is not None and any(start <= entry < end for start, end in ranges)
    return Block(name, entry if is_inside else ranges[0][0], ranges[0][0]) if ranges else None


def inlined_blocks(path):
    """The blocks of inlined functions that have code."""
    text = output([newest("llvm-dwarfdump"), "--debug-info", path])
    blocks = []
    for part in re.split(r"^(?=0x[0-9a-f]+: )", text, flags=re.M):
        head, _, rest = part.partition("\n")
        origin = re.search(r'DW_AT_abstract_origin\t\(0x[0-9a-f]+ "(.*)"\)', rest)
        if "DW_TAG_inlined_subroutine" in head and origin and (block := block_of(origin[1], rest.splitlines())):
            blocks.append(block)
    return blocks


def breaks_by_gdb(path, names):
    """By the name of each function the addresses at which gdb breaks on it."""
    with tempfile.TemporaryDirectory() as folder:
        listed, script = os.path.join(folder, "names"), os.path.join(folder, "ask.py")
        with open(listed, "w", encoding="utf-8") as file:
            file.writelines(f"{name}\n" for name in names)
        with open(script, "w", encoding="utf-8") as file:
            file.write(BY_GDB.format(names=listed))
        text = output([*GDB, "-x", script, path])
    rows = [line.split("\t") for line in text.splitlines() if line.startswith("AT\t")]
    return {row[1]: {int(at, 16) for at in row[2:]} for row in rows}


def demangled(names):
    """By the name of each function that which gdb takes: names of C++ are demangled."""
    done = subprocess.run([CROSS + "c++filt"], input="\n".join(names), capture_output=True, text=True, check=False)
    return dict(zip(names, done.stdout.splitlines()))


def asked_name(name):
    """The name by which gdb is asked: without the values of templates, if it is in no class and no namespace."""
    return name if "::" in name else re.sub(r"(?<!operator)<.*", "", name)


def break_problems(old, new, moved):
    """Where a breakpoint on an inlined function stops at the entry of a block before a rewrite, and not at the new
    place of that entry afterwards, or stops elsewhere besides."""
    if not shutil.which("gdb-multiarch") or not newest("llvm-dwarfdump"):
        return []
    blocks = inlined_blocks(old)
    asked = {name: asked_name(gdb) for name, gdb in demangled(sorted({block.name for block in blocks})).items()}
    entries = {}
    for block in blocks:
        entries.setdefault(asked[block.name], []).append(block)
    before, after = (breaks_by_gdb(path, sorted(entries)) for path in (old, new))
    problems = []
    for name, parts in entries.items():
        problems += problems_of(name, parts, moved, before.get(name, set()), after.get(name, set()))
    if not any(at == block.first for block in blocks for at in before.get(asked[block.name], ())) and blocks:
        problems.append("gdb breaks at no entry of an inlined function before")
    return problems


def problems_of(name, blocks, moved, before, after):
    """What is wrong with the places of breakpoints on one function."""
    problems = []
    entered = {moved[block.entry] for block in blocks if block.entry in moved}
    for first in sorted(before & {block.first for block in blocks}):
        wanted = {moved[block.entry] for block in blocks if block.first == first and block.entry in moved}
        if wanted and not wanted & after:
            problems.append(f"gdb breaks on {name} at {first:x} before, and not at {min(wanted):x} afterwards")
    others = len(before - {block.first for block in blocks})
    if len(after - entered) > others:
        places = ", ".join(f"{at:x}" for at in sorted(after - entered))
        problems.append(f"gdb breaks on {name} at {places}, where no block of it is entered; before, at {others} such "
                        "places")
    return problems
