"""What other tools find in the line tables of an executable and of its rewritten file.

`llvm-dwarfdump` and `readelf` print all rows. `addr2line`, `llvm-symbolizer` and `gdb` say at an address what the units of
`.debug_info` lead to: they are asked in copies that have nothing but a unit for each unit of lines.
"""
import bisect
import os
import re
import shutil
import struct
import subprocess
import tempfile

from profiles import CROSS, newest, output

DEBUG_TABLES = ["info", "types", "abbrev", "aranges", "addr", "ranges", "rnglists", "loc", "loclists", "macro", "str_offsets",
                "frame", "pubnames", "pubtypes", "gnu_pubnames", "gnu_pubtypes"]


def leave_lines(path):
    """Takes all debug tables out of an executable but that of lines and the texts of debug tables."""
    leaves = [word for name in DEBUG_TABLES for word in ("-R", f".debug_{name}", "-R", f".rela.debug_{name}")]
    # Symbols that Clang makes in the line table would lie past the end of a shorter one.
    marks = ["--strip-symbol=.Lline_table_start*", "--strip-symbol=.Ldebug_line*"]
    subprocess.run([CROSS + "objcopy", *leaves, "--wildcard", *marks, path], capture_output=True, check=True)


def table_size(path):
    """The bytes of `.debug_line`; 0 where there is none."""
    found = re.search(r" \.debug_line +\S+ +[0-9a-f]+ [0-9a-f]+ ([0-9a-f]+)", output([CROSS + "readelf", "-SW", path]))
    return int(found[1], 16) if found else 0


class Unit:
    """A unit of lines: its place, its directories and files, and its sequences of rows."""

    def __init__(self, place):
        self.place, self.directories, self.files, self.sequences = place, [], [], [[]]


def units_by_llvm(path):
    """The units of `.debug_line`. A row has its address, and a text of all else that it says."""
    units = []
    for line in output([newest("llvm-dwarfdump"), "--debug-line", path]).splitlines():
        row = re.match(r"0x([0-9a-f]{16}) +(\d+) +(\d+) +(\d+) +(.*)", line)
        if found := re.match(r"debug_line\[0x([0-9a-f]+)\]", line):
            units.append(Unit(int(found[1], 16)))
        elif found := re.match(r"include_directories\[ *\d+\] = \"(.*)\"", line):
            units[-1].directories.append(found[1])
        elif found := re.match(r" +name: \"(.*)\"", line):
            units[-1].files.append(found[1])
        elif found := re.match(r" +dir_index: (\d+)", line):
            home = os.path.join(units[-1].directories[0], units[-1].directories[int(found[1])])
            units[-1].files[-1] = os.path.join(home, units[-1].files[-1])
        elif row and "end_sequence" in row[5]:
            units[-1].sequences[-1].append((int(row[1], 16), None))
            units[-1].sequences.append([])
        elif row:
            said = f"{row[2]}:{row[3]} {units[-1].files[int(row[4])]} {' '.join(row[5].split())}"
            units[-1].sequences[-1].append((int(row[1], 16), said))
    return units


def sequences_by_llvm(path):
    return [rows for unit in units_by_llvm(path) for rows in unit.sequences]


def sequences_by_readelf(path):
    """All sequences. A row says the name of its file, its line, and whether it begins a statement."""
    sequences = [[]]
    for line in output([CROSS + "readelf", "-WwL", path]).splitlines():
        row = re.match(r"(\S+) +(\d+|-) +0x([0-9a-f]+|0)(?: +(\d+))?( +x)?", line)
        if row:
            sequences[-1].append((int(row[3], 16), None if row[2] == "-" else f"{row[1]} {row[2]}{' x' if row[5] else ''}"))
            if row[2] == "-":
                sequences.append([])
    return sequences


def in_force(sequences, addresses):
    """By the address the rows in force there: those with the greatest address up to it, in the first sequence that holds it."""
    left, answers = sorted(addresses), {}
    for rows in sequences:
        if not rows:
            continue
        low, high = bisect.bisect_left(left, rows[0][0]), bisect.bisect_left(left, rows[-1][0])
        starts = [at for at, _ in rows]
        for address in left[low:high]:
            end = bisect.bisect_right(starts, address)
            begin = bisect.bisect_left(starts, starts[end - 1])
            answers[address] = [said for _, said in rows[begin:end]]
        del left[low:high]
    return answers


def write_units(path, units, addresses, folder):
    """Adds to an executable a unit of `.debug_info` for each unit of lines, with those of its ranges that hold addresses."""
    abbreviations = bytes([1, 0x11, 0, 0x10, 0x17, 0x55, 0x17, 0x03, 0x08, 0x1B, 0x08, 0x11, 0x01, 0, 0, 0])
    lists, info, low, high = bytearray(12), bytearray(), min(addresses), max(addresses) + 1
    for unit in units:
        ranges = [(rows[0][0], rows[-1][0]) for rows in unit.sequences if rows]
        place = len(lists)
        for start, end in ranges:
            if max(start, low) < min(end, high):
                lists += b"\x06" + struct.pack("<QQ", start, end)  # DW_RLE_start_end
        lists += b"\0"
        name = os.path.basename(unit.files[0]).encode() + b"\0"
        entry = b"\1" + struct.pack("<II", unit.place, place) + name + unit.directories[0].encode() + b"\0" + bytes(8)
        info += struct.pack("<IHBBI", 8 + len(entry), 5, 1, 8, 0) + entry
    struct.pack_into("<IHBBI", lists, 0, len(lists) - 4, 5, 8, 0, 0)
    command = [CROSS + "objcopy"]
    for name, contents in ((".debug_info", info), (".debug_abbrev", abbreviations), (".debug_rnglists", lists)):
        part = os.path.join(folder, name)
        with open(part, "wb") as file:
            file.write(contents)
        command += ["--add-section", f"{name}={part}"]
    subprocess.run([*command, path], capture_output=True, check=True)


def by_addr2line(path, addresses):
    """Lines without their files, of which that of binutils 2.40 takes the first for the second at the start of a
    sequence."""
    said = output([CROSS + "addr2line", "-e", path, *(f"{address:x}" for address in addresses)]).splitlines()
    return [text.rpartition(":")[2] for text in said]


def by_llvm(path, addresses):
    return output([newest("llvm-symbolizer"), "--functions=none", "--no-inlines", "--output-style=GNU", "-e", path,
                   *(f"0x{address:x}" for address in addresses)]).splitlines()


def by_gdb(path, addresses):
    words = [word for address in addresses for word in ("-ex", f"info line *0x{address:x}", "-ex", "echo ;\\n")]
    said = output(["gdb-multiarch", "-batch", "-nx", *words, path]).split(";\n")
    return [re.sub(r" (starts at|is at|available for) address .*", "", text.strip(), flags=re.S) for text in said[:-1]]


def differences(name, pairs, before, after):
    return [f"{name} says {said} at {at:x}, and {wanted} at {source:x} before"
            for (at, source), wanted, said in zip(pairs, before, after) if said != wanted]


def asked_problems(old, new, pairs):
    """Where tools say another line at a new address than at its owner, in copies with a unit for each unit of lines."""
    problems, addresses = [], tuple(zip(*pairs))
    with tempfile.TemporaryDirectory() as folder:
        copies = [os.path.join(folder, "new"), os.path.join(folder, "old")]
        for path, copy, asked in zip((new, old), copies, addresses):
            shutil.copy(path, copy)
            write_units(copy, units_by_llvm(path), asked, folder)
        tools = {"addr2line": by_addr2line, "llvm-symbolizer": by_llvm}
        if shutil.which("gdb-multiarch"):
            tools["gdb"] = by_gdb
        for name, ask in tools.items():
            after, before = (ask(copy, asked) for copy, asked in zip(copies, addresses))
            if len(before) != len(pairs) or len(after) != len(pairs) or len(set(before)) < 2:
                problems.append(f"{name} doesn't say a line for each address")
            problems += differences(name, pairs, before, after)
    return problems


def line_problems(old, new, spans):
    """Where a rewritten file says other lines at the first and last byte of what an instruction became than the input at it."""
    if not newest("llvm-dwarfdump"):
        return []
    pairs = sorted({(at, source) for start, length, source in spans if length for at in (start, start + length - 1)})
    problems, rows = [], []
    for name, read in (("readelf", sequences_by_readelf), ("llvm-dwarfdump", sequences_by_llvm)):
        before, after = in_force(read(old), [source for _, source in pairs]), in_force(read(new), [at for at, _ in pairs])
        rows = [before.get(source) for _, source in pairs]
        if not any(rows):
            return [f"{name} finds no lines before"]
        problems += differences(name, pairs, rows, [after.get(at) for at, _ in pairs])
    # gdb says the line of the code before where a row says line 0.
    return problems + asked_problems(old, new, [pair for pair, said in zip(pairs, rows) if said and said[-1][:2] != "0:"])


def places_by_addr2line(path, addresses):
    """The path of a file and the line at each address, by `addr2line`, which reads these from its standard input."""
    words = "".join(f"{address:x}\n" for address in addresses)
    done = subprocess.run([CROSS + "addr2line", "-e", path], input=words, capture_output=True, text=True, check=False)
    return [re.sub(r" \(discriminator \d+\)", "", line) for line in done.stdout.splitlines()]


def place_of(rows):
    """The path and the line of the row in force; None where no row is, or where its line is 0."""
    if not rows or rows[-1] is None:
        return None
    number, path = re.match(r"(\d+):\d+ (\S+)", rows[-1]).groups()
    return f"{os.path.normpath(path)}:{number}" if number != "0" else None


def file_problems(old, new, spans):
    """Where `addr2line` names another file or line at a new address than the table of the input does at the owner. That
    of binutils 2.40 takes file 0 where a sequence gives none, so `llvm-dwarfdump` reads the table; and it doesn't find
    all units of Clang's -flto, so it isn't asked where it says no line at the owner."""
    if not newest("llvm-dwarfdump"):
        return []
    pairs = [(at, source) for at, length, source in spans if length]
    rows = in_force(sequences_by_llvm(old), [source for _, source in pairs])
    found = places_by_addr2line(old, [source for _, source in pairs])
    told = [text.rpartition(":")[2].isdigit() for text in found]
    wanted = [place_of(rows.get(source)) if line else None for line, (_, source) in zip(told, pairs)]
    said = places_by_addr2line(new, [at for at, _ in pairs])
    if len(said) != len(pairs):
        return [f"addr2line says {len(said)} lines at {len(pairs)} addresses"]
    said = [os.path.normpath(text.rpartition(":")[0]) + ":" + text.rpartition(":")[2] for text in said]
    kept = [k for k, place in enumerate(wanted) if place]
    return differences("addr2line", [pairs[k] for k in kept], [wanted[k] for k in kept], [said[k] for k in kept])
