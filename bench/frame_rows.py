"""The rows of frame tables, as other tools read them: `readelf`, `llvm-dwarfdump` and pyelftools; and frames by `gdb`.

Each reader of rows gives by the name of a table, `.debug_frame` or `.eh_frame`, its rows: from where and up to where
each holds, and a text of what it says of the frame address and of registers.
"""
import bisect
import collections
import functools
import os
import re
import subprocess
import sys
import tempfile

from profiles import CROSS, FILLED, debug, newest, output

from elf_file import ElfFile  # of tools/

# What pyelftools says, in a process of a Python that has it: a line for each entry, and one for each row of it. Nothing
# is relocated, since a linked file has the values already. A rule of a register is named after its kind. Common entries
# of version 4 are left out: that of version 0.29 doesn't read the sizes in them of addresses and of segments.
BY_PYELFTOOLS = """
import sys
from elftools.dwarf.callframe import FDE
from elftools.elf.elffile import ELFFile

def rule(found):
    return f"{found.type} {found.arg}"

def cfa(found):
    return f"{found.expr}" if found.expr is not None else f"{found.reg}+{found.offset}"

with open(sys.argv[1], "rb") as file:
    info = ELFFile(file).get_dwarf_info(relocate_dwarf_sections=False)
    tables = []
    if info.has_CFI():
        tables.append((".debug_frame", info.CFI_entries()))
    if info.has_EH_CFI():
        tables.append((".eh_frame", info.EH_CFI_entries()))
    for name, entries in tables:
        for entry in entries:
            if not isinstance(entry, FDE) or entry.cie.header["version"] == 4:
                continue
            start = entry.header["initial_location"]
            print(name, start, start + entry.header["address_range"])
            for row in entry.get_decoded().table:
                rules = [f"{key}={rule(row[key])}" for key in sorted(key for key in row if isinstance(key, int))]
                print("", row["pc"], cfa(row["cfa"]), *rules, sep="\t")
"""


def table_at(path, name):
    """The address, the offset and the size of a section; three times 0 if there is none that can be read as it is."""
    section = ElfFile(path).section(name)
    return (section.address, section.offset, section.size) if section else (0, 0, 0)


class Rows:
    """Rows of a table, each from an address up to the end of its range."""

    def __init__(self):
        self.starts, self.rows = [], []

    def add(self, found, end):
        """The rows of one entry, which ends at an address."""
        for i, (start, text) in enumerate(found):
            stop = found[i + 1][0] if i + 1 < len(found) else end
            if start < stop:
                self.rows.append((start, stop, text))

    def sort(self):
        self.rows.sort(key=lambda row: row[0])
        self.starts = [row[0] for row in self.rows]
        return self

    def at(self, address):
        i = bisect.bisect_right(self.starts, address) - 1
        if i < 0 or address >= self.rows[i][1]:
            return None
        return self.rows[i][2]


def entries_by_llvm(path):
    """By the name of each table what its entries say of exceptions, of the return address and of signals."""
    tables, rows, said, cie = {}, None, {}, None
    start, _, size = table_at(path, ".eh_frame")
    for line in output([newest("llvm-dwarfdump"), "--eh-frame", path]).splitlines():
        entry = re.match(r"([0-9a-f]{8}) .* (CIE|FDE)(?: cie=([0-9a-f]+) pc=([0-9a-f]+)\.\.\.([0-9a-f]+))?", line)
        if section := re.match(r"(\S+) contents:", line):
            rows, said = tables.setdefault(section[1], Rows()), {}
        elif entry and entry[2] == "CIE":
            cie, said[entry[1]] = entry[1], []
        elif entry:
            cie = None
            rows.add([(int(entry[4], 16), list(said.get(entry[3], [])))], int(entry[5], 16))
        elif pointer := re.match(r"  (?:Personality|LSDA) Address: ([0-9a-f]+)", line):
            # None is 0, which LLVM takes for a distance: then it is a place in the table itself.
            if pointer[1].strip("0") and not start <= int(pointer[1], 16) < start + size:
                (said[cie] if cie is not None else rows.rows[-1][2]).append(line.strip())
        elif re.match(r"  Return address", line):
            said[cie].append(line.strip())
        elif re.match(r"  Augmentation: .*S", line):  # of its text this letter alone counts, not the others
            said[cie].append("signal")
    return {name: table.sort() for name, table in tables.items() if table.rows}


def llvm_of_rows():
    """The newest `llvm-dwarfdump`, if it gives the rows that DWARF has: LLVM 14 keeps the frame address where a
    remembered state is restored."""
    dump = newest("llvm-dwarfdump")
    version = re.search(r"version (\d+)", output([dump, "--version"])) if dump else None
    return dump if version and int(version[1]) > 14 else None


def rows_by_llvm(path):
    """By the name of each table its rows, as LLVM prints them after each entry."""
    tables, rows, found, end = {}, None, [], 0
    text = output([llvm_of_rows(), "--debug-frame", "--eh-frame", path])
    for line in [*text.splitlines(), "end contents:"]:
        section = re.match(r"(\S+) contents:", line)
        entry = re.match(r"[0-9a-f]{8} .* (?:CIE|FDE cie=[0-9a-f]+ pc=([0-9a-f]+)\.\.\.([0-9a-f]+))", line)
        if (section or entry) and found:
            rows.add(found, end)
        if section or entry:
            found, end = [], int(entry[2], 16) if entry and entry[2] else 0
        if section:
            rows = tables.setdefault(section[1], Rows())
        elif row := re.match(r"  0x([0-9a-f]+): (.*)", line):
            found.append((int(row[1], 16), row[2]))
    return {name: table.sort() for name, table in tables.items() if table.rows}


def errors_by_llvm(path):
    """What LLVM can't read of the tables, without numbers, and how often."""
    done = subprocess.run([newest("llvm-dwarfdump"), "--debug-frame", "--eh-frame", path], stdout=subprocess.DEVNULL,
                          stderr=subprocess.PIPE, text=True, errors="replace", check=False)
    lines = done.stderr.splitlines() + ([f"it ends with {done.returncode}"] if done.returncode < 0 else [])
    return collections.Counter(re.sub(r"0x[0-9a-f]+|\b\d+\b", "N", line.replace(path, "FILE")) for line in lines)


@functools.cache
def python_with_pyelftools():
    """A Python that has pyelftools: this one, or that of the system."""
    for python in (sys.executable, "/usr/bin/python3"):
        if subprocess.run([python, "-c", "import elftools"], capture_output=True, check=False).returncode == 0:
            return python
    return None


def rows_by_pyelftools(path):
    """By the name of each table its rows, as pyelftools has them."""
    tables, rows, found, end = {}, None, [], 0
    command = [python_with_pyelftools(), "-c", BY_PYELFTOOLS, path]
    done = subprocess.run(command, capture_output=True, text=True, check=False)
    if done.returncode != 0:
        return {}
    for line in [*done.stdout.splitlines(), "end 0 0"]:
        if line.startswith("\t"):
            _, at, *rules = line.split("\t")
            found.append((int(at), " ".join(rules)))
            continue
        if found:
            rows.add(found, end)
        name, _, stop = line.split(" ")
        rows, found, end = tables.setdefault(name, Rows()), [], int(stop)
    return {name: table.sort() for name, table in tables.items() if table.rows}


def rows_by_readelf(path):
    """By the name of each table its rows: the frame address, and the rules of registers that have one."""
    tables, rows, names, found, end, known, initial, cie = {}, None, [], [], 0, None, {}, ""
    text = output([CROSS + "readelf", "--debug-dump=frames-interp", path])
    for line in [*text.splitlines(), "Contents of the end section:"]:
        section = re.match(r"Contents of the (\S+) section", line)
        entry = re.match(r"([0-9a-f]+) \w+ \w+ (CIE|FDE)(?:.* cie=([0-9a-f]+) pc=([0-9a-f]+)\.\.([0-9a-f]+))?", line)
        if (section or entry) and rows is not None and known is not None:
            rows.add(found or [(known, initial.get(cie))], end)
        if section:
            rows, known, initial = tables.setdefault(section[1], Rows()), None, {}
        elif entry and entry[2] == "CIE":
            cie, known, found = entry[1], None, []
        elif entry:
            cie, known, end, found = entry[3], int(entry[4], 16), int(entry[5], 16), []
        elif line.startswith("   LOC"):
            names = line.split()[2:]
        elif row := re.match(r"([0-9a-f]{16}) (\S+) +(.*)", line):
            rules = [f"{name}={rule}" for name, rule in zip(names, row[3].split()) if rule != "u"]
            said = " ".join([row[2], *sorted(rules)])
            if known is None:
                initial[cie] = said
            else:
                found.append((int(row[1], 16), said))
    return {name: table.sort() for name, table in tables.items() if table.rows}




# Asks `gdb` for the frame at each of the addresses in a file, in a program that was put there.
BY_GDB = """
import gdb
for at in open({places!r}):
    gdb.execute("set var $pc = " + at)
    try:
        said = gdb.execute("info frame", to_string=True)
    except gdb.error as error:
        said = str(error)
    print("STOP", at.strip(), " ".join(said.split()), "END")
"""


def frames_by_gdb(path, words, places):
    """The frame address and where registers are saved, the place of return among them, by `gdb`, at each of these
    addresses: in a program that is put there from its start, with another number in each register. What is read of the
    stack isn't compared: the system has random bytes there."""
    with tempfile.TemporaryDirectory() as folder:
        listed, script = os.path.join(folder, "places"), os.path.join(folder, "ask.py")
        with open(listed, "w", encoding="ascii") as file:
            file.writelines(f"{place:#x}\n" for place in places)
        with open(script, "w", encoding="ascii") as file:
            file.write(BY_GDB.format(places=listed))
        text = debug(path, words, [*FILLED, f"source {script}"])
    said = {}
    for at, found in re.findall(r"^STOP (0x[0-9a-f]+) (.*) END$", text, re.M):
        frame = re.search(r"frame at (0x[0-9a-f]+)", found)
        saved = re.search(r"Saved registers: (.*)", found)
        parts = [part[1] if part else None for part in (frame, saved)]
        said[int(at, 16)] = str(parts) if any(parts) else found
    return said
