#!/usr/bin/env python3
"""Compares what `lookup` says of addresses with what other tools say, and times it on one address of a large file.

    python3 bench/lookups.py [--tool COMMAND] [--keep FOLDER] [--inputs] [--every N] [PROGRAM..]
    python3 bench/lookups.py --large [--tool COMMAND] [--keep FOLDER] [MIB..]

Each program of `examples` is compiled by GCC with GNU ld and by Clang with lld, at -O2, with all debug tables
and unwind tables of its own code, and linked with libraries that have no debug data. COMMAND (`./sudrepka` where it
isn't given) records a short run of it and rewrites it by that profile; with --inputs it doesn't. `lookup` is asked
for each instruction of the input, or for each Nth one, and for the first and the last byte of what each became in
the output. Of the input

- `readelf` and `llvm-dwarfdump` have to find the same rows of lines in force, `addr2line`, `llvm-symbolizer` and
  `gdb` the same line;
- `llvm-dwarfdump` has to find the same entries with ranges that cover the address, and `readelf` the same row of
  unwind tables.

At the output `lookup` has to say what it said of the owner in the input, but that a handler that was moved has its
new address. A line for each file has the count of addresses and of lines that were compared; a line for each of the
first problems follows. The status is 0 where there is none. It wants what `real_programs.py` wants, and LLVM's tools
and `gdb-multiarch`. FOLDER keeps all files.

With --large a program of so many MiB (27 and 64 where it isn't said) is looked up at one address by `lookup` and
`frames`, and by `addr2line -i`, `llvm-symbolizer` and `gdb -batch`: each line has the best seconds of the clock of
five and the peak memory in MiB."""
import argparse
import bisect
import collections
import os
import re
import subprocess
import sys
import tempfile

import debug_files
from debug_files import apart, asked, best_of, build_with_tables, instructions
from frames import rows_by_readelf
from line_rows import by_addr2line, by_gdb, by_llvm, in_force, sequences_by_llvm, sequences_by_readelf
from profiles import CROSS, built, output, record, want
from real_programs import LONGER, NO_COMPILER, ROOT, buildable, compilers

REGISTERS = ["zero", "ra", "sp", "gp", "tp", "t0", "t1", "t2", "s0", "s1", *(f"a{n}" for n in range(8)),
             *(f"s{n}" for n in range(2, 12)), *(f"t{n}" for n in range(3, 7))]
NUMBERS = {name: f"r{n}" for n, name in enumerate(REGISTERS)}
ROW = re.compile(r"line (.*):(\d+):(\d+)((?: stmt| block| prologue| epilogue)*)(?: isa (\d+))?(?: disc (\d+))?")
FLAGS = {"stmt": "is_stmt", "block": "basic_block", "prologue": "prologue_end", "epilogue": "epilogue_begin"}


class Said:
    """A report: its rows of lines, the entries that cover the address, and how to unwind."""

    def __init__(self, text):
        self.text, self.rows, self.covers, self.unwind = text, [], set(), None
        for line in text.splitlines():
            if row := ROW.fullmatch(line):
                flags = " ".join(FLAGS[flag] for flag in row[4].split())
                self.rows.append((row[1], int(row[2]), int(row[3]), int(row[5] or 0), int(row[6] or 0), flags))
            elif line.startswith("covers "):
                self.covers.add(int(line.split()[1], 16))
            elif line.startswith("unwind "):
                self.unwind = line


def entries_by_llvm(path):
    """The ranges of each entry that has some, by its place."""
    found, place, low = collections.defaultdict(list), None, None
    for line in output(["llvm-dwarfdump", "--debug-info", path]).splitlines():
        if row := re.match(r"0x([0-9a-f]{8}):\s+DW_TAG", line):
            place, low = int(row[1], 16), None
        elif row := re.match(r"\s+DW_AT_low_pc\t\(0x([0-9a-f]{16})\)", line):
            low = int(row[1], 16)
        elif (row := re.match(r"\s+DW_AT_high_pc\t\(0x([0-9a-f]{16})\)", line)) and low is not None:
            found[place].append((low, int(row[1], 16)))
        elif re.match(r"\s+DW_AT_ranges", line):
            found[place, "list"] = []
            low = "ranges"
        elif row := re.match(r"\s+\[0x([0-9a-f]{16}), 0x([0-9a-f]{16})\)(\)?)", line):
            if low == "ranges":
                found[place].append((int(row[1], 16), int(row[2], 16)))
                low = None if row[3] else low
        elif re.match(r"\s+DW_AT_", line) and low == "ranges":
            low = None
    return {place: ranges for place, ranges in found.items() if not isinstance(place, tuple)}


def covering(entries, addresses):
    """By the address the entries whose ranges hold it."""
    ordered, answers = sorted(addresses), {address: set() for address in addresses}
    for place, ranges in entries.items():
        for low, high in ranges:
            for address in ordered[bisect.bisect_left(ordered, low):bisect.bisect_left(ordered, high)]:
                answers[address].add(place)
    return answers


def as_unwind(row):
    """A row that readelf prints, as `lookup` says it, without the column of the return address."""
    cfa, *rules = row.split()
    base, sign, offset = re.fullmatch(r"(\w+)([+-])(\d+)", cfa).groups() if cfa != "exp" else ("", "", "exp")
    said = [f"cfa {NUMBERS[base]}{sign}{offset}" if base else "cfa exp"]
    for register, rule in sorted((int(NUMBERS[name][1:]), rule) for name, rule in (rule.split("=") for rule in rules)):
        offset = re.fullmatch(r"([cv])([+-]\d+)", rule)
        form = {"s": "same", **NUMBERS}.get(rule, rule)
        if offset:
            form = {"c": "[cfa{}]", "v": "cfa{}"}[offset[1]].format(offset[2])
        said.append(f"r{register}={form}")
    return " ".join(said)


def own_unwind(line):
    """The row of a report's line, without what else it says."""
    kept = re.sub(r" ra r\d+| handler \S+| table \S+| signal", "", line.removeprefix("unwind "))
    return re.sub(r" r\d+=undefined", "", kept)


# line and column, the file, and behind it the instruction set, the discriminator, of newer versions an index, and flags
BY_LLVM = re.compile(r"(\S+) (.*?) (\d+) (\d+)(?: \d+)?((?: [a-z_]+)*)")


class Comparison:
    """What is asked of a file at its addresses."""

    def __init__(self, path, addresses, said):
        self.path, self.addresses, self.said, self.problems, self.lines = path, addresses, said, [], 0

    def say(self, name, at, wanted, found):
        self.problems.append(f"{name} says {wanted} at {at:x}, and not {found}")

    def same(self, name, at, wanted, found):
        self.lines += 1
        if wanted != found:
            self.say(name, at, wanted, found)

    def rows(self):
        by_readelf = in_force(sequences_by_readelf(self.path), self.addresses)
        by_llvm_rows = in_force(sequences_by_llvm(self.path), self.addresses)
        for at, said in zip(self.addresses, self.said):
            rows = by_llvm_rows.get(at, [])
            found = [f"{line}:{column} {isa} {disc} {flags}".strip() for _, line, column, isa, disc, flags in said.rows]
            parts = [BY_LLVM.fullmatch(row) for row in rows]
            wanted = [f"{part[1]} {part[3]} {part[4]}{part[5]}" for part in parts]
            self.same("llvm-dwarfdump", at, wanted, found)
            files = [part[2] for part in parts]
            if any(not path.endswith(file) for (path, *_), file in zip(said.rows, files)):
                self.say("llvm-dwarfdump", at, files, [row[0] for row in said.rows])
            shown = [f"{os.path.basename(path)} {line}{' x' if 'is_stmt' in flags else ''}"
                     for path, line, _, _, _, flags in said.rows]
            self.same("readelf", at, by_readelf.get(at, []), shown)

    def told(self, name, ask, places):
        """What a tool says of each of these places."""
        said = ask(self.path, places) if places else []
        if len(said) != len(places):
            self.problems.append(f"{name} says something of {len(said)} of {len(places)} addresses")
        return said

    def asked(self):
        """Tools are asked where the last row in force has a line: they take another row, or none, where it is 0. gdb
        takes the last row that begins a statement."""
        told = [(at, said.rows[-1], said.rows) for at, said in zip(self.addresses, self.said)
                if said.rows and said.rows[-1][1]]
        places = [at for at, _, _ in told]
        for (at, row, _), said in zip(told, self.told("addr2line", by_addr2line, places)):
            self.same("addr2line", at, said.split()[0], str(row[1]))
        for (at, row, _), said in zip(told, self.told("llvm-symbolizer", by_llvm, places)):
            self.same("llvm-symbolizer", at, said.split(" (")[0], f"{row[0]}:{row[1]}")
        stated = [(at, [row for row in rows if "is_stmt" in row[5]]) for at, _, rows in told]
        begun = [(at, rows[-1]) for at, rows in stated if rows and rows[-1][1]]
        for (at, row), said in zip(begun, self.told("gdb", by_gdb, [at for at, _ in begun])):
            found = re.match(r'Line (\d+) of "(.*)"', said)
            wanted = (found[1], os.path.basename(found[2])) if found else said
            self.same("gdb", at, wanted, (str(row[1]), os.path.basename(row[0])))

    def entries(self):
        covers = covering(entries_by_llvm(self.path), self.addresses)
        for at, said in zip(self.addresses, self.said):
            self.same("llvm-dwarfdump", at, sorted(covers[at]), sorted(said.covers))

    def unwinding(self):
        tables = rows_by_readelf(self.path)
        for at, said in zip(self.addresses, self.said):
            rows = [row for name in (".eh_frame", ".debug_frame") if name in tables and (row := tables[name].at(at))]
            own = own_unwind(said.unwind) if said.unwind else None
            self.same("readelf", at, as_unwind(rows[0]) if rows else None, own)

    def all(self):
        refused = [(at, said.text) for at, said in zip(self.addresses, self.said) if re.match(r"-?\d", said.text)]
        if not self.addresses:
            self.problems.append("objdump finds no instruction")
        elif refused:
            self.problems.append(f"lookup says {refused[0][1].strip()} at {refused[0][0]:x}")
        else:
            self.rows()
            self.asked()
            self.entries()
            self.unwinding()


def moved_problems(tool, name, path, folder, every):
    """Rewrites a file, and looks up its new code and that of the owners."""
    new, profile, map_path = (os.path.join(folder, f"{name}.{end}") for end in ("moved", "profile", "map"))
    record(tool, path, [], profile)
    done = subprocess.run([*tool, "rewrite", path, profile, new, map_path], capture_output=True, text=True, check=False)
    if done.returncode != 0:
        return 0, [done.stdout.strip() or str(done.returncode)]
    with open(map_path, encoding="ascii") as file:
        spans = [(int(at, 16), int(size), int(old, 16)) for at, size, old in (line.split() for line in file)]
    moved = {old: at for at, _, old in spans}
    pairs = sorted({(at, old) for start, size, old in spans[::every] if size for at in (start, start + size - 1)})

    def carried(text):
        address = lambda found: int(found[0], 16)
        return re.sub(r"(?<= handler )[0-9a-f]+", lambda found: f"{moved.get(address(found), address(found)):x}", text)

    after, before = (asked(tool, "lookup", file, places) for file, places in zip((new, path), zip(*pairs)))
    return len(pairs), [f"lookup says {a!r} at {at:x}, and {b!r} at its owner {old:x}"
                        for (at, old), a, b in zip(pairs, after, before) if a != carried(b)]


def compare(tool, name, path, folder, given):
    addresses = instructions(path)[::given.every]
    comparison = Comparison(path, addresses, [Said(text) for text in asked(tool, "lookup", path, addresses)])
    comparison.all()
    problems, moved = comparison.problems, 0
    if not given.inputs:
        moved, more = moved_problems(tool, name, path, folder, given.every)
        problems = problems + more
    counts = f"{len(addresses)} addresses, {comparison.lines} lines compared, {moved} addresses of the output"
    print(f"{name:30} {counts}", flush=True)
    for problem in problems[:10]:
        print(f"    {problem}", flush=True)
    return len(problems)


def time_large(tool, folder, sizes):
    for mib in sizes:
        path = os.path.join(folder, f"large-{mib}")
        address = int(apart(debug_files.__file__, path, mib))
        size = os.path.getsize(path) / 2**20
        at = f"0x{address:x}"
        for name, command in (("lookup", [*tool, "lookup", path, at]), ("frames", [*tool, "frames", path, at]),
                              ("addr2line", [CROSS + "addr2line", "-i", "-f", "-e", path, at]),
                              ("llvm-symbolizer", ["llvm-symbolizer", "-e", path, at]),
                              ("gdb", ["gdb-multiarch", "-batch", "-nx", "-ex", f"info line *{at}", path])):
            seconds, peak, said = best_of(command, 5)
            print(f"{size:5.1f} MiB {name:16} {seconds:6.2f} s {peak:6.0f} MiB  {said}", flush=True)


def main():
    words = argparse.ArgumentParser(description="compares what `lookup` says of addresses with what other tools say")
    words.add_argument("--tool", default=os.path.join(ROOT, "sudrepka"), help="the command that takes `lookup ..`")
    words.add_argument("--keep", help="a folder for all files")
    words.add_argument("--inputs", action="store_true", help="without outputs")
    words.add_argument("--every", type=int, default=1, help="asks for each Nth instruction")
    words.add_argument("--large", action="store_true", help="times one address of large files")
    words.add_argument("programs", nargs="*")
    given = words.parse_args()
    want("llvm-dwarfdump", "llvm-symbolizer", "gdb-multiarch")
    if not given.large and not compilers():
        sys.exit(NO_COMPILER)
    tool, problems = built(given.tool), 0
    with tempfile.TemporaryDirectory() as room:
        folder = given.keep or room
        os.makedirs(folder, exist_ok=True)
        if given.large:
            return time_large(tool, folder, [int(word) for word in given.programs] or [27, 64])
        for program in buildable(given.programs or sorted(LONGER)):
            for compiler, parts in compilers().items():
                name = f"{program}.{compiler}"
                path = os.path.join(folder, name)
                build_with_tables(path, program, compiler, parts, "-O2")
                problems += compare(tool, name, path, folder, given)
    print(f"{problems} problems")
    return 1 if problems else 0


if __name__ == "__main__":
    sys.exit(main())
