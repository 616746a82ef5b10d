#!/usr/bin/env python3
"""The sizes of frame tables before and after a rewrite.

    python3 bench/frame_sizes.py [--tool COMMAND] [--refined] [--sources FOLDER] [--keep FOLDER] [--most RATIO]
        [PROGRAM..]

Lua, zlib, bzip2 and pugixml (`packages.py`) and the programs of `examples/` are built at -O2 -g by GCC and by Clang:
`debug` with `.debug_frame`, and `indexed` with a loaded `.eh_frame` and its index; those that unwind themselves as
`index` and `unwinder` (`report_files.py`). `large` is a program of 27 MiB, of like units by GCC (`debug_files.py`),
with `.eh_frame`. COMMAND (`./sudrepka` if it isn't given) records a whole run of each and rewrites it by that profile;
with --refined by what `tools/refine.py` makes of it, as `tools/optimize.py` does. How many FDEs there are follows from
how many functions the profile splits: a function that ran whole, or not at all, keeps its one FDE.

All functions stay in these files, as the linker leaves them if it isn't asked for less: of functions that it takes out
it leaves the entries in the table.

A row for each table of a file has its bytes and its FDEs before and after, with their ratios; the index has its bytes
alone. The list below the table has what grew by more than RATIO (1.3 if it isn't given), and what `llvm-dwarfdump`
can't read of an output and reads of its input. The status is 0 if that list is empty. It wants what `report.py` wants.
"""
import argparse
import os
import re
import subprocess
import sys
import tempfile

from debug_files import build_large
from frame_rows import table_at
from frames import unread
from layouts import refine
from packages import CACHE, PACKAGES, fetch
from profiles import CROSS, built, output
from real_programs import LINK, LONGER, NO_COMPILER, ROOT, UNWINDING, buildable, compilers
from report_files import Builder

LARGE = "large"
MIB = 27
TABLES = {".debug_frame": b"\xff" * 4, ".eh_frame": bytes(4)}  # by their names, the id of a CIE
INDEX = ".eh_frame_hdr"
WHOLE = [word for word in LINK if word != "-Wl,--gc-sections"]


def entries_of(path, name):
    """How many FDEs a table has. DWARF 5, section 6.4.1; LSB, section 10.6."""
    _, at, size = table_at(path, name)
    with open(path, "rb") as file:
        file.seek(at)
        table = file.read(size)
    count = at = 0
    while at + 8 <= size and (length := int.from_bytes(table[at:at + 4], "little")) != 0:
        count += table[at + 4:at + 8] != TABLES[name]
        at += 4 + length
    return count


def index_size(path):
    """The bytes of the index that a program header names; 0 if there is none."""
    row = re.search(r"^ *GNU_EH_FRAME +\S+ +\S+ +\S+ +0x([0-9a-f]+)", output([CROSS + "readelf", "-lW", path]), re.M)
    return int(row[1], 16) if row else 0


def sizes_of(path):
    """By the name of each table that a file has its bytes, and the count of its FDEs, which the index has none of."""
    found = {name: (table_at(path, name)[2], entries_of(path, name)) for name in TABLES if table_at(path, name)[2]}
    return found | ({INDEX: (index_size(path), None)} if index_size(path) else {})


def shown(was, now):
    """Cells of a number before and after, and how many times the first the second is."""
    return "| | |" if was is None else f"{was:,} | {now:,} | {now / max(was, 1):.2f} |"


class Sizes:
    """Builds programs, rewrites them and compares their tables."""

    def __init__(self, tool, folder, sources, most, refined):
        self.tool, self.folder, self.most, self.refined = tool, folder, most, refined
        self.builder, self.problems = Builder(folder, sources, link=WHOLE), []

    def files(self, program):
        """The files of a program: their names, and paths once they are built."""
        if program == LARGE:
            path = os.path.join(self.folder, f"{LARGE}.gcc")
            if not os.path.exists(path):
                build_large(path, MIB)
            yield path
            return
        kinds = ["index", "unwinder"] if program in UNWINDING else ["debug", "indexed"]
        for compiler in self.builder.parts:
            for kind in kinds:
                path = os.path.join(self.folder, f"{program}.{compiler}.{kind}")
                self.builder.build(path, program, compiler, kind, "-O2")
                yield path

    def moved(self, path, words, given):
        """Rewrites a file by the profile of a whole run of it; None if that isn't done."""
        profile, better, new, spans = (f"{path}.{end}" for end in ("profile", "refined", "moved", "map"))
        record = [*self.tool, "record", "--steps", "1000000000", path, profile, "--", *words]
        subprocess.run(record, input=given, stdout=subprocess.DEVNULL, check=False)
        if self.refined and (why := refine(self.tool, path, profile, better, [])):
            self.problems.append(f"{os.path.basename(path)}: {why}")
            return None
        command = [*self.tool, "rewrite", path, better if self.refined else profile, new, spans]
        done = subprocess.run(command, capture_output=True, text=True, check=False)
        if done.returncode != 0:
            self.problems.append(f"{os.path.basename(path)}: {done.stdout.strip() or done.returncode}")
            return None
        return new

    def compare(self, path, new):
        """Prints a row for each table of a file."""
        name, before, after = os.path.basename(path), sizes_of(path), sizes_of(new)
        for table, (size, count) in before.items():
            new_size, new_count = after.get(table, (0, 0))
            print(f"| {name} | `{table}` | {shown(size, new_size)} {shown(count, new_count)}", flush=True)
            pairs = [("bytes", size, new_size), ("FDEs", count, new_count)]
            self.problems += [f"{name}: {table} has {new / was:.2f} times the {what}" for what, was, new in pairs
                              if was and new > self.most * was]
        self.problems += [f"{name}: {line}" for line in unread(path, new)]

    def go(self, programs, sources):
        print("| file | table | bytes before | after | | FDEs before | after | |\n|---|---|---|---|---|---|---|---|")
        for program in programs:
            package = PACKAGES.get(program)
            words, given = (list(package.words), package.input(sources)) if package else ([], b"")
            for path in self.files(program):
                if new := self.moved(path, words, given):
                    self.compare(path, new)


def main():
    words = argparse.ArgumentParser(description="the sizes of frame tables before and after a rewrite")
    words.add_argument("--tool", default=os.path.join(ROOT, "sudrepka"), help="the command that takes `rewrite ..`")
    words.add_argument("--refined", action="store_true", help="rewrite by refined profiles")
    words.add_argument("--sources", default=CACHE, help="where the sources of packages are, or go")
    words.add_argument("--keep", help="a folder for all files")
    words.add_argument("--most", type=float, default=1.3, help="how many times as large a table may be")
    words.add_argument("programs", nargs="*", default=[*PACKAGES, *sorted(LONGER), LARGE])
    given = words.parse_args()
    if not compilers():
        sys.exit(NO_COMPILER)
    tool, programs = built(given.tool), buildable(given.programs)
    fetch(given.sources, [name for name in programs if name in PACKAGES])
    with tempfile.TemporaryDirectory() as room:
        folder = given.keep or room
        os.makedirs(folder, exist_ok=True)
        sizes = Sizes(tool, folder, given.sources, given.most, given.refined)
        if any(name in UNWINDING for name in programs):
            sizes.builder.add_unwinders()
        sizes.go(programs, given.sources)
    print(f"\n{len(sizes.problems)} problems")
    for problem in sizes.problems:
        print(f"- {problem}")
    return 1 if sizes.problems else 0


if __name__ == "__main__":
    sys.exit(main())
