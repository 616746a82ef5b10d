#!/usr/bin/env python3
"""How tables of lists grow whose offsets many units share.

    python3 bench/shared_lists.py [--tool COMMAND] [--keep FOLDER] [--most RATIO] [UNITS..]

Clang that optimizes when linking (`-flto`) makes one table of lists for all units, which all name the same offsets
(DWARF 5, sections 7.28 and 7.29). Programs of UNITS units (120 and 600 if none are given) of three functions each are
built by Clang 19 at -O2 -g. COMMAND (`./sudrepka` if it isn't given) rewrites each by an empty profile, which leaves
functions whole, and by the profile of a run, which divides them. A row has the bytes of each table of lists and of
addresses before and after, with the ratio, and the seconds of the processor that the rewrite took. The status is 0 if
no table of locations has more than RATIO times its bytes (1.5 if it isn't given) by either. It wants `clang-19` and
`lld-19`, and picolibc.
"""
import argparse
import math
import os
import re
import subprocess
import sys
import tempfile

from debug_files import FUNCTION
from frame_rows import table_at
from profiles import built, newest, output, record, spent, want
from real_programs import COMPILE, LINK, MACHINE, NO_TABLES, ROOT, call, compilers

TABLES = [".debug_loclists", ".debug_rnglists", ".debug_addr"]
EACH = 3  # functions of a unit
BATCH = 50  # files that one command compiles
START = """
register int a0 __asm__("a0") = %s;
register int a7 __asm__("a7") = 93;
__asm__ volatile("ecall" : : "r"(a0), "r"(a7));
__builtin_unreachable();
"""


def unit_text(k):
    """The text of a unit: functions that call each other, of which the first calls the last one."""
    first = EACH * k
    parts = [f"int f{first}(int *values, int count);\n"]
    for number in range(first, first + EACH):
        parts.append(FUNCTION.replace("@", str(number)).replace("$", str(max(number - 1, first))))
    return "".join(parts)


def start_text(units):
    """A unit that calls the last function of each, and ends the program."""
    last = [EACH * k + EACH - 1 for k in range(units)]
    calls = "".join(f"int f{number}(int *, int);\n" for number in last)
    sums = " + ".join(f"f{number}(values, 4)" for number in last)
    return f"{calls}void _start(void) {{ int values[4] = {{1, 2, 3, 4}};\n{START % sums}}}\n"


def write(path, text):
    with open(path, "w", encoding="ascii") as file:
        file.write(text)
    return path


def build(path, units, front):
    """Builds the program of so many units."""
    folder = path + ".units"
    os.makedirs(folder, exist_ok=True)
    sources = [write(os.path.join(folder, f"unit{k}.c"), unit_text(k)) for k in range(units)]
    sources.append(write(os.path.join(folder, "start.c"), start_text(units)))
    flags = [*MACHINE, *(word for word in COMPILE if word != "-g0"), *NO_TABLES, "-g", "-O2", "-flto"]
    here = os.getcwd()
    os.chdir(folder)  # where a command of several files writes the objects
    try:
        for k in range(0, len(sources), BATCH):
            call([*front, *flags, "-c", *sources[k:k + BATCH]])
    finally:
        os.chdir(here)
    objects = [source[:-1] + "o" for source in sources]
    call([*front, *flags, *LINK, "-Wl,-z,max-page-size=0x100000", *objects, "-o", path])


def shared_bases(path):
    """How many bases of lists of locations units name, and how many of these differ."""
    text = output([newest("llvm-dwarfdump"), "--debug-info", "--recurse-depth=0", path])
    bases = re.findall(r"DW_AT_loclists_base\t\((0x[0-9a-f]+)\)", text)
    return len(bases), len(set(bases))


def compare(tool, path, profile, label):
    """Rewrites a program and prints a row for each table. Gives the ratio of the tables of locations."""
    new, spans = (f"{path}.{end}" for end in ("moved", "map"))
    took = spent([*tool, "rewrite", path, profile, new, spans], stdout=subprocess.DEVNULL)
    if took.status != 0:
        print(f"{os.path.basename(path)}: rewrite ends with {took.status}", flush=True)
        return math.inf
    count, differ = shared_bases(path)
    ratios = {}
    for name in TABLES:
        before, after = (table_at(file, name)[2] for file in (path, new))
        if before:
            ratios[name] = after / before
            print(f"| {count} units, {differ} base | {label} | `{name}` | {before:,} | {after:,} | {ratios[name]:.2f} "
                  f"| {took.seconds:.2f} |", flush=True)
    return ratios[".debug_loclists"]


def compare_both(tool, path):
    """Rewrites a program by both profiles. Gives the ratios of the tables of locations."""
    profile = f"{path}.profile"
    whole = compare(tool, path, write(profile, ""), "none")
    record(tool, path, [], profile)
    return whole, compare(tool, path, profile, "its run")


def main():
    words = argparse.ArgumentParser(description="how tables of lists grow whose offsets many units share")
    words.add_argument("--tool", default=os.path.join(ROOT, "sudrepka"), help="the command that takes `rewrite ..`")
    words.add_argument("--keep", help="a folder for all files")
    words.add_argument("--most", type=float, default=1.5, help="how many times as large a table of locations may be")
    words.add_argument("units", type=int, nargs="*", default=[120, 600])
    given = words.parse_args()
    want("clang-19", "ld.lld-19")
    front, _ = compilers()["clang"]
    tool, ratios = built(given.tool), []
    print("| file | profile | table | bytes before | after | | seconds |\n|---|---|---|---|---|---|---|")
    with tempfile.TemporaryDirectory() as room:
        folder = given.keep or room
        os.makedirs(folder, exist_ok=True)
        for units in given.units:
            path = os.path.join(os.path.abspath(folder), f"units{units}")
            if not os.path.exists(path):
                build(path, units, front)
            ratios.extend(compare_both(tool, path))
    grown = sum(ratio > given.most for ratio in ratios)
    print(f"{grown} tables of locations have more than {given.most} times their bytes")
    return 1 if grown else 0


if __name__ == "__main__":
    sys.exit(main())
