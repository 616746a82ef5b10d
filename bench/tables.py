#!/usr/bin/env python3
"""Seconds and memory of a rewrite of a program with all debug tables.

    python3 bench/tables.py [--tool COMMAND] [--runs N] [MIB..]

The programs have units of 200 functions each, with inlined calls, local variables, loops and switches, made by GCC
with `-g` and its own unwind tables, and as many of them as make a file of so many MiB (7, 14 and 27 where none are
given). COMMAND (`./sudrepka` where it isn't given) records a run of each, and rewrites it by that profile. Each line
has the tool, the median of the seconds of the processor of N runs (3), the greatest peak of memory, and both as parts
of those of the size before it. Beside `rewrite` stand the same for the file without its debug tables, `objcopy`,
which moves nothing, and `llvm-bolt-19`, with `--update-debug-sections` and without. It wants Debian's
`gcc-riscv64-unknown-elf`.

A file of 27 MiB has to be rewritten in 3 seconds and in 12 times its size; where the tables double, neither may grow
by more than 2.2.
"""
import argparse
import os
import shutil
import tempfile

from debug_files import build_large
from layouts import bolt_profile
from profiles import CROSS, built, record
from real_programs import ROOT, call
from rewrite import MIB, measure

BOLT = ["--reorder-blocks=ext-tsp", "--reorder-functions=cdsort", "--split-functions"]


def commands(tool, folder):
    """The tools with their words, of those that are there, and the file that each takes."""
    path = lambda name: os.path.join(folder, name)
    moved = [path("profile"), path("moved"), path("map")]
    found = [("rewrite", [*tool, "rewrite", path("in"), *moved]),
             ("rewrite, no tables", [*tool, "rewrite", path("bare"), *moved]),
             ("objcopy", [CROSS + "objcopy", path("in"), path("copy")])]
    if shutil.which("llvm-bolt-19"):
        bolt = ["llvm-bolt-19", path("in"), "-o", path("bolted"), *BOLT, "--data", path("named")]
        found += [("llvm-bolt", bolt), ("llvm-bolt, tables", [*bolt, "--update-debug-sections"])]
    return found


def prepare(tool, folder, mib):
    """Makes the file, its profile, and the file without debug tables. Answers what the run that is recorded said."""
    path = os.path.join(folder, "in")
    build_large(path, mib)
    said = record(tool, path, [], os.path.join(folder, "profile"))
    bolt_profile(os.path.join(folder, "profile"), path, os.path.join(folder, "named"))
    call([CROSS + "objcopy", "--strip-debug", path, os.path.join(folder, "bare")])
    return said


def main():
    words = argparse.ArgumentParser(description="seconds and memory of a rewrite of a program with all debug tables")
    words.add_argument("--tool", default=os.path.join(ROOT, "sudrepka"), help="the command that takes `rewrite ..`")
    words.add_argument("--runs", type=int, default=3)
    words.add_argument("sizes", nargs="*", type=int, default=[7, 14, 27])
    given = words.parse_args()
    tool, before = built(given.tool), {}
    with tempfile.TemporaryDirectory() as folder:
        for size in given.sizes:
            said = prepare(tool, folder, size)
            mib = os.path.getsize(os.path.join(folder, "in")) / MIB
            print(f"{mib:5.1f} MiB, recorded: {said}", flush=True)
            for name, command in commands(tool, folder):
                seconds, peak, well = measure(command, given.runs)
                if not well:
                    print(f"      {name:20} doesn't take the file", flush=True)
                    continue
                last = before.get(name)
                grown = f", {seconds / last[0]:4.2f} and {peak / last[1]:4.2f} of before" if last else ""
                taken = f"{peak:8.0f} MiB, {peak / mib:5.1f} for each MiB"
                print(f"      {name:20} {seconds:8.2f} s {taken}{grown}", flush=True)
                before[name] = (seconds, peak)


if __name__ == "__main__":
    main()
