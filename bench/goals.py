#!/usr/bin/env python3
"""Whether `rewrite` is as fast as it should be, beside `llvm-bolt-19` and `objcopy`, in one run of some minutes.

    python3 bench/goals.py [--tool COMMAND] [--before COMMAND] [--sources FOLDER] [--keep FOLDER] [--runs N] [--count] \
        [FILE..]

The files, of which FILE.. names some:

- `big`: 26 MiB with all debug tables and unwind tables, by GCC with `-O2 -g`: 2,400 functions of 86 instructions, and
  1.6 MB of `.debug_line`;
- `tables`: 27 MiB the same way, of 2,400 functions of 57 instructions, with more lists (debug_files.py);
- `lua`: Lua with all debug tables, by GCC with `-O2 -g` (packages.py; its source package is fetched into FOLDER);
- `bare`: 27 MiB without debug tables, with a relocation for each reference (rewrite.py).

COMMAND (`./sudrepka` where it isn't given) rewrites them by the profile of a run, but `bare` by one with one hot
function of four. Beside it are `objcopy`, which moves nothing, and `llvm-bolt-19` with the same profile, which drops
debug tables; of `bare` it takes half a minute, and isn't asked. The tools take turns, N times (5). A row has the
medians of the processor's seconds, the greatest peaks of memory, and the ratio that has a goal: `rewrite` has to take
less than 0.28 of llvm-bolt's time for `big` and 0.25 for `lua`, less than four times objcopy's for `tables`, and less
than ten times for `bare`. With --before a second command takes its turns too, as of the version before: the peak of
COMMAND has to be no more than that command's, within 1 %. With --count there are the instructions of the processor that
`rewrite` takes, by callgrind, which adds some minutes.

Seconds say something on an idle machine only: the script says how much others had to do. The status is 1 if a goal
isn't met. It wants Debian's `gcc-riscv64-unknown-elf`, `picolibc-riscv64-unknown-elf` and `bolt-19`.
"""
import argparse
import dataclasses
import os
import re
import shutil
import statistics
import subprocess
import sys
import tempfile
import typing

from debug_files import build_large
from layouts import bolt_profile
from packages import CACHE, PACKAGES, fetch
from profiles import CROSS, built, record, spent, want
from real_programs import NO_COMPILER, ROOT, compilers
from report_files import Builder
from rewrite import MIB, make
from tables import BOLT

BIG, LARGE = 25.5, 27  # MiB
SKIPPED = "--skip-funcs=exit"  # where llvm-bolt-19 fails on Lua
NOISE = 1.01  # of a peak: memory comes in pages, and from the system's own parts
BEFORE = "before"
# A function of `big`: more code and fewer variables than those of debug_files.py.
FUNCTION = """
__attribute__((noinline)) int f@(int *values, int count) {
    int sum = @;
    for (int i = 0; i < count; i++) {
        values[i] += i * @;
        if (values[i] % 3) {
            values[i] ^= values[0] >> 3;
            values[0] = (values[1] * 5 + @) % 1009;
        } else {
            values[1] += values[i] * values[2];
            values[2] = values[3] - values[i] / 7 % 10007;
        }
        sum += values[i];
        if (sum > 100000) sum = sum / 2 - @;
    }
    values[3] = (values[0] * 3 + values[1]) % 8191;
    values[2] ^= values[3] & 255;
    if (values[2] < sum) values[1] = values[0] - sum * 9;
    values[0] += values[1] | values[2];
    return sum & 1 ? f$(values, count / 2) + sum : sum;
}
"""


@dataclasses.dataclass
class File:
    """A file that is rewritten: how it is made in a folder, and by tool the part of its time that is the goal."""

    make: typing.Callable
    goals: dict


class Took(typing.NamedTuple):
    """The median of the processor's seconds of a command, and its greatest peak in MiB."""

    seconds: float
    peak: float


def make_big(tool, folder, _):
    """Makes `in`, its `profile`, and that with names (`named`), of a large program."""
    build_large(os.path.join(folder, "in"), BIG, FUNCTION)
    recorded(tool, folder, [], b"")


def make_tables(tool, folder, _):
    """The same of one with more debug tables for its code."""
    build_large(os.path.join(folder, "in"), LARGE)
    recorded(tool, folder, [], b"")


def make_lua(tool, folder, sources):
    """The same of Lua."""
    fetch(sources, ["lua"])
    Builder(folder, sources).build(os.path.join(folder, "in"), "lua", "gcc", "debug", "-O2")
    recorded(tool, folder, PACKAGES["lua"].words, PACKAGES["lua"].input(sources))


def make_bare(_, folder, __):
    """Makes `in` and its `profile`, of code without debug tables."""
    make(folder, LARGE)


def recorded(tool, folder, words, given):
    """Records a run of the file of a folder."""
    path, profile = os.path.join(folder, "in"), os.path.join(folder, "profile")
    command = [*tool, "record", "--steps", "1000000000", path, profile, "--", *words]
    said = subprocess.run(command, input=given, capture_output=True, check=False).stdout
    if b"[ended" not in said:
        sys.exit(f"{path} doesn't end: {said.decode(errors='replace').strip()[-200:]}")
    bolt_profile(profile, path, os.path.join(folder, "named"))


FILES = {"big": File(make_big, {"llvm-bolt": 0.28}),
         "lua": File(make_lua, {"llvm-bolt": 0.25}),
         "tables": File(make_tables, {"objcopy": 4}),
         "bare": File(make_bare, {"objcopy": 10})}


def commands(tool, before, folder, goals):
    """The commands that take turns, by name."""
    path = lambda name: os.path.join(folder, name)
    moved = ["rewrite", path("in"), path("profile"), path("out"), path("map")]
    found = {"rewrite": [*tool, *moved]}
    if before:
        found[BEFORE] = [*before, *moved]
    found["objcopy"] = [CROSS + "objcopy", path("in"), path("copy")]
    if "llvm-bolt" in goals:
        found["llvm-bolt"] = ["llvm-bolt-19", path("in"), "-o", path("bolt"), *BOLT, SKIPPED, "--data", path("named")]
    return found


def in_turns(asked, runs):
    """What each command took, by its name; each has to end well."""
    took = {name: [] for name in asked}
    for _ in range(runs):
        for name, command in asked.items():
            took[name].append(spent(command, stdout=subprocess.DEVNULL, stderr=subprocess.DEVNULL))
            if took[name][-1].status != 0:
                sys.exit(f"{' '.join(command)} ended with {took[name][-1].status}")
    return {name: Took(statistics.median(it.seconds for it in rows), max(it.peak for it in rows))
            for name, rows in took.items()}


def counted(command):
    """The millions of instructions that a command takes, by callgrind."""
    done = subprocess.run(["valgrind", "--tool=callgrind", "--callgrind-out-file=/dev/null", *command],
                          stdout=subprocess.DEVNULL, stderr=subprocess.PIPE, text=True, check=False)
    found = re.search(r"Collected : (\d+)", done.stderr)
    return int(found[1]) / 1e6 if found else sys.exit(f"callgrind doesn't count: {done.stderr.strip()[-200:]}")


def unmet(name, file, took):
    """The goals of a file that aren't met, each as a sentence."""
    for other, goal in file.goals.items():
        ratio = took["rewrite"].seconds / took[other].seconds
        if ratio >= goal:
            yield f"{name}: `rewrite` takes {ratio:.2f} of {other}'s time, and less than {goal} is wanted"
    if BEFORE in took and took["rewrite"].peak > NOISE * took[BEFORE].peak:
        yield f"{name}: the peak is {took['rewrite'].peak:.0f} MiB, and was {took[BEFORE].peak:.0f} before"


def print_rows(name, size, file, took, counts):
    """Prints the rows of a file, for the table of bench/README.md."""
    for tool, (seconds, peak) in took.items():
        ratio, goal = "", ""
        if tool in file.goals:
            ratio, goal = f"{took['rewrite'].seconds / seconds:.2f}", f"< {file.goals[tool]}"
        count = f"{counts[tool]:,.0f}" if tool in counts else ""
        print(f"| {f'{name}, {size:.1f} MiB' if tool == 'rewrite' else ''} | {tool} | {seconds:.2f} | {peak:.0f} | "
              f"{ratio} | {goal} | {count} |", flush=True)


def measured(name, given, tool, before, folder):
    """Makes a file, measures and prints it. Gives the goals that aren't met."""
    folder, file = os.path.join(folder, name), FILES[name]
    os.makedirs(folder, exist_ok=True)
    if not os.path.exists(os.path.join(folder, "profile")):  # kept of a run before
        file.make(tool, folder, given.sources)
    asked = commands(tool, before, folder, file.goals)
    took = in_turns(asked, given.runs)
    counts = {it: counted(asked[it]) for it in ("rewrite", BEFORE) if given.count and it in asked}
    print_rows(name, os.path.getsize(os.path.join(folder, "in")) / MIB, file, took, counts)
    return list(unmet(name, file, took))


def main():
    words = argparse.ArgumentParser(description="whether `rewrite` is as fast as it should be")
    words.add_argument("--tool", default=os.path.join(ROOT, "sudrepka"), help="the command that takes `rewrite ..`")
    words.add_argument("--before", help="a command of the version before")
    words.add_argument("--sources", default=CACHE, help="where the sources of packages are, or go")
    words.add_argument("--keep", help="a folder for all files, which are made once")
    words.add_argument("--runs", type=int, default=5)
    words.add_argument("--count", action="store_true", help="count instructions, by callgrind")
    words.add_argument("files", nargs="*", metavar="FILE", help=f"of {', '.join(FILES)}")
    given = words.parse_args()
    if not set(given.files) <= set(FILES):
        words.error(f"the files are {', '.join(FILES)}")
    want("llvm-bolt-19", *(["valgrind"] if given.count else []))
    if not compilers():
        sys.exit(NO_COMPILER)
    tool, before = built(given.tool), built(given.before) if given.before else None
    print(f"{os.cpu_count()} processors, with {os.getloadavg()[0]:.1f} to do for each minute before", file=sys.stderr)
    columns = ["file", "tool", "seconds", "peak, MiB", "`rewrite` to it", "goal", "million instructions"]
    print(f"| {' | '.join(columns)} |\n|{'---|' * len(columns)}")
    with tempfile.TemporaryDirectory() as room:
        folder = os.path.abspath(given.keep or room)
        failed = [line for name in given.files or FILES for line in measured(name, given, tool, before, folder)]
    for line in failed:
        print(f"- {line}")
    sys.exit(1 if failed else 0)


if __name__ == "__main__":
    main()
