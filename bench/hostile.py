#!/usr/bin/env python3
"""Seconds and memory of files that are made to be slow, and how both grow with the file.

    python3 bench/hostile.py [--tool COMMAND] [--kib KIB] [--runs N] [--large] [--make FOLDER] [--command NAME].. [KIND..]

Each kind is a small file in which few bytes name or say much: names that are ends of one text, headers of sections
over one table, an entry of an unwind table with a row for each instruction, scopes each inside the next. A file of
about KIB, one of twice and one of four times the size are made in a temporary folder, and COMMAND (`./sudrepka` where
it isn't given) does with each what NAME says, or all of COMMANDS: it rewrites it, verifies that, prints its map,
records a run, runs it on both machines, repairs its profile, and looks up an address, and the functions there. Each
line has the kind, the command, the size, the seconds of the processor and the peak memory in MiB of the best of N runs
(three), and by how much both grew since the file of half the size. Where a file takes less than 0.05 seconds or 32
MiB, its growth says nothing and is left out. `verify` reads what `rewrite` writes, so that one runs with it; of a file
that isn't rewritten it has no line.

The seconds may be at most 3 and 6 millionths a byte, on a slow machine of 2026 that does other work besides; on one of
twice the speed expect half of them. No memory may be more than 64 times the file and a GiB beside; and all growth
has to be below 2.5 but where what is said has a bound, past which memory is said to be wanting (BOUNDED). No command
may end by a signal. The script ends with status 1 where some isn't so. No more is given than 6 GiB and 300 seconds.
With --large those of LARGE are run, at a quarter, a half and the whole of the size that is named there: 60,000 units
over one table of declarations, a million lists that overlap, 64 MiB of rows at one address, a million entries for one
range, a million kinds of frames, as many functions as a file may have with a row of lines for each instruction, and
entries, ranges, locations, attributes, lists, relocations and sequences of lines in files of nearly 64 MiB. With --make
the smallest file of each kind is written into FOLDER, which is made where it isn't there, and nothing is run.
"""
import argparse
import os
import resource
import subprocess
import sys
import tempfile

from hostile_files import BASE, BOUNDED_FILES, FILES, TEXT
from hostile_lists import BOUNDED_LISTS, LISTS
from hostile_tables import BOUNDED_TABLES, TABLES
from hostile_units import BOUNDED_UNITS, UNITS
from profiles import built, is_answer, spent

ROOT = os.path.dirname(os.path.dirname(os.path.abspath(__file__)))
MOST, LEAST_SECONDS, LEAST_MIB = 2.5, 0.05, 32
SECONDS, SECONDS_A_BYTE = 3, 6e-6
MEMORY, MEMORY_A_BYTE = 1 << 30, 64
MOST_MEMORY, MOST_SECONDS = 6 << 30, 300

# Sizes in KiB of files whose tables are as large as any, or nearly so. With more bytes `line-rows` would have more
# functions than a file may have.
LARGE = {
    "declarations": 3328,
    "one-range": 28672,
    "frame-kinds": 65000,
    "lists": 8192,
    "line-address": 65500,
    "line-rows": 25000,
    "nested": 65000,
    "one-list": 65000,
    "location-lists": 65000,
    "small-ranges": 65000,
    "small-locations": 65000,
    "one-range-list": 65000,
    "default-locations": 65000,
    "mixed": 65500,
    "line-directory-rows": 65000,
    "short-sequences": 65000,
    "relocation-phases": 65000,
    "few-flagged-units": 65000,
    "few-indexed-lists": 65000,
    "endless-names": 65000,
    "short-branches": 65000,
}
# The commands, with the words behind the tool's.
COMMANDS = {
    "rewrite": "rewrite {file} {profile} {out} {map}",
    "verify": "verify {file} {out} {map}",
    "map": "map {file} {profile}",
    "record": "record --steps 100000 {file} {recorded}",
    "run": "run --steps 100000 {file}",
    "symbols": "run --symbols --steps 100000 {file}",
    "repair": "repair {file} {profile} {repaired}",
    "lookup": "lookup {file} {address:x}",
    "frames": "frames {file} {address:x}",
}
BOUNDED = BOUNDED_FILES | BOUNDED_TABLES | BOUNDED_UNITS | BOUNDED_LISTS
KINDS = FILES | TABLES | UNITS | LISTS | BOUNDED


def limit():
    resource.setrlimit(resource.RLIMIT_AS, (MOST_MEMORY, MOST_MEMORY))
    resource.setrlimit(resource.RLIMIT_CPU, (MOST_SECONDS, MOST_SECONDS))


def measure(command, runs):
    """The processor's seconds and the peak in MiB of the best of so many runs, what the last one printed, and whether
    all ended with an answer."""
    found = []
    for _ in range(runs):
        with tempfile.TemporaryFile() as said:
            found.append(spent(command, stdout=said, stderr=said, preexec_fn=limit))
            said.seek(max(0, os.fstat(said.fileno()).st_size - 200))
            lines = said.read().decode(errors="replace").strip().splitlines()
    status = found[-1].status
    last = lines[-1] if lines and is_answer(status) else f"status {status}"
    answered = all(is_answer(each.status) for each in found)
    return min(each.seconds for each in found), min(each.peak for each in found), last, answered


def growth(now, before, least):
    """By how much a figure grew, if it says something."""
    return now / before if before is not None and now > least else None


def show(grew):
    return "" if grew is None else f"{grew:5.2f}"


def arguments():
    words = argparse.ArgumentParser(description="seconds and memory of files that are made to be slow")
    words.add_argument("--tool", default=os.path.join(ROOT, "sudrepka"), help="the command that takes `rewrite ..`")
    words.add_argument("--kib", type=int, default=512)
    words.add_argument("--runs", type=int, default=3)
    words.add_argument("--large", action="store_true", help="the kinds and sizes of LARGE")
    words.add_argument("--command", choices=list(COMMANDS), action="append", help="one of those that are run")
    words.add_argument("--make", help="writes the smallest file of each kind into this folder, and runs nothing")
    words.add_argument("kinds", nargs="*", choices=[[], *KINDS], default=[])
    given = words.parse_args()
    if given.large and not set(given.kinds) <= set(LARGE):
        words.error(f"with --large the kinds are {', '.join(LARGE)}")
    return given


def commands_of(given):
    """The commands that are run, in the order of COMMANDS."""
    asked = set(given.command or COMMANDS)
    return [name for name in COMMANDS if name in asked or name == "rewrite" and "verify" in asked]


def make(given, kind, times, folder):
    """Makes a file of so many times the least size, and says what its files are called."""
    parts = ("file", "profile", "out", "map", "repaired", "recorded")
    names = {name: os.path.join(folder, f"{kind}.{times}.{name}") for name in parts}
    size = (LARGE[kind] // 4 if given.large else given.kib) * 1024 * times
    # in a process of its own, which has the limits too, and gives its memory back
    maker = [sys.executable, os.path.abspath(__file__), "--write", kind, str(size), names["file"], names["profile"]]
    subprocess.run(maker, check=True, preexec_fn=limit)
    return names | {"address": BASE + TEXT}


def is_kept(kind, size, seconds, peak, grew):
    """Whether figures of a file of so many bytes are as they have to be."""
    if peak * (1 << 20) > MEMORY + MEMORY_A_BYTE * size or seconds > SECONDS + SECONDS_A_BYTE * size:
        return False
    return kind in BOUNDED or all(each is None or each < MOST for each in grew)


def measure_growth(given, kind, command, files):
    """Whether what a command takes grows as it should: prints a line a file."""
    before, well = (None, None), True
    for names in files:
        if command == "verify" and not os.path.exists(names["map"]):
            continue
        words = [word.format(**names) for word in COMMANDS[command].split()]
        seconds, peak, last, answered = measure([*given.tool, *words], given.runs)
        grew = growth(seconds, before[0], LEAST_SECONDS), growth(peak, before[1], LEAST_MIB)
        before = (seconds, peak)
        size = os.path.getsize(names["file"]) + os.path.getsize(names["profile"])
        kept = answered and is_kept(kind, size, seconds, peak, grew)
        well = well and kept
        figures = f"{size // 1024:6} KiB {seconds:8.3f} s {show(grew[0]):5} {peak:8.1f} MiB {show(grew[1]):5}"
        print(f"{kind:21} {command:7} {figures} {'' if kept else '! '}{last[-60:]}", flush=True)
    return well


def main():
    given = arguments()
    kinds = given.kinds or (LARGE if given.large else KINDS)
    if given.make:
        os.makedirs(given.make, exist_ok=True)
        for kind in kinds:
            make(given, kind, 1, given.make)
        return
    given.tool, well = built(given.tool), True
    for kind in kinds:
        with tempfile.TemporaryDirectory() as folder:
            files = [make(given, kind, times, folder) for times in (1, 2, 4)]
            for command in commands_of(given):
                well = measure_growth(given, kind, command, files) and well
    sys.exit(0 if well else 1)


def write(kind, size, file_path, profile_path):
    contents, profile = KINDS[kind](size)
    for path, data in ((file_path, contents), (profile_path, profile)):
        with open(path, "wb") as file:
            file.write(data)


if __name__ == "__main__":
    if sys.argv[1:2] == ["--write"]:
        write(sys.argv[2], int(sys.argv[3]), *sys.argv[4:6])
    else:
        main()
