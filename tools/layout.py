#!/usr/bin/env python3
"""Counts what a rewrite does to the way of a run through a program's code.

    python3 tools/layout.py [--json] [--also FILE] IN OUT [WORDS..] [< INPUT]

Follows a run of IN and one of OUT, both with WORDS as arguments and with this standard input, if it is no terminal; and
one of each FILE, as one that was rewritten by a refined profile, or by another tool.
`qemu-riscv64` runs both files and says each instruction's address, from which this counts

- instructions, and those that went elsewhere than on (taken branches, jumps, calls and returns);
- pages of 4096 bytes of code that were touched;
- misses of a cache of 32 KiB, with lines of 64 bytes, 8 of them for each set, of which the one that wasn't used for
  the longest time goes;
- misses of 8 entries for pages of 4096 bytes, of which the same goes.

`--json` prints these counts as JSON. It follows some hundred thousand steps a second, and needs Debian's `qemu-user`.
"""
import argparse
import json
import os
import shutil
import sys

from elf_file import ElfFile
from program_graph import Failure, run_script
from programs import follow

LINE, PAGE, SETS, WAYS, ENTRIES = 64, 4096, 64, 8, 8


class Recent:
    """The members that were used last, at most so many."""

    def __init__(self, room):
        self.room, self.members, self.misses = room, {}, 0

    def use(self, member):
        if member in self.members:
            del self.members[member]
        else:
            self.misses += 1
            if len(self.members) == self.room:
                del self.members[next(iter(self.members))]
        self.members[member] = None


class Code:
    """The bytes of a file by their addresses, as its program headers have them."""

    def __init__(self, path):
        elf = ElfFile(path)
        self.data, self.segments = elf.data, elf.segments()

    def is_short(self, address):
        """Whether an instruction has two bytes: the lowest two bits of one of four bytes are both set."""
        places = [at - start + address for at, start, length in self.segments if start <= address < start + length]
        return bool(places) and self.data[places[0]] & 3 != 3


class Way:
    """Counts of a run by the addresses of its instructions."""

    def __init__(self, code):
        self.code = code
        self.instructions = self.taken = 0
        self.pages = set()
        self.cache = [Recent(WAYS) for _ in range(SETS)]
        self.entries = Recent(ENTRIES)
        self.before = self.line = self.page = None

    def go(self, address):
        self.instructions += 1
        distance = 2 if self.before is None else address - self.before
        # a jump of two bytes over two others goes as far as an instruction of four bytes does that goes on
        if distance != 2 and (distance != 4 or self.code.is_short(self.before)):
            self.taken += 1
        self.before = address
        if address // LINE != self.line:
            self.line = address // LINE
            self.cache[self.line % SETS].use(self.line)
        if address // PAGE != self.page:
            self.page = address // PAGE
            self.pages.add(self.page)
            self.entries.use(self.page)

    def counts(self):
        misses = sum(ways.misses for ways in self.cache)
        return {"instructions": self.instructions, "taken": self.taken, "pages": len(self.pages),
                "cache_misses": misses, "itlb_misses": self.entries.misses}

    def __str__(self):
        found = self.counts()
        return (
            f"{found['instructions']:9} instructions {found['taken']:8} taken {found['pages']:4} pages "
            f"{found['cache_misses']:7} cache misses {found['itlb_misses']:7} iTLB misses"
        )


def way_of(path, words, given=b""):
    """The way of a run, its status and its output, or nothing where it crashes or doesn't begin."""
    way = Way(Code(path))
    status, printed = follow(path, words, way.go, given)
    return (way, status, printed) if status >= 0 and way.instructions else None


def shown(result, first):
    """What is said of a run beside the first one."""
    if result is None:
        return "doesn't run"
    return str(result[0]) if first and result[1:] == first[1:] else "runs otherwise"


def follow_files(paths, words, as_json):
    for path in paths:
        if not os.path.isfile(path):
            raise Failure(f"there is no file {path}")
    given = b"" if sys.stdin.isatty() else sys.stdin.buffer.read()
    found = [way_of(path, words, given) for path in paths]
    if not found[0]:
        raise Failure(f"{paths[0]} doesn't run on qemu-riscv64, or that has no -singlestep and -d exec: run it by "
                      "itself")
    if as_json:
        alike = all(result is not None and result[1:] == found[0][1:] for result in found)
        runs = [result[0].counts() if result else None for result in found]
        also = {"also": dict(zip(paths[2:], runs[2:]))} if runs[2:] else {}
        print(json.dumps({"before": runs[0], "after": runs[1], **also, "alike": alike}, indent=1))
    else:
        for when, result in zip(["before", "after", *map(os.path.basename, paths[2:])], found):
            print(f"{when:10} {shown(result, found[0])}")


def main():
    words = argparse.ArgumentParser(description="the way of a run through its code before and after a rewrite")
    words.add_argument("--json", action="store_true", help="prints the counts as JSON")
    words.add_argument("--also", metavar="FILE", action="append", default=[], help="one more program to be followed")
    words.add_argument("files", nargs=2, metavar="FILE", help="IN and OUT: the program before and after")
    words.add_argument("arguments", nargs=argparse.REMAINDER, metavar="WORDS", help="the arguments of both runs")
    given = words.parse_args()
    if not shutil.which("qemu-riscv64"):
        raise Failure("there is no qemu-riscv64, which Debian's qemu-user has")
    follow_files(given.files + given.also, given.arguments, given.json)


if __name__ == "__main__":
    run_script(main)
