#!/usr/bin/env python3
"""Compares the functions of addresses, inlined ones among them, with what other tools say.

    python3 bench/inlined.py [--tool COMMAND] [--keep FOLDER] [--inputs] [PROGRAM..]

Each program of `examples` is compiled by GCC with GNU ld and by Clang with lld, at -O2 and -O3, with all
debug tables of its own code, and linked with libraries that have none. COMMAND (`./sudrepka` where it isn't given)
records a short run of it and rewrites it by that profile; with --inputs it doesn't. `frames` is asked for each
instruction of the input, and for the first and the last byte of what each became in the output. Then

- `llvm-symbolizer --inlines` has to say the same functions, files, lines and columns, and `addr2line -i -f` the
  same functions and lines, of the input and of the output;
- at the output `frames` has to say what it said of the owner in the input.

Some differences are those of the tools (bench/README.md has the causes), and no problems: at a row with line 0,
where they say what stands before it or nothing; functions that `addr2line` doesn't find, and names that it takes
from symbols.

A line for each file has the count of its instructions, of those with inlined functions, and of differences of each
kind; a line for each of the first problems follows. The status is 0 where there is none. It wants what
`real_programs.py` wants, and `llvm-symbolizer`. FOLDER keeps all files."""
import argparse
import collections
import os
import re
import subprocess
import sys
import tempfile

from debug_files import asked, build_with_tables, instructions
from profiles import CROSS, built, record, want
from real_programs import LONGER, NO_COMPILER, ROOT, buildable, compilers


def frames_of(text):
    """The frames that a tool's text has: a name, a path, a line and a column each."""
    found = [re.fullmatch(r"(.*?) (/.*|\S*):(\d+):(\d+)", line) for line in text.splitlines()]
    return [(row[1], row[2], int(row[3]), int(row[4])) for row in found if row]


def by_tool(tool, path, addresses):
    texts = asked(tool, "frames", path, addresses)
    for at, text in zip(addresses, texts):
        if re.match(r"-?\d+ ", text) and not frames_of(text):
            sys.exit(f"frames says {text.strip()} at {at:x} in {path}")
    return [frames_of(text) if text != "none\n" else [] for text in texts]


def by_llvm(path, addresses):
    """What llvm-symbolizer says: names and places in turn, and an empty line behind each address."""
    words = "".join(f"0x{address:x}\n" for address in addresses)
    command = ["llvm-symbolizer", "--inlines", "--functions=short", "-e", path]
    text = subprocess.run(command, input=words, capture_output=True, text=True, check=False).stdout
    answers = []
    for part in text.split("\n\n")[:len(addresses)]:
        lines = part.splitlines()
        rows = [(name, *place.rsplit(":", 2)) for name, place in zip(lines[::2], lines[1::2])]
        answers.append([(name, path, int(line), int(column)) for name, path, line, column in rows])
    return answers


def plain_names(names):
    """By the name of each symbol that of its function alone: of `_ZN1a1bEi` it is `b`."""
    command = [CROSS + "c++filt", "-p"]
    text = subprocess.run(command, input="\n".join(names), capture_output=True, text=True, check=False).stdout
    return {name: plain.rpartition("::")[2] for name, plain in zip(names, text.splitlines())}


def by_addr2line(path, addresses):
    """What addr2line says, which has no columns: each address behind a line of its own."""
    words = "".join(f"0x{address:x}\n" for address in addresses)
    command = [CROSS + "addr2line", "-a", "-i", "-f", "-e", path]
    text = subprocess.run(command, input=words, capture_output=True, text=True, check=False).stdout
    text = re.sub(r" \(discriminator \d+\)", "", text)
    parts = [part.splitlines() for part in re.split(r"^0x[0-9a-f]{16}\n", text, flags=re.M)[1:]]
    names = plain_names(sorted({name for lines in parts for name in lines[::2]}))
    places = lambda lines: (place.rsplit(":", 1) for place in lines[1::2])
    number = lambda line: int(line) if line.isdigit() else 0
    return [[(names[name], file, number(line)) for name, (file, line) in zip(lines[::2], places(lines))]
            for lines in parts]


def unknown(said):
    """Nothing is said of an address, as of code without debug data, but the name of a symbol."""
    return len(said) <= 1 and all(row[2] == 0 for row in said)


def kind_of(ours, theirs, fields):
    """How two answers differ in some fields: None where they are alike."""
    if not ours and unknown(theirs):
        return None
    a, b = ([tuple(row[field] for field in fields) for row in rows] for rows in (ours, theirs))
    if a == b:
        return None
    if len(a) == len(b) and [row[0] for row in a] == [row[0] for row in b] and any(row[2] == 0 for row in ours):
        return "line 0"
    if len(a) == len(b) and [row[1:] for row in a] == [row[1:] for row in b]:
        return "other names"
    if 0 < len(b) < len(a) and b[0][1] == a[0][1] and [row[0] for row in b] == [row[0] for row in a[-len(b):]]:
        return "inner functions lack"
    return "other"


FIELDS = {"llvm-symbolizer": (0, 1, 2, 3), "addr2line": (0, 2)}
# addr2line of binutils 2.40 doesn't find inlined functions with a list of ranges by its index, as Clang has them, and
# names an inlined function of C++ that has no name for the linker by the symbol at its address.
PROBLEMS = {"llvm-symbolizer": ("other", "other names", "inner functions lack"), "addr2line": ("other",)}


def compared(path, addresses, ours):
    """By the name of each tool the kinds of differences, and the others."""
    if not addresses:
        sys.exit(f"objdump finds no instruction in {path}")
    found = {}
    for name, ask in (("llvm-symbolizer", by_llvm), ("addr2line", by_addr2line)):
        theirs = ask(path, addresses)
        if len(theirs) != len(addresses):
            sys.exit(f"{name} says something of {len(theirs)} of {len(addresses)} addresses in {path}")
        kinds = [kind_of(a, b, FIELDS[name]) for a, b in zip(ours, theirs)]
        others = [(at, a, b) for at, a, b, kind in zip(addresses, ours, theirs, kinds) if kind in PROBLEMS[name]]
        found[name] = (collections.Counter(kind for kind in kinds if kind), others)
    return found


def report(name, path, addresses, ours):
    """Prints what was found of a file, and gives the number of problems."""
    inlined = sum(len(frames) > 1 for frames in ours)
    found = compared(path, addresses, ours)
    counts = lambda kinds: ", ".join(f"{kind} {count}" for kind, count in kinds.items()) or "none"
    said = "; of ".join(f"{tool}: {counts(kinds)}" for tool, (kinds, _) in found.items())
    print(f"{name:30} {len(addresses)} addresses, {inlined} with inlined functions; differences of {said}", flush=True)
    for tool, (_, others) in found.items():
        for at, a, b in others[:3]:
            print(f"    {tool} at {at:x} says {b}, and not {a}", flush=True)
    return sum(len(others) for _, others in found.values())


def moved_problems(tool, name, path, folder):
    """Rewrites a file, and compares its output with other tools and with the input."""
    new, profile, map_path = (os.path.join(folder, f"{name}.{end}") for end in ("moved", "profile", "map"))
    record(tool, path, [], profile)
    done = subprocess.run([*tool, "rewrite", path, profile, new, map_path], capture_output=True, text=True, check=False)
    if done.returncode != 0:
        print(f"    {done.stdout.strip() or done.returncode}", flush=True)
        return 1
    with open(map_path, encoding="ascii") as file:
        spans = [(int(at, 16), int(size), int(old, 16)) for at, size, old in (line.split() for line in file)]
    pairs = sorted({(at, old) for start, size, old in spans if size for at in (start, start + size - 1)})
    after, before = (by_tool(tool, file, places) for file, places in zip((new, path), zip(*pairs)))
    problems = [(at, a, b) for (at, _), a, b in zip(pairs, after, before) if a != b]
    for at, a, b in problems[:3]:
        print(f"    frames at {at:x} says {a}, and not what it said at the owner: {b}", flush=True)
    return len(problems) + report(name + ", moved", new, [at for at, _ in pairs], after)


def main():
    words = argparse.ArgumentParser(description="compares the functions of addresses with what other tools say")
    words.add_argument("--tool", default=os.path.join(ROOT, "sudrepka"), help="the command that takes `frames ..`")
    words.add_argument("--keep", help="a folder for all files")
    words.add_argument("--inputs", action="store_true", help="without outputs")
    words.add_argument("programs", nargs="*", default=sorted(LONGER))
    given = words.parse_args()
    want("llvm-symbolizer")
    if not compilers():
        sys.exit(NO_COMPILER)
    tool, problems = built(given.tool), 0
    with tempfile.TemporaryDirectory() as room:
        folder = given.keep or room
        os.makedirs(folder, exist_ok=True)
        for program in buildable(given.programs):
            for compiler, parts in compilers().items():
                for level in ("-O2", "-O3"):
                    name = f"{program}.{compiler}{level}"
                    path = os.path.join(folder, name)
                    build_with_tables(path, program, compiler, parts, level)
                    addresses = instructions(path)
                    problems += report(name, path, addresses, by_tool(tool, path, addresses))
                    if not given.inputs:
                        problems += moved_problems(tool, name, path, folder)
    print(f"{problems} problems")
    return 1 if problems else 0


if __name__ == "__main__":
    sys.exit(main())
