#!/usr/bin/env python3
"""Compares what `tools/heatmap.py` counts from a profile and a map with the counts of followed runs.

    python3 checks/counted_runs.py [--tool COMMAND] [PROGRAM..]

Each C and C++ program of `examples` that doesn't unwind itself (or those that are named) is built by GCC and by Clang
at -O2, recorded, and rewritten by its profile. `heatmap.py` counts instructions, taken branches and pages of both files
from the profile and the map alone; `tools/layout.py` follows a run of both under qemu. Instructions and taken branches
may differ by at most 1 %, and pages not at all. A line for each file has both counts; the status is 0 if all agree. It
needs what `bench/real_programs.py` needs, and `qemu-user`.
"""
import argparse
import os
import subprocess
import sys
import tempfile

ROOT = os.path.dirname(os.path.dirname(os.path.abspath(__file__)))
sys.path.insert(0, os.path.join(ROOT, "bench"))
from profiles import built, record, want  # noqa: E402
from real_programs import LONGER, NO_COMPILER, UNWINDING, build, compilers  # noqa: E402

from heatmap import Rewrite  # noqa: E402, of tools/
from layout import way_of  # noqa: E402

ALLOWED = 0.01  # part of a count by which another may differ


def told(paths):
    """What heatmap.py counts of both files: instructions, taken branches, pages."""
    rewrite = Rewrite(*paths)
    pages = [picture.figures()["pages"][-1] for picture in rewrite.pictures()]
    return [(moves["instructions"], moves["taken"], count) for moves, count in zip(rewrite.moves(), pages)]


def followed(paths):
    """The same counts of runs under qemu."""
    found = []
    for path in paths[:2]:
        os.chmod(path, 0o755)
        counts = way_of(path, [])[0].counts()
        found.append((counts["instructions"], counts["taken"], counts["pages"]))
    return found


def agree(one, other):
    near = all(abs(a - b) <= ALLOWED * b for a, b in zip(one[:2], other[:2]))
    return near and one[2] == other[2]


def compare(tool, name, paths):
    """Compares the counts of a program. Gives whether they agree."""
    record(tool, paths[0], [], paths[3])
    command = [*tool, "rewrite", paths[0], paths[3], paths[1], paths[2]]
    done = subprocess.run(command, capture_output=True, text=True, check=False)
    if done.returncode != 0:
        print(f"{name}: {done.stdout.strip() or done.returncode}", flush=True)
        return False
    well = True
    for when, one, other in zip(("before", "after"), told(paths), followed(paths)):
        same = agree(one, other)
        well &= same
        counts = ", ".join(f"{a:,} of {b:,}" if a != b else f"{a:,}" for a, b in zip(one, other))
        print(f"{name}, {when}: instructions, taken, pages {counts}{'' if same else ': DIFFERS'}", flush=True)
    return well


def main():
    words = argparse.ArgumentParser(description="compares the counts of heatmap.py with those of followed runs")
    words.add_argument("--tool", default=os.path.join(ROOT, "sudrepka"), help="the command that takes `rewrite ..`")
    words.add_argument("programs", nargs="*", default=sorted(set(LONGER) - set(UNWINDING)))
    given = words.parse_args()
    want("qemu-riscv64")
    if not compilers():
        sys.exit(NO_COMPILER)
    tool, failed = built(given.tool), 0
    with tempfile.TemporaryDirectory() as folder:
        for program in given.programs:
            for compiler, parts in compilers().items():
                name = os.path.join(folder, f"{program}.{compiler}")
                paths = [name, name + ".moved", name + ".map", name + ".profile"]
                build(paths[0], program, compiler, parts, "roomy", "-O2")
                failed += not compare(tool, f"{program}, {compiler}", paths)
    print(f"{failed} programs differ")
    sys.exit(1 if failed else 0)


if __name__ == "__main__":
    main()
