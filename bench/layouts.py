#!/usr/bin/env python3
"""What a rewrite by a profile does to the way of runs of whole programs through their code.

    python3 bench/layouts.py [--tool COMMAND] [FUNCTIONS..]

The programs are those of `examples`, and a program of many functions of which a few run often, each with much in it
that seldom runs; it is made for so many functions (400 and 3,000 where none are given). Each is built by GCC with
picolibc, as `real_programs.py` builds it; COMMAND (`./sudrepka` where it isn't given) records a run of it, and rewrites
it by that profile, and by what `tools/refine.py` makes of it. Then the files are followed and counted, as
`tools/layout.py` does for two files.

Beside them stands `llvm-bolt-19` with the same profile, where it is there, or that its output doesn't run. It wants
Debian's `gcc-riscv64-unknown-elf`, `picolibc-riscv64-unknown-elf` and `qemu-user`.
"""
import argparse
import os
import re
import shutil
import subprocess
import sys
import tempfile

from profiles import CROSS, built, output, record
from real_programs import LONGER, NO_COMPILER, ROOT, UNWINDING, build, compilers

from layout import shown, way_of  # of tools/

REFINE = os.path.join(ROOT, "tools", "refine.py")
# llvm-bolt fails at picolibc's `exit`, into which destructors are inlined ("could not find corresponding %pcrel_hi").
BOLT = ["llvm-bolt-19", "-reorder-blocks=ext-tsp", "-reorder-functions=cdsort", "-split-functions", "-split-all-cold",
        "-skip-funcs=exit"]


def spread(functions):
    """A program of so many functions; one in eight of them runs often."""
    text = ["#include <stdio.h>", "#include <stdlib.h>", "static unsigned long seen[16];"]
    text += ["__attribute__((noinline)) static void report(const char *what, unsigned long a, unsigned long b) {"]
    text += ['    printf("%s %lu %lu\\n", what, a, b);', "}"]
    for k in range(functions):
        text += [f"__attribute__((noinline)) static unsigned long f{k}(unsigned long a) {{"]
        for j in range(4):
            limit = 1 << 60 | 7919 * k + j
            text += [f"    if (a > {limit}ul) {{"]
            text += [f'        report("large {k}", a, {j});', f"        a = a % {k + 3} + seen[{(k + j) % 16}];"]
            text += [f"        if (a == {j}) seen[{j}] += a * {k + 1};", "    }"]
            text += [f"    a = a * {2 * (k % 50) + 3} + {j};", f"    a ^= a >> {7 + j};", f"    a &= {limit - 1}ul;"]
        text += ["    return a;", "}"]
    text += ["typedef unsigned long (*Function)(unsigned long);", "static const Function functions[] = {"]
    text += [f"    f{k}," for k in range(functions)] + ["};", "int main(int argc, char **argv) {"]
    text += ["    unsigned long rounds = argc > 1 ? (unsigned long)atoi(argv[1]) : 40, a = 1;"]
    text += [f"    for (unsigned long i = 0; i < {functions}; i += 61) a = functions[i](a);"]
    text += ["    for (unsigned long i = 0; i < rounds; i++)"]
    text += [f"        for (unsigned long j = 0; j < {functions}; j += 8) a = functions[j](a);"]
    text += ['    printf("%lu\\n", a);', "    return (int)(a % 100);", "}"]
    return "\n".join(text) + "\n"


def bolt_profile(path, old, new):
    """The profile with names in place of addresses, as llvm-bolt wants it."""
    names = {}
    for line in output([CROSS + "nm", old]).splitlines():
        value, kind, name = (line.split() + ["", "", ""])[:3]
        if kind in "tTwW" and not name.startswith("."):
            names.setdefault(f"@{int(value, 16):x}", name)
    with open(path, encoding="ascii") as lines, open(new, "w", encoding="ascii") as out:
        for line in lines:
            fields = line.split()
            if fields[1] in names and fields[4] in names:
                fields[1], fields[4] = names[fields[1]], names[fields[4]]
                out.write(" ".join(fields) + "\n")


def refine(tool, path, profile, refined, options=()):
    """Writes what `tools/refine.py` makes of a profile. Gives what it said of an error, or nothing."""
    command = [sys.executable, REFINE, "--tool", " ".join(tool), *options, path, profile, refined]
    return subprocess.run(command, capture_output=True, text=True, check=False).stderr.strip()


def bolt(path, profile, out):
    """Lets llvm-bolt write a file. Gives why there is none, or nothing."""
    bolt_profile(profile, path, out + ".named")
    if os.path.exists(out):  # of a run before
        os.remove(out)
    done = subprocess.run([*BOLT, path, "-o", out, "--data", out + ".named"], capture_output=True, text=True,
                          errors="replace", check=False)
    said = re.findall(r"(?i)error: (.*)|(Emission failed.*)|(Assertion.*failed)|(UNREACHABLE.*)", done.stderr)
    return "" if os.path.exists(out) else next(("".join(words) for words in said), f"status {done.returncode}")


def rewrite(tool, path, profile, out):
    """Rewrites a file. Gives what was said, and whether it was written."""
    command = [*tool, "rewrite", path, profile, out, out + ".map"]
    done = subprocess.run(command, capture_output=True, text=True, check=False)
    if done.returncode == 0:
        os.chmod(out, 0o755)
    return done.stdout.strip() or f"status {done.returncode}", done.returncode == 0


def compare(tool, name, path, words, folder):
    profile, refined, moved = (os.path.join(folder, end) for end in ("profile", "refined", "moved"))
    if os.path.exists(profile):  # of the program before
        os.remove(profile)
    recorded = record(tool, path, words, profile)
    said, done = rewrite(tool, path, profile, moved)
    print(f"{name:18} {said if done else f'{recorded}; {said}'}", flush=True)
    if not done:
        return
    found = [("before", way_of(path, words)), ("plain", way_of(moved, words))]
    why = refine(tool, path, profile, refined)
    if why or not rewrite(tool, path, refined, moved)[1]:
        print(f"    not refined: {why}")
    else:
        found.append(("refined", way_of(moved, words)))
    if shutil.which(BOLT[0]) and not bolt(path, profile, moved):
        found.append(("llvm-bolt", way_of(moved, words)))
    for tool_name, result in found:
        print(f"    {tool_name:10} {shown(result, found[0][1])}", flush=True)


def main():
    words = argparse.ArgumentParser(description="the way of runs through their code before and after a rewrite")
    words.add_argument("--tool", default=os.path.join(ROOT, "sudrepka"), help="the command that takes `rewrite ..`")
    words.add_argument("functions", nargs="*", type=int, metavar="FUNCTIONS", help="how many the made program has")
    given = words.parse_args()
    if not shutil.which("qemu-riscv64"):
        sys.exit("there is no qemu-riscv64, which Debian's qemu-user has")
    gcc = compilers().get("gcc") or sys.exit(NO_COMPILER)
    tool = built(given.tool)
    with tempfile.TemporaryDirectory() as folder:
        path = os.path.join(folder, "program")
        for program in sorted(set(LONGER) - set(UNWINDING)):
            build(path, program, "gcc", gcc, "roomy", "-O2")
            compare(tool, program, path, [LONGER[program]], folder)
        for functions in given.functions or [400, 3000]:
            source = os.path.join(folder, "spread")
            with open(source + ".c", "w", encoding="ascii") as file:
                file.write(spread(functions))
            build(path, source, "gcc", gcc, "roomy", "-O2")
            compare(tool, f"spread, {functions}", path, [], folder)


if __name__ == "__main__":
    main()
