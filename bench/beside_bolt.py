#!/usr/bin/env python3
"""Layouts by plain and by refined profiles beside those of `llvm-bolt-19`.

    python3 bench/beside_bolt.py [--tool COMMAND] [--sources FOLDER] [--keep FOLDER] [--jobs N] [--kinds KINDS] \
        [PROGRAM..]

Each program is built by GCC with GNU ld and by Clang with lld, at -O2 without debug data, with picolibc's larger
libraries (with the smaller ones files of `llvm-bolt-19` crash). COMMAND (`./sudrepka` where it isn't given) records a
run, and rewrites the file by that profile and by what `tools/refine.py` makes of it; `llvm-bolt-19` takes the same
profile, with -reorder-blocks=ext-tsp, -reorder-functions=cdsort, -split-functions and -split-all-cold. If the symbol
machine is stuck in a function of the library, plain and refined profiles are without it; `llvm-bolt-19` leaves it alone
by itself. Each file has to print and end as the one before it was moved, and `verify` has to find ours faithful.

A plugin of qemu (`way_plugin.c`) counts each run: instructions, transfers taken, lines of 64 bytes and pages of 4096,
misses of caches of 32 and 8 KiB, and misses of 8 and of 64 entries for pages. The first row of a program has its
counts, the others the change in %. KINDS says how the profile comes about, as `same,other`; all are tried if it isn't
given:

- `same`: of the run that is counted;
- `other`: of a run with another input;
- `samples`: 5,000 samples of the counts of that run;
- `half`: a random half of the lines of its profile. Of these two a row says what refining gives after `repair`, too.

At the end stand the columns in which a refined layout is worse than llvm-bolt's or than the plain one, and of `same`
what llvm-bolt wins in instructions by shorter calls alone: it makes a JAL of the AUIPC and JALR of a near call. It
wants Debian's `gcc-riscv64-unknown-elf`, `picolibc-riscv64-unknown-elf`, `bolt-19` and `qemu-user`, and a C compiler;
and `clang-19` and `lld-19` for half of the files. Sources are fetched as `packages.py` does.
"""
import argparse
import collections
import concurrent.futures
import dataclasses
import os
import random
import re
import subprocess
import sys
import tempfile

from layouts import bolt, refine
from packages import PACKAGES, fetch
from profiles import built, want
from real_programs import NO_COMPILER, PICOLIBC, ROOT, compilers
from report_files import Builder
from ways import COLUMNS, long_calls, plugin, way_of

from layout_rule import Program  # of tools/
from program_graph import Graph
from refine import function_of
from wished_profile import left_out

LIBRARIES = os.path.join(PICOLIBC, "lib", "release", "rv64im", "lp64")
STEPS = ["--steps", "1000000000"]
# Of each program another input: the file that is read, or words.
OTHERS = {"zpipe": "trees.c", "bzip2": "decompress.c", "lua": "other.lua", "duktape": "other.js",
          "cjson": "tests/json-patch-tests/spec_tests.json", "interpreter": ["40"]}
KINDS = ["same", "other", "samples", "half"]
PARTIAL = ["samples", "half"]
SAMPLES, SEED = 5000, 1


def input_of(program, sources, other=False):
    """The words and the standard input of a run."""
    if program not in PACKAGES:
        return OTHERS[program] if other else ["400"], b""
    package = PACKAGES[program]
    if other:
        package = dataclasses.replace(package, given=OTHERS[program])
    return list(package.words), package.input(sources)


def read_lines(path):
    """The lines of a profile of `record`, with their counts apart."""
    with open(path, encoding="ascii") as lines:
        return [(line.rstrip("\n").rpartition(" ")[0], int(line.rpartition(" ")[2])) for line in lines]


def changed_profile(kind, path, new):
    """Writes samples of a profile, or half of it."""
    chance, lines = random.Random(SEED), read_lines(path)
    if kind == "half":
        kept = [line for line in lines if chance.random() < 0.5]
    else:
        drawn = chance.choices([text for text, _ in lines], [count for _, count in lines], k=SAMPLES)
        kept = sorted(collections.Counter(drawn).items())
    with open(new, "w", encoding="ascii") as file:
        file.writelines(f"{text} {count}\n" for text, count in kept)


class Subject:
    """One file, and the layouts that are made of it."""

    def __init__(self, tool, counter, path, inputs):
        self.tool, self.counter, self.path, self.inputs = tool, counter, path, inputs
        self.problems = []

    def at(self, end):
        """A file beside the subject."""
        return f"{self.path}.{end}"

    def command(self, *words, given=b""):
        """The status of a command, and the last line that it printed."""
        done = subprocess.run([*self.tool, *words], input=given, capture_output=True, check=False)
        return done.returncode, done.stdout.decode(errors="replace").rstrip().rpartition("\n")[2]

    def expect(self, words, wanted):
        """Runs a command, and notes what it said if that isn't wanted."""
        status, said = self.command(*words)
        if status != 0 or wanted not in said:
            self.problems.append(f"{words[0]} of {os.path.basename(self.path)}: {said or status}")

    def record(self, name, run):
        """Records a run into a profile."""
        words, given = run
        status, said = self.command("record", *STEPS, self.path, self.at(name), "--", *words, given=given)
        if "[ended" not in said:
            self.problems.append(f"record of {os.path.basename(self.path)}: {said or status}")

    def stuck(self):
        """The function in which the symbol machine is stuck, as `@` and an address, or nothing."""
        words, given = self.inputs[0]
        said = self.command("run", "--symbols", *STEPS, self.path, "--", *words, given=given)[1]
        found = re.search(r"\[stuck \w+ at ([0-9a-f]+) ", said)
        return "@" + found[1] if found else None

    def rewritten(self, profile, name):
        """A file that is rewritten by a profile, and judged."""
        out, text = self.at(name), self.at(name + ".map")
        self.expect(["rewrite", self.path, profile, out, text], "moved")
        if os.path.exists(out):
            os.chmod(out, 0o755)
        self.expect(["verify", self.path, out, text], "faithful")
        return out

    def plain(self, profile, name, stuck):
        """A profile without what happened in a function."""
        if not stuck:
            return profile
        program = Program(Graph(self.tool, self.path))
        counts, _ = program.graph.read_profile(profile)
        program.graph.write_profile(self.at(name), left_out(program, counts, {function_of(program.elf, stuck)}))
        return self.at(name)

    def refined(self, profile, name, stuck):
        """A refined profile."""
        why = refine(self.tool, self.path, profile, self.at(name), ["--without", stuck] if stuck else [])
        if why:
            self.problems.append(f"refine of {os.path.basename(self.path)}: {why}")
        return self.at(name)

    def bolted(self, profile, name):
        """What llvm-bolt makes of a profile."""
        bolt(self.path, profile, self.at(name))
        return self.at(name)

    def profile(self, kind):
        """A profile of a kind."""
        path = self.at(kind + ".profile")
        if kind in ("same", "other"):
            self.record(kind + ".profile", self.inputs[kind == "other"])
        else:
            self.record(kind + ".whole", self.inputs[0])
            changed_profile(kind, self.at(kind + ".whole"), path)
        return path

    def rows(self, kind):
        """The ways of all layouts by a profile of that kind."""
        profile, stuck = self.profile(kind), self.stuck()
        plain, refined = self.plain(profile, kind + ".plain", stuck), self.refined(profile, kind + ".refined", stuck)
        files = {"before": self.path, "plain": self.rewritten(plain, kind + ".moved"),
                 "refined": self.rewritten(refined, kind + ".better")}
        if kind in PARTIAL:
            self.expect(["repair", self.path, profile, self.at(kind + ".repaired")], "links")
            refined = self.refined(self.at(kind + ".repaired"), kind + ".refined", stuck)
            files["repaired and refined"] = self.rewritten(refined, kind + ".best")
        files["BOLT"] = self.bolted(profile, kind + ".bolted")
        return {name: self.way(name, path) for name, path in files.items()}

    def shortened(self, kind):
        """The instructions that llvm-bolt's file by a kind of profile spares by shorter calls."""
        return long_calls(self.path, *self.inputs[0]) - long_calls(self.at(kind + ".bolted"), *self.inputs[0])

    def way(self, name, path):
        """The way of a file, which has to run as the first one does."""
        words, given = self.inputs[0]
        if not os.path.exists(path):
            return None
        found = way_of(self.counter, path, words, given)
        first = found if path == self.path else way_of(self.counter, self.path, words, given)
        if found is None or found[1:] != first[1:]:
            if name != "BOLT":
                self.problems.append(f"{os.path.basename(path)} runs otherwise")
            return None
        return found.counts


def change(count, first):
    """By how many % a count differs from the first one."""
    return 100.0 * (count - first) / first if first else 0.0


def print_rows(name, rows):
    """Prints the counts before, and the changes by each layout."""
    first = rows["before"]
    print(f"| {name} | before | {' | '.join(f'{count:,}' for count in first)} |")
    for layout, counts in list(rows.items())[1:]:
        cells = [f"{change(count, old):+.1f}" for count, old in zip(counts, first)] if counts else ["crashes"]
        print(f"| | {layout} | {' | '.join(cells)} |", flush=True)


def worse(name, rows):
    """Where a refined layout is worse than another one, by the change in points."""
    for other in ("BOLT", "plain"):
        if rows[other] and rows["refined"]:
            for column, first, mine, its in zip(COLUMNS, rows["before"], rows["refined"], rows[other]):
                if mine > its:
                    yield f"{name}, {column}: {change(mine, first):+.1f} %, {other} {change(its, first):+.1f} %"


def of_calls(name, rows, shortened):
    """Of instructions, what llvm-bolt's file would take if calls had stayed long."""
    first, mine, its = (rows[layout][0] for layout in ("before", "refined", "BOLT"))
    return (f"{name}, instructions: refined {change(mine, first):+.2f} %, BOLT {change(its, first):+.2f} %, and "
            f"{change(its + shortened, first):+.2f} % without shorter calls")


class Bench:
    """Builds programs, and measures their layouts."""

    def __init__(self, tool, folder, sources):
        self.tool, self.folder, self.sources = tool, folder, sources
        self.builder, self.counter = Builder(folder, sources, LIBRARIES), plugin(folder)

    def measured(self, task):
        """The subject of a program, a compiler and a kind of profile, and its rows."""
        program, compiler, kind = task
        path = os.path.join(self.folder, f"{program}.{compiler}")
        inputs = [input_of(program, self.sources, other) for other in (False, True)]
        subject = Subject(self.tool, self.counter, path, inputs)
        return subject, subject.rows(kind)

    def all(self, programs, kinds, jobs):
        """Prints a table of each kind of profile. Gives what is worse than elsewhere, with what is said of calls, and
        the problems."""
        pairs = [(program, compiler) for program in programs for compiler in self.builder.parts]
        worse_ones, problems = [], []
        for program, compiler in pairs:
            self.builder.build(os.path.join(self.folder, f"{program}.{compiler}"), program, compiler, "bare", "-O2")
        with concurrent.futures.ThreadPoolExecutor(jobs) as pool:
            for kind in kinds:
                print(f"\n{kind}\n\n| program | layout | {' | '.join(COLUMNS)} |\n|---|---|{'---|' * len(COLUMNS)}")
                tasks = [(*pair, kind) for pair in pairs]
                for (program, compiler, _), (subject, rows) in zip(tasks, pool.map(self.measured, tasks)):
                    name = f"{program}, {compiler}"
                    print_rows(name, rows)
                    worse_ones += worse(f"{kind}: {name}", rows)
                    problems += subject.problems
                    if kind == "same" and rows["BOLT"] and rows["refined"]:
                        worse_ones.append(of_calls(name, rows, subject.shortened(kind)))
        return worse_ones, problems


def kinds_of(text):
    """The kinds of profiles that are asked for."""
    found = text.split(",")
    if not set(found) <= set(KINDS):
        raise argparse.ArgumentTypeError(f"{text} isn't of {', '.join(KINDS)}")
    return found


def main():
    cache = os.path.join(os.environ.get("XDG_CACHE_HOME", os.path.expanduser("~/.cache")), "sudrepka")
    words = argparse.ArgumentParser(description="layouts by plain and by refined profiles beside those of llvm-bolt")
    words.add_argument("--tool", default=os.path.join(ROOT, "sudrepka"), help="the command that takes `rewrite ..`")
    words.add_argument("--sources", default=cache, help="where the sources of packages are, or go")
    words.add_argument("--keep", help="a folder for all files")
    words.add_argument("--jobs", type=int, default=1, help="how many files are tried at a time")
    words.add_argument("--kinds", type=kinds_of, default=KINDS, help=f"of {', '.join(KINDS)}")
    words.add_argument("programs", nargs="*", default=list(OTHERS))
    given = words.parse_args()
    if not set(given.programs) <= set(OTHERS):
        words.error(f"the programs are {', '.join(OTHERS)}")
    want("qemu-riscv64", "llvm-bolt-19")
    if not compilers():
        sys.exit(NO_COMPILER)
    tool = built(given.tool)
    fetch(given.sources, [name for name in given.programs if name in PACKAGES])
    with tempfile.TemporaryDirectory() as room:
        folder = given.keep or room
        os.makedirs(folder, exist_ok=True)
        worse_ones, problems = Bench(tool, folder, given.sources).all(given.programs, given.kinds, given.jobs)
    print("\ncolumns in which a refined layout is worse, and calls")
    for line in worse_ones + problems:
        print(f"- {line}")
    sys.exit(1 if problems else 0)


if __name__ == "__main__":
    main()
