#!/usr/bin/env python3
"""All that is tried on real programs, in one table.

    python3 bench/report.py [--tool COMMAND] [--sources FOLDER] [--keep FOLDER] [--build] [--jobs N] \
        [--levels LEVELS] [PROGRAM..]

The programs are those of Debian's source packages Lua, zlib, bzip2, LZ4 and pugixml (`packages.py`; fetched into
FOLDER, or into the cache of the user) and those of `examples/`. Each is built by GCC with GNU ld and by Clang with lld, with
picolibc for RV64IMC: `debug` with all that `-g` makes, at each of LEVELS, as `O0,Os` (-O0 to -O3 and -Os where none are
given); at -O2 and -Os `bare` without debug data and unwind tables, and `tables` with unwind tables besides; at -O2
`lto`, which is optimized when it is linked, and `indexed`, with the index of its unwind tables. Programs that unwind
themselves are built with debug data, unwind tables and their index: `index` with libgcc's unwinder and, at -O2 and -Os,
`unwinder` with LLVM's, from Debian's source package of LLVM 19. N files are tried at a time. What is built goes into
FOLDER, and isn't built again if it is there; with --build, which wants a FOLDER, that is all that is done.
Of each file the table says, step by step, `yes` or `no`; what failed stands below the table, with its cause:

- `record`, `repair`, `rewrite`, `verify` by COMMAND (`./sudrepka` where it isn't given), and `run --symbols` to the
  end, but where a program unwinds itself;
- `alike`: both files run alike on `run` and on `qemu-riscv64`, and `readelf`, `eu-elflint`, `objdump`, `gdb` and
  `llvm-dwarfdump --verify` find nothing in the output that they don't find in the input; programs that unwind
  themselves print all frames before it;
- `lookup` and `frames`: the same at moved instructions as at their owners;
- `unwind`: the same rows of frame tables at each instruction by `readelf`, `llvm-dwarfdump` and pyelftools, and the
  same frames by `gdb` at some;
- `lines`: `addr2line` names the file and the line at each instruction that the input's table has;
- `gdb`: the same lines, frames, arguments and locals where both programs stop at one instruction; the same but for
  frames where both are put to one, hot or cold;
- `breaks`: breakpoints of `gdb` by file and line lead to the same lines of the same functions;
- `inlined`: breakpoints of `gdb` on inlined functions lead to where these are entered.

A second table counts the files of each program that passed a step, and a third has the way of a run through the code
before and after, by the plain profile and by what `tools/refine.py` makes of it, and that of `llvm-bolt-19`'s output,
as `tools/layout.py` counts it. It wants what `real_programs.py` wants, and pyelftools.
"""
import argparse
import concurrent.futures
import os
import re
import shutil
import subprocess
import sys
import tempfile

from debugged import Debugged, with_lines
from frame_rows import table_at
from frames import frame_problems, table_problems
from inlined_breaks import break_problems
from layouts import BOLT, bolt, refine, rewrite
from line_rows import file_problems
from packages import CACHE, PACKAGES, fetch
from profiles import built
from real_programs import LONGER, NO_COMPILER, ROOT, UNWINDING, Checks, buildable, compilers
from report_files import LEVELS, Builder, files_of

from elf_file import ElfFile  # of tools/
from heatmap import counts_of, edges_of, functions_of
from layout import shown, way_of

STEPS = ["record", "repair", "symbols", "rewrite", "verify", "alike", "lookup", "frames", "unwind", "lines", "gdb",
         "breaks", "inlined"]
FEWEST = 3  # frames that programs have that unwind themselves
ASKED = 24  # addresses that are looked up, and at which gdb stops
# Files of programs that unwind themselves which read the tables for it, or give memory for that: these are others in an
# output.
READERS = ["frame_index.c", "cxx_runtime.cc", "headers.c", "start.c"]


class Try:
    """All steps of one program."""

    def __init__(self, tool, path, compiler, words, given, unwinds):
        self.tool, self.path, self.compiler, self.words, self.given = tool, path, compiler, words, given
        self.unwinds = unwinds
        self.results, self.problems = {}, []

    def at(self, end):
        return f"{self.path}.{end}"

    def command(self, *words):
        done = subprocess.run([*self.tool, *words], input=self.given, capture_output=True, check=False)
        return done.returncode, done.stdout.decode(errors="replace").rstrip().rpartition("\n")[2]

    def note(self, step, problems):
        self.results[step] = not problems
        self.problems += [f"{step}: {problem}" for problem in problems[:3]]
        return not problems

    def ran(self, step, *words):
        status, last = self.command(*words)
        return self.note(step, [] if "[ended" in last else [last or f"status {status}"])

    def done(self, step, *words):
        status, last = self.command(*words)
        return self.note(step, [] if status == 0 else [last or f"status {status}"])

    def go(self):
        """Does the steps, up to one without which the others make no sense."""
        limit = ["--steps", "1000000000"]
        if not self.ran("record", "record", *limit, self.path, self.at("profile"), "--", *self.words):
            return
        self.done("repair", "repair", self.path, self.at("profile"), self.at("repaired"))
        if not self.unwinds:
            self.ran("symbols", "run", "--symbols", *limit, self.path, "--", *self.words)
        if not self.done("rewrite", "rewrite", self.path, self.at("profile"), self.at("moved"), self.at("map")):
            return
        os.chmod(self.at("moved"), 0o755)
        self.done("verify", "verify", self.path, self.at("moved"), self.at("map"))
        checks = Checks(self.tool, self.path, self.at("moved"), self.at("map"), self.given)
        self.compared(checks)
        often, never = self.places([old for _, size, old in checks.spans if size])
        self.looked_up("lookup", often + never, checks.moved)
        self.looked_up("frames", often + never, checks.moved)
        self.read_tables(checks)
        self.debugged(checks)

    def read_tables(self, checks):
        """Has other tools read frames and lines, if there are tables of them."""
        if any(table_at(self.path, name)[2] for name in (".debug_frame", ".eh_frame")):
            problems = table_problems(self.path, self.at("moved"), checks.spans)
            self.note("unwind", problems + frame_problems(self.path, self.at("moved"), checks.spans, self.words))
        if table_at(self.path, ".debug_line")[2]:
            self.note("lines", file_problems(self.path, self.at("moved"), checks.spans))
            self.note("inlined", break_problems(self.path, self.at("moved"), checks.moved))

    def debugged(self, checks):
        """Asks gdb, where instructions have lines."""
        kept = [old for _, size, old in checks.spans if size]
        told = with_lines(self.path, kept, READERS if self.unwinds else ())
        if not told or not shutil.which("gdb-multiarch") or not shutil.which("qemu-riscv64"):
            return
        often, never = self.places(told)
        asked = Debugged(self.path, self.at("moved"), checks.moved, self.words, self.given, self.compiler)
        self.note("gdb", asked.problems(asked.stops, often) + asked.problems(asked.puts, often + never))
        self.note("breaks", asked.line_problems(often + never))

    def compared(self, checks):
        checks.runs(self.words, True)
        if self.unwinds:
            printed = checks.run_with(self.path, [], self.words)[1]
            if max(map(int, re.findall(rb", (\d+) in all", printed)), default=0) < FEWEST:
                checks.say(f"the unwinder finds fewer than {FEWEST} frames before")
        checks.readers()
        checks.debugger(checks.disassembly())
        self.note("alike", checks.problems)

    def places(self, instructions):
        """Some of these instructions: such as ran, from those that ran often to those that ran once, and others."""
        starts, _ = functions_of(self.path)
        kept = sorted(instructions)
        counts = counts_of(edges_of(self.at("profile"), self.path), ElfFile(self.path).entry, kept, starts)
        ran = sorted((old for old in kept if counts[old]), key=lambda old: (-counts[old], old))
        never = [old for old in kept if not counts[old]]
        some = lambda places, count: places[::max(1, len(places) // count)][:count]
        return some(ran, ASKED * 3 // 4), some(never, ASKED // 4)

    def looked_up(self, name, places, moved):
        problems = []
        for place in places:
            said = []
            for path, at in ((self.path, place), (self.at("moved"), moved[place])):
                done = subprocess.run([*self.tool, name, path, f"{at:x}"], capture_output=True, text=True, check=False)
                said.append((done.returncode, re.sub(r" handler \S+", "", done.stdout)))
            if said[0] != said[1] or said[0][0] != 0:
                problems.append(f"{said[0][1]!r} at {place:x}, and {said[1][1]!r} where it went")
        self.note(name, problems)

    def ways(self):
        """The way of the run before, after by the plain and by a refined profile, and of llvm-bolt's output."""
        way = lambda path: way_of(path, self.words, self.given)
        found = [("before", way(self.path)), ("plain", way(self.at("moved")))]
        why = refine(self.tool, self.path, self.at("profile"), self.at("refined"))
        said, done = (why, False) if why else rewrite(self.tool, self.path, self.at("refined"), self.at("better"))
        found.append(("refined", way(self.at("better")) if done else said))
        if shutil.which(BOLT[0]):
            why = bolt(self.path, self.at("profile"), self.at("bolted"))
            found.append(("llvm-bolt", why or way(self.at("bolted"))))
        return found


def row_of(way, first):
    if isinstance(way, str):
        return f"no file: {way[:90]}"
    return " ".join(shown(way, first).split())


def levels_of(text):
    """The levels of optimization that are asked for, with `-` before each or without."""
    found = ["-" + level.strip().removeprefix("-") for level in text.split(",")]
    if not set(found) <= set(LEVELS):
        raise argparse.ArgumentTypeError(f"{text} isn't of {', '.join(LEVELS)}")
    return [level for level in LEVELS if level in found]


class Report:
    """Builds files, tries each, and prints what came out."""

    def __init__(self, tool, folder, sources):
        self.tool, self.folder, self.sources = tool, folder, sources
        self.builder = Builder(folder, sources)

    def built(self, file):
        program, compiler, kind, level = file
        path = os.path.join(self.folder, f"{program}.{compiler}.{kind}{level}")
        self.builder.build(path, program, compiler, kind, level)
        return path

    def tried(self, file):
        program, compiler, kind, level = file
        package = PACKAGES.get(program)
        words, given = (list(package.words), package.input(self.sources)) if package else ([], b"")
        path = self.built(file)
        found = Try(self.tool, path, compiler, words, given, program in UNWINDING)
        found.go()
        is_followed = (kind, level) == ("bare", "-O2") and found.results.get("rewrite") and shutil.which("qemu-riscv64")
        ways = found.ways() if is_followed else []
        return os.path.basename(path), found, ways

    def table(self, files, jobs):
        """Prints a row for each file, in order. Gives what was found of each, and its ways."""
        print(f"| file | {' | '.join(STEPS)} |\n|---|{'---|' * len(STEPS)}", flush=True)
        tried = []
        with concurrent.futures.ThreadPoolExecutor(jobs) as pool:
            for name, found, ways in pool.map(self.tried, files):
                marks = [{True: "yes", False: "**no**", None: "-"}[found.results.get(step)] for step in STEPS]
                print(f"| {name} | {' | '.join(marks)} |", flush=True)
                for problem in found.problems:
                    print(f"{name}: {problem[:400]}", file=sys.stderr, flush=True)
                tried.append((name, found, ways))
        return tried

    def all(self, programs, levels, jobs):
        """Prints the tables and the problems. Gives the number of these."""
        files = files_of(programs, self.builder.parts, levels)
        tried = self.table(files, jobs)
        print_counts(files, [found for _, found, _ in tried])
        print("\n| file | | way of a run |\n|---|---|---|")
        for name, _, ways in tried:
            for when, way in ways:
                print(f"| {name if when == 'before' else ''} | {when} | {row_of(way, ways[0][1])} |")
        notes = [f"{name}: {problem}" for name, found, _ in tried for problem in found.problems]
        print(f"\n{len(notes)} problems")
        for note in notes:
            print(f"- {note[:400]}")
        return len(notes)


def print_counts(files, tried):
    """Prints a row for each program and compiler: how many of its files passed each step, of those that came to it."""
    rows = {}
    for (program, compiler, _, _), found in zip(files, tried):
        rows.setdefault(f"{program}, {compiler}", []).append(found.results)
    print(f"\n| program | files | {' | '.join(STEPS)} |\n|---|---|{'---|' * len(STEPS)}")
    for name, results in rows.items():
        cells = []
        for step in STEPS:
            marks = [result[step] for result in results if step in result]
            cells.append("-" if not marks else str(len(marks)) if all(marks) else f"{sum(marks)} of {len(marks)}")
        print(f"| {name} | {len(results)} | {' | '.join(cells)} |")


def main():
    reported = [name for name, package in PACKAGES.items() if package.reported]
    words = argparse.ArgumentParser(description="all that is tried on real programs, in one table")
    words.add_argument("--tool", default=os.path.join(ROOT, "sudrepka"), help="the command that takes `rewrite ..`")
    words.add_argument("--sources", default=CACHE, help="where the sources of packages are, or go")
    words.add_argument("--keep", help="a folder for all files")
    words.add_argument("--build", action="store_true", help="only builds the files")
    words.add_argument("--jobs", type=int, default=1, help="how many files are tried at a time")
    words.add_argument("--levels", default=LEVELS, type=levels_of, help="levels of optimization, as O0,Os")
    words.add_argument("programs", nargs="*", default=[*reported, *sorted(LONGER)])
    given = words.parse_args()
    if given.build and not given.keep:
        words.error("--build wants --keep")
    if not compilers():
        sys.exit(NO_COMPILER)
    tool = [] if given.build else built(given.tool)
    programs = buildable(given.programs)
    fetch(given.sources, [name for name in programs if name in PACKAGES])
    is_unwound = any(name in UNWINDING for name in programs)
    with tempfile.TemporaryDirectory() as room:
        folder = given.keep or room
        os.makedirs(folder, exist_ok=True)
        report = Report(tool, folder, given.sources)
        if is_unwound:
            report.builder.add_unwinders()
        if given.build:
            with concurrent.futures.ThreadPoolExecutor(given.jobs) as pool:
                return list(pool.map(report.built, files_of(programs, report.builder.parts, given.levels)))
        problems = report.all(programs, given.levels, given.jobs)
    sys.exit(1 if problems else 0)


if __name__ == "__main__":
    main()
