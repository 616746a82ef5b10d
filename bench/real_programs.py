#!/usr/bin/env python3
"""Rewrites C and C++ programs and looks at what comes out with other tools.

    python3 bench/real_programs.py [--tool COMMAND] [--keep FOLDER] [PROGRAM..]

Each program of `examples` is compiled by GCC with GNU ld and by Clang with lld, with picolibc for RV64IMC, and
linked with a script that leaves room behind the code, with the linker's own script with and without room, and with that
script and unwind tables, which GCC makes itself and by its assembler; and with a line table and no other table of `-g`.
Programs that throw or clean up while frames are unwound need the index of their table, which only lld makes, so lld
links them all, and without it they are left out. COMMAND (`./sudrepka` where it isn't given) records a short run of each
executable and rewrites it by that profile. Then

- `run` and `qemu-riscv64` have to say the same of both files, for a short and for a longer run, and `run --symbols`
  has to follow the input to its end, but where it unwinds itself: it then reads the program header of its table, which
  a rewrite changes, so that run is stuck;
- `readelf -aW`, `eu-elflint` and `llvm-dwarfdump --verify` may not complain of the output where they don't of the
  input;
- `objdump` has to find an instruction at each line of the map, with the same operation but for branches and jumps;
- `gdb` has to find the functions at their new addresses, and instructions there that begin where those of `objdump` do;
- `readelf` has to find the same rows of unwind tables at the bytes of the new code as at their owners, `llvm-dwarfdump`
  the same handlers and exception tables, and `gdb` the same frames where both programs stop at one function;
- `llvm-dwarfdump` and `readelf` have to find the same rows of lines in force at the bytes of the new code as at their
  owners, and `addr2line`, `llvm-symbolizer` and `gdb` the same lines.

A line for each file has the counts of steps before and after, and the sizes of line tables; a line for each problem
follows it. The status is 0 where there is none. It wants Debian's `gcc-riscv64-unknown-elf` and
`picolibc-riscv64-unknown-elf`, and leaves out what of `clang`, `lld`, `qemu-user`, `elfutils`, `llvm` and `gdb-multiarch` isn't
there. FOLDER keeps all files.
"""
import argparse
import os
import re
import shutil
import subprocess
import sys
import tempfile

from dwarf_verify import verify_problems
from frames import backtrace_problems, table_problems
from line_rows import leave_lines, line_problems, table_size
from profiles import CROSS, MOST_SECONDS, built, newest, output, record

from frame_tables import mend_tables  # of tools/

ROOT = os.path.dirname(os.path.dirname(os.path.abspath(__file__)))
EXAMPLES = os.path.join(ROOT, "examples")
PICOLIBC = "/usr/lib/picolibc/riscv64-unknown-elf"
NO_COMPILER = f"there is no {CROSS}gcc, or no picolibc in {PICOLIBC}"
LONGER = {"sorting": "150", "interpreter": "400", "shapes": "500", "packing": "5000", "threaded": "1000",
          "words": "2000", "registry": "1000", "lifetimes": "10", "exceptions": "50", "cleanups": "50"}
# The files of programs that aren't one of C.
SOURCES = {"registry": ["registry.cc", "cxx_memory.cc"]}
# Programs that unwind themselves: their files, and a function at which they stop deep in calls.
UNWINDING = {"exceptions": (["exceptions.cc", "cxx_runtime.cc", "frame_index.c"], "__cxa_throw"),
             "cleanups": (["cleanups.c", "frame_index.c"], "stop")}

MACHINE = ["-march=rv64imc", "-mabi=lp64", "-mcmodel=medany"]
COMPILE = ["-g0", "-ftls-model=local-exec", "-ffunction-sections", "-nostdlib"]
NO_TABLES = ["-fno-asynchronous-unwind-tables"]
TABLES = ["-fasynchronous-unwind-tables", "-fexceptions"]
OWN_TABLES = [*TABLES, "-fno-dwarf2-cfi-asm"]
LINES = [*NO_TABLES, "-g"]
# The assembler has to leave relaxation to the linker, or a call inside one section has no relocation; and GNU ld's
# relaxations leave relocations of types of its own.
LINK = ["-Wl,--emit-relocs", "-Wl,--no-relax", "-Wl,--gc-sections"]
STRIP = ["-Wl,--strip-debug"]
# Labels of assemblers in debug tables keep their values when these are written anew.
LABELS = ["-X", "--wildcard", "--strip-symbol=$d*"]
NO_DATA = ["-Wl,--defsym=__tdata_start=0,--defsym=__tdata_end=0"]  # no thread-local data with a first value
LAYOUTS = {
    "roomy": ["-T", os.path.join(EXAMPLES, "roomy.ld")],
    "default": ["-T", os.path.join(EXAMPLES, "no_tables.ld"), *NO_DATA],
    "pages": ["-T", os.path.join(EXAMPLES, "no_tables.ld"), *NO_DATA, "-Wl,-z,max-page-size=0x100000"],
    "tables": [*NO_DATA, "-Wl,-z,max-page-size=0x100000"],
    "own-tables": [*NO_DATA, "-Wl,-z,max-page-size=0x100000"],
    "lines": ["-T", os.path.join(EXAMPLES, "roomy.ld")],
}
UNWOUND = {"tables": TABLES, "own-tables": OWN_TABLES}
KINDS = {**UNWOUND, "lines": LINES}
# With such pages GNU ld would put the code at address 0.
OF_LINKER = {("gcc", layout): ["-Wl,-Ttext-segment=0x100000"] for layout in ("pages", "tables", "own-tables")}


def compilers():
    """By their names the compilers that are there, and the libraries of a link; none without GCC and picolibc."""
    library = os.path.join(PICOLIBC, "lib", "rv64im", "lp64")
    gcc = CROSS + "gcc"
    found = {}
    if shutil.which(gcc) and os.path.isdir(library):
        group = [f"-L{library}", "-Wl,--start-group", "-lc", "-lgcc", "-Wl,--end-group"]
        found["gcc"] = ([gcc, "-nostartfiles"], group)
    clang, lld = newest("clang"), newest("ld.lld")
    if clang and lld and found:
        libgcc = output([gcc, *MACHINE, "-print-libgcc-file-name"]).strip()
        found["clang"] = ([clang, "--target=riscv64-unknown-elf", f"-fuse-ld={lld}"], [os.path.join(library, "libc.a"), libgcc])
    return found


def buildable(programs):
    """Those that can be linked here: without lld none that unwinds itself. Says which it leaves out."""
    left = [] if newest("ld.lld") else [program for program in programs if program in UNWINDING]
    if left:
        print(f"there is no lld, so these are left out: {', '.join(left)}", file=sys.stderr)
    return [program for program in programs if program not in left]


def layouts_of(program, compiler):
    """The layouts of a program: those with tables alone where it unwinds itself; only GCC makes tables of its own."""
    every = [layout for layout in LAYOUTS if layout in UNWOUND or program not in UNWINDING]
    return [layout for layout in every if layout != "own-tables" or compiler == "gcc"]


def call(command):
    done = subprocess.run(command, capture_output=True, text=True, check=False)
    if done.returncode != 0:
        sys.exit(f"{' '.join(command)}\n{done.stderr}")


def indexed_link(folder, compiler):
    """The options by which lld links a program, with the index of its unwind table."""
    if compiler != "gcc":
        return ["-Wl,--eh-frame-hdr"]
    lld = os.path.join(folder, "ld.lld")  # where GCC finds it
    if not os.path.lexists(lld):
        os.symlink(newest("ld.lld"), lld)
    return [f"-B{folder}", "-fuse-ld=lld", "-Wl,--eh-frame-hdr"]


def linker_of(folder, program, compiler):
    """The options by which a program is linked that unwinds itself: it needs the index of its table."""
    return indexed_link(folder, compiler) if program in UNWINDING else []


def sources_of(program):
    """The files of a program of `examples`, but for its start code."""
    return UNWINDING[program][0] if program in UNWINDING else SOURCES.get(program, [program + ".c"])


def flags_of(program):
    """The options for its files of C++: there is no library of it."""
    return ["-fno-rtti"] if program in UNWINDING else ["-fno-rtti", "-fno-exceptions", "-fno-threadsafe-statics"]


def build(path, program, compiler, parts, layout, level):
    front, libraries = parts
    layouts = LAYOUTS[layout] + (OF_LINKER.get((compiler, layout), []) if program not in UNWINDING else [])
    include = ["-isystem", os.path.join(PICOLIBC, "include")]
    objects = []
    for source in ["start.c", *sources_of(program)]:
        objects.append(f"{path}.{os.path.basename(source)}.o")
        kind = flags_of(program) if source.endswith(".cc") else []
        call([*front, *MACHINE, *COMPILE, *KINDS.get(layout, NO_TABLES), *kind, level, *include, "-c",
              os.path.join(EXAMPLES, source), "-o", objects[-1]])
    linker = linker_of(os.path.dirname(path), program, compiler)
    kept = [] if layout == "lines" else STRIP
    call([*front, *MACHINE, "-nostdlib", *LINK, *kept, *layouts, *linker, *objects, *libraries, "-o", path])
    mend_tables(path)  # also those of libraries
    if layout == "lines":
        leave_lines(path)
    for name in objects:
        os.remove(name)


class Checks:
    """What is asked of an input and its rewritten file."""

    def __init__(self, tool, old, new, map_path, given=b""):
        self.tool, self.old, self.new, self.given, self.problems = tool, old, new, given, []
        with open(map_path, encoding="ascii") as file:
            rows = [line.split() for line in file]
        self.spans = [(int(new, 16), int(length), int(old, 16)) for new, length, old in rows]
        self.moved = {old: new for new, _, old in self.spans}

    def say(self, problem):
        self.problems.append(problem)

    def run_with(self, path, options, words):
        """The status, what was printed, and the count of steps."""
        command = [*self.tool, "run", *options, path, "--", *words]
        done = subprocess.run(command, input=self.given, capture_output=True, check=False)
        printed, _, line = done.stdout.rpartition(b"[")
        found = re.match(rb"ended \d+ after (\d+) steps\]", line)
        status, steps = done.returncode, int(found[1]) if found else None
        if steps is None:
            self.say(f"run {' '.join(options)} of {os.path.basename(path)} says {done.stdout[-80:]!r}")
        return status, printed, steps

    def runs(self, words, unwinds):
        """Runs both files on all machines."""
        before = self.run_with(self.old, [], words)
        after = self.run_with(self.new, [], words)
        if not unwinds and self.run_with(self.old, ["--symbols"], words) != before:
            self.say("the symbol machine runs otherwise")
        if before[:2] != after[:2]:
            self.say("the output runs otherwise")
        if shutil.which("qemu-riscv64"):
            for path in (self.old, self.new):
                if self.run_by_qemu(path, words) != before[:2]:
                    self.say(f"qemu runs {os.path.basename(path)} otherwise")
        return before[2], after[2]

    def run_by_qemu(self, path, words):
        """The status and what was printed; nothing where it doesn't end."""
        try:
            done = subprocess.run(["qemu-riscv64", path, *words], input=self.given, capture_output=True, check=False,
                                  timeout=MOST_SECONDS)
        except subprocess.TimeoutExpired:
            return None
        return done.returncode, done.stdout

    def judged(self, map_path):
        """Asks the tool itself whether the output is a faithful rewrite."""
        done = subprocess.run([*self.tool, "verify", self.old, self.new, map_path], capture_output=True, text=True,
                              check=False)
        if done.stdout != "faithful\n":
            self.say(f"verify says {done.stdout.strip()!r}")

    def complaints(self, command, pattern, without=()):
        """Lines that a tool prints of the output and not of the input, without numbers. Options of objcopy can take
        something out of the output before."""
        found = []
        with tempfile.TemporaryDirectory() as folder:
            copy = os.path.join(folder, "copy")
            for path in (self.old, self.new):
                if without and path == self.new:
                    call([CROSS + "objcopy", *without, path, copy])
                else:
                    shutil.copy(path, copy)
                done = subprocess.run([*command, copy], capture_output=True, text=True, errors="replace", check=False)
                lines = [line for line in (done.stdout + done.stderr).splitlines() if re.search(pattern, line)]
                found.append({re.sub(r"\[ *\d+\]|\b\d+\b", "N", line) for line in lines})
        return sorted(found[1] - found[0])

    def readers(self):
        said = r"readelf: |<(?i:corrupt|unknown)|(?i:unknown section)"
        for line in self.complaints([CROSS + "readelf", "-aW"], said):
            self.say(f"readelf: {line}")
        if shutil.which("eu-elflint"):
            for line in self.complaints(["eu-elflint", "--gnu-ld"], r".", LABELS):
                # Sections of relocations are left out: a header of type SHT_NULL stays, with the name.
                if not re.search(r"expected RELA, is NULL|nonzero sh_name for NULL section|^No errors", line):
                    self.say(f"eu-elflint: {line}")
        if dump := newest("llvm-dwarfdump"):
            self.problems += verify_problems(dump, self.old, self.new)

    def instructions(self, path, section):
        """The instructions that objdump finds: by address the number of bytes, the operation and its operands."""
        found = {}
        # Without mapping symbols: binutils 2.40 takes one without an instruction set to keep that of the one before it.
        copy = path + ".plain"
        # And without debug tables: it doesn't know all types of relocations of those by Clang 19.
        output([CROSS + "objcopy", "-g", "--wildcard", "--strip-symbol=$*", path, copy])
        text = output([CROSS + "objdump", "-d", "-M", "no-aliases", "-j", section, copy])
        os.remove(copy)
        for line in text.splitlines():
            row = re.match(r" *([0-9a-f]+):\t([0-9a-f]+) *\t(\S+)(?:\t(.*))?", line)
            if row:
                found[int(row[1], 16)] = (len(row[2]) // 2, row[3], row[4] or "")
        return found

    def disassembly(self):
        old, new = self.instructions(self.old, ".text"), self.instructions(self.new, ".text")
        seen = set()
        for at, length, source in self.spans:
            if length == 0:
                continue
            seen.add(at)
            if at not in new or source not in old:
                self.say(f"objdump has no instruction at {at:x}")
                continue
            was, now = old[source][1].removeprefix("c."), new[at][1].removeprefix("c.")
            rest = at + new[at][0]
            while rest < at + length and rest in new:  # jumps that were added
                seen.add(rest)
                rest += new[rest][0]
            same = was == now or (was[0] == "b" == now[0]) or {was, now} <= {"j", "jal"}
            if not same:
                self.say(f"objdump: {was} at {source:x} became {now} at {at:x}")
        for at in set(new) - seen:
            self.say(f"objdump: {new[at][1]} at {at:x} is no instruction of the map")
        return new

    def single_names(self):
        """The functions that have a name of their own, with their addresses before and after."""
        names = {}
        for line in output([CROSS + "nm", self.old]).splitlines():
            value, kind, name = line.split()[-3:] if len(line.split()) >= 3 else ("0", "U", "")
            if kind in "tT" and re.fullmatch(r"\w+", name) and int(value, 16) in self.moved:
                names.setdefault(name, set()).add(int(value, 16))
        single = {name: places.pop() for name, places in names.items() if len(places) == 1}
        # gdb reads such sections, which take no memory, in place of what is at their addresses
        sections = output([CROSS + "readelf", "-SW", self.new]).replace("[", " ").splitlines()
        threads = [row.split() for row in sections if " NOBITS " in row]
        hidden = [(int(row[3], 16), int(row[5], 16)) for row in threads if "T" in row[7]]
        seen = lambda at: not any(a - 8 < at < a + size for a, size in hidden)
        return {name: (old, self.moved[old]) for name, old in single.items() if seen(self.moved[old])}

    def debugger(self, new):
        if not shutil.which("gdb-multiarch"):
            return
        single = self.single_names()
        said, compared = [], 0
        for path in (self.old, self.new):
            words = ["gdb-multiarch", "-batch", "-nx", "-ex", "set riscv use-compressed-breakpoints auto"]
            for name in single:
                asked = (f"output (long)&'{name}'", "echo \\n", f"x/2i &'{name}'", "echo ;\\n")
                words += [word for command in asked for word in ("-ex", command)]
            said.append([text.strip().splitlines() for text in output([*words, path]).split(";\n")])
        if any(len(texts) != len(single) + 1 for texts in said):  # the last is what stands behind the last `;`
            return self.say("gdb doesn't say something of each function")
        for (name, (old, place)), before, lines in zip(single.items(), *said):
            if before[:1] != [str(old)]:
                continue  # one of several destructors, which gdb names alike
            compared += 1
            if lines[:1] != [str(place)]:
                self.say(f"gdb finds {name} at {lines[:1]}, not at {place:x}")
                continue
            places = [int(found[1], 16) for line in lines[1:] if (found := re.search(r"0x([0-9a-f]+)", line))]
            if not places or any(at not in new and at < max(new) for at in places):
                self.say(f"gdb reads other instructions in {name}: {lines[1:]}")
        if not compared:
            self.say("gdb finds no function of the input")

    def unwinding(self, place, words):
        """Compares the unwind tables, and the frames where both programs come to a function."""
        self.problems += table_problems(self.old, self.new, self.spans)
        self.problems += backtrace_problems(self.old, self.new, self.moved, place, words)


def check(tool, name, old, folder):
    """Rewrites an executable and prints what was found. Gives the number of problems."""
    path = lambda end: os.path.join(folder, f"{name}.{end}")
    program, _, layout = name.split("-O")[0].split(".")
    recorded = record(tool, old, [], path("profile"))
    command = [*tool, "rewrite", old, path("profile"), path("moved"), path("map")]
    done = subprocess.run(command, capture_output=True, text=True, check=False)
    if done.returncode != 0:
        print(f"{name:30} {recorded}; {done.stdout.strip() or done.returncode}", flush=True)
        return 1
    os.chmod(path("moved"), 0o755)
    checks = Checks(tool, old, path("moved"), path("map"))
    unwinds = program in UNWINDING
    short = checks.runs([], unwinds)
    longer = checks.runs([LONGER[program]], unwinds) if program in LONGER else short
    checks.judged(path("map"))
    checks.readers()
    checks.debugger(checks.disassembly())
    if layout in UNWOUND:
        checks.unwinding(UNWINDING[program][1] if unwinds else "write", [])
    if layout == "lines":
        checks.problems += line_problems(checks.old, checks.new, checks.spans)
    sizes = f"; lines {table_size(old)} to {table_size(checks.new)} bytes" if layout == "lines" else ""
    steps = ", ".join(f"{before} to {after} steps" for before, after in (short, longer))
    print(f"{name:30} {done.stdout.strip()}; {steps}{sizes}", flush=True)
    for problem in checks.problems[:10]:
        print(f"    {problem}", flush=True)
    return len(checks.problems)


def main():
    every = sorted(set(LONGER))
    words = argparse.ArgumentParser(description="rewrites C and C++ programs and looks at the output with other tools")
    words.add_argument("--tool", default=os.path.join(ROOT, "sudrepka"), help="the command that takes `rewrite ..`")
    words.add_argument("--keep", help="a folder for all files")
    words.add_argument("programs", nargs="*", default=every)
    given = words.parse_args()
    if not compilers():
        sys.exit(NO_COMPILER)
    tool, problems = built(given.tool), 0
    with tempfile.TemporaryDirectory() as room:
        folder = given.keep or room
        os.makedirs(folder, exist_ok=True)
        for program in buildable(given.programs):
            for compiler, parts in compilers().items():
                for layout in layouts_of(program, compiler):
                    for level in ("-O2", "-Os"):
                        name = f"{program}.{compiler}.{layout}{level}"
                        path = os.path.join(folder, name)
                        build(path, program, compiler, parts, layout, level)
                        problems += check(tool, name, path, folder)
    print(f"{problems} problems")
    sys.exit(1 if problems else 0)


if __name__ == "__main__":
    main()
