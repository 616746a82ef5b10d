"""Builds the files that `report.py` tries: programs of Debian's packages and of `examples/`, by GCC with GNU ld and by
Clang with lld, with picolibc for RV64IMC. A kind says with which tables:

- `bare` without debug data and unwind tables, `debug` with all that `-g` makes, `lto` the same, optimized when linking;
- `tables` with unwind tables besides, and `indexed` with their index too, which only lld makes, so that it links these;
- of programs that unwind themselves, `index`: with debug data, unwind tables and their index, with libgcc's unwinder,
  and `unwinder`: the same with LLVM's. Both print all frames before they unwind.
"""
import os
import shutil

from debug_files import bare_libraries, build_with_tables
from packages import OWN, PACKAGES
from profiles import newest, output
from real_programs import (COMPILE, EXAMPLES, LAYOUTS, LINES, LINK, MACHINE, NO_TABLES, OWN_TABLES, PICOLIBC, UNWINDING,
                           call, compilers, flags_of, indexed_link, sources_of)
from unwinder import unwinder_objects

from mend import mend  # of tools/

LTO = ["-flto"]
DEBUG = [*LINES, "-fno-dwarf2-cfi-asm"]
KINDS = {"bare": NO_TABLES, "debug": DEBUG, "lto": [*DEBUG, *LTO], "tables": ["-g", *OWN_TABLES],
         "indexed": ["-g", *OWN_TABLES]}
SCRIPTS = {"tables": "roomy_tables.ld"}
LIBRARIES = os.path.join(PICOLIBC, "lib", "rv64im", "lp64")
LEVELS = ["-O0", "-O1", "-O2", "-O3", "-Os"]
OF_KIND = {"bare": ["-O2", "-Os"], "debug": LEVELS, "lto": ["-O2"], "tables": ["-O2", "-Os"], "indexed": ["-O2"],
           "index": LEVELS, "unwinder": ["-O2", "-Os"]}
# The tables of distances of switches are extended there by instructions that the symbol machine doesn't follow.
OF_LEVEL = {"-O0": ["-fno-jump-tables"]}
# Clang's own trap is no instruction: it stands in what no call reaches, as destructors of abstract classes.
OF_COMPILER = {"gcc": [], "clang": ["-ftrap-function=abort"]}


def kinds_of(program):
    """The kinds in which a program is built here: without lld, none with an index."""
    if program in UNWINDING:
        return ["index", "unwinder"]
    return [kind for kind in KINDS if kind != "indexed" or newest("ld.lld")]


def files_of(programs, parts, levels):
    """What is built of these programs: program, compiler, kind and level of each file."""
    return [(program, compiler, kind, level) for program in programs for compiler in parts
            for kind in kinds_of(program) for level in levels if level in OF_KIND[kind]]


class Builder:
    """Builds programs. Libraries have no debug data of their own: that of GNU as is refused, as HighPcForm."""

    def __init__(self, folder, sources, found=LIBRARIES, link=LINK):
        self.folder, self.sources, self.options, self.parts, self.unwinders = folder, sources, link, {}, {}
        strip = shutil.which("riscv64-unknown-elf-strip")
        for compiler, (front, libraries) in compilers().items():
            gcc = output(["riscv64-unknown-elf-gcc", *MACHINE, "-print-libgcc-file-name"]).strip()
            stripped = []
            for path in (os.path.join(found, "libc.a"), os.path.join(found, "libm.a"), gcc):
                stripped.append(os.path.join(folder, os.path.basename(path)))
                if not os.path.exists(stripped[-1]):
                    made = stripped[-1] + ".part"
                    call([strip, "-g", "-o", made, path])
                    os.replace(made, stripped[-1])
            group = ["-Wl,--start-group", *stripped, "-Wl,--end-group"]
            self.parts[compiler] = (front, group)
            # what threads share that build programs with an index
            if newest("ld.lld"):
                indexed_link(folder, compiler)
            bare_libraries(folder, group)

    def add_unwinders(self):
        """Builds LLVM's unwinder, by each compiler."""
        for compiler, (front, _) in self.parts.items():
            self.unwinders[compiler] = unwinder_objects(self.sources, self.folder, compiler, front)

    def files(self, program):
        """The files of a program, the folders of its headers, and its own flags."""
        start = os.path.join(EXAMPLES, "start.c")
        if program not in PACKAGES:
            return [*(os.path.join(EXAMPLES, name) for name in sources_of(program)), start], [], []
        package = PACKAGES[program]
        own = [*(os.path.join(OWN, name) for name in package.own), os.path.join(EXAMPLES, "standard_input.c")]
        return [*package.files(self.sources), *own, start], package.include(self.sources), package.flags

    def objects(self, path, program, compiler, kind, level):
        """Compiles a program, and gives the objects."""
        front, _ = self.parts[compiler]
        files, folders, flags = self.files(program)
        include = [word for folder in folders for word in ("-I", folder)]
        made = []
        for number, source in enumerate(files):
            made.append(f"{path}.{number}.o")
            cxx = flags_of(program) if source.endswith((".cc", ".cpp")) else []
            # what the libraries call has to be there after a link that optimizes; start.c says so itself
            kept = ["-fno-lto"] if os.path.basename(source) == "standard_input.c" else []
            own = [*KINDS[kind], level, *OF_LEVEL.get(level, []), *OF_COMPILER[compiler], *flags, *cxx, *kept]
            call([*front, *MACHINE, *COMPILE, *own, *include, "-w", "-isystem", os.path.join(PICOLIBC, "include"),
                  "-c", source, "-o", made[-1]])
        return made

    def build(self, path, program, compiler, kind, level):
        """Builds a file, unless it is there."""
        if not os.path.exists(path):
            made = path + ".part"
            self.link(made, program, compiler, kind, level)
            os.replace(made, path)

    def layout(self, compiler, kind):
        if kind == "indexed":
            return [*LAYOUTS["tables"], *indexed_link(self.folder, compiler)]
        return ["-T", os.path.join(EXAMPLES, SCRIPTS.get(kind, "roomy.ld"))]

    def link(self, path, program, compiler, kind, level):
        front, libraries = self.parts[compiler]
        if program in UNWINDING:
            unwinder = self.unwinders[compiler] if kind == "unwinder" else ()
            build_with_tables(path, program, compiler, (front, libraries), level, True, unwinder)
        else:
            optimized = [*KINDS[kind], level, *OF_COMPILER[compiler]] if kind == "lto" else []
            made = self.objects(path, program, compiler, kind, level)
            options = [*self.options, *optimized, *self.layout(compiler, kind)]
            call([*front, *MACHINE, "-nostdlib", *options, *made, *libraries, "-o", path])
            for name in made:
                os.remove(name)
        mend(path)
