"""LLVM's unwinder for a RISC-V processor without a system, built from Debian's source package of LLVM 19; and what
prints the frames that an unwinder finds.

`unwinder/` has what it wants of a system, the program's own headers, and functions that a program gets in place of
those by which it begins to unwind: they print all frames first.
"""
import os
import shutil

from packages import BENCH, fetch_part
from real_programs import EXAMPLES, MACHINE, OWN_TABLES, PICOLIBC, TABLES, call

OWN = os.path.join(BENCH, "unwinder")
SOURCE, PART = "llvm-toolchain-19", "libunwind"
PARTS = ["libunwind.cpp", "UnwindLevel1.c", "UnwindLevel1-gcc-ext.c", "UnwindRegistersRestore.S",
         "UnwindRegistersSave.S"]
# One program header table is all that is loaded, there is one thread, and nothing names a function.
DEFINED = ["-DNDEBUG", "-D_LIBUNWIND_IS_NATIVE_ONLY", "-D_LIBUNWIND_HAS_NO_THREADS", "-D_LIBUNWIND_USE_DLADDR=0"]
FLAGS = ["-O2", "-g0", "-w", "-ftls-model=local-exec", "-ffunction-sections", "-nostdlib"]
# The unwinder asks the processor how long its vector registers are, which have no place in RV64IMC.
ASKED, ANSWER = '__asm__("csrr %0, 0xC22" : "=r"(vlenb));', "vlenb = 0;"
# What begins to unwind, of which `frames.c` has others.
WRAPPED = ["-Wl,--wrap=__cxa_throw", "-Wl,--wrap=_Unwind_ForcedUnwind"]
FRAMES = os.path.join(OWN, "frames.c")
HEADERS = os.path.join(OWN, "headers.c")


def mended(sources, folder):
    """A copy of the unwinder's sources without the question for vector registers."""
    copy = os.path.join(folder, PART)
    if not os.path.isdir(copy):
        made = copy + ".part"
        shutil.copytree(fetch_part(sources, SOURCE, PART), made)
        path = os.path.join(made, "src", "Registers.hpp")
        with open(path, encoding="utf-8") as file:
            text = file.read()
        with open(path, "w", encoding="utf-8") as file:
            file.write(text.replace(ASKED, ANSWER))
        os.replace(made, copy)
    return copy


def unwinder_objects(sources, folder, compiler, front):
    """The objects of the unwinder, which are built once for a folder and a compiler."""
    home = mended(sources, folder)
    include = ["-I", os.path.join(home, "include"), "-I", OWN, "-isystem", os.path.join(PICOLIBC, "include")]
    tables = OWN_TABLES if compiler == "gcc" else TABLES
    made = []
    for part in PARTS:
        made.append(os.path.join(folder, f"{PART}-{compiler}-{part}.o"))
        if not os.path.exists(made[-1]):
            kind = ["-fno-rtti", "-fno-exceptions", "-nostdinc++", "-std=c++17"] if part.endswith(".cpp") else []
            own = [] if part.endswith(".S") else tables
            call([*front, *MACHINE, *FLAGS, *DEFINED, *own, *kind, *include, "-c", os.path.join(home, "src", part),
                  "-o", made[-1] + ".part"])
            os.replace(made[-1] + ".part", made[-1])
    return made


def files_of(files):
    """The files of a program that unwinds itself, for LLVM's unwinder, which asks for program headers."""
    return [HEADERS if file == os.path.join(EXAMPLES, "frame_index.c") else file for file in files]
