"""What scripts on debug data share: programs with all debug tables, the addresses of their instructions, and what
the tool answers at each of them."""
import concurrent.futures
import os
import re
import subprocess
import sys
import tempfile

from profiles import CROSS, output, spent
from real_programs import (COMPILE, EXAMPLES, LAYOUTS, LINK, MACHINE, OF_LINKER, OWN_TABLES, PICOLIBC, TABLES,
                           UNWINDING, call, flags_of, linker_of, sources_of)
from unwinder import FRAMES, WRAPPED, files_of

from frame_tables import mend_tables  # of tools/

# GNU as writes frame tables that aren't as DWARF has them, so GCC writes its own.
KINDS = {"gcc": [*OWN_TABLES, "-g"], "clang": [*TABLES, "-g"]}


def bare_libraries(folder, libraries):
    """The libraries of a link without their debug data: GNU as gives functions of assembly a high address in a form
    that can't be changed in place, and its frame tables aren't as DWARF has them."""
    found = []
    for word in libraries:
        paths = [word] if word.endswith(".a") else []
        if word in ("-lc", "-lgcc"):
            paths = [output([CROSS + "gcc", *MACHINE, f"-print-file-name=lib{word[2:]}.a"]).strip()]
            if word == "-lc":
                paths = [os.path.join(PICOLIBC, "lib", "rv64im", "lp64", "libc.a")]
        for path in paths:
            copy = os.path.join(folder, "bare-" + os.path.basename(path))
            if not os.path.exists(copy):
                call([CROSS + "objcopy", "-g", path, copy])
            found.append(copy)
    return ["-Wl,--start-group", *found, "-Wl,--end-group"]


def build_with_tables(path, program, compiler, parts, level, prints_frames=False, unwinder=()):
    """Builds a program of `examples` with all debug tables of its own code. One that unwinds itself can print all
    frames first, and gets other objects than libgcc's unwinder if these are given."""
    front, libraries = parts
    folder = os.path.dirname(path)
    sources = [os.path.join(EXAMPLES, name) for name in ["start.c", *sources_of(program)]]
    sources = [*(files_of(sources) if unwinder else sources), *([FRAMES] if prints_frames else [])]
    compiled = [word for word in COMPILE if word != "-g0"]
    include = ["-isystem", os.path.join(PICOLIBC, "include"), "-I", EXAMPLES]
    objects = []
    for source in sources:
        objects.append(f"{path}.{os.path.basename(source)}.o")
        kind = flags_of(program) if source.endswith(".cc") else []
        call([*front, *MACHINE, *compiled, *KINDS[compiler], *kind, level, *include, "-c", source, "-o", objects[-1]])
    own_layout = OF_LINKER.get((compiler, "tables"), []) if program not in UNWINDING else []
    layout = [*LAYOUTS["tables"], *own_layout, *(WRAPPED if prints_frames else [])]
    call([*front, *MACHINE, "-nostdlib", *LINK, *layout, *linker_of(folder, program, compiler), *objects, *unwinder,
          *bare_libraries(folder, libraries), "-o", path])
    mend_tables(path)  # also those of libraries
    for name in objects:
        os.remove(name)


def instructions(path, section=".text"):
    """The addresses at which objdump finds instructions."""
    text = output([CROSS + "objdump", "-d", "-j", section, "--no-show-raw-insn", path])
    return [int(row[1], 16) for row in re.finditer(r"^ *([0-9a-f]+):\t", text, re.M)]


def asked(tool, command, path, addresses):
    """What the tool prints of each address, in order."""
    def ask(address):
        words = [*tool, command, path, f"{address:x}"]
        done = subprocess.run(words, capture_output=True, text=True, errors="replace", check=False)
        return done.stdout if done.returncode == 0 else f"{done.returncode} {done.stdout}"

    with concurrent.futures.ThreadPoolExecutor(os.cpu_count()) as pool:
        return list(pool.map(ask, addresses))


# A function of a large program: with an inlined one, local variables, a loop and a switch.
FUNCTION = """
static inline int clamp_@(int value, int low) {
    int most = low + @;
    return value < low ? low : value > most ? most : value;
}
__attribute__((noinline)) int f@(int *values, int count) {
    int sum = @;
    for (int i = 0; i < count; i++) {
        int value = values[i] + i * @;
        sum += value % 3 ? clamp_@(value, sum & 63) : clamp_@(value * 5, i);
        if (sum > 100000) { int half = sum / 2; sum = half - @; }
    }
    return sum & 1 ? f$(values, count / 2) + sum : sum;
}
"""


def build_large(path, mib, function=FUNCTION):
    """Builds a program of about so many MiB with all tables, of units of 200 such functions each by GCC; gives how
    many."""
    folder = os.path.dirname(path)
    source, one = (os.path.join(folder, name) for name in ("unit.c", "unit.o"))
    with open(source, "w", encoding="ascii") as file:
        file.write("int f0(int *values, int count);\n")
        for k in range(200):
            file.write(function.replace("@", str(k)).replace("$", str(max(k - 1, 0))))
    call([CROSS + "gcc", *MACHINE, *OWN_TABLES, "-g", "-O2", "-c", source, "-o", one])
    count = max(1, round(mib * 2**20 / (1.04 * os.path.getsize(one))))
    objects = [os.path.join(folder, f"unit{k}.o") for k in range(count)]
    for k, copy in enumerate(objects):
        call([CROSS + "objcopy", f"--prefix-symbols=u{k}_", one, copy])
    start = os.path.join(folder, "start-large.c")
    with open(start, "w", encoding="ascii") as file:
        calls = "".join(f"int u{k}_f199(int *, int); " for k in range(count))
        sums = " + ".join(f"u{k}_f199(values, 4)" for k in range(count))
        file.write(f"{calls}\nvoid _start(void) {{ int values[4] = {{1, 2, 3, 4}};\n"
                   f"register int a0 __asm__(\"a0\") = {sums};\n"
                   "register int a7 __asm__(\"a7\") = 93; __asm__ volatile(\"ecall\" : : \"r\"(a0), \"r\"(a7));\n"
                   "__builtin_unreachable(); }\n")
    call([CROSS + "gcc", *MACHINE, *OWN_TABLES, "-g", "-O2", "-nostdlib", "-nostartfiles", *LINK,
          "-Wl,-Ttext-segment=0x100000", "-Wl,-z,max-page-size=0x100000", start, *objects, "-o", path])
    for name in [*objects, one]:
        os.remove(name)
    return count


def middle_of(path, count):
    """An address in the middle of such a program, of an inlined function. It wants `llvm-symbolizer`."""
    names = [line.split() for line in output([CROSS + "nm", path]).splitlines()]
    low = next(int(row[0], 16) for row in names if row[-1] == f"u{count // 2}_f100")
    part = [f"--start-address={low}", f"--stop-address={low + 256}"]
    text = output([CROSS + "objdump", "-d", "--no-show-raw-insn", *part, path])
    places = [int(row[1], 16) for row in re.finditer(r"^ *([0-9a-f]+):\t", text, re.M)]
    parts = output(["llvm-symbolizer", "-e", path, *(f"0x{at:x}" for at in places)]).split("\n\n")
    return next((at for at, part in zip(places, parts) if len(part.splitlines()) > 2), low)


def apart(script, *words):
    """What a script prints, in a process of its own, so that the memory it takes is given back. It has to end well."""
    command = [sys.executable, os.path.abspath(script), *map(str, words)]
    return subprocess.run(command, stdout=subprocess.PIPE, text=True, check=True).stdout


def best_of(command, runs):
    """The best seconds of the clock, the peak in MiB, and what was printed, in one line."""
    best, peak, said = float("inf"), 0, ""
    for _ in range(runs):
        with tempfile.TemporaryFile() as printed:
            took = spent(command, stdout=printed, stderr=subprocess.DEVNULL)
            if took.status != 0:
                sys.exit(f"{' '.join(command)} ended with {took.status}")
            best, peak = min(best, took.clock), max(peak, took.peak)
            printed.seek(0)
            said = " / ".join(printed.read().decode(errors="replace").split("\n"))[:100]
    return best, peak, said


if __name__ == "__main__":
    print(middle_of(sys.argv[1], build_large(sys.argv[1], int(sys.argv[2]))))
