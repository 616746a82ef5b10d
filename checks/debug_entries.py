#!/usr/bin/env python3
"""Compares the entries and attributes that dw_unit::units lists with those of llvm-dwarfdump.

    python3 checks/debug_entries.py [FILE..]

Without files it compiles C and C++ by riscv64-unknown-elf-gcc and clang: DWARF 5 by -g and -g3, type units, and -O0 to
-Os. The program that lists the entries is made in a temporary copy of the crates that it needs, and run by `rt try`, which
takes minutes.

Of each entry the place, the depth and the tag are compared, and of each attribute the name, the form and the value,
where llvm-dwarfdump prints it as a number. llvm-dwarfdump prints names, dw_unit numbers: over all files each name must
go with one number and each number with one name. Each value that is a number in the entry must also be what stands at
the attribute's place, in as many bytes as it says.
"""
import argparse
import os
import re
import shutil
import subprocess
import sys
import tempfile

ROOT = os.path.dirname(os.path.dirname(os.path.abspath(__file__)))
MAIN = r'''//! Prints the debugging entries of a file: a line for each entry, and one for each of its attributes.
#![tactic(auto)]

use dw_unit::{Attr, Entry, units};
use elf_image::read;
use rb_bytes::fault::NoMemory;
use rb_bytes::text::{put_decimal, put_hex};
use rb_io::{Files, HostFiles, HostSink, ReadAll, print_all};
use std::alloc::Global;
use std::env;
use std::process::ExitCode;

fn put_number(out: &mut Vec<u8>, number: u64) -> Result<(), NoMemory> {
    out.push(b' ')?;
    put_decimal(out, number)
}

fn put_attr(out: &mut Vec<u8>, attr: &Attr) -> Result<(), NoMemory> {
    out.push(b'A')?;
    put_number(out, attr.name)?;
    put_number(out, attr.form)?;
    put_number(out, attr.place)?;
    put_number(out, attr.len)?;
    put_number(out, attr.value)?;
    out.push(b'\n')?;
    Ok(())
}

fn put_entry(out: &mut Vec<u8>, entry: &Entry) -> Result<(), NoMemory> {
    out.push(b'E')?;
    put_number(out, entry.place)?;
    put_number(out, entry.unit)?;
    put_number(out, entry.depth as u64)?;
    put_number(out, entry.tag)?;
    out.push(b'\n')?;
    for attr in &entry.attrs {
        put_attr(out, attr)?;
    }
    Ok(())
}

fn put_entries(out: &mut Vec<u8>, entries: &[Entry]) -> Result<(), NoMemory> {
    for entry in entries {
        put_entry(out, entry)?;
    }
    Ok(())
}

// A line with 0 behind a file's entries; with 1 where it can't be read, 2 where its units are refused, 3 where memory is
// wanting.
fn listed(alloc: Global, file: &[u8], out: &mut Vec<u8>) -> u8 {
    let Ok(elf) = read(alloc, file) else {
        return 1;
    };
    let Ok(entries) = units(alloc, &elf) else {
        return 2;
    };
    match put_entries(out, &entries) {
        Ok(()) => 0,
        Err(_) => 3,
    }
}

fn put_file(alloc: Global, file: &[u8], out: &mut Vec<u8>) -> Result<(), NoMemory> {
    let code = listed(alloc, file, out);
    out.push(b'F')?;
    put_number(out, code as u64)?;
    out.push(b'\n')?;
    Ok(())
}

fn main(rt: HostRuntime) -> ExitCode {
    let Ok(given) = env::args(&rt) else {
        return ExitCode::from(3);
    };
    let mut files = HostFiles::new(&rt);
    let mut file = Vec::new(rt.alloc());
    let mut sink = HostSink::new(rt.stdout());
    for name in given.skip(1) {
        if files.read_all(&name, 1 << 26, &mut file) != ReadAll::Done {
            return ExitCode::from(4);
        }
        let mut out = Vec::new(rt.alloc());
        if put_file(rt.alloc(), &file, &mut out).is_err() {
            return ExitCode::from(3);
        }
        print_all(&mut sink, &out);
    }
    ExitCode::SUCCESS
}
'''

CRATES = "rb_io rb_bytes rb_lanes rv_code rv_decode elf_image elf_code addr_map answer_runs table_core dw_unit".split()

C = """
struct point { int x; long y; const char *name; };
enum kind { RED, GREEN = 300 };
union both { int number; char bytes[4]; };
static inline int square(int v) { return v * v; }
int table[4];
_Thread_local long counter;
double weights[2][3];
__attribute__((noinline)) int add(int a, struct point *p)
{
    union both b = { .number = a };
    for (int i = 0; i < a; i++) {
        int t = square(i) + b.bytes[i & 3];
        table[i & 3] += t;
        p->x += t;
    }
    return p->x;
}
int call(int (*f)(int, struct point *), struct point *p) { return f(3, p) + f(4, p); }
int main(void)
{
    struct point p = { 1, 2, "p" };
    enum kind k = GREEN;
    weights[1][2] = table[0];
    return add(3, &p) + call(add, &p) + (int)k;
}
void _start(void) { main(); for (;;) ; }
"""

CXX = """
namespace shapes {
struct shape { virtual int area() const = 0; int id; };
template <typename T, int N> struct box : shape {
    T items[N];
    int area() const override { int sum = 0; for (int i = 0; i < N; i++) sum += items[i]; return sum; }
};
enum class color : unsigned char { red, blue = 7 };
}
using namespace shapes;
static int counted;
template <typename F> int twice(F f) { return f(1) + f(2); }
int total(const shape &s, color c) { counted++; return s.area() + static_cast<int>(c); }
extern "C" int main()
{
    box<int, 4> b;
    for (int i = 0; i < 4; i++) b.items[i] = i;
    int &first = b.items[0];
    first += twice([&](int n) { return n * b.items[1]; });
    return total(b, color::blue);
}
extern "C" void _start() { main(); for (;;) ; }
extern "C" void __cxa_pure_virtual() { for (;;) ; }
namespace __cxxabiv1 { struct __class_type_info { virtual void f(); }; void __class_type_info::f() {} }
"""


def compiled(folder):
    """Files of both compilers, with debugging information of many kinds."""
    made = []
    texts = {"c.c": C, "cxx.cc": CXX}
    for name, text in texts.items():
        with open(os.path.join(folder, name), "w", encoding="utf-8") as file:
            file.write(text)
    loose = "-nostdlib -Wl,--unresolved-symbols=ignore-all".split()
    abi = ["-march=rv64imac", "-mabi=lp64"]
    gcc = ["riscv64-unknown-elf-gcc", "-ffreestanding", "-gdwarf-5", *abi, *loose]
    clang = ["clang", "--target=riscv64-unknown-elf", *abi, "-ffreestanding", "-gdwarf-5", "-c"]
    link = ["riscv64-unknown-elf-gcc", *abi, *loose]
    for source in texts:
        more = ["-fno-exceptions", "-fno-rtti"] if source.endswith("cc") else []
        for level in "-O0 -O1 -O2 -O3 -Os".split():
            for debug in ("-g", "-g3", "-g -fdebug-types-section"):
                path = os.path.join(folder, f"gcc-{source}{level}{debug}".replace(" ", ""))
                words = gcc + more + [level, *debug.split(), "-o", path, os.path.join(folder, source)]
                subprocess.run(words, check=True)
                made.append(path)
                path = os.path.join(folder, f"clang-{source}{level}{debug}".replace(" ", ""))
                words = clang + more + [level, *debug.split(), "-o", path + ".o", os.path.join(folder, source)]
                subprocess.run(words, check=True)
                subprocess.run(link + ["-o", path, path + ".o"], check=True)
                made.append(path)
    return made


def lister(folder):
    """A copy of the crates below dw_unit, with the program that lists entries; how it is run."""
    crates = os.path.join(folder, "crates")
    os.makedirs(os.path.join(crates, "debug_entries", "src"))
    with open(os.path.join(ROOT, "crates.txt"), encoding="utf-8") as file:
        lines = [line for line in file if line.split(":")[0] in CRATES]
    with open(os.path.join(folder, "crates.txt"), "w", encoding="utf-8") as file:
        file.writelines(lines + ["debug_entries: dw_unit elf_image rb_bytes rb_io\n"])
    with open(os.path.join(folder, "HANDLES"), "w", encoding="utf-8") as file:
        file.write("Handles allowed: none.\n")
    for crate in CRATES:
        shutil.copytree(os.path.join(ROOT, "crates", crate), os.path.join(crates, crate))
    with open(os.path.join(crates, "debug_entries", "src", "main.rt"), "w", encoding="utf-8") as file:
        file.write(MAIN)
    return os.path.join(crates, "debug_entries")


def ours(place, paths):
    """Of each file the entries as dw_unit lists them: place, unit, depth and tag, and the attributes."""
    done = subprocess.run(["rt", "try", "--steps", "20000000000", "--seconds", "1500", "--", *paths], cwd=place, stdout=subprocess.PIPE, check=False)
    files, entries = [], []
    for line in done.stdout.decode().splitlines():
        kind, *numbers = line.split()
        if kind == "E":
            entries.append((tuple(map(int, numbers)), []))
        elif kind == "A":
            entries[-1][1].append(tuple(map(int, numbers)))
        elif kind == "F":
            files.append((entries, int(numbers[0])))
            entries = []
    if len(files) != len(paths) or done.returncode:
        sys.exit(f"the program that lists entries ends with {done.returncode} after {len(files)} files")
    return files


ENTRY = re.compile(r"^0x([0-9a-f]+): ( *)(DW_TAG_\w+) ")
ATTR = re.compile(r"^ +(DW_AT_\w+) \[(DW_FORM_\w+)\]\t\((.*)")
UNIT = re.compile(r"^0x([0-9a-f]+): (?:Compile|Type|Partial) Unit")
VALUES = [
    re.compile(r"^ *\.debug_(?:line_)?str\[0x([0-9a-f]+)\]"),
    re.compile(r"^indexed \((?:0x)?([0-9a-f]+)\)"),
    re.compile(r"^cu \+ 0x([0-9a-f]+) "),
    re.compile(r"^0x([0-9a-f]+)(?![0-9a-f\]:])"),
]


def theirs(path):
    """The same of llvm-dwarfdump: unit, place, depth, tag, and of each attribute the name, the form and the text."""
    text = subprocess.run(["llvm-dwarfdump", "-v", "--debug-info", path], stdout=subprocess.PIPE, check=True).stdout.decode()
    entries, unit = [], None
    for line in text.splitlines():
        if found := UNIT.match(line):
            unit = int(found[1], 16)
        elif found := ENTRY.match(line):
            entries.append(((int(found[1], 16), unit, len(found[2]) // 2, found[3]), []))
        elif found := ATTR.match(line):
            entries[-1][1].append((found[1], found[2], found[3]))
    return entries


def number_of(form, text):
    """The number that a value is, if it is printed as one."""
    if form == "DW_FORM_flag":
        return 1 if text.startswith(("0x01", "true")) else 0
    for pattern in VALUES:
        if found := pattern.match(text):
            return int(found[1], 16)
    if found := re.match(r"^(-?\d+)\)$", text):
        return int(found[1]) % 2**64
    return None


def info_of(path):
    """The contents of .debug_info."""
    with tempfile.NamedTemporaryFile() as file:
        subprocess.run(["llvm-objcopy", f"--dump-section=.debug_info={file.name}", path, "/dev/null"], check=True)
        return open(file.name, "rb").read()


class Names:
    """Which number goes with which name."""

    def __init__(self):
        self.by_name, self.by_number = {}, {}

    def agree(self, kind, name, number):
        return self.by_name.setdefault((kind, name), number) == number and self.by_number.setdefault((kind, number), name) == name


# forms of bytes, and one whose entries have no bytes: their value is 0
NO_NUMBERS = {f"DW_FORM_{name}" for name in "block block1 block2 block4 exprloc string data16 flag_present".split()}
LEBS = {f"DW_FORM_{name}" for name in "udata sdata ref_udata strx addrx loclistx rnglistx".split()}


def compare(mine, other, info, names):
    """What differs first, and how many attributes were compared, and how many values."""
    if len(mine) != len(other):
        return f"{len(mine)} entries, and {len(other)}", 0, 0
    attrs, values = 0, 0
    for (own, own_attrs), (place, attrs2) in zip(mine, other):
        if own[:3] != place[:3] or not names.agree("tag", place[3], own[3]):
            return f"entry {own} and {place}", attrs, values
        if len(own_attrs) != len(attrs2):
            return f"entry {own}: {len(own_attrs)} attributes, and {len(attrs2)}", attrs, values
        for (name, form, at, size, value), (name2, form2, text) in zip(own_attrs, attrs2):
            attrs += 1
            if not names.agree("attribute", name2, name) or not names.agree("form", form2, form):
                return f"entry {own}: attribute {name:x} {form:x} and {name2} {form2}", attrs, values
            if form2 in NO_NUMBERS:
                if value:
                    return f"entry {own}: {name2} {form2} has the value {value}", attrs, values
                continue
            if form2 not in LEBS and size and int.from_bytes(info[at : at + size], "little") != value:
                return f"entry {own}: {name2} at {at} isn't {value}", attrs, values
            number = number_of(form2, text)
            if number is not None and not (name2 == "DW_AT_high_pc" and form2 != "DW_FORM_addr"):
                values += 1
                if number != value:
                    return f"entry {own}: {name2} {form2} is {value}, and {text}", attrs, values
    return None, attrs, values


def main():
    parser = argparse.ArgumentParser()
    parser.add_argument("files", nargs="*")
    given = parser.parse_args()
    names, bad = Names(), 0
    with tempfile.TemporaryDirectory() as folder:
        place = lister(os.path.join(folder, "copy"))
        os.makedirs(os.path.join(folder, "files"))
        paths = [os.path.abspath(path) for path in given.files or compiled(os.path.join(folder, "files"))]
        for path, (mine, code) in zip(paths, ours(place, paths)):
            trouble, attrs, values = compare(mine, theirs(path), info_of(path), names)
            trouble = f"ends with {code}" if code else trouble
            bad += trouble is not None
            print(f"{os.path.basename(path)}: {len(mine)} entries, {attrs} attributes, {values} values: {trouble or 'the same'}", flush=True)
    sys.exit(bad > 0)


if __name__ == "__main__":
    main()
