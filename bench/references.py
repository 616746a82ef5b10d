#!/usr/bin/env python3
"""Seconds and memory that the code of a file takes to read, for files of growing size.

    python3 bench/references.py [RUNS]

No command of the program says how long each of its steps takes, so the script puts a small program into a temporary
folder, beside copies of the crates that it stands on, proves it by `rt`, which takes some minutes where they are new,
and runs it. The files have 1, 2, 4 and 8 million instructions, 40 a function, and half as many relocations: for calls, branches,
jumps, upper and lower parts of addresses, addresses of code in data, and differences of labels as switch tables have
them. Each line has the medians of the runs, in seconds: to read the headers and symbols, and to find the starts of
instructions, the references and the functions; then the seconds of all four, and the MiB of the whole process, for each
million instructions. Neither of these two may grow by more than 15 % from one file to the next.
"""
import os
import shutil
import statistics
import subprocess
import sys
import tempfile

from profiles import spent
from rewrite import INSTRUCTIONS, OF_FILE, ROOT, write_file

PROGRAM, LIBRARIES = "references_bench", ["elf_image", "rv_reloc", "func_find"]
FILES = {
    "src/main.rt": """//! How fast the code of a file is read.
#![tactic(auto)]

ghost use Rattle.rv_reloc.specs.Refs.{IsRead};

use elf_image::{Elf, read};
use func_find::functions;
use rv_reloc::{references, starts};
use std::time::Instant;
use std::{env, fs};

fn milliseconds(rt: &HostRuntime, start: Instant) -> Result<u128, anyhow::Error> {
    Ok(start.elapsed(rt)?.as_millis())
}

fn read_code(rt: &HostRuntime, elf: &Elf) -> Result<(), anyhow::Error>
    requires { IsRead elf.now }
{
    let start = Instant::now(rt)?;
    let starts = starts(rt.alloc(), elf)?;
    println!(rt; "starts {} {}", milliseconds(rt, start)?, starts.len())?;
    let start = Instant::now(rt)?;
    let refs = references(rt.alloc(), elf, &starts, &[])?;
    println!(rt;
        "references {} {}",
        milliseconds(rt, start)?,
        refs.roles.len() + refs.cells.len()
    )?;
    let start = Instant::now(rt)?;
    let funcs = functions(rt.alloc(), elf, &starts, &refs, &[])?;
    println!(rt; "functions {} {}", milliseconds(rt, start)?, funcs.len())?;
    Ok(())
}

fn main(rt: HostRuntime) -> Result<(), anyhow::Error> {
    for name in env::args(&rt)?.skip(1) {
        let file = fs::read(&rt, &name)?;
        let start = Instant::now(&rt)?;
        let elf = read(rt.alloc(), &file)?;
        println!(rt; "read {} {}", milliseconds(&rt, start)?, elf.symbols.len())?;
        read_code(&rt, &elf)?;
    }
    Ok(())
}
""",
}


def crates_below(names):
    """These crates and all of the repository below them, each with what it stands on."""
    with open(os.path.join(ROOT, "crates.txt"), encoding="utf-8") as file:
        uses = {line.split(":")[0]: line.split(":")[1].split() for line in file if ":" in line and line[0] != "#"}
    found, left = {}, list(names)
    while left:
        name = left.pop()
        if name in uses and name not in found:
            found[name] = uses[name]
            left += uses[name]
    return found


def build(folder, program, libraries, files):
    """Makes a program over some libraries in a folder, and gives its path. Where it isn't proved the script ends, since
    an older one may be there."""
    crates = os.path.join(folder, "crates")
    below = crates_below(libraries)
    for name in below:
        source, copy = os.path.join(ROOT, "crates", name), os.path.join(crates, name)
        shutil.copytree(source, copy, ignore=shutil.ignore_patterns("out"), dirs_exist_ok=True)
    below[program] = [*below, "anyhow"]
    with open(os.path.join(folder, "crates.txt"), "w", encoding="utf-8") as file:
        file.writelines(f"{name}: {' '.join(uses)}\n" for name, uses in below.items())
    home = os.path.join(crates, program)
    for name, text in files.items():
        path = os.path.join(home, name)
        os.makedirs(os.path.dirname(path), exist_ok=True)
        with open(path, "w", encoding="utf-8") as file:
            file.write(text)
    done = subprocess.run(["rt", "run", "--jobs", "1"], cwd=home, check=False, text=True, errors="replace",
                          stdout=subprocess.PIPE, stderr=subprocess.STDOUT)
    if done.returncode != 0:
        sys.exit(f"{done.stdout[-3000:]}\n{program} was not proved")
    return os.path.join(home, "out", program)


def measure(program, path, runs, functions):
    """The medians of the seconds by what was done, and the peak memory in MiB, for a file of so many functions."""
    wanted = {"read": 3 * functions + 2, "starts": INSTRUCTIONS * functions, "references": 17 * functions, "functions": functions}
    seconds, peak = {}, 0
    for _ in range(runs):
        counts = {}
        with tempfile.TemporaryFile("w+") as printed:
            took = spent([program, path], stdout=printed)
            printed.seek(0)
            for line in printed:
                what, milliseconds, count = line.split()
                seconds.setdefault(what, []).append(int(milliseconds) / 1000)
                counts[what] = int(count)
        if counts != wanted:
            sys.exit(f"found {counts}, but the file has {wanted}")
        peak = max(peak, took.peak)
    return {what: statistics.median(times) for what, times in seconds.items()}, peak


def main():
    runs = int(sys.argv[1]) if len(sys.argv) > 1 else 3
    with tempfile.TemporaryDirectory() as folder:
        program = build(folder, PROGRAM, LIBRARIES, FILES)
        path = os.path.join(folder, "file")
        for millions in (1, 2, 4, 8):
            functions = write_file(path, millions * 1_000_000 // INSTRUCTIONS * OF_FILE)
            seconds, peak = measure(program, path, runs, functions)
            parts = "  ".join(f"{what} {time:.2f}" for what, time in seconds.items())
            each = sum(seconds.values()) / millions
            print(f"{millions} million: {parts}  a million: {each:.2f} s {peak / millions:.0f} MiB", flush=True)


if __name__ == "__main__":
    main()
