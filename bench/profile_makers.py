#!/usr/bin/env python3
"""How fast profiles are made, and how good those of samples are.

    python3 bench/profile_makers.py [--tool COMMAND] [--sources FOLDER] [--keep FOLDER] [--seed NUMBER] times|samples
        [PROGRAM..]

`times` gives of a run of each program, with words that make it long, the seconds of the processor that it takes under
`qemu-riscv64` alone, by `record`, and by `tools/qemu_profile.py` as a whole, and whether both profiles are the same.

`samples` takes the address of an instruction of a run every so often, at distances that vary by half, as a counter of
instructions would, and makes a profile of these by `tools/sample_profile.py`. Another NUMBER takes other samples. A
line has how often control went elsewhere than on in the program, in that moved by the profile of all branches, and in
those moved by samples; but for the first, the second number is without branches that are taken around a jump to code
which is too far away.

The programs are those of `examples/`, and those of Debian's packages if FOLDER has their sources (packages.py), built
by GCC at -O2. It wants qemu-user, GCC and picolibc.
"""
import argparse
import os
import random
import re
import subprocess
import sys
import tempfile

from packages import PACKAGES
from profiles import built, follow, spent, want
from real_programs import NO_COMPILER, ROOT, compilers
from report_files import Builder

from program_graph import BRANCH, JUMP, Elf  # of tools/
from qemu_trace import QEMU, trace_run

TOOLS = os.path.join(ROOT, "tools")
LONG = {"sorting": "1500", "interpreter": "60000", "shapes": "40000", "packing": "400000"}
SAMPLED = {"sorting": "150", "interpreter": "1600", "shapes": "1000", "packing": "40000", "words": "2000"}
STEPS = ["--steps", "100000000000"]
SAMPLES = (50_000, 5_000, 500)
AROUND = 8  # bytes of a branch and the jump that it goes around


def sampled(path, words, given, counts, seed=7):
    """For each of some counts about as many addresses of a run's instructions, in order."""
    with tempfile.TemporaryFile() as file:
        file.write(given)
        file.seek(0)
        steps = trace_run([path, *words], stdin=file, stdout=subprocess.DEVNULL)[1].instructions()
    dice = random.Random(seed)
    samplers = [[max(steps // count, 2), 1, []] for count in counts]

    def go(address):
        for sampler in samplers:
            sampler[1] -= 1
            if sampler[1] == 0:
                sampler[1] = dice.randint(sampler[0] // 2, sampler[0] * 3 // 2)
                sampler[2].append(address)

    follow(path, words, go, given)
    return [found for _, _, found in samplers]


def taken(path, words, given):
    """How often control goes elsewhere than on in a run, and that without branches around an added jump."""
    with tempfile.TemporaryFile() as file:
        file.write(given)
        file.seek(0)
        trace = trace_run([path, *words], stdin=file, stdout=subprocess.DEVNULL)[1]
    elf = Elf(path)
    every = trace.taken(elf)
    around = sum(count for (start, end), count in trace.transfers.items()
                 if end == start + AROUND and elf.kind(start) == BRANCH and elf.size(start) == 4
                 and elf.kind(start + 4) == JUMP and elf.size(start + 4) == 4)
    return every, every - around


class Makers:
    """Programs, and what is measured of them."""

    def __init__(self, tool, folder, sources, seed):
        self.tool, self.folder, self.sources, self.seed = tool, folder, sources, seed
        self.builder = Builder(folder, sources or folder)

    def path(self, name):
        """A file of the folder."""
        return os.path.join(self.folder, name)

    def program(self, name, words):
        """A program that is built, its arguments and its standard input."""
        self.builder.build(self.path(name), name, "gcc", "bare", "-O2")
        if name in PACKAGES:
            return self.path(name), PACKAGES[name].words, PACKAGES[name].input(self.sources)
        return self.path(name), [words[name]], b""

    def script(self, name, *words):
        """The command of a script of tools/."""
        return [sys.executable, os.path.join(TOOLS, name), "--tool", " ".join(self.tool), *words]

    def times(self, name):
        """Measures how long profiles take to be made."""
        path, words, given = self.program(name, LONG)
        with open(self.path("input"), "wb") as file:
            file.write(given)
        recorded, made = self.path("recorded"), self.path("made")
        took = [self.seconds(command) for command in (
            [QEMU, path, *words], [*self.tool, "record", *STEPS, path, recorded, "--", *words],
            self.script("qemu_profile.py", path, made, *words))]
        with open(recorded, "rb") as one, open(made, "rb") as other, open(self.path("errors"), "rb") as said:
            steps = int(re.search(rb"after (\d+) steps", said.read())[1])
            same = "the same" if one.read() == other.read() else "OTHER PROFILES"
        print(f"| {name} {' '.join(words)} | {steps / 1e6:,.1f} | {' | '.join(f'{seconds:.2f}' for seconds in took)} | "
              f"{same} |", flush=True)

    def seconds(self, command):
        """The seconds of the processor of a command that gets the program's input."""
        with open(self.path("input"), "rb") as file, open(self.path("errors"), "wb") as errors:
            return spent(command, stdin=file, stdout=subprocess.DEVNULL, stderr=errors).seconds

    def moved(self, path, profile):
        """A program that is moved by a profile."""
        moved = self.path("moved")
        subprocess.run([*self.tool, "rewrite", path, profile, moved, self.path("map")], stdout=subprocess.DEVNULL,
                       check=True)
        return moved

    def samples(self, name):
        """Measures layouts by samples."""
        path, words, given = self.program(name, SAMPLED)
        profile = self.path("profile")
        subprocess.run([*self.tool, "record", *STEPS, path, profile, "--", *words], input=given,
                       stdout=subprocess.DEVNULL, check=False)
        cells = [f"{taken(path, words, given)[0]:,}", shown(taken(self.moved(path, profile), words, given))]
        for found in sampled(path, words, given, SAMPLES, self.seed):
            text = "".join(f"{address:16x}\n" for address in found)
            subprocess.run(self.script("sample_profile.py", path, profile), input=text, text=True,
                           stdout=subprocess.DEVNULL, check=True)
            cells.append(f"{len(found):,}: {shown(taken(self.moved(path, profile), words, given))}")
        print(f"| {name} {' '.join(words)} | {' | '.join(cells)} |", flush=True)


def shown(counts):
    """Two counts."""
    return " / ".join(f"{count:,}" for count in counts)


def main():
    words = argparse.ArgumentParser(description="measures what makes profiles")
    words.add_argument("--tool", default=os.path.join(ROOT, "sudrepka"), help="the command that takes `rewrite ..`")
    words.add_argument("--sources", help="where the sources of packages are")
    words.add_argument("--keep", help="a folder for what is built")
    words.add_argument("--seed", type=int, default=7, help="by which samples are taken (7)")
    words.add_argument("what", choices=["times", "samples"])
    words.add_argument("programs", metavar="PROGRAM", nargs="*")
    given = words.parse_args()
    want(QEMU)
    if not compilers():
        sys.exit(NO_COMPILER)
    with tempfile.TemporaryDirectory() as room:
        folder = os.path.abspath(given.keep or room)
        os.makedirs(folder, exist_ok=True)
        makers = Makers(built(given.tool), folder, given.sources, given.seed)
        own = LONG if given.what == "times" else SAMPLED
        for name in given.programs or [*own, *(PACKAGES if given.sources else ())]:
            getattr(makers, given.what)(name)


if __name__ == "__main__":
    main()
