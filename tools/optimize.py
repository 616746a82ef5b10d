#!/usr/bin/env python3
"""Moves a program's code by the profile of a run, judges what came out, and says what was won.

    python3 tools/optimize.py [--tool COMMAND] [--profile FILE | --samples FILE | --by record] [--no-mend] [--no-refine]
        [--strict] [--keep FOLDER] IN OUT [WORDS..]

IN is a linked program, which runs with WORDS as its arguments and with standard input, if that is no terminal. What
came out is OUT, and OUT.map with a line for each instruction; both are written only if all steps were done. Each step
prints a line with its seconds:

mend      a copy of IN is mended, as tools/mend.py does it
read      the tool reads the copy, and refuses what it can't rewrite
run       the copy runs under `qemu-riscv64`, which counts its branches, as tools/qemu_profile.py does it
check     `record` runs it on the tool's own machine, and `run --symbols` follows that run to its end. Only if `record`
          and qemu count the same branches is this the same run, and only then is said that what is proved holds of it
profile   the counts of qemu; or those of FILE with --profile, or of samples of the program counter in FILE with
          --samples, as tools/sample_profile.py takes them; or with --by record those of `record`
refine    the profile is refined, as tools/refine.py does it
rewrite   the copy is rewritten by the profile
verify    `verify` judges OUT
alike     OUT runs as the copy did, and has to print the same and end alike
won       instructions, transfers of control taken, and lines and pages of code touched, before and after

With --by record no step wants qemu-user: the tool's own machine runs the program in place of qemu. With --strict it
fails if the check is in doubt. FOLDER gets the mended copy (`program`), which `verify` wants beside OUT and OUT.map,
and the profile before and after it was refined (`profile`, `refined`), if all went well. The status is 0 then, and
else 1 with a line on standard error. The program runs four times, so what it writes to files, it writes each time.
"""
import argparse
import contextlib
import os
import re
import shutil
import subprocess
import sys
import tempfile
import time
import typing

from mend import mend
from program_graph import (HERE, Elf, Failure, Graph, add_tool_option, call_tool, find_tool, program_words, run_script,
                           written_whole)
from qemu_trace import QEMU, trace_run, want_qemu
from refine import is_refined
from sample_profile import write_sampled
from steps import Step

LINE, PAGE = 64, 4096
STEPS_A_SECOND = 25_000_000  # of the tool's machine, for the bar alone
MORE_STEPS = 10_000  # that a run on the tool's machine may take beyond those of qemu
MOST_STEPS = 1_000_000_000_000  # if it isn't known how many it takes
REFINE = os.path.join(HERE, "refine.py")


class Run(typing.NamedTuple):
    """How a run ended, what it printed, what the tool said of it, and what was counted by qemu."""

    status: int
    printed: bytes
    said: str = ""
    trace: typing.Any = None

    def is_like(self, other):
        """Whether both printed the same and ended alike."""
        return (self.status, self.printed) == (other.status, other.printed)

    def ended(self):
        """How it ended, in words."""
        return f"status {self.status}, {len(self.printed)} bytes of output"


class Machines:
    """Runs programs with the same arguments and standard input, under qemu and on the tool's machine."""

    def __init__(self, tool, words, given):
        self.tool, self.words, self.given = tool, words, given

    def qemu(self, path):
        """A run under qemu, with the name that a program has on the tool's machine. It may not end by a signal."""
        with open(self.given, "rb") as given, tempfile.TemporaryFile() as out, tempfile.TemporaryFile() as errors:
            status, trace = trace_run(["-0", "program", path, *self.words], stdin=given, stdout=out, stderr=errors)
            out.seek(0)
            errors.seek(0)
            if status < 0 or not trace.runs:
                sys.stderr.write(errors.read().decode(errors="replace"))
            if status < 0:
                raise Failure(f"the program ended by signal {-status}")
            if not trace.runs:
                raise Failure(f"{QEMU} ended with {status}, and didn't run the program")
            return Run(status, out.read(), trace=trace)

    def own(self, command, path, *names, steps=MOST_STEPS, options=()):
        """A run by a command of the tool."""
        words = [*self.tool, command, *options, "--steps", str(steps), path, *names]
        with open(self.given, "rb") as given:
            done = subprocess.run([*words, "--", *self.words] if self.words else words, stdin=given,
                                  stdout=subprocess.PIPE, stderr=subprocess.DEVNULL, check=False)
        printed = done.stdout
        at = printed.rfind(b"[") if printed.endswith(b"]\n") else len(printed)
        said = printed[at:].decode(errors="replace").strip()
        if not said:
            raise Failure(printed.decode(errors="replace").strip().rpartition("\n")[2] or
                          f"{command} ended with {done.returncode}")
        return Run(done.returncode, printed[:at], said)


class Optimizer:
    """The files of all steps, and what was found so far."""

    def __init__(self, given, tool, folder, machines):
        self.given, self.tool, self.machines = given, tool, machines
        self.program, self.profile, self.refined, self.moved, self.map, self.spare = (
            os.path.join(folder, name) for name in ("program", "profile", "refined", "moved", "moved.map", "spare"))
        self.layout = self.profile  # the profile by which the code is moved
        self.graph = self.before = self.after = None
        self.without = []  # options of refine.py

    def prepare(self):
        """Mends a copy, and lets the tool read it, before anything runs."""
        with Step("mend") as step:
            Elf(self.given.file)
            shutil.copy(self.given.file, self.program)
            os.chmod(self.program, 0o755)
            step.say(self.mended())
        with Step("read") as step:
            call_tool(self.tool, "rewrite", self.program, os.devnull, self.moved, self.map)
            self.graph = Graph(self.tool, self.program)
            count = len({block.function for block in self.graph.blocks.values()})
            step.say(f"{count} functions, {len(self.graph.blocks)} blocks, {len(self.graph.edges)} edges")

    def mended(self):
        """Mends the copy, and says what."""
        if self.given.no_mend:
            return "not asked for"
        try:
            return mend(self.program) or "nothing to mend"
        except (Failure, SystemExit):
            raise Failure(f"the tables of {self.given.file} are damaged; --no-mend leaves them alone") from None

    def run(self):
        """Runs the copy, and counts its branches."""
        with Step("run") as step:
            if self.given.by == "record":
                self.before = self.machines.own("record", self.program, self.profile)
                self.want_end(self.before)
                step.say(f"{self.before.said}: {self.before.ended()}")
            else:
                self.before = self.machines.qemu(self.program)
                steps = self.before.trace.instructions()
                self.graph.write_profile(self.profile, self.before.trace.profile(self.graph))
                way = ", counted by qemu's log, since there is no plugin" if self.before.trace.is_logged else ""
                step.say(f"{steps:,} instructions: {self.before.ended()}{way}")

    def want_end(self, run):
        """Fails if a run on the tool's machine didn't end by itself."""
        if not run.said.startswith("[ended"):
            raise Failure(f"{run.said}: the program doesn't run on the tool's machine; without --by record it runs "
                          f"under {QEMU}")

    def check(self):
        """Says whether what is proved holds of this run."""
        with Step("check") as step:
            trusted, text = self.judged_run(step)
            if not trusted and self.given.strict:
                raise Failure(text)
            step.say(text)

    def judged_run(self, step):
        """Whether what is proved holds of this run, and why."""
        steps, seconds, machine = MOST_STEPS, None, "the tool's machine"
        if self.before.trace:
            steps = self.before.trace.instructions() + MORE_STEPS
            step.expect(2 * steps / STEPS_A_SECOND)
            began = time.monotonic()
            recorded = self.machines.own("record", self.program, self.spare, steps=steps)
            seconds, machine = time.monotonic() - began, f"{QEMU} too, which counts the same branches"
            if not recorded.is_like(self.before) or not is_same_file(self.spare, self.profile):
                return False, (f"{recorded.said} on the tool's machine, and {QEMU} counts other branches: the program "
                               "uses more of the system than read, write, exit and brk, so nothing is proved of this "
                               "run, and only the tests below speak for OUT")
        if seconds:
            step.expect(seconds)
        followed = self.machines.own("run", self.program, steps=steps, options=["--symbols"])
        if stuck := re.match(r"\[stuck (\w+) at ([0-9a-f]+)", followed.said):
            return False, self.stuck(followed.said, *stuck.groups())
        if not followed.is_like(self.before):
            raise Failure(f"{followed.said} with symbols, where the run ended with {self.before.status}")
        return True, f"{followed.said}: what is proved holds of this run, on {machine}"

    def stuck(self, said, reason, address):
        """Tells where the symbol machine is stuck. A function that computes with code addresses isn't refined."""
        place = call_tool(self.tool, "frames", self.program, address).splitlines()[0]
        block = self.graph.owner.get(int(address, 16))
        name = place if place != "none" else self.graph.elf.names.get(block.function, "") if block else ""
        if reason == "Operate":
            self.without = ["--without", f"@{address}"]
        return (f"{said}{' in ' if name else ''}{name}: nothing is proved of what comes after that; \"Stuck runs\" in "
                "docs/REFERENCE.md has cause and cure")

    def take_profile(self):
        """Takes the profile by which the code is moved, and refines it."""
        with Step("profile") as step:
            if self.given.samples:
                with open(self.given.samples, encoding="utf-8", errors="replace") as lines:
                    step.say(write_sampled(self.tool, self.program, self.graph, lines, self.profile))
            elif self.given.profile:
                shutil.copyfile(self.given.profile, self.profile)
                step.say(self.fitting(self.given.profile))
            else:
                step.say(self.fitting("the run's profile"))

    def refine(self):
        """Refines the profile, if that is asked for and wasn't done before."""
        if self.given.no_refine or is_refined(self.profile):
            return
        with Step("refine") as step:
            command = [sys.executable, REFINE, "--tool", " ".join(self.tool), *self.without, self.program, self.profile,
                       self.refined]
            done = subprocess.run(command, stdin=subprocess.DEVNULL, capture_output=True, text=True, check=False)
            if done.returncode != 0:
                raise Failure(done.stderr.strip().rpartition("\n")[2] or f"refine.py ended with {done.returncode}")
            step.say(done.stdout.strip().rpartition("\n")[2])
            self.layout = self.refined

    def fitting(self, name):
        """Says what a profile has. It has to be one of this program."""
        counts, unfit = self.graph.read_profile(self.profile)
        with open(self.profile, "rb") as file:
            lines = sum(1 for _ in file)
        if not lines:
            raise Failure(f"{name} is empty")
        if 2 * unfit > lines:
            raise Failure(f"{unfit} of {lines} lines of {name} name no instructions of {self.given.file}: it is of "
                          "another program")
        ignored = f", {unfit} lines that don't fit" if unfit else ""
        return f"{len(counts)} pairs of instructions, {sum(counts.values()):,} transfers{ignored}"

    def move(self):
        """Rewrites the copy, and has the output judged."""
        with Step("rewrite") as step:
            step.say(call_tool(self.tool, "rewrite", self.program, self.layout, self.moved, self.map).strip())
            os.chmod(self.moved, 0o755)
        with Step("verify") as step:
            step.say(call_tool(self.tool, "verify", self.program, self.moved, self.map).strip())

    def compare(self):
        """Runs the output, and says what was won."""
        with Step("alike") as step:
            if self.before.trace:
                self.after = self.machines.qemu(self.moved)
            else:
                self.after = self.machines.own("run", self.moved)
                self.want_end(self.after)
            if not self.after.is_like(self.before):
                raise Failure(f"OUT would run otherwise: {self.before.ended()} before, {self.after.ended()} after; "
                              "does the program print a time or an address, or read what it wrote in the run before?")
            step.say(self.after.ended())
        with Step("won") as step:
            step.say("; ".join(change(*row) for row in self.figures()))

    def figures(self):
        """What is counted of both runs: a name, and the figures before and after."""
        if not self.before.trace:
            steps = (int(re.search(r"after (\d+) steps", run.said)[1]) for run in (self.before, self.after))
            return [("steps", *steps)]
        old, new = self.before.trace, self.after.trace
        return [("instructions", old.instructions(), new.instructions()),
                ("taken", old.taken(self.graph.elf), new.taken(Elf(self.moved))),
                ("lines", old.touched(LINE), new.touched(LINE)), ("pages", old.touched(PAGE), new.touched(PAGE))]

    def keep(self, folder):
        """Copies what belongs to OUT into a folder."""
        os.makedirs(folder, exist_ok=True)
        for path in {self.program, self.profile, self.layout}:
            shutil.copy(path, folder)

    def steps(self):
        """All steps, up to those that write OUT."""
        for step in (self.prepare, self.run, self.check, self.take_profile, self.refine, self.move, self.compare):
            step()


def change(name, old, new):
    """A figure before and after."""
    return f"{name} {old:,} -> {new:,}" + (f" ({100 * (new - old) / old:+.1f} %)" if old else "")


def is_same_file(one, other):
    """Whether two files hold the same bytes."""
    with open(one, "rb") as first, open(other, "rb") as second:
        return first.read() == second.read()


def arguments():
    parser = argparse.ArgumentParser(description="moves a program's code by the profile of a run, and judges it")
    add_tool_option(parser)
    source = parser.add_mutually_exclusive_group()
    source.add_argument("--profile", metavar="FILE", help="a profile that is there")
    source.add_argument("--samples", metavar="FILE", help="addresses that `perf script -F ip` printed")
    parser.add_argument("--by", choices=["qemu", "record"], default="qemu", help="what runs the program")
    parser.add_argument("--no-mend", action="store_true", help="takes IN as it is")
    parser.add_argument("--no-refine", action="store_true", help="takes the profile as it is")
    parser.add_argument("--strict", action="store_true", help="fails if the check is in doubt")
    parser.add_argument("--keep", metavar="FOLDER", help="for the mended program and the profiles")
    parser.add_argument("file", metavar="IN")
    parser.add_argument("out", metavar="OUT")
    parser.add_argument("words", metavar="WORDS", nargs=argparse.REMAINDER, help="arguments of the program")
    return parser.parse_args()


def keep_input(path):
    """Keeps standard input for all runs, if it is no terminal."""
    with open(path, "wb") as file:
        if not sys.stdin.isatty():
            shutil.copyfileobj(sys.stdin.buffer, file)


def main():
    given = arguments()
    tool = find_tool(given.tool)
    if given.by == "qemu":
        want_qemu()
    mode = os.stat(given.file).st_mode & 0o777
    with contextlib.ExitStack() as stack:
        map_draft = stack.enter_context(written_whole(given.out + ".map"))
        out_draft = stack.enter_context(written_whole(given.out, mode | 0o100))
        room = stack.enter_context(tempfile.TemporaryDirectory())
        source = os.path.join(room, "input")
        keep_input(source)
        optimizer = Optimizer(given, tool, room, Machines(tool, program_words(given.words), source))
        optimizer.steps()
        if given.keep:
            optimizer.keep(given.keep)
        shutil.copyfile(optimizer.moved, out_draft)
        shutil.copyfile(optimizer.map, map_draft)
    return 0


if __name__ == "__main__":
    run_script(main)
