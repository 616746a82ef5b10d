#!/usr/bin/env python3
"""Whether the tools that make profiles, and the one that goes the whole way, do what they promise.

    python3 checks/profile_tools.py [--tool COMMAND] [--sources FOLDER] [--keep FOLDER] [CHECK..]

counts    `qemu_profile.py`, by the plugin and by qemu's log, writes byte for byte what `record` writes, on each program
          of `examples/` by GCC and Clang; and on Debian's packages by GCC, if FOLDER has their sources
          (bench/packages.py). Its name is `program`, as under `record`. What a program does with the auxiliary vector
          isn't compared: that of qemu is another
signals   a program that a signal ends leaves its profile: one that crashes the same that `record` writes of it, and
          one that goes on until the script gets a signal
threads   what threads and a forked process do is added up, counted by calls that the text of the run demands
samples   of 5,000 samples and more `sample_profile.py` makes profiles by which control goes elsewhere than on at most
          3 % more often than by the profile of all branches, but for branches around a jump to code that is too far
          away; and it says what is wrong with its input
optimize  a program that opens and maps files, takes the time, and has a signal handler and threads, is moved, verified
          and alike; the others are, too, by qemu, by `record` and by samples
failures  each error of `optimize.py` is a sentence and a status, and leaves no file behind
bar       a bar is drawn on a terminal, and nowhere else

All of these are tried if none is named. No network is used. COMMAND stands for `./sudrepka`. It wants GCC and picolibc;
what else isn't there, as qemu-user, Clang, `cc` and lld, is named, and the checks that want it are left out. FOLDER of
--keep keeps what was built. A line for each problem says what was found, and the status is 0 if there is none.
"""
import argparse
import collections
import contextlib
import os
import pty
import random
import re
import shutil
import signal
import subprocess
import sys
import tempfile
import time

ROOT = os.path.dirname(os.path.dirname(os.path.abspath(__file__)))
sys.path.insert(0, os.path.join(ROOT, "bench"))
from packages import PACKAGES  # noqa: E402
from profile_makers import sampled, taken  # noqa: E402
from profiles import built, follow  # noqa: E402
from real_programs import (COMPILE, EXAMPLES, LINK, LONGER, MACHINE, NO_COMPILER, PICOLIBC, UNWINDING,  # noqa: E402
                           buildable, call, compilers)
from report_files import Builder  # noqa: E402

from program_graph import Elf, Graph  # noqa: E402, of tools/

TOOLS = os.path.join(ROOT, "tools")
QEMU = "qemu-riscv64"
STEPS = ["--steps", "1000000000"]
READER = "find_index"  # of examples/frame_index.c
LOGGED = 2_000_000  # steps of a run that is followed by the log too
SAMPLES, MOST_WORSE = 6000, 1.03
WORDS_OF_TEXT = 2000

CRASH = """
int main(int argc, char **argv) {
    volatile unsigned sum = 0;
    for (unsigned i = 0; i < 1000; i++) sum += i % 7 ? i : argc;
    *(volatile int *)0 = (int)sum;
    return argv == 0;
}
"""
ENDLESS = """
#include <stdio.h>
int main(void) {
    printf("on\\n");
    for (volatile unsigned i = 0;; i++) {}
}
"""
ADDRESS = """
#include <stdio.h>
int main(void) {
    printf("%lx\\n", (unsigned long)main);
    return 0;
}
"""
# main is the first function, and new code comes after the last one.
CRASHES_MOVED = """
__asm__(".text\\n.type far, @function\\nfar:\\n.rept 40000\\nnop\\n.endr\\nret\\n.size far, . - far\\n");
void far(void);
int main(int argc, char **argv) {
    if (argc > 1) far();
    if ((unsigned long)main > 0x20000) *(volatile int *)0 = 1;
    return argv == 0;
}
"""


class Checks:
    """What is tried, and the problems that were found."""

    def __init__(self, tool, folder, sources):
        self.tool, self.folder, self.sources, self.problems, self.left_out = tool, folder, sources, 0, set()
        self.builder, self.compilers = Builder(folder, sources or folder), list(compilers())

    def say(self, problem):
        """Prints a problem, and counts it."""
        print(f"    {problem}", flush=True)
        self.problems += 1

    def has(self, command, check):
        """Whether a command is there; else says that a check is left out."""
        if not shutil.which(command) and (command, check) not in self.left_out:
            self.left_out.add((command, check))
            print(f"there is no {command}, so this is left out: {check}", flush=True)
        return shutil.which(command) is not None

    def path(self, name):
        """A file of the folder."""
        return os.path.join(self.folder, name)

    def script(self, name, *words, **how):
        """Runs a script of tools/ by the same tool."""
        command = [sys.executable, os.path.join(TOOLS, name), "--tool", " ".join(self.tool), *words]
        return subprocess.run(command, capture_output=True, check=False, **{"stdin": subprocess.DEVNULL, **how})

    def example(self, program, compiler="gcc", level="-O2"):
        """A program of `examples/` or of a package, built."""
        path = self.path(f"{program}.{compiler}{level}")
        self.builder.build(path, program, compiler, "index" if program in UNWINDING else "debug", level)
        return path

    def small(self, name, text):
        """A program of one text and start.c, built by GCC."""
        path, source = self.path(name), self.path(name + ".c")
        with open(source, "w", encoding="ascii") as file:
            file.write(text)
        front, libraries = self.builder.parts["gcc"]
        call([*front, *MACHINE, *COMPILE, "-O2", "-isystem", os.path.join(PICOLIBC, "include"), "-nostdlib", *LINK,
              "-T", os.path.join(EXAMPLES, "roomy.ld"), source, os.path.join(EXAMPLES, "start.c"), *libraries,
              "-o", path])
        return path

    def record(self, path, out, words=(), given=b""):
        """A run by `record`: its status and what was printed before the last line, and that line."""
        command = [*self.tool, "record", *STEPS, path, out, *(["--", *words] if words else [])]
        done = subprocess.run(command, input=given, capture_output=True, check=False)
        at = done.stdout.rfind(b"[")
        return done.returncode, done.stdout[:at], done.stdout[at:].decode().strip()

    def counts(self):
        """Compares profiles of qemu with those of `record`."""
        if not self.has(QEMU, "counts"):
            return
        for program in buildable(sorted(LONGER)):
            for compiler in self.compilers:
                for words in ([], [LONGER[program]]):
                    self.same_counts(self.example(program, compiler), words)
        for program, package in PACKAGES.items() if self.sources else ():
            self.same_counts(self.example(program), package.words, package.input(self.sources))

    def same_counts(self, path, words, given=b""):
        """Compares the profiles of one run."""
        recorded, made = self.path("recorded"), self.path("made")
        status, printed, said = self.record(path, recorded, words, given)
        name = f"{os.path.basename(path)} {' '.join(words)}"
        print(f"counts    {name}: {said}", flush=True)
        reader = Elf(path).named.get(READER)
        shutil.copy(path, self.path("program"))  # the name that it gets from `record`
        steps = re.search(r"after (\d+) steps", said)
        ways = [["--log"]] if steps and int(steps[1]) <= LOGGED else []
        ways += [[]] if self.has("cc", "counts by the plugin") else []
        for options in ways:
            done = self.script("qemu_profile.py", *options, "program", made, *words, input=given, stdin=None,
                               cwd=self.folder)
            wanted = r"\[ended \d+ after \d+ steps\]; \d+ lines" if reader else \
                     re.escape(f"[ended {status} after {steps and steps[1]} steps]; {len(lines_of(recorded))} lines")
            wanted += " by qemu's log\n" if options else " by the plugin\n"
            if (done.returncode, done.stdout) != (status, printed) or not re.fullmatch(wanted, done.stderr.decode()):
                self.say(f"{name} {options}: {done.returncode} {done.stdout[-40:]} {done.stderr[-200:]}, not {wanted}")
            elif lines_of(recorded, reader) != lines_of(made, reader):
                self.say(f"{name} {options}: the profiles differ")

    def signals(self):
        """Looks for profiles of programs that signals end."""
        if not (self.has(QEMU, "signals") and self.has("cc", "signals")):
            return
        crash, recorded, made = self.small("crash", CRASH), self.path("recorded"), self.path("made")
        _, _, said = self.record(crash, recorded)
        done = self.script("qemu_profile.py", crash, made)
        print(f"signals   {said}", flush=True)
        if not said.startswith("[trapped Store") or done.returncode != 128 + signal.SIGSEGV:
            self.say(f"crash: {said}, {done.returncode} {done.stderr[-200:]}")
        elif not read(recorded) or read(recorded) != read(made):
            self.say("crash: the profiles differ")
        for number in (signal.SIGTERM, signal.SIGINT):
            self.interrupted(number, made)

    def interrupted(self, number, made):
        """Sends the script a signal while its program runs: one to both, as a terminal does."""
        endless = self.small("endless", ENDLESS)
        command = [sys.executable, os.path.join(TOOLS, "qemu_profile.py"), "--tool", " ".join(self.tool), endless, made]
        with contextlib.suppress(FileNotFoundError):
            os.unlink(made)
        process = subprocess.Popen(command, stdout=subprocess.PIPE, stderr=subprocess.PIPE, start_new_session=True)
        process.stdout.readline()
        time.sleep(0.5)
        os.killpg(process.pid, number)
        said = process.communicate(timeout=60)[1].decode()
        if process.returncode != 128 + number or not re.match(rf"\[ended by signal {number:d} ", said):
            self.say(f"endless: {process.returncode} {said}")
        elif not os.path.exists(made) or max(counts_in(made), default=0) < 10_000:
            self.say(f"endless: a profile of {os.path.exists(made) and counts_in(made)}")

    def text(self):
        """A text of words, and its name."""
        dice, path = random.Random(1), self.path("text")
        with open(path, "w", encoding="ascii") as file:
            for _ in range(WORDS_OF_TEXT):
                file.write("".join(dice.choice("aeinst") for _ in range(dice.randint(1, 4))) + dice.choice(" \n"))
        return path

    def threads(self):
        """Counts calls of functions in threads and processes."""
        if not (self.has(QEMU, "threads") and self.has("cc", "threads")):
            return
        path, made, out = self.example("tally", level="-O0"), self.path("made"), self.path("words")
        graph = Graph(self.tool, path)
        start_of = {name: min(found) for name, found in graph.elf.named.items()}
        for words, processes, threads in ([], 1, 0), (["threads"], 1, 4), (["threads", "fork"], 2, 4):
            done = self.script("qemu_profile.py", path, made, self.text(), out, *words)
            print(f"threads   {' '.join(words)} {done.stderr.decode().strip()}", flush=True)
            entered = collections.Counter()
            for (_, end), count in graph.read_profile(made)[0].items():
                entered[end] += count
            for name, wanted in ("add", 10 * WORDS_OF_TEXT * processes), ("count_letters", threads * processes):
                if entered[start_of[name]] != wanted:
                    self.say(f"tally {words}: {name} was entered {entered[start_of[name]]} times, not {wanted}")

    def samples(self):
        """Compares layouts by samples with those by all branches."""
        if not self.has(QEMU, "samples"):
            return
        for program in ("sorting", "interpreter", "packing", "shapes"):
            path, words = self.example(program), [LONGER[program]]
            recorded, found = self.path("recorded"), sampled(path, words, b"", [SAMPLES])[0]
            self.record(path, recorded, words)
            with open(self.path("sampled.txt"), "w", encoding="ascii") as file:
                file.writelines(f"{address:16x}\n" for address in found)
            self.same_layout(path, words, recorded, len(found))
        self.wrong_samples(path)

    def same_layout(self, path, words, recorded, samples):
        """Moves a program by all branches and by samples, and counts what is taken."""
        made, counted = self.path("made"), self.path("counted")
        with open(self.path("sampled.txt"), "rb") as lines:
            done = self.script("sample_profile.py", path, made, stdin=lines)
        rows = collections.Counter(read(self.path("sampled.txt")).decode().split())
        text = "".join(f"{count:7} {address}\n" for address, count in rows.items())
        again = self.script("sample_profile.py", path, counted, input=text.encode(), stdin=None)
        if done.returncode or again.returncode or read(made) != read(counted):
            self.say(f"{path}: {done.stderr[-200:]} {again.stderr[-200:]}, or other profiles by counts")
            return
        full, some = (self.moved_taken(path, profile, words) for profile in (recorded, made))
        print(f"samples   {os.path.basename(path)}: {samples} samples, taken {full:,} by all branches, {some:,} by "
              "these", flush=True)
        if samples < 5000 or some > MOST_WORSE * full:
            self.say(f"{path}: {samples} samples, taken {some}, where it is {full} by all branches")

    def moved_taken(self, path, profile, words):
        """How often control goes elsewhere than on in a run of a moved program, but for branches around a jump."""
        moved, text = self.path("moved"), self.path("moved.map")
        done = subprocess.run([*self.tool, "rewrite", path, profile, moved, text], capture_output=True, check=True)
        if b" 0 hot blocks" in done.stdout or b" 0 profile lines ignored" not in done.stdout:
            self.say(f"{path}: {done.stdout.decode()}")
        return taken(moved, words, b"")[1]

    def wrong_samples(self, path):
        """Gives samples that are none."""
        for text, said in ((b"", "there are no samples"), (b"10\nmain+4\n", "line 2 of the samples is no address"),
                           (b"1\n2\n3 7\n", "none of 5 samples lies in the code"), (b"10000 1 2\n", "line 1 of the"),
                           (b"\xff\xfe\n", "line 1 of the samples is no address")):
            self.fails(f"samples {text}", said, "sample_profile.py", [path, self.path("none")], input=text, stdin=None)
            if os.path.exists(self.path("none")):
                self.say(f"samples {text}: OUT is there")
        self.fails("samples over IN", "is the program itself", "sample_profile.py", [path, path])

    def optimize(self):
        """Goes the whole way."""
        if not self.has(QEMU, "optimize"):
            return
        text, out = self.text(), self.path("words")
        for words in ([], ["timer"], ["threads"], ["timer", "threads"]):
            self.moves("tally", [text, out, *words], [], r"uses more of the system")
        for program in ("sorting", "interpreter", "packing", "shapes"):
            self.moves(program, [LONGER[program]], [], r"\[ended \d+ after \d+ steps\]: what is proved holds")
        self.moves("sorting", ["20"], ["--no-refine", "--no-mend"], "not asked for")
        self.moves("sorting", ["20"], ["--by", "record"], r"what is proved holds of this run, on the tool's machine\n")
        shutil.copyfile(os.path.join(self.path("kept"), "refined"), self.path("refined"))
        self.moves("sorting", [], ["--profile", self.path("refined")], r"1 lines that don't fit\nrewrite ")
        follow(self.example("sorting"), [], (found := []).append)
        with open(self.path("sampled.txt"), "w", encoding="ascii") as file:
            file.writelines(f"{address:x}\n" for address in found[::7])
        self.moves("sorting", [], ["--samples", self.path("sampled.txt")], rf"{len(found[::7])} samples in ")
        self.record(self.example("sorting"), self.path("recorded"))
        self.moves("sorting", ["100"], ["--profile", self.path("recorded")], r" pairs of instructions")

    def moves(self, program, words, options, said):
        """Optimizes a program, and looks at what it left."""
        path, moved, kept = self.example(program), self.path("moved"), self.path("kept")
        with contextlib.suppress(FileNotFoundError):
            os.unlink(moved)
        done = self.script("optimize.py", "--keep", kept, *options, path, moved, *words)
        text = done.stdout.decode()
        print(f"optimize  {program} {' '.join(words[2:] if program == 'tally' else words)}: {text.splitlines()[-1:]}")
        if done.returncode or done.stderr or not re.search(said, text):
            self.say(f"{program} {words} {options}: {done.returncode} {text} {done.stderr.decode()}")
            return
        judged = subprocess.run([*self.tool, "verify", os.path.join(kept, "program"), moved, moved + ".map"],
                                capture_output=True, check=False).stdout
        runs = [subprocess.run([QEMU, "-0", "program", file, *words], capture_output=True, check=False)
                for file in (path, moved)]
        if judged != b"faithful\n" or len({(run.returncode, run.stdout) for run in runs}) != 1:
            self.say(f"{program} {words} {options}: {judged}, {runs}")

    def fails(self, name, said, script, words, **how):
        """Runs what has to fail, with a sentence."""
        done = self.script(script, *words, **how)
        text = done.stderr.decode().strip()
        if done.returncode != 1 or not re.search(said, text) or "Traceback" in text:
            self.say(f"{name}: {done.returncode} {done.stdout.decode()[-300:]} {text[-300:]}, where {said} is wanted")

    def failures(self):
        """Fails in every way, and looks for files that are left."""
        room, scratch = self.path("room"), self.path("scratch")
        for folder in (room, scratch):
            shutil.rmtree(folder, ignore_errors=True)
            os.makedirs(folder)
        sorting, out = self.example("sorting"), os.path.join(room, "moved")
        self.record(self.example("packing"), self.path("alien"))
        nothing = os.path.join(room, "nothing")
        wrong = [("no file", f"{nothing}: No such file", [nothing, out], {}),
                 ("a text", "is no ELF file of 64 bits", [os.path.abspath(__file__), out], {}),
                 ("another processor", r"refused 1 NotElf at 0", [os.path.realpath(sys.executable), out], {}),
                 ("no folder", "No such file or directory", [sorting, os.path.join(nothing, "moved")], {}),
                 ("a folder", "is no file that can be replaced", [sorting, room], {}),
                 ("no tool", "there is no command none-such", ["--tool", "none-such", sorting, out], {}),
                 ("no profile", "No such file", ["--profile", nothing, sorting, out], {}),
                 ("an empty one", "is empty", ["--profile", os.devnull, sorting, out], {}),
                 ("an alien one", "it is of another program", ["--profile", self.path("alien"), sorting, out], {}),
                 ("no samples", "there are no samples", ["--samples", os.devnull, sorting, out], {}),
                 ("no qemu", "there is no qemu-riscv64, which the package qemu-user has", [sorting, out],
                  {"PATH": room})]
        if self.has(QEMU, "failures of runs"):
            wrong += [("a crash", "run: the program ended by signal 11", [self.small("crash", CRASH), out], {}),
                      ("a crash of OUT", "alike: the program ended by signal 11",
                       [self.small("moved-crash", CRASHES_MOVED), out], {}),
                      ("an address", "alike: OUT would run otherwise", [self.small("address", ADDRESS), out], {}),
                      ("a doubt", "check: .* more of the system",
                       ["--strict", self.example("tally"), out, self.text(), self.path("words")], {})]
        for name, said, words, environment in wrong:
            self.fails(name, said, "optimize.py", words, env={**os.environ, "TMPDIR": scratch, **environment})
            if left := os.listdir(room) + os.listdir(scratch):
                self.say(f"{name}: {left} are left behind")
        print(f"failures  {len(wrong)}", flush=True)

    def bar(self):
        """Draws a bar on a terminal, and none elsewhere."""
        text = "import time; from steps import Step\nwith Step('long') as step:\n step.expect(2); time.sleep(1.6)\n " \
               "step.say('done')"
        own, other = pty.openpty()
        for stream in (other, subprocess.PIPE):
            done = subprocess.run([sys.executable, "-c", text], stdout=subprocess.PIPE, stderr=stream, check=False,
                                  env={**os.environ, "PYTHONPATH": TOOLS})
            drawn = os.read(own, 10_000).decode() if stream == other else done.stderr.decode()
            bar = re.search(r"long +1 s  \[#+\.+\] of about 2.*\r\033\[K$", drawn)
            if not re.fullmatch(r"long +[0-9.]+ s  done\n", done.stdout.decode()) or bool(bar) != (stream == other):
                self.say(f"bar: {done.stdout} {drawn!r}")
            elif stream != other and drawn:
                self.say(f"bar: {drawn!r} where there is no terminal")


def read(path):
    """The bytes of a file."""
    with open(path, "rb") as file:
        return file.read()


def lines_of(path, without=()):
    """The lines of a profile that don't name some functions by their addresses."""
    names = {b"@%x" % address for address in without or ()}
    return [line for line in read(path).splitlines() if not names & set(line.split())]


def counts_in(path):
    """The counts in a profile."""
    return [int(line.split()[7]) for line in read(path).splitlines()]


def main():
    every = ["counts", "signals", "threads", "samples", "optimize", "failures", "bar"]
    words = argparse.ArgumentParser(description="tries the tools that make profiles")
    words.add_argument("--tool", default=os.path.join(ROOT, "sudrepka"), help="the command that takes `rewrite ..`")
    words.add_argument("--sources", help="where the sources of packages are")
    words.add_argument("--keep", help="a folder for what is built")
    words.add_argument("checks", metavar="CHECK", nargs="*", choices=[*every, []], help="all if none is named")
    given = words.parse_args()
    signal.signal(signal.SIGINT, signal.default_int_handler)  # a shell lets what it starts behind `&` ignore it
    if not compilers():
        sys.exit(NO_COMPILER)
    with tempfile.TemporaryDirectory() as room:
        folder = os.path.abspath(given.keep or room)
        os.makedirs(folder, exist_ok=True)
        checks = Checks(built(given.tool), folder, given.sources)
        for name in given.checks or every:
            getattr(checks, name)()
    print(f"{checks.problems} problems")
    sys.exit(1 if checks.problems else 0)


if __name__ == "__main__":
    main()
