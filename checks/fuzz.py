#!/usr/bin/env python3
"""Gives every command files and words that are wrong, and reports what it doesn't keep of what is promised.

    python3 checks/fuzz.py PROGRAM FIRST [COUNT] [--jobs N] [--minutes M] [--runs FILE] [--keep FOLDER] [--only KIND]
                           [--command COMMAND]

PROGRAM is the built program, as crates/bolt_cli/out/bolt_cli. Inputs have numbers: COUNT of them are made from the
number FIRST on, or just that one. An input is a command with its files, and a number is the same input wherever a run
begins. A file is a program with unwind and debug tables of every kind, of which none, one or a few things are changed:
a field of the file's headers, of a symbol or a relocation (`headers`, `symbols`), of a table (`tables`), an instruction
(`code`), data, or any bytes. A table is kept as a list of fields: one gets another value, is left out, doubled or put
elsewhere, while lengths and offsets follow unless they are what is changed; and a part may stand there a thousand
times. Texts, as profiles and maps, are changed by words and lines; some commands are words at random, and some have a
standard output that takes nothing.

What is reported (`fuzzed/promises.py`): a status or a text that isn't one of the command's, a fault that it doesn't
look for, a signal, a file that is written where none should be or isn't where it should, seconds of the processor that
aren't near-linear in the size of the files (0.25 and 4 millionths a byte), memory of more than 64 times their size and
16 MiB beside, or of more than 1 GiB; and, of some: a rewrite that `verify` doesn't call faithful, that `map` prints
otherwise, that ends otherwise than the input does on the symbol machine, or of which `lookup` or `frames` says
something else than of the input. The promise is wider (docs/DECISIONS.md, "Written tables"): 64 times the size and
a GiB beside, and 6 millionths of a second a byte and 3 seconds beside. Less is asked for here on purpose, since
these files are small: one of a few KiB could take a GiB, or seconds, unseen.

With --keep the files of what is reported, or of a single input, stay in FOLDER, in a folder each, with the words. The
last lines count the answers of each command. `out of memory`, where the same command isn't so with all the memory there
is, is reported; else it is only counted, with the first such input of each command. With --minutes no 200 inputs more
are begun after that time. With --runs a line on the run is added to FILE: which inputs of which program were tried (the first
digits of its SHA-256), and what came of them. The status is 0 where nothing was reported.
"""
from __future__ import annotations
import argparse
import collections
import datetime
import hashlib
import multiprocessing
import os
import random
import shlex
import shutil
import sys
import tempfile
import time
from dataclasses import dataclass, field

from fuzzed import texts
from fuzzed.programs import KINDS, Program
from fuzzed.promises import (
    BYTES_A_BYTE, ENDED, MIB, MOST_BYTES, NO_MEMORY, OK, READ_FAULT, WRITE_FAULT, WRITES, Answer, complaints)

CHUNK = 200                             # inputs that share a program, from a multiple of this number on
COMMANDS = {"rewrite": 24, "map": 4, "run": 8, "symbols": 12, "record": 6, "lookup": 24, "frames": 12, "repair": 6,
            "verify": 10, "sample": 1, "words": 3, "full": 2}
STEPS, SLACK, LONGEST, FILES = 3000, 16 * MIB, 64 * MIB, ("in", "profile", "out", "map")
STREAMS = ("input", "printed", "said")
LIMITED = 'ulimit -v "$1"; ulimit -t "$2"; shift 2; exec "$@"'
SECONDS_AT_MOST, UNLIMITED = 60, 1 << 62
WRITTEN = WRITES | {"words": ["out", "map"]}
FILLED = ["rewrite in profile out map", "map in profile", "run --steps 900 in", "run --symbols --steps 900 in",
          "record --steps 900 in out", "repair in profile out", "lookup in 10078", "sample 2 out map", "verify in in profile"]


@dataclass
class Report:
    """What came of the inputs from one on up to another."""
    first: int
    end: int
    counts: collections.Counter = field(default_factory=collections.Counter)
    found: list[str] = field(default_factory=list)
    memory: dict[str, str] = field(default_factory=dict)    # the first input of a command that was out of memory

    def add(self, other: Report) -> None:
        """Those that follow these."""
        self.end = other.end
        self.counts += other.counts
        self.found += other.found
        self.memory = other.memory | self.memory


class Tool:
    """Runs the program in the current folder, with memory for its size."""

    def __init__(self, words: list[str]):
        self.words = [shutil.which(words[0]) or os.path.abspath(words[0]), *words[1:]]
        self.streams = [os.open(name, os.O_RDWR | os.O_CREAT) for name in STREAMS]
        self.actions = [(os.POSIX_SPAWN_DUP2, stream, number) for number, stream in enumerate(self.streams)]
        self.to_full = [*self.actions, (os.POSIX_SPAWN_OPEN, 1, "/dev/full", os.O_WRONLY, 0)]
        self.own = 0
        self.own = self.least_memory()

    def least_memory(self) -> int:
        """How much the program's own parts take, rounded up to MiB; a build with a sanitizer can't be limited."""
        low, high = 0, 1024
        while low + 1 < high:
            middle = (low + high) // 2
            fits = self.run(["sample", "1", "out", "map"], middle * MIB).status == OK
            low, high = (low, middle) if fits else (middle, high)
        return high * MIB if high < 1024 else UNLIMITED

    def run(self, words: list[str], memory: int, is_full: bool = False) -> Answer:
        """The answer to some words, with so much memory; where `is_full`, standard output takes nothing."""
        for stream in self.streams:
            os.lseek(stream, 0, os.SEEK_SET)
        for stream in self.streams[1:]:
            os.ftruncate(stream, 0)
        there = stamps()
        actions = self.to_full if is_full else self.actions
        # (limits that this process set would come while the program already runs)
        shell = ["/bin/sh", "-c", LIMITED, "sh", str(memory >> 10), str(SECONDS_AT_MOST)]
        child = os.posix_spawn(shell[0], [*shell, *self.words, *words], {}, file_actions=actions)
        _, status, usage = os.wait4(child, 0)
        printed, said = (os.pread(stream, 1 << 26, 0) for stream in self.streams[1:])
        # (`out` before `map`, as WRITES has them)
        wrote = sorted((name for name, stamp in stamps().items() if there.get(name) != stamp), reverse=True)
        return Answer(os.waitstatus_to_exitcode(status), printed, said, wrote, usage.ru_utime + usage.ru_stime)


def stamps() -> dict[str, tuple[int, int]]:
    """The files of the folder but the streams, with what tells whether one was written."""
    return {it.name: (it.stat().st_mtime_ns, it.stat().st_size) for it in os.scandir() if it.name not in STREAMS}


def put(name: str, data: bytes) -> None:
    with open(name, "wb") as file:
        file.write(data)


def take(name: str) -> bytes:
    """A file's contents; none where it isn't there."""
    if not os.path.exists(name):
        return b""
    with open(name, "rb") as file:
        return file.read()


def remove(*names: str) -> None:
    for name in names:
        if os.path.exists(name):
            os.unlink(name)


class Worker:
    """Makes and judges inputs in a folder of its own."""

    def __init__(self, given: argparse.Namespace):
        self.given = given
        os.chdir(tempfile.mkdtemp(dir=given.folder))
        put("input", b"some input\n" * 20)
        self.tool = Tool(shlex.split(given.program))
        self.commands = COMMANDS
        if given.command:
            self.commands = {given.command: 1}

    def chunk(self, number: int) -> Report | None:
        """Those inputs of a program that are wanted; None where there is no time left."""
        if time.time() > self.given.until:
            return None
        given = self.given
        first, end = max(number * CHUNK, given.first), min((number + 1) * CHUNK, given.first + given.count)
        self.report, self.program = Report(first, end), Program(random.Random(f"program {number}"))
        self.moved = None
        for seed in range(first, end):
            self.input(seed, random.Random(f"input {seed}"))
        return self.report

    def input(self, seed: int, rng: random.Random) -> None:
        command = rng.choices(list(self.commands), list(self.commands.values()))[0]
        kinds = KINDS + ("tables",) * (6 if command in ("lookup", "frames") else 2)
        if self.given.only:
            kinds = (self.given.only,)
        remove(*stamps())
        self.changes, self.seed = [command], seed
        getattr(self, command)(rng, kinds)

    def file(self, rng: random.Random, kinds: tuple) -> None:
        data, changes = self.program.changed(rng, kinds)
        put("in", data)
        self.changes += changes

    def profile(self, rng: random.Random) -> None:
        put("profile", texts.profile(rng, self.program.profile, self.program.shape.code.functions))

    def judge(self, command: str, words: list[str], size: int | None = None) -> Answer:
        """Runs a command; it is given memory for the files that it reads."""
        remove(*WRITTEN.get(command, []))
        if size is None:
            size = sum(os.path.getsize(name) for name in FILES if name in words and os.path.exists(name))
        memory = min(SLACK + BYTES_A_BYTE * size, MOST_BYTES)
        answer = self.tool.run(words, min(self.tool.own + memory, UNLIMITED))
        found = complaints(command, answer, size) if command != "words" else []
        if answer.status == NO_MEMORY and not ENDED.search(answer.printed):
            remove(*WRITTEN.get(command, []))
            if self.tool.run(words, UNLIMITED).status != NO_MEMORY:
                found.append("takes much memory")
            else:
                self.report.memory.setdefault(command, f"{self.seed} ({', '.join(self.changes)})")
        self.report.counts[command, answer.kind()] += 1
        if found:
            self.complain(command, words, found)
        elif self.given.count == 1:
            self.keep(words)
        return answer

    def complain(self, command: str, words: list[str], found: list[str]) -> None:
        self.report.found.append(f"input {self.seed} ({', '.join(self.changes)}): {command}: {'; '.join(found)}")
        self.keep(words)

    def keep(self, words: list[str]) -> None:
        """Keeps the files as they are, where that is wanted."""
        if not self.given.keep:
            return
        place = os.path.join(self.given.keep, str(self.seed))
        os.makedirs(place, exist_ok=True)
        for name in FILES:
            if os.path.exists(name):
                shutil.copy(name, place)
        put(os.path.join(place, "words"), shlex.join(words).encode())

    # Commands.

    def rewrite(self, rng: random.Random, kinds: tuple) -> None:
        self.file(rng, kinds)
        self.profile(rng)
        answer = self.judge("rewrite", ["rewrite", "in", "profile", "out", "map"])
        if answer.status == OK and rng.random() < 0.3:
            self.compare(rng)

    def compare(self, rng: random.Random) -> None:
        """What is promised of an input and its output together, where that isn't too large itself."""
        if os.path.getsize("out") > LONGEST:
            return
        verdict = self.judge("verify", ["verify", "in", "out", "map"])
        if verdict.status != OK:
            self.complain("verify", ["verify", "in", "out", "map"], [f"a rewrite is {verdict.kind()}"])
        spans = take("map")
        if self.judge("map", ["map", "in", "profile"]).printed != spans:
            self.complain("map", ["map", "in", "profile"], ["differs from MAP"])
        old = self.tool.run(["run", "--symbols", "--steps", str(STEPS), "in"], UNLIMITED)
        if ENDED.search(old.printed):
            new = self.tool.run(["run", "--steps", str(3 * STEPS + 1), "out"], UNLIMITED)
            if ENDED.split(old.printed)[:2] != ENDED.split(new.printed)[:2]:
                self.complain("run", ["run", "out"], ["ends otherwise than its input"])
        self.compare_answers(rng, spans)

    def compare_answers(self, rng: random.Random, spans: bytes) -> None:
        """What `lookup` or `frames` says of an instruction before and after."""
        lines = [line.split(b" ") for line in spans.splitlines()]
        lines = [line for line in lines if len(line) == 3 and line[1] != b"0"]
        if not lines:
            return
        new, _, old = rng.choice(lines)
        command = rng.choice(["lookup", "frames"])
        asked = ([command, "in", old.decode()], [command, "out", new.decode()])
        before, after = (self.tool.run(words, UNLIMITED) for words in asked)
        said = [answer.printed.split(b" handler ")[0] for answer in (before, after)]
        if before.status == OK and (after.status != OK or said[0] != said[1]):
            self.complain(command, asked[0], [f"{said[0]!r} becomes {said[1]!r}"])

    def map(self, rng: random.Random, kinds: tuple) -> None:
        self.file(rng, kinds)
        self.profile(rng)
        self.judge("map", ["map", "in", "profile"])

    def run(self, rng: random.Random, kinds: tuple) -> None:
        self.file(rng, kinds)
        self.judge("run", ["run", "--steps", str(STEPS), "in", *["word"] * rng.choice([0, 0, 2, 64])])

    def symbols(self, rng: random.Random, kinds: tuple) -> None:
        self.file(rng, kinds)
        words = ["--steps", str(STEPS), "in", *["word"] * rng.choice([0, 0, 2])]
        answer = self.judge("symbols", ["run", "--symbols", *words])
        if ENDED.search(answer.printed) and rng.random() < 0.3:
            if self.judge("run", ["run", *words]).printed != answer.printed:
                self.complain("run", ["run", *words], ["ends otherwise than on the symbol machine"])

    def record(self, rng: random.Random, kinds: tuple) -> None:
        self.file(rng, kinds)
        self.judge("record", ["record", "--steps", str(STEPS), "in", "out"])

    def address(self, rng: random.Random) -> str:
        start, size = rng.choice(self.program.ranges)
        others = ["0", "ffffffffffffffff", f"{self.program.shape.data_address:x}"]
        return rng.choice([f"{start + rng.randrange(-2, size + 3):x}"] * 6 + others)

    def lookup(self, rng: random.Random, kinds: tuple) -> None:
        self.file(rng, kinds)
        self.judge("lookup", ["lookup", "in", self.address(rng)])

    def frames(self, rng: random.Random, kinds: tuple) -> None:
        self.file(rng, kinds)
        self.judge("frames", ["frames", "in", self.address(rng)])

    def repair(self, rng: random.Random, kinds: tuple) -> None:
        self.file(rng, kinds)
        self.profile(rng)
        self.judge("repair", ["repair", "in", "profile", "out"])

    def verify(self, rng: random.Random, kinds: tuple) -> None:
        """A rewrite with changes in one of the three files, mostly."""
        if self.moved is None:
            put("in", self.program.file)
            put("profile", self.program.profile.encode())
            done = self.tool.run(["rewrite", "in", "profile", "out", "map"], UNLIMITED).status == OK
            self.moved = (take("out"), take("map")) if done else (self.program.file, b"10078 4 10078\n")
            remove(*FILES)
        out, spans = self.moved
        way = rng.randrange(4)
        if way == 0:
            self.file(rng, kinds)
        else:
            put("in", self.program.file)
        put("out", changed_output(rng, out) if way in (1, 3) else out)
        put("map", texts.changed_text(rng, spans) if way in (2, 3) else spans)
        self.judge("verify", ["verify", "in", "out", "map"])

    def sample(self, rng: random.Random, kinds: tuple) -> None:
        number = rng.choice([1, 2, 3, 10, 100, 1000])
        self.judge("sample", ["sample", str(number), "out", "map"], 300 * number)

    def full(self, rng: random.Random, kinds: tuple) -> None:
        """A command whose lines can't be printed has written the same files."""
        self.file(rng, kinds)
        self.profile(rng)
        words = rng.choice(FILLED).split(" ")
        usual = self.tool.run(words, UNLIMITED)
        files = [take(name) for name in FILES]
        remove(*usual.wrote)
        answer = self.tool.run(words, UNLIMITED, is_full=True)
        self.report.counts["full", answer.kind()] += 1
        wanted = WRITE_FAULT if usual.printed else usual.status
        if answer.status != wanted or answer.said or files != [take(name) for name in FILES]:
            self.complain("full", words, [f"status {answer.status} where nothing can be printed"])

    def words(self, rng: random.Random, kinds: tuple) -> None:
        put("in", self.program.file)
        put("profile", self.program.profile.encode())
        words = texts.words(rng)
        answer = self.judge("words", words, len(self.program.file))
        is_silent = answer.status in (READ_FAULT, WRITE_FAULT, NO_MEMORY)
        if answer.status < 0 or answer.said or not (answer.printed.endswith(b"\n") or is_silent):
            self.complain("words", words, [f"status {answer.status}"])


def changed_output(rng: random.Random, data: bytes) -> bytes:
    """A written file of which one bit, a halfword or a stretch is changed."""
    out = bytearray(data)
    for _ in range(rng.choice([1, 1, 1, 2, 3])):
        at = rng.randrange(len(out)) if out else 0
        way = rng.random()
        if way < 0.7:
            out[at:at + 1] = bytes([out[at] ^ 1 << rng.randrange(8)])
        elif way < 0.9:
            other = rng.randrange(len(out))
            out[at:at + 4] = out[other:other + 4]
        else:
            del out[at:]
            out = out or bytearray(1)
    return bytes(out)


GIVEN: argparse.Namespace | None = None
WORKER: Worker | None = None


def begin(given: argparse.Namespace) -> None:
    global GIVEN
    GIVEN = given


def chunk(number: int) -> Report | None:
    global WORKER
    WORKER = WORKER or Worker(GIVEN)
    return WORKER.chunk(number)


def tried(given: argparse.Namespace) -> Report:
    """What came of all inputs, or of the first ones where there was no time for more."""
    whole = Report(given.first, given.first)
    numbers = range(given.first // CHUNK, -(-(given.first + given.count) // CHUNK))
    with tempfile.TemporaryDirectory(dir="/dev/shm" if os.path.isdir("/dev/shm") else None) as given.folder:
        with multiprocessing.Pool(given.jobs, begin, (given,)) as pool:
            for report in pool.imap(chunk, numbers):
                if report is None:
                    break
                whole.add(report)
                for line in report.found:
                    print(line, flush=True)
    return whole


def show(report: Report) -> None:
    for command in sorted({command for command, _ in report.counts}):
        mine = [(kind, count) for (name, kind), count in report.counts.most_common() if name == command]
        print(f"{command} {sum(count for _, count in mine)}: " + ", ".join(f"{count} {kind}" for kind, count in mine))
    for command, first in sorted(report.memory.items()):
        print(f"{command} is out of memory: first at input {first}")


def summary(given: argparse.Namespace, report: Report, seconds: float) -> str:
    """A line on a run."""
    with open(shlex.split(given.program)[0], "rb") as file:
        digest = hashlib.sha256(file.read()).hexdigest()[:12]
    ways = "".join(f", {word} alone" for word in (given.command, given.only) if word)
    runs, wanting = report.counts.total(), sum(n for (_, kind), n in report.counts.items() if kind == "out of memory")
    return (f"{datetime.date.today()} {digest}: inputs {report.first} to {report.end - 1}{ways}, {runs} answers in "
            f"{seconds:.0f} seconds with {given.jobs} jobs; {len(report.found)} reported, {wanting} out of memory")


def arguments() -> argparse.Namespace:
    parser = argparse.ArgumentParser()
    parser.add_argument("program")
    parser.add_argument("first", type=int)
    parser.add_argument("count", type=int, nargs="?", default=1)
    parser.add_argument("--jobs", type=int, default=1)
    parser.add_argument("--minutes", type=float, default=float("inf"))
    parser.add_argument("--runs")
    parser.add_argument("--keep", type=os.path.abspath)
    parser.add_argument("--only", choices=KINDS)
    parser.add_argument("--command", choices=list(COMMANDS))
    given = parser.parse_args()
    program = [given.program] if os.path.exists(given.program) else shlex.split(given.program)
    given.program = shlex.join([os.path.abspath(shutil.which(program[0]) or program[0]), *program[1:]])
    return given


def main() -> int:
    given = arguments()
    begun = time.time()
    given.until = begun + 60 * given.minutes
    report = tried(given)
    show(report)
    line = summary(given, report, time.time() - begun)
    print(line)
    if given.runs:
        with open(given.runs, "a", encoding="utf-8") as file:
            file.write(line + "\n")
    return 1 if report.found else 0


if __name__ == "__main__":
    sys.exit(main())
