"""Runs of programs under `qemu-riscv64`, with counts of what they executed.

A plugin, which the compiler `cc` makes of branch_plugin.c beside this file, counts in qemu itself. Without a compiler,
and with a qemu that takes no plugins, qemu's own log of translation blocks is read, which takes a hundred times as
long. There all processes that a program forks write into one log, so they can't be told apart.
"""
import array
import collections
import contextlib
import os
import re
import shutil
import signal
import subprocess
import tempfile

from program_graph import BRANCH, HERE, OTHER, Failure

QEMU = "qemu-riscv64"
BLOCK, BLOCK_HEAD, EDGE_SIZE, ROOM = 1, 3, 4, 1 << 26  # as in branch_plugin.c
AT_ONCE = 1 << 20  # bytes of the log
FIRST_WITH_NEW_PLUGINS = 9  # the version of qemu
MOST_IMPOSSIBLE = 0.01  # of what a log says: signals make few


class Trace:
    """How often each sequence of instructions ran that qemu had translated as a block (`runs`, by their addresses), and
    how often control went from the last instruction of one to the first of another (`transfers`)."""

    def __init__(self):
        self.runs, self.transfers, self.is_logged = collections.Counter(), collections.Counter(), False

    def profile(self, graph):
        """The counts of pairs of instructions that `record` has. A signal comes anywhere, so what no instruction does
        isn't counted."""
        counts, impossible = collections.Counter(), 0
        for code, count in self.runs.items():
            for start, end in zip(code, code[1:]):
                if start in graph.last_of and end in graph.owner:
                    counts[start, end] += count
        for (start, end), count in self.transfers.items():
            if start in graph.owner and not can_go(graph.elf, start, end):
                impossible += count
            elif graph.is_source(start) and end in graph.owner:
                counts[start, end] += count
        if self.is_logged and impossible > MOST_IMPOSSIBLE * sum(self.transfers.values()):
            raise Failure("the log mixes what several processes did: a program that forks wants the plugin, and so a "
                          "compiler cc")
        return counts

    def instructions(self):
        """How many instructions ran."""
        return sum(len(code) * count for code, count in self.runs.items())

    def taken(self, elf):
        """How often an instruction was followed by another one than the next in memory."""
        return sum(count for (start, end), count in self.transfers.items() if end != start + elf.size(start))

    def touched(self, size):
        """How many spans of a size, as lines of a cache or pages, hold the first byte of an instruction that ran."""
        return len({at // size for code in self.runs for at in code})


def can_go(elf, start, end):
    """Whether the instruction at `start` may be followed by that at `end`."""
    kind, target = elf.kind(start), elf.target(start)
    if kind in (BRANCH, OTHER) and end == start + elf.size(start):
        return True
    return end == target if target is not None else kind != OTHER


def want_qemu():
    """Fails without qemu."""
    if not shutil.which(QEMU):
        raise Failure(f"there is no {QEMU}, which the package qemu-user has")


def trace_run(words, by_log=False, **streams):
    """Runs qemu with words, from its options or the program on. Gives the status and the trace."""
    want_qemu()
    with tempfile.TemporaryDirectory() as folder:
        plugin = None if by_log else _made_plugin(folder)
        if plugin:
            status, trace = _run_with_plugin(words, plugin, os.path.join(folder, "counts"), streams)
            if trace:  # else qemu took no plugin, and nothing ran
                return status, trace
    return _run_with_log(words, streams)


def _made_plugin(folder):
    """The plugin, or nothing if it can't be made."""
    compiler = shutil.which("cc")
    if not compiler:
        return None
    said = subprocess.run([QEMU, "--version"], capture_output=True, text=True, check=False).stdout
    version = re.search(r"version (\d+)", said)
    kind = 2 if version and int(version[1]) >= FIRST_WITH_NEW_PLUGINS else 1
    plugin, source = os.path.join(folder, "branch_plugin.so"), os.path.join(HERE, "branch_plugin.c")
    command = [compiler, "-O2", "-shared", "-fPIC", f"-DPLUGIN_VERSION={kind}", "-o", plugin, source]
    return plugin if subprocess.run(command, capture_output=True, check=False).returncode == 0 else None


def _run_with_plugin(words, plugin, counts, streams):
    parts = [part.replace(",", ",,") for part in (plugin, f"out={counts}")]  # qemu's way to quote a comma
    process = subprocess.Popen([QEMU, "-plugin", ",".join(parts), *words], **streams)
    with _signals_for(process):
        status = process.wait()
    return status, _read_counts(counts) if os.path.exists(counts) else None


@contextlib.contextmanager
def _signals_for(process):
    """Leaves signals that ask for an end to a process: the script goes on after it. A terminal sends SIGINT to both."""
    def pass_on(number, _):
        if number != signal.SIGINT:
            process.send_signal(number)

    kept = {number: signal.signal(number, pass_on) for number in (signal.SIGINT, signal.SIGTERM)}
    try:
        yield
    finally:
        for number, handler in kept.items():
            signal.signal(number, handler)


def _read_counts(path):
    """The trace in the plugin's file."""
    with open(path, "rb") as file:
        numbers = array.array("Q", file.read(8))
        if numbers[0] > ROOM:
            raise Failure("the program runs too much code for one profile")
        numbers.frombytes(file.read(8 * (numbers[0] - 1)))
    trace, blocks, at = Trace(), {}, 1
    while at < len(numbers) and numbers[at]:  # a record into whose writing a signal came is none, and is the last
        if numbers[at] == BLOCK:
            length, count = numbers[at + 1 : at + BLOCK_HEAD]
            blocks[at] = tuple(numbers[at + BLOCK_HEAD : at + BLOCK_HEAD + length])
            trace.runs[blocks[at]] += count
            at += BLOCK_HEAD + length
        else:
            start, end, count = numbers[at + 1 : at + EDGE_SIZE]
            trace.runs[blocks[end]] += count
            trace.transfers[blocks[start][-1], blocks[end][0]] += count
            at += EDGE_SIZE
    return trace


class Log:
    """What qemu logs of translation blocks, some lines at a time. `IN:` begins the instructions of a new block, `Trace`
    names a block that a thread is about to run, and `Stopped` one that it didn't run after all."""

    LINES = re.compile(rb"^Trace (\d+): \S+ \[[0-9a-f]+/([0-9a-f]+)/[^\n]*\n(?!Stopped)|^0x([0-9a-f]+): |^(IN): ", re.M)
    RUNS = re.compile(rb"^Trace 0: \S+ \[[0-9a-f]+/([0-9a-f]+)/", re.M)

    def __init__(self):
        self.trace = Trace()
        self.trace.is_logged = True
        self.code, self.making, self.last = {}, None, {}  # blocks by start, the new one, and each thread's last one
        self.counts, self.pairs = collections.Counter(), collections.Counter()

    def add_up(self):
        """Adds what was counted while the blocks that begin at an address stayed the same."""
        for start, count in self.counts.items():
            self.trace.runs[self.code[start]] += count
        for (start, end), count in self.pairs.items():
            self.trace.transfers[self.code[start][-1], int(end, 16)] += count
        self.counts.clear()
        self.pairs.clear()

    def _made(self):
        """Keeps the block whose instructions came last."""
        code = tuple(int(word, 16) for word in self.making)
        start = b"%016x" % code[0]
        if self.code.get(start, code) != code:
            self.add_up()
        self.code[start], self.making = code, None

    def _ran(self, starts, cpu=b"0"):
        """Counts blocks that a thread ran in turn."""
        before = self.last.get(cpu)
        self.counts.update(starts)
        self.pairs.update(zip([before, *starts] if before else starts, starts if before else starts[1:]))
        self.last[cpu] = starts[-1]

    def _ran_alone(self, text):
        """Whether lines only say what the first thread ran, which is then counted."""
        if self.making or b"IN: " in text or b"\nStopped" in text:
            return False
        starts = self.RUNS.findall(text)
        if len(starts) != text.count(b"\n"):
            return False
        if starts:
            self._ran(starts)
        return True

    def read(self, text):
        """Reads whole lines."""
        if self._ran_alone(text):
            return
        for cpu, start, at, begins in self.LINES.findall(text):
            if at:
                if self.making is not None:
                    self.making.append(at)
                continue
            if self.making:  # a thread may be stopped before it runs that block
                self._made()
            if start:
                self._ran([start], cpu)
            elif begins:
                self.making = []


def _run_with_log(words, streams):
    read, write = os.pipe()
    with os.fdopen(read, "rb", buffering=0) as lines:
        try:
            command = [QEMU, "-d", "in_asm,exec,nochain", "-D", f"/dev/fd/{write}", *words]
            process = subprocess.Popen(command, pass_fds=[write], **streams)
        finally:
            os.close(write)
        with _signals_for(process):
            trace = _read_log(lines)
            return process.wait(), trace


def _read_log(lines):
    log, rest = Log(), b""
    while more := lines.read(AT_ONCE):
        text = rest + more
        # the last line waits for the one after it, which may say that it was stopped
        cut = text.rfind(b"\n", 0, max(text.rfind(b"\n"), 0)) + 1
        rest = text[cut:]
        log.read(text[:cut])
    log.read(rest)
    log.add_up()
    return log.trace
