"""Control-flow graphs of linked programs and their profiles, for scripts that make profiles.

The blocks and edges are those that the tool itself has: `sudrepka repair` prints them for each function that a profile
enters, so it is given a profile that enters each. A script that uses this module ends by `run_script`, which says a
`Failure` in one line.
"""
import argparse
import bisect
import collections
import contextlib
import os
import re
import shutil
import signal
import struct
import subprocess
import sys
import tempfile
import typing

HERE = os.path.dirname(os.path.abspath(__file__))
TOOL = "sudrepka"
MOST_COUNT = 2**64 - 1  # of a line of a profile
# How an instruction passes control on.
BRANCH, CALL, JUMP, RETURN, OTHER = "branch", "call", "jump", "return", "other"
# ELF: types of sections and symbols, and the flag of sections of code.
SYMBOL_TABLE, NO_BITS, FUNCTION, EXECUTABLE, UNDEFINED = 2, 8, 2, 4, 0


class Failure(Exception):
    """Why a script can't do what it was asked for, as one sentence."""


def run_script(main):
    """Ends with the status that `main` gives, and with 1 and a line on standard error after a failure."""
    for number in (signal.SIGTERM, signal.SIGHUP):  # so that nothing is left behind
        if signal.getsignal(number) != signal.SIG_IGN:
            signal.signal(number, lambda it, frame: sys.exit(128 + it))
    try:
        status = main()
        sys.stdout.flush()
    except Failure as failure:
        print(failure, file=sys.stderr)
        status = 1
    except BrokenPipeError:  # nobody reads on
        os.dup2(os.open(os.devnull, os.O_WRONLY), sys.stdout.fileno())
        status = 1
    except OSError as error:
        print(f"{error.filename or 'this system'}: {error.strerror or error}", file=sys.stderr)
        status = 1
    except KeyboardInterrupt:
        status = 130
    sys.exit(status)


def add_tool_option(parser: argparse.ArgumentParser):
    """Adds `--tool`, which `find_tool` takes."""
    parser.add_argument("--tool", metavar="COMMAND", help=f"the command that takes `rewrite ..`; else the checkout's "
                        f"{TOOL}, or that on the path")


def program_words(words):
    """The words that a program gets of those after the script's own: without `--` before them."""
    return words[1:] if words[:1] == ["--"] else words


def find_tool(given=None):
    """The words of the tool's command: those that were given, else the script of this checkout, else that on the path.
    The script builds the program, if it has to; then the program takes its place, since the script looks at the times
    of all sources in each call."""
    beside = os.path.join(os.path.dirname(HERE), TOOL)
    command = beside if os.path.isfile(beside) else TOOL
    words = [command] if given is None else [given] if os.path.isfile(given) else given.split()
    found = shutil.which(words[0]) if words else None
    if not found:
        raise Failure(f"there is no command {given or TOOL}: --tool COMMAND tells where it is")
    folder = os.path.dirname(os.path.realpath(found))
    programs = [os.path.join(folder, *path) for path in (("crates", "bolt_cli", "out", "bolt_cli"), ("program",))]
    if os.path.basename(found) != TOOL:
        return words
    status = subprocess.run(words, stdin=subprocess.DEVNULL, stdout=subprocess.DEVNULL, check=False).returncode
    if status < 0 or status in (1, 126, 127):  # without a command the tool ends with 220
        raise Failure(f"{found} ended with {status}: is it built?")
    return next(([it] for it in programs if os.path.isfile(it)), words)


def call_tool(tool, *words):
    """What a command of the tool printed. It has to end with 0."""
    done = subprocess.run([*tool, *words], stdin=subprocess.DEVNULL, capture_output=True, text=True, errors="replace",
                          check=False)
    if done.returncode != 0:
        said = done.stdout.strip().rpartition("\n")[2]
        raise Failure(f"{words[1]}: {said or f'{words[0]} ended with {done.returncode}'}")
    return done.stdout


@contextlib.contextmanager
def written_whole(path, mode=None):
    """The path of an empty file beside `path`, which takes its place after the block, with these permissions; after a
    failure it is removed."""
    real = os.path.realpath(path)
    if os.path.exists(real) and not os.path.isfile(real):
        raise Failure(f"{path} is no file that can be replaced")
    folder, name = os.path.split(real)
    try:
        number, draft = tempfile.mkstemp(prefix=f".{name}.", dir=folder)
    except OSError as error:
        raise Failure(f"{path} can't be written: {error.strerror}") from None
    os.close(number)
    try:
        yield draft
        if mode is None:
            mask = os.umask(0)
            os.umask(mask)
            mode = os.stat(real).st_mode & 0o777 if os.path.exists(real) else 0o666 & ~mask
        os.chmod(draft, mode)
        os.replace(draft, real)
    except BaseException:
        os.unlink(draft)
        raise


def want_other(out, path):
    """Fails if a file would be written over the program that it is made of."""
    if os.path.exists(out) and os.path.exists(path) and os.path.samefile(out, path):
        raise Failure(f"{out} is the program itself: give another name")


def signed(word, places):
    """The number whose bits lie at these places of a word: first its sign, then the others from the highest one."""
    value = -(word >> places[0] & 1)
    for place in places[1:]:
        value = value * 2 + (word >> place & 1)
    return value


JAL_PLACES = [31, *range(19, 11, -1), 20, *range(30, 20, -1)]
BRANCH_PLACES = [31, 7, *range(30, 24, -1), *range(11, 7, -1)]
C_J_PLACES = [12, 8, 10, 9, 6, 7, 2, 11, 5, 4, 3]
C_BRANCH_PLACES = [12, 6, 5, 2, 11, 10, 4, 3]


LINKS = 1, 5  # registers from which an indirect jump is a return (the manual's hints for return-address stacks)


def kind_of(word):
    """How the instruction passes control on whose lowest bits are a word of 32 bits."""
    if word & 3 == 3:
        code, saves = word & 0x7F, word >> 7 & 31 != 0
        if code == 0x63:
            return BRANCH
        if code == 0x6F:
            return CALL if saves else JUMP
        if code == 0x67:
            return CALL if saves else RETURN if word >> 15 & 31 in LINKS else JUMP
        return OTHER
    half = word & 0xFFFF
    if half & 3 == 1 and half >> 13 >= 5:
        return JUMP if half >> 13 == 5 else BRANCH
    if half & 0xE07F == 0x8002 and half >> 7 & 31:  # C.JR, C.JALR
        return CALL if half & 0x1000 else RETURN if half >> 7 & 31 in LINKS else JUMP
    return OTHER


class Elf:
    """A linked file: its entry point, its sections of code, and where functions may start.

    `cuts` holds the starts and ends of sections of code and of functions, ascending; `starts` those at which a function
    starts; `names` one name by address, and `named` the addresses by name.
    """

    def __init__(self, path):
        with open(path, "rb") as file:
            self.data = file.read()
        if self.data[:6] != b"\x7fELF\x02\x01":
            raise Failure(f"{path} is no ELF file of 64 bits")
        try:
            self._read()
        except (struct.error, IndexError, ValueError):
            raise Failure(f"{path} is a damaged ELF file") from None

    def _read(self):
        self.entry, = struct.unpack_from("<Q", self.data, 24)
        table, = struct.unpack_from("<Q", self.data, 40)
        count, = struct.unpack_from("<H", self.data, 60)
        sections = [struct.unpack_from("<IIQQQQIIQQ", self.data, table + 64 * i) for i in range(count)]
        # of each its start, its size and its place in the file
        self.code = sorted((s[3], s[5], s[4]) for s in sections if s[2] & EXECUTABLE and s[1] != NO_BITS and s[5])
        self._starts = [start for start, _, _ in self.code]
        self.names, self.named = {}, collections.defaultdict(set)
        cuts = {cut for start, size, _ in self.code for cut in (start, start + size)}
        for section in sections:
            if section[1] == SYMBOL_TABLE:
                cuts |= set(self._functions(section, sections[section[6]][4]))
        self.cuts = sorted(cuts)
        self.starts = {cut for cut in cuts if self.is_code(cut)}

    def _functions(self, section, strings):
        """Reads a table of symbols, and gives the starts and ends of its functions."""
        for at in range(section[4], section[4] + section[5], 24):
            name, info, _, index, value, size = struct.unpack_from("<IBBHQQ", self.data, at)
            if info & 15 == FUNCTION and index != UNDEFINED:
                end = self.data.index(b"\0", strings + name)
                text = self.data[strings + name : end].decode(errors="replace")
                self.names.setdefault(value, text)
                self.named[text].add(value)
                yield value
                yield value + size

    def _section(self, address):
        i = bisect.bisect_right(self._starts, address) - 1
        return self.code[i] if i >= 0 and address < self.code[i][0] + self.code[i][1] else None

    def is_code(self, address):
        """Whether an address lies in a section of code."""
        return self._section(address) is not None

    def word(self, address):
        """The four bytes at an address of code, of which the last two may be of the next instruction; 0 elsewhere."""
        section = self._section(address)
        if section is None:
            return 0
        at = section[2] + address - section[0]
        return int.from_bytes(self.data[at : at + 4], "little")

    def size(self, address):
        """The bytes of the instruction at an address."""
        return 4 if self.word(address) & 3 == 3 else 2

    def kind(self, address):
        """How the instruction at an address passes control on."""
        return kind_of(self.word(address))

    def target(self, address):
        """Where the branch or direct jump at an address goes, or nothing."""
        word = self.word(address)
        if word & 0x7F == 0x6F:
            return address + 2 * signed(word, JAL_PLACES)
        if word & 0x7F == 0x63:
            return address + 2 * signed(word, BRANCH_PLACES)
        if word & 3 == 1 and word >> 13 & 7 == 5:
            return address + 2 * signed(word, C_J_PLACES)
        if word & 3 == 1 and word >> 13 & 7 > 5:
            return address + 2 * signed(word, C_BRANCH_PLACES)
        return None


class Block(typing.NamedTuple):
    """A basic block: the function that it is of, and the addresses of its instructions."""

    function: int
    code: list

    @property
    def start(self):
        """The address of its first instruction."""
        return self.code[0]

    @property
    def last(self):
        """The address of its last instruction."""
        return self.code[-1]


class Graph:
    """The blocks of a file and the edges between them.

    `blocks` and `starts` (ascending) are of all blocks, by their first addresses; `owner` gives an instruction's block;
    `last_of` the block that ends with an instruction. `edges` are pairs of starts of blocks, and `successors` and
    `predecessors` the same by block; None is all code outside the function.
    """

    def __init__(self, tool, path):
        self.elf = Elf(path)
        self.starts, self.edges = _blocks_and_edges(_listed(tool, path, self.elf))
        self.blocks = {start: self._block(start, end) for start, end in zip(self.starts, [*self.starts[1:], None])}
        self.owner = {at: block for block in self.blocks.values() for at in block.code}
        self.last_of = {block.last: block for block in self.blocks.values()}
        self.successors, self.predecessors = collections.defaultdict(list), collections.defaultdict(list)
        for start, end in self.edges:
            self.successors[start].append(end)
            self.predecessors[end].append(start)

    def _block(self, start, following):
        i = bisect.bisect_right(self.elf.cuts, start)
        end = self.elf.cuts[i] if following is None else min(self.elf.cuts[i], following)
        code = [start]
        while code[-1] + self.elf.size(code[-1]) < end:
            code.append(code[-1] + self.elf.size(code[-1]))
        return Block(self.elf.cuts[i - 1], code)

    def is_source(self, address):
        """Whether `record` counts moves from there: the end of a block, or what saves a return address."""
        return address in self.last_of or address in self.owner and self.elf.kind(address) == CALL

    def line(self, start, end, count):
        """The line of a profile that says how often control went from one instruction to another."""
        source, target = self.owner[start].function, self.owner[end].function
        return f"1 @{source:x} {start - source:x} 1 @{target:x} {end - target:x} 0 {count}\n"

    def write_profile(self, path, counts):
        """Writes counts of pairs of instructions, in the order in which `record` does."""
        with open(path, "w", encoding="ascii") as file:
            for (start, end), count in sorted(counts.items()):
                while count > 0:
                    file.write(self.line(start, end, min(count, MOST_COUNT)))
                    count -= MOST_COUNT

    def read_profile(self, path):
        """The counts of pairs of instructions that a profile names, and how many of its lines name none."""
        counts, unfit = collections.Counter(), 0
        form = re.compile(r"1 (\S+) ([0-9a-f]+) 1 (\S+) ([0-9a-f]+) [0-9]+ ([0-9]+)")
        with open(path, encoding="utf-8", errors="replace", newline="\n") as lines:
            for line in lines:
                row = form.fullmatch(line.rstrip("\n"))
                start, end = (self._place(row[1], row[2]), self._place(row[3], row[4])) if row else (None, None)
                if start is None or end is None:
                    unfit += 1
                else:
                    counts[start, end] += int(row[5])
        return +counts, unfit

    def _place(self, name, offset):
        """The instruction at an offset of a function, or nothing. A name of several functions names none."""
        address = re.fullmatch("@(0|[1-9a-f][0-9a-f]*)", name)
        found = {int(address[1], 16)} & self.elf.starts if address else self.elf.named.get(name, ())
        place = min(found) + int(offset, 16) if len(found) == 1 else None
        return place if place in self.owner else None


def _listed(tool, path, elf):
    """The lines that `repair` prints of a profile by which each function of a file is entered."""
    with tempfile.TemporaryDirectory() as folder:
        asked = os.path.join(folder, "asked")
        with open(asked, "w", encoding="ascii") as file:
            file.writelines(_entering(elf))
        return call_tool(tool, "repair", path, asked, os.path.join(folder, "repaired")).splitlines()


def _entering(elf):
    """The lines of a profile by which each function is entered. What is alone has no other one to be entered from, so
    each of its edges is taken."""
    functions = sorted(elf.starts)
    for function in functions[1:]:
        yield f"1 @{functions[0]:x} 0 1 @{function:x} 0 0 1\n"
    if len(functions) > 1:
        yield f"1 @{functions[1]:x} 0 1 @{functions[0]:x} 0 0 1\n"
        return
    for start in functions:
        at, end = start, elf.cuts[-1]
        while at < end:
            following = at + elf.size(at)
            for target in {following, elf.target(at)} - {None}:
                yield f"1 @{start:x} {at - start:x} 1 @{start:x} {max(target - start, 0):x} 0 1\n"
            at = following


def _blocks_and_edges(lines):
    """The starts of blocks, ascending, and the edges that `repair` printed."""
    starts, edges = [], []

    def place(word):
        return None if word == "-" else int(word, 16)

    for line in lines:
        words = line.split()
        if words[0] == "price":
            starts.append(int(words[1], 16))
        elif words[0] == "link":
            edges.append((place(words[1]), place(words[2])))
    return sorted(starts), edges
