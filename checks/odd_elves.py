#!/usr/bin/env python3
"""Sends odd executables through `rewrite`, and reports what it should not have made of them.

    python3 checks/odd_elves.py PROGRAM COUNT SEED [--only ODDITY] [--keep FOLDER]

PROGRAM is the built program, as crates/bolt_cli/out/bolt_cli, or another command, as `python3 other.py`. COUNT
files are made, the same ones for the same SEED; 2000 from 1 on have each oddity in some forty files. --only
gives each file just the one of that name. Each is a small program for RV64, laid out by the ELF standard alone,
with some oddities that no linker makes: tables in any order, headers and sections that name the same bytes or
none, huge alignments, symbols without a home and so on. A rewriter has to take each file or to refuse it by
name; but where an alignment is huge, so that a file would have more than a GiB, or the standard doesn't allow
an oddity, as a symbol table that is no table of names and yet its own, it may be out of memory
(`unwritable_oddity` of `odd/shape.py`).

Reported are: a status other than 0 and 221, a signal, a run that takes more than a minute, a written file
that ends otherwise than its input, where that ends with `--symbols`, and complaints of `readelf -aW` (GNU
binutils) and of `eu-elflint --gnu-ld` (elfutils) about the written file that they don't have of its input.
The last two are left out where the tool isn't installed. With --keep the reported files stay in FOLDER. The
closing lines count the answers, and for each such oddity the files that were out of memory. The status is 0
where nothing was reported.
"""
import argparse
import collections
import os
import random
import re
import shlex
import shutil
import struct
import subprocess
import sys
import tempfile

import odd.code
import odd.sections  # noqa: F401, its functions become oddities
import odd.segments  # noqa: F401
from odd.shape import ODDITIES, UNWRITABLE, Shape

OK, REFUSED, OUT_OF_MEMORY = 0, 221, 224
SECONDS, TIMED_OUT = 60, -1000
SHT_SYMTAB, SHT_RELA, SYMBOL_SIZE = 2, 4, 24
PT_LOAD, PT_NOTE, NOTE_HEADER = 1, 4, 12


def make(rng, only):
    """A file, a profile, and the names of the oddities of the file: up to five, or one by name."""
    shape = Shape(rng)
    count = rng.choice([1, 1, 2, 2, 3, 4, 5])
    chosen = [o for o in ODDITIES if o.__name__ == only] or rng.sample(ODDITIES, count)
    for change in chosen:
        change(shape, rng)
    text = odd.code.profile(shape.code, rng) if rng.random() < 0.8 else ""
    return shape.elf.build(), text.encode(), [o.__name__ for o in chosen]


class Headers:
    """What complaints name by its number."""

    def __init__(self, path):
        with open(path, "rb") as file:
            data = file.read()
        programs, sections = struct.unpack_from("<QQ", data, 0x20)
        program_count, = struct.unpack_from("<H", data, 0x38)
        section_count, self.names = struct.unpack_from("<HH", data, 0x3C)
        self.programs = [struct.unpack_from("<IIQQQQQQ", data, programs + 56 * k) for k in range(program_count)]
        self.data = data
        self.sections = [struct.unpack_from("<IIQQQQIIQQ", data, sections + 64 * k) for k in range(section_count)]

    def name(self, section):
        at = self.sections[self.names][4] + self.sections[section][0]
        return self.data[at:self.data.find(b"\0", at)]

    def home(self, table, symbol):
        """The section of a symbol of a table."""
        return struct.unpack_from("<H", self.data, self.sections[table][4] + SYMBOL_SIZE * symbol + 6)[0]

    def is_dropped(self, section):
        return self.sections[section][1] == SHT_RELA or self.name(section) in (b".debug_macro", b".gdb_index")

    def is_empty(self, section):
        """It goes with the loaded bytes behind it, and so maybe out of its segment."""
        return self.sections[section][5] == 0

    def is_table_of_names(self, section):
        """The symbols, their names or those of sections: a written file has them anew, where no segment loads."""
        symbols = [k for k, s in enumerate(self.sections) if s[1] == SHT_SYMTAB][:1]
        return section in symbols + [self.sections[k][6] for k in symbols] + [self.names]

    def has_no_bytes(self, program):
        """Its offset says nothing, and doesn't pass the written file's end."""
        return self.programs[program][5] == 0

    def is_unloaded(self, program):
        """No loaded segment has its first byte. gABI, "Program Loading": only in loaded segments offsets and addresses
        agree."""
        offset = self.programs[program][2]
        loads = [it for it in self.programs if it[0] == PT_LOAD]
        return not any(it[2] <= offset < it[2] + it[5] for it in loads)

    def unread_notes(self, program):
        """The bytes of a segment whose notes libelf doesn't read, with its padding of them; nothing of another one."""
        kind, _, offset, _, _, size, _, align = self.programs[program]
        notes, padding = self.data[offset:offset + size], 8 if align == 8 else 4
        return None if kind != PT_NOTE or are_whole(notes, padding) else (notes, padding)


def are_whole(notes, padding):
    """Whether bytes hold notes whose names and descriptors are all padded to a multiple of that. If a segment is
    aligned to another one than its notes are padded to, or ends before the last padding, libelf reads none."""
    at = 0
    while at < len(notes):
        if len(notes) < at + NOTE_HEADER:
            return False
        name, descriptor = struct.unpack_from("<II", notes, at)
        for length in (NOTE_HEADER + name, descriptor):
            at += length + -(at + length) % padding
    return at == len(notes)


def is_no_matter(line, headers, written):
    """Complaints that are due to what a written file is, by the headers of its input and its own."""
    section = re.search(r"section \[ *(\d+)\]", line)
    number = int(section[1]) if section else len(headers.sections)
    if number < len(headers.sections):
        if headers.is_dropped(number) or headers.is_empty(number) and "segment" in line:
            return True
        if "alloc flag set but section not in any loaded segment" in line and headers.is_table_of_names(number):
            return True
    note = re.match(r"phdr\[(\d+)\]: cannot get content of note section", line)
    if note:  # of the input too: the line goes on with libelf's last error, and that is of a call before
        notes = written.unread_notes(int(note[1]))
        return notes is not None and notes in map(headers.unread_notes, range(len(headers.programs)))
    symbol = re.search(r"section \[ *(\d+)\] '[^']*': symbol (\d+) \([^)]*\): st_value out of bounds", line)
    if symbol:
        home = written.home(int(symbol[1]), int(symbol[2]))
        return home < len(headers.sections) and headers.is_dropped(home)
    program = re.search(r"program header entry (\d+): file offset and virtual address not module of alignment", line)
    if not program or int(program[1]) >= len(headers.programs):
        return False
    return headers.has_no_bytes(int(program[1])) or written.is_unloaded(int(program[1]))


def normalised(line):
    """A complaint without what differs between a file and its rewrite: numbers, how code was named, and what follows a
    note, of whose section eu-elflint passes the end."""
    line = re.sub(r"symbol \d+ \([^)]*\)", "symbol", line.replace("'.old.", "'."))
    line = re.sub(r"with owner name '[^']*'", "with owner name", line)
    line = re.sub(r"0x[0-9a-f]+|\b[0-9a-f]*[0-9][0-9a-f]*\b", "#", line)
    return re.sub(r"\s+", " ", line).strip()


def run_tool(words):
    """The status, negative for a signal, and what was printed."""
    try:
        done = subprocess.run(words, capture_output=True, timeout=SECONDS)
    except subprocess.TimeoutExpired:
        return TIMED_OUT, ""
    return done.returncode, (done.stdout + b"\n" + done.stderr).decode(errors="replace")


def failure(status):
    """How a tool failed that didn't end by itself."""
    return ["timed out" if status == TIMED_OUT else f"signal {-status}"] if status < 0 else []


def readelf_complaints(path):
    status, text = run_tool(["readelf", "-aW", path])
    text = text.replace("readelf: ", "\nreadelf: ")            # where a line before it has no end
    lines = [line.replace(path, "FILE") for line in text.splitlines() if re.search(r"readelf: |<corrupt", line)]
    return lines + failure(status)


def elflint_complaints(path):
    status, text = run_tool(["eu-elflint", "--gnu-ld", path])
    text = text.replace("PHDR entry do not match", "PHDR entry do not match\n")      # it forgets to end that line
    lines = [line for line in text.splitlines() if line.strip() and line.strip() != "No errors"]
    return lines + failure(status)


def new_complaints(complaints, before, after):
    """What a tool says of the written file alone."""
    known = {normalised(line) for line in complaints(before)}
    headers, written = Headers(before), Headers(after)
    news = {}
    for line in complaints(after):
        if normalised(line) not in known and not is_no_matter(line, headers, written):
            news.setdefault(normalised(line), line)
    return list(news.values())


def ending(program, path, *options):
    """How a run ends, without its count of steps."""
    status, text = run_tool(program + ["run", "--steps", "5000", *options, path])
    last = [line for line in text.splitlines() if line.startswith("[")][-1:]
    return re.sub(r" (at \S+ )?after \d+ steps", "", last[0]) if last else f"status {status}"


class Judge:
    def __init__(self, program):
        self.program = program
        self.tools = []
        for tool, complaints in (("readelf", readelf_complaints), ("eu-elflint", elflint_complaints)):
            if shutil.which(tool):
                self.tools.append((tool, complaints))
            else:
                print(f"{tool} isn't installed: what it would say is left out")

    def judge(self, folder, is_writable):
        """The answer to the file `in` with the profile `profile` in a folder, and what is wrong with it."""
        before, profile, after, map_file = (os.path.join(folder, n) for n in ("in", "profile", "out", "map"))
        status, text = run_tool(self.program + ["rewrite", before, profile, after, map_file])
        if status < 0:
            return failure(status)[0], failure(status)
        if status == REFUSED:
            return " ".join(text.split()[:3]), []
        if status == OUT_OF_MEMORY:
            return "out of memory", ["out of memory"] * is_writable
        if status != OK:
            return f"status {status}", [f"status {status}"]
        wrong = []
        ends = [ending(self.program, before, "--symbols"), ending(self.program, after)]
        wrong += [f"a run ends with {end}" for end in ends if not end.startswith("[")]
        if ends[0].startswith("[ended") and ends[0] != ends[1]:
            wrong.append(f"runs end differently: {ends[0]}, {ends[1]}")
        for tool, complaints in self.tools:
            wrong += [f"{tool}: {line}" for line in new_complaints(complaints, before, after)]
        return "written", wrong


def keep(folder, kept, name):
    for part in ("in", "profile", "out"):
        source = os.path.join(folder, part)
        if os.path.exists(source):
            shutil.copy(source, os.path.join(kept, f"{name}.{part}"))


def main():
    parser = argparse.ArgumentParser()
    parser.add_argument("program")
    parser.add_argument("count", type=int)
    parser.add_argument("seed", type=int)
    parser.add_argument("--keep")
    parser.add_argument("--only", choices=[o.__name__ for o in ODDITIES], help="one oddity in each file")
    words = parser.parse_args()
    if words.keep:
        os.makedirs(words.keep, exist_ok=True)
    judge = Judge([words.program] if os.path.exists(words.program) else shlex.split(words.program))
    answers, unwritten, reported = collections.Counter(), collections.Counter(), collections.Counter()
    for seed in range(words.seed, words.seed + words.count):
        file, profile, oddities = make(random.Random(seed), words.only)
        with tempfile.TemporaryDirectory() as folder:
            for name, content in (("in", file), ("profile", profile)):
                with open(os.path.join(folder, name), "wb") as out:
                    out.write(content)
            excuses = UNWRITABLE.intersection(oddities)
            answer, wrong = judge.judge(folder, not excuses)
            answers[answer] += 1
            unwritten.update(sorted(excuses) if answer == "out of memory" else [])
            if wrong:
                print(f"seed {seed} ({', '.join(oddities)}):")
                for line in wrong:
                    print(f"    {line}")
                    reported[normalised(line)] += 1
                if words.keep:
                    keep(folder, words.keep, f"{seed}")
    for title, counter in (("answers", answers), ("out of memory", unwritten), ("reported", reported)):
        print(f"{title}:")
        for line, count in counter.most_common():
            print(f"{count:7} {line}")
    return 1 if reported else 0


if __name__ == "__main__":
    sys.exit(main())
