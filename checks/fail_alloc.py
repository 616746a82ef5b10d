#!/usr/bin/env python3
"""Refuses each request for memory of each command in turn, and tells where the answer isn't one that may come then.

    python3 checks/fail_alloc.py PROGRAM [COMMAND..]

PROGRAM is the built program, as crates/bolt_cli/out/bolt_cli. Its requests go to malloc and realloc of the C library
(`nm -D` names no other call for memory), and a small library that is loaded before it (made here by `cc`) refuses the
one of a number. `rt try --fail-alloc` refuses one number a run of the toolchain; here it is thousands of them, of the
program that is used. Each command is run on the sample of one function once for each of its requests. It has to be out
of memory, with nothing printed and no file written; or to do the same as where nothing is refused, where it could do
without. A line says for each command how many requests it makes, and how often it was out of memory; the status is 1
where something else came. On 2026-11-30 nothing else came: of 2,588 requests of all commands, 686 of them of `rewrite`,
2,436 were answered as out of memory.
"""
from __future__ import annotations
import argparse
import os
import subprocess
import sys
import tempfile
from dataclasses import dataclass

SHIM = r"""
#include <errno.h>
#include <stdlib.h>
#include <unistd.h>

void *__libc_malloc(size_t size);
void *__libc_realloc(void *old, size_t size);

static unsigned long left;
static int is_ready;

static int is_refused(void) {
    if (!is_ready) {
        const char *number = getenv("REFUSED_REQUEST");
        left = number ? strtoul(number, NULL, 10) : 0;
        is_ready = 1;
    }
    if (left == 0 || --left != 0)
        return 0;
    errno = ENOMEM;
    return write(atoi(getenv("MARKS")), "refused", 7) > 0;
}

void *malloc(size_t size) { return is_refused() ? NULL : __libc_malloc(size); }

void *realloc(void *old, size_t size) { return is_refused() ? NULL : __libc_realloc(old, size); }
"""
USAGE, NO_MEMORY = 220, 224
COMMANDS = {
    "usage": "", "rewrite": "rewrite s p out map", "map": "map s p", "run": "run s word",
    "run --symbols": "run --symbols s word", "record": "record s out", "repair": "repair s p out",
    "verify": "verify s moved moved.map", "lookup": "lookup s 11010", "frames": "frames s 11010",
    "sample": "sample 1 out map"}
WRITTEN = ("out", "map")


@dataclass(frozen=True)
class Answer:
    status: int
    printed: bytes
    said: bytes
    files: tuple[bytes | None, ...]


class Tool:
    def __init__(self, program: str):
        self.program = os.path.abspath(program)
        with open("shim.c", "w", encoding="utf-8") as file:
            file.write(SHIM)
        subprocess.run(["cc", "-O2", "-shared", "-fPIC", "-o", "shim.so", "shim.c"], check=True)

    def run(self, words: list[str], number: int = 0) -> tuple[Answer, bool]:
        """The answer where the request of this number is refused, and whether there was one."""
        for name in WRITTEN:
            if os.path.exists(name):
                os.unlink(name)
        with open("marks", "w+b") as marks:
            # (spaces and colons of a path would part it there)
            environment = {"LD_PRELOAD": "./shim.so", "REFUSED_REQUEST": str(number),
                           "MARKS": str(marks.fileno())}
            done = subprocess.run([self.program, *words], env=environment, capture_output=True, timeout=120,
                                  stdin=subprocess.DEVNULL, pass_fds=[marks.fileno()], check=False)
            refused = os.fstat(marks.fileno()).st_size > 0
        files = tuple(open(name, "rb").read() if os.path.exists(name) else None for name in WRITTEN)
        return Answer(done.returncode, done.stdout, done.stderr, files), refused


def judged(tool: Tool, name: str) -> bool:
    """Whether a command answers well, whichever request is refused."""
    words = COMMANDS[name].split()
    usual, _ = tool.run(words)
    number, wanting, wrong = 1, 0, 0
    while True:
        answer, refused = tool.run(words, number)
        if not refused:
            break
        if answer.status == NO_MEMORY and answer.files == (None, None) and not answer.said and not answer.printed:
            wanting += 1
        elif answer != usual:
            wrong += 1
            print(f"{name}, request {number}: status {answer.status}, {answer.printed[:80]!r}, {answer.said[:80]!r}")
        number += 1
    if number == 1 or usual.status < 0 or (usual.status >= USAGE) != (name == "usage"):
        print(f"{name}: {number - 1} requests, and status {usual.status} where none is refused: nothing was tried")
        return False
    last = usual.printed.decode(errors="replace").splitlines()[-1][-60:]
    print(f"{name}: {number - 1} requests, {wanting} times out of memory; else {last}", flush=True)
    return wrong == 0


def main() -> int:
    parser = argparse.ArgumentParser()
    parser.add_argument("program")
    parser.add_argument("commands", nargs="*", choices=[[], *COMMANDS], default=[])
    given = parser.parse_args()
    program = os.path.abspath(given.program)
    with tempfile.TemporaryDirectory() as folder:
        os.chdir(folder)
        tool = Tool(program)
        for words in (["sample", "1", "s", "p"], ["rewrite", "s", "p", "moved", "moved.map"]):
            if tool.run(words)[0].status != 0:
                sys.exit(f"{' '.join(words)} fails")
        well = [judged(tool, name) for name in given.commands or COMMANDS]
    return 0 if all(well) else 1


if __name__ == "__main__":
    sys.exit(main())
