#!/usr/bin/env python3
"""Types the command lines of README.md and docs/USING.md as they are written, and says which of them fail.

    python3 checks/readme.py [--tool PROGRAM]

The lines of a page are typed into one shell, one after another, in a fresh clone of this repository, whose pages are
read. PROGRAM takes the place of `sudrepka` there, so that nothing has to be proved; otherwise the clone is built. Lines
that install packages are left out. ADDRESS is that of the moved function `main`. A line fails if it ends with 1, 2, 126,
127, 129 to 159 as by a signal, or 220 and more, or doesn't print what the page has below it. The lines of USING.md are
typed once for each compiler. Nothing may be left in the clone that `git status` shows. The status is 0 if no line fails.
"""
import argparse
import os
import re
import shlex
import subprocess
import sys
import tempfile

ROOT = os.path.dirname(os.path.dirname(os.path.abspath(__file__)))
PAGES = ("README.md", "docs/USING.md")
LEFT_OUT = ("apt-get ",)
COMPILERS = ("riscv64-unknown-elf-gcc ", "clang-19 ")
ADDRESS = r"$(riscv64-unknown-elf-nm moved | sed -n 's/^0*\(.*\) T main$/\1/p')"
MARK = "=== end of line"


def command_lines(text):
    """Each command line with the lines that it is to print."""
    found = []
    for block in re.findall(r"(?:^    .*\n)+", text, re.M):
        said = None  # what the line before is to print
        for line in block.replace("\\\n", " ").splitlines():
            if line.startswith("    $ "):
                said = []
                found.append((line[6:], said))
            elif said is not None:
                said.append(line[4:])
    return [(line, said) for line, said in found if not line.startswith(LEFT_OUT)]


def sessions(lines):
    """The lines that are typed, once for each compiler that is among them."""
    there = [own for own in COMPILERS if any(line.startswith(own) for line, _ in lines)]
    for own in there:
        others = tuple(name for name in COMPILERS if name != own)
        yield own.strip(), [(line, said) for line, said in lines if not line.startswith(others)]


def typed(lines, folder):
    """Types lines into a shell. Gives of each what was printed, and its status."""
    text = ""
    for line, _ in lines:
        wait = "sleep 2; " if line.endswith("&") else ""  # until qemu listens
        text += f"{{ {line.replace('ADDRESS', ADDRESS)}\n}} < /dev/null\nstatus=$?; {wait}echo; echo '{MARK}' $status\n"
    text += "kill $(jobs -pr) 2> /dev/null\n"  # what still waits holds the pipe open
    done = subprocess.run(["bash"], input=text, cwd=folder, stdout=subprocess.PIPE, stderr=subprocess.STDOUT, text=True,
                          errors="replace", check=False)
    parts = re.split(rf"^{MARK} (\d+)\n", done.stdout, flags=re.M)
    return [(printed, int(status)) for printed, status in zip(parts[0::2], parts[1::2])]


def is_well(status, printed, said):
    """Whether a line that printed this did what it has to."""
    seen = " ".join(printed.split())
    ended = status not in (1, 2, 126, 127) and not 128 < status < 160 and status < 220
    return ended and all(" ".join(part.split()) in seen for part in said)


def read_page(folder, page, tool):
    """The command lines of a page, without the build if a tool takes its place."""
    with open(os.path.join(folder, page), encoding="utf-8") as file:
        lines = command_lines(file.read())
    return [(line, said) for line, said in lines if not tool or line != "./build"]


def try_page(folder, page, tool):
    """Types the lines of a page. Gives how many fail."""
    failed = 0
    for compiler, session in sessions(read_page(folder, page, tool)):
        for (line, said), (printed, status) in zip(session, typed(session, folder), strict=True):
            well = is_well(status, printed, said)
            failed += not well
            print(f"{page}, {compiler}: {'' if well else f'FAILS ({status}): '}{line}", flush=True)
            if not well:
                print(printed)
        subprocess.run(["git", "clean", "-fdxq", "out"], cwd=folder, check=True)
    return failed


def main():
    words = argparse.ArgumentParser(description="types the lines of README.md and USING.md, and says which fail")
    words.add_argument("--tool", help="the program that takes `rewrite ..`")
    tool, failed = words.parse_args().tool, 0
    with tempfile.TemporaryDirectory() as room:
        folder = os.path.join(room, "clone")
        subprocess.run(["git", "clone", "-q", ROOT, folder], check=True)
        if tool:
            with open(os.path.join(folder, "sudrepka"), "w", encoding="ascii") as file:
                file.write(f'#!/bin/sh\nexec {shlex.quote(os.path.abspath(tool))} "$@"\n')
            subprocess.run(["git", "update-index", "--assume-unchanged", "sudrepka"], cwd=folder, check=True)
        for page in PAGES:
            failed += try_page(folder, page, tool)
        left = subprocess.run(["git", "status", "--short"], cwd=folder, stdout=subprocess.PIPE, text=True, check=True)
        if left.stdout:
            failed += 1
            print(f"left behind:\n{left.stdout}")
    print(f"{failed} lines fail")
    sys.exit(1 if failed else 0)


if __name__ == "__main__":
    main()
