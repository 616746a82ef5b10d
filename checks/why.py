#!/usr/bin/env python3
"""Whether `tools/why.py` names what is wrong with a file: for each fault files are made in which it was planted.

    python3 checks/why.py [--tool COMMAND] [--keep FOLDER] [--changed COUNT] [NAME..]

COMMAND stands for the program of this checkout, which isn't built here. The files of `planted/` have one fault each:
all 28 faults in the ways that their definitions have, but for the limits on a profile, on MAP and on weights. Each has
to be refused by the line that was planted, with its place, and `why.py` has to say what was planted: which structure,
field, number or instruction. Lines that name no fault, places at which nothing is wrong, and files that aren't there
have to end in a sentence and a status. Of COUNT programs of `fuzzed/` with some fields changed (200 if none is given)
each that is refused has to get a cause, and in none that isn't refused may one be found. NAME picks files. FOLDER keeps
them. A line for each problem says what was found, and the status is 0 if there is none. Nothing is done, and that is
said, if there is no program.
"""
import argparse
import contextlib
import io
import os
import subprocess
import sys
import tempfile

ROOT = os.path.dirname(os.path.dirname(os.path.abspath(__file__)))
sys.path.insert(0, os.path.join(ROOT, "tools"))
import why  # noqa: E402, of tools/
from planted import changed, debug, frames, functions, headers, large, references  # noqa: E402
from program_graph import Failure, find_tool  # noqa: E402

WHY = os.path.join(ROOT, "tools", "why.py")
PROGRAM = os.path.join(ROOT, "crates", "bolt_cli", "out", "bolt_cli")
KINDS = (headers, references, functions, frames, debug, large)
FOUND, FAILED, UNKNOWN = 0, 1, 3


def answer(tool, path):
    """The status for a file, and what is printed."""
    with contextlib.redirect_stdout(io.StringIO()) as printed:
        line = why.refusal(tool, path, os.devnull)
        status = why.explain(path, None, line) if line else FOUND
    return status, printed.getvalue()


def run(*words):
    """The status of the command, what it printed and what it said on standard error."""
    done = subprocess.run([sys.executable, WHY, *words], capture_output=True, text=True, errors="replace", check=False)
    return done.returncode, done.stdout, done.stderr


def problems_of(planted, tool, folder):
    """What `why.py` doesn't say of a file, or says wrongly."""
    path = os.path.join(folder, planted.name)
    with open(path, "wb") as file:
        file.write(planted.data)
    try:
        status, printed = answer(tool, path)
    except (Failure, SystemExit) as failure:
        return [f"{failure}"]
    lines = printed.splitlines()
    if status != FOUND or len(lines) != 3:
        return [f"status {status}, {printed!r}"]
    found = [] if f" {planted.fault}" in lines[0] else [f"refused by `{lines[0]}`, not by `{planted.fault}`"]
    found += [f"no `{word}` in: {lines[1]}" for word in planted.words if word not in lines[1]]
    name = planted.fault.split()[0]
    if name not in lines[2] or "docs/REFERENCE.md" not in lines[2]:
        found.append(f"no row of docs/REFERENCE.md in: {lines[2]}")
    return found


def other_problems(tool, folder):
    """What it does with other files, lines and places."""
    plain = os.path.join(folder, "plain")
    with open(plain, "wb") as file:
        file.write(headers.Program().bytes())
    cases = [((plain,), FOUND, "isn't refused"), (("--fault", "refused 26 LineFault at 0", plain), UNKNOWN, "No cause"),
             (("--fault", "refused 21 FrameFault at 18", plain), UNKNOWN, "18"),
             (("--fault", "refused 17 BadTarget at 100b0", plain), UNKNOWN, "main+0"),
             (("--fault", "stuck", plain), FAILED, "isn't the line"),
             ((plain + "-none",), FAILED, "there is no file"),
             (("--fault", "refused 29 Odd at 0", plain), FAILED, "Odd")]
    for words, status, text in cases:
        got, printed, said = run("--tool", " ".join(tool), *words)
        where = said if status == FAILED else printed
        if got != status or text not in where or status == FAILED and (printed or said.count("\n") != 1):
            yield f"{words}: status {got}, {printed!r}, {said!r}"


def main():
    words = argparse.ArgumentParser(description="whether tools/why.py names what is wrong with a file")
    words.add_argument("--tool", metavar="COMMAND", help="the command that takes `map ..`; else the built program")
    words.add_argument("--keep", metavar="FOLDER", help="keeps the files")
    words.add_argument("--changed", metavar="COUNT", type=int, default=200, help="files with some fields changed")
    words.add_argument("names", metavar="NAME", nargs="*", help="files that are tried; else all")
    given = words.parse_args()
    if given.tool is None and not os.path.isfile(PROGRAM):
        print("left out: the program isn't built")
        return 0
    try:
        tool = find_tool(given.tool or PROGRAM)
    except Failure as failure:
        print(f"left out: {failure}")
        return 0
    count, found = 0, []
    with contextlib.ExitStack() as stack:
        folder = given.keep or stack.enter_context(tempfile.TemporaryDirectory())
        os.makedirs(folder, exist_ok=True)
        for planted in (it for kind in KINDS for it in kind.all_files() if it.name in (given.names or [it.name])):
            count += 1
            found += [f"{planted.name}: {it}" for it in problems_of(planted, tool, folder)]
        if not given.names:
            count += given.changed
            found += [*other_problems(tool, folder), *changed.problems(tool, folder, given.changed)]
    print(*found, f"{count} files: {len(found) or 'no'} problems", sep="\n")
    return 1 if found else 0


if __name__ == "__main__":
    sys.exit(main())
