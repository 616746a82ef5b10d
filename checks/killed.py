#!/usr/bin/env python3
"""Kills `rewrite` many times at random moments, and looks at what OUT and MAP hold then.

    python3 checks/killed.py PROGRAM [--kills N] [--functions N] [--seed N]

PROGRAM is the built program, as crates/bolt_cli/out/bolt_cli. It makes a sample and rewrites it once whole, which tells
what OUT and MAP hold in the end, and how long that takes. Then it rewrites the sample again and again, and is killed
each time (SIGKILL): by turns at any moment of that time, and soon after the first file beside OUT is there. Before
every second run OUT and MAP hold something else, and before the others neither is there. After each kill OUT and MAP
have to be what they were before or what they are in the end, each for itself, and a new OUT has the permissions of IN.
Files that were left beside them (`.sudrepka-` and a number) are counted and removed. The last line says how often OUT,
MAP and the files beside were there; the status is 1 where something was half written.
"""
from __future__ import annotations

import argparse
import os
import random
import signal
import subprocess
import sys
import tempfile
import time
from collections import Counter
from dataclasses import dataclass

INPUT, PROFILE, OUT, MAP = "input", "profile", "out", "map"
OLD = {OUT: b"old output\n" * 1000, MAP: b"old map\n" * 1000}
RIGHTS = 0o750


@dataclass(frozen=True)
class Whole:
    """What OUT and MAP hold after a rewrite, and how many seconds one takes."""
    content: dict[str, bytes]
    seconds: float


def content_of(name: str) -> bytes | None:
    """What a file holds, or None where it isn't there."""
    try:
        with open(name, "rb") as file:
            return file.read()
    except FileNotFoundError:
        return None


def files_beside() -> list[str]:
    """The files in this folder that take the place of others once they are whole."""
    return [name for name in os.listdir() if name.startswith(".sudrepka-")]


def prepare(is_there: bool) -> None:
    """Gives OUT and MAP their old contents, or removes both; and what was left beside them."""
    for name in [OUT, MAP, *files_beside()]:
        if os.path.exists(name):
            os.unlink(name)
    for name, old in OLD.items() if is_there else ():
        with open(name, "wb") as file:
            file.write(old)


def make_whole(program: str, functions: int) -> Whole:
    """Makes the sample in this folder, and rewrites it once."""
    subprocess.run([program, "sample", str(functions), INPUT, PROFILE], check=True, stdout=subprocess.DEVNULL)
    os.chmod(INPUT, RIGHTS)
    prepare(False)
    start = time.monotonic()
    subprocess.run([program, "rewrite", INPUT, PROFILE, OUT, MAP], check=True, stdout=subprocess.DEVNULL)
    seconds = time.monotonic() - start
    if files_beside():
        raise ValueError("a whole rewrite left files beside its output")
    return Whole({name: content_of(name) for name in (OUT, MAP)}, seconds)


def stamp_of(name: str) -> tuple[int, int, int] | None:
    """What tells a file from one that was written since, or None where it isn't there."""
    try:
        found = os.stat(name)
    except FileNotFoundError:
        return None
    return found.st_ino, found.st_size, found.st_mtime_ns


def wait_for_writing(running: subprocess.Popen, seconds: float) -> None:
    """Waits until a file is there beside OUT, or OUT changes, or the time is over."""
    end, before = time.monotonic() + seconds, stamp_of(OUT)
    while running.poll() is None and time.monotonic() < end and not files_beside() and stamp_of(OUT) == before:
        pass


def kill_one(program: str, whole: Whole, is_aimed: bool, chance: random.Random) -> None:
    """Starts a rewrite and kills it."""
    running = subprocess.Popen([program, "rewrite", INPUT, PROFILE, OUT, MAP], stdout=subprocess.DEVNULL)
    if is_aimed:
        wait_for_writing(running, 2 * whole.seconds)
        time.sleep(chance.random() * 0.01)
    else:
        time.sleep(chance.random() * whole.seconds)
    running.send_signal(signal.SIGKILL)
    running.wait()


def state_of(name: str, whole: Whole, was_there: bool) -> str:
    """`old`, `new` or `half`: what a file is after a kill."""
    found = content_of(name)
    if found == whole.content[name]:
        return "new"
    return "old" if found == (OLD[name] if was_there else None) else "half"


def judge(whole: Whole, was_there: bool, seen: Counter) -> bool:
    """Counts what a kill left, and says whether all is whole."""
    states = {name: state_of(name, whole, was_there) for name in (OUT, MAP)}
    seen.update(f"{name} {state}" for name, state in states.items())
    seen["files beside"] += len(files_beside())
    if states[OUT] == "new" and os.stat(OUT).st_mode & 0o7777 != RIGHTS:
        print(f"OUT has other permissions than IN: {os.stat(OUT).st_mode & 0o7777:o}")
        return False
    if "half" in states.values():
        print(f"half written: {states}")
        return False
    return True


def main() -> int:
    parser = argparse.ArgumentParser(description=__doc__.split("\n", maxsplit=1)[0])
    parser.add_argument("program")
    parser.add_argument("--kills", type=int, default=1000)
    parser.add_argument("--functions", type=int, default=1000)
    parser.add_argument("--seed", type=int, default=1)
    args = parser.parse_args()
    program, chance, seen, is_whole = os.path.abspath(args.program), random.Random(args.seed), Counter(), True
    with tempfile.TemporaryDirectory() as folder:
        os.chdir(folder)
        try:
            whole = make_whole(program, args.functions)
        except (OSError, ValueError, subprocess.CalledProcessError) as error:
            print(f"killed.py: {error}", file=sys.stderr)
            return 2
        for number in range(args.kills):
            was_there = number % 2 == 0
            prepare(was_there)
            kill_one(program, whole, number % 4 < 2, chance)
            is_whole = judge(whole, was_there, seen) and is_whole
        os.chdir("/")
    print(f"{args.kills} kills: " + ", ".join(f"{count} times {what}" for what, count in sorted(seen.items())))
    return 0 if is_whole else 1


if __name__ == "__main__":
    sys.exit(main())
