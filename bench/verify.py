#!/usr/bin/env python3
"""Seconds and memory of `verify`, beside those of the `rewrite` that made what is verified.

    python3 bench/verify.py [--tool COMMAND] [RUNS] [MIB..]

The files are those of `rewrite.py`. Each is rewritten, and the output is verified: with the map as it was written,
and with its lines in the order of old addresses and in no order. Each line has the medians of the processor's seconds
of both commands, how many times as long `verify` took, and its greatest peak of memory, also for each MiB of the
file. COMMAND stands for `./sudrepka`.

The output of a file of 27 MiB has to be verified in less than twice the time of its rewrite. The status is 0 where it
is, and each output is called faithful.
"""
import argparse
import os
import random
import sys
import tempfile

from profiles import built
from rewrite import MIB, ROOT, make, measure

GOAL, JUDGED = 2, 27  # times as long, for a file of so many MiB


def in_order(lines):
    return sorted(lines, key=lambda line: int(line.rpartition(b" ")[2], 16))


def in_no_order(lines):
    return random.Random(0).sample(lines, len(lines))


ORDERS = {"as written": list, "by old address": in_order, "in no order": in_no_order}


def reorder(order, source, target):
    with open(source, "rb") as file:
        lines = file.read().splitlines(keepends=True)
    with open(target, "wb") as file:
        file.write(b"".join(ORDERS[order](lines)))


def main():
    words = argparse.ArgumentParser(description="seconds and memory of verify")
    words.add_argument("--tool", default=os.path.join(ROOT, "sudrepka"), help="the command that takes `verify ..`")
    words.add_argument("runs", nargs="?", type=int, default=3)
    words.add_argument("sizes", nargs="*", type=int, default=[1, 4, 16, JUDGED])
    given = words.parse_args()
    command = built(given.tool)
    good = True
    with tempfile.TemporaryDirectory() as folder:
        path = lambda name: os.path.join(folder, name)
        for size in given.sizes:
            make(folder, size)
            mib = os.path.getsize(path("in")) / MIB
            made = measure([*command, "rewrite", path("in"), path("profile"), path("out"), path("map")], given.runs)
            if not made[2]:
                sys.exit(f"a file of {mib:.1f} MiB isn't rewritten")
            for order in ORDERS:
                reorder(order, path("map"), path("given"))
                seconds, peak, well = measure([*command, "verify", path("in"), path("out"), path("given")], given.runs)
                times = seconds / made[0]
                good = good and well and (size != JUDGED or times < GOAL)
                print(
                    f"{mib:5.1f} MiB {order:15} rewrite {made[0]:7.3f} s, verify {seconds:7.3f} s, {times:5.2f} times; "
                    f"{peak:8.1f} MiB, for each MiB {peak / mib:6.2f}" + ("" if well else ", not faithful"),
                    flush=True,
                )
    sys.exit(0 if good else 1)


if __name__ == "__main__":
    main()
