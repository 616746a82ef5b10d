#!/usr/bin/env python3
"""Seconds, memory and effect of `repair`, for profiles that are noisy, stale or sampled.

    python3 bench/repair.py [--tool COMMAND] [BLOCKS..]

The programs have branches, loops and jumps, nested at random, and counts that balance: those are the true ones. They are
one function of so many blocks each, and, of numbers above 20,000, functions of up to 2,000 blocks. A noisy profile has each
count off by up to a tenth, a stale one lacks three lines of ten, and a sampled one has each tenth occurrence, ten times.
Each line has the seconds of the processor, the peak of memory, the total change, how far the counts of edges are from the
true ones in sum, before and after, as parts of the sum of true counts, and how many edges that ran, by the profile, don't
run by the repaired one. Last come functions that are one path of
20,000 blocks, of which the last half of the counts is halved, or the ways in or out lack; and the programs of
`examples` that `real_programs.py` can build here, with the profile that `record` writes of a short run. The true
profiles are checked to be repaired with no change, and to come back as they were; those of recorded runs change a little,
by as much as is printed. COMMAND stands for `./sudrepka`.

A function of 20,000 blocks has to be repaired in 5 seconds, and a file of 1,000,000 blocks with a noisy profile in 20.
"""
import argparse
import math
import os
import random
import sys
import tempfile

from flow_files import BRANCHES, FALLS, JUMPS, RETURNS, Block, place, profile_line, write_file
from profiles import built, record, spent
from real_programs import LONGER, build, buildable, compilers, layouts_of

ROOT = os.path.dirname(os.path.dirname(os.path.abspath(__file__)))


class Maker:
    """Blocks of one function, nested at random, with how often each is left by its first way and by its second."""

    def __init__(self, dice):
        self.dice, self.blocks, self.taken = dice, [], []

    def add(self, ends, first, second=0, to=0):
        """A block: how often control went on to the next one, and how often to where it branches or jumps."""
        self.blocks.append(Block(ends, to))
        self.taken.append((first, second))
        return len(self.blocks) - 1

    def item(self, count, budget, depth):
        """A branch around blocks, a choice between some, or a loop; of about so many blocks."""
        kind = self.dice.randrange(3) if depth < 5 and budget > 3 else 3
        if kind == 0:
            skipped = self.dice.randint(0, count)
            head = self.add(BRANCHES, count - skipped, skipped)
            self.items(count - skipped, budget - 1, depth + 1)
            self.blocks[head].to = len(self.blocks)
        elif kind == 1:
            other = self.dice.randint(0, count)
            head = self.add(BRANCHES, count - other, other)
            self.items(count - other, budget // 2 - 1, depth + 1)
            jump = self.add(JUMPS, 0, count - other)
            self.blocks[head].to = len(self.blocks)
            self.items(other, budget // 2 - 1, depth + 1)
            self.blocks[jump].to = len(self.blocks)
        elif kind == 2:
            rounds = self.dice.randint(1, 8)
            first = len(self.blocks)
            self.items(count * rounds, budget - 1, depth + 1)
            self.add(BRANCHES, count, count * (rounds - 1), first)
        else:
            self.add(FALLS, count)

    def items(self, count, budget, depth):
        end = len(self.blocks) + max(budget, 1)
        self.item(count, min(budget, 60), depth)
        while depth == 0 and len(self.blocks) < end - 1:
            self.item(count, min(end - len(self.blocks), 60), depth)

    def function(self, count, budget):
        """A function of so many blocks at least."""
        missing = budget
        while True:
            self.items(count, max(missing, 8), 0)
            self.add(RETURNS, count)
            made = self.merged()
            missing = budget - len(made[0])
            if missing <= 0:
                return made
            self.blocks.pop()
            self.taken.pop()

    def merged(self):
        """A block that nothing goes to and that another falls into is one with it."""
        entered = {0} | {b.to for b in self.blocks if b.ends in (BRANCHES, JUMPS)}
        kept, index = [], []
        for k, block in enumerate(self.blocks):
            alone = k not in entered and kept and self.blocks[kept[-1]].ends == FALLS
            if alone:
                kept[-1] = k
            else:
                kept.append(k)
            index.append(len(kept) - 1)
        blocks = [Block(self.blocks[k].ends, index[self.blocks[k].to]) for k in kept]
        return blocks, [self.taken[k] for k in kept]


def driver():
    return [Block(RETURNS)]


def edges(function, taken):
    """Each edge with its addresses and its count."""
    found = {}
    for k, block in enumerate(function.blocks):
        first, second = taken[k]
        ways = []
        if block.ends in (FALLS, BRANCHES):
            ways.append((k + 1, first))
        if block.ends in (BRANCHES, JUMPS):
            ways.append((block.to, second))
        for to, count in ways:
            pair = (function.last(k), function.starts[to])
            found[pair] = found.get(pair, 0) + count
    return found


class Program:
    """Functions with the counts of all pairs. The first function is where control comes from, and goes back to."""

    def __init__(self, lists, takens, runs):
        self.functions = place([driver()] + lists)
        self.counts, self.edges = {}, set()
        top = self.functions[0]
        for function, taken, count in zip(self.functions[1:], takens, runs):
            inner = edges(function, taken)
            self.counts.update(inner)
            self.edges.update(inner)
            self.counts[(top.last(0), function.start)] = count
            self.counts[(function.last(len(function.blocks) - 1), top.start)] = count
        self.starts = {}
        for function in self.functions:
            for k, at in enumerate(function.starts):
                self.starts[at] = self.starts[function.last(k)] = function.start

    def blocks(self):
        return sum(len(function.blocks) for function in self.functions)

    def write_profile(self, path, counts):
        with open(path, "w", encoding="ascii") as file:
            for (x, y), count in sorted(counts.items()):
                if count > 0:
                    file.write(profile_line(self.starts[x], x, self.starts[y], y, count))


def structured(dice, blocks):
    """One function of so many blocks, or for more than 20,000 functions of up to 2,000."""
    lists, takens, runs = [], [], []
    while sum(map(len, lists)) < blocks:
        wanted = blocks if blocks <= 20_000 else dice.randint(20, 2000)
        count = dice.randint(1, 1000)
        made, taken = Maker(dice).function(count, wanted)
        lists.append(made)
        takens.append(taken)
        runs.append(count)
    return Program(lists, takens, runs)


def path_of(length, count):
    blocks = [Block(JUMPS, k + 1) for k in range(length - 1)] + [Block(RETURNS)]
    return Program([blocks], [[(0, count)] * (length - 1) + [(count, 0)]], [count])


def poisson(dice, mean):
    if mean > 50:
        return max(0, round(dice.gauss(mean, math.sqrt(mean))))
    bound, k, p = math.exp(-mean), 0, dice.random()
    while p > bound:
        k, p = k + 1, p * dice.random()
    return k


def noisy(dice, counts):
    return {pair: round(count * (1 + dice.uniform(-0.1, 0.1))) for pair, count in counts.items()}


def stale(dice, counts):
    return {pair: count for pair, count in counts.items() if dice.random() >= 0.3}


def sampled(dice, counts):
    return {pair: 10 * poisson(dice, count / 10) for pair, count in counts.items()}


def read_profile(path):
    found = {}
    with open(path, encoding="ascii") as file:
        for line in file:
            words = line.split()
            pair = (int(words[1][1:], 16) + int(words[2], 16), int(words[4][1:], 16) + int(words[5], 16))
            found[pair] = found.get(pair, 0) + int(words[7])
    return found


def lost(counts, repaired):
    """How many pairs that a profile counts have no count in the repaired one."""
    return sum(1 for pair, count in counts.items() if count > 0 and repaired.get(pair, 0) == 0)


def far(program, counts):
    """How far counts of edges are from the true ones, as a part of these."""
    total = sum(program.counts[pair] for pair in program.edges)
    return sum(abs(counts.get(pair, 0) - program.counts[pair]) for pair in program.edges) / max(total, 1)


def run(command, folder):
    """Seconds of the processor, MiB, the total change, and whether it ended well."""
    path = lambda name: os.path.join(folder, name)
    with open(path("printed"), "wb") as printed:
        took = spent([*command, "repair", path("in"), path("profile"), path("out")], stdout=printed)
    with open(path("printed"), "rb") as printed:
        printed.seek(max(0, os.path.getsize(path("printed")) - 200))
        last = printed.read().decode().splitlines()[-1] if took.status == 0 else f"status {took.status}"
    return took.seconds, took.peak, last


def measure(command, folder, program, name, change, seed):
    dice = random.Random(seed)
    counts = change(dice, program.counts)
    write_file(os.path.join(folder, "in"), program.functions)
    program.write_profile(os.path.join(folder, "profile"), counts)
    seconds, mib, last = run(command, folder)
    before, after, gone = far(program, counts), float("nan"), "?"
    if "change" in last:
        repaired = read_profile(os.path.join(folder, "out"))
        after, gone = far(program, repaired), lost({p: c for p, c in counts.items() if p in program.edges}, repaired)
    print(
        f"{program.blocks():8} blocks {name:10} {seconds:7.2f} s {mib:7.0f} MiB  off by {before:6.4f}, repaired {after:6.4f}"
        f"  lost {gone}  {last}",
        flush=True,
    )
    if name == "true":
        assert last.endswith("total change 0"), last
        assert read_profile(os.path.join(folder, "out")) == {p: c for p, c in program.counts.items() if c > 0}


def halved(program):
    """The counts of the last half of a path are halved."""
    pairs = sorted(pair for pair in program.edges)
    low = set(pairs[len(pairs) // 2 :])
    return lambda dice, counts: {pair: count // 2 if pair in low else count for pair, count in counts.items()}


def without(program, inner):
    """The ways into functions lack, or those out of them."""
    top = program.functions[0].start
    return lambda dice, counts: {
        pair: count for pair, count in counts.items() if pair in program.edges or (pair[1] == top) == inner
    }


def recorded(command, folder):
    """By how much profiles of recorded runs change: all but the ways into and out of functions balances in them."""
    for program in buildable(sorted(LONGER)):
        for compiler, parts in compilers().items():
            layout = layouts_of(program, compiler)[0]
            path = os.path.join(folder, "in")
            build(path, program, compiler, parts, layout, "-O2")
            ended = record(command, path, [], os.path.join(folder, "profile"))
            _, _, last = run(command, folder)
            counts, repaired = read_profile(os.path.join(folder, "profile")), read_profile(os.path.join(folder, "out"))
            print(f"{program:12} {compiler:6} {ended}  lost {lost(counts, repaired)}  {last}", flush=True)


def main():
    words = argparse.ArgumentParser(description="seconds, memory and effect of `repair`")
    words.add_argument("--tool", default=os.path.join(ROOT, "sudrepka"), help="the command that takes `repair ..`")
    words.add_argument("blocks", nargs="*", type=int, default=[1000, 20_000, 1_000_000])
    given = words.parse_args()
    command = built(given.tool)
    changes = [("true", lambda dice, counts: dict(counts)), ("noisy", noisy), ("stale", stale), ("sampled", sampled)]
    with tempfile.TemporaryDirectory() as folder:
        for blocks in given.blocks:
            dice = random.Random(blocks)
            program = structured(dice, blocks)
            for name, change in changes:
                measure(command, folder, program, name, change, blocks)
        path = path_of(20_000, 1000)
        for name, change in [("true", changes[0][1]), ("halved", halved(path)), ("no way in", without(path, True)),
                             ("no way out", without(path, False))]:
            measure(command, folder, path, name, change, 1)
        recorded(command, folder)


if __name__ == "__main__":
    sys.setrecursionlimit(10_000)
    main()
