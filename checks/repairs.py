#!/usr/bin/env python3
"""Whether `repair` always comes to an end, and shows that it changed the counts least, on random graphs with random counts.

    python3 checks/repairs.py [--tool COMMAND] [FILES] [SEED]

A file has functions of 1 to 12 blocks (every tenth file some of up to 300) that branch, jump and return at random, and a
profile with random counts of edges, of ways in and out, and of pairs that are neither; some of them are 0, some of more than
64 bits. That the program answers out of memory where memory is there is what no proof excludes; here it is an error. What it
prints is judged by itself, whatever flows and prices it found: at each block as much has to flow in as out, prices have to
hold on every link, the totals have to be those of the lines, and OUT has to have the flow of each edge and the old count of
each other pair. Which links there are is found anew. The last line has the number of files, functions and links.
COMMAND stands for `./sudrepka`.
"""
import argparse
import collections
import os
import random
import subprocess
import sys
import tempfile

ROOT = os.path.dirname(os.path.dirname(os.path.abspath(__file__)))
sys.path.insert(0, os.path.join(ROOT, "bench"))
from flow_files import BRANCHES, FALLS, JUMPS, RETURNS, Block, place, profile_line, write_file  # noqa: E402
from profiles import built  # noqa: E402

MOST = (1 << 64) - 1


def random_blocks(dice, count):
    """Blocks of which each but the first is entered: one that falls into a block is entered by another, or is one with it."""
    near = lambda k: dice.randint(max(0, k - 400), min(count - 1, k + 400))
    blocks = []
    for k in range(count):
        ends = dice.choice([FALLS, BRANCHES, BRANCHES, BRANCHES, JUMPS, RETURNS])
        if k == count - 1 and ends in (FALLS, BRANCHES):
            ends = RETURNS
        blocks.append(Block(ends, near(k)))
    entered = {b.to for b in blocks if b.ends in (BRANCHES, JUMPS)}
    for k in range(count - 1):
        if blocks[k].ends == FALLS and k + 1 not in entered:
            blocks[k] = Block(JUMPS, k + 1)
            entered.add(k + 1)
    return blocks


def links_of(function):
    """The links of a function that nothing enters but at its start: ends, as places of blocks, None for outside."""
    found = [(None, 0)]
    for k, block in enumerate(function.blocks):
        ways = set()
        if block.ends in (FALLS, BRANCHES):
            ways.add(k + 1)
        if block.ends in (BRANCHES, JUMPS):
            ways.add(block.to)
        if block.ends == RETURNS:
            found.append((k, None))
        found += [(k, to) for to in ways]
    rank = lambda end: -1 if end is None else end
    return sorted(found, key=lambda link: (rank(link[0]), rank(link[1])))


def random_count(dice):
    kind = dice.randrange(10)
    if kind < 3:
        return 0
    if kind < 8:
        return dice.randint(1, 20)
    return dice.randint(1, MOST) if kind == 8 else dice.randint(1, 9) * MOST + dice.randint(0, 3)


def random_counts(dice, functions):
    """Counts of pairs of addresses."""
    counts = collections.Counter()
    for function in functions:
        others = [f for f in functions if f is not function]
        for s, t in links_of(function):
            far = dice.choice(others)
            x = dice.choice(far.starts) if s is None else function.last(s)
            y = dice.choice(far.starts) if t is None else function.starts[t]
            counts[(x, y)] += random_count(dice)
        for _ in range(dice.randint(0, 2)):
            counts[(dice.choice(function.starts), dice.choice(function.starts))] += random_count(dice)
    return {pair: count for pair, count in counts.items() if count > 0}


def holds(gain, flow, count):
    """Whether prices hold on a link whose end has so much higher a price than its start."""
    if gain > 1 or flow < 0:
        return False
    if flow > count:
        return gain == 1
    if 0 < flow < count:
        return gain == -1
    if flow == 0 and count > 0:
        return gain <= -1
    return flow == 0 or gain >= -1


class Judge:
    """Reads what was printed, and says what is wrong in it."""

    def __init__(self, functions, counts, printed, out):
        self.functions, self.counts, self.lines, self.out = functions, counts, printed.splitlines(), out
        self.links, self.change, self.flows = 0, 0, {}
        self.home = {}
        for function in functions:
            for k, start in enumerate(function.starts):
                self.home[start] = self.home[function.last(k)] = function

    def count_of(self, function, s, t):
        if s is not None and t is not None:
            return self.counts.get((function.last(s), function.starts[t]), 0)
        if s is None:
            return sum(c for (x, y), c in self.counts.items() if y == function.starts[t] and self.home[x] is not function)
        return sum(c for (x, y), c in self.counts.items() if x == function.last(s) and self.home[y] is not function)

    def take(self, wanted):
        line = self.lines.pop(0) if self.lines else ""
        assert line.startswith(wanted), f"{line!r} in place of {wanted!r}"
        return line[len(wanted) :].split()

    def function(self, function):
        name = lambda k: "-" if k is None else f"{function.starts[k]:x}"
        links = [(s, t, self.count_of(function, s, t)) for s, t in links_of(function)]
        self.links += len(links)
        shown = any(count > 0 for _, _, count in links)
        prices = {None: 0}
        for k in range(len(function.blocks) if shown else 0):
            prices[k] = int(self.take(f"price {name(k)} ")[0])
        more = collections.Counter()
        for s, t, count in links:
            flow = int(self.take(f"link {name(s)} {name(t)} {count} ")[0]) if shown else 0
            if shown:
                assert holds(prices[t] - prices[s], flow, count), f"price of {name(s)} {name(t)}"
            more[t] += flow
            more[s] -= flow
            self.change += abs(flow - count)
            if s is not None and t is not None:
                self.flows[(function.last(s), function.starts[t])] = flow
        assert all(n == 0 for k, n in more.items() if k is not None), "balance"

    def all(self):
        for function in self.functions:
            self.function(function)
        assert self.lines == [f"{self.links} links, total change {self.change}"], self.lines
        found = collections.Counter()
        for line in self.out.splitlines():
            words = line.split()
            found[(int(words[1][1:], 16) + int(words[2], 16), int(words[4][1:], 16) + int(words[5], 16))] += int(words[7])
        wanted = {pair: count for pair, count in self.counts.items() if pair not in self.flows}
        wanted.update(self.flows)
        assert dict(found) == {pair: count for pair, count in wanted.items() if count > 0}, "OUT"
        return len(self.functions), self.links


def write_profile(path, functions, counts):
    home = {}
    for function in functions:
        for k, start in enumerate(function.starts):
            home[start] = home[function.last(k)] = function.start
    with open(path, "w", encoding="ascii") as file:
        for (x, y), count in counts.items():
            while count > 0:
                file.write(profile_line(home[x], x, home[y], y, min(count, MOST)))
                count -= min(count, MOST)


def check(command, folder, seed):
    dice = random.Random(seed)
    many = 300 if seed % 10 == 0 else 12
    lists = [random_blocks(dice, dice.randint(1, many)) for _ in range(dice.randint(2, 6))]
    functions = place(lists)
    counts = random_counts(dice, functions)
    path = lambda name: os.path.join(folder, name)
    write_file(path("in"), functions)
    write_profile(path("profile"), functions, counts)
    words = [*command, "repair", path("in"), path("profile"), path("out")]
    done = subprocess.run(words, capture_output=True, text=True, check=False)
    assert done.returncode == 0, f"status {done.returncode} {done.stdout}"
    with open(path("out"), encoding="ascii") as file:
        return Judge(functions, counts, done.stdout, file.read()).all()


def main():
    if not __debug__:
        sys.exit("this judges by assertions, which python3 -O leaves out")
    words = argparse.ArgumentParser(description="repaired profiles of random graphs")
    words.add_argument("--tool", default=os.path.join(ROOT, "sudrepka"), help="the command that takes `repair ..`")
    words.add_argument("files", nargs="?", type=int, default=1000)
    words.add_argument("seed", nargs="?", type=int, default=0)
    given = words.parse_args()
    command, functions, links = built(given.tool), 0, 0
    with tempfile.TemporaryDirectory() as folder:
        for seed in range(given.seed, given.seed + given.files):
            try:
                more = check(command, folder, seed)
            except AssertionError as error:
                sys.exit(f"seed {seed}: {error}")
            functions, links = functions + more[0], links + more[1]
    print(f"{given.files} files, {functions} functions, {links} links")


if __name__ == "__main__":
    main()
