#!/usr/bin/env python3
"""Makes a profile of samples of the program counter, for processors that don't record branches.

    perf record -e instructions:u -c 100003 -o perf.data ./program
    perf script -i perf.data -F ip | python3 tools/sample_profile.py program profile

    python3 tools/sample_profile.py [--tool COMMAND] IN OUT < SAMPLES

A line of SAMPLES has an address in hexadecimal, as `perf script -F ip` prints it, or a count before it, as `sort | uniq
-c` has it. What isn't an address of code of IN, as in the kernel, is left out and counted.

A block ran about as often as samples fell into it, divided by its instructions. How often control went which way from
its end isn't sampled: edges get the counts that make the samples of the blocks on both sides likely, while what enters
a block leaves it, and a function is entered as often as it is called by name (`sample_fit.py`). Few samples on the ways
from a branch are weighed against what is known of branches: most always go the same way. A call is made as often as its
block ran, to the function that it names; a call by a pointer goes to functions that ran more often than calls by name
explain; and what is called returns. `sudrepka repair` then balances these counts with the least change, which also
gives counts to blocks between others that had no sample. A function with an exception table is one block, and samples
don't distinguish what happens in it. Counts are relative: don't add them to those of a recorded run.
"""
import argparse
import collections
import os
import re
import sys
import tempfile

from program_graph import (CALL, RETURN, Failure, Graph, add_tool_option, call_tool, find_tool, run_script, want_other,
                           written_whole)
from sample_fit import call_target, calls_of, fitted

SCALE = 1000  # what a sample in a block of one instruction counts
SAMPLE = re.compile(r"(?:([0-9]+)\s+)?(?:0x)?([0-9a-fA-F]{1,16})")


def read_samples(lines, graph):
    """Samples by block, and how many lie elsewhere."""
    samples, others = collections.Counter(), 0
    for number, line in enumerate(lines, 1):
        text = line.strip()
        if not text:
            continue
        row = SAMPLE.fullmatch(text)
        if not row:
            raise Failure(f"line {number} of the samples is no address, and no count with one: {text[:60]}")
        block, count = graph.owner.get(int(row[2], 16)), int(row[1] or 1)
        if block:
            samples[block.start] += count
        else:
            others += count
    return samples, others


class Calls:
    """The calls, and the jumps out of functions, in blocks with counts: `named` by the instruction and its target, and
    `pointed`, those by pointers, by the instruction alone."""

    def __init__(self, graph, counts):
        self.graph, self.counts = graph, counts
        self.named, self.pointed = collections.Counter(), {}
        for start, count in counts.items():
            for at in calls_of(graph, start):
                self._add(at, count)

    def _add(self, at, count):
        end = call_target(self.graph, at)
        if end in self.graph.owner:
            self.named[at, end] += count
        elif end is None:
            self.pointed[at] = count

    def all(self):
        """The counts of all calls, by the instruction and its target."""
        entered = collections.Counter()
        for (_, end), count in self.named.items():
            entered[end] += count
        unexplained = {}
        for function in {block.function for block in self.graph.blocks.values()}:
            more = self.counts.get(function, 0) - entered[function]
            if more > 0 and self.graph.predecessors[function] == [None]:
                unexplained[function] = more
        calls = collections.Counter(self.named)
        calls.update(paired(self.pointed, unexplained))
        return calls

    def returns(self, calls):
        """The counts of returns from what was called, by the instruction and the one after the call."""
        graph = self.graph
        leaving, wanted = collections.defaultdict(dict), collections.defaultdict(dict)
        for start, count in self.counts.items():
            block = graph.blocks[start]
            if graph.elf.kind(block.last) == RETURN:
                leaving[block.function][block.last] = count
        for (at, end), count in calls.items():
            after = at + graph.elf.size(at)
            if graph.elf.kind(at) == CALL and after in graph.owner:
                ends = wanted[graph.owner[end].function]
                ends[after] = ends.get(after, 0) + count
        pairs = collections.Counter()
        for function, ends in wanted.items():
            pairs.update(paired(leaving[function], ends))
        return pairs


def paired(sources, targets):
    """Counts of pairs of a source and a target that sum up to those of the targets, and in proportion to those of the
    sources. There are fewer pairs than sources and targets together: greater sources go to greater targets."""
    pairs, have = collections.Counter(), sum(sources.values())
    if not have:
        return pairs
    scale = sum(targets.values()) / have
    left = sorted((count * scale, at) for at, count in sources.items())  # the greatest ones last, to be popped
    right = sorted((count, at) for at, count in targets.items())
    while left and right:
        (given, start), (wanted, end) = left.pop(), right.pop()
        pairs[start, end] += min(given, wanted)
        if given > wanted:
            left.append((given - wanted, start))
        elif wanted > given:
            right.append((wanted - given, end))
    return pairs


def guessed_profile(graph, samples):
    """The counts of pairs of instructions that samples by blocks speak for."""
    edges, blocks = fitted(graph, samples)
    found = collections.Counter()
    for (start, end), count in edges.items():
        found[graph.blocks[start].last, end] += SCALE * count
    calls = Calls(graph, {start: SCALE * count for start, count in blocks.items()})
    made = calls.all()
    found.update(made)
    found.update(calls.returns(made))
    return {pair: round(count) for pair, count in found.items()}


def write_sampled(tool, path, graph, lines, out):
    """Writes the profile of lines of samples, and gives a line on it."""
    samples, others = read_samples(lines, graph)
    total = sum(samples.values())
    if not total:
        raise Failure(f"none of {others} samples lies in the code of {path}: are they of the moved program?"
                      if others else "there are no samples")
    with tempfile.TemporaryDirectory() as folder:
        guessed, repaired = os.path.join(folder, "guessed"), os.path.join(folder, "repaired")
        graph.write_profile(guessed, guessed_profile(graph, samples))
        said = call_tool(tool, "repair", path, guessed, repaired).splitlines()[-1]
        with open(repaired, "rb") as made, open(out, "wb") as file:
            file.write(made.read())
    return f"{total} samples in {len(samples)} blocks, {others} elsewhere; {said}"


def arguments():
    parser = argparse.ArgumentParser(description="makes a profile of samples of the program counter")
    add_tool_option(parser)
    parser.add_argument("file", metavar="IN")
    parser.add_argument("out", metavar="OUT")
    return parser.parse_args()


def main():
    given = arguments()
    want_other(given.out, given.file)
    sys.stdin.reconfigure(errors="replace")  # bytes are no address, either
    tool = find_tool(given.tool)
    graph = Graph(tool, given.file)
    with written_whole(given.out) as draft:
        print(write_sampled(tool, given.file, graph, sys.stdin, draft))
    return 0


if __name__ == "__main__":
    run_script(main)
