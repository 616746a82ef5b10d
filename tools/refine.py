#!/usr/bin/env python3
"""Makes of a profile one by which `sudrepka rewrite` lays code out better.

    python3 tools/refine.py [--tool COMMAND] [--without NAME] [--verbose] IN PROFILE OUT

PROFILE is a profile of IN, recorded or repaired. The order of all code follows from a profile's counts by a fixed rule,
so OUT asks for another order by other counts. They say what is wished, and not what happened, as OUT's first line says:
keep PROFILE, draw pictures by it, and merge other profiles with it. Only order and heat are asked of counts, so what is
proved of an output doesn't depend on them. It changes

- chains: blocks are ordered by the ext-TSP score, in transfers taken and instructions. An edge that the rule would
  follow, and shouldn't, is hidden: its count goes to other instructions of the same two blocks, so their weights stay.
  The way from a call to the block behind it, which no recorded profile has, is added if it is wished;
- functions, if more than 32 KiB of code ran: they are ordered by calls, near to LLVM's cdsort. Counts of calls between
  units of functions go to their two ends, and a count of 1 from each unit to the next one asks for the order;
- cold blocks: if a branch that often runs leads to one that never ran, more than 4 KiB away, it becomes a branch around
  a jump, and is taken each time. A count of 1 lets that block stand at the end of the function's hot part, and a count
  from a block to itself lets its chain stand earlier, if that end is too far away. Cold blocks of a function that have
  at most 20 bytes together stay at that end too: apart they would take more bytes in unwind tables.

Each kind of change is counted; with --verbose each line that is changed is printed, with its count before and after.
The estimate is what a run that PROFILE counts costs by the map: transfers taken, instructions more than in IN, and
lines of 64 bytes and pages of 4096 of all blocks that ran. If it isn't better than by PROFILE itself, OUT has its
counts.

A function that computes jumps, as `memset` of some libraries, must not be moved: `sudrepka run --symbols IN` is stuck
there, and prints the address. --without takes its name, or `@` and an address in it, and leaves what happened there out
of OUT. It may be given more than once. COMMAND is the checkout's `sudrepka`, or that on the path, if it isn't given.
"""
import argparse
import bisect
import os
import tempfile

from layout_estimate import Mapper
from layout_rule import Program
from program_graph import Failure, Graph, add_tool_option, find_tool, run_script, written_whole
from wished_profile import CACHE, Weighing, Wishes

MARK = "# refined: counts say what is wished of a layout, and not what happened"
ROUNDS = 8


def function_of(elf, name):
    """The start of the function of that name, or that `@` and an address in hexadecimal lie in."""
    if name.startswith("@"):
        try:
            address = int(name[1:], 16)
        except ValueError:
            raise Failure(f"{name} is no address: `@` and hexadecimal digits are wanted") from None
        if not elf.is_code(address):
            raise Failure(f"there is no code at {name}")
        return elf.cuts[bisect.bisect_right(elf.cuts, address) - 1]
    found = elf.named.get(name, ())
    if len(found) != 1:
        raise Failure(f"{len(found) or 'no'} functions have the name {name}")
    return min(found)


def is_refined(path):
    """Whether a profile was written by this script."""
    with open(path, "rb") as file:
        return file.readline().rstrip(b"\n") == MARK.encode()


def refine(mapper, wishes):
    """Changes the counts of a profile, and gives the costs by it and by the wishes, as `Cost`. If these aren't better
    they are dropped."""
    weighing = wishes.weighing
    plain = mapper.cost(mapper.layout(wishes.plain))
    wishes.order_blocks()
    if wishes.bytes_that_ran() > CACHE:
        wishes.order_functions()
    wishes.keep_small()
    layout = mapper.layout(wishes.counts)
    for _ in range(ROUNDS):
        if not wishes.bring_near(layout):
            break
        layout = mapper.layout(wishes.counts)
    better = mapper.cost(layout)
    if better.weighed(weighing.instruction) > plain.weighed(weighing.instruction):
        wishes.drop()
        better = plain
    return plain, better


def write(path, graph, counts):
    """Writes a profile, and what it is."""
    with written_whole(path) as draft:
        graph.write_profile(draft, counts)
        with open(draft, "r+", encoding="ascii") as file:
            lines = file.read()
            file.seek(0)
            file.write(f"{MARK}\n{lines}")


def say(wishes, unfit, plain, better):
    """Prints what was changed, and what it is worth."""
    changes = [(old, new) for _, old, new in wishes.changes()]
    lost, added = sum(not new for _, new in changes), sum(not old for old, _ in changes)
    done = ", ".join(f"{count} {what}" for what, count in wishes.done.items())
    print(f"{len(wishes.given)} pairs of instructions, {unfit} lines ignored; {lost} pairs left out, {added} added, "
          f"{len(changes) - lost - added} changed")
    print(done or "no wish is better by the estimate: OUT has the counts of PROFILE")
    print(f"estimated: taken {plain.taken:,} -> {better.taken:,}, instructions {plain.more:+,} -> {better.more:+,}, "
          f"lines {plain.lines:,} -> {better.lines:,}, pages {plain.pages:,} -> {better.pages:,}")


def say_changes(wishes):
    """Prints each line that is changed."""
    for (source, target), old, new in wishes.changes():
        print(f"{old} -> {new}: {wishes.program.graph.line(source, target, new)}", end="")


def arguments():
    words = argparse.ArgumentParser(description="makes of a profile one by which code is laid out better")
    add_tool_option(words)
    words.add_argument("--without", metavar="NAME", action="append", default=[], help="a function that must not "
                       "be moved")
    words.add_argument("--verbose", action="store_true", help="print each line that is changed")
    words.add_argument("--share", type=float, default=100, metavar="PPM", help="the millionths of all counts that a "
                       "branch has to have, so that cold blocks are brought near to it (100)")
    words.add_argument("--line", type=float, default=1, metavar="COST", help="what a line of an added block costs at "
                       "each call, in transfers (1)")
    words.add_argument("--instruction", type=float, default=0.5, metavar="COST", help="what an instruction costs, in "
                       "transfers (0.5)")
    words.add_argument("input", metavar="IN")
    words.add_argument("profile", metavar="PROFILE")
    words.add_argument("output", metavar="OUT")
    return words.parse_args()


def main():
    given = arguments()
    if os.path.realpath(given.output) in map(os.path.realpath, (given.input, given.profile)):
        raise Failure(f"{given.output} is IN or PROFILE: OUT has to be another file")
    if is_refined(given.profile):
        raise Failure(f"{given.profile} is refined already: give the profile that it was made of")
    tool = find_tool(given.tool)
    program = Program(Graph(tool, given.input))
    counts, unfit = program.graph.read_profile(given.profile)
    without = {function_of(program.elf, name) for name in given.without}
    wishes = Wishes(program, counts, Weighing(given.instruction, given.share, given.line), without)
    with tempfile.TemporaryDirectory() as folder:
        plain, better = refine(Mapper(tool, program, given.input, counts, folder), wishes)
    write(given.output, program.graph, wishes.counts)
    say(wishes, unfit, plain, better)
    if given.verbose:
        say_changes(wishes)


if __name__ == "__main__":
    run_script(main)
