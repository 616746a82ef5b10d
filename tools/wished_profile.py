"""Counts of a profile that are changed so that the rule gives a wished layout."""
import collections

import ext_tsp
from cdsort import function_order
from layout_rule import (Links, block_weights, counted_edges, hot_blocks, in_order, rule_chains)
from program_graph import BRANCH, CALL, JUMP, OTHER, RETURN

CACHE = 32768  # bytes of code that ran from which on functions are ordered, and added blocks weighed against calls
LINE = 64
REACH = 3700  # bytes that a branch surely reaches, some left for growth
CLUSTER = 900_000  # the most bytes that are asked for in one cluster, some left of a million
MILLION = 1_000_000
SMALL = 20  # bytes up to which cold parts aren't moved away, as few as an entry of an unwind table has


class Weighing:
    """What is weighed against a transfer: `instruction` is what one costs; `share` of a million counts that a branch
    has at least to be looked at; and `line` what a line of 64 bytes costs at each call."""

    def __init__(self, instruction=0.5, share=100, line=1):
        self.instruction, self.share, self.line = instruction, share, line


def left_out(program, counts, functions):
    """Counts without what happened in some functions. What led into them or out stays with the block outside."""
    kept = collections.Counter()
    for (source, target), count in counts.items():
        inside = [program.owner[place].function in functions for place in (source, target)]
        if not any(inside):
            kept[source, target] += count
        elif not all(inside):
            place = target if inside[0] else source
            kept[place, place] += count
    return kept


class Wishes:
    """The counts of a profile as they were `given`, and as they are wished (`counts`), at first without what happened
    in functions that are left out; `done` counts the changes."""

    def __init__(self, program, given, weighing, without=()):
        self.program, self.given, self.weighing = program, given, weighing
        self.plain = left_out(program, given, without) if without else given
        self.returns = collections.Counter()
        for (source, target), count in given.items():
            if target in program.call_before and program.kind(source) == RETURN:
                self.returns[target] += count
        self.drop()

    def drop(self):
        """Takes all changes back."""
        self.counts, self.done = collections.Counter(self.plain), collections.Counter()

    def bytes_that_ran(self):
        """The bytes of all blocks that ran."""
        return sum(map(self.program.length, block_weights(self.program, self.given)))

    def changes(self):
        """The pairs whose counts differ, ascending, with the given and the wished count."""
        for pair in sorted(self.given.keys() | self.counts.keys()):
            old, new = self.given.get(pair, 0), self.counts.get(pair, 0)
            if old != new:
                yield pair, old, new

    def edges(self, blocks):
        """The edges between some blocks of a function that ran: (from, to, count, whether it has to be added). Control
        comes back behind a call by a return, and the way from the call is in no profile that was recorded."""
        found = [(*edge, False) for edge in counted_edges(self.program, self.counts, blocks)]
        known, counted = set(blocks), {edge[:2] for edge in found}
        for target in blocks:
            call = self.program.call_before.get(target)
            if call is not None and self.returns[target]:
                source = self.program.owner[call].start
                if source in known and (source, target) not in counted:
                    found.append((source, target, self.returns[target], True))
        return sorted(found)

    def worth(self, source, target, count):
        """What it saves if a block follows another one, in transfers."""
        program = self.program
        last, cost = program.blocks[source].last, self.weighing.instruction
        kind = program.kinds[last]
        if kind == BRANCH:
            return count + cost * self.counts.get((last, program.ends[source]), 0)
        if kind == JUMP:  # one that is a block of its own stays, and a computed one too
            return count * (1 + cost) if program.is_direct(last) and last != source else 0
        return count * (1 + cost) if kind in (CALL, OTHER) else 0

    # Chains

    def order_blocks(self):
        """Lets chains be those of the ext-TSP order, if it is better than the rule's own."""
        weights = block_weights(self.program, self.counts)
        for _, starts in sorted(self.program.functions.items()):
            hot = hot_blocks(starts, weights)
            edges = self.edges(hot) if len(hot) > 2 else []
            if edges:
                self.order_function(hot, edges, weights)

    def order_function(self, hot, edges, weights):
        """Lets the chains of a function be those of the ext-TSP order, if it is better."""
        number = {start: i for i, start in enumerate(hot)}
        numbered = [ext_tsp.Edge(number[s], number[t], count, self.worth(s, t, count)) for s, t, count, _ in edges]
        sizes = [self.program.length(start) for start in hot]
        linked = {edge[:2] for edge in edges}
        wished = [[hot[i] for i in chain] for chain in ext_tsp.block_chains(sizes, numbered)]
        wished = [part for chain in wished for part in parted(chain, linked)]
        plain = rule_chains(hot, counted_edges(self.program, self.counts, hot))

        def value(chains):
            """What a layout of chains saves, and its score."""
            ordered = sorted(chains, key=lambda c: (c[0] != hot[0], -max(weights[start] for start in c), c[0]))
            order = [number[start] for chain in ordered for start in chain]
            following = dict(zip(order, order[1:]))
            saved = sum(edge.worth for edge in numbered if following.get(edge.source) == edge.target)
            return saved, ext_tsp.score(sizes, numbered, order)

        if value(wished) > value(plain):
            self.ask(hot, edges, {pair for chain in wished for pair in zip(chain, chain[1:])})
            self.done["functions with other chains"] += 1

    def ask(self, hot, edges, wished):
        """Hides each edge that the rule would follow though it isn't wished, and adds those that are wished and aren't
        counted."""
        for source, target, _, lacking in edges:
            if lacking and (source, target) in wished:
                self.counts[self.program.blocks[source].last, target] += 1
                self.done["ways behind calls added"] += 1
        links = Links(hot, hot[0])
        for source, target, _ in in_order(counted_edges(self.program, self.counts, hot)):
            if links.may_link(source, target):
                if (source, target) in wished:
                    links.link(source, target)
                else:
                    self.hide(source, target)

    def hide(self, source, target):
        """Keeps the weights that the edge between two blocks gives, and takes its count from it."""
        one, other = self.program.blocks[source], self.program.blocks[target]
        count = self.counts.pop((one.last, target))
        if len(other.code) > 1:
            self.counts[one.last, other.code[1]] += count
        elif len(one.code) > 1:
            self.counts[source, target] += count
        else:
            self.counts[source, source] += count
            self.counts[target, target] += count
        self.done["ways hidden"] += 1

    # Functions

    def order_functions(self):
        """Lets units of functions stand in an order by their calls."""
        program, weights = self.program, block_weights(self.program, self.counts)
        unit, most = program.units()
        hot, sizes, room, offset = collections.defaultdict(list), collections.Counter(), collections.Counter(), {}
        for function, starts in sorted(program.functions.items()):
            room[unit[function]] += most[function]
            for start in starts:
                if weights[start]:
                    hot[unit[function]].append(start)
                    offset[start] = sizes[unit[function]]
                    sizes[unit[function]] += program.length(start)
        calls, samples = self.hide_calls(unit, offset)
        order = function_order(sizes, {one: samples[one] for one in sizes}, calls)
        self.ask_order(order, hot, room, weights)

    def hide_calls(self, unit, offset):
        """Takes calls between units from the counts, so that they ask for no order, and keeps the weights. Gives the
        calls, as `cdsort` wants them, and how often each unit was called."""
        program, calls, samples = self.program, collections.Counter(), collections.Counter()
        for (source, target), count in list(self.counts.items()):
            one, other = unit[program.owner[source].function], unit[program.owner[target].function]
            if one != other:
                if program.kind(source) != RETURN:
                    calls[one, other, offset[program.owner[source].start]] += count
                    samples[other] += count
                del self.counts[source, target]
                self.counts[source, source] += count
                self.counts[target, target] += count
                self.done["calls hidden"] += 1
        return [(*call, count) for call, count in sorted(calls.items())], samples

    def ask_order(self, order, hot, room, weights):
        """Lets each unit be the only caller of the next one, in clusters that the rule makes."""

        def hottest(one):
            """The block of a unit that runs most often."""
            return max(hot[one], key=lambda start: (weights[start], -start))

        total = 0
        for one, other in zip(order, order[1:]):
            total += room[one]
            if total + room[other] > CLUSTER:
                total = 0
            else:
                self.counts[hottest(one), hottest(other)] += 1
                self.done["functions ordered"] += 1

    # Cold blocks

    def bring_near(self, layout):
        """Lets blocks stand in reach of branches that often lead around a jump to them, by a layout of the counts.
        Gives how many it moved."""
        program, weights = self.program, block_weights(self.program, self.counts)
        added, lifted = collections.defaultdict(list), {}
        for branch, count in self.often():
            target = layout.long_way(branch)
            if target in program.blocks:
                here = program.blocks[target].function == program.owner[branch].function
                if not weights[target]:
                    added[target].append((count, branch))
                elif here and layout.at[branch] < layout.at[target]:
                    lifted[target] = min(lifted.get(target, layout.at[branch]), layout.at[branch])
        moved = sum(self.lift(target, at + REACH, layout, weights) for target, at in sorted(lifted.items()))
        return moved + self.add_blocks(added)

    def keep_small(self):
        """Lets cold blocks of few bytes stay at the end of their function's hot part: apart they would take more bytes
        in unwind tables and names than they have."""
        weights = block_weights(self.program, self.counts)
        for _, starts in sorted(self.program.functions.items()):
            cold = [start for start in starts if not weights[start]]
            if 0 < len(cold) < len(starts) and sum(map(self.program.length, cold)) <= SMALL:
                self.counts.update({(start, start): 1 for start in cold})
                self.done["small cold parts kept"] += 1

    def often(self):
        """The branches that run often enough to be looked at, with their counts."""
        leaves = collections.Counter()
        for (source, _), count in self.given.items():
            leaves[source] += count
        least = self.weighing.share * sum(self.given.values())
        return [(source, count) for source, count in leaves.items()
                if count * MILLION >= least and self.program.kind(source) == BRANCH]

    def add_blocks(self, wanted):
        """Makes cold blocks warm that branches want near: by block their counts and places."""
        entries, added = self.entries(), 0
        line = self.weighing.line if self.bytes_that_ran() > CACHE else 0
        for target, branches in sorted(wanted.items()):
            saved = sum(count for count, _ in branches)
            function = self.program.blocks[target].function
            if saved * LINE >= line * entries[function] * self.program.length(target):
                self.counts[max(branches)[1], target] += 1
                self.done["blocks added"] += 1
                added += 1
        return added

    def entries(self):
        """How often each function is entered from another one."""
        owner, found = self.program.owner, collections.Counter()
        for (source, target), count in self.given.items():
            if owner[target].function == target != owner[source].function:
                found[target] += count
        return found

    def lift(self, target, limit, layout, weights):
        """Lets the chain of a block stand before the last chain that begins below an address. Gives how many it
        moved."""
        starts = self.program.functions[self.program.blocks[target].function]
        hot = hot_blocks(starts, weights)
        chains = rule_chains(hot, counted_edges(self.program, self.counts, hot))
        heaviest = {chain[0]: max(weights[start] for start in chain) for chain in chains}
        mine = next(chain for chain in chains if target in chain)
        others = [chain[0] for chain in chains
                  if chain is not mine and chain[0] != starts[0] and layout.at[chain[0]] < limit]
        if mine[0] == starts[0] or not others:
            return 0
        wish = heaviest[max(others, key=lambda start: layout.at[start])] + 1
        if wish <= heaviest[mine[0]]:
            return 0
        self.counts[target, target] += wish - weights[target]
        self.done["blocks lifted"] += 1
        return 1


def parted(chain, linked):
    """The parts of a chain within which each block is linked to the next one."""
    parts = [[chain[0]]]
    for block in chain[1:]:
        if (parts[-1][-1], block) in linked:
            parts[-1].append(block)
        else:
            parts.append([block])
    return parts
