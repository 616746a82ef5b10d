"""Counts of edges between blocks that samples of the program counter make likely."""
import math

from program_graph import BRANCH, CALL, JUMP, signed

UNSEEN = 0.05  # samples that a block counts as in which none fell
BALANCE = 20  # instructions of a block that speak for as much to leave it as enters it, beside its own for its samples
CALLED = 10  # instructions of a block that speak for it to run as often as each of its calls enters a function
EVEN = 0.3  # samples at the end of a block that speak for all edges from it to have the same count
SCALINGS, STEPS, MORE_STEPS = 15, 60, 40
LARGEST = 40  # blocks of a way that are looked at
TINY = 1e-9  # a count that is none
# How often a branch is taken, and how likely that is before samples are seen: most always go the same way. Of those
# that ran 30 times and more in Lua, LZ4, cJSON and `words` a third was taken in less than 2 % of its runs, and a
# quarter in more than 98 %.
SHARES = [0.01, 0.03, 0.1, 0.2, 0.3, 0.4, 0.5, 0.6, 0.7, 0.8, 0.9, 0.97, 0.99]
FORWARD, BACK = ([never, *[(1 - never - always) / (len(SHARES) - 2)] * (len(SHARES) - 2), always]
                 for never, always in ((0.38, 0.27), (0.3, 0.3)))


def call_target(graph, at):
    """Where a call or jump goes that names its target, by itself or with an AUIPC before it; or nothing."""
    elf = graph.elf
    word, before = elf.word(at), elf.word(at - 4) if at - 4 in graph.owner else 0
    if word & 0x7F == 0x67 and before & 0x7F == 0x17 and before >> 7 & 31 == word >> 15 & 31:
        return at - 4 + 4096 * signed(before, range(31, 11, -1)) + signed(word, range(31, 19, -1))
    return elf.target(at)


def calls_of(graph, start):
    """The calls in a block, and the jump out of its function, if it may end with one."""
    for at in graph.blocks[start].code:
        kind = graph.elf.kind(at)
        if kind == CALL or kind == JUMP and None in graph.successors[start]:
            yield at


def reached(graph, functions):
    """Some functions, and those that they call by name."""
    ends = {call_target(graph, at) for start, block in graph.blocks.items() if block.function in functions
            for at in calls_of(graph, start)}
    return functions | {graph.owner[end].function for end in ends if end in graph.owner}


class Fit:
    """The edges of functions in which samples fell, and of those that they call by name, with counts that make these
    samples likely.

    In a block of n instructions that ran c times some n * c samples fall, as a Poisson distribution has it, where c is
    the sum of the edges to it, and that of the edges from it. A call of a function by name is an edge to its first
    block, with the count of the block of the call. Edges from and to elsewhere make up for what a function gets and
    gives besides. Counts are in samples of one instruction.
    """

    def __init__(self, graph, samples):
        functions = reached(graph, {graph.blocks[start].function for start in samples})
        self.graph, self.blocks = graph, [block for block in graph.blocks.values() if block.function in functions]
        self.number = {None: None, **{block.start: i for i, block in enumerate(self.blocks)}}
        self.sizes = [len(block.code) for block in self.blocks]
        self.seen = [samples.get(block.start, 0) for block in self.blocks]
        self.samples = [seen or UNSEEN for seen in self.seen]
        self.edges = [edge for edge in graph.edges if all(place in self.number for place in edge)]
        self.ends = [(self.number[source], self.number[target]) for source, target in self.edges]
        self.leaving, self.entering, self.calls = ([[] for _ in self.blocks] for _ in range(3))
        for i, (source, target) in enumerate(self.ends):
            if source is not None:
                self.leaving[source].append(i)
            if target is not None:
                self.entering[target].append(i)
        self.callers = list(self._calls())
        self.counts = [1.0] * len(self.ends)
        self.even = [EVEN / len(group) if len(group) > 1 else 0.0
                     for group in (self.leaving[source] if source is not None else () for source, _ in self.ends)]

    def _calls(self):
        """Adds an edge for each call that names its function, and gives it with the block of the call."""
        for block, it in enumerate(self.blocks):
            for at in calls_of(self.graph, it.start):
                target = self.number.get(call_target(self.graph, at))
                if target is not None:
                    self.calls[block].append(len(self.ends))
                    self.entering[target].append(len(self.ends))
                    yield len(self.ends), block
                    self.ends.append((None, target))

    def sums(self, groups):
        """By block the sum of some of its edges."""
        counts = self.counts
        return [sum([counts[i] for i in group]) for group in groups]

    def scale(self):
        """Scales the edges from each block, and then those to it, so that their sums are what its samples say."""
        for groups in (self.leaving, self.entering):
            for group, total, seen, size in zip(groups, self.sums(groups), self.samples, self.sizes):
                for i in group if total else ():
                    self.counts[i] *= seen / size / total

    def begin(self):
        """Counts to begin with."""
        for _ in range(SCALINGS):
            self.scale()
        for i, block in self.callers:
            self.counts[i] = self.samples[block] / self.sizes[block]

    def improve(self):
        """A step of expectation maximization. Each block speaks for the edges to it by its samples, by the sum of the
        edges from it, as if that had been sampled too, in BALANCE instructions, and by its calls, in CALLED ones; and
        so for the edges from it, and for its calls."""
        entered, left, called = map(self.sums, (self.entering, self.leaving, self.calls))
        to_enter, to_leave = self.wanted(entered, left, called), self.wanted(left, entered, called)
        weights = [size + BALANCE + CALLED * len(calls) for size, calls in zip(self.sizes, self.calls)]
        counts = []
        for (source, target), count, even in zip(self.ends, self.counts, self.even):
            wanted = weight = 0.0
            if target is not None:
                wanted, weight = to_enter[target], weights[target]
            if source is not None:
                wanted, weight = wanted + to_leave[source], weight + weights[source]
                if even and count > TINY < left[source]:
                    wanted, weight = wanted + even / count, weight + EVEN / left[source]
            counts.append(count * (wanted / weight) if weight else count)
        for i, block in self.callers:
            target, ran = self.ends[i][1], entered[block] or left[block]
            wanted = to_enter[target] * self.counts[i] + self.samples[block] + BALANCE * ran
            counts[i] = wanted / (weights[target] + self.sizes[block] + BALANCE)
        self.counts = counts

    def wanted(self, sums, others, called):
        """By block the factor of its edges on one side, times its weight, by the sums of both sides and of its
        calls."""
        return [(seen + BALANCE * (other or own) + CALLED * calls) / own if own else 0.0
                for seen, own, other, calls in zip(self.samples, sums, others, called)]

    def flows(self):
        """How often each block ran."""
        return [(entered + left) / 2 if entered and left else entered or left
                for entered, left in zip(self.sums(self.entering), self.sums(self.leaving))]

    def way(self, edge):
        """The blocks to which control comes by an edge alone, and not again before that edge."""
        source, target = self.ends[edge]
        found, left = {}, [target]
        while left and len(found) < LARGEST:
            block = left.pop()
            if block not in (None, source) and block not in found and all(
                    i == edge or self.ends[i][0] is not None and self.ends[i][0] in found
                    for i in self.entering[block]):
                found[block] = True
                left += [self.ends[i][1] for i in self.leaving[block]]
        return list(found)

    def weigh_branches(self):
        """Lets the samples of ways from branches be those that are expected after what was seen there, and what
        branches do, have been weighed."""
        flows, factors = self.flows(), {}
        for block, group in enumerate(self.leaving):
            target = self.graph.elf.target(self.blocks[block].last)
            taken = [i for i in group if self.edges[i][1] == target]
            if self.graph.elf.kind(self.blocks[block].last) == BRANCH and len(group) == 2 and len(taken) == 1:
                edges = taken + [i for i in group if i not in taken]
                ways = [self.way(i) for i in edges]
                chances = FORWARD if target > self.blocks[block].last else BACK
                share = self.share(chances, flows[block], *(self.evidence(*it, flows) for it in zip(edges, ways)))
                for edge, way, part in zip(edges, ways, (share, 1 - share)):
                    for i in way if self.counts[edge] > TINY else ():
                        factors[i] = factors.get(i, 1) * part * flows[block] / self.counts[edge]
        for block, factor in factors.items():
            self.samples[block] = self.sizes[block] * flows[block] * factor

    def evidence(self, edge, way, flows):
        """How many samples fell on a way, and in how many instructions of it for each time that control goes there."""
        count = self.counts[edge]
        return (sum(self.seen[block] for block in way),
                sum(self.sizes[block] * (flows[block] / count if count > TINY else 1) for block in way))

    @staticmethod
    def share(chances, flow, taken, fall):
        """The share of its runs in which a branch is expected to be taken, by the evidence on both ways."""
        logs = [sum(samples * math.log(part) - size * flow * part
                    for (samples, size), part in ((taken, share), (fall, 1 - share))) for share in SHARES]
        weights = [chance * math.exp(log - max(logs)) for chance, log in zip(chances, logs)]
        return sum(weight * share for weight, share in zip(weights, SHARES)) / sum(weights)


def fitted(graph, samples):
    """Counts that samples by blocks speak for, in samples of one instruction: of the edges between blocks, and of
    blocks."""
    fit = Fit(graph, samples)
    fit.begin()
    for _ in range(STEPS):
        fit.improve()
    fit.weigh_branches()
    for _ in range(MORE_STEPS):
        fit.improve()
    return ({edge: count for edge, count in zip(fit.edges, fit.counts) if None not in edge},
            {block.start: flow for block, flow in zip(fit.blocks, fit.flows())})
