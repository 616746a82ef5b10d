"""An order of a function's blocks by the ext-TSP score: chains of blocks are merged while that raises it (A. Newell and
S. Pupyrev, "Improved Basic Block Reordering", IEEE Transactions on Computers, 2020)."""
import heapq
import itertools
import typing

FORWARD, BACKWARD = 1024, 640  # bytes over which a jump is worth something
NEARBY = 0.1  # what a jump is worth that goes nowhere, of what it is worth to fall there
LONGEST_SPLIT = 96  # blocks of a chain that another one may be put into
FEW = 12  # blocks of a chain that is tried at each cut
LEAST_GAIN = 1e-9


class Edge(typing.NamedTuple):
    """How often control goes from one block to another, and what it is worth if the second follows the first."""

    source: int
    target: int
    count: int
    worth: float


def value(count, worth, distance):
    """What an edge adds to the score, by the bytes from the end of its source to the start of its target."""
    if distance == 0 and worth:
        return worth
    if 0 <= distance < FORWARD:
        return NEARBY * count * (1 - distance / FORWARD)
    if -BACKWARD < distance < 0:
        return NEARBY * count * (1 + distance / BACKWARD)
    return 0.0


def most(edge):
    """The most that an edge may add to the score."""
    return max(edge.worth, NEARBY * edge.count)


class Chain:
    """Blocks in their order, their bytes, and the edges between them; the stamp counts its merges. If they are asked
    for, `numbers` has the places of blocks, and `rooms` by each cut what a merge there may win at the most of the edges
    across it."""

    def __init__(self, block, size):
        self.blocks, self.size, self.inner, self.stamp = [block], size, [], 0
        self.rooms = self._numbers = None

    def numbers(self):
        """By block its place in the chain, from 0."""
        if self._numbers is None:
            self._numbers = {block: i for i, block in enumerate(self.blocks)}
        return self._numbers

    def become(self, blocks, size, inner):
        """Takes other blocks."""
        self.blocks, self.size, self.inner, self.stamp = blocks, size, inner, self.stamp + 1
        self.rooms = self._numbers = None


class Merge(typing.NamedTuple):
    """How one chain is joined to another: the first is cut before the block of a number, or not where that is 0, and
    its two parts and the second chain (0, 1, 2) come in an order."""

    first: int
    second: int
    cut: int
    order: tuple


WHOLE = (0, 1, 2)
PARTED = ((0, 2, 1), (1, 0, 2), (2, 1, 0), (1, 2, 0))


class Merger:
    """Chains of blocks by number, which are merged by greatest gain."""

    def __init__(self, sizes, edges, entry):
        self.sizes, self.entry = sizes, entry
        self.chains = {block: Chain(block, size) for block, size in enumerate(sizes)}
        self.at = [0] * len(sizes)  # of each block within its chain
        self.chain_of = list(range(len(sizes)))
        self.between = {block: {} for block in self.chains}
        for edge in edges:
            if edge.source != edge.target and edge.count > 0:
                found = self.between[edge.source].get(edge.target, [])
                self.between[edge.source][edge.target] = self.between[edge.target][edge.source] = found
                found.append(edge)
        self.heap = []

    def cuts(self, chain, other, edges):
        """Where a chain may be cut for another one: everywhere if it is short, else where an edge leads to the other's
        first block, or comes from its last one. `edges` are those between both."""
        if not 1 < len(chain.blocks) <= LONGEST_SPLIT:
            return ()
        if len(chain.blocks) <= FEW:
            return range(1, len(chain.blocks))
        number, head, tail, found = chain.numbers(), other.blocks[0], other.blocks[-1], set()
        for source, target, _, _ in edges:
            if target == head:
                found.add(number[source] + 1)
            if source == tail:
                found.add(number[target])
        return sorted(found - {0, len(chain.blocks)})

    @staticmethod
    def shifts(first, second, offset, order):
        """By how much the parts of the first chain and the second one move, if the first is cut at an offset."""
        lengths, starts, going = (offset, first.size - offset, second.size), [0, -offset, 0], 0
        for part in order:
            starts[part] += going
            going += lengths[part]
        return starts

    def gain(self, merge, edges):
        """By how much a merge raises the score; `edges` are those between both chains."""
        first, second = self.chains[merge.first], self.chains[merge.second]
        offset = self.at[first.blocks[merge.cut]] if merge.cut else first.size
        shift = self.shifts(first, second, offset, merge.order)
        at, sizes, chain_of, total = self.at, self.sizes, self.chain_of, 0.0
        for source, target, count, worth in edges:
            if chain_of[source] == merge.second:
                moved_by = shift[0 if at[target] < offset else 1] - shift[2]
            else:
                moved_by = shift[2] - shift[0 if at[source] < offset else 1]
            total += value(count, worth, at[target] - at[source] - sizes[source] + moved_by)
        if merge.cut:
            apart = shift[1] - shift[0]
            for source, target, count, worth in first.inner:
                before = at[source] < offset
                if before != (at[target] < offset):
                    distance = at[target] - at[source] - sizes[source]
                    moved_by = apart if before else -apart
                    total += value(count, worth, distance + moved_by) - value(count, worth, distance)
        return total

    def rooms(self, chain):
        """See `Chain`. What lies across a cut is no longer next to it, but the chain's last block may come to be before
        its first one."""
        if chain.rooms is None:
            number = chain.numbers()
            changes = [0.0] * (len(chain.blocks) + 1)
            for source, target, count, worth in chain.inner:
                i, j = number[source], number[target]
                distance = self.at[target] - self.at[source] - self.sizes[source]
                wraps = i == len(chain.blocks) - 1 and j == 0
                room = (worth if wraps and worth else NEARBY * count) - value(count, worth, distance)
                changes[min(i, j) + 1] += room
                changes[max(i, j) + 1] -= room
            chain.rooms = list(itertools.accumulate(changes))
        return chain.rooms

    def merges(self, a, b, least):
        """The ways in which two chains may be merged, so that the entry stays first; but for cuts by which no merge
        wins more than `least` gives."""
        edges = self.between[a][b]
        bound = sum(map(most, edges))
        for x, y in ((a, b), (b, a)):
            first, second = self.chains[x], self.chains[y]
            fixed = 0 if first.blocks[0] == self.entry else 2 if second.blocks[0] == self.entry else None
            if fixed != 2:
                yield Merge(x, y, 0, WHOLE)
            for cut in self.cuts(first, second, edges):
                if bound + self.rooms(first)[cut] > least():
                    yield from (Merge(x, y, cut, order) for order in PARTED if fixed in (None, order[0]))

    def consider(self, a, b):
        """Puts the best merge of two chains on the heap, if any raises the score."""
        a, b = min(a, b), max(a, b)
        edges, best, found = self.between[a][b], 0.0, None
        for merge in self.merges(a, b, lambda: best):
            gain = self.gain(merge, edges)
            if gain > best + LEAST_GAIN:
                best, found = gain, merge
        if found:
            heapq.heappush(self.heap, (-best, a, b, self.chains[a].stamp, self.chains[b].stamp, found))

    def join(self, a, b, merge):
        """Merges the chain b into a."""
        first, second = self.chains[merge.first], self.chains[merge.second]
        cut = merge.cut or len(first.blocks)
        parts = first.blocks[:cut], first.blocks[cut:], second.blocks
        kept = self.chains[a]
        kept.become([block for part in merge.order for block in parts[part]], first.size + second.size,
                    first.inner + second.inner + self.between[a][b])
        going = 0
        for block in kept.blocks:
            self.at[block], self.chain_of[block] = going, a
            going += self.sizes[block]
        del self.chains[b]
        for other, edges in self.between.pop(b).items():
            del self.between[other][b]
            if other != a:
                self.between[a][other] = self.between[other][a] = self.between[a].get(other, []) + edges
        for other in self.between[a]:
            self.consider(a, other)

    def run(self):
        """The chains after all merges that raise the score."""
        for a, others in self.between.items():
            for b in others:
                if a < b:
                    self.consider(a, b)
        while self.heap:
            _, a, b, stamp, other_stamp, merge = heapq.heappop(self.heap)
            if a in self.chains and b in self.chains:
                if (self.chains[a].stamp, self.chains[b].stamp) == (stamp, other_stamp):
                    self.join(a, b, merge)
        return [chain.blocks for chain in self.chains.values()]


def block_chains(sizes, edges, entry=0):
    """The chains of a function's blocks, which are numbered from 0 and have these sizes, as lists of numbers. The block
    `entry` is first in its chain."""
    return Merger(sizes, edges, entry).run()


def score(sizes, edges, order):
    """The score of an order of blocks."""
    at, going = {}, 0
    for block in order:
        at[block] = going
        going += sizes[block]
    return sum(value(count, worth, at[target] - at[source] - sizes[source]) for source, target, count, worth in edges
               if source != target and source in at and target in at)
