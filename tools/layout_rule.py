"""What the rule by which `rewrite` lays code out makes of a profile's counts: weights of blocks, chains, and units of
functions that belong together."""
import collections

from program_graph import BRANCH, CALL, JUMP, OTHER

BRANCH_ROOM, JUMP_ROOM = 8, 4  # the most bytes that a branch and a jump may take, of which a block may end with both


class Program:
    """The blocks of a program by functions, with their lengths and ends."""

    def __init__(self, graph):
        self.graph, self.elf, self.blocks, self.owner = graph, graph.elf, graph.blocks, graph.owner
        self.functions = collections.defaultdict(list)
        for start in graph.starts:
            self.functions[self.blocks[start].function].append(start)
        self.kinds = {block.last: self.elf.kind(block.last) for block in self.blocks.values()}
        self.ends = {start: block.last + self.elf.size(block.last) for start, block in self.blocks.items()}
        # by a block that calls come back to, the call at the end of the block before it
        self.call_before = {self.ends[start]: block.last for start, block in self.blocks.items()
                            if self.kinds[block.last] == CALL and self.following(start)}

    def kind(self, address):
        """How an instruction passes control on."""
        return self.kinds[address] if address in self.kinds else self.elf.kind(address)

    def length(self, start):
        """The bytes of a block."""
        return self.ends[start] - start

    def is_direct(self, address):
        """Whether a jump is a JAL or C.J."""
        word = self.elf.word(address)
        return word & 0x7F == 0x6F or word & 3 == 1

    def following(self, start):
        """The block of the same function that control falls into from the end of a block, or nothing."""
        block, end = self.blocks[start], self.ends[start]
        falls = self.kinds[block.last] in (BRANCH, CALL, OTHER)
        return end if falls and end in self.blocks and self.blocks[end].function == block.function else None

    def units(self):
        """By each function the first function of its unit, and the most bytes that its new code may take."""
        first = {function: function for function in self.functions}

        def root(function):
            while first[function] != function:
                first[function] = first[first[function]]
                function = first[function]
            return function

        sizes = collections.Counter()
        for start, block in self.blocks.items():
            sizes[block.function] += self._room(start)
            for place in self._tied(start):
                if place in self.owner:
                    one, other = sorted((root(block.function), root(self.owner[place].function)))
                    first[other] = one
        return {function: root(function) for function in self.functions}, sizes

    def _room(self, start):
        """The most bytes that a block may take."""
        last, kind = self.blocks[start].last, self.kinds[self.blocks[start].last]
        own = BRANCH_ROOM if kind == BRANCH else JUMP_ROOM if kind == JUMP else self.ends[start] - last
        return last - start + own + (JUMP_ROOM if kind in (BRANCH, OTHER) or self.following(start) else 0)

    def _tied(self, start):
        """Where the branches, jumps and calls of a block lead that name their targets, and where it falls."""
        for at in self.blocks[start].code:
            word = self.elf.word(at)
            if word & 0x7F in (0x63, 0x6F) or word & 3 == 1 and word >> 13 & 7 >= 5:
                yield self.elf.target(at)
        if self.kinds[self.blocks[start].last] in (BRANCH, OTHER):
            yield self.ends[start]


def block_weights(program, counts):
    """The weights of blocks: the counts of all pairs that name an instruction of them."""
    weights, owner = collections.Counter(), program.owner
    for (source, target), count in counts.items():
        one, other = owner[source].start, owner[target].start
        weights[one] += count
        if one != other:
            weights[other] += count
    return weights


def hot_blocks(starts, weights):
    """The blocks of a function that its chains are made of: its first one, and those of positive weight."""
    return [start for start in starts if weights[start] or start == starts[0]]


def counted_edges(program, counts, blocks):
    """The edges between some blocks of a function, with their counts where these are positive: (from, to, count)."""
    known = set(blocks)
    for source in blocks:
        last = program.blocks[source].last
        for target in set(program.graph.successors[source]):
            if target in known and counts.get((last, target), 0) > 0:
                yield source, target, counts[last, target]


class Links:
    """Neighbours among blocks, and the chains that they make."""

    def __init__(self, blocks, first):
        self.blocks, self.first = blocks, first
        self.next, self.previous = {}, {}
        self.tail, self.head = {block: block for block in blocks}, {block: block for block in blocks}

    def may_link(self, source, target):
        """Whether the rule lets a block follow another one, as neither has such a neighbour yet."""
        return (source not in self.next and target not in self.previous and target != self.first
                and self.head[source] != target)

    def link(self, source, target):
        """Makes two blocks neighbours."""
        self.next[source], self.previous[target] = target, source
        head, tail = self.head[source], self.tail[target]
        self.tail[head], self.head[tail] = tail, head

    def chains(self):
        """The chains of blocks."""
        found = []
        for block in self.blocks:
            if block not in self.previous:
                found.append([block])
                while found[-1][-1] in self.next:
                    found[-1].append(self.next[found[-1][-1]])
        return found


def in_order(edges):
    """Edges in the order in which the rule takes them."""
    return sorted(edges, key=lambda edge: (-edge[2], edge[0], edge[1]))


def rule_chains(blocks, edges):
    """The chains that the rule makes of a function's blocks, of which the first is its first one."""
    links = Links(blocks, blocks[0])
    for source, target, _ in in_order(edges):
        if links.may_link(source, target):
            links.link(source, target)
    return links.chains()
