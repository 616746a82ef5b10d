"""An order of functions by calls, near to LLVM's cache-directed sort (`-reorder-functions=cdsort`): chains of functions
are merged while that brings calls nearer to what they call, or what runs often together onto fewer pages."""
import heapq

ENTRIES, PAGE = 16, 2048  # entries of the table of pages that is thought of, and bytes of a page
DISTANCE_POWER, FREQUENCY_SHARE = 0.25, 0.25
LONGEST_TURNED = 128  # functions of two chains that are also tried turned around
LEAST_GAIN = 1e-12


class Sorter:
    """Chains of nodes; `sizes` in bytes and `samples` are by node, `calls` (from, to, offset in from, count)."""

    def __init__(self, sizes, samples, calls):
        self.node_sizes, self.total = sizes, sum(samples.values()) or 1
        self.sizes, self.samples = dict(sizes), dict(samples)
        self.chains = {node: [node] for node in sizes}
        self.at, self.chain_of, self.stamps = dict.fromkeys(sizes, 0), {n: n for n in sizes}, dict.fromkeys(sizes, 0)
        self.between = {node: {} for node in sizes}
        for call in calls:
            source, target, _, count = call
            if source != target and count > 0:
                found = self.between[source].get(target, [])
                self.between[source][target] = self.between[target][source] = found
                found.append(call)
        self.heap = []

    def misses(self, samples, size):
        """How likely a page of a chain is no longer in the table when it is wanted."""
        of_page = samples / max(size, 1) * PAGE
        return 0.0 if of_page >= self.total else (1 - of_page / self.total) ** ENTRIES

    def saved_misses(self, a, b):
        """By how much it lowers misses if two chains are one."""
        samples, size = self.samples[a] + self.samples[b], self.sizes[a] + self.sizes[b]
        apart = sum(self.samples[c] * self.misses(self.samples[c], self.sizes[c]) for c in (a, b))
        return apart - samples * self.misses(samples, size)

    def place(self, node, turned):
        """Where a node begins in its chain, or in that turned around."""
        chain = self.chain_of[node]
        return self.sizes[chain] - self.at[node] - self.node_sizes[node] if chain in turned else self.at[node]

    def nearness(self, calls, first, turned):
        """The worth of calls between two chains, of which one comes first and some are turned around."""
        total = 0.0
        for source, target, offset, count in calls:
            begin, end = self.place(source, turned) + offset, self.place(target, turned)
            if self.chain_of[source] == first:
                end += self.sizes[first]
            else:
                begin += self.sizes[first]
            total += count * (abs(begin - end) or 0.1) ** -DISTANCE_POWER
        return total

    def consider(self, a, b):
        """Puts the best merge of two chains on the heap."""
        a, b = min(a, b), max(a, b)
        ways = [(a, b, ()), (b, a, ())]
        if len(self.chains[a]) + len(self.chains[b]) <= LONGEST_TURNED:
            ways += [(a, b, (a,)), (a, b, (b,)), (b, a, (b,)), (b, a, (a,))]
        calls = self.between[a][b]
        gain, way = max(((self.nearness(calls, x, turned), (x, y, turned)) for x, y, turned in ways),
                        key=lambda found: found[0])
        gain += FREQUENCY_SHARE * self.saved_misses(a, b)
        if gain >= 0:
            gain /= min(self.sizes[a], self.sizes[b]) or 1
        if gain > LEAST_GAIN:
            heapq.heappush(self.heap, (-gain, a, b, self.stamps[a], self.stamps[b], way))

    def join(self, a, b, way):
        """Merges the chain b into a."""
        parts = [self.chains[c][::-1] if c in way[2] else self.chains[c] for c in way[:2]]
        self.chains[a] = parts[0] + parts[1]
        self.sizes[a] += self.sizes.pop(b)
        self.samples[a] += self.samples.pop(b)
        self.stamps[a] += 1
        going = 0
        for node in self.chains[a]:
            self.at[node], self.chain_of[node] = going, a
            going += self.node_sizes[node]
        del self.chains[b]
        for other, calls in self.between.pop(b).items():
            del self.between[other][b]
            if other != a:
                self.between[a][other] = self.between[other][a] = self.between[a].get(other, []) + calls
        for other in self.between[a]:
            self.consider(a, other)

    def run(self):
        """All nodes in their order: chains by samples for each byte, descending."""
        for a, others in self.between.items():
            for b in others:
                if a < b:
                    self.consider(a, b)
        while self.heap:
            _, a, b, stamp, other_stamp, way = heapq.heappop(self.heap)
            if a in self.chains and b in self.chains and (self.stamps[a], self.stamps[b]) == (stamp, other_stamp):
                self.join(a, b, way)
        dense = sorted(self.chains, key=lambda chain: (-self.samples[chain] / max(self.sizes[chain], 1), chain))
        return [node for chain in dense for node in self.chains[chain]]


def function_order(sizes, samples, calls):
    """The nodes of `sizes` in an order; see `Sorter`."""
    return Sorter(sizes, samples, calls).run()
