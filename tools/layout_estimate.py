"""What a layout costs in a run, by the counts of a profile and the lines of a map: no file is run."""
import collections
import os
import struct
import typing

from program_graph import BRANCH, CALL, JUMP, OTHER, RETURN, call_tool

LINE_BITS, PAGE_BITS = 6, 12
LONG = 8  # bytes of a branch around a jump


class Cost(typing.NamedTuple):
    """What a run costs: transfers taken, instructions more than in the input, and bytes, lines of 64 bytes and pages of
    4096 of the blocks that ran."""

    taken: int
    more: int
    bytes: int
    lines: int
    pages: int

    def weighed(self, of_instruction):
        """Transfers taken and instructions in one number."""
        return self.taken + of_instruction * self.more


def all_moves(elf, edges, counts):
    """The pairs of instructions of which one ran after the other, with their counts: the edges of a profile, and what
    went on to the next instruction. Of a branch hardware records only how often it was taken: all other of the counted
    runs of that instruction went on."""
    moves, known = collections.Counter(edges), collections.Counter()
    for (source, _), count in edges.items():
        known[source] += count
    for source, count in counts.items():
        if elf.kind(source) in (OTHER, BRANCH) and count > known[source]:
            moves[source, source + elf.size(source)] += count - known[source]
    return moves


class Layout:
    """Where the instructions of a file went: by their addresses in it the new ones (`at`), and how many bytes each
    became (`size`)."""

    def __init__(self, elf, at, size):
        self.elf, self.at, self.size = elf, at, size

    def _end(self, place):
        return self.at[place] + self.size[place]

    def _ends(self, branch):
        """Where a branch leads: its target, and what follows it."""
        return self.elf.target(branch), branch + self.elf.size(branch)

    def ways(self, branch):
        """What control takes from a branch to its target and to what follows it: by place (transfers, jumps)."""
        (target, fall), end, around = self._ends(branch), self._end(branch), int(self.is_long(branch))
        if self.at.get(fall) == end:
            return {target: (1, around), fall: (around, 0)}
        if self.at.get(target) == end:
            return {fall: (1, around), target: (around, 0)}
        return {target: (1, around), fall: (1 + around, 1)}

    def is_long(self, branch):
        """Whether a branch became one around a jump, as its target is too far away."""
        end = self._end(branch)
        goes_on = any(self.at.get(place) == end for place in self._ends(branch))
        return self.size[branch] >= (LONG if goes_on else LONG + 4)

    def long_way(self, branch):
        """Where the jump leads that a branch goes around, or nothing."""
        if not self.is_long(branch):
            return None
        (target, fall), end = self._ends(branch), self._end(branch)
        return fall if self.at.get(target) == end != self.at.get(fall) else target

    def is_around(self, branch):
        """Whether a branch leads over a jump only, be that its own or an instruction that follows it."""
        end, places = self._end(branch), self._ends(branch)
        for jump, other in (places, places[::-1]):
            if self.at.get(jump) == end and self.size[jump] and self.elf.kind(jump) == JUMP:
                if self.elf.target(jump) is not None and self.at.get(other) == self._end(jump):
                    return True
        return self.is_long(branch)

    def transfers(self, moves):
        """How often control goes elsewhere than on in a run, and how many instructions more it takes than before."""
        taken = more = 0
        for (source, target), count in moves.items():
            kind, size = self.elf.kind(source), self.size[source]
            if not size:
                more -= count
            elif kind == BRANCH:
                hops, jumps = self.ways(source).get(target, (1, 0))
                taken, more = taken + hops * count, more + jumps * count
            elif kind in (CALL, JUMP, RETURN):
                taken += count if self._leaves(source, target) else 0
            elif size > self.elf.size(source):
                taken, more = taken + count, more + count
            if kind == RETURN:
                call = self._call_before(target)
                if call is not None and self.size[call] > self.elf.size(call):  # a jump follows the call
                    taken, more = taken + count, more + count
        return taken, more

    def _leaves(self, source, target):
        """Whether a jump, call or return goes elsewhere than on. The way from a call to the instruction behind it,
        which repaired profiles have, is none of its own: a return is."""
        end = self._end(source)
        if self.elf.kind(source) == CALL:  # not the end of a jump that follows it
            end = self.at[source] + self.elf.size(source)
        return end != self.at.get(target) and self._call_before(target) != source

    def _call_before(self, place):
        """The call that comes back to a place, or nothing."""
        if place not in self.elf.starts:
            for size in (4, 2):
                call = place - size
                if call in self.size and self.elf.size(call) == size and self.elf.kind(call) == CALL:
                    return call
        return None


class Mapper:
    """Gives layouts of a program by counts, and what they cost in the run that the counts `given` are of. No table of
    debug data says how code is laid out, so the tool is given a copy without them, which it reads in less time. Of maps
    it keeps the ends of blocks, and what the pairs of `given` name."""

    def __init__(self, tool, program, path, given, folder):
        self.tool, self.program, self.given = tool, program, given
        self.path, self.asked = os.path.join(folder, os.path.basename(path)), os.path.join(folder, "asked")
        with open(self.path, "wb") as file:
            file.write(without_debug_data(program.elf.data))
        ends = {place for block in program.blocks.values() for place in (block.start, block.last)}
        self.places = {f"{place:x}": place for place in ends.union(*given)}

    def layout(self, counts):
        """The layout that a profile with these counts gives."""
        self.program.graph.write_profile(self.asked, counts)
        at, size = {}, {}
        for line in call_tool(self.tool, "map", self.path, self.asked).splitlines():
            new, length, old = line.split(" ")
            if old in self.places:
                place = self.places[old]
                at[place], size[place] = int(new, 16), int(length)
        return Layout(self.program.elf, at, size)

    def cost(self, layout):
        """The cost of the run in a layout."""
        program, lines, length = self.program, set(), 0
        for start in {program.owner[place].start for pair in self.given for place in pair}:
            code = program.blocks[start].code
            first, last = layout.at[code[0]], layout.at[code[-1]] + layout.size[code[-1]]
            length += last - first
            lines.update(range(first >> LINE_BITS, (last - 1 >> LINE_BITS) + 1))
        pages = {line >> PAGE_BITS - LINE_BITS for line in lines}
        return Cost(*layout.transfers(self.given), length, len(lines), len(pages))


ALLOCATED, RELOCATIONS, SECTION_BYTES = 2, (4, 9), 64  # SHF_ALLOC; SHT_RELA, SHT_REL
KEPT_TYPES = (0, 2, 3)  # SHT_NULL, SHT_SYMTAB, SHT_STRTAB


def without_debug_data(data):
    """The bytes of a file whose table of sections has no header of what isn't loaded, but for symbols and names."""
    table, = struct.unpack_from("<Q", data, 40)
    count, = struct.unpack_from("<H", data, 60)
    headers = [struct.unpack_from("<IIQQQQIIQQ", data, table + SECTION_BYTES * i) for i in range(count)]
    made = bytearray(data)
    for i, header in enumerate(headers):
        of = headers[header[7]] if header[1] in RELOCATIONS and header[7] < count else header
        if header[1] not in KEPT_TYPES and not of[2] & ALLOCATED:
            made[table + SECTION_BYTES * i : table + SECTION_BYTES * (i + 1)] = bytes(SECTION_BYTES)
    return bytes(made)
