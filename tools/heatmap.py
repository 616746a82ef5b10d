#!/usr/bin/env python3
"""Draws where a program's code ran, before and after a rewrite, and counts what the run did.

    python3 tools/heatmap.py [--svg FILE] [--json] [--cell BYTES] IN OUT MAP PROFILE

IN, OUT and MAP are those of `rewrite`, and PROFILE the profile that it took, or any other of IN. The text that is
printed has a sign for each 64 bytes of code, a cache line (for more if the code has over a MiB, so that there are some
256 rows), or for each BYTES, 64 of them in a row: the darker the sign, the more often an instruction there ran, each
step of the scale being eight times as often. Rows in which nothing ran are counted. The SVG has both pictures beside
each other, with lines between pages of 4096 bytes, and the function and the count of a cell under the pointer.

Then come, of both files, the counts of the run: instructions, taken branches (all that go elsewhere than to the next
instruction: jumps, calls and returns too), and runs of long branches, which are branches around a jump; the bytes of
code that ran; and how many cache lines and how many pages hold a half, nine tenths and all of what ran. `--json` prints
these figures alone, as JSON.

How often an instruction ran is what the profile says: if control came to a place n times, each instruction from there
to the next place from which the profile has control go on ran n times, within one function. No file is run. A profile
of hardware, which has taken branches only, gives the figures of the part that it sampled.
"""
import argparse
import bisect
import collections
import html
import json
import os
import re
import sys

from elf_file import ElfFile
from layout_estimate import Layout, all_moves
from program_graph import BRANCH, Elf, Failure, run_script, written_whole

LINE, PAGE, COLUMNS, STEP = 64, 4096, 64, 8
SIGNS = " .:-=+*#%@"
TOP, GRID = 34, "#8a8a8a"  # of pictures: where the rows begin, and the colour of lines
COLOURS = ["#f4f4f4", "#fde6c8", "#fdd09a", "#fcb36b", "#f8924a", "#ee6d33", "#dc4a22", "#bd2a18", "#921410", "#5c0909"]


def functions_of(path):
    """The functions of a file: their addresses, ascending, and by address a name of each."""
    names = {}
    for address, name in ElfFile(path).functions():
        names.setdefault(address, name)
    return sorted(names), names


def spans_of(path):
    """The lines of a map, of which there is one at least: new address, bytes, old address."""
    spans = []
    try:
        with open(path, encoding="ascii") as lines:
            spans = [(int(new, 16), int(size), int(old, 16)) for new, size, old in map(str.split, lines)]
    except ValueError:
        pass  # another file, or one of bytes
    if not spans:
        raise Failure(f"{path} is no map: the names are those of IN, OUT, MAP and PROFILE, in this order")
    return spans


def edges_of(profile, path):
    """The pairs of addresses of a profile of a file with their counts. A function may have several names; a name that
    several have, and a line of another form, says nothing."""
    places = collections.defaultdict(set)
    for address, name in ElfFile(path).functions():
        places[name].add(address)
    form = re.compile(r"1 (\S+) ([0-9a-f]+) 1 (\S+) ([0-9a-f]+) [0-9]+ ([0-9]+)")

    def place(name, offset):
        address = re.fullmatch("@(0|[1-9a-f][0-9a-f]*)", name)
        found = {int(address[1], 16)} if address else places.get(name, ())
        return min(found) + int(offset, 16) if len(found) == 1 else None

    edges = collections.Counter()
    with open(profile, encoding="utf-8", errors="replace", newline="\n") as lines:
        for line in lines:
            if row := form.fullmatch(line.rstrip("\n")):
                start, end = place(row[1], row[2]), place(row[3], row[4])
                if start is not None and end is not None:
                    edges[start, end] += int(row[5])
    return edges


def counts_of(edges, entry, instructions, functions):
    """By old address how often an instruction ran; `instructions` and the addresses of `functions` ascend."""
    came, ends = collections.Counter({entry: 1}), sorted({start for start, _ in edges})
    for (_, end), count in edges.items():
        came[end] += count
    change = collections.Counter()
    for start, count in came.items():
        # Where the run ended, no edge does: the count ends with the function.
        i, j = bisect.bisect_left(ends, start), bisect.bisect_right(functions, start)
        stops = [end + 1 for end in ends[i : i + 1]] + functions[j : j + 1]
        change[start] += count
        if stops:
            change[min(stops)] -= count
    counts, going, changes, i = {}, 0, sorted(change), 0
    for address in instructions:
        while i < len(changes) and changes[i] <= address:
            going += change[changes[i]]
            i += 1
        counts[address] = going
    return counts


class Picture:
    """The code of one file in cells: by number of a cell the greatest count in it."""

    def __init__(self, title, places, cell, named):
        self.title, self.cell = title, cell
        self.starts, self.names = named
        self.row = cell * COLUMNS
        self.first = min(at for at, _, _ in places) // self.row * self.row
        self.last = max(at + size for at, size, _ in places)
        self.rows = (self.last - self.first + self.row - 1) // self.row
        self.cells, self.lines, self.pages = collections.Counter(), collections.Counter(), collections.Counter()
        self.hottest = {}  # the place of the instruction that has a cell's count
        self.hot = 0  # bytes of code that ran
        for at, size, count in places:
            if size and count:
                self.hot += size
                self.lines[at // LINE] += count
                self.pages[at // PAGE] += count
                number = (at - self.first) // cell
                if count > self.cells[number]:
                    self.cells[number], self.hottest[number] = count, at

    def level(self, number):
        """From 0, if nothing ran, to 9."""
        count, level = self.cells[number], 0
        while count and level < len(SIGNS) - 1:
            count, level = count // STEP, level + 1
        return level

    def figures(self):
        """How many lines and pages hold a half, nine tenths and all of what ran, and the bytes that ran."""
        found = {"hot_bytes": self.hot}
        for name, whole in (("lines", self.lines), ("pages", self.pages)):
            total, sums, going = sum(whole.values()), [], 0
            for count in sorted(whole.values(), reverse=True):
                going += count
                sums.append(going)
            parts = [bisect.bisect_left(sums, total * tenths / 10) + 1 if sums else 0 for tenths in (5, 9)]
            found[name] = [*parts, len(sums)]
        return found

    def text(self):
        lines, cold = [self.title], 0
        for row in range(self.rows + 1):
            signs = "".join(SIGNS[self.level(row * COLUMNS + i)] for i in range(COLUMNS)) if row < self.rows else ""
            if row < self.rows and not signs.strip():
                cold += 1
                continue
            if cold:
                lines.append(f"{'':>10}   {cold} {'row' if cold == 1 else 'rows'} in which nothing ran")
                cold = 0
            if signs:
                lines.append(f"{self.first + row * self.row:10x}  |{signs}|")
        return "\n".join(lines)

    def function(self, at):
        i = bisect.bisect_right(self.starts, at) - 1
        return self.names[self.starts[i]] if i >= 0 else "?"

    def page_lines(self, left, size):
        """Lines between pages: between rows, or, if a row has several pages, down in it."""
        right, down = left + COLUMNS * size, TOP + self.rows * size
        pages = range(self.first // PAGE * PAGE + PAGE, self.first + self.rows * self.row, PAGE)
        rows = [TOP + (at - self.first) // self.row * size for at in pages if (at - self.first) % self.row == 0]
        columns = [left + i * size for i in range(1, COLUMNS) if i * self.cell % PAGE == 0]
        return [f'<path d="M{left - 3} {y}H{right}" stroke="{GRID}"/>' for y in rows if PAGE >= self.row] + \
               [f'<path d="M{x} {TOP}V{down}" stroke="{GRID}"/>' for x in columns]

    def svg(self, left, size):
        shown = [f'<text x="{left}" y="{TOP - 10}" font-weight="bold">{html.escape(self.title)}</text>']
        shown.append(f'<rect x="{left}" y="{TOP}" width="{COLUMNS * size}" height="{self.rows * size}" '
                     f'fill="{COLOURS[0]}" stroke="{GRID}"/>')
        for row in range(0, self.rows, max(1, PAGE // self.row, -(-14 // size))):
            shown.append(f'<text x="{left - 6}" y="{TOP + row * size + 9}" text-anchor="end" font-size="10" '
                         f'font-family="monospace">{self.first + row * self.row:x}</text>')
        for number in sorted(self.cells):
            at = self.first + number * self.cell
            x, y = left + number % COLUMNS * size, TOP + number // COLUMNS * size
            name = html.escape(f"{at:x} {self.function(self.hottest[number])}: {self.cells[number]}")
            shown.append(f'<rect x="{x}" y="{y}" width="{size}" height="{size}" fill="{COLOURS[self.level(number)]}">'
                         f"<title>{name}</title></rect>")
        return shown + self.page_lines(left, size)


def legend_text():
    """The signs of the scale, with the least count of each."""
    return "  ".join(f"{sign} {short(STEP ** i)}" for i, sign in enumerate(SIGNS[1:]))


def legend_svg(left, top, size):
    """The colours of the scale, with the least count of each, and what a cell is."""
    shown = []
    for level, colour in enumerate(COLOURS):
        x, least = left + level * 64, STEP ** (level - 1) if level else 0
        shown.append(f'<rect x="{x}" y="{top}" width="{size + 4}" height="{size + 4}" fill="{colour}" '
                     f'stroke="{GRID}"/>')
        shown.append(f'<text x="{x + size + 8}" y="{top + size + 2}" font-size="10">{short(least)}+</text>')
    return shown


def short(count):
    """A count in few letters."""
    for unit, name in ((1 << 20, "M"), (1 << 10, "K")):
        if count >= unit:
            return f"{count // unit}{name}"
    return str(count)


def svg(pictures, said, size=8):
    """Both pictures beside each other, with the scale and lines of text below them."""
    width, height = COLUMNS * size, TOP + max(picture.rows for picture in pictures) * size
    gap, cell = 64, pictures[0].cell
    lines = [f'<svg xmlns="http://www.w3.org/2000/svg" width="{2 * (width + gap) + 16}" '
             f'height="{height + 48 + 16 * len(said)}" font-family="sans-serif" font-size="12">',
             '<rect width="100%" height="100%" fill="white"/>']
    for i, picture in enumerate(pictures):
        lines += picture.svg(gap + i * (width + gap), size)
    lines += legend_svg(gap, height + 12, size)
    lines.append(f'<text x="{gap + 10 * 64}" y="{height + 22}" font-size="10">times that an instruction ran, in cells '
                 f"of {cell} bytes; lines are between pages of {PAGE} bytes</text>")
    for i, text in enumerate(said):
        lines.append(f'<text x="{gap}" y="{height + 46 + 16 * i}" font-family="monospace" xml:space="preserve">'
                     f"{html.escape(text)}</text>")
    return "\n".join([*lines, "</svg>", ""])


def cell_for(places):
    """The bytes of a cell: a line, or so many that these places take no more than 257 rows."""
    cell, length = LINE, max(at + size for at, size, _ in places) - min(at for at, _, _ in places)
    while length > cell * COLUMNS * 256:
        cell *= 2
    return cell


class Rewrite:
    """A rewrite with a profile: what ran, and how often, by old addresses."""

    def __init__(self, old, new, map_path, profile):
        self.old, self.new, self.spans = old, new, spans_of(map_path)
        self.elf, self.named = Elf(old), functions_of(old)
        self.instructions = sorted(source for _, _, source in self.spans)
        # What doesn't fit is left out, as `rewrite` does with a profile of a program that changed.
        known = set(self.instructions)
        self.edges = {pair: count for pair, count in edges_of(profile, old).items() if known.issuperset(pair)}
        if not self.edges:
            print(f"no line of {profile} names two instructions of {old}", file=sys.stderr)
        self.counts = counts_of(self.edges, self.elf.entry, self.instructions, self.named[0])

    def pictures(self, cell=None):
        """Both pictures: of the old code, and of the new."""
        before = [(source, self.elf.size(source), self.counts[source]) for source in self.instructions]
        after = [(at, size, self.counts[source]) for at, size, source in self.spans]
        cell = cell or cell_for(before)
        return [Picture(f"{os.path.basename(self.old)}: before", before, cell, self.named),
                Picture(f"{os.path.basename(self.new)}: after", after, cell, functions_of(self.new))]

    def moves(self):
        """What the run did in both files."""
        moves, places = all_moves(self.elf, self.edges, self.counts), self.instructions
        layouts = [Layout(self.elf, {at: at for at in places}, {at: self.elf.size(at) for at in places}),
                   Layout(self.elf, {source: at for at, _, source in self.spans},
                          {source: size for _, size, source in self.spans})]
        return [self.figures(layout, moves) for layout in layouts]

    def figures(self, layout, moves):
        """Instructions, taken branches, and runs of branches around a jump, in a layout."""
        taken, more = layout.transfers(moves)
        around = sum(count for at, count in self.counts.items()
                     if count and self.elf.kind(at) == BRANCH and layout.is_around(at))
        return {"instructions": sum(moves.values()) + more, "taken": taken, "long": around}


def table(figures):
    """The figures of both files as lines of text."""
    rows = [("", "before", "after")]
    for name, title in (("instructions", "instructions run"), ("taken", "taken branches"),
                        ("long", "long branches run"), ("hot_bytes", "bytes of hot code")):
        rows.append((title, *(f"{figures[when][name]:,}" for when in ("before", "after"))))
    for name in ("lines", "pages"):
        shares = (", ".join(map(str, figures[when][name])) for when in ("before", "after"))
        rows.append((f"{name} with 50, 90, 100 %", *shares))
    return [f"{title:26} {before:>16} {after:>16}".rstrip() for title, before, after in rows]


def arguments():
    words = argparse.ArgumentParser(description="draws where a program's code ran, before and after a rewrite")
    words.add_argument("--svg", help="a file for the picture")
    words.add_argument("--json", action="store_true", help="prints the figures alone, as JSON")
    words.add_argument("--cell", type=int, help="bytes of code for each sign")
    for name in ("IN", "OUT", "MAP", "PROFILE"):
        words.add_argument(name)
    given = words.parse_args()
    if given.cell is not None and given.cell < 1:
        words.error("--cell wants a number of bytes")
    for path in (given.IN, given.OUT, given.MAP, given.PROFILE):
        if not os.path.exists(path):
            raise Failure(f"there is no file {path}")
        if given.svg and os.path.realpath(given.svg) == os.path.realpath(path):
            raise Failure(f"{path} is read: the picture wants another name")
    return given


def main():
    given = arguments()
    rewrite = Rewrite(given.IN, given.OUT, given.MAP, given.PROFILE)
    pictures = rewrite.pictures(given.cell)
    figures = {when: {**moves, **picture.figures()}
               for when, moves, picture in zip(("before", "after"), rewrite.moves(), pictures)}
    if given.json:
        print(json.dumps(figures, indent=1))
    else:
        for picture in pictures:
            print(picture.text())
        print(f"each sign is {pictures[0].cell} bytes; the least count of a sign: {legend_text()}")
        print("\n".join(table(figures)))
    if given.svg:
        with written_whole(given.svg) as draft, open(draft, "w", encoding="utf-8") as file:
            file.write(svg(pictures, table(figures)))


if __name__ == "__main__":
    run_script(main)
