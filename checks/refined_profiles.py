#!/usr/bin/env python3
"""Whether refined profiles give what `tools/refine.py` promises.

    python3 checks/refined_profiles.py [--tool COMMAND] [--keep FOLDER] [CHECK..]

chains    chains of blocks are those that small functions ask for, and an order of functions that of small call graphs
weights   hiding and adding edges gives the wished chains by the rule, and keeps the weights of all blocks
estimate  what is estimated equals what a followed run takes, for a plain and for a refined profile
moved     files by refined profiles are faithful, and run as before
guard     if the wishes are no better by the estimate, the profile's own counts are written; of random profiles too,
          none is worse
profiles  empty, alien and mangled profiles are taken, and OUT is the same each time, and says what it is
without   a function that is left out is cold, and a name that no function has is an error
failures  each error is a sentence and a status, and leaves no file behind

All of these are tried if none is named. No network is used. COMMAND stands for `./sudrepka`. It wants GCC and picolibc,
and `qemu-riscv64` for `estimate` and `moved`: without them checks are left out, by name. FOLDER keeps what was built. A
line for each problem says what was found, and the status is 0 if there is none.
"""
import argparse
import collections
import os
import random
import re
import shutil
import subprocess
import sys
import tempfile
import types

ROOT = os.path.dirname(os.path.dirname(os.path.abspath(__file__)))
sys.path.insert(0, os.path.join(ROOT, "bench"))
from profiles import built, record  # noqa: E402
from real_programs import EXAMPLES, LONGER, NO_COMPILER, build, compilers  # noqa: E402

from cdsort import function_order  # noqa: E402, of tools/
from ext_tsp import Edge, block_chains, score  # noqa: E402
from layout import way_of  # noqa: E402
from layout_estimate import Cost, without_debug_data  # noqa: E402
from layout_rule import Program, block_weights, counted_edges, hot_blocks, rule_chains  # noqa: E402
from program_graph import Graph  # noqa: E402
from refine import MARK, refine  # noqa: E402
from wished_profile import Weighing, Wishes  # noqa: E402

TOOLS = os.path.join(ROOT, "tools")
QEMU = "qemu-riscv64"
FOLLOWED = {"interpreter": "40", "shapes": "20", "packing": "300", "sorting": "20"}
NUMBERS = r"estimated: taken ([\d,]+) -> ([\d,]+), instructions (\S+) -> (\S+), lines ([\d,]+) -> ([\d,]+), " \
          r"pages ([\d,]+) -> ([\d,]+)"


def number(text):
    """A number with commas and a sign."""
    return int(text.replace(",", ""))


class Checks:
    """What is tried, and the problems that were found."""

    def __init__(self, tool, folder):
        self.tool, self.folder, self.problems, self.compilers = tool, folder, 0, compilers()

    def say(self, problem):
        """Prints a problem, and counts it."""
        print(f"    {problem}", flush=True)
        self.problems += 1

    def expect(self, found, wanted, what):
        """Compares two values."""
        if found != wanted:
            self.say(f"{what}: {found!r} where {wanted!r} is wanted")

    def path(self, name):
        """A file of the folder."""
        return os.path.join(self.folder, name)

    def example(self, program, compiler="gcc"):
        """A program of `examples/`, built, and the profile of a short run."""
        path = self.path(f"{program}.{compiler}")
        if not os.path.exists(path):
            build(path, os.path.join(EXAMPLES, program), compiler, self.compilers[compiler], "roomy", "-O2")
            record(self.tool, path, [FOLLOWED[program]], path + ".profile")
        return path, path + ".profile"

    def refine(self, *words):
        """Runs the script."""
        command = [sys.executable, os.path.join(TOOLS, "refine.py"), "--tool", " ".join(self.tool), *words]
        return subprocess.run(command, capture_output=True, text=True, check=False)

    def refined(self, path, profile, *options):
        """A refined profile, and what was said of it."""
        out = self.path("refined")
        done = self.refine(*options, path, profile, out)
        if done.returncode != 0 or done.stderr:
            self.say(f"refine {os.path.basename(profile)}: {done.returncode}, {done.stderr.strip()}")
        return out, done.stdout

    def rewrite(self, path, profile, name):
        """A file rewritten by a profile."""
        out = self.path(name)
        done = subprocess.run([*self.tool, "rewrite", path, profile, out, out + ".map"], capture_output=True, text=True,
                              check=False)
        if done.returncode != 0:
            self.say(f"rewrite of {os.path.basename(path)}: {done.stdout.strip()}")
        os.chmod(out, 0o755)
        return out, done.stdout

    def write(self, name, text):
        """A file of bytes."""
        with open(self.path(name), "wb") as file:
            file.write(text)
        return self.path(name)

    # What is tried

    def chains(self):
        """By hand: the likely way of an `if` is straight, a loop falls into its body, and entries lead."""
        hammock = [Edge(0, 1, 10, 10), Edge(0, 2, 90, 90), Edge(1, 3, 10, 10), Edge(2, 3, 90, 90)]
        self.expect(block_chains([8, 8, 8, 8], hammock)[0][:3], [0, 2, 3], "the likely way")
        loop = [Edge(0, 2, 1, 1), Edge(2, 1, 99, 99), Edge(1, 2, 99, 99), Edge(2, 3, 1, 1)]
        order = block_chains([8] * 4, loop)[0]
        self.expect(score([8] * 4, loop, order) >= 100, True, "a loop keeps one of its edges straight")
        back = [Edge(1, 0, 1000, 1000), Edge(0, 1, 1, 1)]
        self.expect(block_chains([4, 4], back), [[0, 1]], "the entry is first")
        self.expect(block_chains([4, 4, 4], []), [[0], [1], [2]], "no edges")
        calls = [(0, 3, 2, 1000), (1, 2, 2, 10)]
        order = function_order({0: 100, 1: 100, 2: 100, 3: 100}, {0: 0, 1: 0, 2: 10, 3: 1000}, calls)
        self.expect(abs(order.index(0) - order.index(3)), 1, "what calls often is beside what it calls")
        self.expect(sorted(order), [0, 1, 2, 3], "an order has all functions")
        self.expect(function_order({}, {}, []), [], "no functions")

    def weights(self):
        """Asks for random chains."""
        path, profile = self.example("interpreter")
        program = Program(Graph(self.tool, path))
        counts, _ = program.graph.read_profile(profile)
        wishes = Wishes(program, counts, Weighing())
        before = block_weights(program, wishes.counts)
        wishes.order_blocks()
        added, after = wishes.done["ways behind calls added"], block_weights(program, wishes.counts)
        self.expect(sum(abs(after[start] - before[start]) for start in after | before), 2 * added, "weights")
        self.random_chains(program, counts)

    def random_chains(self, program, counts):
        """Chains that are asked for come out, if an edge leads from each block to the next one."""
        chance, weights = random.Random(3), block_weights(program, counts)
        for starts in program.functions.values():
            hot = hot_blocks(starts, weights)
            wishes = Wishes(program, counts, Weighing())
            edges = wishes.edges(hot)
            chance.shuffle(edges)
            wished, ends = set(), set()
            for source, target, _, _ in edges:
                chain = collections.ChainMap(dict(wished))
                if target != hot[0] and source < target and source not in chain and target not in ends:
                    wished.add((source, target))
                    ends.add(target)
            wishes.ask(hot, sorted(edges), wished)
            found = rule_chains(hot, counted_edges(program, wishes.counts, hot))
            self.expect({pair for chain in found for pair in zip(chain, chain[1:])}, wished, f"chains of {starts[0]:x}")

    def estimate(self):
        """Follows runs of the input and of both layouts."""
        for compiler in self.compilers:
            for program, word in FOLLOWED.items():
                path, profile = self.example(program, compiler)
                refined, said = self.refined(path, profile)
                found = re.search(NUMBERS, said)
                if not found:
                    self.say(f"{program}: no estimate in {said!r}")
                    continue
                first = way_of(path, [word])[0].instructions
                for name, counts, i in (("plain", profile, 1), ("refined", refined, 2)):
                    way = way_of(self.rewrite(path, counts, "moved")[0], [word])[0]
                    told = tuple(number(found[j]) for j in (i, i + 2, i + 6))
                    took = (way.taken, way.instructions - first, len(way.pages))
                    self.expect(told, took, f"{program}, {compiler}, {name}")

    def moved(self):
        """Runs files that were moved by refined profiles with another input, too."""
        for compiler in self.compilers:
            for program, word in FOLLOWED.items():
                path, profile = self.example(program, compiler)
                out, said = self.rewrite(path, self.refined(path, profile)[0], "moved")
                self.expect("1 profile lines ignored" in said, True, f"{program}: one line is the mark")
                judged = subprocess.run([*self.tool, "verify", path, out, out + ".map"], capture_output=True, text=True,
                                        check=False)
                self.expect(judged.stdout.strip(), "faithful", program)
                for words in ([word], [LONGER[program]]):
                    runs = [subprocess.run([QEMU, file, *words], capture_output=True, check=False)
                            for file in (path, out)]
                    self.expect(runs[1].stdout, runs[0].stdout, f"{program} {words}")
                    self.expect(runs[1].returncode, runs[0].returncode, f"{program} {words}")

    def guard(self):
        """Wishes that a scripted estimate finds worse are dropped, and those of random profiles are never worse."""
        path, profile = self.example("interpreter")
        program = Program(Graph(self.tool, path))
        counts, _ = program.graph.read_profile(profile)
        for taken, kept in ((101, False), (100, True), (99, True)):
            costs = iter([Cost(100, 0, 0, 0, 0), *[Cost(taken, 0, 0, 0, 0)] * 9])
            layout = types.SimpleNamespace(long_way=lambda branch: None)
            wishes = Wishes(program, counts, Weighing())
            refine(types.SimpleNamespace(layout=lambda wished: layout, cost=lambda layout: next(costs)), wishes)
            self.expect(bool(wishes.done), kept, f"wishes of {taken} beside 100")
            self.expect(wishes.counts != counts, kept, f"counts by wishes of {taken} beside 100")
        chance, lines = random.Random(5), open(profile, encoding="ascii").read().splitlines()
        for part in range(8):
            text = "".join(f"{line.rpartition(' ')[0]} {int(10 ** chance.uniform(0, 7))}\n" for line in lines
                           if chance.random() < 0.7)
            said = self.refined(path, self.write("random", text.encode()))[1]
            found = re.search(NUMBERS, said)
            taken, better, more, fewer = (number(found[i]) for i in range(1, 5))
            self.expect(better + 0.5 * fewer <= taken + 0.5 * more, True, f"random profile {part}")

    def profiles(self):
        """Empty, alien and mangled profiles, and what OUT is."""
        path, profile = self.example("interpreter")
        out, _ = self.refined(path, self.write("empty", b""))
        self.expect(open(out, "rb").read(), MARK.encode() + b"\n", "of nothing")
        alien = self.example("shapes")[1]
        _, said = self.refined(path, alien)
        with open(alien, encoding="ascii") as lines:
            self.expect(int(re.search(r"(\d+) lines ignored", said)[1]) <= len(list(lines)), True, "alien lines")
        whole = open(profile, "rb").read()
        first = whole.split(b"\n")[0].rpartition(b" ")[0]
        mangled = [whole[: len(whole) // 2], bytes(range(256)) * 9, whole.replace(b" 1 @", b" 1 "), first + b" -1\n",
                   (first + b" 18446744073709551615\n") * 3, whole.replace(b"\n", b"\r\n"), b"\0" * 4096, b"\n\n\n"]
        for i, text in enumerate(mangled):
            out, _ = self.refined(path, self.write("mangled", text))
            self.rewrite(path, out, "moved")
            self.expect(open(out, "rb").readline(), MARK.encode() + b"\n", f"mangled {i}")
        once = open(self.refined(path, profile)[0], "rb").read()
        self.expect(open(self.refined(path, profile)[0], "rb").read(), once, "the same profile, refined again")
        with open(path, "rb") as file:
            bare = without_debug_data(file.read())
        texts = [subprocess.run([*self.tool, "map", file, profile], capture_output=True, check=False).stdout
                 for file in (path, self.write("bare", bare))]
        self.expect(texts[1], texts[0], "the map without debug data")

    def without(self):
        """Leaves functions out by name and by address."""
        path, profile = self.example("sorting")
        program = Program(Graph(self.tool, path))
        weights = block_weights(program, program.graph.read_profile(profile)[0])
        function = program.owner[max(weights, key=lambda start: (weights[start], start))].function
        name = program.elf.names[function]
        named, _ = self.refined(path, profile, "--without", name)
        counts, _ = program.graph.read_profile(named)
        self.expect([pair for pair in counts for place in pair if program.owner[place].function == function], [], name)
        text = open(named, "rb").read()
        self.refined(path, profile, "--without", f"@{function + 2:x}")
        self.expect(open(self.path("refined"), "rb").read() == text, True, "by name and by address")

    def failures(self):
        """Each error is one line on standard error and status 1, and OUT isn't written."""
        path, profile = self.example("interpreter")
        refined = shutil.copy(self.refined(path, profile)[0], self.path("before"))
        text, out = self.write("text", b"no ELF\n"), self.path("none")
        broken = self.write("broken", open(path, "rb").read()[:3000])
        cases = {"no IN": [self.path("nothing"), profile, out], "no ELF": [text, profile, out],
                 "cut off": [broken, profile, out], "a folder": [path, self.folder, out],
                 "no PROFILE": [path, self.path("nothing"), out],
                 "no folder": [path, profile, self.path("no/where")], "refined": [path, refined, out],
                 "no name": ["--without", "nobody", path, profile, out],
                 "no code": ["--without", "@1", path, profile, out],
                 "no address": ["--without", "@x", path, profile, out],
                 "OUT is IN": [path, profile, path],
                 "OUT is PROFILE": [path, profile, os.path.join(self.folder, ".", os.path.basename(profile))]}
        for what, words in cases.items():
            done = self.refine(*words)
            self.expect((done.returncode, done.stderr.count("\n"), "Traceback" in done.stderr), (1, 1, False), what)
            self.expect(os.path.exists(out), False, what)
        self.expect(self.refine(path).returncode, 2, "words are lacking")


NAMES = ["chains", "weights", "estimate", "moved", "guard", "profiles", "without", "failures"]
WANTS = {"estimate": QEMU, "moved": QEMU}


def main():
    words = argparse.ArgumentParser(description="whether refined profiles give what tools/refine.py promises")
    words.add_argument("--tool", default=os.path.join(ROOT, "sudrepka"), help="the command that takes `rewrite ..`")
    words.add_argument("--keep", help="a folder for all files")
    words.add_argument("checks", nargs="*", metavar="CHECK", default=NAMES)
    given = words.parse_args()
    if not set(given.checks) <= set(NAMES):
        words.error(f"the checks are {', '.join(NAMES)}")
    if not compilers():
        print(f"{NO_COMPILER}, so all but `chains` is left out")
    tool = built(given.tool)
    with tempfile.TemporaryDirectory() as room:
        folder = given.keep or room
        os.makedirs(folder, exist_ok=True)
        checks = Checks(tool, folder)
        for name in given.checks if compilers() else ["chains"]:
            wanted = WANTS.get(name)
            if wanted and not shutil.which(wanted):
                print(f"there is no {wanted}, so this is left out: {name}")
                continue
            print(name, flush=True)
            getattr(checks, name)()
    print(f"{checks.problems} problems")
    sys.exit(1 if checks.problems else 0)


if __name__ == "__main__":
    main()
