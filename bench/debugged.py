"""What `gdb` says of a program and of its rewritten file: lines, frames, arguments and locals."""
import bisect
import os
import re
import subprocess

from profiles import CROSS, FILLED, GDB, debug, output

# What is asked at a place. Nothing but its own frame is asked where a program was only put.
STOPPED = [r'printf "\nSTOP %lx\n", $pc', "info line *$pc", "bt 12", "info args", "info locals", r"echo \nEND\n"]
PUT = [r'printf "\nSTOP %lx\n", $pc', "info line *$pc", "frame", "info args", "info locals", r"echo \nEND\n"]
NUMBER = re.compile(r"(0x[0-9a-f]+|\d+)")
LONGEST = 12  # bytes of an instruction, with a jump that was added
CALLER = re.compile(r"^(#\d+) +0x([0-9a-f]+) in ", re.M)  # a frame that waits: its label, and where it goes on


def with_lines(path, places, without=()):
    """The places at which the line table says a line, but those in files that are left out."""
    asked = "".join(f"{place:#x}\n" for place in places)
    done = subprocess.run([CROSS + "addr2line", "-e", path], input=asked, capture_output=True, text=True, check=False)
    told = [re.fullmatch(r"(.*):[1-9]\d*(?: \(.*\))?", line) for line in done.stdout.splitlines()]
    return [place for place, line in zip(places, told) if line and os.path.basename(line[1]) not in without]


def plain(text, silent):
    """A text without addresses of code, which have moved, and without the lines of frames with these labels."""
    text = re.sub(r"0x[0-9a-f]+ in ", "", text)
    text = re.sub(r"0x[0-9a-f]+ <([\w.]+)(?:\+\d+)?>", r"<\1>", text)
    text = re.sub(r" (?:starts|is) at address .*", "", text).replace(".cold>", ">")
    for label in silent:
        text = re.sub(rf"^({label} .*?) at .+:\d+$", r"\1", text, flags=re.M)
    return text


def difference(was, now):
    """Where two lines begin to differ."""
    first = max(len(os.path.commonprefix([was, now])) - 40, 0)
    return f"{was[first:first + 120]!r} before, {now[first:first + 120]!r} after"


def value_of(number):
    """The value of a number, which may have zeros before it, as gdb has them in texts and characters."""
    return int(number, 16 if number.startswith("0x") else 10)


def with_names(text, other):
    """A text in which numbers have the names that they have in another one: expressions in tables are kept, and so is the
    old address of a function in one; and a number that is no address may lie in the new code."""
    names = dict(re.findall(r"(0x[0-9a-f]+) (<[\w.+]+>)", other))
    return re.sub(r"\b(0x[0-9a-f]+)\b(?! <)", lambda found: f"{found[1]} {names.get(found[1], '')}".rstrip(), text)


class Debugged:
    """A program and its rewritten file, of which gdb is asked. Arguments of frames that wait for a call are compared
    where the tables tell whether a call changes the register that one lies in: Clang's don't."""

    def __init__(self, old, new, moved, words, given, compiler):
        self.old, self.new, self.moved, self.words, self.given = old, new, moved, words, given
        # Nothing is shown of arrays and structures, which hold code addresses of before, byte by byte; nor of values at
        # entry, for which gdb takes a range without bytes at the start of a function, and these aren't carried.
        self.marks = ["set print frame-arguments " + ("all" if compiler == "gcc" else "none"), "set print max-depth 0",
                      "set print entry-values no"]
        self.owners = {new: old for old, new in moved.items()}
        self.starts = [sorted(self.moved), sorted(self.owners)]

    def answers(self, path, commands):
        """What gdb says at each place: the address, and a text."""
        said = debug(path, self.words, [*self.marks, *commands], self.given)
        return [(int(at, 16), text) for at, text in re.findall(r"\nSTOP ([0-9a-f]+)\n(.*?)\nEND\n", said, re.S)]

    def stops(self, path, places):
        """Stops once at each of the places, where the run comes there."""
        ask = [f"tbreak *{place:#x}" for place in places]
        return self.answers(path, ask + [word for _ in places for word in ("continue", *STOPPED)])

    def puts(self, path, places):
        """Puts the program to each of the places, where it starts, with another number in each register and word of the
        stack."""
        ask = [word for place in places for word in (f"set var $pc = {place:#x}", *PUT)]
        return self.answers(path, ["set print elements 1", *FILLED, *ask])

    def silent(self, text):
        """The labels of frames that wait for a call at which the line table of the input says no line. gdb takes the
        line of what stands before it there, which may be other code by now."""
        callers = [(int(at, 16) - 1, label) for label, at in CALLER.findall(text)]
        told = with_lines(self.old, [at for at, _ in callers])
        return [label for at, label in callers if at not in told]

    def is_moved(self, was, now):
        """Whether two numbers are addresses of one instruction, before and after, or of what follows on one."""
        if not (NUMBER.fullmatch(was) and NUMBER.fullmatch(now)):
            return False
        return any(self.are_held(value_of(was) - back, value_of(now) - back) for back in (0, 1))

    def are_held(self, *numbers):
        """Whether one instruction holds the first address before and the second one after."""
        held = [bisect.bisect_right(starts, number) - 1 for starts, number in zip(self.starts, numbers)]
        old, new = (starts[max(i, 0)] for starts, i in zip(self.starts, held))
        return self.owners[new] == old and all(0 <= a - b < LONGEST for a, b in zip(numbers, (old, new)))

    def same(self, was, now):
        """Whether two texts say the same but for addresses of code in numbers."""
        parts = [NUMBER.split(text) for text in (was, now)]
        return len(parts[0]) == len(parts[1]) and all(a == b or self.is_moved(a, b) for a, b in zip(*parts))

    def problems(self, ask, places):
        """Where gdb says another thing of the rewritten program, asked at the same instructions."""
        before, after = ask(self.old, places), ask(self.new, [self.moved[place] for place in places])
        found = []
        if places and not (before and after):
            return ["gdb says nothing " + ("afterwards" if before else "before")]
        if [self.moved.get(at) for at, _ in before] != [at for at, _ in after]:
            return [f"gdb stops {len(before)} times before and {len(after)} times afterwards, or elsewhere"]
        for (at, was), (_, now) in zip(before, after):
            silent = self.silent(was)
            was, now = plain(with_names(was, now), silent), plain(with_names(now, was), silent)
            if not self.same(was, now):
                pairs = zip(was.splitlines(), now.splitlines())
                lines = [difference(a, b) for a, b in pairs if not self.same(a, b)]
                found.append(f"gdb at {at:x}: {(lines or ['more lines'])[0]}")
        return found

    def line_problems(self, places):
        """Where a breakpoint by file and line leads to another function in the rewritten file than in the input."""
        ask = [word for place in places for word in ("-ex", f"info line *{place:#x}")]
        lines = sorted(set(re.findall(r'Line (\d+) of "([^"]+)"', output([*GDB, *ask, self.old]))))
        asked = [word for line, file in lines for word in ("-ex", f"break {os.path.basename(file)}:{line}")]
        said = []
        for path in (self.old, self.new):
            text = output([*GDB, *asked, "-ex", "info breakpoints", path])
            # (a cold part is one of its function's places)
            said.append(set(re.findall(r" in (.+?)(?:\.cold\S*)? at (.+:\d+)$", text, re.M)))
        if places and not all(said):
            return ["gdb sets no breakpoint " + ("afterwards" if said[0] else "before")]
        other = sorted(said[0] ^ said[1])
        return [f"gdb: a breakpoint at {where} leads to {name} in one file alone" for name, where in other]
