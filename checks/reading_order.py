#!/usr/bin/env python3
"""Whether docs/ARCHITECTURE.md lists what the contract of the program reaches.

    python3 checks/reading_order.py

Its section "What the program claims, in reading order" is to have each file of `specs/` with a definition that the
contract of `serve` reaches, directly or by others; a star where the file has definitions besides; and each file before
those that use it. What isn't so is printed, and the status is 0 where all is.

What a definition uses is told by the names in it: those of its own file, and those that `use` lines bring there. Fields
of records aren't followed, since what they hold is reached by the record's own name.
"""
import glob
import os
import re
import sys

ROOT = os.path.dirname(os.path.dirname(os.path.abspath(__file__)))
CRATES = os.path.join(ROOT, "crates")
CONTRACT = os.path.join(CRATES, "bolt_tool", "src", "serving.rt")
DOCUMENT = os.path.join(ROOT, "docs", "ARCHITECTURE.md")
SECTION = re.compile(r"^## What the program claims, in reading order\n(.*?)^## ", re.M | re.S)

WORDS = re.compile(r"[^\s(){}\[\];,:]+")
MODULE_HEAD = re.compile(r"module [_\w]")
DEFINITION = re.compile(r"(?:(?:pub|abbrev|unfoldable) )*(data |record )?(?:pub )?([^\s({:]+)")
CONSTRUCTOR = re.compile(r"  ([^\s:({]+) : ")
USED_NAMES = re.compile(r"^(pub )?(?:ghost )?use (Rattle\.\S+?)\.\{(.*?)\};?\s*$", re.M)
USED_MODULE = re.compile(r"^(pub )?(?:ghost )?use (Rattle\.[\w.]+?)(?: as (\w+))?;?\s*$", re.M)


def module_of(path):
    """A file's name in `use` lines."""
    return "Rattle." + os.path.splitext(os.path.relpath(path, CRATES))[0].replace(os.sep, ".")


def file_of(module):
    """A module as the document names it."""
    crate, folder, *rest = module.split(".")[1:]
    return f"{crate}/{folder}/{'/'.join(rest)}"


class Uses:
    """What the `use` lines of a file bring there: names, and modules by the name that stands for them."""

    def __init__(self, text):
        joined = re.sub(r"\n[ \t]+", " ", text)
        self.names, self.modules, self.passed = {}, {}, []
        for is_passed, module, names in USED_NAMES.findall(joined):
            for name in names.split(","):
                own, _, other = name.strip().partition(" as ")
                self.names[other or own] = (module, own)
                if is_passed:
                    self.passed.append((other or own, module, own))
        for is_passed, module, other in USED_MODULE.findall(joined):
            self.modules[other or module.split(".")[-1]] = module
            if is_passed:
                self.passed.append((module.split(".")[-1], module, None))


def dedented(text):
    """Lines, with what stands in a `module _ (..) where` moved to the front."""
    heads, open_head = [], False
    for line in text.split("\n"):
        indent = len(line) - len(line.lstrip())
        if not line.strip():
            yield ""
            continue
        if not open_head:
            while heads and indent <= heads[-1]:
                heads.pop()
            front = heads[-1] + 2 if heads else 0
            if indent != front or not MODULE_HEAD.match(line.strip()):
                yield line[front:] if indent >= front else line
                continue
            heads.append(indent)
        open_head = not line.rstrip().endswith("where")
        yield ""


class SpecFile:
    """The definitions of a file by their names, and the cases of its `data` by theirs."""

    def __init__(self, path):
        with open(path, encoding="utf-8") as file:
            text = file.read()
        self.uses, self.texts, self.cases = Uses(text), {}, {}
        name, is_data = None, False
        for line in dedented(text):
            if not line or line.lstrip().startswith("--"):
                continue
            if line[0] in " })]":
                if name:
                    self.texts[name] += "\n" + line
                    if is_data and (case := CONSTRUCTOR.match(line)):
                        self.cases[case[1]] = name
                continue
            if line.startswith(("use ", "pub use ", "mod ", "pub mod ", "#", "infix", "ruleset ")):
                name = None
                continue
            kind, name = DEFINITION.match(line).groups()
            is_data = kind == "data " or is_data and name in self.texts
            self.texts[name] = self.texts.get(name, "") + "\n" + line


class Specs:
    """All definitions of the repository."""

    def __init__(self):
        paths = glob.glob(os.path.join(CRATES, "*", "specs", "**", "*.antt"), recursive=True)
        self.files = {module_of(path): SpecFile(path) for path in paths}

    def find(self, module, name):
        """Where a name stands that a module gives, and what it names there; None where it is another library's."""
        file = self.files.get(module)
        if file:
            if name in file.texts:
                return module, name
            if name in file.cases:
                return module, file.cases[name]
            for given, other, own in file.uses.passed:
                if own and given == name:
                    return self.find(other, own)
        # A crate can pass on a module of another one under its own name.
        crate, own = ".".join(module.split(".")[:3]), module.split(".")[3:]
        if own and crate + ".Lib" in self.files:
            for given, other, name_there in self.files[crate + ".Lib"].uses.passed:
                if name_there is None and given == own[0] and other != module:
                    return self.find(".".join([other] + own[1:]), name)
        return None

    def used_by(self, module, name):
        """What a definition uses."""
        file = self.files[module]
        found = set()
        for word in WORDS.findall(file.texts[name]):
            # (behind a name that is no module's stand fields)
            part, behind = [*word.split("."), ""][:2]
            if part in file.uses.names:
                found.add(self.find(*file.uses.names[part]))
            elif part in file.texts or part in file.cases:
                found.add((module, file.cases.get(part, part)))
            elif part in file.uses.modules and behind:
                found.add(self.find(file.uses.modules[part], behind))
        return found - {None}

    def reached(self):
        """What the contract of the program reaches, each with what it uses."""
        with open(CONTRACT, encoding="utf-8") as file:
            names = Uses(file.read()).names.values()
        left = [found for found in (self.find(*name) for name in names) if found]
        uses = {}
        while left:
            one = left.pop()
            if one not in uses:
                uses[one] = self.used_by(*one)
                left.extend(uses[one])
        return uses


def full_name(name, before, folder):
    """A file's name with its crate: one that the document shortens stands beside the one before it, or in `folder`."""
    if "/specs/" in name:
        return name
    if not before:
        return f"{folder}/{name}"
    beside = f"{os.path.dirname(before)}/{name}"
    is_beside = os.path.exists(os.path.join(CRATES, beside + ".antt"))
    return beside if is_beside else f"{before.split('/specs/')[0]}/specs/{name}"


def listed():
    """The files that the document lists, in its order, each with whether it has a star."""
    with open(DOCUMENT, encoding="utf-8") as file:
        section = SECTION.search(file.read())[1]
    files, folder = {}, None
    for line in section.split("\n"):
        if re.fullmatch(r"[A-Z].*:", line):
            within = re.search(r" in `(\w+/specs)`:$", line)
            folder = within and within[1]
        elif line.startswith("|"):
            before = None
            for name, star in re.findall(r"`([\w/]+)`(\\\*)?", line.split("|")[2]):
                before = full_name(name, None if folder else before, folder)
                if before in files:
                    sys.exit(f"{before} is listed twice")
                files[before] = bool(star)
    return files


def complaints(specs, uses, files):
    """What isn't so in the document."""
    reached = {}
    for module, name in uses:
        reached.setdefault(file_of(module), set()).add(name)
    for file in sorted(reached.keys() - files.keys()):
        yield f"{file} isn't listed, which has {', '.join(sorted(reached[file])[:3])}"
    for file in sorted(files.keys() - reached.keys()):
        yield f"{file} is listed, and isn't reached"
    for file in sorted(files.keys() & reached.keys()):
        rest = specs.files["Rattle." + file.replace("/", ".")].texts.keys() - reached[file]
        if files[file] != bool(rest):
            some = ", ".join(sorted(rest)[:3])
            yield f"{file} wants a star for {some}" if rest else f"{file} has a star, and all of it is reached"
    order = {file: place for place, file in enumerate(files)}
    late = {(file_of(one[0]), file_of(other[0])) for one in uses for other in uses[one]}
    for file, other in sorted(late):
        if file in order and other in order and order[file] < order[other]:
            yield f"{file} uses {other}, which is listed behind it"


def main():
    specs = Specs()
    uses = specs.reached()
    files = listed()
    found = list(complaints(specs, uses, files))
    for line in found:
        print(line)
    print(f"{len(uses)} definitions in {len(files)} files, {len(found)} complaints")
    sys.exit(bool(found))


if __name__ == "__main__":
    main()
