#!/usr/bin/env python3
"""Tries wrong bodies of functions, each of which the check has to refuse.

    python3 checks/wrong_bodies.py [--jobs N] [CRATE..]

checks/wrong_bodies/CRATE/NAME.edit says what is changed in the crate of that name, in the form of the edits that
the gate tries (crates/CRATE/must-fail). They stand here and not there where the crate takes long to check, or
where others tell more of it. So they are tried by hand before a release, in copies of the repository, one for
each crate that is tried at a time: of all crates, or of those that are named.

An edit of a function is tried by a check of that function alone, which takes seconds once the libraries below the
crate are built. Only where it still proves, or where the edit is of something else than a function, the whole
crate is checked. A function that isn't proved without the edit either tells nothing, so the functions of all edits
of a crate are checked as they stand first.

Of each edit that was refused, the script says how: by values at which a goal is false (`countermodel`), at a limit of a
search (`limit`), or since no proof was found (`no proof`). Of the last two kinds the goal may be true, and a better
search would let the edit pass: an edit says in a line `why:` for what values its goal is false. Those of these kinds
without such a line are listed. The last line counts the edits that were refused. The status is 0 if all were.
"""
import argparse
import collections
import concurrent.futures
import pathlib
import queue
import re
import shutil
import subprocess
import sys
import tempfile
import threading

ROOT = pathlib.Path(__file__).resolve().parent.parent
EDITS = ROOT / "checks" / "wrong_bodies"


class BadEdit(Exception):
    """An edit that can't be applied to the crate as it is."""


class Edit:
    """A wrong body: the texts that it changes, and the function around its first change, if there is one."""

    def __init__(self, folder, crate, path):
        self.crate, self.path, self.home = crate, path, folder / "crates" / crate
        self.texts = {}
        self.function = self.why = None
        file = old = None
        for line in path.read_text().splitlines():
            word, _, rest = line.partition(":")
            rest = rest.removeprefix(" ")
            if word == "file":
                file = rest.strip()
            elif word == "old":
                old = rest
            elif word == "new":
                self.replace(file, old, rest)
            elif word == "why":
                self.why = rest.strip()

    def replace(self, file, old, new):
        text = self.texts.get(file) or (self.home / file).read_text()
        if text.count(old) != 1:
            raise BadEdit(f"its text stands in {file} {text.count(old)} times")
        if not self.texts:
            self.function = function_around(text, text.index(old)) if file.startswith("src/") else None
            if self.function and "::" not in self.function:
                self.function = "::".join([self.crate, *modules(file), self.function])
        self.texts[file] = text.replace(old, new)

    def label(self):
        return f"{self.crate}/{self.path.name}"


def modules(file):
    """The modules that a file of src/ stands for."""
    parts = list(pathlib.PurePath(file).with_suffix("").parts[1:])
    return [] if parts == ["lib"] else parts


def function_around(text, place):
    """The function that holds this place of a file, or the end of its name: the last one that begins before it, unless it
    has ended there. A method is named by its type, wherever that is."""
    before = text[:place]
    found = list(re.finditer(r"^( *)(?:pub(?:\([^)]*\))? )?(?:const )?fn (\w+)", before, re.M))
    if not found:
        return None
    last = found[-1]
    # (the brace that ends it stands at its own indentation)
    if re.search(rf"^{last[1]}\}}", before[last.end():], re.M):
        return None
    return implementor(before) + last[2] if last[1] else last[2]


def implementor(before):
    """What a check puts before the name of a method: the type, and the trait's name right behind it."""
    blocks = re.findall(r"^impl(?:<[^{]*?>)? (?:([\w:]+)(?:<.*>)? for )?(\w+)", before, re.M)
    if not blocks:
        return ""
    trait, name = blocks[-1]
    return f"{name}{trait.split('::')[-1]}::"


def check(folder, crate, function=None):
    """Checks a crate of a copy of the repository, or one function of it: whether it is proved, and what was said."""
    only = ["--only", function] if function else []
    run = subprocess.run(["rt", "check", *only], cwd=folder / "crates" / crate, stdin=subprocess.DEVNULL,
                         stdout=subprocess.PIPE, stderr=subprocess.STDOUT, text=True, errors="replace")
    # (`rt` ends with 1 where it refuses; where it ends otherwise, as for want of memory, it judged nothing)
    return {0: True, 1: False}.get(run.returncode), run.stdout


# An answer names a goal that the edit took away: that is no sign of what the contract refuses.
GONE = re.compile(r"error: `[^`]*`: `goal\.[^`]*`: module `[^`]*Goals`")


def refusals(said):
    """The lines that say why a check refused, but for those on goals that are gone."""
    told = re.compile(r"(note: )?\S+:\d+:\d+: .*(error|is not proved|found no proof)")
    return [line for line in said.splitlines() if told.match(line) and not GONE.search(line)]


def reason(said):
    """The first line that says why a check refused."""
    told = refusals(said) or said.strip().splitlines()[-1:] or ["nothing was said"]
    return told[0][:160]


# A check that gave no verdict: its words were wrong, or the edited text can't be read.
NO_VERDICT = re.compile(r"has no function|several functions are named|error\[[\w-]+\]|is not in scope|could not be used")


# What a check says of goals: that values were found at which one is false, or that a search came to a limit.
COUNTERMODEL = re.compile(r"allow values at which this goal is false")
LIMIT = re.compile(r"gave up at one of its limits|within its bounds|went on past its bounds")


def kind_of(said):
    """How a check refused an edit."""
    if COUNTERMODEL.search(said):
        return "countermodel"
    return "limit" if LIMIT.search(said) else "no proof"


class Told:
    """What came out of the edits: how many were refused in which way, and which of these want a reason."""

    def __init__(self):
        self.kinds, self.unexplained, self.lock = collections.Counter(), [], threading.Lock()

    def add(self, edit, kind):
        with self.lock:
            self.kinds[kind] += 1
            if kind != "countermodel" and not edit.why:
                self.unexplained.append(f"{edit.label()} ({kind})")

    def show(self, wanted):
        """Prints the counts, and gives how many edits weren't refused."""
        if self.unexplained:
            names = ", ".join(sorted(self.unexplained))
            print(f"without values at which a goal is false, and without a reason: {names}")
        kinds = ", ".join(f"{count} by {kind}" for kind, count in self.kinds.most_common())
        refused = sum(self.kinds.values())
        print(f"{refused} of {wanted} refused: {kinds or 'none'}")
        return wanted - refused


def try_edit(folder, edit):
    """Tries one edit in its copy of the crate: how it was refused, None if it wasn't, and what to print."""
    home = folder / "crates" / edit.crate
    kept = {file: (home / file).read_text() for file in edit.texts}
    try:
        for file, text in edit.texts.items():
            (home / file).write_text(text)
        for function in dict.fromkeys([edit.function, None]):
            proved, said = check(folder, edit.crate, function)
            if not proved and GONE.search(said) and not refusals(said):
                return None, "NO VERDICT: only goals that answers name are gone"
            if proved is False and not NO_VERDICT.search(said):
                return kind_of(said), f"refused ({function or 'whole crate'}) by {kind_of(said)}: {reason(said)}"
            if not proved and not function:
                return None, f"NO VERDICT: {reason(said)}"
        return None, "NOT REFUSED: the crate is still proved"
    finally:
        for file, text in kept.items():
            (home / file).write_text(text)


def try_crate(folder, crate, told):
    """Tries all edits of a crate, and adds what came out."""
    edits = []
    for path in sorted((EDITS / crate).glob("*.edit")):
        try:
            edits.append(Edit(folder, crate, path))
        except (BadEdit, OSError) as bad:
            print(f"{crate}/{path.name}: BAD EDIT: {bad}", flush=True)
    for function in [*sorted({edit.function for edit in edits if edit.function}), None]:
        if not any(edit.function == function for edit in edits):
            continue
        proved, said = check(folder, crate, function)
        if function and NO_VERDICT.search(said):
            for edit in edits:
                edit.function = None if edit.function == function else edit.function
        elif not proved:
            print(f"{crate}: {function or 'the crate'} isn't proved as it stands: {reason(said)}", flush=True)
            edits = [edit for edit in edits if edit.function != function]
    for edit in edits:
        kind, said = try_edit(folder, edit)
        if kind:
            told.add(edit, kind)
        print(f"{edit.label()}: {said}", flush=True)


def copy_repository(folder):
    """Copies what checks read, with the libraries that are built already, which a check would else build again."""
    def left_out(at, names):
        # (what `./build` keeps for itself, up to 4 GiB)
        return {"must-fail", "out"} if pathlib.Path(at) == ROOT / "crates" / "bolt_cli" else {"must-fail"}

    shutil.copytree(ROOT / "crates", folder / "crates", ignore=left_out)
    for file in ("crates.txt", "HANDLES"):
        shutil.copy(ROOT / file, folder)
    return folder


def main():
    known = sorted(path.name for path in EDITS.iterdir() if any(path.glob("*.edit")))
    words = argparse.ArgumentParser(description="Tries wrong bodies of functions.")
    words.add_argument("--jobs", type=int, default=1, help="how many crates at a time")
    words.add_argument("crates", nargs="*")
    given = words.parse_args()
    crates = given.crates or known
    unknown = [crate for crate in crates if crate not in known]
    if unknown:
        sys.exit(f"no wrong bodies of {unknown[0]}; there are those of {', '.join(known)}")
    wanted = sum(len(list((EDITS / crate).glob("*.edit"))) for crate in crates)
    told = Told()
    with tempfile.TemporaryDirectory(prefix="wrong-bodies-") as name:
        # (a copy for each, as an edit of a crate is one of all that stand on it)
        copies = queue.SimpleQueue()
        for number in range(given.jobs):
            copies.put(copy_repository(pathlib.Path(name) / str(number)))

        def try_one(crate):
            folder = copies.get()
            try:
                try_crate(folder, crate, told)
            finally:
                copies.put(folder)

        with concurrent.futures.ThreadPoolExecutor(given.jobs) as pool:
            list(pool.map(try_one, crates))
    sys.exit(1 if told.show(wanted) else 0)


if __name__ == "__main__":
    main()
