"""Compares the frame tables of an executable and of its rewritten file.

`readelf`, `llvm-dwarfdump` and pyelftools say for each address how the frame is unwound there, `llvm-dwarfdump` what
its entry says of exceptions; `gdb` unwinds a program that is put to an address, and one that stops there.
"""
import re
import shutil

from frame_rows import (entries_by_llvm, errors_by_llvm, frames_by_gdb, llvm_of_rows, python_with_pyelftools,
                        rows_by_llvm, rows_by_pyelftools, rows_by_readelf)
from profiles import CROSS, debug, newest, output

ASKED = 300  # instructions at which gdb is asked for its frame


def readers():
    """What reads the rows of tables, by the names of those tools that are here."""
    found = {"readelf": rows_by_readelf}
    if newest("llvm-dwarfdump"):
        found["llvm-dwarfdump's entries"] = entries_by_llvm
    if llvm_of_rows():
        found["llvm-dwarfdump"] = rows_by_llvm
    if python_with_pyelftools():
        found["pyelftools"] = rows_by_pyelftools
    return found


def table_problems(old, new, spans):
    """Where the tables of a rewritten file say something else at new code than those of the input at the owners, by
    each tool at each instruction; and what LLVM can't read of them, and reads of the input's."""
    problems = []
    for tool, rows in readers().items():
        before, after = rows(old), rows(new)
        if set(before) - set(after):
            problems.append(f"{tool} finds {sorted(before)} before and {sorted(after)} afterwards")
        for name in set(before) & set(after):
            asked = ((at, source) for start, length, source in spans if length for at in (start, start + length - 1))
            for at, source in asked:
                said, wanted = after[name].at(at), before[name].at(source)
                if said != wanted:
                    problems.append(f"{tool}: {name} says {said} at {at:x}, and {wanted} at {source:x} before")
    return problems + unread(old, new)


def unread(old, new):
    """What LLVM can't read of a rewritten file's tables, and reads in the input's."""
    if not newest("llvm-dwarfdump"):
        return []
    found = errors_by_llvm(new) - errors_by_llvm(old)
    return [f"llvm-dwarfdump says {count} times more often: {line}" for line, count in sorted(found.items())]


def frame_problems(old, new, spans, words):
    """Where gdb finds another frame in a rewritten program than in the input, put to ASKED of the instructions that
    have a row in a table. Of others it guesses the frame by the code before them."""
    if not shutil.which("gdb-multiarch") or not shutil.which("qemu-riscv64"):
        return []
    tables = rows_by_readelf(old).values()
    moved = {source: at for at, length, source in spans if length and any(rows.at(source) for rows in tables)}
    places = sorted(moved)[::max(1, len(moved) // ASKED)]
    before, after = frames_by_gdb(old, words, places), frames_by_gdb(new, words, [moved[place] for place in places])
    if len(before) < len(places) or len(after) < len(places):
        return [f"gdb says {len(before)} frames before and {len(after)} afterwards at {len(places)} instructions"]
    return [f"gdb: the frame at {moved[at]:x} is {after[moved[at]]}, and {before[at]} at {at:x} before"
            for at in places if before[at] != after[moved[at]]]


def backtrace(path, place, words):
    """The addresses and stack pointers of all frames where a program first comes to a place, by gdb."""
    asked = [r'printf "frame %lx %lx\n", $pc, $sp', "up"] * 40
    text = debug(path, words, [f"break *{place}", "continue", *asked])
    frames = [(int(found[1], 16), int(found[2], 16)) for found in re.finditer(r"frame ([0-9a-f]+) ([0-9a-f]+)", text)]
    return [frame for i, frame in enumerate(frames) if i == 0 or frame != frames[i - 1]]


def backtrace_problems(old, new, moved, name, words):
    """Where gdb unwinds a rewritten program otherwise than its input, if both stop where a function starts."""
    if not shutil.which("gdb-multiarch") or not shutil.which("qemu-riscv64"):
        return []
    symbols = [line.split() for line in output([CROSS + "nm", old]).splitlines()]
    places = [int(symbol[0], 16) for symbol in symbols if symbol[-1] == name and len(symbol) == 3]
    if not places:
        return []
    if places[0] not in moved:
        return [f"{name} isn't moved"]
    before, after = backtrace(old, places[0], words), backtrace(new, moved[places[0]], words)
    if len(before) < 2 or len(before) != len(after):
        return [f"gdb finds {len(before)} frames at {name} before and {len(after)} afterwards"]
    problems = []
    for (was, sp), (now, new_sp) in zip(before, after):
        calls = {moved.get(was - size) for size in (2, 4)} & {now - 2, now - 4}
        if moved.get(was) != now and not calls:
            problems.append(f"gdb: a frame at {was:x} before is at {now:x}")
        if sp - before[0][1] != new_sp - after[0][1]:
            problems.append(f"gdb: the frame at {now:x} has another stack pointer than that at {was:x} before")
    return problems
