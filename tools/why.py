#!/usr/bin/env python3
"""Says why a file is refused: what is wrong at the place of the fault, by which section of a standard, and what helps.

    python3 tools/why.py [--tool COMMAND] [--fault LINE] FILE [PROFILE]

The program reads FILE, and PROFILE (an empty one if none is named), as `map` does. If it refuses them, it prints one
line with the fault and its place; this script looks at that place in FILE and prints three lines: that one, what is
there, and what in a build makes it or helps. docs/REFERENCE.md ("Faults") has all causes of each fault. With --fault
the line that another command printed is taken, and the program isn't run.

Nothing is guessed: if no cause is found at the place, the second line says so. The status is 0 if FILE isn't refused
or a cause is found, 3 if none is, and 1 with a sentence on standard error if something can't be read or run.
"""
import argparse
import os
import re
import subprocess

from program_graph import Failure, add_tool_option, find_tool, run_script
from reasons import frames, functions, headers, limits, lines, lists, references, units
from reasons.image import Headers, Image

REFUSED, NO_CAUSE = 221, 3
LINE = re.compile(r"refused (\d+) (\w+) at ([0-9a-f]+)(: need \d+ room \d+)?( in OUT)?")
# What looks for each fault: of the first ones in the headers alone, as other tables may not be readable.
HEADERS = {"NotElf": headers.not_elf, "Truncated": headers.truncated, "Flags": headers.flags,
           "NotStatic": headers.not_static, "ExecSegments": headers.exec_segments,
           "WritableCode": headers.writable_code, "HighAddress": headers.high_address,
           "CompressedSection": headers.compressed_section}
IMAGES = {"RelocType": references.reloc_type, "RelocMismatch": references.reloc_mismatch,
          "LoMismatch": references.lo_mismatch, "NarrowDiff": references.narrow_diff,
          "IfuncOrPlt": references.ifunc_or_plt, "AlreadyMoved": references.already_moved,
          "BadEntry": functions.bad_entry, "BadInstruction": functions.bad_instruction,
          "BareAuipc": functions.bare_auipc, "BadTarget": functions.bad_target,
          "UnitTooLong": functions.unit_too_long, "KeptBranch": functions.kept_branch,
          "RegisteredFrames": frames.registered_frames, "FrameFault": frames.frame_fault,
          "DwarfVersion": units.version_fault, "DwarfForm": units.form_fault, "HighPcForm": units.high_fault,
          "DwarfFault": lists.dwarf_fault, "LineFault": lines.line_fault, "NoRoom": limits.no_room,
          "TooLarge": limits.too_large}
# What a place is, by the number of the fault, in words before it.
OFFSETS = {**dict.fromkeys(range(1, 7), "offset"), 8: "the section", 14: "the section",
           21: "the entry at offset", 22: "the unit at offset", 23: "the declaration of `.debug_abbrev` at offset",
           24: "the declaration of `.debug_abbrev` at offset", 25: "the unit or table at offset",
           26: "the unit of `.debug_line` at offset", 28: "the limit"}


def refusal(tool, path, profile):
    """The line by which the program refuses a file; none if it doesn't."""
    words = [*tool, "map", path, profile]
    with subprocess.Popen(words, stdin=subprocess.DEVNULL, stdout=subprocess.PIPE,
                          stderr=subprocess.DEVNULL) as process:
        try:
            first = process.stdout.readline(4096)
            is_map = first and not first.startswith(b"refused ")
            status = 0 if is_map else process.wait()
        finally:
            process.kill()
    if status == REFUSED:
        return first.decode(errors="replace").strip()
    if status != 0:
        raise Failure(f"`{words[0]} map` ended with {status}, and refused nothing: docs/REFERENCE.md, \"Statuses\", "
                      "says what that is")
    return None


def found_in(path, name, place, line, profile):
    """The reason of a fault, if the file has its cause at the place."""
    if name == "TooLarge" and place in (0, 1, 4):
        return limits.large_file(os.path.getsize(path), os.path.getsize(profile) if profile else None, place)
    if name in HEADERS:
        with open(path, "rb") as file:
            return HEADERS[name](Headers(file.read()), place, line)
    if name not in IMAGES:
        raise Failure(f"the fault {name} isn't known")
    return IMAGES[name](Image(path), place, line)


def where(path, number, place):
    """A place in words."""
    if number in OFFSETS:
        return f"{OFFSETS[number]} {place:x}"
    return f"the address {place:x} ({Image(path).name_of(place)})"


def explain(path, profile, line):
    """Prints the line, what is at the place and what helps. Gives the status."""
    parts = LINE.fullmatch(line)
    if parts is None:
        raise Failure(f"`{line}` isn't the line of a refusal, as `refused 21 FrameFault at 18`")
    number, name, place = int(parts[1]), parts[2], int(parts[3], 16)
    reason = found_in(path, name, place, line, profile)
    more = f"docs/REFERENCE.md, \"Faults\", {number} {name}"
    print(f"{path}: {line}")
    if reason is None:
        print(f"No cause was found at {where(path, number, place)}: what is there has none of the faults that are "
              "known to this script.")
        print(f"Causes and cures: {more}.")
        return NO_CAUSE
    print(f"{capital(reason.text)} ({reason.standard}).")
    helps = capital(reason.helps.replace("FILE", path))
    print(f"{helps} ({more})." if helps else f"Causes and cures: {more}.")
    return 0


def capital(text):
    return text[:1].upper() + text[1:] if not text.startswith("e_") else text


def main():
    words = argparse.ArgumentParser(description="says why a file is refused, and what helps")
    add_tool_option(words)
    words.add_argument("--fault", metavar="LINE", help="the line that a command printed: the program isn't run")
    words.add_argument("file", metavar="FILE", help="a linked program")
    words.add_argument("profile", metavar="PROFILE", nargs="?", help="a profile of it")
    given = words.parse_args()
    for path in filter(None, (given.file, given.profile)):
        if not os.path.isfile(path):
            raise Failure(f"there is no file {path}")
        with open(path, "rb"):  # so that a file that can't be read is named
            pass
    line = given.fault or refusal(find_tool(given.tool), given.file, given.profile or os.devnull)
    if line is None:
        print(f"{given.file} isn't refused.")
        return 0
    return explain(given.file, given.profile, line.strip())


if __name__ == "__main__":
    run_script(main)
