"""What `llvm-dwarfdump --verify` finds in a rewritten file and not in its input.

Those of LLVM 14 and 19 don't come to an end where an entry for a call stands in a block of a function, as GCC has it.
So they are asked in copies in which such entries have the tag of an argument of a call, which they don't look at.
"""
import os
import re
import subprocess
import tempfile

from frame_rows import table_at

from mend import CALL_SITE, declarations  # of tools/

CALL_SITE_PARAMETER = 0x49
NO_END, CRASH = ["it doesn't come to an end"], ["it crashes"]


def copy_without_calls(path, copy):
    with open(path, "rb") as file:
        data = bytearray(file.read())
    _, first, size = table_at(path, ".debug_abbrev")
    for tag, _ in declarations(bytes(data[first:first + size])):
        if data[first + tag] == CALL_SITE:
            data[first + tag] = CALL_SITE_PARAMETER
    with open(copy, "wb") as file:
        file.write(data)


def complaints(dump, path, folder):
    """The errors and warnings, without the numbers in them; and one where it didn't end, or crashed."""
    copy = os.path.join(folder, "copy")
    copy_without_calls(path, copy)
    try:
        done = subprocess.run([dump, "--verify", copy], capture_output=True, text=True, errors="replace", timeout=120,
                              check=False)
    except subprocess.TimeoutExpired:
        return NO_END
    if done.returncode < 0:
        return CRASH
    lines = (done.stdout + done.stderr).splitlines()
    return [re.sub(r"0x[0-9a-f]+|\b\d+\b", "N", line) for line in lines if re.match(r"(error|warning):", line)]


def verify_problems(dump, old, new):
    """The complaints that are made of a rewritten file and not of its input. How often they are made isn't compared: an
    expression that LLVM does not know, as DW_OP_implicit_pointer, is named for each of its ranges, of which there may be
    more by now."""
    with tempfile.TemporaryDirectory() as folder:
        before, after = (complaints(dump, path, folder) for path in (old, new))
    if before in (NO_END, CRASH):
        return [f"llvm-dwarfdump --verify: {before[0]}, of the input"]
    return [f"llvm-dwarfdump --verify: {line}" for line in sorted(set(after) - set(before))]
