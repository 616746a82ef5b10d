"""Programs of `fuzzed/` with some fields changed: if one is refused there has to be a cause, and if not there may be
none, at no entry, unit, table or relocation."""
import contextlib
import io
import os
import random

import why  # of tools/
from fuzzed.programs import KINDS, Program
from program_graph import Failure
from reasons import frames, lines, lists, references, units
from reasons.image import Image

EACH = 20  # files of one program


def files(count):
    """So many files, the same ones each time."""
    for number in range(count):
        if number % EACH == 0:
            program = Program(random.Random(f"program {number // EACH}"))
        yield number, program.changed(random.Random(number), KINDS)[0]


def causes(path):
    """The causes that are found in a file that isn't refused."""
    image = Image(path)
    found = references.References(image)
    yield from filter(None, map(found.misfit, image.relocations))
    for place in {it.place for it in image.relocations}:
        yield from filter(None, (found.bad_label(place), references.lo_mismatch(image, place, "")))
    for table in frames.tables(image):
        yield from filter(None, (frames.judge(image, table, it.place) for it in frames.entries(table)))
    for name, _ in units.VERSIONS:
        tests = (units.version_fault, lines.line_fault if name == ".debug_line" else lists.dwarf_fault)
        for it in units.walked(image.contents(name)[0]):
            yield from filter(None, (test(image, it.place, "") for test in tests))


def problems(tool, folder, count):
    """What is wrong with what `why.py` says of so many files."""
    path = os.path.join(folder, "changed")
    for number, data in files(count):
        with open(path, "wb") as file:
            file.write(data)
        try:
            line = why.refusal(tool, path, os.devnull)
        except Failure:
            continue  # out of memory, as by a huge alignment
        with contextlib.redirect_stdout(io.StringIO()) as printed:
            status = why.explain(path, None, line) if line else 0
        if status:
            yield f"changed file {number}: {printed.getvalue()!r}"
        if not line:
            yield from (f"changed file {number} isn't refused, and has a cause: {it}" for it in causes(path))
