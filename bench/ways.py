"""The way of a run through its code, counted by a plugin of qemu (`way_plugin.c`)."""
import os
import shutil
import subprocess
import sys
import tempfile
import typing

from profiles import MOST_SECONDS

from program_graph import Elf  # of tools/
from qemu_trace import trace_run

SOURCE = os.path.join(os.path.dirname(os.path.abspath(__file__)), "way_plugin.c")
COLUMNS = ["instructions", "taken", "lines", "pages", "L1I 32K", "L1I 8K", "iTLB 8", "iTLB 64"]


class Way(typing.NamedTuple):
    """Counts of a run, by `COLUMNS`, its status and what it printed."""

    counts: list
    status: int
    printed: bytes


def plugin(folder):
    """Compiles the plugin into a folder."""
    path, compiler = os.path.join(folder, "way_plugin.so"), shutil.which("cc")
    if not compiler:
        sys.exit("there is no cc, which compiles the plugin that counts")
    if not os.path.exists(path):
        subprocess.run([compiler, "-O2", "-shared", "-fPIC", "-o", path, SOURCE], check=True)
    return path


def way_of(counter, path, words, given=b""):
    """The way of a run with the compiled plugin `counter`; nothing where it crashes or doesn't end."""
    out = path + ".counts"
    command = ["qemu-riscv64", "-plugin", f"{counter},out={out}", path, *words]
    try:
        done = subprocess.run(command, input=given, capture_output=True, check=False, timeout=MOST_SECONDS)
    except subprocess.TimeoutExpired:
        return None
    with open(out, encoding="ascii") as file:
        counts = [int(number) for number in file.read().split()]
    os.remove(out)
    return Way(counts, done.returncode, done.stdout) if len(counts) == len(COLUMNS) else None


AUIPC, JALR = 0x17, 0x67  # opcodes


def long_calls(path, words, given=b""):
    """How often a run goes elsewhere by an AUIPC and a JALR after it through the same register, as calls and jumps do
    that may lead anywhere."""
    with tempfile.TemporaryFile() as file:
        file.write(given)
        file.seek(0)
        trace = trace_run([path, *words], stdin=file, stdout=subprocess.DEVNULL)[1]
    elf = Elf(path)

    def is_long(start, end):
        one, other = elf.word(start), elf.word(end)
        return one & 0x7F == AUIPC and other & 0x7F == JALR and one >> 7 & 31 == other >> 15 & 31

    return sum(count for code, count in trace.runs.items() for pair in zip(code, code[1:]) if is_long(*pair))
