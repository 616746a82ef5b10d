"""What other scripts share: what commands take, runs on `qemu-riscv64`, by the addresses of instructions or under
`gdb`, and profiles by `record`.

A script that imports this module finds those of `tools/` too, so it comes before them.
"""
import os
import shutil
import subprocess
import sys
import tempfile
import threading
import time
import typing

sys.path.insert(0, os.path.join(os.path.dirname(os.path.dirname(os.path.abspath(__file__))), "tools"))

from programs import CROSS, follow, output  # noqa: E402, F401, of tools/

MOST_SECONDS = 600  # for a run that may not end
GDB = ["gdb-multiarch", "-batch", "-nx", "-ex", "set confirm off", "-ex", "set width 0"]
# Commands of gdb by which each register, and each word of the stack around its end, has a number of its own.
FILLED = [*(f"set var $x{n} = {n * 1001}" for n in range(1, 32) if n != 2), "set var $x8 = $sp + 256",
          'python for k in range(-64, 64): gdb.execute(f"set var *(long *)($sp + {8 * k}) = {2000001 + 1001 * k}")']
# Runs a command, and writes what it took into the descriptor that stands before it.
SPENT = """
import os, sys, time
told, *command = sys.argv[1:]
os.set_inheritable(int(told), False)
began = time.monotonic()
_, status, usage = os.wait4(os.posix_spawnp(command[0], command, os.environ), 0)
clock = time.monotonic() - began
words = os.waitstatus_to_exitcode(status), usage.ru_utime + usage.ru_stime, clock, usage.ru_maxrss / 1024
os.write(int(told), " ".join(map(str, words)).encode())
"""


def newest(name):
    """A tool of LLVM, the newest that is there."""
    for version in ("-19", "-18", "-17", "-16", "-15", "-14", ""):
        if shutil.which(name + version):
            return shutil.which(name + version)
    return None


def want(*tools):
    """Ends where a tool isn't there."""
    for tool in tools:
        if not shutil.which(tool):
            sys.exit(f"there is no {tool}")


class Spent(typing.NamedTuple):
    """How a command ended, and what it took: seconds of the processor and of the clock, and its peak in MiB."""

    status: int
    seconds: float
    clock: float
    peak: float


def spent(command, **how):
    """What a command takes. A small process runs it, since a child's peak counts what its parent had when it began."""
    if not shutil.which(command[0]):
        raise FileNotFoundError(command[0])
    read, write = os.pipe()
    with os.fdopen(read, encoding="ascii") as told:
        try:
            subprocess.run([sys.executable, "-ISc", SPENT, str(write), *command], pass_fds=[write], check=True, **how)
        finally:
            os.close(write)
        status, *figures = told.read().split()
    return Spent(int(status), *map(float, figures))


def is_answer(status):
    """Whether a tool was there, is built, and ended by itself: no answer of it has these numbers."""
    return status >= 0 and status not in (1, 126, 127)


def built(tool):
    """The words of a tool, which is proved and built first where it has to be: without words it prints its usage. The
    program stands for the script `sudrepka`, which looks at the times of all sources each time that it is called."""
    command = [tool] if os.path.exists(tool) else tool.split()
    found = shutil.which(command[0]) if command else None
    if not found:
        sys.exit(f"there is no command {tool}")
    status = subprocess.run(command, stdout=subprocess.DEVNULL, check=False).returncode
    if not is_answer(status):
        sys.exit(f"{tool}: status {status}")
    program = os.path.join(os.path.dirname(os.path.realpath(found)), "crates", "bolt_cli", "out", "bolt_cli")
    return [program] if os.path.basename(found) == "sudrepka" and os.path.isfile(program) else command


def is_open(door):
    """Whether a program listens at a socket in the file system (proc(5), /proc/net/unix: __SO_ACCEPTCON in its flags)."""
    with open("/proc/net/unix", encoding="utf-8", errors="replace") as sockets:
        rows = [line.rstrip("\n").split(None, 7) for line in sockets]  # (the last is a path, which may have blanks)
    return any(row[-1] == door and row[3] == "00010000" for row in rows)


def debug(path, words, commands, given=b""):
    """What gdb prints of commands in a program that `qemu-riscv64` runs, with its standard input."""
    # under one name, which stands on the stack, so that the stacks of an input and its output are alike
    folder = os.path.join(tempfile.gettempdir(), f"debugged-{os.getpid()}-{threading.get_ident()}")
    with tempfile.TemporaryFile() as file:
        file.write(given)
        file.seek(0)
        os.makedirs(folder)
        program, door = shutil.copy(path, os.path.join(folder, "program")), os.path.join(folder, "door")
        machine = subprocess.Popen(["qemu-riscv64", "-g", door, program, *words], stdin=file, stdout=subprocess.DEVNULL,
                                   stderr=subprocess.DEVNULL)
        # where the program doesn't end, gdb says so of the connection, and goes on
        longest = threading.Timer(MOST_SECONDS, machine.kill)
        longest.start()
        try:
            while not is_open(door) and machine.poll() is None:
                time.sleep(0.02)
            asked = [word for command in commands for word in ("-ex", command)]
            return output([*GDB, "-ex", f"target remote {door}", *asked, path])
        finally:
            longest.cancel()
            machine.kill()
            machine.wait()
            shutil.rmtree(folder)


def record(tool, path, words, profile):
    """Writes a profile of a run by the tool's `record`, and gives the last line that it printed."""
    command = [*tool, "record", "--steps", "1000000000", path, profile, *words]
    done = subprocess.run(command, capture_output=True, check=False)
    return done.stdout.decode(errors="replace").rstrip().rpartition("\n")[2]
