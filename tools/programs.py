"""What the tools share: the names of other tools, what those print, and runs on `qemu-riscv64` by the addresses of
their instructions."""
import os
import subprocess
import tempfile

CROSS = "riscv64-unknown-elf-"


def output(command):
    """What a command prints to standard output."""
    return subprocess.run(command, capture_output=True, text=True, errors="replace", check=False).stdout


def follow(path, words, go, given=b""):
    """Runs a file, with its standard input, and calls `go` with the address of each instruction. Gives the status and
    what was printed."""
    with tempfile.TemporaryFile() as printed, tempfile.TemporaryFile() as file:
        file.write(given)
        file.seek(0)
        read, write = os.pipe()
        command = ["qemu-riscv64", "-singlestep", "-d", "exec,nochain", "-D", f"/dev/fd/{write}", path, *words]
        process = subprocess.Popen(command, stdin=file, stdout=printed, stderr=subprocess.DEVNULL, pass_fds=[write])
        os.close(write)
        with os.fdopen(read, "rb") as log:
            for line in log:
                parts = line.split(b"/", 2)
                if len(parts) == 3 and line.startswith(b"Trace"):
                    go(int(parts[1], 16))
        process.wait()
        printed.seek(0)
        return process.returncode, printed.read()
