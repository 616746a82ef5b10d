#!/usr/bin/env python3
"""Copies the libraries of a link without their debug data, some of which, that GNU as made, is refused.

    python3 tools/libraries.py [--picolibc FOLDER] [FOLDER]

Writes `libc.a`, of picolibc for RV64IM without floating-point instructions, and `libgcc.a` to FOLDER, which is made if
it isn't there (the current folder if none is given). It needs Debian's `picolibc-riscv64-unknown-elf` and
`gcc-riscv64-unknown-elf`.
"""
import argparse
import os
import shutil
import subprocess

from program_graph import Failure, run_script
from programs import CROSS, output

MACHINE = ["-march=rv64imc", "-mabi=lp64"]
PICOLIBC = "/usr/lib/picolibc/riscv64-unknown-elf"


def main():
    words = argparse.ArgumentParser(description="copies libc.a and libgcc.a without their debug data")
    words.add_argument("--picolibc", default=PICOLIBC, help=f"the folder of picolibc ({PICOLIBC})")
    words.add_argument("folder", nargs="?", default=".")
    given = words.parse_args()
    if not shutil.which(CROSS + "gcc"):
        raise Failure(f"there is no {CROSS}gcc, which Debian's gcc-riscv64-unknown-elf has")
    libraries = [os.path.join(given.picolibc, "lib", "rv64im", "lp64", "libc.a"),
                 output([CROSS + "gcc", *MACHINE, "-print-libgcc-file-name"]).strip()]
    for path in libraries:
        if not os.path.isfile(path):
            raise Failure(f"there is no {path}, which Debian's picolibc-riscv64-unknown-elf or gcc-riscv64-unknown-elf "
                          "has")
    os.makedirs(given.folder, exist_ok=True)
    for path in libraries:
        copy = os.path.join(given.folder, os.path.basename(path))
        status = subprocess.run([CROSS + "strip", "-g", "-o", copy, path], check=False).returncode
        if status:
            raise Failure(f"{CROSS}strip can't copy {path} to {copy}")
        print(copy)


if __name__ == "__main__":
    run_script(main)
