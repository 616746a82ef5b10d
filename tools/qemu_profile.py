#!/usr/bin/env python3
"""Writes the profile of a run under `qemu-riscv64`, for programs that `sudrepka record` can't run.

    python3 tools/qemu_profile.py [--tool COMMAND] [--log] FILE OUT [WORDS..]

FILE runs with WORDS as its arguments, and with the standard streams, the files and the system calls of this machine.
OUT gets the lines that `record` would write: how often control went from the end of a block, or from a call, to which
instruction. What several threads did, and processes that the program forked, is added up; a program that a signal ends
leaves its profile too. A line on standard error says what was counted. The status is that of the program, 128 more than
the signal's number if one ended it, and 1 if no profile was written.

It wants qemu-user, and is fast with a compiler `cc`. Without one, with a qemu that takes no plugins, and with --log, it
reads qemu's log, which takes a hundred times as long. COMMAND tells the blocks of FILE.
"""
import argparse
import os
import sys

from program_graph import (Failure, Graph, add_tool_option, find_tool, program_words, run_script, want_other,
                           written_whole)
from qemu_trace import QEMU, trace_run, want_qemu


def arguments():
    parser = argparse.ArgumentParser(description="writes the profile of a run under qemu-riscv64")
    add_tool_option(parser)
    parser.add_argument("--log", action="store_true", help="reads qemu's log, and wants no compiler")
    parser.add_argument("file", metavar="FILE")
    parser.add_argument("out", metavar="OUT")
    parser.add_argument("words", metavar="WORDS", nargs=argparse.REMAINDER, help="arguments of the program")
    return parser.parse_args()


def main():
    given = arguments()
    want_qemu()
    want_other(given.out, given.file)
    graph = Graph(find_tool(given.tool), given.file)
    if not os.access(given.file, os.X_OK):
        raise Failure(f"{given.file} may not be run: chmod +x makes it so")
    with written_whole(given.out) as draft:
        status, trace = trace_run([given.file, *program_words(given.words)], given.log)
        counts = trace.profile(graph)
        if not trace.runs:
            raise Failure(f"no profile: {QEMU} ended with {status}, and nothing of {given.file} ran")
        graph.write_profile(draft, counts)
    ended = f"ended {status}" if status >= 0 else f"ended by signal {-status}"
    way = "qemu's log" if trace.is_logged else "the plugin"
    print(f"[{ended} after {trace.instructions()} steps]; {len(counts)} lines by {way}", file=sys.stderr)
    return status if status >= 0 else 128 - status


if __name__ == "__main__":
    run_script(main)
