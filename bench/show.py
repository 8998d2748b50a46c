#!/usr/bin/env python3
"""The time of `c6x dis` and `c6x show` on objects of 25,000 and 50,000 instructions, beside objdump and readelf.

Usage: bench/show.py PROGRAM [OBJDUMP READELF]

PROGRAM is the built `c6x`; OBJDUMP and READELF are those of a tic6x target, by default the ones on the path, and without
them their times are left out. The objects are those that `c6x as` makes of the programs of bench/asm.py, with a symbol every
16 instructions and a relocation entry every 64; the times are the best of five. objdump prints with -d, readelf with -a.
"""
import os
import subprocess
import sys
import tempfile

from asm import program
from measuring import grown, peer, program_of, seconds, write


def row(ours, verb, theirs, folder, before):
    """The times of one command, beside another tool's; the time, the words that tell it, and whether it grew too fast."""
    taken = seconds([ours, verb, "c.o"], folder)
    more, is_slow = grown(taken, before)
    line = f"{verb} {taken * 1000:.0f} ms{more}"
    if theirs[0] is None:
        return taken, line + ", no tool beside it is here", is_slow
    other = seconds([*theirs, "c.o"], folder)
    return taken, line + f", {os.path.basename(theirs[0])} {other * 1000:.0f} ms, {taken / other:.2f} of that", is_slow


def main():
    ours = program_of("show")
    objdump, readelf = peer("objdump"), sys.argv[3] if len(sys.argv) > 3 else peer("readelf")
    before, status = {}, 0
    with tempfile.TemporaryDirectory() as folder:
        for count in (25_000, 50_000):
            write(folder, "c.s", program(count, False).encode())
            subprocess.run([ours, "as", "c.s", "c.o"], cwd=folder, check=True)
            told = []
            for verb, theirs in (("dis", [objdump, "-d"]), ("show", [readelf, "-a"])):
                before[verb], line, is_slow = row(ours, verb, theirs, folder, before.get(verb))
                status |= is_slow
                told.append(line)
            print(f"{count} instructions: " + "; ".join(told))
    return int(status)


if __name__ == "__main__":
    sys.exit(main())
