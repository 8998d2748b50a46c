#!/usr/bin/env python3
"""Runs what numbers generate with the built `c6x` and with a reference model, and compares what they print.

    checks/gen.py MODEL PROGRAM [COUNT [FIRST]]

MODEL is the Python script of a model whose folder has a module `command` with the call `command(words, shelf)`, which answers
status, output and error output: its modules are loaded once, and each number is then worked out in this process. PROGRAM is the
built `c6x`. The first numbers are those at which something changes: 0, the greatest, and those around a multiple of
11, 50, 100 and 1000; the others are drawn, the same at each run.
"""
import importlib
import os
import random
import sys

from comparing import arguments, outcome, verdict

CORNERS = [0, 1, 7, 10, 11, 12, 49, 50, 79, 99, 100, 500, 998, 999, 1000, 1001, 500_500, 998_999, 999_000, 999_998, 999_999]


def numbers(count, first):
    """The numbers of so many cases from the one with this number on."""
    drawn = random.Random(41)
    wanted = CORNERS + [drawn.randrange(1_000_000) for _ in range(first + count)]
    return wanted[first:first + count]


def main():
    _, program, count, rest = arguments("gen", 200)
    sys.path.insert(0, os.path.dirname(os.path.abspath(sys.argv[1])))
    model = importlib.import_module("command")
    different = 0
    for number in numbers(count, int(rest[0]) if rest else 0):
        made = model.command([b"gen", str(number).encode()], {})
        wanted = (made.status, bytes(made.out), bytes(made.err))
        given = outcome(program, ".", ["gen", str(number)])[:3]
        if given != wanted:
            different += 1
            print(f"gen {number}: {wanted!r} is wanted, and the program gives {given!r}")
    print(f"{count} numbers; " + verdict(different))
    sys.exit(different > 0)


main()
