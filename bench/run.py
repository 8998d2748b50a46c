#!/usr/bin/env python3
"""Cycles per second of `c6x run`, beside a plain interpreter with the same checks.

    bench/run.py PROGRAM [YARDSTICK]

PROGRAM is the built `c6x`. YARDSTICK is a program that takes the file of a plain executable, its argument and its limit,
and prints the process line; without it its columns are left out. Both run a loop up to its limit, and what they print of
the process is compared first. The cost of a cycle is the processor time of a run of many cycles less
that of a run of one; it is shown at two limits, since it does not grow with the cycles that are done. A process of four
modules has nine areas; YARDSTICK runs the same loop under its three.
"""
import os
import random
import resource
import subprocess
import sys
import tempfile

sys.path.insert(0, os.path.join(os.path.dirname(os.path.abspath(__file__)), "..", "checks"))
from map import Module  # noqa: E402
from measuring import program_of, write  # noqa: E402
from run import BOARD, SIDE_B, addk, branch_nop, branch_nop_to, module, mvk, short, two  # noqa: E402

LIMITS = (1_000_000, 10_000_000)
LDW, STW, LDH, STB = 6, 7, 4, 3


def waiting():
    return [branch_nop(1, 4, 5)]


def moves():
    return [branch_nop(1, 4, 0)] + [mvk(0, n, 5 + n) for n in range(5)]


def loads_and_stores():
    """Eight words before the loop take the address of the stack's last words, which B15 has, to A10 and B11. The loop goes
    back to the boundary of 32 bytes behind them."""
    start = [two("L", 0x02, 0, 1, 0, 15, 10), two("L", 0x02, SIDE_B, 0, 0, 15, 11)] + [0] * 6
    loop = [
        short(LDW, 0, 0, 0, 1, 10, 5),
        short(STW, SIDE_B, SIDE_B, 0, 2, 11, 6),
        branch_nop_to(0, 0, 0),
        short(LDH, SIDE_B, SIDE_B, 0, 3, 11, 7),
        short(STB, 0, 0, 0, 9, 10, 5),
        short(LDW, 0, 0, 0, 4, 10, 8),
        short(STW, 0, 0, 0, 5, 10, 9),
        addk(0, 1, 9),
    ]
    return start + loop


def packets_of_eight():
    def eight(first):
        words = [
            two("L", 0x03, 0, 0, 16, 17, 18),
            two("L", 0x03, SIDE_B, 0, 16, 17, 18),
            first,
            addk(SIDE_B, 1, 20),
            two("D", 0x10, 0, 0, 21, 22, 23),
            two("D", 0x10, SIDE_B, 0, 21, 22, 23),
            two("M", 0x19, 0, 0, 24, 25, 26),
            two("M", 0x19, SIDE_B, 0, 24, 25, 26),
        ]
        return [word | 1 for word in words[:-1]] + [words[-1]]

    return eight(branch_nop_to(0, 0, 0)) + [word for n in range(5) for word in eight(addk(0, n, 20))]


# Each loop with how many libraries the process of `c6x` has beside its program.
LOOPS = {
    "most cycles wait": (waiting(), 0),
    "one MVK a packet": (moves(), 0),
    "loads and stores under three areas": (loads_and_stores(), 0),
    "packets of eight": (packets_of_eight(), 0),
    "loads and stores under nine areas": (loads_and_stores(), 3),
}


def linked(words, libraries):
    """A program with these code words that needs so many libraries, and the libraries, in their order in a plan."""
    names = [f"lib{number}.so" for number in range(libraries)]
    files = []
    for number in range(libraries + 1):
        one = Module(random.Random(number))
        one.kind, one.index, one.slots = (3, number, 8) if number else (2, 0, 8)
        one.words = [0] * 8 if number else words
        one.needed = [] if number else names
        one.room, one.zeros, one.text_align, one.data_align = 0, 0, 32, 8
        files.append(one.written(random.Random(number)))
    return dict(zip(["app.out"] + names, files))


def store_plans(words, libraries, folder):
    """The files of a loop, and a plan for each limit. YARDSTICK takes the plain executable."""
    plain = module(words)
    files = linked(words, libraries) if libraries else {"app.out": plain}
    for name, file in files.items() | {("plain.out", plain)}:
        write(folder, name, file)
    lines = [f"module {'app' if name == 'app.out' else name} {name}" for name in files]
    for limit in (1,) + LIMITS:
        process = f"process p app limit {limit} stack 64 arg {BOARD}"
        write(folder, f"{limit}.plan", "\n".join(["c6x-plan 1", "quantum 10"] + lines + [process, ""]).encode())


def process_line(text):
    return next((line for line in text.split(b"\n") if line.startswith(b"process p ") and b" cycles " in line), b"")


def processor_time():
    used = resource.getrusage(resource.RUSAGE_CHILDREN)
    return used.ru_utime + used.ru_stime


def spent(command, folder):
    """The processor seconds of the best of three runs."""
    best = None
    for _ in range(3):
        before = processor_time()
        subprocess.run(command, cwd=folder, capture_output=True, timeout=600)
        used = processor_time() - before
        best = used if best is None else min(best, used)
    return best


def answer(command, folder):
    """The process line without its output's size, or what stopped the run."""
    done = subprocess.run(command, cwd=folder, capture_output=True, timeout=600)
    return process_line(done.stdout).replace(b" output 0", b"") or done.stderr


def commands(program, yardstick, limit):
    yield "c6x", [program, "run", f"{limit}.plan"]
    if yardstick:
        yield "yardstick", [yardstick, "plain.out", str(BOARD), str(limit)]


def compare_answers(program, yardstick, folder):
    """Stops where the runs do not all go on to the limit, and say the same of it."""
    for limit in (1,) + LIMITS:
        lines = {answer(command, folder) for _, command in commands(program, yardstick, limit)}
        if len(lines) != 1 or b"limit cycles %d" % limit not in next(iter(lines)):
            sys.exit(f"bench/run.py: not one answer: {lines}")


def measure(program, yardstick, words, libraries, folder):
    """Nanoseconds a cycle at each limit, by the name of the program."""
    store_plans(words, libraries, folder)
    compare_answers(program, yardstick, folder)
    found = {}
    for limit in (1,) + LIMITS:
        for name, command in commands(program, yardstick, limit):
            found.setdefault(name, []).append(spent(command, folder))
    return {
        name: [(seconds - start) / limit * 1e9 for limit, seconds in zip(LIMITS, more)]
        for name, (start, *more) in found.items()
    }


def main():
    program = program_of("run")
    yardstick = os.path.abspath(sys.argv[2]) if len(sys.argv) > 2 else None
    for name, (words, libraries) in LOOPS.items():
        with tempfile.TemporaryDirectory() as folder:
            found = measure(program, yardstick, words, libraries, folder)
        few, many = found["c6x"]
        text = f"{name}: {few:.0f} and {many:.0f} ns a cycle at 1 and 10 million, {1e3 / many:.1f} million cycles a second"
        if yardstick:
            plain = found["yardstick"][1]
            text += f"; yardstick {plain:.0f} ns, {1e3 / plain:.1f} million; {plain / many:.2f} of its speed"
        print(text, flush=True)
    return 0


if __name__ == "__main__":
    sys.exit(main())
