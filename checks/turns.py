#!/usr/bin/env python3
"""Runs random plans of several processes with the built `c6x` and with a reference model, and compares what they print.

    checks/turns.py MODEL PROGRAM [COUNT [FIRST]]

MODEL is a program, or a Python script, that takes the words of `c6x`; PROGRAM is the built `c6x`. A plan has one to eight
processes of executables that call libraries, some of which several processes share. Each plan runs under the three
named policies, with a seed and a quantum of its own; the model and the program must answer the same, and each of them
the same under every policy. PROGRAM assembles and links the modules. The cases are the same at each run. The last line
counts how the processes end.
"""
import random
import subprocess
import sys
import tempfile
from collections import Counter

from comparing import arguments, counts, outcome, store, tallied, verdict

LIBRARIES, PROGRAMS, TABLE = 8, 24, 10
POLICIES = ["round", "last", "drawn"]
# How many cases are of the same modules.
TOGETHER = 250
BOARD = 0x80000000

SAVE = "        STW .D2T2 B3,*B15--[2]"
RESTORE = ["        LDW .D2T2 *++B15[2],B3", "        NOP 4"]
RETURN = "        BNOP .S2 B3,5"


class Source:
    """The text of a module; labels have numbers of their own."""

    def __init__(self, rng):
        self.rng, self.lines, self.labels = rng, ['        .sect ".text"'], 0

    def label(self):
        self.labels += 1
        return f"here{self.labels}"

    def add(self, *lines):
        self.lines += lines

    def put(self):
        """Puts the low byte of A4; B3 is saved by the caller."""
        back = self.label()
        self.add("        MVK .S2 -224,B31", f"        ADDKPC .S2 {back},B3,0", "        BNOP .S2 B31,5", f"{back}:")

    def loop(self, step):
        """Does a step some times."""
        start = self.label()
        self.add(f"        MVK .S1 {self.rng.randrange(1, 9)},A1", f"{start}: ADDK .S1 -1,A1", step, f"   [A1] BNOP .S1 {start},5")

    def counted(self, name):
        """Changes a word of the data that no other process has."""
        change = self.rng.choice(["ADD .L1 A4,A5,A4", "SUB .L1 A4,A5,A4", "XOR .L1 A4,A5,A4", "MPY .M1 A4,A5,A4"])
        width, read = self.rng.choice([("W", "LDW"), ("W", "LDW"), ("H", "LDHU"), ("B", "LDB")])
        at = self.rng.choice([f"*+B14({name})", f"*+B14({name}+4)"])
        self.add(f"        {read} .D2T1 {at},A5", "        NOP 4", f"        {change}", "        NOP 1", f"        ST{width} .D2T1 A4,{at}")

    def through_pointer(self, name):
        """Does so by the address that a word of the table's module holds."""
        self.add(f"        LDW .D2T1 *+B14(%sbr_got_u15_w({name})),A6", "        NOP 4", "        LDW .D1T1 *A6,A5", "        NOP 4")
        self.add("        ADD .L1 A4,A5,A4", "   ||   STW .D1T1 A4,*A6")

    def call(self, name):
        self.add(f"        CALLP .S2 {name},B3")


def library(rng, number, calls):
    """A library with one function, and a word of data that a later process must not see changed."""
    name, held = f"f{number}", f"c{number}"
    text = Source(rng)
    text.add(f"        .global {name}", f"{name}:", "        STW .D2T2 B14,*B15--[2]", "        LDW .D2T2 *+B14(%dsbt_index),B14", "        NOP 4", SAVE)
    for _ in range(rng.randrange(1, 4)):
        draw = rng.randrange(6)
        if draw < 2:
            text.counted(held)
        elif draw == 2:
            text.through_pointer(held)
        elif draw == 3 and calls:
            text.call(f"f{rng.choice(calls)}")
        elif draw == 4:
            text.put()
        else:
            text.loop(rng.choice(["        NOP 3", "        ADD .L1 A4,A4,A4", f"        ADDK .S1 {rng.randrange(-9, 9)},A4"]))
    text.add(*RESTORE, "        LDW .D2T2 *++B15[2],B14", RETURN)
    if rng.randrange(2):
        text.add(f"        .global {held}")
    text.add('        .sect ".neardata"', f"{held}:  .word {rng.randrange(1000)},{rng.randrange(-1000, 1000)},{name}")
    return text.lines


def executable(rng, calls):
    """A program that calls libraries, puts bytes, waits, and ends in one of several ways."""
    text = Source(rng)
    text.add("        .global start", "start:", SAVE)
    for _ in range(rng.randrange(1, 6)):
        draw = rng.randrange(10)
        if draw < 4 and calls:
            text.call(f"f{rng.choice(calls)}")
        elif draw < 6:
            text.put()
        elif draw == 6:
            text.counted("own")
        elif draw == 7:
            text.loop(f"        NOP {rng.randrange(1, 9)}")
        elif draw == 8:
            text.add("        STW .D2T1 A4,*+B15[1]", "        LDHU .D2T1 *+B15[2],A7", "        NOP 4")
        else:
            text.add(f"        ADDK .S1 {rng.randrange(-99, 99)},A4", f"   ||   MVK .S2 {rng.randrange(99)},B4")
    draw = rng.randrange(12)
    if draw == 0:
        text.add("forever: BNOP .S1 forever,5")
    elif draw == 1:
        text.add("        STW .D1T1 A4,*A4")
    elif draw == 2:
        text.add("        LDW .D1T1 *A4,A4", "        NOP 4")
    elif draw == 3:
        text.add("        MVK .S2 2,B3", "        BNOP .S2 B3,5")
    elif draw == 4:
        text.add("again:", *SAVE.split("\n"), "        CALLP .S2 again,B3")
    text.add(*RESTORE, RETURN, '        .sect ".neardata"', f"own:    .word {rng.randrange(1000)},7")
    return text.lines


class Modules:
    """Assembled and linked modules in a folder: what each needs, whether named or through those that it names."""

    def __init__(self, program, folder, number):
        self.program, self.folder = program, folder
        rng = random.Random(number)
        self.reached = {}
        for k in range(1, LIBRARIES + 1):
            calls = rng.sample(range(1, k), min(k - 1, rng.randrange(3)))
            self.reached[k] = {k}.union(*(self.reached[j] for j in calls))
            self.make(f"f{k}", library(rng, k, calls), [f"output library", f"index {k}", f"soname f{k}"], calls)
        self.needs = []
        for k in range(PROGRAMS):
            calls = rng.sample(range(1, LIBRARIES + 1), rng.randrange(4))
            self.needs.append(set().union(*(self.reached[j] for j in calls)) if calls else set())
            self.make(f"p{k}", executable(rng, calls), ["output executable", "entry start"], calls)

    def make(self, name, lines, head, calls):
        store(self.folder, name + ".s", "\n".join(lines + [""]).encode())
        plan = ["c6x-link 1", *head, f"table {TABLE}", *(f"needed f{j}" for j in calls), f"object {name}.o", ""]
        store(self.folder, name + ".lnk", "\n".join(plan).encode())
        for words in (["as", name + ".s", name + ".o"], ["ld", name + ".lnk", name]):
            done = subprocess.run(self.program + words, cwd=self.folder, capture_output=True, timeout=120)
            if done.returncode != 0:
                sys.exit(f"checks/turns.py: {name}: {done.stderr.decode()}")


def plan(number, needs):
    """A plan over the modules, and a seed."""
    rng = random.Random(number)
    programs = rng.sample(range(PROGRAMS), rng.randrange(1, 5))
    used = sorted(set().union(*(needs[k] for k in programs)))
    names = [f"p{k}" for k in programs] + [f"f{k}" for k in used]
    rng.shuffle(names)
    lines = ["c6x-plan 1", f"quantum {rng.choice([1, 2, 7, 10, 50, 1000, 65535, rng.randrange(1, 65536)])}"]
    lines += [f"module {name} {name}" for name in names]
    for k in range(rng.randrange(1, 9)):
        arg = rng.choice([rng.randrange(256), rng.randrange(1 << 32), BOARD + 4 * rng.randrange(1500), BOARD + 4 * rng.randrange(1500)])
        limit = rng.choice([rng.randrange(1, 200), 1000, 3000])
        lines.append(f"process q{k} p{rng.choice(programs)} limit {limit} stack {8 * rng.randrange(12, 40)} arg {arg}")
    return "\n".join(lines + [""]), str(rng.choice([1, 0, 4294967295, rng.randrange(1 << 32)]))


def answers(program, folder, name, seed):
    return [outcome(program, folder, ["run", name, "--policy", policy, "--seed", seed])[:3] for policy in POLICIES]


def compared(model, program, folder, numbers, needs):
    """How the processes of these cases end, and how many cases differ."""
    def one(number):
        text, seed = plan(number, needs)
        name = f"{number}.plan"
        store(folder, name, text.encode())
        wanted, got = answers(model, folder, name, seed), answers(program, folder, name, seed)
        same = wanted == got and all(answer == got[0] for answer in got)
        lines = [f"{policy}: wanted {it}\n{policy}: got    {other}" for policy, it, other in zip(POLICIES, wanted, got)]
        return wanted[0][1], None if same else f"case {number}, seed {seed}:\n{text}" + "\n".join(lines)

    return tallied(one, numbers)


def main():
    model, program, count, rest = arguments("turns", 3000)
    first = int(rest[0]) if rest else 0
    ends, different = Counter(), 0
    for start in range(first, first + count, TOGETHER):
        with tempfile.TemporaryDirectory() as folder:
            made = Modules(program, folder, start // TOGETHER)
            met, apart = compared(model, program, folder, range(start, min(start + TOGETHER, first + count)), made.needs)
        ends.update(met)
        different += apart
    print(f"{count} plans under {len(POLICIES)} policies: {counts(ends)}; " + verdict(different))
    return 1 if different else 0


if __name__ == "__main__":
    sys.exit(main())
