#!/usr/bin/env python3
"""The time of `c6x as` on programs of 10,000, 20,000 and 40,000 instructions, beside gas on the same programs.

Usage: bench/asm.py PROGRAM [AS]

PROGRAM is the built `c6x`; AS is a tic6x assembler, by default the one on the path, and without one its times are left
out. A program has a label every 16 instructions, a call every 64, loads, stores, moves and arithmetic; the times are the
best of five.
"""
import os
import random
import sys
import tempfile

from measuring import grown, peer, program_of, seconds

ROWS = [
    "ADD .L{n} {s}{a},{s}{b},{s}{c}",
    "SUB .S{n} {s}{a},{s}{b},{s}{c}",
    "XOR .L{n}X {s}{a},{t}{b},{s}{c}",
    "SHL .S{n} {s}{a},{k},{s}{c}",
    "ADD .D{n} {s}{a},{k},{s}{c}",
    "MPY .M{n} {s}{a},{s}{b},{s}{c}",
    "MVK .S{n} {w},{s}{c}",
    "LDW .D{n}T{n} *+{s}{a}[{k}],{s}{c}",
    "STH .D{n}T{n} {s}{c},*{s}{a}++[{k}]",
]


def program(count, gnu):
    rng = random.Random(1)
    lines = [".text", ".global f0"] if gnu else ['.sect ".text"', ".global f0"]
    labels = (count + 15) // 16
    for k in range(count):
        label = f"f{k // 16}: " if k % 16 == 0 else "\t"
        side = rng.randrange(2)
        if k % 64 == 63:
            text = f"CALLP .S2 f{rng.randrange(labels)},B3"
        else:
            values = {"n": side + 1, "s": "AB"[side], "t": "BA"[side], "k": rng.randrange(32), "w": rng.randrange(-32768, 32768)}
            values.update({name: rng.randrange(32) for name in "abc"})
            text = rng.choice(ROWS).format(**values)
            if rng.randrange(5) == 0:
                text = "[!B0] " + text
        lines.append(label + (text.lower() if gnu else text))
    return "\n".join(lines) + "\n"


def main():
    ours, gas = program_of("asm"), peer("as")
    before, status = None, 0
    with tempfile.TemporaryDirectory() as folder:
        for count in (10_000, 20_000, 40_000):
            for name, gnu in (("c.s", False), ("g.s", True)):
                with open(os.path.join(folder, name), "w") as out:
                    out.write(program(count, gnu))
            taken = seconds([ours, "as", "c.s", "c.o"], folder)
            times, fast = grown(taken, before)
            line = f"{count} instructions: c6x {taken * 1000:.0f} ms{times}"
            before, status = taken, status | fast
            if gas is None:
                line += "; no tic6x assembler is here"
            else:
                theirs = seconds([gas, "-march=c64x+", "-o", "g.o", "g.s"], folder)
                line += f"; gas {theirs * 1000:.0f} ms, c6x takes {taken / theirs:.1f} times that"
            print(line)
    return status


if __name__ == "__main__":
    sys.exit(main())
