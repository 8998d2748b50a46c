#!/usr/bin/env python3
"""The time of `c6x ld` on programs of 10,000, 20,000 and 40,000 instructions in 1, 4 and 16 objects, beside GNU ld.

Usage: bench/ld.py PROGRAM [LD]

PROGRAM is the built `c6x`; LD is a tic6x linker, by default the one on the path, and without one its times are left out.
Both link the same objects, made by `c6x as`. A program has a label every 16 instructions, half of them global, a call
every 64 and a load or store of a word of data every 8; the times are the best of five.
"""
import os
import random
import subprocess
import sys
import tempfile

from measuring import grown, peer, program_of, seconds

SCRIPT = "SECTIONS { .text 0x10000 : { *(.text) } .data 0x400000 : { __c6xabi_DSBT_BASE = .; . += 256; *(.neardata) } }\n"


def source(rng, number, count, objects):
    """The text of one object of a program."""
    per = count // objects
    labels, words = per // 16, max(per // 64, 1)
    lines = ['.sect ".text"'] + ([".global start", "start:"] if number == 0 else [])
    lines += [f".global f{number}_{k}" for k in range(0, labels, 2)]
    for k in range(per):
        if k % 16 == 0:
            lines.append(f"f{number}_{k // 16}:")
        if k % 64 == 63:
            other = rng.randrange(objects)
            label = 2 * rng.randrange((labels + 1) // 2) if other != number else rng.randrange(labels)
            lines.append(f" CALLP .S2 f{other}_{label},B3")
        elif k % 8 == 7:
            lines.append(f" LDW .D2T2 *+B14(d{number}_{rng.randrange(words)}),B{rng.randrange(32)}")
        else:
            lines.append(f" ADD .L1 A{rng.randrange(32)},A{rng.randrange(32)},A{rng.randrange(32)}")
    lines.append('.sect ".neardata"')
    lines += [f"d{number}_{k}: .word {k}" for k in range(words)]
    return "\n".join(lines) + "\n"


def made(folder, ours, count, objects):
    """Makes the objects of a program and its link plan; their names."""
    rng = random.Random(count + objects)
    names = [f"o{k}.o" for k in range(objects)]
    for number, name in enumerate(names):
        with open(os.path.join(folder, "in.s"), "w") as out:
            out.write(source(rng, number, count, objects))
        subprocess.run([ours, "as", "in.s", name], cwd=folder, check=True)
    with open(os.path.join(folder, "plan"), "w") as out:
        out.write("c6x-link 1\nentry start\n" + "".join(f"object {name}\n" for name in names))
    return names


def main():
    ours, gnu = program_of("ld"), peer("ld")
    status = 0
    with tempfile.TemporaryDirectory() as folder:
        with open(os.path.join(folder, "script"), "w") as out:
            out.write(SCRIPT)
        for objects in (1, 4, 16):
            before = None
            for count in (10_000, 20_000, 40_000):
                names = made(folder, ours, count, objects)
                taken = seconds([ours, "ld", "plan", "c.out"], folder)
                times, fast = grown(taken, before)
                line = f"{count} instructions in {objects} objects: c6x {taken * 1000:.1f} ms{times}"
                before, status = taken, status | fast
                if gnu is None:
                    line += "; no tic6x linker is here"
                else:
                    theirs = seconds([gnu, "-T", "script", "-e", "start", "-o", "g.out", *names], folder)
                    line += f"; GNU ld {theirs * 1000:.1f} ms, c6x takes {taken / theirs:.2f} times that"
                print(line, flush=True)
    return status


if __name__ == "__main__":
    sys.exit(main())
