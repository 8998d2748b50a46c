#!/usr/bin/env python3
"""Words decoded in a second, beside those that `objdump -d` of a tic6x binutils lists.

Usage: bench/isa.py [OBJDUMP [WORDS]]

OBJDUMP is a tic6x objdump, by default the one on the path; without one its line is left out. WORDS is how many
words are decoded, by default 20,000,000; objdump lists a fiftieth of them. The program `c6x_probe` has to be
built first: `rt run` in crates/c6x_probe.
"""
import shutil
import struct
import subprocess
import sys
import tempfile
import time
from pathlib import Path

PROGRAM = Path(__file__).resolve().parent.parent / "crates" / "c6x_probe" / "out" / "c6x_probe"
MASK = 0xFFFFFFFF


def seconds(command, **options):
    start = time.perf_counter()
    subprocess.run(command, check=True, stdout=subprocess.PIPE, **options)
    return time.perf_counter() - start


def objdump_on_path():
    for target in ("tic6x-elf", "tic6x-uclinux", "tic6x-none-elf"):
        found = shutil.which(f"{target}-objdump")
        if found:
            return found
    return None


def drawn(number, seed):
    """The words that the program draws from a seed."""
    x = seed
    for _ in range(number):
        x = (x * 1664525 + 1013904223) & MASK
        yield x


def main():
    if not PROGRAM.exists():
        print("bench/isa.py: c6x_probe is not built, so nothing is measured")
        return 0
    words = int(sys.argv[2]) if len(sys.argv) > 2 else 20_000_000
    taken = seconds([PROGRAM], input=f"count {words:x} 1\n".encode())
    ours = words / taken
    print(f"decode: {words} words in {taken:.2f} s, {ours:,.0f} words a second")
    objdump = objdump_on_path() if len(sys.argv) < 2 else sys.argv[1]
    if objdump is None:
        print("objdump: no tic6x objdump is here")
        return 0
    listed = max(words // 50, 1)
    with tempfile.NamedTemporaryFile(suffix=".bin") as file:
        file.write(b"".join(struct.pack("<I", word) for word in drawn(listed, 1)))
        file.flush()
        taken = seconds([objdump, "-D", "-b", "binary", "-m", "tic6x", file.name])
    theirs = listed / taken
    print(f"objdump: {listed} words in {taken:.2f} s, {theirs:,.0f} words a second; decode is {ours / theirs:.1f} times that")
    return 0


if __name__ == "__main__":
    sys.exit(main())
