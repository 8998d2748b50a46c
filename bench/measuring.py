"""What the scripts share that time the built programs."""
import os
import shutil
import subprocess
import sys
import time


def program_of(script):
    """The path of the built program, which is the first word."""
    if len(sys.argv) < 2:
        print(f"bench/{script}.py: give the path of the built c6x")
        sys.exit(2)
    return os.path.abspath(sys.argv[1])


def peer(name):
    """The tic6x tool whose path is the second word, or else the one on the path, if it is there."""
    if len(sys.argv) > 2:
        return sys.argv[2]
    for target in ("tic6x-elf", "tic6x-uclinux"):
        found = shutil.which(f"{target}-{name}")
        if found:
            return found
    return None


def seconds(words, folder):
    """The least time of five runs."""
    best = None
    for _ in range(5):
        start = time.perf_counter()
        subprocess.run(words, cwd=folder, check=True, capture_output=True)
        taken = time.perf_counter() - start
        best = taken if best is None else min(best, taken)
    return best


def grown(taken, before):
    """What a line says of a time beside that of half as much, and whether it grew too fast."""
    return ("", False) if before is None else (f", {taken / before:.2f} times that of half as many", taken / before > 2.2)


def write(folder, name, data):
    with open(os.path.join(folder, name), "wb") as out:
        out.write(data)
