#!/usr/bin/env python3
"""Proves a crate from nothing, one function after the other, and tells which take longest, in seconds of processor time.

    checks/slow_functions.py NAME [COUNT]

The crate is checked in a copy of the tree, so the work tree keeps what it has. `rt check` prints a line as each proof ends;
what the process and those below it used since the line before is that proof's. So the first proof has the reading of the
crate and of the libraries besides, and "the rest" is what follows the last. COUNT lines are shown, 15 if it is not given.
"""
import os
import re
import shutil
import signal
import subprocess
import sys
import tempfile

import gate_times

TOP = gate_times.TOP
PROOF = re.compile(r"checked (.+), \d+ of \d+$")
VERDICT = re.compile(r"logic=|rt: |\S+:\d+:\d+: error")


def copied(room, name):
    """Copies what a check reads, with the crate's root changed by a comment, so that the check begins with nothing that is kept."""
    os.mkdir(f"{room}/crates")
    for it in ("crates.txt", "HANDLES"):
        shutil.copy(f"{TOP}/{it}", room)
    for crate in os.listdir(f"{TOP}/crates"):
        for part in ("src", "specs", "proofs"):
            if os.path.isdir(f"{TOP}/crates/{crate}/{part}"):
                shutil.copytree(f"{TOP}/crates/{crate}/{part}", f"{room}/crates/{crate}/{part}")
    folder = f"{room}/crates/{name}"
    os.makedirs(f"{folder}/out/incremental")
    root = f"{folder}/src/main.rt" if os.path.isfile(f"{folder}/src/main.rt") else f"{folder}/src/lib.rt"
    with open(root, "a", encoding="utf-8") as it:
        it.write(f"// {room}\n")
    return folder


def ticks_of(top, name):
    """The processor time of the crate's check below a process."""
    table = gate_times.processes()
    children = gate_times.children_of(table)
    waiting, found = [top], 0
    while waiting:
        number = waiting.pop()
        check = gate_times.check_of(number) if number in table else None
        if check and check[0] == name:
            found += gate_times.tree_time(table, children, number)
        else:
            waiting += children.get(number, ())
    return found


def times(name):
    """Checks the crate. Gives the status and, by what was proved, its seconds."""
    with tempfile.TemporaryDirectory(prefix="c6x-slow-") as room:
        words = ["rt", "check", "--jobs", "1"]
        ran = subprocess.Popen(words, cwd=copied(room, name), stdout=subprocess.PIPE, stderr=subprocess.STDOUT, errors="replace")
        # Whoever ends this script ends the check too.
        signal.signal(signal.SIGTERM, lambda *_: (ran.terminate(), sys.exit(1)))
        found, before, last = [], 0, 0
        for line in ran.stdout:
            now = max(before, ticks_of(ran.pid, name))
            proof = PROOF.match(line)
            if proof:
                found.append(((now - before) / gate_times.TICKS, proof[1]))
                before = now
            elif VERDICT.match(line):
                print(line, end="")
            last = now
        return ran.wait(), [*found, ((last - before) / gate_times.TICKS, "the rest")]


def main():
    if len(sys.argv) not in (2, 3) or not os.path.isdir(f"{TOP}/crates/{sys.argv[1]}"):
        sys.exit("checks/slow_functions.py NAME [COUNT]")
    count = int(sys.argv[2]) if len(sys.argv) == 3 else 15
    status, found = times(sys.argv[1])
    for seconds, name in sorted(found, reverse=True)[:count]:
        print(f"{seconds:8.1f}  {name}")
    print(f"{sum(it for it, _ in found):8.1f}  {sys.argv[1]}, {len(found) - 1} functions, {gate_times.lines_of(sys.argv[1])} lines")
    return status


if __name__ == "__main__":
    sys.exit(main())
