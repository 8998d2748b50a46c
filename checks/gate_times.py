#!/usr/bin/env python3
"""Runs the gate and tells what each crate cost it, in seconds of processor time.

    checks/gate_times.py [COMMAND..]

COMMAND is `rt ci` if none is given, or `rt ci --anew`, or `rt ci NAME..`. What it prints is passed on. A table follows: for
each crate its lines of code, the time of its proof, of its tests' proof and of its edits, the sum, and the proof's seconds
for a thousand lines; then the chain of crates whose proofs, one after the other, take longest. A crate for which nothing
was done, as one that an earlier run proved, has no line.

The time is read from /proc, as the processes that prove run: a check in a folder rt-edit-* is an edit's (or the check that
the edits begin with), one with --test is of tests, and every other is the crate's own proof.
"""
import os
import re
import signal
import subprocess
import sys
import threading

TICKS = os.sysconf("SC_CLK_TCK")
EVERY = 0.2
TOP = os.path.dirname(os.path.dirname(os.path.abspath(__file__)))
KINDS = ("proof", "tests", "edits")


def processes():
    """Each process by its number: its parent, when it began, and its processor time with that of its ended children."""
    found = {}
    for name in os.listdir("/proc"):
        if name.isdigit():
            try:
                with open(f"/proc/{name}/stat") as it:
                    fields = it.read().rpartition(")")[2].split()
            except OSError:
                continue
            found[int(name)] = int(fields[1]), int(fields[19]), sum(map(int, fields[11:15]))
    return found


def tree_time(table, children, top):
    """The processor time of a process and of all below it, in ticks."""
    return table[top][2] + sum(tree_time(table, children, it) for it in children.get(top, ()))


def children_of(table):
    children = {}
    for number, (parent, _, _) in table.items():
        children.setdefault(parent, []).append(number)
    return children


def check_of(number):
    """The crate and the kind of a process that proves, or None."""
    try:
        with open(f"/proc/{number}/cmdline", "rb") as it:
            words = it.read().decode(errors="replace").split("\0")
        here = os.readlink(f"/proc/{number}/cwd")
    except OSError:
        return None
    if os.path.basename(words[0]) != "rattle" or "--crate-name" not in words:
        return None
    crate = words[words.index("--crate-name") + 1]
    if os.path.basename(here).startswith("rt-edit-"):
        return crate, "edits"
    return crate, "tests" if "--test" in words else "proof"


class Watch(threading.Thread):
    """Looks again and again at what a process and those below it use."""

    def __init__(self, top):
        super().__init__(daemon=True)
        self.top, self.ended, self.kinds, self.times = top, threading.Event(), {}, {}

    def look(self):
        table = processes()
        children = children_of(table)
        waiting = list(children.get(self.top, ()))
        while waiting:
            number = waiting.pop()
            key = number, table[number][1]
            if self.kinds.get(key) is None:
                self.kinds[key] = check_of(number)
            if self.kinds[key]:
                self.times[key] = max(self.times.get(key, 0), tree_time(table, children, number))
            else:
                waiting += children.get(number, ())

    def run(self):
        while not self.ended.wait(EVERY):
            self.look()

    def sums(self):
        """Seconds by crate and kind."""
        found = {}
        for key, ticks in list(self.times.items()):
            crate, kind = self.kinds[key]
            row = found.setdefault(crate, dict.fromkeys(KINDS, 0.0))
            row[kind] += ticks / TICKS
        return found


def named_below():
    """The crates of crates.txt, each with all that its line names, the kit's crates with it."""
    found = {}
    with open(f"{TOP}/crates.txt") as it:
        for line in it:
            name, colon, below = line.partition("#")[0].partition(":")
            if colon:
                found[name.split()[0]] = below.split()
    return found


def crates():
    """The crates of crates.txt, each with those of them that it stands on."""
    found = named_below()
    return {name: [it for it in below if it in found] for name, below in found.items()}


def lines_of(crate):
    """The lines of the crate's code, its contracts with it."""
    count = 0
    for folder, _, names in os.walk(f"{TOP}/crates/{crate}/src"):
        for name in names:
            with open(f"{folder}/{name}", "rb") as it:
                count += it.read().count(b"\n")
    return count


def longest_chain(below, times):
    """The crates, lowest first, whose proofs take longest one after the other."""
    best = {}

    def chain(name):
        if name not in best:
            under = max((chain(it) for it in below[name]), key=lambda it: it[0], default=(0.0, []))
            best[name] = under[0] + times.get(name, {}).get("proof", 0.0), [*under[1], name]
        return best[name]

    return max((chain(it) for it in below), key=lambda it: it[0])


def table(times):
    """The lines of the table."""
    below = crates()
    order = sorted(times, key=lambda it: -sum(times[it].values()))
    yield f"{'crate':24}{'lines':>7}{'proof':>8}{'tests':>8}{'edits':>8}{'sum':>8}{'a 1000':>8}"
    whole = dict.fromkeys(KINDS, 0.0)
    all_lines = 0
    for name in order:
        row, lines = times[name], lines_of(name)
        each = f"{1000 * row['proof'] / lines:8.0f}" if lines and row["proof"] else f"{'-':>8}"
        yield f"{name:24}{lines:7}" + "".join(f"{row[it]:8.0f}" for it in KINDS) + f"{sum(row.values()):8.0f}{each}"
        whole = {it: whole[it] + row[it] for it in KINDS}
        all_lines += lines
    yield f"{'all, seconds':24}{all_lines:7}" + "".join(f"{whole[it]:8.0f}" for it in KINDS) + f"{sum(whole.values()):8.0f}"
    yield f"{'all, minutes':31}" + "".join(f"{whole[it] / 60:8.1f}" for it in KINDS) + f"{sum(whole.values()) / 60:8.1f}"
    seconds, chain = longest_chain(below, times)
    yield f"longest chain of proofs: {seconds:.0f} s, {len(chain)} crates: {' '.join(chain)}"


def main():
    words = sys.argv[1:] or ["rt", "ci"]
    ran = subprocess.Popen(words, cwd=TOP, stdout=subprocess.PIPE, stderr=subprocess.STDOUT, errors="replace")
    for it in (signal.SIGINT, signal.SIGTERM):
        signal.signal(it, lambda *_: ran.terminate())
    watch = Watch(ran.pid)
    watch.start()
    kept = set()
    for line in ran.stdout:
        print(line, end="", flush=True)
        found = re.match(r"rt: (\w+) is kept: ", line)
        kept |= {found[1]} if found else set()
    status = ran.wait()
    watch.ended.set()
    watch.join()
    print("\n".join(table(watch.sums())))
    if kept:
        print(f"not proved in this run, as an earlier one had proved them: {' '.join(sorted(kept))}")
    return status


if __name__ == "__main__":
    sys.exit(main())
