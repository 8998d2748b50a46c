#!/usr/bin/env python3
"""Performs the examples of docs/REFUSALS.md, and compares the line of each with what the program says.

    checks/refusals.py PROGRAM

An example is a block of lines under a heading `### CODE WORD`. `in FOLDER` copies the files of examples/FOLDER; `FILE is`
makes a file of the indented lines behind it; `FILE at N is XX ..` sets bytes; `FILE has N bytes` cuts a file, or fills it
up with zeros; `c6x WORD ..` runs the program. Every command but the last ends with status 0, and the last with 4 and the
line that the example ends with.
"""
import os
import re
import shutil
import sys
import tempfile

from comparing import command, load, outcome, store, verdict

TOP = os.path.dirname(os.path.dirname(os.path.abspath(__file__)))
EXAMPLE = re.compile(r"^### (\w+) (\w+)\n.*?^```\n(.*?)^```\n", re.M | re.S)
CODES = {"E": 11, "A": 9, "N": 3, "K": 14, "L": 20}


def copy_folder(folder, name):
    for file in os.listdir(f"{TOP}/examples/{name}"):
        shutil.copy(f"{TOP}/examples/{name}/{file}", folder)


def set_bytes(folder, name, at, spelled):
    data, new = bytearray(load(folder, name)), bytes.fromhex(spelled)
    data[at:at + len(new)] = new
    store(folder, name, bytes(data))


def set_length(folder, name, length):
    store(folder, name, (load(folder, name) or b"")[:length].ljust(length, b"\0"))


def perform(program, text, folder):
    """The outcomes of an example's commands, and the line that it ends with."""
    outcomes, lines = [], re.sub(r"\n  ", "\0", text).splitlines()
    for line in lines[:-1]:
        step, *content = line.split("\0")
        if found := re.fullmatch(r"in (\w+)", step):
            copy_folder(folder, found[1])
        elif found := re.fullmatch(r"(\S+) is", step):
            store(folder, found[1], "".join(f"{it}\n" for it in content).encode())
        elif found := re.fullmatch(r"(\S+) at (\d+) is ([0-9a-f ]+)", step):
            set_bytes(folder, found[1], int(found[2]), found[3])
        elif found := re.fullmatch(r"(\S+) has (\d+) bytes", step):
            set_length(folder, found[1], int(found[2]))
        elif found := re.fullmatch(r"c6x (.+)", step):
            outcomes.append(outcome(program, folder, found[1].split()))
        else:
            sys.exit(f"no step of an example: {step}")
    return outcomes, lines[-1]


def as_told(outcomes, line):
    """Whether all commands but the last passed, and the last refused with this line and nothing else."""
    *made, last = outcomes
    return all(it[0] == 0 for it in made) and last[:3] == (4, b"", f"{line}\n".encode())


def main():
    program = command(sys.argv[1])
    with open(f"{TOP}/docs/REFUSALS.md", encoding="utf-8") as it:
        examples = EXAMPLE.findall(it.read())
    different = 0
    for code, word, text in examples:
        with tempfile.TemporaryDirectory() as folder:
            outcomes, line = perform(program, text, folder)
        if not line.startswith(f"c6x: refused {code} {word} ") or not as_told(outcomes, line):
            different += 1
            print(f"{code}: {line!r} is wanted, and the program gives {[(it[0], it[2]) for it in outcomes]}")
    missing = {f"{letter}{number + 1}" for letter, most in CODES.items() for number in range(most)} - {it[0] for it in examples}
    for code in sorted(missing):
        print(f"{code} has no example")
    print(f"{len(examples)} examples; " + verdict(different + len(missing)))
    sys.exit(different + len(missing) > 0)


main()
