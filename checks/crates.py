#!/usr/bin/env python3
"""Tells how the crates of crates.txt stand on each other.

    checks/crates.py

A crate's layer is one above the highest of the crates that it stands on. Below the layers stand the crates that a line of
crates.txt names and that no file of the crate cites: such a line makes the crate wait for nothing. It ends with 1 if there
are any.
"""
import os
import re
import sys

import gate_times


def text_of(crate):
    found = []
    for part in ("src", "specs", "proofs"):
        for folder, _, names in os.walk(f"{gate_times.TOP}/crates/{crate}/{part}"):
            for name in names:
                with open(f"{folder}/{name}", encoding="utf-8") as it:
                    found.append(it.read())
    return "\n".join(found)


def layers(below):
    """The crates by their layer."""
    height = {}

    def height_of(name):
        if name not in height:
            height[name] = 1 + max(map(height_of, below[name]), default=-1)
        return height[name]

    for name in below:
        height_of(name)
    return [[it for it in below if height[it] == at] for at in range(1 + max(height.values()))]


def main():
    for at, names in enumerate(layers(gate_times.crates())):
        print(f"{at:2}  {' '.join(names)}")
    uncited = 0
    for name, below in gate_times.named_below().items():
        text = text_of(name)
        lacking = [it for it in below if not re.search(rf"\b{it}\b", text)]
        uncited += len(lacking)
        if lacking:
            print(f"{name} cites none of: {' '.join(lacking)}")
    return 1 if uncited else 0


if __name__ == "__main__":
    sys.exit(main())
