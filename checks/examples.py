#!/usr/bin/env python3
"""Performs the sessions of examples/, and compares what the program prints with what they show.

    checks/examples.py PROGRAM

A session is a file `session` in a folder of examples/: lines `$ c6x WORD ..`, each with the output and the error output
behind it. It runs in a copy of the folder.
"""
import os
import re
import shutil
import sys
import tempfile

from comparing import command, load, outcome, verdict

EXAMPLES = os.path.join(os.path.dirname(os.path.dirname(os.path.abspath(__file__))), "examples")


def steps(text):
    """The words of each command of a session, and what is printed behind it."""
    parts = re.split(r"^\$ c6x (.*)\n", text, flags=re.M)
    return zip(parts[1::2], parts[2::2])


def main():
    program, performed, different = command(sys.argv[1]), 0, 0
    for name in sorted(os.listdir(EXAMPLES)):
        session = load(os.path.join(EXAMPLES, name), "session")
        if session is None:
            continue
        with tempfile.TemporaryDirectory() as room:
            folder = shutil.copytree(os.path.join(EXAMPLES, name), os.path.join(room, name))
            for words, wanted in steps(session.decode()):
                _, out, err, _ = outcome(program, folder, words.split())
                performed += 1
                if out + err != wanted.encode():
                    different += 1
                    print(f"{name}: c6x {words}: {wanted!r} is wanted, and the program prints {out + err!r}")
    print(f"{performed} commands; " + verdict(different))
    sys.exit(different > 0)


main()
