#!/usr/bin/env python3
"""Gives random words to the built `c6x` and to a reference model, and compares status, what both print and what they store.

    checks/words.py MODEL PROGRAM [COUNT]

MODEL is a program, or a Python script, that takes the words of `c6x`; PROGRAM is the built `c6x`. The words are those of a
command, in any order, and in three of four cases some of them are repeated, left out, moved or spelled otherwise: values
behind `=`, options cut short, joined or unknown, dashes alone, empty words, numbers past their limits, words that are no
text. The files of examples/two are there, linked, so that what is read shows in what is printed. The cases are the same at
each run; the last line counts what the model answers.
"""
import os
import random
import shutil
import sys
import tempfile

from comparing import arguments, compared, outcome, summed, verdict

TOP = os.path.dirname(os.path.dirname(os.path.abspath(__file__)))
FILES = ["app.s", "app.lnk", "app.o", "app.out", "libq.out", "two.plan", "missing"]
KINDS = ["round", "last", "drawn", "other"]
NUMBERS = ["0", "1", "7", "0000000012", "4294967295"]
ODD_NUMBERS = ["4294967296", "9999999999", "00000000001", "+1", "-1", "1_0", "1 ", " 1", "0x1", "1.0", "", "\u0661", "one"]
ODD_KINDS = ["Round", "rou", "round ", "", "drawn,last", "none", "-", "--seed"]
ODD_WORDS = [
    "--help", "-h", "-help", "help", "--version", "-V", "version", "--", "-", "---", "", " ", "=", "-=", "--=", "--=1",
    "--policy=round", "--policy=", "--seed=1", "--seed=", "--turns=true", "--turns=", "-p", "-s", "-t", "-st", "--pol",
    "--see", "--turn", "--polic", "--Seed", "--TURNS", "--policies", "--seed ", " --seed", "-seed", "-turns", "--turns\t",
    "--no-turns", "--quantum", "-1", "--1", "\u2014seed", "\u2013\u2013turns", "run", "as", "ld", "map", "dis", "show", "ru",
    "Run", "asm", "c6x", "words", "policy", "seed", "turns",
]
NO_TEXT = [b"\xff", b"--seed\xff", b"app.s\xc3", b"\xc0\x80", b"\xed\xa0\x80", b"--turns\x80", b"round\xff", b"1\xfe"]


def options(rng):
    """The options of `run`, each at most once, each with its value behind it."""
    found = []
    if rng.random() < 0.5:
        found.append(["--policy", rng.choice(KINDS)])
    if rng.random() < 0.5:
        found.append(["--seed", rng.choice(NUMBERS)])
    if rng.random() < 0.5:
        found.append(["--turns"])
    return found


def spelled(rng):
    """The words of a command."""
    verb = rng.choice(["as", "ld", "dis", "show", "map", "run", "run", "run", "run", "run"])
    if verb == "run":
        parts = options(rng) + [[rng.choice(["two.plan", "two.plan", "missing"])]]
        rng.shuffle(parts)
        return ["run"] + [word for part in parts for word in part]
    return [verb, rng.choice(FILES)] + (["made"] if verb in ("as", "ld") else [])


def odd_word(rng):
    return rng.choice([
        lambda: rng.choice(ODD_WORDS), lambda: rng.choice(ODD_KINDS), lambda: rng.choice(ODD_NUMBERS), lambda: rng.choice(KINDS),
        lambda: rng.choice(NUMBERS), lambda: rng.choice(FILES), lambda: rng.choice(["--policy", "--seed", "--turns"]),
        lambda: rng.choice(NO_TEXT),
    ])()


def changed(rng, words):
    """The words with one change."""
    words, way = list(words), rng.randrange(7)
    at = rng.randrange(len(words)) if words else 0
    if way == 0 or not words:
        words.insert(rng.randint(0, len(words)), odd_word(rng))
    elif way == 1:
        words[at] = odd_word(rng)
    elif way == 2:
        del words[at]
    elif way == 3:
        words.insert(rng.randint(0, len(words)), words[at])
    elif way == 4:
        words.insert(rng.randint(0, len(words) - 1), words.pop(at))
    elif way == 5:
        words[at:at] = [word for part in options(rng) for word in part]
    else:
        rng.shuffle(words)
    return words


def case(number):
    rng = random.Random(number)
    words = spelled(rng)
    for _ in range(rng.choice([0, 1, 1, 2])):
        words = changed(rng, words)
    return [word if isinstance(word, bytes) else word.encode() for word in words]


def linked(program, folder):
    """Stores the files of examples/two there, assembled and linked."""
    for file in os.listdir(f"{TOP}/examples/two"):
        shutil.copy(f"{TOP}/examples/two/{file}", folder)
    for name in ("app", "libq"):
        for words in (["as", f"{name}.s", f"{name}.o"], ["ld", f"{name}.lnk", f"{name}.out"]):
            if outcome(program, folder, words)[0] != 0:
                sys.exit(f"the program does not perform {' '.join(words)}")


def ended(program, files, words):
    """Status, both outputs, and every file that is there then, over a copy of the files."""
    with tempfile.TemporaryDirectory() as folder:
        shutil.copytree(files, folder, dirs_exist_ok=True)
        done = outcome(program, folder, words)[:3]
        stored = {}
        for name in sorted(os.listdir(os.fsencode(folder))):
            with open(os.path.join(os.fsencode(folder), name), "rb") as file:
                stored[name] = file.read()
    return done + (stored,)


def told(number, wanted, got):
    print(f"case {number}: {case(number)}\nwanted {wanted[:3]}\ngot    {got[:3]}")


def main():
    model, program, count, _ = arguments("words", 5000)
    with tempfile.TemporaryDirectory() as files:
        linked(program, files)

        def one(number):
            words = case(number)
            wanted, got = ended(model, files, words), ended(program, files, words)
            return wanted[0] == 2, wanted, got

        rules, different, faulty = compared(one, count, told)
    print(summed("lists of words", count, rules, different, faulty))
    return 1 if different else 0


if __name__ == "__main__":
    sys.exit(main())
