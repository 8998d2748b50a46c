#!/usr/bin/env python3
"""Runs small random programs of one process with the built `c6x` and with a reference model, and compares what they print.

    checks/run.py MODEL PROGRAM [COUNT [FIRST]]

MODEL is a program, or a Python script, that takes the words of `c6x`; PROGRAM is the built `c6x`. The programs are of
the whole instruction table, in packets of up to eight words, with conditions, loads and stores near the ends of the
areas, both gates, and words that spell nothing. Every hundredth puts its output full. The programs are the same at each
run. The last line but one counts how they end.
"""
import random
import struct
import sys
import tempfile

from comparing import arguments, counts, outcome, store, tallied, verdict

TEXT, DATA = 0x00010000, 0x00012000
BOARD = 0x80000000
EXIT_GATE, PUT_GATE = 0xFFFFFF00, 0xFFFFFF20
SIDE_B = 2
STACK = 64

# The codes of an operation with a register and with a constant as its first operand, by unit.
CODES = {
    "L": [(0x03, 0x02), (0x07, 0x06), (0x7B, 0x7A), (0x7F, 0x7E), (0x6F, 0x6E), (0x53, 0x52), (0x47, 0x46), (0x57, 0x56), (0x4F, None), (0x5F, None)],
    "S": [(0x07, 0x06), (0x17, 0x16), (0x1F, 0x1E), (0x1B, 0x1A), (0x0B, 0x0A), (0x33, 0x32), (0x37, 0x36), (0x27, 0x26)],
    "D": [(0x10, 0x12), (0x11, 0x13)],
    "M": [(0x19, 0x18), (0x1F, None)],
}
# The place of the code, and the fixed bits below it.
FORMS = {"L": (5, 0b110 << 2), "S": (6, 0b1000 << 2), "D": (7, 0b10000 << 2), "M": (7, 0)}
MODES = [0, 1, 4, 5, 8, 9, 10, 11, 12, 13, 14, 15]


def mvk(side, constant, register):
    return register << 23 | (constant & 0xFFFF) << 7 | 0x28 | side


def mvkh(side, constant, register):
    return register << 23 | (constant & 0xFFFF) << 7 | 0x68 | side


def addk(side, constant, register):
    return register << 23 | (constant & 0xFFFF) << 7 | 0x50 | side


def nop(cycles):
    return (cycles - 1) << 13


def branch(cross, source):
    return source << 18 | cross << 12 | 0x362


def branch_nop(cross, source, wait):
    return 1 << 23 | source << 18 | wait << 13 | cross << 12 | 0x362


def branch_to(side, words):
    return (words & 0x1FFFFF) << 7 | 0x10 | side


def callp(side, words):
    return 1 << 28 | branch_to(side, words)


def branch_nop_to(side, words, wait):
    return (words & 0xFFF) << 16 | wait << 13 | 0x120 | side


def addkpc(words, wait, register):
    return register << 23 | (words & 0x7F) << 16 | wait << 13 | 0x160 | SIDE_B


def two(unit, code, side, cross, first, second, register):
    at, fixed = FORMS[unit]
    return register << 23 | second << 18 | first << 13 | cross << 12 | code << at | fixed | side


def short(op, unit_side, side, mode, offset, base, register):
    return register << 23 | base << 18 | offset << 13 | mode << 9 | (unit_side >> 1) << 7 | op << 4 | 0x4 | side


def long(op, side, base15, offset, register):
    return register << 23 | offset << 8 | base15 << 7 | op << 4 | 0xC | side


def module(words, data=bytes(4)):
    """The executable of these code words: the code, an empty symbol table, and data whose first word is for the DSBT."""
    code = b"".join(struct.pack("<I", word) for word in words)
    at = TEXT + len(code)
    dynamic = [(4, at), (5, at + 32), (6, at + 16), (10, 1), (11, 16), (0x70000000, DATA), (0x70000001, 1), (0x70000003, 0), (0, 0)]
    text = code + struct.pack("<4I", 1, 1, 0, 0) + bytes(16) + bytes(4)
    table = len(text)
    text += b"".join(struct.pack("<2I", *entry) for entry in dynamic)
    text_at = 0xA0
    data_at = (text_at + len(text) + 7) // 8 * 8
    header = b"\x7fELF\x01\x01\x01" + bytes(9)
    header += struct.pack("<2H5I6H", 2, 140, 1, TEXT, 52, 0, 0, 52, 32, 3, 0, 0, 0)
    header += struct.pack("<8I", 1, text_at, TEXT, TEXT, len(text), len(text), 5, 32)
    header += struct.pack("<8I", 1, data_at, DATA, DATA, len(data), len(data), 6, 8)
    header += struct.pack("<8I", 2, text_at + table, TEXT + table, TEXT + table, 72, 72, 4, 4)
    file = header.ljust(text_at, b"\0") + text
    return file.ljust(data_at, b"\0") + data


def places(words, data):
    """Where the text, the data and the stack of such a process stand, and where the stack ends."""
    text_end = BOARD + 4 * words + 16 + 16 + 4 + 72
    data_at = (text_end + 7) // 8 * 8
    stack = (data_at + data + 7) // 8 * 8
    return BOARD, data_at, stack, stack + STACK


def register(rng):
    return rng.choice([3, 4, 5, 6, 7, 8, 9, 10, 16, 20, rng.randrange(32)])


def plain_word(rng, conditional=True):
    """A word of some row, without its p bit, and now and then one that no row spells."""
    side = rng.choice([0, SIDE_B])
    condition = rng.choice([0] * 6 + [creg << 29 | zero << 28 for creg in range(1, 7) for zero in (0, 1)]) if conditional and rng.random() < 0.35 else 0
    kind = rng.randrange(100)
    if kind < 26:
        unit = rng.choice("LSDM")
        code, constant = rng.choice(CODES[unit])
        cross = 0 if unit == "D" else int(rng.random() < 0.2)
        if constant is not None and rng.random() < 0.5:
            return condition | two(unit, constant, side, cross, rng.randrange(32), register(rng), register(rng))
        return condition | two(unit, code, side, cross, register(rng), register(rng), register(rng))
    if kind < 38:
        move = rng.choice([mvk, mvkh, addk])
        return condition | move(side, rng.choice([rng.randrange(0x10000), rng.randrange(64), 0xFFFF]), register(rng))
    if kind < 64:
        mode = rng.choice(MODES)
        offset = rng.choice([20, 21]) if mode & 4 else rng.choice([0, 0, 1, 1, 2, 3])
        return condition | short(rng.randrange(8), rng.choice([0, SIDE_B]), side, mode, offset, rng.choice([10, 10, 11, 14, 15]), register(rng))
    if kind < 70:
        return condition | long(rng.randrange(8), side, rng.randrange(2), rng.choice([0, 1, 2, 3, 15, 16]), register(rng))
    if kind < 74:
        return condition | branch_to(side, rng.randrange(24))
    if kind < 76:
        return callp(side, rng.randrange(24))
    if kind < 79:
        return condition | branch_nop_to(side, rng.randrange(24), rng.randrange(8))
    if kind < 83:
        return condition | branch(int(rng.random() < 0.3), rng.choice([3, 3, 16]))
    if kind < 88:
        return condition | branch_nop(int(rng.random() < 0.3), rng.choice([3, 3, 16]), rng.randrange(8))
    if kind < 90:
        return condition | addkpc(rng.randrange(128), rng.randrange(8), register(rng))
    if kind < 99:
        return nop(rng.choice([1, 1, 2, 3, 4, 9]))
    return rng.choice([7 << 29 | rng.randrange(1 << 29), rng.randrange(1 << 32)]) & ~1


def uses(word):
    """The unit of a word, and the side that it loads or stores, by the fixed bits alone."""
    low = word >> 2 & 0x3FF
    side = word >> 1 & 1
    if low & 7 == 0b110:
        return ("L", side), None
    if low & 3 == 0b01:
        return ("D", word >> 7 & 1), side
    if low & 3 == 0b11:
        return ("D", 1), side
    if low & 31 == 0b10000:
        return ("D", side), None
    if low & 31 == 0 and word & 0x0FFE0FFE != 0 and word >> 7 & 31:
        return ("M", side), None
    if word & 0xFFFE1FFE == 0:
        return None, None
    return ("S", side), None


def packet(rng, count):
    """Words of one packet. Mostly no two of them use one unit, or load or store values of one side."""
    chosen, units, sides = [], set(), set()
    careless = rng.random() < 0.03
    while len(chosen) < count:
        word = plain_word(rng)
        unit, side = uses(word)
        if not careless and (unit in units or side in sides):
            word, unit, side = nop(1), None, None
        chosen.append(word)
        units.update([unit] if unit else [])
        sides.update([side] if side is not None else [])
    return [word | 1 for word in chosen[:-1]] + [chosen[-1]]


def opening(rng, at, data, end):
    """Words that set up the registers: addresses near the ends of the data and of the stack, offsets, and gates."""
    near = [at, at + 4, at + data - 4, at + data - 2, at + data - 1, end - 4, end - 1, at - 4, BOARD, BOARD + 8]
    words = []
    for side in (0, SIDE_B):
        for place in (10, 11):
            address = rng.choice(near[:2] * 6 + near)
            words += [mvk(side, address, place), mvkh(side, address >> 16, place)]
        words += [mvk(side, rng.randrange(4), 20), mvk(side, rng.choice([0, 1, 0xFFFF]), 21)]
        where = rng.choice([BOARD + 4 * rng.randrange(32), PUT_GATE, BOARD + 2])
        words += [mvk(side, where, 16), mvkh(side, where >> 16, 16)]
    if rng.random() < 0.4:
        back = rng.choice([PUT_GATE, PUT_GATE, BOARD + 4 * rng.randrange(32)])
        words += [mvk(SIDE_B, back, 3), mvkh(SIDE_B, back >> 16, 3)]
    return words


def filling(number):
    """A process that puts bytes until its output is full, and then once more."""
    words = [mvk(0, number, 4), mvk(SIDE_B, PUT_GATE, 3), mvkh(SIDE_B, PUT_GATE >> 16, 3), branch_nop(0, 3, 5)]
    limit = 200_000 if number % 200 else 65_545
    return module(words), f"c6x-plan 1\nquantum 10\nmodule app app.out\nprocess p app limit {limit} stack {STACK} arg 0\n", words


def case(number):
    """A module and a plan."""
    if number % 100 == 99:
        return filling(number)
    rng = random.Random(number)
    data = bytes(rng.randrange(256) for _ in range(rng.choice([4, 16, 40, 64])))
    body = []
    while len(body) < rng.randrange(4, 40):
        body += packet(rng, 9 if rng.random() < 0.01 else rng.choice([1, 1, 1, 2, 2, 3, 4, 6, 8]))
    size = 0
    for _ in range(2):
        at, end = places(size, len(data))[1], places(size, len(data))[3]
        words = opening(random.Random(number + 1), at, len(data), end) + body + [branch_nop(0, 3, 5)]
        size = len(words)
    arg = rng.choice([BOARD + 4 * rng.randrange(len(words)), EXIT_GATE, rng.randrange(1 << 32), rng.randrange(256)])
    limit = rng.choice([rng.randrange(1, 60), rng.randrange(20, 200), 1000])
    plan = f"c6x-plan 1\nquantum 10\nmodule app app.out\nprocess p app limit {limit} stack {STACK} arg {arg}\n"
    return module(words, data), plan, words


def main():
    model, program, count, rest = arguments("run", 5000)
    first = int(rest[0]) if rest else 0

    def one(number):
        file, plan, words = case(number)
        with tempfile.TemporaryDirectory() as folder:
            store(folder, "app.out", file)
            store(folder, "one.plan", plan.encode())
            wanted, got = outcome(model, folder, ["run", "one.plan"]), outcome(program, folder, ["run", "one.plan"])
        spelled = " ".join("%08x" % word for word in words)
        return wanted[1], None if wanted == got else f"program {number}: {spelled}\n{plan}wanted {wanted}\ngot    {got}"

    ends, different = tallied(one, range(first, first + count))
    print(f"{count} programs, " + verdict(different))
    print("ends:", counts(ends))
    return 1 if different else 0


if __name__ == "__main__":
    sys.exit(main())
