#!/usr/bin/env python3
"""Compares decode, encode, effects, write_of_load, show and split with a reference model.

Words are random, near-valid, or drawn for a unit; chains are mostly of words whose units and sides are free, so
that long packets and each rule of a packet are met often.

Usage: checks/isa.py MODEL [COUNT [SEED]]

MODEL is the folder of the model's `isa.py`, which has `decode`, `encode`, `effects`, `show` and `split`. COUNT is
how many words to try, at least 200,000 if it is not given. The program `c6x_probe` has to be built first:
`rt run` in crates/c6x_probe.
"""
import random
import subprocess
import sys
from collections import Counter
from pathlib import Path

ROOT = Path(__file__).resolve().parent.parent
PROGRAM = ROOT / "crates" / "c6x_probe" / "out" / "c6x_probe"
MASK = 0xFFFFFFFF
# The lengths of packets and the rules that a chain can break, by the names that the program prints.
ANSWERS = [f"{n} words" for n in range(1, 9)] + ["BadWord", "TooLong", "UnitTwice", "SameSide", "CrossTwice"]


def truth(value):
    return "true" if value else "false"


def name(word):
    """A mnemonic as the program prints it: `CMPEQ` is `CmpEq`."""
    if word.startswith("CMP"):
        return "Cmp" + word[3:].capitalize()
    return word.capitalize()


def show_op(op):
    kind = type(op).__name__
    if kind == "Two":
        first = f"{'Constant' if op.constant else 'Register'}({op.first})"
        return (f"Two {{ unit: {op.unit}, arith: {name(op.arith)}, side: {op.side}, cross: {truth(op.cross)}, "
                f"first: {first}, second: {op.second}, dst: {op.dst} }}")
    parts = []
    for field, value in vars(op).items():
        if field in ("kind", "access"):
            value = name(value)
        elif isinstance(value, bool):
            value = truth(value)
        parts.append(f"{field}: {value}")
    return f"{kind} {{ {', '.join(parts)} }}"


def show_instr(i):
    condition = "Always"
    if i.condition is not None:
        condition = f"If {{ register: {i.condition[0]}, zero: {truth(i.condition[1])} }}"
    return f"Instr {{ condition: {condition}, op: {show_op(i.op)}, chained: {truth(i.chained)} }}"


def show_write(w):
    if w is None:
        return "None"
    return f"Some(Write {{ side: {w.side}, register: {w.register}, value: {w.value}, delay: {w.delay} }})"


def show_access(m):
    if m is None:
        return "None"
    job = m.job
    if type(job).__name__ == "Load":
        text = f"Load {{ signed: {truth(job.signed)}, side: {job.side}, register: {job.register} }}"
    else:
        text = f"Store {{ value: {job.value} }}"
    return f"Some(MemOp {{ address: {m.address}, size: {m.size}, job: {text} }})"


def show_effects(e):
    target = "None" if e.target is None else f"Some({e.target})"
    return (f"Effects {{ result: {show_write(e.result)}, update: {show_write(e.update)}, "
            f"access: {show_access(e.access)}, target: {target}, wait: {e.wait} }}")


def write_of_load(model, access, number):
    """What a load writes where it read the low bytes of a number: the number with its sign, four slots later."""
    if access is None or type(access.job).__name__ != "Load":
        return None
    bits = 8 * access.size
    read = number % (1 << bits)
    if access.job.signed and read >> (bits - 1):
        read += (1 << 32) - (1 << bits)
    return model.Write(access.job.side, access.job.register, read, 4)


def drawn(seed):
    """The registers that the program draws from a seed."""
    regs, x = [0] * 64, seed
    for n in range(64):
        x = (x * 1664525 + 1013904223) & MASK
        if x >> 30:
            regs[n] = x
    return regs


def near_valid(rng):
    """A word with the fixed bits of some form, and up to two bits of it changed."""
    w = rng.getrandbits(32)
    form = rng.randrange(12)
    if form == 0:
        w = w & ~0x1C | 0b110 << 2
    elif form == 1:
        w = w & ~0x3C | 0b1000 << 2
    elif form == 2:
        w = w & ~0x7C | 0b10000 << 2
        w = w & ~0x1F80 | rng.choice((0x10, 0x11, 0x12, 0x13)) << 7
    elif form == 3:
        w = w & ~0xFFC | rng.choice((0x18, 0x19, 0x1F)) << 7
    elif form == 4:
        w = w & ~0x7C | rng.choice((0b01010, 0b11010, 0b10100, 0b00100)) << 2
    elif form == 5:
        w = w & ~0xF800_0FFE & ~0x3E000 | 0b0011011000 << 2 | 2
    elif form == 6:
        w = w & ~0x0F83_0FFE | 1 << 23 | 0b0011011000 << 2 | 2
    elif form == 7:
        w = w & ~0x1FFC | rng.choice((0b00001001000, 0b00001011000)) << 2 | rng.choice((0, 2))
    elif form == 8:
        w = rng.randrange(10) << 13 | w & 1
    elif form == 9:
        w = w & ~0x10C | 0b01 << 2
    elif form == 10:
        w = w & ~0xC | 0b11 << 2
    if rng.random() < 0.5:
        w &= ~(0xF << 28)
    for _ in range(rng.choice((0, 0, 0, 1, 2))):
        w ^= 1 << rng.randrange(32)
    return w & MASK


class Unit:
    """The words of one unit of one side: all, those that get in the way of no other unit, and the others."""

    def __init__(self):
        self.words, self.quiet, self.loud = [], [], []


def by_unit(model, spelled):
    """The spelled words under their units; a NOP, which has none, stands under a name of its own."""
    units = {}
    for word in spelled:
        op = model.decode(word).op
        name = model.unit_of(op) or ("NOP", "")
        unit = units.setdefault(name, Unit())
        unit.words.append(word)
        crossed = model.cross_read(op) is not None
        away = getattr(op, "value_side", name[1]) != name[1]
        (unit.loud if crossed or away else unit.quiet).append(word)
    return [units[name] for name in sorted(units)]


def chain(rng, units):
    """One to eight words of units that differ, with the p bits of a chain; in every other one a fault is sought."""
    fault = rng.randrange(12)
    loudness = 0.7 if fault >= 10 else 0.05
    words = []
    for unit in rng.sample(units, rng.randint(1, min(8, len(units)))):
        words.append(rng.choice(unit.loud if unit.loud and rng.random() < loudness else unit.quiet or unit.words))
    place = rng.randrange(len(words))
    if fault == 0:
        words[place] = rng.getrandbits(32) | 0xE000_0000
    elif fault == 1:
        words[place] = rng.choice(rng.choice(units).words)
    elif fault == 2:
        for n in range(len(words), 8):
            words.append(rng.choice(rng.choice(units).words))
    elif fault == 3:
        for n in range(len(words)):
            words[n] = rng.choice(rng.choice(units).words)
    words = [word | 1 for word in words]
    if len(words) < 8 or rng.random() < 0.8:
        words[-1] &= ~1
    return words


def expected_split(model, words, met):
    """The answer for a chain; `met` counts how often a length and a rule were the answer."""
    try:
        length = len(model.split(words))
        met[f"{length} words"] += 1
        return str(length)
    except model.PacketRefusal as refusal:
        met[refusal.name] += 1
        if refusal.place is None:
            return refusal.name
        return f"{refusal.name} {{ place: {refusal.place} }}"


def main():
    if len(sys.argv) < 2:
        print("checks/isa.py: no model is given, so nothing is compared")
        return 0
    if not PROGRAM.exists():
        print(f"checks/isa.py: {PROGRAM} is not built: `rt run` in crates/c6x_probe builds it")
        return 1
    sys.path.insert(0, sys.argv[1])
    import isa as model

    count = int(sys.argv[2]) if len(sys.argv) > 2 else 240_000
    rng = random.Random(int(sys.argv[3]) if len(sys.argv) > 3 else 1)
    lines, expected, spelled = [], [], []
    for n in range(count):
        word = rng.getrandbits(32) if n % 4 == 0 else near_valid(rng)
        at, seed = rng.getrandbits(30) << 2, rng.getrandbits(32)
        lines.append(f"word {word:x} {at:x} {seed:x}")
        instr = model.decode(word)
        if instr is None:
            expected.append("none")
            continue
        spelled.append(word)
        done = model.effects(instr, at, (at + 4) & MASK, drawn(seed))
        loaded = show_write(write_of_load(model, done.access, seed))
        expected.append(f"{model.encode(instr):08x} {show_instr(instr)} {show_effects(done)} {loaded}")
    for word in spelled:
        lines.append(f"show {word:x}")
        expected.append(model.show(model.decode(word)))
    units, met = by_unit(model, spelled), Counter()
    for _ in range(count // 8):
        words = chain(rng, units)
        lines.append("split " + " ".join(f"{w:x}" for w in words))
        expected.append(expected_split(model, words, met))
    run = subprocess.run([PROGRAM], input="\n".join(lines) + "\n", capture_output=True, text=True, check=True)
    answers = run.stdout.splitlines()
    different = [n for n in range(len(lines)) if n >= len(answers) or answers[n] != expected[n]]
    for n in different[:10]:
        print(f"{lines[n]}\n  program: {answers[n] if n < len(answers) else 'nothing'}\n  model:   {expected[n]}")
    if different or len(answers) != len(lines):
        print(f"{len(different)} of {len(lines)} answers differ")
        return 1
    rare = [answer for answer in ANSWERS if met[answer] * 500 < count // 8]
    if rare:
        print(f"too few chains have the answer {', '.join(rare)}: {dict(met)}")
        return 1
    print(f"{count} words, of which {len(spelled)} were spelled, and {count // 8} chains: no difference")
    print("chains: " + ", ".join(f"{answer} {met[answer]}" for answer in ANSWERS))
    return 0


if __name__ == "__main__":
    sys.exit(main())
