#!/usr/bin/env python3
"""Assembles random texts with the built `c6x` and with a reference model, and compares status, line and stored bytes.

    checks/asm.py MODEL PROGRAM [COUNT [AS OBJCOPY]]

MODEL is a program, or a Python script, that takes the words of `c6x`; PROGRAM is the built `c6x`. Half of the texts
have one fault. The texts are the same at each run. Where a tic6x `as` and `objcopy` are given or on the path, the words
of 10,000 instructions are also compared with gas.
"""
import os
import random
import struct
import subprocess
import sys
import tempfile

from comparing import arguments, compared, outcome, store, summed, tools, verdict

ARITHMETIC = {
    "L": ["ADD", "SUB", "AND", "OR", "XOR", "CMPEQ", "CMPGT", "CMPLT", "CMPGTU", "CMPLTU"],
    "S": ["ADD", "SUB", "AND", "OR", "XOR", "SHL", "SHR", "SHRU"],
    "D": ["ADD", "SUB"],
    "M": ["MPY", "MPYU"],
}
NO_CONSTANT = {"CMPGTU", "CMPLTU", "MPYU"}
SHIFTS = {"SHL", "SHR", "SHRU"}
SIZES = {"LDHU": 2, "LDBU": 1, "LDB": 1, "STB": 1, "LDH": 2, "STH": 2, "LDW": 4, "STW": 4}
CONDITIONS = ["B0", "B1", "B2", "A1", "A2", "A0"]
SHORT = ["*{r}", "*+{r}[{o}]", "*-{r}[{o}]", "*++{r}[{o}]", "*--{r}[{o}]", "*{r}++[{o}]", "*{r}--[{o}]", "*++{r}", "*--{r}", "*{r}++", "*{r}--"]
NAMES = ["f0", "f1", "f2", "data", "x.y", "$a", "_b", "A32", "count", "MVK", "n" * 64, "far_name"]
SECTIONS = [".text", ".text.a", ".const", ".const.c", ".bss", ".far", ".far.x", ".neardata", ".data", "odd-name", "A4", ".textual"]
SIXTEEN = [
    "abs_s16", "abs_l16", "sbr_s16", "sbr_l16_b", "sbr_l16_h", "sbr_l16_w", "sbr_got_l16_w",
    "abs_h16", "sbr_h16_b", "sbr_h16_h", "sbr_h16_w", "sbr_got_h16_w",
]
LONG = ["sbr_u15_b", "sbr_u15_h", "sbr_u15_w", "sbr_got_u15_w"]
NEVER_KINDS = ["none", "abs16", "abs8", "align", "fphead", "nocmp", "ABS_S16", "nothing"]


def register(rng, side):
    return side + str(rng.randrange(32))


def other(side):
    return "B" if side == "A" else "A"


def digit(side):
    return "2" if side == "B" else "1"


def number(rng, low, high):
    """A number of the range, often at one of its ends, in decimal or hexadecimal."""
    value = rng.choice([low, high, rng.randint(low, high), rng.randint(low, high)])
    sign = "-" if value < 0 else ""
    return sign + (hex(abs(value)) if rng.randrange(3) == 0 else str(abs(value)))


def expression(rng):
    name = rng.choice(NAMES)
    return name + rng.choice(["", "", "+" + number(rng, 0, 0x7FFFFFFF), "-" + number(rng, 0, 0x80000000), "+-4", "--4"])


def constant(rng, low, high, kinds):
    """A number, an expression of the default kind, or one of a named kind."""
    draw = rng.randrange(5)
    if draw < 3:
        return number(rng, low, high)
    return expression(rng) if draw == 3 else f"%{rng.choice(kinds)}({expression(rng)})"


def arithmetic(rng):
    unit = rng.choice("LSDM")
    name, side, cross = rng.choice(ARITHMETIC[unit]), rng.choice("AB"), rng.randrange(2)
    if unit == "D":
        cross = 0
    swapped = unit == "D" or name in SHIFTS
    second = register(rng, other(side) if cross else side)
    if name in NO_CONSTANT or rng.randrange(2):
        first = register(rng, side)
    else:
        first = number(rng, 0, 31) if swapped else number(rng, -16, 15)
    sources = (second, first) if swapped else (first, second)
    return name, f".{unit}{digit(side)}{'X' if cross else ''}", [*sources, register(rng, side)]


def move(rng, symbols):
    name, side = rng.choice(["MVK", "MVKH", "ADDK"]), rng.choice("AB")
    low, high = (0, 65535) if name == "MVKH" else (-32768, 32767)
    value = number(rng, low, high) if name == "ADDK" or not symbols else constant(rng, low, high, SIXTEEN)
    return name, f".S{digit(side)}", [value, register(rng, side)]


def branch(rng, symbols):
    name = rng.choice(["B", "BNOP", "CALLP", "ADDKPC"] if symbols else ["B", "BNOP"])
    if name == "CALLP":
        side = rng.choice("AB")
        return name, f".S{digit(side)}", [constant(rng, -(1 << 20), (1 << 20) - 1, ["pcr_s21"]), side + "3"]
    if name == "ADDKPC":
        return name, ".S2", [constant(rng, -64, 63, ["pcr_s7"]), register(rng, "B"), number(rng, 0, 7)]
    wait = [number(rng, 0, 7)] if name == "BNOP" else []
    if not symbols or rng.randrange(2):
        cross = rng.randrange(2)
        return name, ".S2" + "X" * cross, [register(rng, "A" if cross else "B"), *wait]
    bits, kind = (21, "pcr_s21") if name == "B" else (12, "pcr_s12")
    return name, rng.choice([".S1", ".S2"]), [constant(rng, -(1 << bits - 1), (1 << bits - 1) - 1, [kind]), *wait]


def memory(rng, symbols):
    name, side, path = rng.choice(sorted(SIZES)), rng.choice("AB"), rng.choice("AB")
    if symbols and rng.randrange(3) == 0:
        side, size = "B", SIZES[name]
        inner = rng.choice([number(rng, 0, 32767), "%dsbt_index", constant(rng, 0, 0, LONG)])
        if inner[0].isdigit():
            inner = str(size * int(inner, 0))
        address = f"*+{rng.choice(['B14', 'B15'])}({inner})"
    else:
        offset = number(rng, 0, 31) if rng.randrange(2) else register(rng, side)
        address = rng.choice(SHORT).format(r=register(rng, side), o=offset)
    operands = [address, register(rng, path)]
    return name, f".D{digit(side)}T{digit(path)}", operands[::-1] if name.startswith("ST") else operands


def instruction(rng, symbols=True):
    """The parts of an instruction: condition, mnemonic, unit, operands."""
    draw = rng.randrange(10)
    if draw == 0:
        return "", "NOP", "", [number(rng, 1, 9)] if rng.randrange(3) else []
    name, unit, operands = (
        arithmetic(rng) if draw < 5 else move(rng, symbols) if draw < 7 else branch(rng, symbols) if draw < 8 else memory(rng, symbols)
    )
    condition = ""
    if name != "CALLP" and rng.randrange(5) == 0:
        condition = f"[{rng.choice(['', '!'])}{rng.choice(CONDITIONS)}]"
    return condition, name, unit, operands


def cased(rng, word):
    return word.lower() if rng.randrange(3) == 0 else word


def spelled(rng, parts, parallel=False):
    """An instruction's line, with blanks where they may stand."""
    condition, name, unit, operands = parts
    blank = lambda: rng.choice(["", "", " ", "\t"])
    words = ["||"] if parallel else []
    words += [cased(rng, w) for w in (condition, name, unit) if w]
    return " ".join(words) + " " + (blank() + "," + blank()).join(operands)


def numbers(rng, bits, symbols):
    low, high = -(1 << bits - 1), (1 << bits) - 1
    items = []
    for _ in range(rng.randrange(1, 4)):
        if symbols and rng.randrange(3) == 0:
            items.append(rng.choice([expression(rng), f"%{rng.choice(['abs32', 'jump_slot'])}({expression(rng)})"]))
        else:
            items.append(number(rng, low, high))
    return ",".join(items)


class Text:
    """The lines of a text that breaks no rule: what stands in the sections so far is followed."""

    def __init__(self, rng):
        self.rng, self.lines, self.sizes, self.now, self.placed = rng, [], {}, None, set()

    def put(self, line):
        rng = self.rng
        self.lines.append(rng.choice(["", " ", "\t", "        "]) + line + rng.choice(["", "", " ", " ; a comment, \"this\" too"]))

    def grow(self, count):
        self.sizes[self.now] += count

    def is_zero(self):
        return any(self.now == name or self.now.startswith(name + ".") for name in (".bss", ".far"))

    def fresh(self):
        names = [name for name in NAMES if name not in self.placed]
        if not names:
            return None
        name = self.rng.choice(names)
        self.placed.add(name)
        return name

    def section(self):
        self.now = self.rng.choice(SECTIONS)
        self.sizes.setdefault(self.now, 0)
        self.put(f'.sect "{self.now}"')

    def packet(self):
        rng = self.rng
        if self.sizes[self.now] % 4:
            self.put(f".align {rng.choice([4, 8, 32])}")
            self.sizes[self.now] += -self.sizes[self.now] % 32
            self.put(".align 32")
        self.put(spelled(rng, instruction(rng)))
        self.grow(4)
        if rng.randrange(4) == 0:
            self.lines[-1] = self.lines[-1].split(";")[0]
            side = rng.choice("AB")
            self.lines[-1] = f" ADD .L{digit(side)} {register(rng, side)},{register(rng, side)},{register(rng, side)}"
            for unit in rng.sample(["S", "D", "M"], rng.randrange(1, 4)):
                name = {"S": "SUB", "D": "SUB", "M": "MPY"}[unit]
                one = rng.choice("AB")
                operands = [register(rng, one) for _ in range(3)]
                self.put(spelled(rng, ("", name, f".{unit}{digit(one)}", operands), True))
                self.grow(4)

    def data(self):
        rng, draw = self.rng, self.rng.randrange(5)
        if draw < 3:
            word, bits = [(".word", 32), (".half", 16), (".byte", 8)][draw]
            if not self.is_zero():
                items = numbers(rng, bits, draw == 0)
                self.put(f"{word} {items}")
                self.grow(bits // 8 * (items.count(",") + 1))
        elif draw == 3:
            count = rng.choice([0, 1, 2, 4, 100, 4096])
            self.put(f".space {count}")
            self.grow(count)
        else:
            align = 1 << rng.randrange(13)
            self.put(f".align {align}")
            self.sizes[self.now] += -self.sizes[self.now] % align

    def declaration(self):
        rng, draw = self.rng, self.rng.randrange(6)
        if draw < 3:
            self.put(f"{['.global', '.weak', '.hidden'][draw]} {rng.choice(NAMES)}")
            return
        name = self.fresh()
        if name is None:
            return
        if draw < 5:
            word = [".common", ".nearcommon"][draw - 3]
            self.put(f"{word} {name},{number(rng, 0, 0xFFFFFFFF)},{number(rng, 0, 0xFFFFFFFF)}")
        else:
            self.put(f".set {name},{number(rng, -0x80000000, 0xFFFFFFFF)}")

    def line(self):
        draw = self.rng.randrange(12)
        if self.now is None or draw == 0:
            self.section()
        elif draw == 1:
            name = self.fresh()
            if name:
                self.put(f"{name}:")
        elif draw == 2:
            self.declaration()
        elif draw < 5 or self.is_zero():
            self.data()
        elif draw == 5:
            self.lines.append(self.rng.choice(["", "  ; only a comment", "\t"]))
        else:
            self.packet()


FAULTS = [
    lambda r: "\x80",
    lambda r: "{",
    lambda r: 'MVK .S1 1,A4 "open',
    lambda r: "MVK .S1 5 A4",
    lambda r: "MVK .S1 5,",
    lambda r: "MVK .L1 5,A4",
    lambda r: "MVK .S1X 5,A4",
    lambda r: "LDW .D1 *A4,A5",
    lambda r: "[A3] MVK .S1 5,A4",
    lambda r: "[A1] NOP",
    lambda r: "FOO",
    lambda r: ".sect \"\"",
    lambda r: f'.sect "{"n" * 65}"',
    lambda r: f'{"n" * 65}:',
    lambda r: "A4:",
    lambda r: "LDW .D1T1 *+A4,A5",
    lambda r: "LDW .D1T1 *-A4(4),A5",
    lambda r: "LDW .D2T1 *+B14(%dsbt_index(x)),A5",
    lambda r: "FOO .S1 1,A4",
    lambda r: ".foo 1",
    lambda r: "MVK .S3 1,A4",
    lambda r: f"MVK .S1 %{r.choice(NEVER_KINDS)}(x),A4",
    lambda r: "LDW .D1X *A4,A5",
    lambda r: "MVK .S1 5,B4",
    lambda r: "MVK .S1 A5,A4",
    lambda r: "MVK .S1 %pcr_s7(x),A4",
    lambda r: "CALLP .S1 f0,B3",
    lambda r: "BNOP .S1 B3,5",
    lambda r: "ADD .L1 A1,5,A2",
    lambda r: "LDW .D1T1 *+A4(0),A5",
    lambda r: "LDW .D1T1 *+A4[B5],A5",
    lambda r: "ADDK .S1 x,A4",
    lambda r: ".half x",
    lambda r: ".sect foo",
    lambda r: ".global a+4",
    lambda r: "NOP .S1",
    lambda r: "MVK .S1 32768,A4",
    lambda r: "MVK .S1 -32769,A4",
    lambda r: "MVKH .S1 65536,A4",
    lambda r: "NOP 10",
    lambda r: "ADD .L1 16,A4,A5",
    lambda r: "BNOP .S2 B3,8",
    lambda r: "LDW .D2T1 *+B14(2),A5",
    lambda r: "LDW .D2T1 *+B14(131072),A5",
    lambda r: "MVK .S1 x+0x80000000,A4",
    lambda r: ".align 3",
    lambda r: ".align 8192",
    lambda r: ".byte 256",
    lambda r: ".word 4294967296",
    lambda r: "MVK .S1 1,A4\n|| MVK .S1 2,A5",
    lambda r: "ADD .L1X A1,B2,A3\n|| AND .S1X A1,B3,A4",
    lambda r: "LDW .D1T1 *A4,A5\n|| LDW .D2T1 *B4,A6",
    lambda r: "NOP\n" + "\n".join(["|| NOP"] * 8),
    lambda r: "twice: NOP\ntwice: NOP",
    lambda r: ".set twice,1\n.common twice,4,4",
    lambda r: ".byte 1\n MVK .S1 5,A4",
    lambda r: ".space 1\n|| MVK .S1 5,A4",
    lambda r: ".space 1048577",
    lambda r: ".sect \".bss\"\n.word 1",
    lambda r: ".sect \".far.q\"\n NOP",
]
LOOSE = ["MVK .S1 5,A4", "x:", ".word 1", ".space 4", ".align 4", "|| NOP", ".half 1"]


def mutated(rng, text):
    """A byte of the text changed, left out or put in."""
    at = rng.randrange(len(text)) if text else 0
    byte = rng.choice(" \t,.:;*+-[]()%|!\"AB0129xXnr\r{\x80")
    return rng.choice([text[:at] + byte + text[at:], text[:at] + text[at + 1:], text[:at] + byte + text[at + 1:]])


def growing(seed):
    """Sections of mixed alignments that grow in turn until their object passes the limit of a file."""
    rng = random.Random(seed)
    lines = [f'.sect "s{n}"\n.align {1 << rng.randrange(13)}\n' for n in range(300)]
    for _ in range(5000):
        lines.append(f'.sect "s{rng.randrange(300)}"\n')
        lines.append(rng.choice([f".space {rng.randrange(9000)}\n", ".byte 1\n", ".word x\n", f".align {1 << rng.randrange(13)}\n"]))
    return "".join(lines)


def large(rng, number):
    """Texts at and just past the limits."""
    cases = [
        "\n" * 65536,
        "\n" * 65536 + " ",
        "\n" * 65536 + "x",
        '.sect ".text"\nMVK .S1 1,A4\n|| MVK .S1 2,A5\n' + "\n" * 65533 + "x:",
        '.sect ".text"\nMVK .S1 1,A4\n|| MVK .S1 2,A5\n' + "\n" * 65533 + "FOO",
        "".join(f'.sect "s{n}"\n' for n in range(4000)) + "NOP\n" * 60000,
        '.sect ".text"\n' + "NOP\n" * 65535,
        '.sect ".text"\n' + "NOP\n" * 65536,
        "".join(f'.sect "s{n}"\n' for n in range(4092)),
        "".join(f'.sect "s{n}"\n' for n in range(4093)),
        "".join(f'.sect "s{n}"\n.word x\n' for n in range(2046)),
        "".join(f'.sect "s{n}"\n.word x\n' for n in range(2047)),
        "".join(f'.sect "s{n}"\n.space 1048576\n' for n in range(3)),
        "".join(f'.sect "s{n}"\n.space 1048576\n' for n in range(4)),
        '.sect ".bss"\n.space 1048576\n',
        '.sect ".bss"\n.space 1048576\n.align 4096\n.space 0\n.space 1\n',
        "".join(f".global {'n' * 59}{n:05d}\n" for n in range(16131)),
        "".join(f".global {'n' * 59}{n:05d}\n" for n in range(16133)),
        '.sect "d"\n' + "".join(".word " + ",".join(["x"] * 100) + "\n" for _ in range(873)),
        '.sect "d"\n' + "".join(".word " + ",".join(["x"] * 100) + "\n" for _ in range(874)),
        "".join(f'.sect "s{n}"\n.align 4096\n.byte 1\n' for n in range(1023)),
        "".join(f'.sect "s{n}"\n.align 4096\n.byte 1\n' for n in range(1000)),
        *(growing(seed) for seed in range(6)),
    ]
    return cases[number % len(cases)] if number < len(cases) else None


def case(number):
    """A text, and whether a fault was put into it."""
    rng = random.Random(number)
    special = large(rng, number)
    if special is not None:
        return special.encode("latin-1"), True
    text = Text(rng)
    for _ in range(rng.randrange(1, 30)):
        text.line()
    lines = text.lines
    faulty = number % 2 == 1
    if faulty:
        draw = rng.randrange(10)
        if draw < 6:
            first = next(n for n, line in enumerate(lines) if ".sect" in line) + 1
            lines.insert(rng.randrange(first, len(lines) + 1), rng.choice(FAULTS)(rng))
        elif draw < 7:
            lines.insert(0, rng.choice(LOOSE))
    body = rng.choice(["\n", "\n", "\r\n"]).join(lines) + rng.choice(["\n", ""])
    if faulty and draw >= 7:
        body = mutated(rng, body)
    return body.encode("latin-1"), faulty


def assembled(program, folder, out):
    return outcome(program, folder, ["as", "in.s", out], out)


def compare(model, program, count):
    def one(number):
        body, faulty = case(number)
        with tempfile.TemporaryDirectory() as folder:
            store(folder, "in.s", body)
            return faulty, assembled(model, folder, "wanted.o"), assembled(program, folder, "got.o")

    def told(number, wanted, got):
        print(f"text {number}: wanted {wanted[:3]}, got {got[:3]}" + ("" if wanted[3] == got[3] else ", and the files differ"))
        body, _ = case(number)
        if len(body) < 2000:
            print(body.decode("latin-1"))

    return compared(one, count, told)


def section_bytes(file, name):
    """The bytes of a section of an ELF file."""
    at, = struct.unpack_from("<I", file, 32)
    count, names = struct.unpack_from("<HH", file, 48)
    heads = [struct.unpack_from("<10I", file, at + 40 * k) for k in range(count)]
    for head in heads:
        start = heads[names][4] + head[0]
        if file[start:file.index(b"\0", start)] == name:
            return file[head[4]:head[4] + head[5]]
    return b""


def gas_line(parts):
    """An instruction as gas reads it: its MVKH takes a whole word, of which it keeps the upper half."""
    condition, name, unit, operands = parts
    if name == "MVKH":
        operands = [str(int(operands[0], 0) << 16), *operands[1:]]
    return "\t" + " ".join([condition, name, unit, ",".join(operands)]).lower() + "\n"


def against_gas(program, gas, objcopy, count):
    """The words of instructions without symbols, one after the other, compared with gas."""
    rng = random.Random(1)
    lines = []
    while len(lines) < count:
        parts = instruction(rng, symbols=False)
        if "(" not in "".join(parts[3]):
            lines.append(parts)
    ours = '.sect ".text"\n' + "".join(" ".join([c, n, u, ",".join(o)]) + "\n" for c, n, u, o in lines)
    theirs = ".text\n" + "".join(gas_line(parts) for parts in lines)
    with tempfile.TemporaryDirectory() as folder:
        for name, body in (("in.s", ours), ("gas.s", theirs)):
            with open(os.path.join(folder, name), "w") as out:
                out.write(body)
        status, _, err, file = assembled(program, folder, "got.o")
        if status != 0:
            print("c6x:", err.decode())
            return count, count
        subprocess.run([gas, "-march=c64x+", "-mlittle-endian", "-o", "gas.o", "gas.s"], cwd=folder, check=True)
        subprocess.run([objcopy, "-O", "binary", "-j", ".text", "gas.o", "gas.bin"], cwd=folder, check=True)
        wanted = open(os.path.join(folder, "gas.bin"), "rb").read()
    got = section_bytes(file, b".text")
    different = 0
    for k, parts in enumerate(lines):
        if got[4 * k:4 * k + 4] != wanted[4 * k:4 * k + 4]:
            different += 1
            if different <= 10:
                print(f"{parts}: gas {wanted[4 * k:4 * k + 4][::-1].hex()}, c6x {got[4 * k:4 * k + 4][::-1].hex()}")
    return count, different


def main():
    model, program, count, rest = arguments("asm", 5000)
    gas, objcopy = tools(rest, "as", "objcopy")
    if gas and objcopy:
        words, apart = against_gas(program, gas, objcopy, 10000)
        print(f"gas: {words} instructions, " + verdict(apart))
    else:
        apart = 0
        print("gas: no tic6x binutils are here")
    rules, different, faulty = compare(model, program, count)
    print(summed("texts", count, rules, different, faulty))
    return 1 if different or apart else 0


if __name__ == "__main__":
    sys.exit(main())
