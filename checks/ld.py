#!/usr/bin/env python3
"""Links random sets of objects with the built `c6x` and with a reference model, and compares status, line and stored bytes.

    checks/ld.py MODEL PROGRAM [COUNT [AS LD READELF]]

MODEL is a program, or a Python script, that takes the words of `c6x`; PROGRAM is the built `c6x`. A case has one to six
objects, made here byte by byte, assembled by PROGRAM from the texts of checks/asm.py, or assembled by gas, and a link
plan; every second one has a fault. The cases are the same at each run. Where a tic6x `as`, `ld` and `readelf` are given or
on the path, 500 programs are also linked with GNU ld, and each relocated field of both files is compared with the value
that the addresses in that file ask for; and 200 libraries are read by readelf, which must not complain, and must list the
same tags, symbols and entries.
"""
import os
import random
import re
import struct
import subprocess
import sys
import tempfile

import asm
from comparing import arguments, compared, counts, load, outcome, store, store_lines, summed, tools, verdict

WRITE, ALLOC, EXEC = 1, 2, 4
PROGBITS, SYMTAB, STRTAB, RELA, NOBITS, REL = 1, 2, 3, 4, 8, 9
LOCAL, GLOBAL, WEAK = 0, 1, 2
DEFAULT, INTERNAL, HIDDEN, PROTECTED = 0, 1, 2, 3
UNDEF, NEAR_COMMON, ABS, COMMON = 0, 0xFF00, 0xFFF1, 0xFFF2
TABLE = "__c6xabi_DSBT_BASE"

# Sections by where their bytes go.
TEXT = [(".text", PROGBITS, ALLOC | EXEC), (".text.f", PROGBITS, ALLOC | EXEC), (".const", PROGBITS, ALLOC), ("quiet", PROGBITS, ALLOC), ("code", PROGBITS, ALLOC | EXEC | WRITE)]
DATA = [
    (".neardata", PROGBITS, ALLOC | WRITE), (".rodata", PROGBITS, ALLOC), (".rodata.x", PROGBITS, ALLOC | WRITE),
    (".bss", NOBITS, ALLOC | WRITE), (".bss.x", NOBITS, ALLOC | WRITE), (".far", NOBITS, ALLOC | WRITE),
    (".fardata", PROGBITS, ALLOC | WRITE), (".data", PROGBITS, ALLOC | WRITE), (".bssx", PROGBITS, ALLOC | WRITE),
]
DEBUG = (".debug_info", PROGBITS, 0)

# Kinds by number: the lowest bit and width of the field, what is taken away, the shift, and the bounds of its value.
KINDS = {
    1: (0, 32, "S", 0, None), 2: (0, 16, "S", 0, (-32768, 65535)), 3: (0, 8, "S", 0, (-128, 255)),
    4: (7, 21, "P", 2, (-(1 << 20), (1 << 20) - 1)), 5: (16, 12, "P", 2, (-2048, 2047)), 7: (16, 7, "P", 2, (-64, 63)),
    8: (7, 16, "S", 0, (-32768, 32767)), 9: (7, 16, "S", 0, None), 10: (7, 16, "S", 16, None),
    11: (8, 15, "B", 0, (0, 32767)), 12: (8, 15, "B", 1, (0, 32767)), 13: (8, 15, "B", 2, (0, 32767)),
    14: (7, 16, "B", 0, (-32768, 32767)), 15: (7, 16, "B", 0, None), 16: (7, 16, "B", 1, None), 17: (7, 16, "B", 2, None),
    18: (7, 16, "B", 16, None), 19: (7, 16, "B", 17, None), 20: (7, 16, "B", 18, None),
}
STATIC_BASE = [11, 12, 13, 14, 15, 16, 17, 18, 19, 20]
GOT = [21, 22, 23]
PLAIN = [0, 253, 254, 255]
NEVER = [6, 25, 26, 27, 28, 29, 30, 31, 99, 252]
SIZES = {1: 4, 2: 2, 3: 1}
SCALES = {12: 2, 16: 2, 19: 2, 13: 4, 17: 4, 20: 4}


class Strings:
    def __init__(self):
        self.bytes, self.places = b"\0", {}

    def at(self, name):
        if name == "":
            return 0
        if name not in self.places:
            self.places[name] = len(self.bytes)
            self.bytes += name.encode() + b"\0"
        return self.places[name]


class Object:
    """An object as lists: sections (name, type, flags, size, alignment), symbols and entries by section."""

    def __init__(self):
        self.sections, self.symbols, self.entries = [], [("", 0, 0, 0, 0, UNDEF)], {}
        self.rel = False
        self.foreign = False

    def add(self, section, size, align):
        self.sections.append((*section, size, align))
        return len(self.sections)

    def symbol(self, name, value=0, size=0, info=0, other=0, section=UNDEF):
        self.symbols.append((name, value, size, info, other, section))
        return len(self.symbols) - 1

    def entry(self, section, offset, kind, symbol, addend):
        self.entries.setdefault(section, []).append((offset & 0xFFFFFFFF, symbol << 8 | kind, addend))

    def written(self, rng):
        """The bytes of the file: headers, sections, symbols, strings and tables of entries."""
        strings, names, body, heads = Strings(), Strings(), b"", [(0,) * 10]

        def put(name, kind, flags, data, size, link=0, info=0, align=1, entsize=0):
            nonlocal body
            body += bytes(-len(body) % 4)
            heads.append((names.at(name), kind, flags, 0, 52 + len(body), size, link, info, align, entsize))
            body += data

        table = len(self.sections) + 1
        for name, kind, flags, size, align in self.sections:
            data = b"" if kind == NOBITS else rng.randbytes(size)
            put(name, kind, flags, data, size, align=align)
        rows = b"".join(struct.pack("<IIIBBH", strings.at(n), v, s, i, o, x) for n, v, s, i, o, x in self.symbols)
        put(".symtab", SYMTAB, 0, rows, len(rows), link=table + 1, info=1, align=4, entsize=16)
        put(".strtab", STRTAB, 0, strings.bytes, len(strings.bytes))
        for section, entries in sorted(self.entries.items()):
            rows = b"".join(struct.pack("<IIi", *entry) for entry in entries)
            link = table + 1 if self.foreign else table
            put(".rela", RELA, 0, rows, len(rows), link=link, info=section, align=4, entsize=12)
        if self.rel:
            put(".rel", REL, 0, bytes(8), 8, link=table, info=rng.randrange(len(heads)), align=4, entsize=8)
        names.at(".shstrtab")
        put(".shstrtab", STRTAB, 0, names.bytes, len(names.bytes))
        body += bytes(-len(body) % 4)
        head = b"\x7fELF\x01\x01\x01" + bytes(9)
        head += struct.pack("<HHIIIIIHHHHHH", 1, 140, 1, 0, 0, 52 + len(body), 0, 52, 0, 0, 40, len(heads), len(heads) - 1)
        return head + body + b"".join(struct.pack("<10I", *h) for h in heads)


def in_text(section):
    name, kind, flags = section[:3]
    near = any(name == p or name.startswith(p + ".") for p in (".neardata", ".rodata", ".bss"))
    return bool(flags & EXEC) or not (flags & WRITE or near)


class Case:
    """Objects and a plan that break no rule but by chance: names, and where their definitions lie, are drawn first."""

    def __init__(self, rng, count):
        self.rng = rng
        self.objects = [Object() for _ in range(count)]
        self.library = rng.randrange(3) == 0
        self.sections = [self.with_sections(ob) for ob in self.objects]
        self.names = {}
        for k in range(rng.randrange(1, 9)):
            self.define(f"n{k}")
        self.start = self.entry()
        for ob, sections in zip(self.objects, self.sections):
            self.refer(ob, sections)

    def with_sections(self, ob):
        rng, numbers = self.rng, []
        for section in [rng.choice(TEXT) for _ in range(rng.randrange(3))] + [rng.choice(DATA) for _ in range(rng.randrange(4))]:
            size = rng.choice([0, 4, 8, 12, 32, 64, 100, 400])
            numbers.append(ob.add(section, size, rng.choice([0, 1, 1, 2, 4, 4, 8, 32, 64, 4096])))
        if rng.randrange(6) == 0:
            ob.add(DEBUG, 8, 1)
        return numbers

    def define(self, name):
        """A name with its definition, a common or none, and perhaps further weak ones and mentions."""
        rng = self.rng
        kind = rng.choice(["strong", "strong", "strong", "weak", "common", "absolute", "import", "weak import", "table"])
        shown = rng.choice([DEFAULT, DEFAULT, DEFAULT, HIDDEN, PROTECTED, INTERNAL])
        if kind == "table":
            name = TABLE
        if kind in ("import", "weak import"):
            shown = rng.choice([DEFAULT, PROTECTED])
        self.names[name] = kind
        first = rng.randrange(len(self.objects))
        for number in sorted({first, *(rng.randrange(len(self.objects)) for _ in range(rng.randrange(3)))}):
            ob, other = self.objects[number], shown if rng.randrange(3) else DEFAULT
            own = number == first or (kind in ("weak", "common") and rng.randrange(2))
            self.mention(ob, number, name, kind, other if number != first else shown, own)

    def mention(self, ob, number, name, kind, other, own):
        rng = self.rng
        other |= rng.choice([0, 0, 0x40])
        kind_bits = rng.randrange(3)
        if kind in ("import", "table") or not own:
            binding = WEAK if kind == "weak import" or rng.randrange(4) == 0 else GLOBAL
            ob.symbol(name, rng.choice([0, 0, 8]), 0, binding << 4 | kind_bits, other, UNDEF)
        elif kind == "weak import":
            ob.symbol(name, 0, 0, WEAK << 4, other, UNDEF)
        elif kind == "common":
            place = rng.choice([COMMON, NEAR_COMMON])
            ob.symbol(name, 1 << rng.randrange(6), rng.choice([0, 4, 4, 20, 100]), GLOBAL << 4 | 1, other, place)
        else:
            binding = WEAK if kind == "weak" else GLOBAL
            section, value = ABS, rng.choice([0, 4, 0x1234, 0xFFFFFFFC])
            if kind != "absolute" and self.sections[number]:
                section = rng.choice(self.sections[number])
                value = 4 * rng.randrange(ob.sections[section - 1][3] // 4 + 1)
            ob.symbol(name, value, rng.randrange(9), binding << 4 | kind_bits, other, section)

    def entry(self):
        """The name of an entry in text, if some object has text."""
        for number, (ob, sections) in enumerate(zip(self.objects, self.sections)):
            for section in sections:
                if in_text(ob.sections[section - 1]):
                    ob.symbol("start", 0, 0, GLOBAL << 4 | 2, 0, section)
                    self.names["start"] = "strong"
                    return "start"
        return None

    def refer(self, ob, sections):
        rng = self.rng
        for section in sections:
            if rng.randrange(2):
                ob.symbol("", 0, 0, LOCAL << 4 | 3, 0, section)
        if rng.randrange(3) == 0 and self.names:
            ob.symbol(rng.choice(list(self.names)), 4, 0, LOCAL << 4, 0, rng.choice([UNDEF, ABS, COMMON]))
        for section in sections:
            if ob.sections[section - 1][1] != NOBITS and ob.sections[section - 1][3] >= 4:
                for _ in range(rng.choice([0, 0, 1, 2, 5])):
                    self.relocate(ob, section)

    def lies(self, ob, number):
        """Where a symbol's definition lies: text, data, absolute or import."""
        name, _, _, info, _, section = ob.symbols[number]
        kind = self.names.get(name)
        if info >> 4 != LOCAL and kind:
            if kind == "table" or kind == "common":
                return "data"
            if kind in ("import", "weak import"):
                return "import"
            for other in self.objects:
                for n, _, _, i, _, x in other.symbols:
                    if n == name and i >> 4 != LOCAL and x != UNDEF:
                        return self.place(other, x)
            return "import"
        return self.place(ob, section)

    def place(self, ob, section):
        if section == UNDEF or section >= 0xFF00 or not ob.sections[section - 1][2] & ALLOC:
            return "absolute"
        return "text" if in_text(ob.sections[section - 1]) else "data"

    def relocate(self, ob, section):
        rng = self.rng
        symbol = rng.randrange(len(ob.symbols))
        lies, size = self.lies(ob, symbol), ob.sections[section - 1][3]
        addend = rng.choice([0, 0, 0, 4, -4, 8, 32])
        if not in_text(ob.sections[section - 1]):
            kind = rng.choice([1, 2, 3]) if lies == "absolute" else 1
            if kind != 1 and ob.symbols[symbol][1] > 255:
                kind = 1
            width = SIZES[kind]
            ob.entry(section, rng.randrange(size - width + 1), kind, symbol, addend)
            return
        offset = 4 * rng.randrange(size // 4)
        if rng.randrange(12) == 0:
            ob.entry(section, rng.choice([offset, 3, size + 9]), rng.choice(PLAIN), symbol, addend)
        elif rng.randrange(8) == 0 and symbol:
            ob.entry(section, offset, rng.choice(GOT), symbol, 0)
        elif rng.randrange(12) == 0:
            ob.entry(section, offset, 24, symbol, addend)
        elif lies == "absolute":
            ob.entry(section, offset, rng.choice([1, 8, 9, 10]), symbol, addend)
        elif lies == "data":
            kind = rng.choice(STATIC_BASE)
            ob.entry(section, offset, kind, symbol, addend if addend % SCALES.get(kind, 1) == 0 else 0)
        else:
            ob.entry(section, offset, rng.choice([4, 4, 5]), symbol, 0 if lies == "import" else addend)

    def plan(self):
        rng = self.rng
        table = rng.choice([1, 2, 4, 64, 1024])
        lines = ["c6x-link 1"]
        body = []
        if self.library:
            table = max(table, 2)
            body += ["output library", f"index {rng.randrange(1, table)}"]
        elif rng.randrange(2):
            body.append("output executable")
        if table != 64 or rng.randrange(2):
            body.append(f"table {table}")
        if self.start and not (self.library and rng.randrange(2)):
            body.append(f"entry {self.start}")
        if rng.randrange(3) == 0:
            body.append("soname " + rng.choice(["libq.so", "n0"]))
        body += [f"needed lib{k}.so" for k in range(rng.choice([0, 0, 1, 2]))]
        rng.shuffle(body)
        lines += body + [f"object {k}.o" for k in range(len(self.objects))]
        return lines


def object_fault(rng, case):
    """One fault in an object."""
    ob = rng.choice(case.objects)
    draw = rng.randrange(16)
    named = [n for n in case.names if case.names[n] == "strong"]
    places = [s for s in range(1, len(ob.sections) + 1) if ob.sections[s - 1][2] & ALLOC and ob.sections[s - 1][1] != NOBITS]
    place = rng.choice(places) if places else None
    if draw == 0 and named:
        ob.symbol(rng.choice(named), 0, 0, GLOBAL << 4, 0, ABS)
    elif draw == 1:
        ob.symbol("lost", 0, 0, rng.choice([GLOBAL, WEAK]) << 4, rng.choice([HIDDEN, INTERNAL]), UNDEF)
    elif draw == 2 and ob.sections:
        at = rng.randrange(len(ob.sections))
        ob.sections[at] = (*ob.sections[at][:4], rng.choice([3, 8192, 4097, 0x80000000]))
    elif draw == 3:
        ob.symbol("odd", rng.choice([3, 8192]), 4, GLOBAL << 4, 0, rng.choice([COMMON, NEAR_COMMON]))
    elif draw == 4:
        ob.add(rng.choice([(".bss", NOBITS, ALLOC | WRITE), (".far", NOBITS, ALLOC | WRITE), ("zeros", NOBITS, ALLOC)]), rng.choice([1_048_577, 0xFFFFFFFF]), 4)
    elif draw == 5:
        ob.rel = True
    elif draw == 6:
        ob.foreign = True
    elif draw >= 14 and any(skewed(rng, ob) for ob in case.objects):
        pass
    elif place is None:
        ob.symbol("odd", 3, 4, GLOBAL << 4, 0, COMMON)
    else:
        size, text = ob.sections[place - 1][3], in_text(ob.sections[place - 1])
        symbol = rng.randrange(len(ob.symbols))
        if draw == 7:
            ob.entry(place, 0, rng.choice(NEVER), symbol, 0)
        elif draw == 8:
            ob.entry(place, rng.choice([size, size - 1, size - 3, 0xFFFFFFFF]), rng.choice([1, 4, 9]), symbol, 0)
        elif draw == 9:
            ob.entry(place, rng.choice([1, 2, 3]), rng.choice([4, 9, 13]), symbol, 0)
        elif draw == 10:
            ob.entry(place, 0, rng.choice(GOT), symbol, rng.choice([4, -4]))
        elif draw == 11:
            ob.entry(place, 0, rng.choice([2, 3, 8, 1, 9]) if text else rng.choice([2, 3, 8]), symbol, 0x7FFFFFFF)
        else:
            ob.entry(place, 0, rng.choice(list(KINDS)), symbol, rng.choice([2, 1, 1 << 20, -(1 << 22), 0x7FFFFFF0]))


def skewed(rng, ob):
    """Makes the value of an entry no multiple of what its field counts; tells whether there was one."""
    for entries in ob.entries.values():
        for at, (offset, info, addend) in enumerate(entries):
            if info & 255 in (4, 5, *SCALES):
                entries[at] = (offset, info, addend + rng.choice([1, 2]) if addend < 1 << 20 else addend - 1)
                return True
    return False


PLAN_FAULTS = [
    lambda r, ls: [l for l in ls if not l.startswith("entry")],
    lambda r, ls: [l for l in ls if not l.startswith("entry")] + ["entry nobody"],
    lambda r, ls: [l for l in ls if not l.startswith("entry")] + [f"entry n{r.randrange(8)}"],
    lambda r, ls: [l for l in ls if not l.startswith(("index", "output"))] + ["output library", f"index {r.choice([0, 4, 64, 4294967295])}"],
    lambda r, ls: [l for l in ls if not l.startswith("index")] + [f"index {r.choice([1, 7, 4294967295])}"],
    lambda r, ls: [l for l in ls if not l.startswith("table")] + [f"table {r.choice([0, 4097, 4294967295])}"],
    lambda r, ls: ls + [r.choice(["", "# nothing", "needed lib9.so", "object 0.o", "object none.o"])],
    lambda r, ls: ls + [r.choice(["needed lib0.so", "index 1", "table 4", "soname a", "output library", "entry start"])] * 2,
    lambda r, ls: ls + [r.choice(["objects 0.o", "object", "table x", "index 4294967296", "output both", "needed " + "n" * 65, "table 00000000004"])],
    lambda r, ls: [r.choice(["c6x-link 2", "c6x-plan 1", ""])] + ls[1:],
    lambda r, ls: [l for l in ls if not l.startswith("object")],
    lambda r, ls: ls[:1] + [f"needed lib{k}.so" for k in range(33)] + ls[1:],
    lambda r, ls: ls + ["object 0.o"] * 256,
]


def broken_file(rng, data):
    """An object's bytes with a fault of its form."""
    way = rng.randrange(3)
    if way == 0:
        return data[:rng.randrange(len(data))]
    at = 16 if way == 1 else rng.randrange(52)
    return data[:at] + bytes([rng.choice([0, 2, 3, 9, 255])]) + data[at + 1:]


def texts(rng, count):
    """Texts of checks/asm.py; the first one has the entry."""
    made = []
    for number in range(count):
        text = asm.Text(rng)
        for _ in range(rng.randrange(1, 20)):
            text.line()
        head = '.sect ".text"\n.global start\nstart: NOP\n' if number == 0 else ""
        made.append(head + "\n".join(text.lines) + "\n")
    return made


def files_of(number, folder, program, gas):
    """Writes a case's files into the folder; tells whether it has a fault."""
    rng = random.Random(number)
    faulty = number % 2 == 1
    way = rng.randrange(10)
    case = Case(rng, rng.randrange(1, 7))
    fault = rng.randrange(4) if faulty else None
    if fault in (0, 1):
        object_fault(rng, case)
    lines = case.plan()
    files = [ob.written(rng) for ob in case.objects]
    if way == 0:
        files[:] = [assembled(program, folder, text) for text in texts(rng, len(files))]
        files[:] = [file for file in files if file is not None] or [Object().written(rng)]
        lines = [line for line in lines if not line.startswith("object")] + [f"object {k}.o" for k in range(len(files))]
        lines = [line for line in lines if not line.startswith("entry")] + ["entry start"]
    elif way == 1 and gas:
        files[-1] = by_gas(rng, folder, gas)
    if fault == 2:
        lines = rng.choice(PLAN_FAULTS)(rng, lines)
    elif fault == 3:
        at = rng.randrange(len(files))
        files[at] = broken_file(rng, files[at])
    for at, file in enumerate(files):
        store(folder, f"{at}.o", file)
    store_lines(folder, "plan", lines, rng)
    return faulty


def assembled(program, folder, text):
    store(folder, "in.s", text.encode("latin-1"))
    done = subprocess.run(program + ["as", "in.s", "made.o"], cwd=folder, capture_output=True, timeout=600)
    return load(folder, "made.o") if done.returncode == 0 else None


def by_gas(rng, folder, gas):
    """An object of gas: code and data that call, load and name each other and names of other objects."""
    lines = ["\t.text", "\t.globl g0", "g0:"]
    for _ in range(rng.randrange(1, 6)):
        name = rng.choice(["g0", "g1", "n0", "n1"])
        lines.append("\t" + rng.choice([
            f"callp .s2 {name}, b3", f"ldw .d2t2 *+b14(g2), b5", f"ldw .d2t2 *+b14($GOT({name})), b6",
            f"mvkl .s1 $DPR_WORD(g2), a4", f"mvkh .s1 $DPR_WORD(g2), a4", "nop 4", f"b .s2 {name}",
            "ldw .d2t2 *+b14($DSBT_index(__c6xabi_DSBT_BASE)), b14",
        ]))
    lines += ["\t.globl g1", "g1:", "\tnop", "\t.section .neardata,\"aw\"", "g2:", "\t.word g0, g2+4, n0", "\t.comm g3, 12, 4"]
    store(folder, "g.s", ("\n".join(lines) + "\n").encode())
    subprocess.run([gas, "-march=c64x+", "-mlittle-endian", "-o", "g.o", "g.s"], cwd=folder, check=True, capture_output=True)
    return load(folder, "g.o")


def linked(program, folder, out):
    return outcome(program, folder, ["ld", "plan", out], out)


def compare(model, program, gas, count):
    def one(number):
        with tempfile.TemporaryDirectory() as folder:
            faulty = files_of(number, folder, program, gas)
            return faulty, linked(model, folder, "wanted.out"), linked(program, folder, "got.out")

    def told(number, wanted, got):
        print(f"case {number}: wanted {wanted[:3]}, got {got[:3]}" + ("" if wanted[3] == got[3] else ", and the files differ"))

    return compared(one, count, told)


# A program for both linkers: every section begins with a name that others can see, so that its address can be read off.
SCRIPT = f"""SECTIONS {{
  .text 0x10000 : {{ *(.text .text.f .const) }}
  .data 0x40000 : {{ {TABLE} = .; *(.got.plt) . = {TABLE} + 256; *(.got) *(.neardata .rodata .bss) *(.far .fardata) }}
}}
"""
SHARED = [TEXT[0], TEXT[1], TEXT[2], DATA[0], DATA[1], DATA[6]]


def shared_program(rng):
    """Objects whose entries GNU ld takes too, with what each entry is to hold: (object, section, entries)."""
    objects = [Object() for _ in range(rng.randrange(1, 7))]
    starts = []
    for number, ob in enumerate(objects):
        for section in [SHARED[0]] + [rng.choice(SHARED) for _ in range(rng.randrange(1, 4))]:
            at = ob.add(section, 4 * rng.randrange(8, 40), rng.choice([4, 8, 32]))
            name = f"s{number}_{at}"
            starts.append((name, in_text(section)))
            ob.symbol(name, 0, 0, GLOBAL << 4, 0, at)
    objects[0].symbol("start", 0, 0, GLOBAL << 4 | 2, 0, 1)
    for number, ob in enumerate(objects):
        own = {symbol[0] for symbol in ob.symbols}
        for name, _ in starts:
            if name not in own and rng.randrange(2):
                ob.symbol(name, 0, 0, GLOBAL << 4, 0, UNDEF)
        ob.symbol(f"a{number}", rng.choice([0, 100, 32000]), 0, GLOBAL << 4, 0, ABS)
        for at in range(1, len(ob.sections) + 1):
            spread(rng, ob, at, dict(starts))
    return objects


def spread(rng, ob, at, starts):
    """Entries over the words of a section, at most one a word."""
    text = in_text(ob.sections[at - 1])
    for word in range(ob.sections[at - 1][3] // 4):
        if rng.randrange(3):
            continue
        symbol = rng.randrange(1, len(ob.symbols))
        name, value, _, _, _, section = ob.symbols[symbol]
        if section == ABS:
            kinds = [8, 9, 10] if text else [1, 2] + ([3] if value < 200 else [])
        elif not text:
            kinds = [1]
        elif rng.randrange(6) == 0:
            ob.entry(at, 4 * word, rng.choice([*GOT, 24]), symbol, 0)
            continue
        else:
            kinds = ([4, 5, 7] if section == at else [4, 5]) if starts.get(name, True) else STATIC_BASE
        ob.entry(at, 4 * word, rng.choice(kinds), symbol, 4 * rng.randrange(8) if section != ABS else rng.randrange(8))


def value_of(kind, s, a, p, b):
    low, width, taken, shift, bounds = KINDS[kind]
    v = (s + a - {"S": 0, "P": p & ~31, "B": b}[taken]) & 0xFFFFFFFF
    v = (v - (1 << 32) if v >> 31 else v) >> shift
    return None if bounds and not bounds[0] <= v <= bounds[1] else v & (1 << width) - 1


def segments_of(file):
    at, = struct.unpack_from("<I", file, 28)
    count, = struct.unpack_from("<H", file, 44)
    heads = [struct.unpack_from("<8I", file, at + 32 * k) for k in range(count)]
    return [(h[2], file[h[1]:h[1] + h[4]]) for h in heads if h[0] == 1]


def word_of(file, address):
    for start, data in segments_of(file):
        if start <= address and address + 4 <= start + len(data):
            return struct.unpack_from("<I", data, address - start)[0]
    return None


def dynamic_of(file):
    """The text's first address and bytes, and the dynamic entries of our file, which has each tag once."""
    start, text = segments_of(file)[0]
    dynamic = next(h for h in heads_of(file) if h[0] == 2)
    rows = struct.unpack_from(f"<{dynamic[4] // 4}I", file, dynamic[1])
    return start, text, dict(zip(rows[0::2], rows[1::2]))


def our_names(file):
    """The addresses of the dynamic symbols, and of the table."""
    start, text, tags = dynamic_of(file)
    count, = struct.unpack_from("<I", text, tags[4] - start + 4)
    found = {TABLE: tags[0x70000000]}
    for at in range(tags[6] - start, tags[6] - start + 16 * count, 16):
        name, value = struct.unpack_from("<II", text, at)
        found[text_at(text, tags[5] - start + name)] = value
    return found


def our_filled(file):
    """The words that the loader fills, as they are at the link addresses."""
    start, text, tags = dynamic_of(file)
    found = {}
    for at in range(tags.get(7, start) - start, tags.get(7, start) - start + tags.get(8, 0), 12):
        place, info, addend = struct.unpack_from("<IIi", text, at)
        value, = struct.unpack_from("<I", text, tags[6] - start + 16 * (info >> 8) + 4)
        found[place] = (value + addend) & 0xFFFFFFFF
    return found


def gnu_names(file):
    """The addresses of the symbols of GNU ld's file."""
    heads, found = sections_of(file), {}
    for h in heads:
        if h[1] == SYMTAB:
            for at in range(h[4], h[4] + h[5], 16):
                name, value = struct.unpack_from("<II", file, at)
                found[text_at(file, heads[h[6]][4] + name)] = value
    return found


def heads_of(file):
    at, = struct.unpack_from("<I", file, 28)
    count, = struct.unpack_from("<H", file, 44)
    return [struct.unpack_from("<8I", file, at + 32 * k) for k in range(count)]


def sections_of(file):
    at, = struct.unpack_from("<I", file, 32)
    count, = struct.unpack_from("<H", file, 48)
    return [struct.unpack_from("<10I", file, at + 40 * k) for k in range(count)]


def text_at(data, at):
    return data[at:data.index(b"\0", at)].decode("latin-1")


def holds(file, names, filled, kind, name, addend, place):
    """Whether an entry's field holds what the file's addresses ask for."""
    table, word = names[TABLE], filled.get(place, word_of(file, place))
    if kind in GOT:
        field = word >> (8 if kind == 21 else 7) & 0x7FFF
        at = table + 4 * field
        return field == 0 if kind == 23 else filled.get(at, word_of(file, at)) == names[name]
    if kind == 24:
        return word >> 8 & 0x7FFF == 0
    low, width = KINDS[kind][:2]
    wanted = value_of(kind, names[name], addend, place, table)
    return wanted is not None and word is not None and word >> low & (1 << width) - 1 == wanted


def wrong_fields(objects, file, names, filled, met):
    """The entries whose field does not hold the value that the file's addresses ask for."""
    wrong = []
    for number, ob in enumerate(objects):
        for at, entries in ob.entries.items():
            for offset, info, addend in entries:
                kind, name = info & 255, ob.symbols[info >> 8][0]
                met[kind] = met.get(kind, 0) + 1
                if not holds(file, names, filled, kind, name, addend, names[f"s{number}_{at}"] + offset):
                    wrong.append((number, at, offset, kind, name, addend))
    return wrong


def against_gnu(program, gnu, count):
    met, different, done = {}, 0, 0
    with tempfile.TemporaryDirectory() as folder:
        store(folder, "script", SCRIPT.encode())
        for number in range(count):
            rng = random.Random(1_000_000 + number)
            objects = shared_program(rng)
            files = [f"{k}.o" for k in range(len(objects))]
            for name, ob in zip(files, objects):
                store(folder, name, ob.written(rng))
            plan = ["c6x-link 1", "entry start", *(f"object {name}" for name in files)]
            store(folder, "plan", ("\n".join(plan) + "\n").encode())
            status, _, err, ours = linked(program, folder, "ours.out")
            other = subprocess.run([gnu, "-T", "script", "-e", "start", "-o", "gnu.out", *files], cwd=folder, capture_output=True)
            if status != 0 or other.returncode != 0:
                different += 1
                print(f"program {number}: c6x {status} {err!r}, GNU ld {other.returncode} {other.stderr[:300]!r}")
                continue
            theirs = load(folder, "gnu.out")
            done += 1
            for what, file, names, filled in (("c6x", ours, our_names(ours), our_filled(ours)), ("GNU ld", theirs, gnu_names(theirs), {})):
                wrong = wrong_fields(objects, file, names, filled, met)
                if wrong:
                    different += 1
                    print(f"program {number}: {what} differs at {wrong[:3]}")
    return met, different, done


def rows_of(file):
    """The tags, the symbols and the entries of our file: numbers and names as they stand in its bytes."""
    start, text, tags = dynamic_of(file)
    dynamic = next(h for h in heads_of(file) if h[0] == 2)
    listed = list(struct.unpack_from(f"<{dynamic[4] // 4}I", file, dynamic[1]))[0::2]
    count, = struct.unpack_from("<I", text, tags[4] - start + 4)
    symbols = []
    for at in range(tags[6] - start, tags[6] - start + 16 * count, 16):
        name, value = struct.unpack_from("<II", text, at)
        symbols.append((value, text_at(text, tags[5] - start + name)))
    entries = []
    for table, size in ((7, 8), (23, 2)):
        at = tags.get(table, start) - start
        entries += [struct.unpack_from("<II", text, at + k) for k in range(0, tags.get(size, 0), 12)]
    return listed, symbols, entries


def rows_of_readelf(text):
    """The same as readelf lists them."""
    tags, symbols, entries = [], [], []
    for line in text.splitlines():
        words = re.sub(r"\[<other>: \w+\]", "", line).split()
        if len(words) > 1 and words[0].startswith("0x") and words[1].startswith("("):
            tags.append(int(words[0], 16))
        elif len(words) >= 7 and words[0][:-1].isdigit() and words[0].endswith(":"):
            symbols.append((int(words[1], 16), words[7] if len(words) > 7 else ""))
        elif len(words) > 2 and words[2].startswith("R_C6000_"):
            entries.append((int(words[0], 16), int(words[1], 16)))
    return tags, symbols, entries


def against_readelf(program, readelf, count):
    """Reads linked libraries of the cases with readelf."""
    done, different, number = 0, 0, 0
    while done < count and number < 20 * count:
        with tempfile.TemporaryDirectory() as folder:
            files_of(number, folder, program, None)
            number += 2
            if b"output library" not in load(folder, "plan") or linked(program, folder, "made.out")[0] != 0:
                continue
            done += 1
            words = [readelf, "-W", "-d", "-s", "-r", "--use-dynamic", "made.out"]
            read = subprocess.run(words, cwd=folder, capture_output=True)
            wanted, got = rows_of(load(folder, "made.out")), rows_of_readelf(read.stdout.decode("latin-1"))
            if read.returncode != 0 or read.stderr or wanted != got:
                different += 1
                print(f"case {number - 2}: readelf {read.returncode} {read.stderr[:200]!r}" + ("" if wanted == got else f", which lists {got}, not {wanted}"))
    return done, different


def main():
    model, program, count, rest = arguments("ld", 5000)
    gas, gnu, readelf = tools(rest, "as", "ld", "readelf")
    apart = 0
    if gnu:
        met, apart, done = against_gnu(program, gnu, min(count, 500))
        print(f"GNU ld: {done} programs, fields in both files by kind: {counts(met)}; " + verdict(apart))
    else:
        print("GNU ld: no tic6x binutils are here")
    if readelf:
        read, misread = against_readelf(program, readelf, min(count, 200))
        print(f"readelf: {read} libraries; " + verdict(misread))
        apart += misread
    rules, different, faulty = compare(model, program, gas, count)
    print(summed("cases", count, rules, different, faulty))
    return 1 if different or apart else 0


if __name__ == "__main__":
    sys.exit(main())
