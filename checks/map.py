#!/usr/bin/env python3
"""Maps random plans with the built `c6x` and with a reference model, and compares status and what both print.

    checks/map.py MODEL PROGRAM [COUNT [AS LD]]

MODEL is a program, or a Python script, that takes the words of `c6x`; PROGRAM is the built `c6x`. A plan has one to eight
modules, made here byte by byte, and one to eight processes that share some of them; every second case has a fault. The
cases are the same at each run; the last line counts what the model answers. Where a tic6x `as` and `ld` are given or on
the path, a library and two programs of GNU ld are mapped too.
"""
import random
import struct
import subprocess
import sys
import tempfile

from comparing import arguments, compared, outcome, store, store_lines, summed, tools, verdict

TEXT, DATA = 0x00010000, 0x00012000
LOCAL, GLOBAL, WEAK = 0, 1, 2
DEFAULT, INTERNAL, HIDDEN, PROTECTED = 0, 1, 2, 3
UNDEF, NEAR_COMMON, ABS, COMMON = 0, 0xFF00, 0xFFF1, 0xFFF2
NONE, ABS32, JUMP_SLOT = 0, 1, 27
NEEDED, PLTRELSZ, HASH, STRTAB, SYMTAB, RELA, RELASZ, RELAENT, STRSZ, SYMENT, PLTREL, JMPREL = 1, 2, 4, 5, 6, 7, 8, 9, 10, 11, 20, 23
DSBT_BASE, DSBT_SIZE, DSBT_INDEX = 0x70000000, 0x70000001, 0x70000003
REFUSED_TAGS = [12, 13, 25, 26, 32, 17]


class Module:
    """A module as lists: its symbols, entries and needed names, and the numbers of its file."""

    def __init__(self, rng):
        self.kind, self.index, self.slots = 3, 0, 1
        self.code = 4 * rng.randrange(2, 40)
        self.room = 4 * rng.choice([0, 1, 2, 5, 12, 40])
        self.zeros = rng.choice([0, 0, 4, 20, 100])
        self.symbols = [("", 0, 0, 0, UNDEF), ("", TEXT, 3, 0, 1), ("", DATA, 3, 0, 2)]
        self.rela, self.jmprel, self.needed = [], [], []
        self.text_align, self.data_align = rng.choice([0, 1, 32, 32, 64, 256]), rng.choice([0, 1, 4, 8, 32])
        self.entry, self.text_more, self.tags, self.missing = TEXT, 0, [], []
        self.within, self.base = False, DATA
        self.words = None

    def symbol(self, name, value, binding, other, section, kind=0):
        self.symbols.append((name, value, binding << 4 | kind, other, section))
        return len(self.symbols) - 1

    def end_of_data(self):
        return DATA + 4 * self.slots + self.room + self.zeros

    def written(self, rng):
        strings, places = b"\0", {}
        for name in [s[0] for s in self.symbols] + self.needed:
            if name and name not in places:
                places[name] = len(strings)
                strings += name.encode() + b"\0"
        text = rng.randbytes(self.code) if self.words is None else b"".join(struct.pack("<I", word) for word in self.words)
        tags = [(NEEDED, places[name]) for name in self.needed]

        def table(tag, data):
            nonlocal text
            tags.append((tag, TEXT + len(text)))
            text += data + bytes(-len(data) % 4)

        count = len(self.symbols)
        table(HASH, struct.pack("<3I", 1, count, 0) + bytes(4 * count))
        table(STRTAB, strings)
        table(SYMTAB, b"".join(struct.pack("<IIIBBH", places.get(n, 0), v, 0, i, o, x) for n, v, i, o, x in self.symbols))
        tags += [(STRSZ, len(strings)), (SYMENT, 16)]
        relas = b"".join(struct.pack("<IIi", *e) for e in self.rela)
        jumps = b"".join(struct.pack("<IIi", *e) for e in self.jmprel)
        if self.within:
            jump_at = TEXT + len(text) + len(relas)
            table(RELA, relas + jumps)
            tags += [(RELASZ, len(relas + jumps)), (RELAENT, 12), (JMPREL, jump_at), (PLTRELSZ, len(jumps)), (PLTREL, 7)]
        else:
            if relas or rng.randrange(2):
                table(RELA, relas)
                tags += [(RELASZ, len(relas)), (RELAENT, 12)]
            if jumps or rng.randrange(2):
                table(JMPREL, jumps)
                tags += [(PLTRELSZ, len(jumps)), (PLTREL, 7)]
        tags += [(DSBT_BASE, self.base), (DSBT_SIZE, self.slots), (DSBT_INDEX, self.index)] + self.tags
        tags = [t for t in tags if t[0] not in self.missing] + [(0, 0)]
        dynamic_at, dynamic = TEXT + len(text), b"".join(struct.pack("<II", *t) for t in tags)
        text += dynamic
        data = rng.randbytes(4 * self.slots + self.room)
        return self.file(text, data, dynamic_at, dynamic)

    def file(self, text, data, dynamic_at, dynamic):
        at = 52 + 3 * 32
        at += -at % 64
        data_at = at + len(text)
        segments = [
            (1, at, TEXT, TEXT, len(text), len(text) + self.text_more, 5, self.text_align),
            (1, data_at, DATA, DATA, len(data), len(data) + self.zeros, 6, self.data_align),
            (2, at + dynamic_at - TEXT, dynamic_at, dynamic_at, len(dynamic), len(dynamic), 4, 4),
        ]
        head = b"\x7fELF\x01\x01\x01" + bytes(9) + struct.pack("<HHIIIIIHHHHHH", self.kind, 140, 1, self.entry, 52, 0, 0, 52, 32, 3, 0, 0, 0)
        head += b"".join(struct.pack("<8I", *s) for s in segments)
        return head + bytes(at - len(head)) + text + data


class Case:
    """Modules and a plan that break no rule but by chance."""

    def __init__(self, rng):
        self.rng = rng
        count = rng.randrange(1, 9)
        programs = rng.randrange(1, min(count, 3) + 1)
        self.modules = [Module(rng) for _ in range(count)]
        order = list(range(count))
        rng.shuffle(order)
        self.programs, self.libraries = order[:programs], order[programs:]
        self.names = [f"m{k}" for k in range(count)]
        indices = rng.sample(range(1, 12), len(self.libraries))
        for module, index in zip(self.libraries, indices):
            self.modules[module].index = index
            self.names[module] = f"lib{module}.so"
        for module in self.modules:
            module.slots = rng.choice([12, 12, 13, 20]) if self.libraries else rng.choice([1, 2, 12])
        for program in self.programs:
            self.modules[program].kind = 2
        for number in range(count):
            self.fill(number)
        self.processes = [
            [f"p{k}", self.names[rng.choice(self.programs)], rng.choice([1, 100, 10_000_000]), 8 * rng.randrange(8, 40), rng.choice([0, 7, 4294967295])]
            for k in range(rng.randrange(1, 9))
        ]
        self.quantum = rng.choice([None, 1, 7, 65535])

    def fill(self, number):
        """Names that a module defines, names that it needs, and its fields."""
        rng, module = self.rng, self.modules[number]
        later = [k for k in self.libraries if k != number]
        module.needed = [self.names[k] for k in rng.sample(later, rng.randrange(len(later) + 1))]
        if module.needed and rng.randrange(4) == 0:
            module.needed.append(rng.choice(module.needed))
        for _ in range(rng.randrange(6)):
            self.define(module)
        module.within = rng.randrange(6) == 0
        places = list(range(DATA + 4 * module.slots, module.end_of_data() - 3, 4))
        for place in rng.sample(places, min(len(places), rng.randrange(8))):
            self.field(module, place)

    def define(self, module):
        rng = self.rng
        value, section = rng.choice([
            (TEXT + 4 * rng.randrange(module.code // 4), 1), (DATA + 4 * rng.randrange(module.slots + 1), 2),
            (module.end_of_data(), 2), (0x1234, ABS), (TEXT, 2), (DATA, 1),
        ])
        other = rng.choice([DEFAULT, DEFAULT, DEFAULT, PROTECTED, HIDDEN, INTERNAL])
        module.symbol(f"f{rng.randrange(8)}", value, rng.choice([GLOBAL, GLOBAL, WEAK]), other, section, rng.randrange(3))

    def field(self, module, place):
        rng = self.rng
        draw = rng.randrange(8)
        if draw < 3:
            symbol = rng.randrange(len(module.symbols))
        elif draw < 7:
            symbol = module.symbol(f"f{rng.randrange(8)}", rng.choice([0, 0, 5]), WEAK if rng.randrange(16) else GLOBAL, DEFAULT, UNDEF)
        else:
            symbol = 0
        kind = rng.choice([ABS32, ABS32, JUMP_SLOT, NONE])
        entry = (place, symbol << 8 | kind, rng.choice([0, 0, 4, -4, 0x7FFFFFFF, -0x80000000]))
        (module.jmprel if kind == JUMP_SLOT or rng.randrange(6) == 0 else module.rela).append(entry)

    def plan(self):
        rng = self.rng
        lines = ["c6x-plan 1"]
        if self.quantum:
            lines.append(f"quantum {self.quantum}")
        lines += [f"module {name} {k}.out" for k, name in enumerate(self.names)]
        lines += [f"process {name} {module} limit {limit} stack {stack} arg {arg}" for name, module, limit, stack, arg in self.processes]
        if rng.randrange(4) == 0:
            lines.insert(rng.randrange(1, len(lines)), rng.choice(["", "# a comment", " \t"]))
        return lines


def bind_fault(rng, case):
    """A fault that shows when a process is bound or placed."""
    draw = rng.randrange(8)
    module = rng.choice(case.modules)
    place = module.end_of_data() - 4
    fields = module.end_of_data() - DATA - 4 * module.slots >= 4
    if draw == 0:
        case.modules[rng.choice(case.programs)].index = rng.randrange(1, 12)
    elif draw == 1 and case.libraries:
        case.modules[rng.choice(case.libraries)].index = rng.choice([0, rng.randrange(1, 12)])
    elif draw == 2:
        module.slots = rng.choice([1, 2, 4097, 9000])
    elif draw == 3:
        module.needed.insert(rng.randrange(len(module.needed) + 1), "lost.so")
    elif draw == 4 and fields:
        module.rela = [(place, module.symbol("nowhere", 0, GLOBAL, DEFAULT, UNDEF) << 8 | ABS32, 0)]
        module.jmprel = []
    elif draw == 5 and fields:
        value, section = rng.choice([(DATA - 4, 2), (0, 1), (module.end_of_data() + 1, 2), (8, COMMON), (8, NEAR_COMMON)])
        binding, other = rng.choice([(LOCAL, DEFAULT), (GLOBAL, HIDDEN), (GLOBAL, DEFAULT)])
        module.rela = [(place, module.symbol("odd", value, binding, other, section) << 8 | ABS32, 0)]
        module.jmprel = []
    elif draw == 6:
        module.zeros = rng.choice([16_700_000, 16_777_216, 8_000_000])
        module.room = 0
    else:
        for process in case.processes:
            process[3] = 65536
        case.modules[0].text_align = 65536
        case.modules[0].zeros = 16_000_000


def module_fault(rng, case):
    """A fault of a module's own."""
    module = rng.choice(case.modules)
    draw = rng.randrange(10)
    if draw == 9:
        module.base = rng.choice([DATA + 2, DATA - 4, module.end_of_data() - 4 * module.slots + 4, TEXT])
    elif draw == 0:
        module.missing = [rng.choice([HASH, STRTAB, SYMTAB, STRSZ, DSBT_BASE, DSBT_SIZE, DSBT_INDEX])]
    elif draw == 1:
        module.tags = [(rng.choice(REFUSED_TAGS), 0)]
    elif draw == 2:
        module.text_align = rng.choice([3, 131072])
    elif draw == 3:
        module.data_align = rng.choice([3, 131072])
    elif draw == 4:
        module.rela.append((rng.choice([TEXT, DATA, DATA + 4 * module.slots - 2, module.end_of_data() - 3, 0xFFFFFFFF]), ABS32, 0))
    elif draw == 5 and module.rela:
        place, info, addend = rng.choice(module.rela)
        module.rela.append((place + rng.choice([0, 1, -3, 3]), info, addend))
    elif draw == 6:
        module.rela.append((DATA + 4 * module.slots, rng.choice([26, 2, 4, 255]), 0))
    elif draw == 7:
        module.jmprel.append((DATA + 4 * module.slots, len(module.symbols) + 3 << 8 | JUMP_SLOT, 0))
    else:
        module.kind, module.index, module.entry = 2, 0, rng.choice([TEXT + 2, TEXT - 4, DATA, 0])


PLAN_FAULTS = [
    lambda r, ls: [r.choice(["c6x-plan 3", "c6x-link 1", ""])] + ls[1:],
    lambda r, ls: [l for l in ls if not l.startswith("process")],
    lambda r, ls: ls + [r.choice(["module m0 0.out", "module new", "process p0 m0 limit 1 stack 64 arg 0", "quantum 1\nquantum 2", "quantum 0", "quantum 65536"])],
    lambda r, ls: ls + ["process q " + r.choice(["none limit 1 stack 64 arg 0", "m0 limit 0 stack 64 arg 0", "m0 limit 10000001 stack 64 arg 0", "m0 limit 1 stack 60 arg 0", "m0 limit 1 stack 68 arg 0", "m0 limit 1 stack 65544 arg 0", "m0 limit 1 stack 64 arg 4294967296", "m0 stack 64 limit 1 arg 0", "m0 limit 1 stack 64"])],
    lambda r, ls: ls + [f"module x{k} 0.out" for k in range(33)],
    lambda r, ls: ls + [f"process x{k} {ls[-1].split()[2] if ls[-1].startswith('process') else 'm0'} limit 1 stack 64 arg 0" for k in range(17)],
    lambda r, ls: ls[:1] + ls[:0:-1],
    lambda r, ls: ls + ["module gone none.out"],
]


def broken_file(rng, data):
    """A module's bytes with some changed."""
    data = bytearray(data)
    for _ in range(rng.randrange(1, 4)):
        at = rng.choice([rng.randrange(148), rng.randrange(len(data))])
        data[at] = rng.choice([0, 1, 2, 3, 4, 8, 16, 0x7F, 0x80, 0xFF])
    return bytes(data) if rng.randrange(4) else bytes(data[:rng.randrange(len(data))])


def files_of(number, folder):
    """Writes a case's files into the folder; tells whether it has a fault."""
    rng = random.Random(number)
    case = Case(rng)
    faulty = number % 2 == 1
    fault = rng.randrange(6) if faulty else None
    if fault in (0, 1, 2):
        bind_fault(rng, case)
    elif fault == 3:
        module_fault(rng, case)
    files = [module.written(rng) for module in case.modules]
    lines = case.plan()
    if fault == 4:
        lines = rng.choice(PLAN_FAULTS)(rng, lines)
    elif fault == 5:
        at = rng.randrange(len(files))
        files[at] = broken_file(rng, files[at])
    for at, file in enumerate(files):
        store(folder, f"{at}.out", file)
    store_lines(folder, "run.plan", lines, rng)
    return faulty


def mapped(program, folder):
    return outcome(program, folder, ["map", "run.plan"])


def difference(wanted, got):
    """The first line in which two answers differ."""
    for one, other in zip(wanted[1].splitlines(), got[1].splitlines()):
        if one != other:
            return f"wanted {one!r}, got {other!r}"
    return f"wanted {wanted[0]} {wanted[2]!r}, got {got[0]} {got[2]!r}"


def compare(model, program, count):
    def one(number):
        with tempfile.TemporaryDirectory() as folder:
            faulty = files_of(number, folder)
            return faulty, mapped(model, folder), mapped(program, folder)

    def told(number, wanted, got):
        print(f"case {number}: {difference(wanted, got)}")

    return compared(one, count, told)


LIBRARY = """\t.text
\t.globl twice
twice:
\tstw .d2t2 b14, *b15--[2]
\tldw .d2t2 *+b14($DSBT_index(__c6xabi_DSBT_BASE)), b14
\tnop 4
\tldw .d2t1 *+b14($GOT(count)), a5
\tbnop .s2 b3, 5
\t.section .neardata,"aw"
\t.globl count
count:
\t.word 10, twice, count+4
"""
PROGRAM = """\t.text
\t.globl start
start:
\tcallp .s2 twice, b3
\tldw .d2t2 *+b14($GOT(count)), b5
\tbnop .s2 b3, 5
\t.section .neardata,"aw"
\t.weak lost
here{0}:
\t.word here{0}, lost, twice, {0}
"""
GNU_PLAN = """c6x-plan 1
module a a.out
module libq.so libq.so
module b b.out
process one a limit 100 stack 64 arg 1
process two b limit 100 stack 64 arg 2
process three a limit 100 stack 128 arg 3
"""


def against_gnu(model, program, gas, gnu):
    """Maps a library and two programs of GNU ld, in its ordinary form and without a symbol table."""
    different = 0
    with tempfile.TemporaryDirectory() as folder:
        def made(source, name, text, words):
            store(folder, source + ".s", text.encode())
            subprocess.run([gas, "-march=c64x+", "-mlittle-endian", "-mdsbt", "-mpic", "-o", source + ".o", source + ".s"], cwd=folder, check=True, capture_output=True)
            subprocess.run([gnu, *words, "--dsbt-size", "8", "-o", name, source + ".o"], cwd=folder, check=True, capture_output=True)

        for more in ([], ["-s"]):
            made("q", "libq.so", LIBRARY, ["-shared", "-soname", "libq.so", "--dsbt-index", "3", *more])
            for name in "ab":
                made(name, f"{name}.out", PROGRAM.format(ord(name)), ["-e", "start", "libq.so", *more])
            store(folder, "run.plan", GNU_PLAN.encode())
            wanted, got = mapped(model, folder), mapped(program, folder)
            if wanted != got or got[0] != 0:
                different += 1
                print(f"GNU ld's modules: {difference(wanted, got)}")
    return different


def main():
    model, program, count, rest = arguments("map", 5000)
    gas, gnu = tools(rest, "as", "ld")
    apart = 0
    if gas and gnu:
        apart = against_gnu(model, program, gas, gnu)
        print("GNU ld: 2 plans of a library and two programs; " + verdict(apart))
    else:
        print("GNU ld: no tic6x binutils are here")
    rules, different, faulty = compare(model, program, count)
    print(summed("cases", count, rules, different, faulty))
    return 1 if different or apart else 0


if __name__ == "__main__":
    sys.exit(main())
