#!/usr/bin/env python3
"""Compares `c6x_elf` with a reference model over mutated files.

    checks/elf.py MODEL [PROGRAM] [CASES]

MODEL is the folder of a reference model with the modules `elf`, `forge`, `asm` and `command`; PROGRAM is
the built program `c6x_probe`, by default crates/c6x_probe/out/c6x_probe. Objects and
linked modules of the model are changed in one to four bytes, cut or extended, and each answer, the place
of a broken rule, the values that were read and the written form of a tidy file are compared.
"""
import os
import random
import sys

if len(sys.argv) < 2:
    sys.exit("checks/elf.py: no reference model was named; nothing was compared")
MODEL = sys.argv[1]
HERE = os.path.dirname(os.path.abspath(__file__))
PROGRAM = sys.argv[2] if len(sys.argv) > 2 else os.path.join(
    HERE, "..", "crates", "c6x_probe", "out", "c6x_probe")
CASES = int(sys.argv[3]) if len(sys.argv) > 3 else 20_000

from comparing import answers, modules_of, shown  # noqa: E402

sys.path.insert(0, MODEL)
import asm  # noqa: E402
import command  # noqa: E402
import elf  # noqa: E402
import forge  # noqa: E402

SOURCES = [
    b'        .sect ".text"\n        .global start\nstart:  NOP 4\n        CALLP .S2 twice,B3\n        BNOP .S2 B3,5\n',
    b'        .sect ".text"\n        .global twice\ntwice:  LDW .D2T1 *+B14(count),A5\n        NOP 4\n        BNOP .S2 B3,5\n'
    b'        .sect ".neardata"\ncount:  .word 10, twice\n        .sect ".bss"\nroom:   .space 12\n',
    b'        .sect ".const"\nt:      .half 1, 2, 3\n        .hidden h\nh:      .byte 1\n        .common c,8,8\n'
    b'        .sect ".data"\n        .word c+4, t-2, u\n        .weak u\n',
]
PLANS = [
    b"c6x-link 1\noutput executable\ntable 4\nentry start\nneeded libq.so\nobject a.o\n",
    b"c6x-link 1\noutput library\nindex 3\ntable 4\nsoname libq.so\nobject b.o\n",
]


def answer(data):
    """The line that the program is to print for these bytes."""
    try:
        file = elf.read_file(data, allow_big=False)
    except elf.ElfRefusal as refusal:
        return "E%d %d" % (refusal.rule, refusal.place)
    line = "ok %d %d %d %d" % (file.kind, file.entry, file.flags, file.names)
    for s in file.segments:
        line += " segment %d %d %d %d %d" % (s.kind, s.vaddr, s.memsz, s.flags, s.align) + shown(s.bytes)
    for s in file.sections:
        line += " section %d %d %d %d %d %d %d %d %d" % (
            s.name, s.kind, s.flags, s.addr, s.size, s.link, s.info, s.align, s.entsize) + shown(s.bytes)
    loaded = all(s.kind != elf.PT_LOAD or len(s.bytes) <= s.memsz for s in file.segments)
    if loaded and elf.written_size(file) <= elf.MOST_FILE:
        line += " written" + shown(elf.write_file(file))
    return line


def seeds():
    """Whole files to begin with."""
    files = [forge.M1, forge.M(*range(40)), forge.forged([1, 2, 3], symbols=[(b"a", 4, 16, 0, 1)],
             rela=[(forge.DATA + 4, 1, 1, -4)], needed=[b"x", b"yy"], more=bytes(16), zeros=32)]
    files += [elf.write_file(asm.assemble(text)) for text in SOURCES]
    files += linked()
    return files


def linked():
    """Modules that the model links."""
    files = [elf.write_file(asm.assemble(text)) for text in SOURCES]
    return modules_of("checks/elf.py", command.command, files, PLANS)


def mutated(rng, data):
    """The bytes with one to four changes, cut, or extended."""
    data = bytearray(data)
    way = rng.randrange(10)
    if way == 0:
        return bytes(data[:rng.randrange(len(data) + 1)])
    if way == 1:
        return bytes(data + bytes(rng.randrange(256) for _ in range(rng.randrange(1, 40))))
    for _ in range(rng.randrange(1, 5)):
        where = rng.randrange(3)
        if where == 0:
            at = rng.randrange(min(52, len(data)))
        elif where == 1:
            at = rng.randrange(len(data))
        else:
            at = heads(rng, data)
        value = rng.choice((0, 1, 2, 3, 4, 8, 9, 11, 12, 16, 40, 0x7F, 0x80, 0xFF, rng.randrange(256)))
        data[at] = value
    return bytes(data)


def heads(rng, data):
    """A place in the program or section headers, or in the tables at the end."""
    start, count, size = rng.choice(((28, 44, 32), (32, 48, 40)))
    at = int.from_bytes(data[start:start + 4], "little")
    number = int.from_bytes(data[count:count + 2], "little")
    if number == 0 or at + size * number > len(data):
        return rng.randrange(len(data))
    return at + rng.randrange(size * number)


def kind_of(want):
    """The rule of an answer, or whether its file was written again."""
    return want.split()[0] + (" written" if " written" in want else "")


def main():
    rng = random.Random(140)
    whole = seeds()
    cases = list(whole) + [whole[0][:n] for n in range(len(whole[0]))]
    while len(cases) < CASES:
        cases.append(mutated(rng, rng.choice(whole)))
    kinds = answers("checks/elf.py", PROGRAM, "elf", cases, answer, kind_of)
    print("answers: " + ", ".join("%s %d" % pair for pair in sorted(kinds.items())))
    print("%d cases of %d files, no difference" % (len(cases), len(whole)))


main()
