#!/usr/bin/env python3
"""Compares `read_module` with a reference model over mutated modules.

    checks/module.py MODEL [PROGRAM] [CASES] [TOOLS]

MODEL is the folder of a reference model with the modules `module`, `elf`, `forge`, `asm` and `command`;
PROGRAM is the built program `c6x_probe`, by default crates/c6x_probe/out/c6x_probe.
TOOLS is a folder with GNU binutils for tic6x-uclinux (`bin/tic6x-uclinux-as` and `-ld`), if there is one:
then libraries and executables of GNU ld, in its ordinary and its `-s` form, are changed too. Modules of the
model, forged or linked, are changed in their program headers, dynamic entries, tables or bytes; each answer,
the number of a broken rule and every part of a module are compared.
"""
import os
import random
import struct
import subprocess
import sys
import tempfile

if len(sys.argv) < 2:
    sys.exit("checks/module.py: no reference model was named; nothing was compared")
MODEL = sys.argv[1]
HERE = os.path.dirname(os.path.abspath(__file__))
PROGRAM = sys.argv[2] if len(sys.argv) > 2 and sys.argv[2] else os.path.join(
    HERE, "..", "crates", "c6x_probe", "out", "c6x_probe")
CASES = int(sys.argv[3]) if len(sys.argv) > 3 else 20_000
TOOLS = sys.argv[4] if len(sys.argv) > 4 else ""

from comparing import answers, modules_of, shown  # noqa: E402

sys.path.insert(0, MODEL)
import asm  # noqa: E402
import command  # noqa: E402
import elf  # noqa: E402
import forge  # noqa: E402
import module  # noqa: E402

D = forge.DATA
SOURCES = [
    b'        .sect ".text"\n        .global start\nstart:  NOP 4\n        CALLP .S2 twice,B3\n        BNOP .S2 B3,5\n',
    b'        .sect ".text"\n        .global twice\ntwice:  LDW .D2T1 *+B14(count),A5\n        NOP 4\n        BNOP .S2 B3,5\n'
    b'        .sect ".neardata"\ncount:  .word 10, twice\n        .weak far\n        .word far+4\n        .sect ".bss"\nroom:   .space 12\n',
]
PLANS = [
    b"c6x-link 1\noutput executable\ntable 4\nentry start\nneeded libq.so\nobject a.o\n",
    b"c6x-link 1\noutput library\nindex 3\ntable 4\nsoname libq.so\nneeded libr.so\nobject b.o\n",
]
GNU = [
    (".text\n.global f\nf:\n nop 5\n callp .s2 (g),b3\n ldw .d2t2 *+B14($GOT(h)),B4\n nop 4\n b .s2 b3\n nop 5\n.data\n.word f\n.word g+4\n.weak w\n.word w\n",
     ["-shared", "--dsbt-index", "3"]),
    (".text\n.global _start\n_start:\n callp .s2 (f),b3\n b .s2 b3\n nop 5\n.data\n.word _start\n", ["--dsbt-index", "0", "--unresolved-symbols=ignore-in-shared-libs"]),
]
TAGS = (0, 1, 2, 3, 4, 5, 6, 7, 8, 9, 10, 11, 12, 13, 14, 17, 20, 22, 23, 25, 26, 32, 0x70000000, 0x70000001, 0x70000003)


def answer(data):
    """The line that the program is to print for these bytes."""
    try:
        file = elf.read_file(data, allow_big=False)
    except elf.ElfRefusal as refusal:
        return "E %d" % refusal.place
    try:
        m = module.read_module(b"m", file)
    except module.ModuleRefusal as refusal:
        return "L%d %d" % (refusal.rule, refusal.number)
    line = "ok %d %d %d %d %d" % (m.kind, m.entry, m.index, m.slots, m.table)
    for s in (m.text, m.memory):
        line += " segment %d %d %d %d" % (s.vaddr, s.memsz, s.flags, s.align) + shown(s.bytes)
    for y in m.symbols:
        line += " symbol %d %d %d %d" % (y.value, y.info, y.other, y.section) + shown(y.name)
    for f in m.fields:
        line += " %s %d %d %d" % ("slot" if f.slot_kind else "word", f.place, f.symbol, f.addend)
    for n in m.needed:
        line += " needed" + shown(n)
    return line


def forged():
    """Modules forged by hand, two of them with JMPREL inside RELA or across its end."""
    files = [forge.module_file([1, 2]), forge.module_file([1, 2, 3], symbols=[
        (b"a", 4, 16, 0, 1), (b"bb", 0, 32, 0, 0), (b"ccc", D, 17, 3, 2)], rela=[
        (D + 4, 1, 1, -4), (D + 8, 1, 2, 7), (D + 12, 0, 0, 0)], jmprel=[(D + 16, 27, 2, 0)],
        needed=[b"x", b"yy"], more=bytes(20), zeros=32)]
    files.append(forge.module_file([1], symbols=[(b"q", 4, 16, 0, 1)], rela=[(D + 16, 1, 1, 4)],
                                   needed=[b"lib"], index=3, slots=4, more=bytes(8), kind=3))
    files.append(forge.module_file([7], jmprel=[(D + 4, 27, 0, 0), (D + 8, 1, 0, 5)], more=bytes(8)))
    both = forge.module_file([1], rela=[(D + 4, 1, 0, 1), (D + 8, 27, 0, 0)], more=bytes(8))
    for by in (12, 6, 13):
        entries = tags_of(both)
        at = dict(entries)[7]
        files.append(with_tags(both, entries[:-1] + [(23, at + by), (2, 12), (20, 7)] + entries[-1:]))
    return files


def long_names():
    """Names of 4,194,304 bytes together, and of one byte more: many symbols share one long name."""
    files = []
    for more in (0, 1):
        file = forge.module_file([1], symbols=[(b"x" * 65536, 4, 16, 0, 1)] + [(b"", 4, 16, 0, 1)] * (63 + more))
        text = bytearray(file.segments[0].bytes)
        at = dict(tags_of(file))[6] - file.segments[0].vaddr
        for number in range(2, 65 + more):
            struct.pack_into("<I", text, at + 16 * number, 65536 if number == 65 else 1)
        file.segments[0].bytes = bytes(text)
        file.segments[1].vaddr = 16 * D
        files.append(with_tags(file, [(t, 16 * D if t == 0x70000000 else v) for t, v in tags_of(file)]))
    return files


def tags_of(file):
    dynamic = next(s for s in file.segments if s.kind == 2)
    return [struct.unpack_from("<II", dynamic.bytes, at) for at in range(0, len(dynamic.bytes) // 8 * 8, 8)]


def with_tags(file, tags):
    """The file with other dynamic entries; its DYNAMIC segment is then outside the text."""
    data = b"".join(struct.pack("<II", *tag) for tag in tags)
    segments = [elf.Segment(2, s.vaddr, len(data), 4, 4, data) if s.kind == 2 else s for s in file.segments]
    return elf.File(file.kind, file.entry, file.flags, file.names, segments, [], file.big)


def linked():
    """Modules that the model links."""
    files = [elf.write_file(asm.assemble(text)) for text in SOURCES]
    return [elf.read_file(module) for module in modules_of("checks/module.py", command.command, files, PLANS)]


def foreign():
    """Modules of GNU ld, where its tools are."""
    if not TOOLS:
        return []
    files = []
    with tempfile.TemporaryDirectory() as folder:
        def tool(name, *words):
            subprocess.run([os.path.join(TOOLS, "bin", "tic6x-uclinux-" + name), *words], check=True, cwd=folder, stderr=subprocess.DEVNULL)
        for number, (text, words) in enumerate(GNU):
            with open(os.path.join(folder, "s.s"), "w") as out:
                out.write(text)
            tool("as", "-march=c674x", "-mdsbt", "-mpic", "-o", "%d.o" % number, "s.s")
            inputs = ["%d.o" % number] + (["m0"] if number else [])
            for form in ([], ["-s"]):
                tool("ld", "--dsbt-size", "8", *words, *form, "-o", "m%d%s" % (number, "".join(form)), *inputs)
                with open(os.path.join(folder, "m%d%s" % (number, "".join(form))), "rb") as made:
                    data = made.read()
                files.append(elf.read_file(data))
                files[-1].sections, files[-1].names = [], 0
    return files


def mutated(rng, file):
    """The file with one to three changes."""
    segments = [elf.Segment(s.kind, s.vaddr, s.memsz, s.flags, s.align, bytearray(s.bytes)) for s in file.segments]
    changed = elf.File(file.kind, file.entry, file.flags, file.names, segments, [], file.big)
    for _ in range(rng.choice((1, 1, 1, 2, 3))):
        way = rng.randrange(12)
        if way == 0:
            change_header(rng, rng.choice(segments))
        elif way == 1:
            at = changed.entry
            changed.entry = rng.choice((0, at + 1, at + 2, at + 4, at + 400, 2**32 - 1)) % 2**32
        elif way <= 5:
            change_tag(rng, segments)
        elif way <= 9:
            change_table(rng, segments)
        elif way == 10:
            some = [s for s in segments if s.bytes]
            if some:
                held = rng.choice(some).bytes
                held[rng.randrange(len(held))] = rng.choice((0, 1, 2, 3, 4, 7, 8, 16, 26, 27, 255, rng.randrange(256)))
        else:
            change_segments(rng, segments)
    for s in segments:
        s.bytes = bytes(s.bytes)
    return changed


def change_header(rng, s):
    part = rng.choice(("kind", "vaddr", "memsz", "flags", "align"))
    value = getattr(s, part)
    setattr(s, part, rng.choice((0, 1, 2, 3, 4, 5, 6, 7, value + 1, max(0, value - 1), value + 4, value + 16,
                                 value + 32, 2**32 - 1, 16777216, 16777217, 65536, 131072, 4096)) % 2**32)


def dynamic_of(segments):
    some = [s for s in segments if s.kind == 2 and len(s.bytes) >= 8]
    return some[0] if some else None


def change_tag(rng, segments):
    s = dynamic_of(segments)
    if s is None:
        return
    number = rng.randrange(len(s.bytes) // 8)
    tag, value = struct.unpack_from("<II", s.bytes, 8 * number)
    way = rng.randrange(5)
    if way == 0:
        struct.pack_into("<I", s.bytes, 8 * number, rng.choice(TAGS))
    elif way == 1:
        other = rng.randrange(len(s.bytes) // 8)
        struct.pack_into("<II", s.bytes, 8 * other, tag, rng.choice((value, (value + 1) % 2**32, 7, 17)))
    else:
        struct.pack_into("<I", s.bytes, 8 * number + 4, rng.choice((
            0, 1, 2, 7, 11, 12, 16, 24, 36, max(0, value - 1), value + 1, max(0, value - 4), value + 4, value + 8,
            value + 12, value + 16, 2**32 - 1, 0x10000, D)) % 2**32)


def change_table(rng, segments):
    """A change of a word in the hash table, the strings, the symbols or the entries of relocation."""
    s = dynamic_of(segments)
    if s is None:
        return
    tags = {}
    for at in range(0, len(s.bytes) // 8 * 8, 8):
        tag, value = struct.unpack_from("<II", s.bytes, at)
        tags.setdefault(tag, value)
    where = rng.choice([t for t in (4, 5, 6, 7, 7, 7, 23, 23, 23) if t in tags] or [None])
    if where is None:
        return
    at = tags[where]
    size = {4: 8, 5: tags.get(10, 1), 6: 48, 7: tags.get(8, 12), 23: tags.get(2, 12)}[where]
    place = at + rng.randrange(max(1, min(size, 400)))
    for held in segments:
        if held.kind == 1 and held.vaddr <= place < held.vaddr + len(held.bytes):
            near = place - held.vaddr
            if where in (7, 23) and rng.random() < .6 and near >= 12:
                start = (place - at) // 12 * 12 + at - held.vaddr
                if start + 12 <= len(held.bytes):
                    forge_entry(rng, segments, held.bytes, start)
                    return
            held.bytes[near] = rng.choice((0, 1, 2, 3, 4, 16, 27, 255, (held.bytes[near] + 1) % 256))
            return


def forge_entry(rng, segments, data, at):
    """Another place, kind or symbol of an entry of relocation."""
    offset, info, addend = struct.unpack_from("<IIi", data, at)
    way = rng.randrange(3)
    if way == 0:
        ranges = [s for s in segments if s.kind == 1 and s.flags & 2]
        low = ranges[0].vaddr if ranges else D
        size = ranges[0].memsz if ranges else 8
        offset = rng.choice((low, low + 1, low + 4, offset + 1, offset + 4, offset + 8, low + size - 4, low + size - 3,
                             0x10000, 2**32 - 2)) % 2**32
    elif way == 1:
        info = info // 256 * 256 + rng.choice((0, 1, 2, 24, 26, 27, 255))
    else:
        info = rng.choice((0, 1, 2, 3, 4, 5, 2**24 - 1)) * 256 + info % 256
    struct.pack_into("<IIi", data, at, offset, info, addend)


def change_segments(rng, segments):
    way = rng.randrange(4)
    if way == 0 and len(segments) > 1:
        segments.pop(rng.randrange(len(segments)))
    elif way == 1:
        segments.append(rng.choice(segments))
    elif way == 2:
        segments.append(elf.Segment(1, rng.choice((0, 0x9000)), rng.choice((0, 4)), rng.choice((4, 7, 5, 6)), 3, bytearray()))
    else:
        rng.shuffle(segments)


def kind_of(want):
    """The rule of an answer, and of L11 its part."""
    words = want.split()
    return words[0] + (" " + words[1] if words[0] == "L11" else "")


def main():
    rng = random.Random(148)
    ours, theirs = forged() + linked(), foreign()
    whole = ours + theirs
    cases = [elf.write_file(file) for file in whole + long_names()]
    while len(cases) < CASES:
        cases.append(elf.write_file(mutated(rng, rng.choice(theirs if theirs and rng.random() < .4 else ours))))
    kinds = answers("checks/module.py", PROGRAM, "module", cases, answer, kind_of)
    print("answers: " + ", ".join("%s %d" % pair for pair in sorted(kinds.items())))
    print("%d cases of %d modules, %d of them of GNU ld, no difference" % (len(cases), len(whole), len(theirs)))


main()
