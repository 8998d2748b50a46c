#!/usr/bin/env python3
"""Compares `dis` and `show` of the built `c6x` with a reference model, over objects, modules, mutated files and GNU's.

    checks/show.py MODEL PROGRAM [COUNT [AS LD]]

MODEL is the folder of a reference model with the modules `asm`, `command`, `elf`, `forge` and `isa`; PROGRAM is the built
`c6x`. Of COUNT files a part are objects and modules with random and near-valid words and random tables, and the others are
such files changed in one to four bytes, cut or extended. Status, output and error output of both commands are compared.
Then one object of 200,000 words is listed, the lines that spell an instruction are assembled by `as` of the same program,
and its words are compared with those that were listed. Where a tic6x `as` and `ld` are given or on the path, their files
are compared too. The cases are the same at each run.
"""
import os
import random
import struct
import subprocess
import sys
import tempfile
from concurrent.futures import ThreadPoolExecutor

from comparing import command as runner, counts, modules_of, outcome, store, tools, verdict

if len(sys.argv) < 3:
    sys.exit("checks/show.py: give the folder of a reference model, and the path of the built c6x")
sys.path.insert(0, sys.argv[1])
import asm  # noqa: E402
import command  # noqa: E402
import elf  # noqa: E402
import forge  # noqa: E402
import isa  # noqa: E402

COMMANDS = ("dis", "show")
LISTED = 200_000
LINES = 65_000
SOURCES = [
    b'        .sect ".text"\n        .global start\nstart:  NOP 4\n||      MVK .S1 5,A4\n        CALLP .S2 twice,B3\n'
    b'  [!A1] BNOP .S2 B3,5\n',
    b'        .sect ".text"\n        .global twice\ntwice:  LDW .D2T1 *+B14(count-8),A5\n        NOP 4\n        BNOP .S2 B3,5\n'
    b'        .sect ".neardata"\ncount:  .word 10, twice-4\n        .sect ".bss"\nroom:   .space 12\n',
    b'        .sect ".const"\nt:      .half 1, 2, 3\n        .hidden h\nh:      .byte 1\n        .common c,8,8\n'
    b'        .sect ".data"\n        .word c+4, t-2, u\n        .weak u\n',
]
PLANS = [
    b"c6x-link 1\noutput executable\ntable 4\nentry start\nneeded libq.so\nobject a.o\n",
    b"c6x-link 1\noutput library\nindex 3\ntable 4\nsoname libq.so\nobject b.o\n",
]


def valid_word(rng):
    """A word that spells an instruction, found by trying."""
    while True:
        word = rng.getrandbits(32)
        if rng.randrange(2):
            word &= 0x0FFFFFFF
        if isa.decode(word):
            return word


class Words:
    """Words drawn from a pool of valid ones, from those changed in a bit, and at random."""

    def __init__(self, rng, pool):
        self.rng = rng
        self.pool = [valid_word(rng) for _ in range(pool)]

    def draw(self):
        rng, way = self.rng, self.rng.randrange(8)
        if way == 0:
            return rng.getrandbits(32)
        word = rng.choice(self.pool)
        if way < 3:
            word ^= 1 << rng.randrange(32)
        if way < 6:
            word ^= rng.randrange(2)
        return word

    def code(self, count):
        return b"".join(struct.pack("<I", self.draw()) for _ in range(count))


def table_object(rng, words):
    """An object with random sections: code, strings, symbols and relocation entries."""
    strings = b"\0" + b"".join(b"%c%s\0" % (97 + k, rng.choice([b"", b"x y", b"\xff\x01", b"name"])) for k in range(rng.randrange(1, 6)))
    names = [n for n in range(len(strings)) if n == 0 or strings[n - 1] == 0 or rng.randrange(4) == 0]
    sections = [(0, 0, 0, 0, b"", 0, 0, 0)]
    for _ in range(rng.randrange(4)):
        code = words.code(rng.randrange(20)) + bytes(rng.randrange(4))
        sections.append((1, rng.choice([4, 6, 6, 2, 0x14, 3]), rng.choice([0, 0, 0xFFFFFFF8, 0x100, 3]), 0, code, 0, 0, 0))
    at = len(sections)
    sections.append((3, 0, 0, 0, strings, 0, 0, 0))
    count = rng.randrange(6)
    symbols = b"".join(struct.pack("<IIIBBH", rng.choice(names), rng.getrandbits(32), rng.getrandbits(8), rng.randrange(256), rng.randrange(256), rng.choice([0, 1, at, 0xFFF1, 0xFF00])) for _ in range(count))
    sections.append((rng.choice([2, 11]), 0, 0, 16, symbols, at, 0, 0))
    relas = b"".join(struct.pack("<III", rng.getrandbits(32), rng.randrange(max(count, 1)) << 8 | rng.randrange(256), rng.getrandbits(32)) for _ in range(rng.randrange(5) if count else 0))
    sections.append((4, 0, 0, 12, relas, at + 1, 0, 0))
    if rng.randrange(2):
        sections.append((rng.choice([8, 1, 5]), rng.randrange(8), rng.getrandbits(32), 0, b"", 0, 0, rng.randrange(100)))
    head = 52
    body, headers = b"", b""
    for kind, flags, addr, entsize, data, link, info, size in sections:
        offset = head + len(body)
        body += data
        size = size if kind == 8 else len(data)
        headers += struct.pack("<10I", rng.choice(names) if kind else 0, kind, flags, addr, offset if data else 0, size, link, info, 1, entsize)
    kind = rng.choice([1, 1, 1, 2, 3])
    named = at if rng.randrange(4) else 0
    start = b"\x7fELF\x01\x01\x01" + bytes(9) + struct.pack("<HHIIIIIHHHHHH", kind, 140, 1, rng.getrandbits(32), 0, head + len(body), 0, 52, 0, 0, 40, len(sections), named)
    return start + body + headers


def segment_file(rng, words):
    """A file of segments alone, some of them code, with dynamic entries."""
    parts = []
    for _ in range(rng.randrange(1, 5)):
        code = words.code(rng.randrange(12)) + bytes(rng.randrange(4))
        parts.append((rng.choice([1, 1, 1, 3, 0x70000000]), rng.choice([5, 5, 7, 1, 6, 4]), rng.choice([0x10000, 0xFFFFFFF0, 0x80000000]), code))
    for _ in range(rng.randrange(3)):
        entries = [(rng.choice([1, 5, 6, 0x70000000, rng.getrandbits(32)]), rng.getrandbits(32)) for _ in range(rng.randrange(5))]
        if rng.randrange(2):
            entries.insert(rng.randrange(len(entries) + 1), (0, rng.getrandbits(32)))
        parts.append((2, 4, 0x12000, b"".join(struct.pack("<II", *e) for e in entries) + bytes(rng.randrange(8))))
    rng.shuffle(parts)
    at, body, headers = 52 + 32 * len(parts), b"", b""
    for kind, flags, vaddr, data in parts:
        headers += struct.pack("<8I", kind, at + len(body), vaddr, vaddr, len(data), len(data) + rng.choice([0, 0, 9]), flags, 4)
        body += data
    start = b"\x7fELF\x01\x01\x01" + bytes(9) + struct.pack("<HHIIIIIHHHHHH", rng.choice([2, 3, 2, 1]), 140, 1, 0x10000, 52, 0, 0, 52, 32, len(parts), 0, 0, 0)
    return start + headers + body


def seeds():
    """Files of the model: objects, modules and forged ones."""
    files = [forge.M1, forge.M(*range(40)), forge.forged([1, 2, 3], symbols=[(b"a", 4, 16, 0, 1)],
             rela=[(forge.DATA + 4, 1, 1, -4)], needed=[b"x", b"yy"], more=bytes(16), zeros=32)]
    objects = [elf.write_file(asm.assemble(text)) for text in SOURCES]
    return files + modules_of("checks/show.py", command.command, objects, PLANS) + objects


def mutated(rng, data):
    """The bytes with one to four changes, cut, or extended."""
    data, way = bytearray(data), rng.randrange(12)
    if way == 0:
        return bytes(data[:rng.randrange(len(data) + 1)])
    if way == 1:
        return bytes(data + rng.randbytes(rng.randrange(1, 40)))
    for _ in range(rng.randrange(1, 5)):
        data[rng.randrange(len(data))] = rng.choice((0, 1, 2, 3, 4, 5, 8, 11, 0x7F, 0x80, 0xFF, rng.randrange(256)))
    return bytes(data)


def cases(count):
    """COUNT files, the same at each run."""
    rng = random.Random(19)
    words, whole, made = Words(rng, 3000), seeds(), []
    for number in range(count):
        if number < len(whole):
            made.append(whole[number])
        elif number % 3:
            made.append(rng.choice((table_object, segment_file))(rng, words))
        else:
            made.append(mutated(rng, rng.choice(whole if rng.randrange(2) else made)))
    return made


def wanted(verb, data):
    """What the model answers, of its stage before big-endian files: status, output and error output."""
    result = command.command([verb.encode(), b"f"], {b"f": data}, stage="b")
    return result.status, bytes(result.out), bytes(result.err)


def differs(program, data, what):
    """Whether the program answers otherwise than the model, of both commands; and what the model answered."""
    with tempfile.TemporaryDirectory() as folder:
        store(folder, "f", data)
        apart, met = 0, []
        for verb in COMMANDS:
            want, got = wanted(verb, data), outcome(program, folder, [verb, "f"])[:3]
            met.append(want[2].split()[2].decode() if want[0] == 4 else f"status {want[0]}")
            if want != got:
                apart += 1
                print(f"{what}: {verb} differs: {want[0]} {want[1][:300]!r} {want[2]!r} / {got[0]} {got[1][:300]!r} {got[2]!r}")
        return apart, met


def compare(program, files):
    """Compares all files, and counts the answers."""
    apart, answers = 0, {}
    with ThreadPoolExecutor(max_workers=2) as pool:
        results = pool.map(lambda case: differs(program, case[1], f"case {case[0]}"), enumerate(files))
        for different, met in results:
            apart += different
            for rule in met:
                answers[rule] = answers.get(rule, 0) + 1
    return apart, answers


def object_of(code):
    """An object with this code in .text."""
    names = b"\0.text\0.names\0"
    sections = [(0, 0, 0, 0, 0, 0, 0, 0, 0, 0), (1, 1, 6, 0, 52, len(code), 0, 0, 4, 0), (7, 3, 0, 0, 52 + len(code), len(names), 0, 0, 1, 0)]
    start = b"\x7fELF\x01\x01\x01" + bytes(9) + struct.pack("<HHIIIIIHHHHHH", 1, 140, 1, 0, 0, 52 + len(code) + len(names), 0, 52, 0, 0, 40, 3, 2)
    return start + code + names + b"".join(struct.pack("<10I", *s) for s in sections)


def assembled(program, folder, lines):
    """The words that the program assembles of these lines."""
    store(folder, "a.s", b'.sect ".text"\n' + b"\n".join(lines) + b"\n")
    status, out, err, made = outcome(program, folder, ["as", "a.s", "a.o"], "a.o")
    if status != 0:
        sys.exit(f"checks/show.py: as of what dis prints: {err!r}")
    section = next(s for s in elf.read_file(made).sections if s.flags & 4)
    return [w for w, in struct.iter_unpack("<I", section.bytes)]


def again(program, count):
    """Lists words and assembles what is listed, each instruction in a packet of its own; how many lines give another word
    or are not the model's."""
    rng = random.Random(7)
    words = Words(rng, 20_000)
    code = words.code(count)
    apart, spelled = 0, []
    with tempfile.TemporaryDirectory() as folder:
        data = object_of(code)
        store(folder, "f", data)
        got = outcome(program, folder, ["dis", "f"])
        if got[0] != 0 or got[1] != wanted("dis", data)[1]:
            print("the list of all words differs")
            apart += 1
        for line, (word,) in zip(got[1].splitlines(), struct.iter_unpack("<I", code)):
            text = line[20:]
            if not text.startswith(b".word"):
                spelled.append((word & ~1, text.removeprefix(b"|| ")))
        for first in range(0, len(spelled), LINES):
            part = spelled[first:first + LINES]
            for (word, text), new in zip(part, assembled(program, folder, [text for _, text in part])):
                if word != new:
                    apart += 1
                    print(f"{text!r} is {new:08x} and not {word:08x}")
    return apart, len(spelled)


def of_gnu(program, gas, gnu):
    """Objects and modules of GNU as and ld."""
    apart, count = 0, 0
    text = (".text\n.global start\nstart:\n\tmvk .s1 -5, a4\n||\tadd .l2x b2, a1, b3\n\t[!a1] b .s2 far\n"
            "\tldw .d2t2 *+b14($GOT(here)), b5\n\tbnop .s2 b3, 5\n\t.section .neardata,\"aw\"\nhere:\t.word here, far-8\n")
    with tempfile.TemporaryDirectory() as folder:
        def run(*words):
            subprocess.run(words, cwd=folder, check=True, capture_output=True)

        store(folder, "a.s", text.encode())
        store(folder, "b.s", b".text\n.global far\nfar:\n\tbnop .s2 b3, 5\n")
        for name in "ab":
            run(gas, "-march=c64x+", "-mlittle-endian", "-mdsbt", "-mpic", "-o", name + ".o", name + ".s")
        run(gnu, "-shared", "-soname", "libq.so", "--dsbt-index", "3", "--dsbt-size", "8", "-o", "q.so", "b.o")
        run(gnu, "-e", "start", "--dsbt-size", "8", "-o", "a.out", "a.o", "q.so")
        for name in ("a.o", "b.o", "q.so", "a.out"):
            with open(os.path.join(folder, name), "rb") as file:
                apart += differs(program, file.read(), f"GNU's {name}")[0]
            count += 1
    return apart, count


def main():
    program = runner(sys.argv[2])
    count = int(sys.argv[3]) if len(sys.argv) > 3 else 5000
    gas, gnu = tools(sys.argv[4:], "as", "ld")
    apart = 0
    if gas and gnu:
        different, files = of_gnu(program, gas, gnu)
        apart += different
        print(f"{files} files of GNU as and ld; {verdict(different)}")
    else:
        print("no tic6x binutils are here")
    different, lines = again(program, LISTED)
    apart += different
    print(f"{LISTED} words listed, {lines} lines assembled; {verdict(different)}")
    different, answers = compare(program, cases(count))
    apart += different
    print(f"{count} files, answers: {counts(answers)}; {verdict(different)}")
    return 1 if apart else 0


if __name__ == "__main__":
    sys.exit(main())
