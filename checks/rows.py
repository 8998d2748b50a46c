#!/usr/bin/env python3
"""Compares the worked rows of `c6x_probe` with what a reference model gives of the same lines.

    checks/rows.py MODEL

MODEL is the folder of a reference model with the modules `command`, `plan` and `sched`. The lines of crates/c6x_probe/stdin
that make devices, put files and give commands are followed in order, and what the model gives is compared with the lines of
`stdout` beside it. The gate compares the program with the same `stdout`, so nothing is built here. Lines that ask other
calls are passed over: `isa.py`, `elf.py` and `module.py` compare such answers.
"""
import os
import sys

from comparing import shown, verdict

if len(sys.argv) < 2:
    sys.exit("checks/rows.py: no reference model was named; nothing was compared")
sys.path.insert(0, sys.argv[1])
import command  # noqa: E402
import plan  # noqa: E402
from sched import Policy  # noqa: E402

PROBE = os.path.join(os.path.dirname(os.path.dirname(os.path.abspath(__file__))), "crates", "c6x_probe")
NAMED = ["round", "last", "drawn"]
MOST_PRINTED = 8192
MOST_PICKS = 10_000
STAGE = "b"  # tables of at most 1,024 slots, files of one byte order, plans of version 1


class InOrder(Policy):
    """Each process to its end before the next."""

    def begin(self, processes, quantum, seed):
        self.quantum = quantum

    def choose(self, ready):
        return ready[0], self.quantum


def policy(kind, picks=None):
    return InOrder("other") if picks == ["order"] else Policy(kind, picks)


command.Policy = policy


def words_of(text):
    return b"".join(int(word, 16).to_bytes(4, "little") for word in text.split())


def printed(text):
    return text if len(text) <= MOST_PRINTED else f"..{shown(text)}\n".encode()


class Trial:
    """Devices in memory, the content of the next file, and the policies that are handed in."""

    def __init__(self, words="64"):
        length, *failing = words.split(" ")
        numbers = dict(word.split("=") for word in failing)
        self.files, self.content, self.policies, self.asked, self.stored = {}, b"", list(NAMED), 0, 0
        self.calls = [int(number) for number in numbers.get("call", "").split(",") if number]
        self.puts = [int(number) for number in numbers.get("put", "").split(",") if number]
        self.board = command.Board(0x80000000, int(length), 0xAA)

    def add(self, verb, rest):
        """A line of the content: whether it is one."""
        first, _, behind = rest.partition(" ")
        if verb == "swap":
            old, new = map(words_of, rest.split(" : "))
            self.content = self.content.replace(old, new, 1)
        elif verb == "set":
            data, at = bytes.fromhex(behind), int(first)
            self.content = self.content[:at] + data + self.content[at + len(data):]
        elif verb == "number":
            text = behind.replace("&", "\n")
            self.content += "".join(text.replace("%", f"{number:04d}") for number in range(int(first))).encode()
        else:
            made = {
                "|": lambda: rest.encode() + b"\n", "+": rest.encode, "hex": lambda: bytes.fromhex(rest),
                "words": lambda: words_of(rest), "times": lambda: (behind + "\n").encode() * int(first),
                "many": lambda: bytes.fromhex(behind) * int(first), "": bytes, "#": bytes,
            }.get(verb)
            if made is None:
                return False
            self.content += made()
        return True

    def prepare(self, verb, rest):
        """A line of devices, files or policies: whether it is one."""
        if verb == "devices":
            self.__init__(rest)
        elif verb == "board":
            self.board = command.Board(0x80000000, int(rest), 0xAA)
        elif verb == "policies":
            self.policies = rest.split(" ")
        elif verb == "asked":
            self.asked = int(rest)
        elif verb == "put":
            self.files[rest.encode()], self.content, self.stored = self.content, b"", self.stored + 1
        elif verb == "take":
            self.content = self.files.get(rest.encode(), b"")
        else:
            return self.add(verb, rest)
        return True

    def perform(self, words):
        """What the model gives of a command. Calls and puts that fail are those of the first one."""
        kinds = [word for word in dict.fromkeys(self.policies) if word in NAMED]
        picks = None
        for word in self.policies:
            if word == "order":
                picks = [word]
            elif word not in NAMED:
                picks = [tuple(map(int, pick.split(":"))) for pick in word.split(",")]
                picks += picks[-1:] * MOST_PICKS
        done = command.command(
            words, self.files, shelf_failing=[number - self.stored for number in self.calls], out_failing=self.puts,
            other_picks=picks, kinds=kinds, board=self.board, stage=STAGE)
        self.calls, self.puts = [], []
        return done

    def picks(self, done):
        """What the policies answer behind a command; of two of a kind the first was asked by it."""
        ready, used, lines = {0: [], 1: [0], 4: [0, 3, 4, 9]}[self.asked], set(), b""
        for kind in self.policies if ready else []:
            asked = Policy(kind) if kind in used else done.policies[kind]
            used.add(kind)
            lines += b"%d for %d\n" % asked.choose(ready)
        return lines

    def command(self, line, words):
        done = self.perform(words)
        front = f"> {line}\n".encode() + printed(done.out) + printed(done.err)
        return front + f"= {done.status}\n".encode() + self.picks(done)

    def cuts(self, rest):
        name, words = rest.split(" ", 1)
        whole, before, lines = self.files[name.encode()], b"", b""
        for length in range(len(whole)):
            self.files[name.encode()] = whole[:length]
            said = self.perform(words.encode().split(b" ")).err
            lines += b"" if said == before else b"%d: " % length + said
            before = said
        return lines

    def word(self, place):
        at = int(place, 16) - self.board.base
        if not 0 <= at <= self.board.len - 4:
            return "none"
        return f"{int.from_bytes(self.board.data[at:at + 4], 'little'):08x}"

    def dumped(self, data):
        lines = [data[at:at + 32] for at in range(0, len(data), 32)]
        return "".join(line.hex(" ", -4) + "\n" for line in lines).encode()

    def answer(self, verb, rest):
        """What a line prints, or None where it is not one of a trial."""
        if verb == "c6x":
            return self.command(rest, rest.encode().split(b" "))
        if verb == "c6x-hex":
            return self.command(rest, [bytes.fromhex(word) for word in rest.split(" ")])
        if verb == "cuts":
            return self.cuts(rest)
        if verb == "at":
            return f"at {' '.join(map(self.word, rest.split(' ')))}\n".encode()
        if verb == "sum":
            found = [(name, self.files.get(name.encode())) for name in rest.split(" ")]
            return "".join(f"{name}{' none' if data is None else shown(data)}\n" for name, data in found).encode()
        if verb == "dump":
            return self.dumped(self.files.get(rest.encode(), b""))
        return sources(int(rest)) if verb == "sources" else None


def sources(number):
    """What a number generates."""
    made = plan.plan_of(number)
    lines = b"".join(made.sources)
    for link in made.links:
        lines += b"%s %d %d" % (b"library" if link.library else b"executable", link.index, link.table)
        named = [(b"entry", [link.entry]), (b"soname", [link.soname]), (b"needed", link.needed), (b"object", link.objects)]
        lines += b"".join(b" %s %s" % (word, name) for word, names in named for name in names if name) + b"\n"
    lines += b"quantum %d\n" % made.plan.quantum
    lines += b"".join(b"module as %s of %s\n" % (module.name, module.file) for module in made.plan.modules)
    for process in made.plan.processes:
        lines += b"process as %s of %d limit %d" % (process.name, process.module, process.limit)
        lines += b" stack %d arg %d\n" % (process.stack, process.arg)
    return lines


def main():
    with open(os.path.join(PROBE, "stdin")) as file:
        asked = file.read().split("\n")[:-1]
    with open(os.path.join(PROBE, "stdout"), "rb") as file:
        wanted = file.read()
    trial, at, commands = Trial(), 0, 0
    for number, line in enumerate(asked, 1):
        verb, _, rest = line.partition(" ")
        if trial.prepare(verb, rest):
            continue
        given = trial.answer(verb, rest)
        if given is None:
            at = wanted.index(b"\n", at) + 1
            continue
        commands += verb.startswith("c6x")
        if not wanted.startswith(given, at):
            print(f"line {number}, {line}: the model gives {given[:400]!r}, and there stands {wanted[at:at + 400]!r}")
            print(f"{commands} commands; " + verdict(1))
            sys.exit(1)
        at += len(given)
    print(f"{commands} commands; " + verdict(0 if at == len(wanted) else 1))
    sys.exit(at != len(wanted))


main()
