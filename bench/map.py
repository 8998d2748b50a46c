#!/usr/bin/env python3
"""Time and memory of `c6x map`: one process, 16 processes that share 32 modules, one module with many fields and symbols,
and the time to fetch files of 1, 2 and 4 MiB.

    bench/map.py PROGRAM

PROGRAM is the built `c6x`. The modules are made here, byte by byte. Times are those of the processor, the least of five
runs; memory is the greatest that a run held, of which the board has 16 MiB. Of many fields the time is also shown as
a multiple of that of half as many. The large files are no ELF files, so that the time of a refusal is that of the fetch.
"""
import os
import shutil
import struct
import subprocess
import sys
import tempfile
from pathlib import Path

from measuring import program_of, write

EXAMPLE = Path(__file__).resolve().parent.parent / "examples" / "one"
TEXT, DATA = 0x00010000, 0x01000000
LOCAL, GLOBAL, ABS32 = 0, 1, 1
NEEDED, HASH, STRTAB, SYMTAB, RELA, RELASZ, RELAENT, STRSZ, SYMENT = 1, 4, 5, 6, 7, 8, 9, 10, 11
DSBT_BASE, DSBT_SIZE, DSBT_INDEX = 0x70000000, 0x70000001, 0x70000003
SYMBOLS = 30_000


def module(kind, index, slots, symbols, fields, needed):
    """A module with a table of so many slots: its symbols are names of its own words and names that it lacks, which are
    given apart, and each field is a number of one of them."""
    own, lacking = symbols
    names = [name for name in own + lacking + needed]
    strings, places = b"\0", {}
    for name in names:
        places[name] = len(strings)
        strings += name.encode() + b"\0"
    entries = [struct.pack("<IIIBBH", 0, 0, 0, 0, 0, 0)]
    entries += [struct.pack("<IIIBBH", places[name], TEXT, 0, GLOBAL << 4, 0, 1) for name in own]
    entries += [struct.pack("<IIIBBH", places[name], 0, 0, GLOBAL << 4, 0, 0) for name in lacking]
    relas = b"".join(struct.pack("<IIi", DATA + 4 * (slots + k), symbol << 8 | ABS32, k) for k, symbol in enumerate(fields))
    text = struct.pack("<II", 0x020002A8, 0x008CA362)
    tags = [(NEEDED, places[name]) for name in needed]
    for tag, data in (
        (HASH, struct.pack("<3I", 1, len(entries), 0) + bytes(4 * len(entries))),
        (STRTAB, strings),
        (SYMTAB, b"".join(entries)),
        (RELA, relas),
    ):
        tags.append((tag, TEXT + len(text)))
        text += data + bytes(-len(data) % 4)
    tags += [(STRSZ, len(strings)), (SYMENT, 16), (RELASZ, len(relas)), (RELAENT, 12)]
    tags += [(DSBT_BASE, DATA), (DSBT_SIZE, slots), (DSBT_INDEX, index), (0, 0)]
    dynamic_at, dynamic = TEXT + len(text), b"".join(struct.pack("<II", *tag) for tag in tags)
    return file(kind, text + dynamic, bytes(4 * (slots + len(fields))), dynamic_at, len(dynamic))


def file(kind, text, data, dynamic_at, dynamic_size):
    at = 160
    segments = [
        (1, at, TEXT, TEXT, len(text), len(text), 5, 32),
        (1, at + len(text), DATA, DATA, len(data), len(data), 6, 8),
        (2, at + dynamic_at - TEXT, dynamic_at, dynamic_at, dynamic_size, dynamic_size, 4, 4),
    ]
    head = b"\x7fELF\x01\x01\x01" + bytes(9) + struct.pack("<HHIIIIIHHHHHH", kind, 140, 1, TEXT, 52, 0, 0, 52, 32, 3, 0, 0, 0)
    head += b"".join(struct.pack("<8I", *segment) for segment in segments)
    return head + bytes(at - len(head)) + text + data


def run_once(program, folder, status):
    """Seconds of the processor and bytes of memory of a run of `map one.plan`."""
    with open(os.devnull, "wb") as nothing, open(os.path.join(folder, "err"), "wb+") as err:
        run = subprocess.Popen([program, "map", "one.plan"], cwd=folder, stdout=nothing, stderr=err)
        _, ended, usage = os.wait4(run.pid, 0)
        run.returncode = os.waitstatus_to_exitcode(ended)
        err.seek(0)
        if run.returncode != status:
            sys.exit(f"bench/map.py: status {run.returncode}: {err.read()!r}")
    return usage.ru_utime + usage.ru_stime, usage.ru_maxrss * 1024


def best(program, folder, status):
    """The least time and memory of five runs."""
    runs = [run_once(program, folder, status) for _ in range(5)]
    return min(seconds for seconds, _ in runs), min(most for _, most in runs)


def shared(folder):
    """Sixteen processes of one program that needs 31 libraries, all with fields on each other's names."""
    names = ["app.out"] + [f"lib{k}.so" for k in range(1, 32)]
    plan, total = ["c6x-plan 1"], 0
    for number, name in enumerate(names):
        others = [f"f{k}_0" for k in range(32) if k != number]
        symbols = [f"f{number}_{k}" for k in range(16)], others
        data = module(3 if number else 2, number, 32, symbols, list(range(1, 48)), names[1:] if number == 0 else [])
        write(folder, f"{number}.out", data)
        total += len(data)
        plan.append(f"module {name} {number}.out")
    plan += [f"process p{k} app.out limit 100 stack 64 arg {k}" for k in range(16)]
    write(folder, "one.plan", "\n".join(plan).encode() + b"\n")
    return total


def many_fields(folder, fields):
    """One module with so many fields on its symbols."""
    data = module(2, 0, 1, ([f"name{k}" for k in range(SYMBOLS)], []), [1 + k % SYMBOLS for k in range(fields)], [])
    write(folder, "app.out", data)
    write(folder, "one.plan", b"c6x-plan 1\nmodule app app.out\nprocess p app limit 100 stack 64 arg 0\n")
    return len(data)


def shown(what, seconds, most, size):
    beside = (most - (16 << 20)) / size
    print(f"{what}: {seconds * 1000:.1f} ms, {most / (1 << 20):.1f} MiB; beside the board {beside:.1f} times the files' {size} bytes")


def main():
    program = program_of("map")
    with tempfile.TemporaryDirectory() as folder:
        for name in ("one.plan", "app.out"):
            shutil.copy(EXAMPLE / name, folder)
        seconds, most = best(program, folder, 0)
        print(f"one process: {seconds * 1000:.1f} ms, {most / (1 << 20):.1f} MiB")
        size = shared(folder)
        shown("16 processes that share 32 modules", *best(program, folder, 0), size)
        before = None
        for fields in (16_384, 32_768, 65_536):
            size = many_fields(folder, fields)
            seconds, most = best(program, folder, 0)
            times = f" ({seconds / before:.2f} times that of half as many)" if before else ""
            shown(f"{fields} fields and {SYMBOLS} symbols{times}", seconds, most, size)
            before = seconds
        for size in (1, 2, 4):
            write(folder, "app.out", bytes(size << 20))
            print(f"a file of {size} MiB: {best(program, folder, 4)[0] * 1000:.1f} ms")
    return 0


if __name__ == "__main__":
    sys.exit(main())
