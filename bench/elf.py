#!/usr/bin/env python3
"""Times reading and writing of ELF files of 1, 2 and 4 MiB with 4,096 sections.

    bench/elf.py [PROGRAM]

PROGRAM is the built program `c6x_probe`, by default crates/c6x_probe/out/c6x_probe: it
reads each file, prints its values and writes it again. Times are processor time. The time without the file's own work is that of as
many hexadecimal digits that are no file. Where `readelf` is installed, the time of `readelf -S -W` over
the same file stands beside it; readelf reads the headers alone.
"""
import os
import resource
import shutil
import struct
import subprocess
import sys
import tempfile

HERE = os.path.dirname(os.path.abspath(__file__))
PROGRAM = sys.argv[1] if len(sys.argv) > 1 else os.path.join(
    HERE, "..", "crates", "c6x_probe", "out", "c6x_probe")
SECTIONS = 4_096
ROUNDS = 5


def file_of(size):
    """A relocatable file of this size: a null section, a table of names and PROGBITS sections."""
    names = b"\0" + b"".join(b"s%d\0" % n for n in range(SECTIONS - 2)) + b".shstrtab\0"
    table = 40 * SECTIONS
    each = (size - 52 - table - len(names)) // (SECTIONS - 2) // 4 * 4
    body, heads, at, name = bytearray(), [struct.pack("<10I", *[0] * 10)], 52, 1
    for n in range(SECTIONS - 2):
        heads.append(struct.pack("<10I", name, 1, 2, 0, at, each, 0, 0, 4, 0))
        body += bytes((n + k) % 251 for k in range(each))
        at += each
        name += len(b"s%d\0" % n)
    heads.append(struct.pack("<10I", name, 3, 0, 0, at, len(names), 0, 0, 1, 0))
    body += names
    body += bytes(-(52 + len(body)) % 4)
    head = b"\x7fELF\x01\x01\x01" + bytes(9) + struct.pack(
        "<HHIIIIIHHHHHH", 1, 140, 1, 0, 0, 52 + len(body), 0, 52, 0, 0, 40, SECTIONS, SECTIONS - 1)
    return bytes(head + body + b"".join(heads))


def spent():
    """The processor time of the programs that were run so far, in milliseconds."""
    used = resource.getrusage(resource.RUSAGE_CHILDREN)
    return (used.ru_utime + used.ru_stime) * 1000


def best(command, data=None):
    """The least processor time of several runs in milliseconds, and the last output."""
    least, out = None, b""
    for _ in range(ROUNDS):
        before = spent()
        out = subprocess.run(command, input=data, stdout=subprocess.PIPE, stderr=subprocess.DEVNULL, check=True).stdout
        took = spent() - before
        least = took if least is None else min(least, took)
    return least, out


def main():
    readelf = shutil.which("readelf")
    for mebibytes in (1, 2, 4):
        data = file_of(mebibytes * 1_048_576)
        whole, out = best([PROGRAM], b"elf " + data.hex().encode() + b"\n")
        if not out.startswith(b"ok ") or b" written %d " % len(data) not in out:
            sys.exit("bench/elf.py: the file was not read and written: %r" % out[:60])
        digits, _ = best([PROGRAM], b"elf " + b"00" * len(data) + b"\n")
        line = "%d MiB, %d sections: read, print and write %.1f ms, of which %.1f ms are the digits" % (
            mebibytes, SECTIONS, whole, digits)
        if readelf:
            with tempfile.NamedTemporaryFile() as file:
                file.write(data)
                file.flush()
                line += "; readelf -S %.1f ms" % best([readelf, "-S", "-W", file.name])[0]
        print(line)


main()
