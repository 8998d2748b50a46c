#!/usr/bin/env python3
"""Runs the built `c6x` on the stored runs, and compares its status, its output, its error output and what it made.

    checks/stored.py PROGRAM [NAME..]

PROGRAM is the built `c6x`. Each folder of checks/stored is a run, in the form that the gate reads for crates/c6x, which is
one of them too: `args` has one word a line, `data/` the files that lie where it runs, `status` the exit status if it is
not 0, `stdout` and `stderr` what it writes (no file: nothing). Where a file `full` names `stdout` or `stderr`, that stream
is a device that takes nothing. `made/` has the files that the run makes or changes; all others stay.
"""
import shutil
import subprocess
import sys
import tempfile
from pathlib import Path

TOP = Path(__file__).resolve().parent.parent
STORED = TOP / "checks" / "stored"


def content(path):
    return path.read_bytes() if path.exists() else b""


def files(folder):
    return {path.name: path.read_bytes() for path in folder.iterdir()} if folder.exists() else {}


def differences(program, run):
    """What the program does otherwise than the stored run says."""
    full = content(run / "full").decode().split()
    with tempfile.TemporaryDirectory() as place, open("/dev/full", "wb") as nothing:
        for name, data in files(run / "data").items():
            (Path(place) / name).write_bytes(data)
        streams = {name: nothing if name in full else subprocess.PIPE for name in ("stdout", "stderr")}
        words = content(run / "args").splitlines()
        done = subprocess.run([bytes(program), *words], cwd=place, timeout=60, **streams)
        status = int(content(run / "status") or b"0")
        if done.returncode != status:
            yield f"status {done.returncode}, not {status}"
        for name in ("stdout", "stderr"):
            if name not in full and getattr(done, name) != content(run / name):
                yield f"{name} {getattr(done, name)!r}, not {content(run / name)!r}"
        if files(Path(place)) != files(run / "data") | files(run / "made"):
            yield "other files afterwards"


def main():
    if len(sys.argv) < 2 or not shutil.which(sys.argv[1]):
        sys.exit(__doc__)
    program = Path(sys.argv[1]).resolve()
    runs = sorted(STORED.iterdir()) + [TOP / "crates" / "c6x"]
    names = sys.argv[2:] or [run.name for run in runs]
    failed = 0
    for run in (run for run in runs if run.name in names):
        found = list(differences(program, run))
        failed += bool(found)
        for line in found:
            print(f"{run.name}: {line}")
    print(f"{len(names)} stored runs, {failed} failed")
    sys.exit(failed > 0)


main()
