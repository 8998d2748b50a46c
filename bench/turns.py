#!/usr/bin/env python3
"""Cycles per second of `c6x run` where processes take turns.

    bench/turns.py PROGRAM

PROGRAM is the built `c6x`. As many cycles in all are done by 1, 4 and 16 processes of one executable, under `round` with
quantum 1, 100 and 65,535. The cost of a cycle is that of a run of many cycles less that of a run of one cycle a process;
the cost of a turn is what a cycle costs more at quantum 1 than at the greatest.
"""
import importlib.util
import os
import sys
import tempfile

from measuring import program_of, write

CYCLES = 4_000_000
PROCESSES = (1, 4, 16)
QUANTA = (1, 100, 65_535)


def beside(name):
    """A script of this folder, also where `checks` has one of that name."""
    spec = importlib.util.spec_from_file_location(f"bench_{name}", os.path.join(os.path.dirname(os.path.abspath(__file__)), f"{name}.py"))
    script = importlib.util.module_from_spec(spec)
    spec.loader.exec_module(script)
    return script


cycles = beside("run")


def plan(processes, quantum, limit):
    lines = ["c6x-plan 1", f"quantum {quantum}", "module app app.out"]
    lines += [f"process {'p' if k == 0 else f'p{k}'} app limit {limit} stack 64 arg {cycles.BOARD}" for k in range(processes)]
    return "\n".join(lines + [""])


def nanoseconds(program, folder, processes, quantum):
    """Nanoseconds a cycle."""
    seconds = {}
    limits = (1, CYCLES // processes)
    for limit in limits:
        name = f"{processes}-{quantum}-{limit}.plan"
        write(folder, name, plan(processes, quantum, limit).encode())
        command = [program, "run", name]
        line = cycles.answer(command, folder)
        if b"limit cycles %d" % limit not in line:
            sys.exit(f"bench/turns.py: not that answer: {line}")
        seconds[limit] = cycles.spent(command, folder)
    done = (limits[1] - limits[0]) * processes
    return (seconds[limits[1]] - seconds[limits[0]]) / done * 1e9


def main():
    program = program_of("turns")
    with tempfile.TemporaryDirectory() as folder:
        write(folder, "app.out", cycles.module(cycles.moves()))
        cost = {}
        for processes in PROCESSES:
            for quantum in QUANTA:
                each = cost[processes, quantum] = nanoseconds(program, folder, processes, quantum)
                print(f"{processes} processes, quantum {quantum}: {each:.0f} ns a cycle, {1e3 / each:.1f} million cycles a second", flush=True)
    for processes in PROCESSES:
        plain = cost[processes, QUANTA[-1]]
        print(f"{processes} processes: a turn costs {(cost[processes, 1] - plain) / plain:.1f} cycles")
    more = cost[PROCESSES[-1], 100] / cost[PROCESSES[0], 100]
    print(f"quantum 100: a cycle of {PROCESSES[-1]} processes costs {more:.2f} times one of one")
    return 0


if __name__ == "__main__":
    sys.exit(main())
