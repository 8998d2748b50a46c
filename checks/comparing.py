"""What the scripts share that compare built programs with a reference model."""
import os
import shutil
import subprocess
import sys
from concurrent.futures import ThreadPoolExecutor

BATCH = 2_000


def command(path):
    """The words that run a program or a Python script."""
    return [sys.executable, os.path.abspath(path)] if path.endswith(".py") else [os.path.abspath(path)]


def tool(name):
    """A tool of the tic6x binutils on the path, if it is there."""
    for target in ("tic6x-elf", "tic6x-uclinux"):
        found = shutil.which(f"{target}-{name}")
        if found:
            return found
    return None


def tools(given, *names):
    """The tools whose paths are given, or else those on the path, and `None` for those that are not there."""
    return given[:len(names)] if len(given) >= len(names) else [tool(name) for name in names]


def arguments(script, count):
    """The model, the program, how many cases, COUNT if that is not given, and the words that follow."""
    if len(sys.argv) < 3:
        print(f"checks/{script}.py: give the path of a reference model, and that of the built c6x")
        sys.exit(2)
    return command(sys.argv[1]), command(sys.argv[2]), int(sys.argv[3]) if len(sys.argv) > 3 else count, sys.argv[4:]


def store(folder, name, data):
    with open(os.path.join(folder, name), "wb") as out:
        out.write(data)


def load(folder, name):
    path = os.path.join(folder, name)
    if not os.path.exists(path):
        return None
    with open(path, "rb") as file:
        return file.read()


def outcome(program, folder, words, made=None):
    """Status, output and error output of a run, and the bytes of the file that it makes."""
    done = subprocess.run(program + words, cwd=folder, capture_output=True, timeout=600)
    return done.returncode, done.stdout, done.stderr, made and load(folder, made)


def rule_of(outcome):
    """What a run met: a rule by its code, or else its status."""
    words = outcome[2].split()
    return words[2].decode() if len(words) > 2 else f"status {outcome[0]}"


def compared(one, count, told):
    """Compares the outcomes of cases, four at a time. `one` gives of a number whether the case has a fault, what is
    wanted and what was got; `told` prints a difference, or gives the words under which it is only counted."""
    rules, different, faulty_cases = {}, 0, 0
    with ThreadPoolExecutor(max_workers=4) as pool:
        for number, (faulty, wanted, got) in enumerate(pool.map(one, range(count))):
            faulty_cases += faulty
            met = rule_of(wanted)
            if wanted != got:
                passed_over = told(number, wanted, got)
                different += passed_over is None
                met = passed_over or met
            rules[met] = rules.get(met, 0) + 1
    return rules, different, faulty_cases


def store_lines(folder, name, lines, rng):
    """Stores the lines of a plan, which end one way or the other, the last of them maybe not."""
    end = rng.choice(["\n", "\n", "\r\n"])
    store(folder, name, (end.join(lines) + rng.choice([end, ""])).encode())


def tallied(one, numbers):
    """Compares the runs of cases, four at a time: how the processes end, and how many cases differ. `one` gives of a number
    the model's report, and what is to be printed where the program's is another."""
    ends, different = {}, 0
    with ThreadPoolExecutor(max_workers=4) as pool:
        for report, difference in pool.map(one, numbers):
            for end in ends_of(report) or ["none"]:
                ends[end] = ends.get(end, 0) + 1
            if difference:
                different += 1
                print(difference)
    return ends, different


def ends_of(report):
    """How the processes of a report ended: the word of each line, and for a fault its number."""
    ends = []
    for line in report.split(b"\n"):
        words = line.split()
        if len(words) > 2 and words[0] == b"process" and words[2] in (b"exit", b"fault", b"limit"):
            ends.append((words[3] if words[2] == b"fault" else words[2]).decode())
    return ends


def counts(met):
    """How often each was met."""
    return ", ".join(f"{what} {times}" for what, times in sorted(met.items()))


def summed(what, count, rules, different, faulty):
    """The last line of a script."""
    return f"{count} {what}, {faulty} with a fault: {counts(rules)}; " + verdict(different)


def verdict(different):
    return f"{different} differences" if different else "no difference found"


def shown(data):
    """The length of bytes and their FNV-1a sum, as the probes print them."""
    total = 0x811C9DC5
    for byte in data:
        total = ((total ^ byte) * 0x01000193) & 0xFFFFFFFF
    return " %d %08x" % (len(data), total)


def modules_of(script, command, files, plans):
    """The modules that the model links of object files, `a.o` and the next letters, by each of these link plans."""
    shelf = {b"%c.o" % (97 + number): file for number, file in enumerate(files)}
    for number, plan in enumerate(plans):
        shelf[b"p%d" % number] = plan
        result = command([b"ld", b"p%d" % number, b"m%d" % number], shelf)
        if result.status != 0:
            sys.exit("%s: the model does not link: %r" % (script, result.err))
    return [bytes(shelf[b"m%d" % number]) for number in range(len(plans))]


def answers(script, program, word, cases, answer, kind_of):
    """Gives the probe all cases, each behind this word, and compares each of its lines with the model's answer; how many of each kind there were."""
    kinds = {}
    for first in range(0, len(cases), BATCH):
        batch = cases[first:first + BATCH]
        text = "".join(f"{word} {case.hex()}\n" for case in batch)
        run = subprocess.run([program], input=text.encode(), stdout=subprocess.PIPE, check=True)
        lines = run.stdout.decode().splitlines()
        if len(lines) != len(batch):
            sys.exit("%s: %d answers for %d cases" % (script, len(lines), len(batch)))
        for case, line in zip(batch, lines):
            want = answer(case)
            kinds[kind_of(want)] = kinds.get(kind_of(want), 0) + 1
            if line != want:
                sys.exit("%s: differs at %s\n  model   %s\n  program %s" % (script, case.hex(), want, line))
    return kinds
